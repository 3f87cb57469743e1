"""Finds the definitions that the contracts of public functions reach, over all crates.

A contract of a public function is its `requires`, `ensures` and `ghost` clauses. The clauses of an exported trait, and
the ghost terms of an exported type and of its impls, are read with them. The invariant of a type is not a contract,
since a caller of the type's functions need not know it. A definition is reached if a contract cites it, or a definition
that is reached.
"""
import glob
import os
import re

START = re.compile(r"^(?:abbrev |unfoldable )?(?:pub )?(?:abbrev |unfoldable |data |record )?([^\s:({]+)")
TOKEN = re.compile(r"[^\s(){};,=]+")
BLOCK = re.compile(r"^(?:pub(?:\([\w:]+\))? )?(impl|trait|struct|enum)\b([^{;]*)", re.M)
FUNCTION = re.compile(r"^ *((?:pub(?:\([\w:]+\))? )?)(?:const )?fn (\w+)", re.M)
CLAUSE = re.compile(r"\b(requires|ensures|ghost)\b\*?(?: [\w ]+?)?\s*(?::\s*)?\{|^ *\{$|\{\}$|;$", re.M)
GHOST = re.compile(r"(?:pub )?ghost (?!use|invariant)[\w-]+(?: =|:) \{|\}\s*by \{")


def lines_of(path):
    """Yields the lines of a file of definitions, those of modules with parameters as if they stood outside these."""
    depth = 0
    with open(path, encoding="utf-8") as file:
        for line in file.read().split("\n"):
            if line.strip():
                depth = min(depth, (len(line) - len(line.lstrip(" "))) // 2)
            line = line.removeprefix("  " * depth)
            if line.startswith("module "):
                depth += 1
                continue
            yield line


class Definitions:
    """The imports of a file of definitions, the text and the constructors of each definition, and the definitions of
    which a comment says that no public contract cites them."""

    def __init__(self, path):
        self.uses, self.found, self.constructors, self.private = {}, {}, {}, set()
        name, comment, section, head = None, "", False, None
        for line in lines_of(path):
            if line.startswith(("use ", "pub use ")):
                self.uses.update(imported(line.removeprefix("pub "), "use"))
                head = comment if head is None else head
                comment = ""
            elif line.startswith("--"):
                section = "o public contract" in line if line.startswith("-- ----") else section
                comment += " " + line.strip("- ")
            elif not line.strip():
                head, comment = (comment if head is None else head), ""
            elif line.startswith("pub mod "):
                name = None
            else:
                start = START.match(line) if not line.startswith(" ") else None
                if start and (line.startswith(("abbrev ", "unfoldable ")) or re.match(r"pub (data|record) ", line) or " : " in line.split(" = ")[0]):
                    name = start.group(1)
                    self.found[name] = []
                    if section or "o public contract" in comment or "o public contract" in (head or ""):
                        self.private.add(name)
                if name:
                    self.found[name].append(line)
                    constructor = re.match(r" +(\S+) :", line)
                    if constructor and self.found[name][0].startswith("pub data"):
                        self.constructors[constructor.group(1)] = name


def imported(text, word):
    """Returns the names that `use` lines import, each with its module and its name there, which is None for a module
    itself."""
    uses = {}
    for module, items in re.findall(word + r" ([\w.+-]+)\.\{([^}]*)\}", text):
        for item in items.split(","):
            old, _, new = item.strip().partition(" as ")
            uses[(new or old).strip()] = (module, old.strip())
    for module, alias in re.findall(word + r" ([\w.+-]+?)(?: as ([\w-]+))?;?$", text, re.M):
        uses[alias or module.split(".")[-1]] = (module, None)
    return uses


def block_at(text, at):
    """Returns the text between the brace at a place and its closing brace, and the place after that."""
    depth = 0
    for i in range(at, len(text)):
        depth += {"{": 1, "}": -1}.get(text[i], 0)
        if depth == 0:
            return text[at + 1 : i], i + 1
    return "", len(text)


class Crate:
    """The exported names of a crate: the main function of a program, or the names in the root file of a library."""

    def __init__(self, top, name):
        self.texts = {path: re.sub(r"//.*", "", open(path, encoding="utf-8").read()) for path in glob.glob(f"{top}/crates/{name}/src/**/*.rt", recursive=True)}
        root = self.texts.get(f"{top}/crates/{name}/src/lib.rt")
        self.is_program = root is None
        self.exported = set()
        for several, one in re.findall(r"pub use [\w:]+::(?:\{([^}]*)\}|(\w+));", root or ""):
            self.exported |= {it.strip().split(" as ")[0] for it in (several or one).split(",")}
        self.declared = {it for text in self.texts.values() for it in re.findall(r"(?:struct|enum|trait|type) (\w+)", text)}

    def is_public_type(self, head):
        words = re.findall(r"\w+", re.sub(r"<[^<>]*(?:<[^<>]*>)?[^<>]*>", "", head).split(" for ")[-1])
        return self.is_program or bool(words) and (words[0] in self.exported or words[0] not in self.declared)

    def clauses(self):
        """Yields each text of a public contract, with the names that its file imports."""
        for text in self.texts.values():
            uses = imported(text, "ghost use")
            blocks = [(it.start(), block_at(text, text.find("{", it.end()))[1], it.group(1), it.group(2)) for it in BLOCK.finditer(text) if text.find("{", it.end()) > 0]
            for it in FUNCTION.finditer(text):
                around = next(((kind, head) for begin, end, kind, head in blocks if begin < it.start() < end), None)
                if self.is_public(it.group(2), it.group(1) == "pub ", around):
                    yield from ((clause, uses) for clause in clauses_after(text, it.end()))
            for begin, end, _, head in blocks:
                if self.is_public_type(head):
                    yield from ((block_at(text, ghost.end() - 1)[0], uses) for ghost in GHOST.finditer(text, begin, end))

    def is_public(self, name, is_pub, around):
        if around is None:
            return name == "main" if self.is_program else is_pub and name in self.exported
        kind, head = around
        return self.is_public_type(head) and (is_pub or kind == "trait" or " for " in head)


def clauses_after(text, at):
    while True:
        clause = CLAUSE.search(text, at)
        if clause is None or clause.group(1) is None:
            return
        block, at = block_at(text, text.find("{", clause.start()))
        yield block


class Repository:
    """All definitions of a repository, by crate and module."""

    def __init__(self, top):
        with open(f"{top}/crates.txt", encoding="utf-8") as file:
            self.crates = [line.split(":")[0].split()[0] for line in file if ":" in line and not line.startswith("#")]
        self.files = {}
        for path in sorted(glob.glob(f"{top}/crates/*/specs/**/*.antt", recursive=True)):
            crate, module = re.search(r"crates/(\w+)/specs/(.*)\.antt$", path.replace(os.sep, "/")).groups()
            self.files[crate, module.replace("/", ".")] = Definitions(path)
        self.top = top

    def cited(self, text, uses, key=None):
        """Yields the definitions that a text names."""
        for token in set(TOKEN.findall(text)):
            for name in {token, token.split(".")[0]}:
                if key is not None:
                    yield key, name
                if name in uses:
                    module, old = uses[name]
                    hit = re.match(r"Rattle\.(\w+)\.specs\.([\w.]+)$", module)
                    if hit:
                        yield hit.groups(), old or token.partition(".")[2].split(".")[0]

    def known(self, key, name):
        file = self.files.get(key)
        if file and (name in file.found or name in file.constructors):
            return key, file.constructors.get(name, name)
        return None

    def reached(self):
        """Returns the definitions that contracts of public functions reach."""
        return self.reached_from(it for crate in self.crates for clause, uses in Crate(self.top, crate).clauses() for it in self.cited(clause, uses))

    def reached_from(self, seeds):
        """Returns the definitions that these cite, directly or through others, and these themselves."""
        todo, seen = list(seeds), set()
        while todo:
            it = self.known(*todo.pop())
            if it and it not in seen:
                seen.add(it)
                file = self.files[it[0]]
                todo += self.cited("\n".join(file.found[it[1]]), file.uses, it[0])
        return seen

    def count(self):
        return sum(len(file.found) for file in self.files.values())

    def misplaced(self):
        """Yields a line for each definition that no public contract reaches and whose comment doesn't say it, and for
        each that is reached although its comment denies it."""
        seen = self.reached()
        for (crate, module), file in self.files.items():
            for name in file.found:
                is_reached = ((crate, module), name) in seen
                if is_reached and name in file.private:
                    yield f"{crate}/{module}: a public contract reaches {name}, and its comment says that none cites it"
                elif not is_reached and name not in file.private:
                    yield f"{crate}/{module}: no public contract reaches {name}, and no comment says it"
