#!/usr/bin/env python3
"""Writes lists of the sources into out/lists, with the date of their making: contracts.md, lemmas.md, definitions.md and
edits.md.

contracts.md has, for each crate, each public function with the names of its clauses; lemmas.md each file of lemmas with
its first comment and the names that it exports; definitions.md each file of definitions with its first comment; edits.md
each edit of must-fail, a bug that the prover must refuse.
"""
import argparse
import datetime
import pathlib
import re

from count_definitions import crates_of, heading, tables

TOP = pathlib.Path(__file__).resolve().parent.parent
LISTS = TOP / "out/lists"
FUNCTION = re.compile(r"^( *)pub (?:const )?fn (\w+)")
METHOD = re.compile(r"^( *)fn (\w+)")
CLAUSE = re.compile(r"^ +(requires|ensures)(?: (\w+))? \{")
BLOCK = re.compile(r"^(?:pub )?(impl|trait)\b(.*)")


def holder(line):
    """The type or the trait that an `impl` or a `trait` is of, or an empty text for an impl of a trait."""
    kind, rest = BLOCK.match(line).groups()
    if kind == "impl" and " for " in rest:
        return ""
    if kind == "impl" and rest.startswith("<"):
        depth = 0
        for at, sign in enumerate(rest):
            # The `>` of an arrow closes nothing.
            depth += (sign == "<") - (sign == ">" and rest[at - 1] != "-")
            if depth == 0:
                rest = rest[at + 1:]
                break
    name = re.search(r"\w+", rest)
    return f"{name.group(0)}::" if name else ""


def contracts_of(path):
    """Each public function of a file with the names of its clauses, in the file's order."""
    found, within, of_trait, taken = [], "", False, None
    for line in path.read_text(encoding="utf-8").splitlines():
        if BLOCK.match(line):
            within, of_trait = holder(line), bool(re.match(r"pub trait", line))
        elif line.startswith("}"):
            within, of_trait = "", False
        start = FUNCTION.match(line) or (of_trait and METHOD.match(line))
        if start or re.match(r"^ *(?:pub\(\w+\) )?(?:const )?fn ", line):
            taken = None
        if start:
            taken = (within if start.group(1) else "") + start.group(2), []
            found.append(taken)
        clause = CLAUSE.match(line)
        if clause and taken:
            taken[1].append((clause.group(2) or "result") if clause.group(1) == "ensures" else f"requires {clause.group(2) or 'it'}")
        if line.rstrip().endswith("{") and not clause and line.strip() == "{":
            taken = None
    return found


def exported(path):
    """The names that a file of lemmas exports."""
    text = path.read_text(encoding="utf-8")
    return re.findall(r"^ *pub (?:abbrev |record |data |unfoldable )?([^\s:({]+) *(?=[:({])", text, re.MULTILINE)


def title(name, about):
    """The heading of a list, and the line with its date."""
    return f"# {name}\n\nMade on {datetime.date.today()} by `tools/make_lists.py`.\n\n{about}\n"


def contracts():
    yield title("Contracts", "Each public function that has a clause, with the names of its clauses.")
    for crate in crates_of(TOP):
        rows = []
        for path in sorted((TOP / "crates" / crate / "src").rglob("*.rt")):
            rows += [(path.stem, name, clauses) for name, clauses in contracts_of(path) if clauses]
        if rows:
            yield f"\n## {crate}\n\n| Module | Function | Clauses |\n|---|---|---|\n"
            yield from (f"| `{module}` | `{name}` | {', '.join(f'`{it}`' for it in clauses)} |\n" for module, name, clauses in rows)


def lemmas():
    yield title("Lemmas", "Each file of lemmas, with its first comment and the names that it exports.")
    for crate in crates_of(TOP):
        folder, rows = TOP / "crates" / crate / "proofs", []
        for path in sorted(folder.rglob("*.antt")):
            if path.name in ("Lib.antt", "Answers.antt", "Invariants.antt", "Proof.antt"):
                continue
            names = ", ".join(f"`{it}`" for it in exported(path))
            rows.append(f"| `{path.relative_to(folder).with_suffix('')}` | {heading(path)} | {names} |\n")
        if rows:
            yield f"\n## {crate}\n\n| File | About | Names |\n|---|---|---|\n"
            yield from rows


def definitions():
    yield title("Files of definitions", "In an order in which each needs only those before it.\n")
    yield from tables(TOP)


def code(text):
    """The text as code in a cell of a table."""
    return "`` " + " ".join(text.split()).replace("|", "\\|") + " ``" if text.strip() else "nothing"


def edits():
    yield title("Edits that the prover must refuse", "Each puts a bug into the code of its crate, and `rt must-fail` fails if a proof still passes.")
    for crate in crates_of(TOP):
        rows = []
        for path in sorted((TOP / "crates" / crate / "must-fail").glob("*.edit")):
            file = ""
            for part in re.split(r"^(?=file: |old: )", path.read_text(encoding="utf-8"), flags=re.MULTILINE):
                if part.startswith("file: "):
                    file = part.removeprefix("file: ").strip()
                elif part.startswith("old: "):
                    old, new = re.split(r"^new: ?", part.removeprefix("old: "), maxsplit=1, flags=re.MULTILINE)
                    rows.append((path.stem.replace("_", " "), file, old, new))
        if rows:
            yield f"\n## {crate}\n\n| Bug | File | In place of | Code |\n|---|---|---|---|\n"
            yield from (f"| {bug} | `{file}` | {code(old)} | {code(new)} |\n" for bug, file, old, new in rows)


def main():
    argparse.ArgumentParser(description=__doc__.splitlines()[0]).parse_args()
    LISTS.mkdir(parents=True, exist_ok=True)
    for name, lines in (("contracts", contracts), ("lemmas", lemmas), ("definitions", definitions), ("edits", edits)):
        (LISTS / f"{name}.md").write_text("".join(lines()), encoding="utf-8")


if __name__ == "__main__":
    main()
