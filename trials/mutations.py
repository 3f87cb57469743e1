#!/usr/bin/env python3
"""Plants mutations in the protocol's definitions, and finds those that no worked equation refuses.

    mutations.py [--list] [--only WORD] [--done FILE] [--jobs N]

A mutation is a wrong constant, comparison, connective, constructor, code or field, a negated condition or two causes in
the other order. One is planted alone at each place that has one. The places are found in crates/protocol/specs, in the
status tables and in crates/safety/specs. A mutation that the checker rejects as a definition, since its types differ, is
counted apart. Those of `protocol` are checked with the equations of `test_definitions`, and those that no equation
refuses with the worked runs of `protocol`. Those of `safety` are checked with its worked runs, and those that none
refuses with its laws. The libraries must be built: `rt lib` in crates/test_definitions.

A line is printed for each mutation, and at the end the number of each result. The exit status is 1 if a mutation that
isn't refused is missing in docs/MUTATIONS.md, which explains each of these, or if one that is there is refused. With
--list the mutations are printed and nothing is checked.
"""

import argparse
import collections
import concurrent.futures
import dataclasses
import itertools
import pathlib
import re
import shutil
import subprocess
import sys
import tempfile

import definitions
from definitions import ROOT

LISTED = ROOT / "docs" / "MUTATIONS.md"
SAFETY = ROOT / "crates" / "safety"
WORKED = sorted((ROOT / "crates/protocol/proofs").glob("Worked*.antt"))
STATUSES = ["Proposed", "Checked", "Accepted", "Rejected", "Cancelled", "Terminated", "Completed"]
COLUMNS = [
    "Propose", "RequestOrder", "RepeatedRequestOrder", "ProposalWithoutFinding", "ProposalWithFindings", "EqualProposal", "Request", "CleanUp",
]
# Each of these replaces the one before it.
CYCLES = [STATUSES, ["Repeat", "Late", "Refused"], ["IsRepeat", "IsLate"], ["Unknown", "Bare"], [f"column.{it}" for it in COLUMNS]]
# Words that another one of the same type replaces.
PAIRS = [
    ("true", "false"), ("&&", "||"), ("nat_le", "nat_lt"), ("take", "drop"), ("is_some", "is_none"), ("list_any", "list_all"),
    (".to", ".from"), (".first", ".last"), (".account", ".to_account"), (".committed", ".tail"), ("same_code", "same_node"),
    (".origin", ".code"), (".old", ".new"), ("committed_of", "live_of"), ("◌×◌", "◌⊎◌"), ("≤", "<"), ("≡", "≢"), ("×", "⊎"),
]
NUMBER = re.compile(r"^\d[\d_]*$")
WORD = re.compile(r"[^\s(){};,]+")
# The modules of words that a file may not import.
SOURCES = {
    "nat_le": "Rattle.std.specs.Prelude", "nat_lt": "Rattle.std.specs.Prelude", "take": "Rattle.std.specs.Prelude", "drop": "Rattle.std.specs.Prelude",
    "is_some": "Rattle.std.specs.Prelude", "is_none": "Rattle.std.specs.Prelude", "not": "Rattle.std.specs.Prelude", "true": "Rattle.std.specs.Prelude",
    "false": "Rattle.std.specs.Prelude", "suc": "Rattle.std.specs.Prelude", "&&": "Rattle.std.specs.Prelude", "||": "Rattle.std.specs.Prelude",
    "-": "Rattle.std.specs.Prelude", "≤": "Rattle.std.specs.Prelude", "<": "Rattle.std.specs.Prelude", "⊎": "Rattle.std.specs.Prelude",
    "≢": "Rattle.std.specs.Prelude", "≡": "Rattle.std.specs.Prelude",
    **{it: "Rattle.status.specs.declared.status.Status.TheVariants" for it in STATUSES},
    **{it: "Rattle.status.specs.declared.rows.Row.TheVariants" for it in ("Repeat", "Late", "Refused")},
}
INFIX = {"&&", "||", "-", "≤", "<", "⊎", "≢", "≡"}


@dataclasses.dataclass(frozen=True)
class Mutation:
    """A change of a file: in the definition `name` the text from `begin` to `end` becomes `new`."""

    file: str
    name: str
    begin: int
    end: int
    old: str
    new: str
    needs: tuple

    # The number of the place among those of the same text in the definition, counted from 1.
    turn: int = 1

    def __str__(self):
        old, new = (" ".join(it.split()) for it in (self.old, self.new))
        return f"{pathlib.Path(self.file).stem}.{self.name}: `{old}` → `{new or 'nothing'}`" + (f" ({self.turn})" if self.turn > 1 else "")


def others_of(word, codes):
    """Returns the replacements of a word, each with the words that it needs."""
    found = []
    for cycle in CYCLES:
        if word in cycle:
            new = cycle[(cycle.index(word) + 1) % len(cycle)]
            found.append((new, (new,)))
    for one, other in PAIRS:
        for old, new in ((one, other), (other, one)):
            if word == old:
                found.append((new, (new,)))
            elif old.startswith(".") and word.endswith(old) and word != old:
                found.append((word.removesuffix(old) + new, ()))
    if word in codes and len(codes) > 1:
        found.append((codes[(codes.index(word) + 1) % len(codes)], ()))
    elif word in codes:
        found.append((f"(suc {word})", ("suc",)))
    if NUMBER.match(word):
        found.append((str(int(word.replace("_", "")) + 1), ()))
    if word.startswith(("most_", "last_", "least_")) or word == "clean_up_age":
        found.append((f"(suc {word})", ("suc",)))
    if word == "+":
        found.append(("-", ("-",)))
    if word == "==":
        found.append(("== suc", ("suc",)))
    if word == "not":
        found.append(("", ()))
    return found


def right_sides(text):
    """Yields each line of the right side of a definition or of the type of a field: the definition's name, and the
    line's begin and end."""
    name, at, record = None, 0, False
    for line in text.splitlines(keepends=True):
        bare = line.strip()
        if bare and not bare.startswith(("--", "use ", "pub use ", "pub mod ")):
            start = re.match(r"(?:abbrev |unfoldable )*pub (?:abbrev |unfoldable )*(data |record )?([^\s:({]+)", line)
            if start:
                name, record = start[2], bool(start[1])
            elif not record and not line.startswith(" ") and " = " in line:
                yield name, at + line.index(" = ") + 3, at + len(line)
            elif line.startswith(" ") and name:
                begin = line.index(" : ") + 3 if record and " : " in line else 0
                yield name, at + begin, at + len(line)
        at += len(line)


def negations(text, begin, end):
    """Yields the begin and end of each condition of `cond`."""
    for it in re.compile(r"\bcond (?=[\w(])").finditer(text, begin, end):
        at = it.end()
        if text[at] == "(":
            depth = 0
            for i in range(at, end):
                depth += {"(": 1, ")": -1}.get(text[i], 0)
                if depth == 0:
                    yield at, i + 1
                    break
        else:
            yield at, WORD.match(text, at).end()


def mutations():
    """Yields all mutations, each with a name of its own."""
    turns = collections.Counter()
    for it in unnamed():
        turns[it.file, it.name, it.old, it.new] += 1
        yield dataclasses.replace(it, turn=turns[it.file, it.name, it.old, it.new])


def unnamed():
    for path in [*definitions.definitions(), *(it for it in sorted((SAFETY / "specs").glob("*.antt")) if it.stem != "Lib")]:
        text, file = path.read_text(), str(path.relative_to(ROOT / "crates"))
        codes = [it.strip() for items in re.findall(r"RefusalCodes\.\{([^}]*)\}", text) for it in items.split(",")]
        lines = []
        for name, begin, end in right_sides(text):
            for it in WORD.finditer(text, begin, end):
                for new, needs in others_of(it[0], codes):
                    yield Mutation(file, name, it.start(), it.end(), it[0], new, needs)
            for at, until in negations(text, begin, end):
                yield Mutation(file, name, at, until, text[at:until], f"(not {text[at:until]})", ("not",))
            lines.append((name, begin, end))
        for (name, begin, end), (other, next_begin, next_end) in zip(lines, lines[1:]):
            cause = re.compile(r" *(?:∷ )?(\(.*\))\n$")
            one, two = cause.match(text[begin:end]), cause.match(text[next_begin:next_end])
            if name == other and one and two:
                old = text[begin:next_end]
                new = text[begin:end].replace(one[1], two[1]) + text[next_begin:next_end].replace(two[1], one[1])
                yield Mutation(file, name, begin, next_end, old, new, ())


def imports(text, needs):
    """Yields the lines that import the words that a mutation needs and the file doesn't import."""
    brought = {it.strip().split(" as ")[-1] for items in re.findall(r"^use [\w.]+\.\{([^}]*)\}", text, re.M) for it in items.split(",")}
    for word in needs:
        name = f"◌{word}◌" if word in INFIX else word
        if word in SOURCES and name not in brought:
            yield f"use {SOURCES[word]}.{{{name}}}\n"


def planted(it):
    text = (ROOT / "crates" / it.file).read_text()
    changed = text[: it.begin] + it.new + text[it.end :]
    first = re.search(r"^use ", changed, re.M).start()
    return changed[:first] + "".join(imports(text, it.needs)) + changed[first:]


def check(words):
    """Runs the checker. Returns the kind of its errors, and the equations that fail."""
    ended = subprocess.run(words, capture_output=True, text=True, check=False)
    said = ended.stdout + ended.stderr
    errors = list(definitions.ERROR.finditer(said))
    if any("/proofs/" not in it[1] for it in errors):
        return "definitions", set()
    # An error outside of a definition is named by its file.
    equations = {it[2] or pathlib.Path(it[1]).stem for it in errors if not definitions.LIMIT.search(it[3])}
    if ended.returncode != 0 and not errors:
        sys.exit(said[-2000:])
    return ("equations" if equations else "limit" if errors else "none"), equations


def is_of_law(it):
    return it.file.startswith("safety/")


def not_worked(place, names):
    """Returns the names of the files and folders of `safety` that worked runs don't need."""
    kept = {"src": (), "proofs": ("WorkedLaws", "WorkedLaws.antt")}.get(pathlib.Path(place).name, names)
    return [name for name in names if name not in kept]


def result_at_laws(it, folder):
    """Returns the result of a mutation of a definition of `safety`: no definition, refused by a worked run or by the proof
    of a law, or not refused."""
    for worked_alone in True, False:
        shutil.rmtree(folder, ignore_errors=True)
        for part in "src", "specs", "proofs":
            shutil.copytree(SAFETY / part, folder / part, ignore=not_worked if worked_alone else None)
        if worked_alone:
            (folder / "src" / "lib.rt").write_text("//! Worked runs alone.\n#![tactic(auto)]\n")
            (folder / "proofs" / "Lib.antt").write_text("pub mod WorkedLaws\n")
        (folder / "specs" / pathlib.Path(it.file).name).write_text(planted(it))
        where, names = check(definitions.checking(folder / "src" / "lib.rt", SAFETY.name))
        if where == "definitions":
            return "isn't a definition"
        if names:
            return f"refused by {min(names)}"
        if where == "limit":
            return "refused by a limit"
    return "NOT REFUSED"


def result_of(it, folder, words, refusing):
    """Returns the result of a mutation: no definition, refused by an equation, or not refused. The files of equations
    that refused other mutations of its definition are tried first."""
    shared = [definitions.WORKED_SCHEME, *(file for file in definitions.FILES if file.stem in definitions.SHARED)]
    rest = [file for file in definitions.FILES if file not in shared]
    for files in ([file for file in rest if file in refusing], rest, [file for file in WORKED if file not in shared]):
        if not files:
            continue
        definitions.put(definitions.definitions(), folder / "specs")
        definitions.put([*files, *shared], folder / "proofs")
        (folder / "specs" / pathlib.Path(it.file).name).write_text(definitions.renamed(planted(it)))
        where, equations = check(words)
        if where == "definitions":
            return "isn't a definition"
        if where == "limit":
            return "refused by a limit"
        if equations:
            name = min(equations)
            refusing.update(file for file in files if re.search(rf"^(?:pub )?{name} : ", file.read_text(), re.M))
            return f"refused by {name}"
    return "NOT REFUSED"


def tried(changes):
    """Yields each mutation of one definition with its result."""
    refusing = set()
    with tempfile.TemporaryDirectory() as place:
        folder = pathlib.Path(place)
        shutil.copytree(ROOT / "crates" / definitions.CRATE / "src", folder / "src")
        words = definitions.checking(folder / "src" / "lib.rt")
        for it in changes:
            result = result_at_laws(it, folder / "laws") if is_of_law(it) else result_of(it, folder, words, refusing)
            print(f"{it}: {result}", flush=True)
            yield it, result


def main():
    parser = argparse.ArgumentParser(description=__doc__, formatter_class=argparse.RawDescriptionHelpFormatter)
    parser.add_argument("--list", action="store_true", help="print the mutations, and check none")
    parser.add_argument("--only", default="", metavar="WORD", help="check only mutations with this text in their names")
    parser.add_argument("--done", metavar="FILE", help="the output of an earlier run, whose mutations aren't checked again")
    parser.add_argument("--jobs", type=int, default=2, metavar="N", help="the number of mutations that are checked at once (2)")
    args = parser.parse_args()
    chosen = [it for it in mutations() if args.only in str(it)]
    if args.list:
        print("\n".join(map(str, chosen)))
        return
    listed = LISTED.read_text() if LISTED.exists() else ""
    tried_before = pathlib.Path(args.done).read_text().splitlines() if args.done else []
    earlier = dict(line.rsplit(": ", 1) for line in tried_before if ": " in line)
    good, counts = True, collections.Counter()
    for it in chosen:
        if str(it) in earlier:
            print(f"{it}: {earlier[str(it)]}", flush=True)
            counts[earlier[str(it)].split(" by ")[0]] += 1
            good = good and (earlier[str(it)] == "NOT REFUSED") == (str(it) in listed)
    chosen = [it for it in chosen if str(it) not in earlier]
    groups = [list(group) for _, group in itertools.groupby(chosen, lambda it: (it.file, it.name))]
    with concurrent.futures.ThreadPoolExecutor(args.jobs) as pool:
        for results in pool.map(lambda group: list(tried(group)), groups):
            for it, result in results:
                counts[result.split(" by ")[0]] += 1
                good = good and (result == "NOT REFUSED") == (str(it) in listed)
    print("; ".join(f"{count} {kind}" for kind, count in counts.items()))
    sys.exit(0 if good else 1)


if __name__ == "__main__":
    main()
