#!/usr/bin/env python3
"""Counts the definitions of `protocol` and those that a reader must believe for the headline.

    count_definitions.py [--files] [FOLDER]

FOLDER is a checkout of the repository, by default the one of this file. For the headline, for a table and for all
commands the script prints the numbers of definitions and of their lines that the words of these cite, directly or
through others, in crates/*/specs, without blank lines, comments and `use` lines; and, apart from these, the number of
cited names of limits and codes, which stand for a number alone. Types that the code declares are not counted.
docs/DEFINITIONS.md must have these numbers. Then it prints the number of definitions of all crates and of those that
the contracts of public functions reach, and a line for each definition whose comment is wrong: one that is reached
although its comment denies it, or one that isn't reached and has no comment that says it. The exit status is 1 if there
is such a definition, or if the page has other numbers.

With --files the script prints the tables of out/lists/definitions.md instead: the files of definitions of each crate,
each after the files that it needs, with the comment at its beginning.
"""
import os
import re
import sys

from reached_definitions import Repository

HEADLINE = [
    *((("protocol", "Claims"), word) for word in ("OnePlace", "SpentOnce", "Agrees", "live_of", "committed_of")),
    *((("protocol", "World"), word) for word in ("opening", "run")),
]
TABLE = [(("report", "Table"), "IsSafeTable")]
COMMANDS = [(("commands", "Obeying"), "Obeys")]
NUMBER = re.compile(r"^[a-z_]+ = [\d_]+$")


def heading(path):
    """Returns the comment at the beginning of an .antt file, as one line."""
    lines = []
    with open(path, encoding="utf-8") as file:
        for line in file:
            if not line.startswith("-- "):
                break
            lines.append(line[3:].strip())
    return " ".join(lines)


def crates_of(top):
    """Returns the crates in the order of crates.txt, in which each comes after those that it uses."""
    with open(os.path.join(top, "crates.txt"), encoding="utf-8") as file:
        return [line.split(":")[0].split()[0] for line in file if ":" in line and not line.startswith("#")]


def tables(top):
    """Yields the tables of the files of definitions, one for each crate that has such files."""
    for crate in crates_of(top):
        path = os.path.join(top, "crates", crate, "specs", "Lib.antt")
        if not os.path.exists(path):
            continue
        with open(path, encoding="utf-8") as file:
            names = [line.split()[2] for line in file if line.startswith("pub mod ")]
        if names:
            yield "### %s\n\n| File | Contents |\n|---|---|\n" % crate
            for name in names:
                yield "| `%s` | %s |\n" % (name, heading(os.path.join(top, "crates", crate, "specs", name + ".antt")))
            yield "\n"


def counts(repository, seen):
    """Returns the numbers of definitions, of their lines, and of names of limits and codes among them, as a text."""
    lines = {it: repository.files[it[0]].found[it[1]] for it in seen}
    names = {it for it in seen if NUMBER.match(lines[it][-1].strip())}
    return f"{len(seen - names):,} definitions of {sum(len(lines[it]) for it in seen - names):,} lines, and {len(names)} names of limits and codes"


def main():
    words = [word for word in sys.argv[1:] if word != "--files"]
    top = words[0] if words else os.path.join(os.path.dirname(os.path.abspath(__file__)), "..")
    if "--files" in sys.argv:
        return print("".join(tables(top)), end="")
    repository = Repository(top)
    with open(os.path.join(top, "docs/DEFINITIONS.md"), encoding="utf-8") as file:
        page = " ".join(file.read().split())
    wrong = []
    for words, seeds in (("the headline", HEADLINE), ("a table", HEADLINE + TABLE), ("all commands", COMMANDS)):
        text = counts(repository, repository.reached_from(seeds))
        print(f"{words}: {text}")
        if text not in page:
            wrong.append(f"docs/DEFINITIONS.md doesn't say of {words}: {text}")
    print("definitions of all crates: %d; public contracts reach %d of them" % (repository.count(), len(repository.reached())))
    wrong += repository.misplaced()
    print("\n".join(wrong), end="\n" if wrong else "")
    sys.exit(1 if wrong else 0)


if __name__ == "__main__":
    main()
