#!/usr/bin/env python3
"""Prints each name in backticks of a document that no source has: a function, a clause, a lemma, a file, a crate or a
program.

    stale_names.py

The documents are README.md, docs/*.md, bench/*.md, trials/*.md and examples/README.md, without their fenced blocks. A
name is a word that stands alone in its backticks, and may have `_`, `-`, `.`, `::` and `/` in it; words in capitals
stand for a name. A line is printed for each stale name, and the exit status is 1 if there is one.
"""

import pathlib
import re
import sys

TOP = pathlib.Path(__file__).resolve().parent.parent
SOURCES = ("crates/*/src/**/*.rt", "crates/*/specs/**/*.antt", "crates/*/proofs/**/*.antt", "crates/*/must-fail/*.edit",
           "examples/*/**/*", "bench/*.py", "bench/*.c", "trials/*.py", "trials/*.c", "tools/*.py")
DOCUMENTS = ("README.md", "docs/*.md", "bench/*.md", "trials/*.md", "examples/README.md")
OTHERS = ("crates.txt", "kyoto-link", ".ci/run", "HANDLES")
# Names of other programs, and of the language and its prover.
FOREIGN = {"auto_vacuum", "call_once", "db-journal", "jq", "libsqlite3-dev", "retain", "retain_mut", "x-iterator"}
NAME = re.compile(r"[A-Za-z_][\w.-]*(?:(?:::|/)[\w.*-]+)*/?")


def words_of(text):
    """Returns the words of a text, except those in capitals, which stand for a name."""
    return {word for word in re.findall(r"[A-Za-z_][\w-]*", text) if not word.isupper()}


def known_words():
    files = [path for pattern in SOURCES for path in TOP.glob(pattern) if path.is_file()]
    # A store in the data of an example is not a text.
    texts = [path.read_text(encoding="utf-8", errors="replace") for path in [*files, *map(TOP.joinpath, OTHERS)]]
    known = {word for text in texts for word in words_of(text)}
    places = [path for path in TOP.rglob("*") if "out" not in path.parts and ".git" not in path.parts]
    return known | FOREIGN | {word for path in places for part in (path.name, path.stem) for word in words_of(part)}


def main():
    known, stale = known_words(), []
    for path in sorted(path for pattern in DOCUMENTS for path in TOP.glob(pattern)):
        fenced = False
        for number, line in enumerate(path.read_text(encoding="utf-8").splitlines(), 1):
            fenced ^= line.startswith("```")
            for name in [] if fenced else re.findall(r"`([^`]+)`", line):
                if NAME.fullmatch(name) and not words_of(name) <= known:
                    stale.append(f"{path.relative_to(TOP)}:{number}: {name}")
    print("\n".join(stale), end="\n" if stale else "")
    sys.exit(1 if stale else 0)


if __name__ == "__main__":
    main()
