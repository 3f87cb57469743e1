#!/usr/bin/env python3
"""Finds lemmas that are proved again.

    same_lemmas.py

Two lemmas are the same if their statements are, apart from the names of their arguments. A lemma that several files
prove is to stand in the lowest crate that needs it, or it is in the standard library, where `rt lemma` finds it. A line
is printed for each such statement, with a line for each place, and the exit status is 1 if there is one.

A statement is compared as the text of its line. One that mentions a name of the module around it, or a goal of a
function, isn't compared, since the same text may mean something else in another place.
"""

import argparse
import collections
import pathlib
import re
import sys

CRATES = pathlib.Path(__file__).resolve().parent.parent / "crates"
NAME = r"[^\W\d][\w'-]*"
LEMMA = re.compile(rf"^\s*(?:abbrev |unfoldable )*(?:pub )?({NAME}) : (.*→.*)$")
# What a lemma concludes: an equation, an order, a contradiction, or that an element is there or missing.
CONCLUSION = re.compile(r"≡|⊥|≤|<|Contains|HasNo")
BINDER = re.compile(r"[({]([^(){}:]+) :")
USED = re.compile(r"^use [\w.]+\.\{(.*)\}$|^use [\w.]+(?: as (\w+))?$", re.MULTILINE)
DECLARED = re.compile(rf"^(?:abbrev |unfoldable )*(?:pub )?(?:data |record )?({NAME})\b", re.MULTILINE)
WORDS = {"Type", "let", "in", "if", "then", "else"}


def names_of(text):
    """Returns the names that a file may mention anywhere: those that it takes from others, and its own."""
    names = set(WORDS)
    for several, alias in USED.findall(text):
        names.update(it.split(" as ")[-1].strip() for it in several.split(","))
        names.add(alias)
    return names | set(DECLARED.findall(text))


def statement_of(line, known):
    """Returns the name of the lemma that a line states, and its statement with the names of its arguments replaced; or
    None if the line states none that can be compared."""
    found = LEMMA.match(line)
    if not found or "goal." in found[2] or not CONCLUSION.search(found[2].rsplit("→", 1)[-1]):
        return None
    text = re.sub(r"\s+", " ", found[2].strip())
    bound = [name for group in BINDER.findall(text) for name in group.split()]
    numbered = {name: f"#{index}" for index, name in enumerate(dict.fromkeys(bound))}
    mentioned = {it.split(".")[0] for it in re.findall(rf"{NAME}(?:\.[\w'-]+)*", text)}
    if mentioned - numbered.keys() - known:
        return None
    return found[1], re.sub(rf"(?<![.\w]){NAME}", lambda name: numbered.get(name[0], name[0]), text)


def lemmas():
    """Yields each lemma that can be compared: its statement, its place and its name."""
    for path in sorted(CRATES.glob("*/proofs/**/*.antt")):
        text = path.read_text(encoding="utf-8")
        known = names_of(text)
        for number, line in enumerate(text.splitlines(), 1):
            if found := statement_of(line, known):
                name, statement = found
                yield statement, f"{path.relative_to(CRATES)}:{number}", name


def main():
    argparse.ArgumentParser(description=__doc__.splitlines()[0]).parse_args()
    places = collections.defaultdict(list)
    for statement, place, name in lemmas():
        places[statement].append((place, name))
    again = {it: found for it, found in places.items() if len({place.split(":")[0] for place, _ in found}) > 1}
    for statement, found in again.items():
        print(f"proved {len(found)} times: {statement}")
        for place, name in found:
            print(f"    {place} {name}")
    sys.exit(1 if again else 0)


if __name__ == "__main__":
    main()
