#!/usr/bin/env python3
"""Looks in the output of `rt ci` for must-fail edits that show nothing.

    edits_refused.py [LOG]

`rt ci` passes where an edit can't be applied or wasn't tried, since such an edit counts for nothing there. LOG is a file
with the output of `rt ci`. Without it, only the places of the edits are looked at: each text that an edit replaces must
stand once in its file. A line is printed for each edit that is bad, that was not tried, that was refused only for a
name or at a limit of the prover, or that the output doesn't mention. The exit status is 1 if there is one, and otherwise
0, after a line with the number of edits.
"""
import argparse
import pathlib
import re
import sys

TOP = pathlib.Path(__file__).resolve().parent.parent
REFUSED = re.compile(r"\bmust-fail (?P<edit>\w+/[\w.-]+\.edit): refused, as it must be(?P<rest>.*)")
# A refusal by a name that the edit took away, or at a limit of the prover, doesn't show that a clause refuses the bug.
WEAK = ("(only because a proof file names", "(only by a limit of the prover")
USELESS = ("BAD EDIT", "NOT TRIED")


def edits():
    """Returns the name of each edit that stands in the repository, as `rt ci` writes it."""
    return sorted(f"{it.parent.parent.name}/{it.name}" for it in (TOP / "crates").glob("*/must-fail/*.edit"))


def faults_of_places():
    """Yields a line for each text of an edit that doesn't stand once in its file, as earlier parts of the edit left it."""
    for edit in sorted((TOP / "crates").glob("*/must-fail/*.edit")):
        texts, path, old = {}, None, None
        for key, _, value in (line.partition(": ") for line in edit.read_text(encoding="utf-8").splitlines()):
            if key == "file":
                path = edit.parent.parent / value
                texts.setdefault(path, path.read_text(encoding="utf-8"))
            elif key == "old":
                old = value
                if texts[path].count(old) != 1:
                    yield f"{edit.relative_to(TOP)}: {old!r} stands {texts[path].count(old)} times in {path.relative_to(TOP)}"
            elif key == "new":
                texts[path] = texts[path].replace(old, value)


def faults_of(output):
    """Returns a line for each edit that shows nothing by this output of `rt ci`."""
    refused, found = set(), []
    for line in output.splitlines():
        match = REFUSED.search(line)
        if match and not any(it in match["rest"] for it in WEAK):
            refused.add(match["edit"])
        elif match or any(it in line for it in USELESS):
            found.append(line.strip())
    told = " ".join(found)
    return found + [f"{it}: its refusal is missing in the output" for it in edits() if it not in refused and it not in told]


def main():
    parser = argparse.ArgumentParser(description=__doc__.splitlines()[0])
    parser.add_argument("log", metavar="LOG", nargs="?", type=pathlib.Path, help="a file with the output of rt ci")
    log = parser.parse_args().log
    faults = list(faults_of_places())
    if log:
        faults += faults_of(log.read_text(encoding="utf-8", errors="replace"))
    for fault in faults:
        print(f"must-fail edit: {fault}")
    if faults:
        sys.exit(1)
    print(f"{len(edits())} must-fail edits, each " + ("refused by a clause or a definition" if log else "with its place"))


if __name__ == "__main__":
    main()
