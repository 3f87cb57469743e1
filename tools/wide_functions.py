#!/usr/bin/env python3
"""Counts the signatures and the uses of crates that make the code hard to follow.

    wide_functions.py

Prints the number of functions with more than four type parameters or more than seven arguments, without those of
crates of tests, and a line for each of them whose comment doesn't say why: the comment of such a function has the words
`type parameters` or `arguments`. Lifetimes and the parameters of an `impl` aren't counted. Fails, after a line for each,
if a command of the program uses the crate of another command.
"""
import pathlib
import re
import sys

TOP = pathlib.Path(__file__).resolve().parent.parent
MOST_TYPES, MOST_ARGUMENTS = 4, 7
COMMANDS = {"audit", "chart", "events", "explain", "one_node", "rehearse", "run", "show", "trace"}
FUNCTION = re.compile(r"^ *(?:pub(?:\(crate\))? )?(?:const )?fn (\w+)", re.M)
CLOSING = {"(": ")", "<": ">", "[": "]"}


def bracketed(text, at):
    """Returns the parts between the bracket at that place and the one that closes it, and the place after that."""
    parts, depth, start = [], 0, at + 1
    for place in range(at, len(text)):
        sign = text[place]
        if sign in CLOSING:
            depth += 1
        elif sign in ")]" or (sign == ">" and text[place - 1] not in "-="):
            depth -= 1
        if (sign == "," and depth == 1) or depth == 0:
            parts.append(text[start:place].strip())
            start = place + 1
        if depth == 0:
            return [part for part in parts if part], place + 1
    return parts, len(text)


def comment_before(text, at):
    """Returns the comment and the attributes in the lines before that place."""
    lines = []
    for line in reversed(text[:at].splitlines()):
        if not line.lstrip().startswith(("///", "#[")):
            break
        lines.append(line.strip(" /"))
    return " ".join(reversed(lines))


def signatures(text):
    """Returns the name, the comment, and the numbers of type parameters and of arguments of each function."""
    for found in FUNCTION.finditer(text):
        types, at = [], found.end()
        if text[at] == "<":
            types, at = bracketed(text, at)
            types = [part for part in types if not part.startswith("'")]
        arguments, _ = bracketed(text, at)
        yield found.group(1), comment_before(text, found.start()), len(types), len(arguments)


def main():
    wide, silent = 0, []
    for path in sorted(TOP.glob("crates/*/src/**/*.rt")):
        if path.relative_to(TOP).parts[1].startswith("test_"):
            continue
        for name, comment, types, arguments in signatures(path.read_text(encoding="utf-8")):
            if types > MOST_TYPES or arguments > MOST_ARGUMENTS:
                wide += 1
                if not re.search(r"type parameters|arguments", comment):
                    silent.append(f"{path.relative_to(TOP)}: {name} has {types} type parameters, {arguments} arguments")
    uses = []
    for line in (TOP / "crates.txt").read_text(encoding="utf-8").splitlines():
        crate, _, libraries = line.partition(":")
        if crate in COMMANDS:
            uses += [f"{crate} uses {library}" for library in libraries.split() if library in COMMANDS]
    print(f"functions with more than {MOST_TYPES} type parameters or {MOST_ARGUMENTS} arguments: {wide},"
          f" of which {len(silent)} have no reason beside them")
    for line in silent:
        print(f"  {line}")
    for line in uses:
        print(line)
    return 1 if uses else 0


if __name__ == "__main__":
    sys.exit(main())
