#!/usr/bin/env python3
"""Counts what stands for more than one thing, or in more than one place.

    same_names.py

Prints the public types that several crates declare with one name, and the functions that look for a newline. Crates of
tests don't count.
"""
import collections
import pathlib
import re

TOP = pathlib.Path(__file__).resolve().parent.parent
TYPE = re.compile(r"^pub (?:struct|enum|trait|type) (\w+)", re.M)
FUNCTION = re.compile(r"^ *(?:pub(?:\(crate\))? )?(?:const )?fn (\w+)", re.M)
# A search among bytes that have come, or a comparison of one byte.
SEARCH = re.compile(r"memchr\(b'\\n'|[!=]= b'\\n'|contains\(&b'\\n'\)|Read\(b'\\n'\)")


def main():
    types, searches = collections.defaultdict(set), []
    for path in sorted(TOP.glob("crates/*/src/**/*.rt")):
        crate, text = path.relative_to(TOP).parts[1], path.read_text(encoding="utf-8")
        if crate.startswith("test_"):
            continue
        for name in TYPE.findall(text):
            types[name].add(crate)
        starts = [(found.start(), found.group(1)) for found in FUNCTION.finditer(text)]
        for found in SEARCH.finditer(text):
            searches.append(f"{crate} {[name for at, name in starts if at < found.start()][-1]}")
    same = [f"{name} of {' and '.join(sorted(crates))}" for name, crates in sorted(types.items()) if len(crates) > 1]
    print(f"public types with the name of another: {len(same)} ({', '.join(same)})")
    found = list(dict.fromkeys(searches))
    print(f"functions that look for a newline: {len(found)} ({', '.join(found)})")


if __name__ == "__main__":
    main()
