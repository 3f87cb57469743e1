#!/usr/bin/env python3
"""Measures the time of checker/check.py over long rehearsals, and compares its reports with those of the program.

    checker.py [--runs N]

There are inputs of 5,000, 10,000 and 20,000 whole transfers between 3 registries, one after another and all together.
Each message is acknowledged. Both programs run over each input, and must write the same bytes. A line for each size has
the number of lines, the best time of the checker in seconds, the best time of `kyoto-link rehearse`, and the ratio of
the checker's time to that of the previous size.

The exit status is 1 if a limit is exceeded, if the outputs differ, or if a program fails.
"""

import argparse
import pathlib
import sys
import tempfile

from rehearse import MOST_RATIO, check_output, codes_of, program, run, transfers, write_lines

CHECKER = pathlib.Path(__file__).resolve().parent.parent / "checker" / "check.py"
SIZES = (5_000, 10_000, 20_000)
# The name of a load, and its lines for a size.
LOADS = [
    ("one after another", lambda count: transfers(codes_of(3), count)),
    ("all together", lambda count: transfers(codes_of(3), count, together=count)),
]
# The limit of the largest size.
MOST_SECONDS = 20.0


def acknowledged(lines):
    """Yields the lines. After each delivery, the node that posted the message last acknowledges it."""
    posted = None
    for line in lines:
        yield line
        name, *words = line.split(" ")
        if name == "post":
            posted = words
        elif name == "deliver":
            yield f"ack {posted[0]} {posted[1]}"
            yield f"commit {posted[0]} 1"


def measured(given, events, room):
    """Returns the seconds of the checker, and those of the program, over an input with that many events."""
    checked, written = room / "checked", room / "written"
    times = run([sys.executable, CHECKER], given, checked)[0], run([program(), "rehearse"], given, written)[0]
    if checked.read_bytes() != written.read_bytes():
        sys.exit(f"{given.name}: the checker and the program write different outputs")
    check_output(checked, given.name, events)
    return times


def measure(name, lines_of, runs, room):
    """Prints a line for each size of a load, and returns whether all are within the limits. The sizes run in turn, so
    that a slow moment of the machine affects all of them."""
    inputs = [room / f"{size} transfers {name}" for size in SIZES]
    counts = [write_lines(given, acknowledged(lines_of(size))) for size, given in zip(SIZES, inputs)]
    times = [[measured(given, count - 1, room) for given, count in zip(inputs, counts)] for _ in range(runs)]
    kept, before = True, None
    for size, count, of_size in zip(SIZES, counts, zip(*times)):
        best, of_program = map(min, zip(*of_size))
        text = f"{size:>7,} transfers {name:<17}  {count:>8,} lines  {best:7.3f} s  rehearse {of_program:6.3f} s"
        if before is not None:
            ratio = best / before
            kept = kept and ratio <= MOST_RATIO
            text += f"  ratio {ratio:.2f}"
        if size == SIZES[-1]:
            kept = kept and best <= MOST_SECONDS
        print(text, flush=True)
        before = best
    return kept


def main():
    parser = argparse.ArgumentParser(description=__doc__.splitlines()[0])
    parser.add_argument("--runs", type=int, default=3, help="the number of runs of each input; the best time counts")
    words = parser.parse_args()
    program()
    with tempfile.TemporaryDirectory() as folder:
        kept = all([measure(name, lines_of, max(1, words.runs), pathlib.Path(folder)) for name, lines_of in LOADS])
    print(f"limits: ratio {MOST_RATIO}, {SIZES[-1]:,} transfers {MOST_SECONDS:.0f} s")
    sys.exit(0 if kept else 1)


if __name__ == "__main__":
    main()
