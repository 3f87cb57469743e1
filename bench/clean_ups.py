#!/usr/bin/env python3
"""Measures clean-ups that find nothing, at a log with many open transfers and at one with none.

    clean_ups.py [--runs N]

`rehearse` gives the log 20,000 proposals; or 400,000 clean-ups; or first the proposals, and then the clean-ups, at which
none of them has expired. The best times are printed. A clean-up that walked the open transfers would take thousands of
times as long after the proposals as without them.

The exit status is 1 if both together take more than twice as long as the two by themselves, or if the program fails.
"""

import argparse
import pathlib
import sys
import tempfile

from rehearse import LONGEST_INPUT, MOMENT, check_output, codes_of, program, run, scheme, write_lines

PROPOSALS = 20_000
CLEAN_UPS = 400_000
MOST_TIMES = 2.0


def lines(proposals, clean_ups):
    """Yields a scheme, proposals that reach the log, and clean-ups."""
    first, other = codes_of(2)
    yield scheme((first, other), PROPOSALS)
    for number in range(proposals):
        yield f"propose {first} 1 {other} 1 {first}:1:{number + 1}-{number + 1}:AAU"
        yield f"commit {first} 1"
        yield f"post {first} {number}"
        yield f"deliver {number} {MOMENT}"
    for _ in range(clean_ups):
        yield f"clean-up {MOMENT}"


def measure(proposals, clean_ups, runs, room):
    """Prints and returns the best time of a work."""
    given, taken = room / "input", room / "output"
    name = f"{proposals:,} proposals and {clean_ups:,} clean-ups"
    count = write_lines(given, lines(proposals, clean_ups))
    if given.stat().st_size > LONGEST_INPUT:
        sys.exit(f"{name}: an input of {given.stat().st_size:,} bytes is too long")
    run([program(), "rehearse"], given, taken)
    check_output(taken, name, count - 1)
    best = min(run([program(), "rehearse"], given, taken)[0] for _ in range(runs))
    print(f"{name}: {best:.3f} s", flush=True)
    return best


def main():
    parser = argparse.ArgumentParser(description=__doc__.splitlines()[0])
    parser.add_argument("--runs", type=int, default=5, help="the number of runs of each work; the best time counts")
    given = parser.parse_args()
    program()
    runs = max(1, given.runs)
    with tempfile.TemporaryDirectory() as folder:
        works = ((PROPOSALS, 0), (0, CLEAN_UPS), (PROPOSALS, CLEAN_UPS))
        proposals, clean_ups, both = (measure(*work, runs, pathlib.Path(folder)) for work in works)
    times = both / (proposals + clean_ups)
    kept = times <= MOST_TIMES
    print(f"both take {times:.2f} times as long as the two by themselves (limit {MOST_TIMES}): " + ("within the limit" if kept else "the limit is exceeded"))
    return 0 if kept else 1


if __name__ == "__main__":
    sys.exit(main())
