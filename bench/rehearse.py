#!/usr/bin/env python3
"""Measures the time and the memory of `kyoto-link rehearse` over long inputs.

    rehearse.py [--runs N] [--load TEXT]

There are seven loads, each in three sizes: schemes of many blocks and accounts, without events; commits of no record;
orders of units one after another and of units that lie apart; whole transfers between 2 and between 32 registries; and
whole transfers after which each message is delivered a second time. The largest inputs are nearly as long as an input
may be, except those of schemes, which have as many blocks, registries and accounts as a scheme may have. A line for
each size has the best time in seconds, its ratio to that of the previous size, and the greatest peak of memory as a
multiple of the input's bytes. For the largest size, the line also has the time as a multiple of a peer's. The peer for
orders is a C++ program with ordered maps that writes the same (bench/orders.cpp). For schemes it is Python, which reads
the JSON and looks for unknown accounts and units that are allotted twice; for the other loads it is Python too, which
splits the same input into words and counts them in a dictionary.

The exit status is 1 if a limit is exceeded, if an output is wrong, or if a program fails.
"""

import argparse
import functools
import itertools
import json
import os
import pathlib
import random
import subprocess
import sys
import tempfile
import time

from building import need
from endings import check_end, run_to_end

TOP = pathlib.Path(__file__).resolve().parent.parent
LAUNCHER = TOP / "kyoto-link"
IN_CPP = TOP / "bench" / "orders.cpp"
LONGEST_INPUT = 16_777_216
MOST_RATIO = 2.3
MOST_TIMES_PYTHON = 1.0
MOST_TIMES_JSON = 1.5
MOST_TIMES_CPP = 3.0
MOST_TIMES_BYTES = 30.0
# The memory that a process may have beside that.
BYTES_BESIDE = 33_554_432
MOST_REGISTRIES = 32
MOST_ACCOUNTS = 1_000
MOST_BLOCKS = 10_000
MOST_BLOCKS_OF_AN_ALLOTMENT = 20
UNITS_OF_A_BLOCK = 1_000
# The step from one unit to the next of those that lie apart. It shares no factor with the numbers of orders.
STEP = 7_919
MOMENT = "2012-05-01T00:00:00Z"
COUNT_WORDS = "\n".join([
    "import sys",
    "counts = {}",
    "for word in sys.stdin.read().split():",
    "    counts[word] = counts.get(word, 0) + 1",
    "print(len(counts))",
])
READ_SCHEME = "\n".join([
    "import json, sys",
    "registries = json.load(sys.stdin)['registries']",
    "accounts = {(it['code'], account) for it in registries for account in it['accounts']}",
    "blocks = []",
    "for registry in registries:",
    "    for allotted in registry['allotted']:",
    "        assert (registry['code'], allotted['account']) in accounts",
    "        for block in allotted['units']:",
    "            origin, period, units, kind = block.split(':')",
    "            first, last = map(int, units.split('-'))",
    "            blocks.append((origin, period, first, last))",
    "blocks.sort()",
    "assert all(one[:2] != next[:2] or one[3] < next[2] for one, next in zip(blocks, blocks[1:]))",
    "print(len(accounts), len(blocks))",
])


def scheme(codes, units):
    """Returns a scheme of registries with account 1, each with that many units of its own."""
    registries = [{
        "accounts": [1],
        "allotted": [{"account": 1, "units": [f"{code}:1:1-{units}:AAU"]}],
        "code": code,
        "eligible": True,
        "kinds": ["AAU"],
    } for code in codes]
    return json.dumps({"records": 1_000_000, "registries": registries}, separators=(",", ":"))


def codes_of(count):
    return [f"{chr(65 + i // 26)}{chr(65 + i % 26)}" for i in range(count)]


def commits(count):
    yield scheme(codes_of(2), 1)
    for _ in range(count):
        yield "commit AA 0"


def orders(count):
    yield scheme(codes_of(2), count)
    for unit in range(1, count + 1):
        yield f"propose AA 1 AB 1 AA:1:{unit}-{unit}:AAU"


def orders_apart(count):
    yield scheme(codes_of(2), 2 * count)
    for number in range(count):
        unit = 2 * (STEP * number % count) + 1
        yield f"propose AA 1 AB 1 AA:1:{unit}-{unit}:AAU"


def allotments(accounts, blocks, chance):
    """Yields the blocks in groups of 1 to 20, each for some account."""
    rest = iter(blocks)
    while units := list(itertools.islice(rest, chance.randint(1, MOST_BLOCKS_OF_AN_ALLOTMENT))):
        yield {"account": chance.choice(accounts), "units": units}


def schemes(count):
    """Yields a scheme of that number of blocks. Neither its registries nor its blocks are in order."""
    chance, codes = random.Random(count), codes_of(MOST_REGISTRIES)
    chance.shuffle(codes)
    firsts = [number * UNITS_OF_A_BLOCK + 1 for number in range(count)]
    units = [f"AA:1:{first}-{first + UNITS_OF_A_BLOCK - 1}:AAU" for first in firsts]
    chance.shuffle(units)
    registries = []
    for place, code in enumerate(codes):
        accounts = chance.sample(range(1, 1_000_000_000), MOST_ACCOUNTS * count // MOST_BLOCKS)
        allotted = list(allotments(accounts, units[place::MOST_REGISTRIES], chance))
        registries.append({"accounts": accounts, "allotted": allotted, "code": code, "eligible": True, "kinds": ["AAU"]})
    yield json.dumps({"records": 1_000, "registries": registries}, separators=(",", ":"))


def transfers(codes, count, together=1):
    """Yields the lines of transfers of a unit each, from each registry in turn to the next one. Of so many together each
    takes a step before any takes the next one. A posted message is delivered at once."""
    yield scheme(codes, count)
    sent = {node: 0 for node in [*codes, "ITL"]}
    posted = 0

    def passed(node):
        nonlocal posted
        yield f"commit {node} 1"
        yield f"post {node} {sent[node]}"
        yield f"deliver {posted} {MOMENT}"
        sent[node] += 1
        posted += 1

    for start in range(0, count, together):
        numbers = range(start, min(start + together, count))
        pairs = [(codes[number % len(codes)], codes[(number + 1) % len(codes)]) for number in numbers]
        for number, (initiator, acquirer) in zip(numbers, pairs):
            unit = number // len(codes) + 1
            yield f"propose {initiator} 1 {acquirer} 1 {initiator}:1:{unit}-{unit}:AAU"
        for step in range(6):
            for initiator, acquirer in pairs:
                yield from passed((initiator, "ITL", acquirer, "ITL", initiator, "ITL")[step])
        for _, acquirer in pairs:
            yield f"commit {acquirer} 1"


def delivered_twice(count):
    yield from transfers(codes_of(2), count)
    for index in range(6 * count):
        yield f"deliver {index} {MOMENT}"


# The loads that the program in C++ also reads, and the one of schemes alone.
ORDERS = ("orders", "orders of units that lie apart")
SCHEMES = "schemes"
# The name of a load, its lines for a size, and the largest size. A half and a quarter of it are the other sizes.
# Schemes come first: they are small, and this process grows as it compares outputs.
LOADS = [
    (SCHEMES, schemes, MOST_BLOCKS),
    ("commits of no record", commits, 1_200_000),
    (ORDERS[0], orders, 360_000),
    (ORDERS[1], orders_apart, 360_000),
    ("transfers between 2 registries", lambda count: transfers(codes_of(2), count), 36_000),
    ("transfers between 32 registries", lambda count: transfers(codes_of(32), count), 36_000),
    ("everything delivered twice", delivered_twice, 24_000),
]


@functools.cache
def program():
    """Returns the path of the program that the launcher runs. The launcher proves and builds it first if necessary."""
    return run_to_end([LAUNCHER, "path"], stdout=subprocess.PIPE, text=True).stdout.strip()


def run(words, given, taken):
    """Returns the seconds of a command, and its greatest peak of memory in bytes."""
    with given.open("rb") as reader, taken.open("wb") as writer:
        start = time.perf_counter()
        process = subprocess.Popen(words, stdin=reader, stdout=writer)
        _, status, used = os.wait4(process.pid, 0)
        spent = time.perf_counter() - start
    process.returncode = os.waitstatus_to_exitcode(status)
    check_end(words, process.returncode)
    return spent, used.ru_maxrss * 1024


def write_lines(path, lines):
    """Writes the lines one by one, and returns their number. Thus this process stays small: the peak of a process
    before it executes another program counts for that program too."""
    count = 0
    with path.open("w", encoding="utf-8") as output:
        for line in lines:
            output.write(f"{line}\n")
            count += 1
    return count


def check_output(path, name, events):
    """Exits with status 1 unless each event has its line and isn't refused, and the last line is that of the report."""
    with path.open(encoding="utf-8") as output:
        for number in range(1, events + 1):
            line = output.readline()
            if not line.startswith(f"{number} ") or "refused" in line or "not possible" in line:
                sys.exit(f"{name}: line {number} of the output is {line!r}")
        if not output.read().endswith("\nend\n"):
            sys.exit(f"{name}: the output has no end")


def inputs_of(name, lines_of, largest, room):
    """Returns the three sizes of a load, each with the file of its input, after one run of each whose output is
    checked."""
    inputs, taken = [], room / "output"
    for size in (largest // 4, largest // 2, largest):
        given = room / f"input-{size}"
        count = write_lines(given, lines_of(size))
        length = given.stat().st_size
        if length > LONGEST_INPUT:
            sys.exit(f"{name}: an input of {length:,} bytes is too long")
        run([program(), "rehearse"], given, taken)
        check_output(taken, name, count - 1)
        inputs.append((size, given))
    return inputs


@functools.cache
def orders_in_cpp(room):
    """Builds the program in C++ at the first call, and returns its path."""
    need("g++", f"builds {IN_CPP.name}")
    built = room / "orders"
    run_to_end(["g++", "-O2", "-std=c++17", "-Wall", "-Wextra", "-o", built, IN_CPP])
    return built


def peer_of(name, given, taken, runs, room):
    """Returns the best time of the load's peer, its name, and the limit of `rehearse` as a multiple of that time."""
    if name not in ORDERS:
        script, most = (READ_SCHEME, MOST_TIMES_JSON) if name == SCHEMES else (COUNT_WORDS, MOST_TIMES_PYTHON)
        words = [sys.executable, "-c", script]
        return min(run(words, given, taken)[0] for _ in range(runs)), "Python", most
    run([program(), "rehearse"], given, taken)
    written = taken.read_bytes()
    times = []
    for _ in range(runs):
        times.append(run([orders_in_cpp(room)], given, taken)[0])
        if taken.read_bytes() != written:
            sys.exit(f"{name}: the program in C++ writes another output")
    return min(times), "C++", MOST_TIMES_CPP


def measure(name, lines_of, largest, runs, room):
    """Prints a line for each size of a load, and returns whether it is within the limits. The sizes run in turn, so
    that a slow moment of the machine affects all of them."""
    kept, before, taken = True, None, room / "output"
    inputs = inputs_of(name, lines_of, largest, room)
    measured = [[run([program(), "rehearse"], given, taken) for _, given in inputs] for _ in range(runs)]
    for (size, given), of_size in zip(inputs, zip(*measured)):
        length = given.stat().st_size
        best = min(spent for spent, _ in of_size)
        memory = max(peak for _, peak in of_size)
        kept = kept and memory <= MOST_TIMES_BYTES * length + BYTES_BESIDE
        text = f"{name:<32} {size:>8,}  {length:>10,} bytes  {best:8.3f} s  memory {memory / length:5.1f}"
        if before is not None:
            ratio = best / before
            kept = kept and ratio <= MOST_RATIO
            text += f"  ratio {ratio:.2f}"
        if size == largest:
            other, peer, most = peer_of(name, given, taken, runs, room)
            kept = kept and best <= most * other
            text += f"  {best / other:.2f} times {peer}"
        print(text, flush=True)
        before = best
    return kept


def main():
    parser = argparse.ArgumentParser(description=__doc__.splitlines()[0])
    parser.add_argument("--runs", type=int, default=5, help="the number of runs of each input; the best time counts")
    parser.add_argument("--load", help="run only loads with this text in their names")
    words = parser.parse_args()
    program()
    kept = True
    with tempfile.TemporaryDirectory() as folder:
        for name, lines_of, largest in LOADS:
            if words.load is None or words.load in name:
                kept = measure(name, lines_of, largest, max(1, words.runs), pathlib.Path(folder)) and kept
    print(f"limits: ratio {MOST_RATIO}, memory {MOST_TIMES_BYTES:.0f} times the input and 32 MB, {MOST_TIMES_CPP:.0f} times C++ of orders, "
          f"{MOST_TIMES_JSON} times Python of schemes, otherwise {MOST_TIMES_PYTHON:.0f}")
    sys.exit(0 if kept else 1)


if __name__ == "__main__":
    main()
