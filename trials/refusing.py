"""Runs programs of which one allocation is refused, by a library that is loaded before the C library."""

import concurrent.futures
import functools
import itertools
import os
import pathlib
import subprocess
import tempfile
import time

import paths
from building import build_c
from rehearse import program

SOURCE = pathlib.Path(__file__).resolve().with_name("no_memory.c")
OUT_OF_MEMORY = (5, b"", b"kyoto-link: out of memory\n")
# The most seconds of a run.
LONGEST = 120
# The most other ends of a command that are printed.
MOST_OTHERS = 5
PROCESSORS = os.cpu_count() or 1


@functools.cache
def built():
    """Returns the path of the program. The launcher is asked for it once."""
    return program()


class Refusing:
    """Runs programs with one allocation refused. Each thread has a folder of its own."""

    def __init__(self, room):
        self.room = pathlib.Path(room)
        self.library = self.room / "no_memory.so"
        build_c(SOURCE, self.library, "-std=gnu11", "-shared", "-fPIC", "-ldl")

    def run(self, words, text, number, test=None, thread=0):
        """Returns the end of a run of the program or of a test's program, and whether an allocation was refused. With
        the number 0 none is refused. The run has a folder of its own, since some tests make stores in their folder."""
        mark = self.room / f"refused-{thread}"
        mark.unlink(missing_ok=True)
        given = os.environ | {"LD_PRELOAD": str(self.library), "REFUSE": str(number), "REFUSED": str(mark)}
        # The program names itself in its help as it was called.
        words = [test or "kyoto-link", *words]
        with tempfile.TemporaryDirectory(dir=self.room) as own:
            try:
                ended = subprocess.run(words, executable=test or built(), input=text, capture_output=True, env=given, cwd=own, timeout=LONGEST, check=False)
            except subprocess.TimeoutExpired:
                return (None, b"", b"no end"), mark.exists()
        return (ended.returncode, ended.stdout, ended.stderr), mark.exists()


class Share:
    """The time of a part of the runs: the seconds until a moment, which its subjects share, or a number for each."""

    def __init__(self, subjects, end=None, each=None):
        self.left, self.end, self.each = subjects, end, each

    def next(self):
        """Returns the seconds of the next subject, or None if it has all that it needs."""
        self.left -= 1
        return self.each if self.end is None else (self.end - time.monotonic()) / (self.left + 1)


def distance(count, each, seconds):
    """Returns the distance of the allocations that are refused if runs of `each` seconds have that time together."""
    return max(1, -(-count // max(1, int(seconds * PROCESSORS / each))))


def allocations_of(is_refused):
    """Returns the number of allocations of a program, by a function that returns whether one with a number is refused."""
    low, high = 0, 1
    while is_refused(high):
        low, high = high, high * 2
    while high - low > 1:
        middle = (low + high) // 2
        low, high = (middle, high) if is_refused(middle) else (low, middle)
    return low


def in_turn(take, step):
    """Has threads take the numbers from 1 on at that distance, until each has taken one that refuses nothing. Returns
    the results of those that did: `take` returns None in place of a result for a number that refuses nothing."""
    numbers = itertools.count(1, step)

    def run(thread):
        return list(iter(lambda: take(next(numbers), thread), None))

    with concurrent.futures.ThreadPoolExecutor(PROCESSORS) as threads:
        return [it for ended in threads.map(run, range(PROCESSORS)) for it in ended]
