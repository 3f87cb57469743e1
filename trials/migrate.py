#!/usr/bin/env python3
"""Measures the migration of stores of format 1 by `kyoto-link show`, kills it, and runs it on a full disk.

    migrate.py [--records N] [--kills N]

There are three pairs of sizes, of which the second is twice the first. A line for each size has the seconds of the
migration, which are those of the first `show` less those of the next one; the ratio of a doubling; the greatest peak of
memory as a multiple of that of the next `show`, which opens the migrated store; and the time as a multiple of the time
that SQLite's library needs to give each record of the same store its new key, in one transaction.

Then a migration is killed at random moments. After each kill the store must have format 1 or format 2, with all its
records in that format, and the next `show` must write them all. Finally a migration runs on a disk that is too small:
its fault must be `full`, and the store must still have format 1. This is left out, with a line that says it, if no such
disk can be mounted. The exit status is 1 if a check fails or a limit is exceeded.
"""

import argparse
import os
import pathlib
import random
import shutil
import signal
import sqlite3
import subprocess
import sys
import tempfile
import time

import paths
from endings import check_end, run_to_end
from records import write_store
from rehearse import program, run, scheme

MOST_RATIO = 2.3
MOST_TIMES_OPENING = 1.5
MOST_TIMES_SQLITE = 12.0
PAIRS = ((10_000, 20_000), (100_000, 200_000), (500_000, 1_000_000))
NODE = "AA"
# The statement by which SQLite migrates the records.
REWRITE = "UPDATE entries SET body = json_insert(body, '$.v', 2)"


def texts(count, ending=""):
    """Yields the texts of `count` records: account 1 is closed and opened in turn."""
    for place in range(count):
        word = "open" if place % 2 else "close"
        yield f'{{"account":1,"input":"{word}"{ending}}}'


def shown(count):
    """Yields the lines that `show` must write of these records."""
    yield from (f"{place} {text}\n" for place, text in enumerate(texts(count, ',"v":2')))
    yield "end\n"


class Store:
    """A folder with a scheme and a store of format 1."""

    def __init__(self, place, count):
        self.count = count
        self.folder, self.scheme, self.taken = place / "stores", place / "scheme", place / "output"
        self.folder.mkdir()
        self.scheme.write_text(scheme([NODE, "AB"], 1) + "\n", encoding="utf-8")
        write_store(self.folder, NODE, texts(count), form=1)
        self.words = [program(), "show", self.scheme, self.folder, NODE]

    def show(self):
        """Runs `show`, checks its output, and returns its seconds and its peak of memory."""
        measured = run(self.words, self.scheme, self.taken)
        self.check_output()
        return measured

    def check_output(self):
        with self.taken.open(encoding="utf-8") as output:
            for wanted in shown(self.count):
                found = output.readline()
                if found != wanted:
                    sys.exit(f"show wrote {found!r} instead of {wanted!r}")
            if output.readline():
                sys.exit("show wrote lines after its end")

    def found(self):
        """Returns the format of the store. All its records must be of that format."""
        store = sqlite3.connect(self.folder / f"{NODE}.db")
        (form,) = store.execute("SELECT format FROM about").fetchone()
        ending = {1: "", 2: ',"v":2'}[form]
        rows = store.execute("SELECT place, body FROM entries ORDER BY place")
        for place, wanted in enumerate(texts(self.count, ending)):
            row = rows.fetchone()
            if row != (place, wanted):
                sys.exit(f"a store of format {form} has {row} at place {place}")
        if rows.fetchone() is not None:
            sys.exit(f"a store of format {form} has more records than before")
        store.close()
        return form

    def sqlite_time(self):
        """Returns the seconds that SQLite's library needs to rewrite a copy of the store."""
        with tempfile.TemporaryDirectory(dir=self.folder.parent) as place:
            copy = shutil.copy(self.folder / f"{NODE}.db", place)
            start = time.perf_counter()
            store = sqlite3.connect(copy)
            store.execute("PRAGMA journal_mode = WAL")
            store.execute("PRAGMA synchronous = FULL")
            store.execute(REWRITE)
            store.execute("UPDATE about SET format = 2")
            store.commit()
            store.close()
            return time.perf_counter() - start


def measure(count, before, room):
    """Prints the line of a size. Returns the seconds, and whether the size is within the limits."""
    with tempfile.TemporaryDirectory(dir=room) as place:
        store = Store(pathlib.Path(place), count)
        beside = store.sqlite_time()
        first, peak = store.show()
        later, usual = min(store.show() for _ in range(3))
        if store.found() != 2:
            sys.exit("the store isn't migrated")
    spent = max(first - later, 0.000_001)
    memory, times = peak / usual, spent / beside
    kept = memory <= MOST_TIMES_OPENING and times <= MOST_TIMES_SQLITE
    text = f"{count:>9,} records  {spent:8.3f} s  memory {memory:4.2f} of opening  {times:5.1f} times SQLite"
    if before is not None:
        kept = kept and spent / before <= MOST_RATIO
        text += f"  ratio {spent / before:.2f}"
    print(text, flush=True)
    return spent, kept


def measure_pairs(most, room):
    kept = True
    for pair in PAIRS:
        before = None
        for count in pair:
            if count <= most:
                before, is_kept = measure(count, before, room)
                kept = is_kept and kept
    return kept


def kill(count, kills, room):
    """Kills migrations of a store of `count` records at random moments, and checks the store after each."""
    formats = {1: 0, 2: 0}
    with tempfile.TemporaryDirectory(dir=room) as place:
        whole = pathlib.Path(place) / "whole"
        whole.mkdir()
        longest, _ = Store(whole, count).show()
    for _ in range(kills):
        with tempfile.TemporaryDirectory(dir=room) as place:
            store = Store(pathlib.Path(place), count)
            with store.taken.open("wb") as writer, subprocess.Popen(store.words, stdout=writer) as process:
                time.sleep(random.uniform(0, longest))
                process.kill()
            check_end(store.words, process.returncode, wanted=(-signal.SIGKILL, 0))
            formats[store.found()] += 1
            store.show()
            if store.found() != 2:
                sys.exit("the store isn't migrated after a kill")
    print(f"{kills} kills of migrations of {count:,} records: {formats[1]} left format 1, {formats[2]} format 2", flush=True)


def fill(count, room):
    """Migrates a store of `count` records on a disk that has room for it once."""
    disk = room / "disk"
    disk.mkdir()
    with tempfile.TemporaryDirectory(dir=room) as place:
        source = Store(pathlib.Path(place), count)
        size = (source.folder / f"{NODE}.db").stat().st_size
        mount = ["mount", "-t", "tmpfs", "-o", f"size={size + size // 2}", "tmpfs", disk]
        if os.geteuid() != 0 or subprocess.run(mount, check=False, stderr=subprocess.DEVNULL).returncode != 0:
            print("no small disk can be mounted here: a full one isn't tried")
            return
        try:
            shutil.copy(source.folder / f"{NODE}.db", disk)
            source.folder = disk
            words = [program(), "show", source.scheme, disk, NODE]
            ended = subprocess.run(words, check=False, capture_output=True, text=True)
            check_end(words, ended.returncode, wanted=(4,), said=ended.stderr)
            if ended.stderr != f"kyoto-link: store {NODE}: full\n" or ended.stdout:
                sys.exit(f"the fault of a full disk is {ended.stderr!r}, after {len(ended.stdout)} characters of output")
            # SQLite's library needs room for files of its own beside the store.
            source.folder = pathlib.Path(place) / "copy"
            shutil.copytree(disk, source.folder)
            if source.found() != 1:
                sys.exit("the store isn't of format 1 after a migration without room")
        finally:
            run_to_end(["umount", disk])
    print(f"a disk without room for the migration of {count:,} records: `full`, and format 1 with all records", flush=True)


def main():
    parser = argparse.ArgumentParser(description=__doc__.splitlines()[0])
    parser.add_argument("--records", type=int, default=1_000_000, help="the greatest number of records of a store")
    parser.add_argument("--kills", type=int, default=50, help="the number of migrations that are killed")
    words = parser.parse_args()
    program()
    with tempfile.TemporaryDirectory() as folder:
        room = pathlib.Path(folder)
        kept = measure_pairs(words.records, room)
        kill(min(20_000, words.records), words.kills, room)
        fill(min(20_000, words.records), room)
    print(f"limits: ratio {MOST_RATIO}, memory {MOST_TIMES_OPENING} of opening, {MOST_TIMES_SQLITE:.0f} times SQLite")
    sys.exit(0 if kept else 1)


if __name__ == "__main__":
    main()
