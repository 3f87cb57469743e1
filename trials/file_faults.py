#!/usr/bin/env python3
"""Fails each call on a file of a store in turn, during a transfer and during a migration.

    file_faults.py [--only TEXT]

`run` makes the transfer of the example `one_transfer`. For the log, for JP and for NZ, and for the database of each and
its log file, the calls on that file fail (`file_faults.c`, loaded before the C library): first the first one alone, and
in other runs it and all later ones; then the second one in the same two ways, and so on, until a run makes no call that
would fail. Each run must write its table, or end with `store NODE: device`. Then two folders of stores are looked at:
the stores as they were left, and the stores as a loss of power at the end leaves them, where each file has the bytes of
its last sync. In both, `audit` must find each allotted unit once and the records that the run reported, and a second
run must end with the example's table. After a run without a failure the databases must have their records without
their log files.

`show` migrates a store of format 1 with 300 records, over two pages, with the calls on its files failing likewise. Then
both stores must have all their records, in format 2 after a `show` without a failure.

A line is printed for each file, and one for each run that ended otherwise. The exit status is 1 if one did.
"""

import argparse
import concurrent.futures
import itertools
import os
import pathlib
import shutil
import subprocess
import sys
import tempfile

import paths
from building import build_c
from examples import EXAMPLES, WORKED, table_of
from kills import is_completed, tonnes, transactions
from migrate import shown, texts
from records import write_store
from rehearse import program

SOURCE = pathlib.Path(__file__).resolve().with_name("file_faults.c")
INPUT = (EXAMPLES / WORKED / "input").read_bytes()
SCHEME, ORDER = INPUT.splitlines(keepends=True)[:2]
TABLE = table_of((EXAMPLES / WORKED / "output").read_bytes(), INPUT).decode()
# JP's Completed is the last one. The wait of a run whose node stopped is in vain, and short.
QUESTION = b"until JP NZ1 Completed %d\n"
SHORT, LONG = 2_000, 20_000
UNITS = 100
NODES = ("ITL", "JP", "NZ")
FILES = ("db", "db-wal")
# The numbers of calls that fail: one, or more than a run makes.
COUNTS = {"one call": 1, "all calls": 1_000_000}
# More records than a page of a migration has.
RECORDS = 300
# The most seconds of a command, and the number of commands at a time, most of which wait.
LONGEST = 60
THREADS = 16


class Otherwise(Exception):
    """An end other than it should be."""


class Stores:
    """A scheme, a folder of stores, and a folder with their files as of the last sync of each."""

    def __init__(self, library, room):
        self.library, self.room = library, pathlib.Path(room)
        self.left, self.synced, self.failed = (self.room / name for name in ("left", "synced", "failed"))
        (self.room / "scheme").write_bytes(SCHEME)
        self.left.mkdir()
        self.synced.mkdir()

    def run(self, command, folder, *words, fault=None):
        """Returns the end of a command over the stores of a folder, in which the calls of that fault fail."""
        given = dict(os.environ)
        if fault:
            ending, start, count = fault
            given |= {"LD_PRELOAD": str(self.library), "FAIL": ending, "FAIL_FROM": str(start), "FAIL_COUNT": str(count)}
            given |= {"FAILED": str(self.failed), "SYNCED": str(self.synced)}
        words = ["kyoto-link", command, self.room / "scheme", folder, *words]
        return subprocess.run(words, executable=program(), env=given, capture_output=True, text=True, timeout=LONGEST, check=False)

    def output(self, command, folder, *words):
        """Returns the output of a command that must succeed."""
        ended = self.run(command, folder, *words)
        if ended.returncode != 0:
            raise Otherwise(f"{command} of {folder.name} stores: status {ended.returncode}, {ended.stderr!r}")
        return ended.stdout


def has_fault(ended, node):
    return ended.returncode == 4 and ended.stderr.endswith(f"kyoto-link: store {node}: device\n")


def complete(stores, folder, output):
    """Has a run complete the transfer, which its stores may already have begun. Each unit must be in one place before,
    and what the run before it wrote must be in its stores."""
    table = stores.output("audit", folder)
    if tonnes(table) != UNITS:
        raise Otherwise(f"audit of {folder.name} stores counts {tonnes(table)} units:\n{table}")
    begun = transactions(table)
    if ("1 recorded 0\n" in output and not begun) or ("2 status Completed\n" in output and table != TABLE):
        raise Otherwise(f"a run wrote {output!r}, and the {folder.name} stores have the table {table!r}")
    script = stores.room / "script"
    script.write_bytes((b"" if begun else ORDER) + QUESTION % LONG)
    found = stores.output("run", folder, script)
    if not found.endswith(TABLE) or (begun and is_completed(begun[0]) and table != TABLE):
        raise Otherwise(f"a second run of {folder.name} stores ends with {found!r}")


def transfer(stores, node, fault):
    """Has a run make the transfer, in which the calls of that fault fail."""
    script = stores.room / "script"
    script.write_bytes(ORDER + QUESTION % SHORT)
    ended = stores.run("run", stores.left, script, fault=fault)
    # On a slow machine the transfer may take longer than the wait: then the second run completes it.
    is_whole = ended.returncode == 0 and ended.stdout.endswith("\nend\n")
    if not is_whole and not (has_fault(ended, node) and stores.failed.exists()):
        raise Otherwise(f"status {ended.returncode}, {ended.stdout!r}, {ended.stderr!r}")
    if not stores.failed.exists():
        for path in stores.left.glob("*.db-wal"):
            path.unlink()
    for folder in (stores.left, stores.synced):
        complete(stores, folder, ended.stdout)
    return is_whole


def migration(stores, node, fault):
    """Has `show` migrate a store, in which the calls of that fault fail."""
    write_store(stores.left, node, texts(RECORDS), form=1)
    shutil.copy(stores.left / f"{node}.db", stores.synced)
    wanted = "".join(shown(RECORDS))
    ended = stores.run("show", stores.left, node, fault=fault)
    is_whole = ended.returncode == 0 and ended.stdout == wanted
    if not is_whole and not (has_fault(ended, node) and stores.failed.exists()):
        raise Otherwise(f"status {ended.returncode}, {len(ended.stdout)} bytes written, {ended.stderr!r}")
    for folder in (stores.left, stores.synced):
        if stores.output("show", folder, node) != wanted:
            raise Otherwise(f"a second show of {folder.name} stores writes other records")
    return is_whole


def fail_each(library, name, work, node, ending, count):
    """Fails each call on a file in turn, and that number of calls from it on. Returns a line about it, and a line for
    each end that is otherwise."""
    others, faults = [], 0
    for start in itertools.count(1):
        with tempfile.TemporaryDirectory() as room:
            stores = Stores(library, room)
            try:
                faults += not work(stores, node, (f"/{node}.{ending}", start, count))
            except (Otherwise, subprocess.TimeoutExpired) as other:
                others.append(f"{name}, from call {start} on: {other}")
            if not stores.failed.exists():
                return f"{name}: {start - 1} runs with a failing call, {faults} ended with a fault, {len(others)} otherwise", others


def main():
    words = argparse.ArgumentParser(description=__doc__, formatter_class=argparse.RawDescriptionHelpFormatter)
    words.add_argument("--only", metavar="TEXT", default="", help="try only the files with this text in their lines")
    given = words.parse_args()
    program()
    subjects = [(transfer, node, ending) for node, ending in itertools.product(NODES, FILES)]
    subjects += [(migration, "NZ", ending) for ending in FILES]
    tasks = [(f"{work.__name__}, {node}.{ending}, {words}", work, node, ending, count)
             for (work, node, ending), (words, count) in itertools.product(subjects, COUNTS.items())]
    kept = True
    with tempfile.TemporaryDirectory() as room, concurrent.futures.ThreadPoolExecutor(THREADS) as threads:
        library = pathlib.Path(room) / "file_faults.so"
        build_c(SOURCE, library, "-std=gnu11", "-shared", "-fPIC", "-ldl")
        chosen = [task for task in tasks if given.only in task[0]]
        for line, others in threads.map(lambda task: fail_each(library, *task), chosen):
            print(line, *others, sep="\n", flush=True)
            kept = kept and not others
    return 0 if kept and chosen else 1


if __name__ == "__main__":
    sys.exit(main())
