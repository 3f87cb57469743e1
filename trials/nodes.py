#!/usr/bin/env python3
"""Runs nodes in a process each: killed, over a hostile network, with strangers, and while a peer is down.

    nodes.py [--processes N,N] [--transfers N] [--kills N] [--strangers N] [--down SECONDS]
             [--patience SECONDS] [--only NAME] [--room DIR] [--keep] [--seed N]

`kyoto-link node` is started for the log and for 2 and 32 registries over the loopback interface. These parts are tried:

- answers: a registry and the log, each alone, must write the expected result for each kind of line.
- plain: transfers without a kill, whose time is compared with that of one `kyoto-link run` of the same transfers.
- direct: the same transfers, ordered bit by bit, while nodes are killed at random moments and started again. All share
  a folder.
- lossy: the same with a relay on each link, which drops, delays, doubles, repeats and cuts messages; links without
  keys. Here and in the next part each node has a folder of its own.
- hostile: the same with keys, and a relay that also alters messages and replies and makes some of its own.
- strangers, strangers-with-keys: garbage, wrong messages and empty connections reach an idle node, which may grow by
  less than 1 MB.
- idle: transfers while each node has a thousand idle connections and some slow ones.
- downtime: a registry may try only seldom to reach a log that is down; its transfers must go on once the log is back.

After plain, direct, lossy and hostile each transfer must be Completed at its three nodes, and each tonne must be in one
place, by `audit` of all stores. After the last three of these parts the same must hold by `rehearse` of the `events` of
the stores and by checker/, each order that was reported as recorded must be in its journal, and no message that the
relay made may be in the records. Each process must end as it should.

A line is printed for each part. At the first difference the script writes it to standard error and exits with status 1.
"""

import argparse
import pathlib
import random
import shutil
import sqlite3
import subprocess
import sys
import tempfile
import time

import paths
from folders import Difference
from node_answers import try_answers
from node_group import raise_handles
from node_transfers import try_plain, try_transfers
from rehearse import program
from strangers import try_downtime, try_idle, try_strangers

OVER_WAYS = ("direct", "lossy", "hostile")


def parts(given):
    """Yields the name of each part, the number of its processes, and the function that tries it in a folder."""
    yield "answers", 1, lambda room: try_answers(room, given)
    for processes in given.processes:
        yield "plain", processes, lambda room, it=processes - 1: try_plain(it, room, given)
        for way in OVER_WAYS:
            yield way, processes, lambda room, it=processes - 1, way=way: try_transfers(way, it, room, given)
    yield "strangers", 1, lambda room: try_strangers(False, room, given)
    yield "strangers-with-keys", 1, lambda room: try_strangers(True, room, given)
    yield "idle", 3, lambda room: try_idle(room, given)
    yield "downtime", 3, lambda room: try_downtime(room, given)


def numbers(text):
    return [int(it) for it in text.split(",")]


def try_all(given, room):
    """Tries the chosen parts, and prints a line for each. Returns whether all passed."""
    print(f"seed {given.seed}\n{'part':<20}{'processes':>9}{'seconds':>9}  result", flush=True)
    for number, (name, processes, attempt) in enumerate(parts(given)):
        if given.only and name not in given.only:
            continue
        folder = room / f"{number}-{name}"
        folder.mkdir()
        begin = time.monotonic()
        try:
            text = attempt(folder)
        except (Difference, OSError, sqlite3.Error, subprocess.TimeoutExpired) as found:
            print(f"{name} with {processes} processes, seed {given.seed}: {found}", file=sys.stderr, flush=True)
            return False
        print(f"{name:<20}{processes:>9}{time.monotonic() - begin:>9.1f}  {text}", flush=True)
        if not given.keep:
            shutil.rmtree(folder)
    return True


def main():
    words = argparse.ArgumentParser(description=__doc__, formatter_class=argparse.RawDescriptionHelpFormatter)
    words.add_argument("--processes", type=numbers, default=[3, 33], help="the numbers of processes, with the log's, as 3,33")
    words.add_argument("--transfers", type=int, default=1_000, help="the number of transfers of a part")
    words.add_argument("--kills", type=int, default=200, help="the number of nodes that a part kills")
    words.add_argument("--strangers", type=int, default=1_000_000, help="the number of messages of strangers")
    words.add_argument("--down", type=float, default=90, help="the seconds during which the log is down")
    words.add_argument("--patience", type=float, default=600, help="the most seconds until all transfers are Completed")
    words.add_argument("--only", action="append", default=[], help="try only the part of this name; can be given several times")
    words.add_argument("--room", default=None, help="a folder on the disk to use; the default is a temporary one")
    words.add_argument("--keep", action="store_true", help="keep the folders")
    words.add_argument("--seed", type=int, default=random.randrange(1_000_000))
    given = words.parse_args()
    names = [name for name, _, _ in parts(given)]
    if wrong := [it for it in given.only if it not in names]:
        words.error(f"there is no part {wrong[0]}: {', '.join(dict.fromkeys(names))}")
    raise_handles()
    program()
    room = pathlib.Path(tempfile.mkdtemp(dir=given.room))
    kept = False
    try:
        kept = try_all(given, room)
    finally:
        if given.keep:
            print(f"the folders are in {room}", file=sys.stderr)
        else:
            shutil.rmtree(room, ignore_errors=True)
    return 0 if kept else 1


if __name__ == "__main__":
    sys.exit(main())
