#!/usr/bin/env python3
"""Kills runs at random moments. After each kill the stores must have a table, and a new run must go on from there.

    kills.py [--kills N] [--registries N] [--transfers N] [--longest SECONDS] [--seed N]

A script of transfers from each registry to the next one is run over one folder and killed after a random time, again
and again. After each kill `audit` must write a table in which each allotted unit is held once or owed once; the next
script orders the transfers that are missing from it. The last run isn't killed. It must end with every transfer
Completed at its three nodes, and `audit` must write the run's table.

A line is printed after each kill and after the last run. The exit status is 1 if a check fails.
"""

import argparse
import pathlib
import random
import re
import signal
import subprocess
import sys
import tempfile
import time

import paths
from endings import check_end, run_to_end
from rehearse import codes_of, program, scheme

TURNS = 60_000
# The statuses of a run that is killed: it may have ended just before.
KILLED = (-signal.SIGKILL, 0)


def transactions(table):
    """Returns the words of each line of a transaction."""
    return [line.split() for line in table.splitlines() if line.startswith("transaction ")]


def tonnes(table):
    """Returns the number of units that are held or owed according to the table."""
    counts = re.findall(r"^(?:registry \w+ held|owed) (\d+)", table, re.MULTILINE)
    return sum(map(int, counts))


def is_completed(words):
    return words[3::2] == ["Completed"] * 3


def script(codes, goal, table):
    """Returns a script that orders the transfers that are missing from the table, a unit each, and then asks for the
    end of each transfer that isn't Completed."""
    done = {code: 0 for code in codes}
    names = []
    for words in transactions(table):
        done[words[2]] += 1
        if not is_completed(words):
            names.append((words[6], words[1]))
    lines = []
    for number in range(goal):
        for place, code in enumerate(codes):
            if number >= done[code]:
                other = codes[(place + 1) % len(codes)]
                lines.append(f"propose {code} 1 {other} 1 {code}:1:{number + 1}-{number + 1}:AAU")
                names.append((other, f"{code}{number + 1}"))
    lines += [f"until {node} {name} Completed {TURNS}" for node, name in names]
    # A script has at least one line.
    lines = lines or [f"status {codes[0]} {codes[0]}1"]
    return "".join(f"{line}\n" for line in lines)


class Folder:
    """A folder with a scheme, a script and stores."""

    def __init__(self, path, codes, goal):
        self.codes, self.goal, self.path = codes, goal, pathlib.Path(path)
        self.scheme, self.stores, self.script = (self.path / name for name in ("scheme", "stores", "script"))
        self.scheme.write_text(scheme(codes, goal))
        self.stores.mkdir()

    def audit(self):
        ended = run_to_end([program(), "audit", self.scheme, self.stores], capture_output=True, text=True)
        if tonnes(ended.stdout) != self.goal * len(self.codes):
            sys.exit(f"audit counts {tonnes(ended.stdout)} tonnes:\n{ended.stdout}")
        return ended.stdout

    def started(self, table):
        """Starts a run of the transfers that are missing from the table."""
        self.script.write_text(script(self.codes, self.goal, table))
        words = [program(), "run", self.scheme, self.stores, self.script]
        return subprocess.Popen(words, stdout=subprocess.PIPE, stderr=subprocess.PIPE, text=True)


def main():
    words = argparse.ArgumentParser(description=__doc__, formatter_class=argparse.RawDescriptionHelpFormatter)
    words.add_argument("--kills", type=int, default=50, help="the number of runs that are killed")
    words.add_argument("--registries", type=int, default=8)
    words.add_argument("--transfers", type=int, default=8_000, help="the number of transfers of all registries together")
    words.add_argument("--longest", type=float, default=0.6, help="the most seconds after which a run is killed")
    words.add_argument("--seed", type=int, default=None)
    given = words.parse_args()
    chance = random.Random(given.seed)
    program()
    codes = codes_of(given.registries)
    with tempfile.TemporaryDirectory() as room:
        folder = Folder(room, codes, given.transfers // given.registries)
        table = folder.audit()
        for kill in range(given.kills):
            run = folder.started(table)
            time.sleep(chance.uniform(0, given.longest))
            run.kill()
            _, said = run.communicate()
            check_end(run.args, run.returncode, KILLED, said)
            table = folder.audit()
            print(f"kill {kill + 1}: {sum(map(is_completed, transactions(table)))} of {len(transactions(table))} completed", flush=True)
        begin = time.monotonic()
        run = folder.started(table)
        text, said = run.communicate()
        check_end(run.args, run.returncode, said=said)
        table = folder.audit()
        if not text.endswith(table):
            sys.exit("audit writes another table than the last run")
        if len(transactions(table)) != folder.goal * len(codes) or not all(map(is_completed, transactions(table))):
            sys.exit("a transfer isn't completed after the last run")
        print(f"the last run took {time.monotonic() - begin:.1f} s; all transfers are completed, and audit agrees")


if __name__ == "__main__":
    main()
