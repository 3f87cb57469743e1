#!/usr/bin/env python3
"""Compares `kyoto-link` with checker/ over random rehearsals of all kinds of events.

    night.py [--seed N] [--workers N] COUNT

The script makes rehearsals until they have COUNT events: under random schemes, valid and invalid orders, messages
delivered early, late, twice and never, crashes, requests, clean-ups, closings, acknowledgements and full journals. For
each rehearsal the report of `kyoto-link rehearse` must be that of checker/worlds.py, and `kyoto-link audit` of stores
with its journals must write the table of the report. By the scheme and the table alone, the held and owed units must
add up to the allotted ones, no unit may be in two lines, and no transaction may be Completed at one node and Rejected,
Terminated or Cancelled at another.

At the end the rate and the number of each outcome are printed. If a seed fails, it is printed with the shortest list of
its events found that still fails, and the exit status is 1.
"""

import argparse
import collections
import json
import multiprocessing
import os
import pathlib
import random
import re
import subprocess
import sys
import tempfile
import time

import paths

import formats
import worlds
from journals import record_text
from records import write_store
from rehearse import program

START = 1_335_830_400
LENGTH = 400
UNDONE = {"Rejected", "Terminated", "Cancelled"}
BLOCK = re.compile(r"([A-Z]{2}):([12]):(\d+)-(\d+):\w+")


class Rehearsal:
    """A random scheme and random events. Each event is chosen after the effects of those before it."""

    def __init__(self, seed, counts=(2, 2, 3, 3, 4, 5, 8, 32)):
        self.random = random.Random(seed)
        count = self.random.choice(counts)
        letters = [a + b for a in "ABCDEFGH" for b in "JKLMN"]
        self.codes = sorted(self.random.sample(letters, count))
        self.text = json.dumps(self.scheme(), separators=(",", ":"))
        registries, records = formats.scheme(self.text)
        self.pool = [self.part(block) for it in registries.values() for _, block in it["allotted"] for _ in range(3)]
        self.pool += [self.odd_block() for _ in range(6)]
        self.world = worlds.World(registries, records, self.pool)
        self.moment = START
        self.delivered = set()

    def scheme(self):
        most = formats.LAST_ACCOUNT
        registries = []
        for code in self.codes:
            accounts = sorted({self.random.choice((1, 2, 7, self.random.randint(1, most), most)) for _ in range(self.random.randint(1, 3))})
            allotted, number = [], 1
            for _ in range(self.random.randint(0, 4)):
                number += self.random.choice((0, 0, 1, 50))
                length = self.random.choice((1, 4, 100, 10**9))
                text = f"{code}:{self.random.choice((1, 2))}:{number}-{number + length - 1}:{self.random.choice(formats.KINDS)}"
                allotted.append({"account": self.random.choice(accounts), "units": [text]})
                number += length
            kinds = list(formats.KINDS) if self.random.random() < 0.7 else self.random.sample(formats.KINDS, 3)
            registries.append({"accounts": accounts, "allotted": allotted, "code": code, "eligible": self.random.random() < 0.95, "kinds": kinds})
        return {"records": self.random.choice((1000, 1000, 1000, 12)), "registries": registries}

    def part(self, block):
        first = self.random.randint(block.first, block.last)
        last = self.random.choice((block.last, self.random.randint(first, block.last)))
        return block._replace(first=self.random.choice((block.first, first)), last=last)

    def odd_block(self):
        first = self.random.choice((0, 1, 3, 60, formats.LAST_NUMBER))
        last = self.random.choice((first, first + 1, first + 80, 2))
        return formats.Block(self.random.choice((*self.codes, "ZZ")), self.random.choice((1, 2)), first, last, self.random.choice(formats.KINDS))

    def registry(self):
        return self.random.choice((*self.codes, *self.codes, *self.codes, formats.ITL, "ZZ")) if self.random.random() < 0.2 else self.random.choice(self.codes)

    def account(self, code):
        known = self.world.registries.get(code, {"accounts": []})["accounts"]
        return self.random.choice((*known, *known, *known, 0, 1, formats.LAST_ACCOUNT + 1))

    def orders(self):
        node, to = self.registry(), self.random.choice((*self.codes, *self.codes, "ZZ"))
        name = self.random.choices(("propose", "request", "open", "close", "eligible", "clean-up", "ack"), (60, 8, 4, 6, 4, 10, 8))[0]
        if name == "propose":
            held = self.world.nodes[node].held if node in self.codes else {}
            owners = [it for piece, it in held.items()]
            account = self.random.choice(owners)[0] if owners and self.random.random() < 0.9 else self.account(node)
            mine = [it for it in self.pool if formats.is_block(it) and all(held.get(piece, [None])[0] == account for piece in self.world.atoms.of(it))]
            source = mine if mine and self.random.random() < 0.9 else self.pool
            blocks = [self.random.choice(source) for _ in range(self.random.choice((1, 1, 1, 2, 3, 0, 17)))]
            return " ".join((name, node, str(account), to, str(self.account(to)), *map(formats.block_text, blocks)))
        if name == "request":
            return f"{name} {node} {self.random.choice((node if node in self.codes else to, to))}{self.random.choice((1, 1, 2, 3, 999_999))}"
        if name in ("open", "close"):
            return f"{name} {node} {self.account(node)}"
        if name == "eligible":
            return f"{name} {to} {self.random.choice(('yes', 'yes', 'no'))}"
        if name == "clean-up":
            return f"{name} {formats.moment_text(self.moment + self.random.choice((0, 3_600, 86_399, 86_400, 86_401)))}"
        return f"{name} {node} {self.random.choice((0, 0, 1, 2, 50))}"

    def moves(self):
        """Returns a commit, a post or a delivery, which is possible in most cases."""
        world = self.world
        tails = [name for name in world.nodes if world.tail(name)]
        if tails and self.random.random() < 0.4:
            name = self.random.choice(tails)
            return f"commit {name} {self.random.choice((world.tail(name), world.tail(name), 1, world.tail(name) + 1))}"
        ready = [(name, key) for name, node in world.nodes.items() for key, (at, _) in enumerate(node.sent)
                 if at < world.committed[name] and key not in world.posted[name]]
        if ready and self.random.random() < 0.6:
            return "post {} {}".format(*self.random.choice(ready))
        if world.bag:
            self.moment += self.random.choice((0, 0, 1, 60, 7_200))
            fresh = [at for at in range(len(world.bag)) if at not in self.delivered]
            number = self.random.choice(fresh) if fresh and self.random.random() < 0.7 else self.random.randrange(len(world.bag) + 1)
            self.delivered.add(number)
            return f"deliver {number} {formats.moment_text(self.moment)}"
        return f"post {self.random.choice((*self.codes, formats.ITL))} {self.random.choice((0, 1))}"

    def stops(self):
        world = self.world
        if world.stopped and self.random.random() < 0.95:
            return f"restart {self.random.choice(sorted(world.stopped))}"
        name = self.random.choice((*self.codes, formats.ITL))
        return f"crash {name} {self.random.choice((0, world.tail(name), world.tail(name) // 2, world.tail(name) + 1))}"

    def lines(self, length):
        found = [self.text]
        for _ in range(length):
            stops = 20 if self.world.stopped else 1
            chosen = self.random.choices((self.orders, self.moves, self.stops), (20, 75, stops))[0]
            found.append(chosen())
            self.world.apply(formats.event(found[-1]))
        return found


def run(words, given=None):
    return subprocess.run(words, input=given, capture_output=True, text=True, check=False)


def wrong_table(scheme, table):
    """Returns a text about a table that is wrong by itself, or None."""
    registries, _ = formats.scheme(scheme)
    allotted = sum(block.last - block.first + 1 for it in registries.values() for _, block in it["allotted"])
    counted, lines = 0, collections.defaultdict(list)
    for line in table:
        words = line.split(" ")
        if words[0] == "registry":
            counted += int(words[3])
        elif words[0] == "owed":
            counted += int(words[1])
        elif words[0] in ("holds", "due"):
            origin, period, first, last = BLOCK.search(line).groups()
            lines[origin, period].append((int(first), int(last)))
        elif words[0] == "transaction":
            statuses = set(words[3::2])
            if "Completed" in statuses and statuses & UNDONE:
                return f"contradictory statuses: {line}"
    if counted != allotted:
        return f"{counted} units held and owed of {allotted} allotted"
    for of_line in lines.values():
        of_line.sort()
        if any(one[1] >= other[0] for one, other in zip(of_line, of_line[1:])):
            return "a unit in two lines"
    return None


def difference(lines, folder):
    """Returns the difference between the program and checker/, or None."""
    text = "\n".join([*lines, ""])
    report, world = worlds.rehearse(text)
    ended = run([program(), "rehearse"], text)
    if ended.returncode or ended.stdout != report:
        return f"rehearse: status {ended.returncode}, {ended.stderr.strip()}"
    table = report.split("\n")[len(lines) - 1:-1]
    wrong = wrong_table(lines[0], table)
    if wrong:
        return wrong
    room = pathlib.Path(tempfile.mkdtemp(dir=folder))
    (room / "scheme").write_text(lines[0] + "\n")
    for name, node in world.nodes.items():
        write_store(room, name, map(record_text, node.journal))
    audited = run([program(), "audit", str(room / "scheme"), str(room)])
    run(["rm", "-r", str(room)])
    same = audited.returncode == 0 and audited.stdout.split("\n")[:-1] == table
    return None if same else f"audit: status {audited.returncode}, {audited.stderr.strip()}"


def fewest(lines, folder):
    """Returns a short list of the lines that still differ."""
    size = len(lines) // 2
    while size:
        at = 1
        while at < len(lines):
            left = lines[:at] + lines[at + size:]
            if len(left) < len(lines) and difference(left, folder):
                lines = left
            else:
                at += size
        size //= 2
    return lines


def night(given):
    """Returns the number of events of one seed, the number of each outcome, and the difference with its lines, or
    None."""
    seed, folder = given
    lines = Rehearsal(seed).lines(LENGTH)
    found = difference(lines, folder)
    report, world = worlds.rehearse("\n".join([*lines, ""]))
    came = collections.Counter(re.sub(r"^\d+ (recorded(?= )|.*).*$", r"\1", it) for it in report.split("\n")[: len(lines) - 1])
    for node in world.nodes.values():
        came.update(f"{it.status} {code}" for it in node.transfers.values() for code in it.codes or [""])
    return len(lines) - 1, came, (seed, found, fewest(lines, folder)) if found else None


def main():
    words = argparse.ArgumentParser(description=__doc__, formatter_class=argparse.RawDescriptionHelpFormatter)
    words.add_argument("count", type=int, help="the number of events in all")
    words.add_argument("--seed", type=int, default=0, help="the first seed")
    words.add_argument("--workers", type=int, default=os.cpu_count())
    given = words.parse_args()
    program()
    start, events, outcomes = time.monotonic(), 0, collections.Counter()
    seeds = range(given.seed, given.seed + (given.count + LENGTH - 1) // LENGTH)
    room = "/dev/shm" if os.path.isdir("/dev/shm") else None
    with tempfile.TemporaryDirectory(dir=room) as folder, multiprocessing.Pool(given.workers) as pool:
        for count, came, wrong in pool.imap_unordered(night, ((seed, folder) for seed in seeds), chunksize=4):
            events += count
            outcomes += came
            if wrong:
                seed, found, lines = wrong
                print(f"seed {seed}: {found}, with these lines:", *lines, sep="\n", flush=True)
                pool.terminate()
                sys.exit(1)
    minutes = (time.monotonic() - start) / 60
    print(f"{events:,} events of {len(seeds):,} rehearsals, {events / minutes:,.0f} a minute, without a difference")
    print("outcomes, and the statuses of transactions at each node at the end, with their codes:")
    print(*(f"{count:>12,} {name}" for name, count in sorted(outcomes.items())), sep="\n")


if __name__ == "__main__":
    main()
