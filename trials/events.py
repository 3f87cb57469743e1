#!/usr/bin/env python3
"""Checks `kyoto-link events` and `kyoto-link audit --cut` over stores of runs, over copies and over forged records.

    events.py [--runs [N]] [--copies [N]] [--records [N]] [--forged [N]] [--seed N]

The options choose the parts to try; without one of them all four are tried.

- --runs N: random runs over N folders. Under a random scheme of 2 to 5 registries random scripts are run one after
  another over one folder, most of them killed at a random moment. Then `audit` must write a table; `rehearse` of the
  output of `events` must end with that table; checker/ must have the same report and the same records as the stores;
  `chart` must draw those events with that table; and `audit --cut` must write that table alone.
- --copies N: N sets of copies of the stores of runs that go on, copied one node after another. `audit --cut` must write
  the cut that trials/cuts.py finds by checker/: the table, the number of records left at each node, and the message for
  which the first of them waits. In the table, held and owed units must add up to the allotted ones, no unit may be in
  two lines, and no transaction may be Completed at one node and undone at another. `audit` must report the same fault
  with the same status. A set with a torn copy, which SQLite's library finds torn too, isn't counted.
- --records N: the best times of `audit`, `events` and `audit --cut` over stores with N records, of 2 and 32 registries.
- --forged N: N times the stores of a run with one record inserted, of a message that no node sent. `audit` must be
  stuck, and `audit --cut` must write the table up to that record and name it.

A line is printed for each part. At the first difference the script prints it with its seed and its folder, which is
kept, and exits with status 1. The exit status is also 1 if no set of copies had records left, or if `events` takes more
than 2.5 times as long as `audit`.
"""

import argparse
import collections
import itertools
import json
import pathlib
import random
import re
import shutil
import subprocess
import sys
import tempfile
import time

import paths
from audit import RECORDS_EACH, check_table, journals, write_stores
from cuts import Cut, Given, forged, formats, worlds
from folders import Difference, Folder, compare, copy_stores, differ, do, end_of, is_whole, put_in
from journals import record_text
from night import Rehearsal, wrong_table
from rehearse import codes_of, program, run, scheme

DEFAULTS = {"runs": 100, "copies": 50, "records": 1_000_000, "forged": 20}
# The most seconds after which a run is killed.
LONGEST = 0.6
MOST_TIMES_AUDIT = 2.5
TRIES = 3
# The lines of a whole transfer: an event and a commit for each record, and a post for each message.
LINES_EACH = 20
# The registries and the orders of a run whose stores are copied, and the most sets of copies of one run.
REGISTRIES, ORDERS, SETS = 3, 2_000, 6
MEMORY = pathlib.Path("/dev/shm")
STATUSES = ("Proposed", "Checked", "Accepted", "Rejected", "Terminated", "Cancelled", "Completed")
DONE = re.compile(r"\d+ (recorded \d+|done)\n")
DAMAGED = re.compile(r"kyoto-link: store (\w+): (?:damaged \d+|device)\n")


class Play(Rehearsal):
    """A random scheme of 2 to 5 registries and random scripts. Each line is chosen after the effects of those before
    it."""

    def __init__(self, seed):
        super().__init__(seed, (2, 3, 4, 5))

    def settle(self):
        """Delivers each message that was sent."""
        nodes, passed = self.world.nodes, collections.Counter()
        while waiting := [name for name, node in nodes.items() if passed[name] < len(node.sent)]:
            for name in waiting:
                message = nodes[name].sent[passed[name]][1]
                passed[name] += 1
                nodes[message.receiver].take(Given("message", (message, self.moment)))

    def question(self):
        names = [formats.identifier_text(at) for node in self.world.nodes.values() for at in node.transfers]
        name = self.random.choice(names or [f"{self.codes[0]}1"])
        node = self.random.choice((*self.codes, formats.ITL))
        if self.random.random() < 0.3:
            return f"status {node} {name}"
        return f"until {node} {name} {self.random.choice(STATUSES)} {self.random.choice((1, 50, 200))}"

    def script(self):
        lines, self.moment = [], int(time.time())
        for _ in range(self.random.choice((40, 100, 400))):
            line = self.orders()
            outcome = self.world.apply(formats.event(line))
            # A script has no acknowledgements, and this one has few orders that are not recorded.
            if line.startswith("ack ") or (outcome[:8] != "recorded" and self.random.random() < 0.8):
                continue
            lines.append(line)
            if self.random.random() < 0.7:
                self.settle()
            if self.random.random() < 0.3:
                lines.append(self.question())
        return lines or [self.question()]


def check_events(folder):
    """Checks the outputs of the commands over the stores. Returns the number of events, and the table."""
    table = do("audit", folder.scheme, folder.stores).stdout
    differ(wrong := wrong_table(folder.text, table.splitlines()), f"the table has {wrong}")
    events = do("events", folder.scheme, folder.stores).stdout
    first, *lines = events.splitlines()
    parts = json.loads(folder.text)
    parts["registries"].sort(key=lambda it: it["code"])
    differ(first != json.dumps(parts, sort_keys=True, separators=(",", ":")), "events writes another scheme")
    report = do("rehearse", given=events).stdout
    outcomes = report.splitlines(keepends=True)[:len(lines)]
    compare(report, "".join([*outcomes, table]), "rehearse of the events and audit write different tables")
    differ(odd := [it for it in outcomes if not DONE.fullmatch(it)], f"an event of the run has the outcome {odd[:1]}")
    checked, world = worlds.rehearse(events)
    compare(report, checked, "rehearse and checker/ have different reports of the events")
    for name, texts in folder.records().items():
        journal = world.nodes[name].journal
        same = list(map(record_text, journal)) == texts and world.committed[name] == len(journal)
        differ(not same, f"the events lead to other records of {name}")
    wanted = sum(2 * len(node.journal) + len(node.sent) for node in world.nodes.values())
    differ(len(lines) != wanted, "there are other events than one for each record, its commit and its posts")
    cut = do("audit", "--cut", folder.scheme, folder.stores)
    compare(cut.stdout + cut.stderr, table, "audit --cut and audit write different tables")
    chart, last = do("chart", given=events).stdout, "<br/>".join(table.splitlines())
    differ(not chart.startswith("sequenceDiagram\n") or not chart.endswith(f": {last}\n"), "chart draws another table")
    return len(lines), table


def try_run(seed, path, came):
    """Runs random scripts over one folder, and checks the stores."""
    play = Play(seed)
    folder = Folder(path, play.text)
    for _ in range(play.random.randint(1, 5)):
        killed = play.random.random() < 0.8
        process = folder.start(play.script())
        if killed:
            time.sleep(play.random.uniform(0, LONGEST))
            process.kill()
        text = end_of(process, killed)
        came.update(runs=1, killed=process.returncode != 0)
        if play.random.random() < 0.5:
            play.world = Cut(play.text, folder.records(), play.pool).world
    events, table = check_events(folder)
    differ(process.returncode == 0 and not text.endswith(table), "audit writes another table than the last run")
    statuses = [line.split(" ")[3::2] for line in table.splitlines() if line.startswith("transaction ")]
    open_ones = sum(it[0] == "Proposed" or it[2] == "Accepted" for it in statuses)
    came.update(folders=1, events=events, transactions=len(statuses), open=open_ones, unfinished=open_ones > 0)


def lines_of_transfers(chance, codes):
    """Yields the lines of a script: most transfers are Completed, some Rejected, Terminated or Cancelled."""
    for number in range(ORDERS):
        unit, place = number // len(codes) + 1, number % len(codes)
        code, other = codes[place], codes[(place + 1) % len(codes)]
        account = 1 if chance.random() < 0.9 else 2
        yield f"propose {code} 1 {other} {account} {code}:1:{unit}-{unit}:AAU"
        if chance.random() < 0.1:
            yield f"request {code} {code}{unit}"
        if chance.random() < 0.05:
            yield f"eligible {code} {chance.choice(('yes', 'no'))}"
        if chance.random() < 0.05:
            yield f"clean-up {formats.moment_text(int(time.time()) + 86_400)}"
        if chance.random() < 0.1:
            yield f"until {other} {code}{unit} Completed {chance.choice((1, 5, 20))}"


def check_cut(folder, stores, ended, records):
    """Checks the output of `audit --cut` over stores with these records. Returns the number of records left."""
    cut = Cut(folder.text, records)
    fault = cut.fault()
    compare(ended.stdout, cut.text(), "audit --cut writes another cut than checker/ finds")
    differ((ended.returncode, ended.stderr) != (bool(fault), fault), f"audit --cut ended with {ended.stderr.strip()}")
    differ(wrong := wrong_table(folder.text, ended.stdout.splitlines()), f"the table has {wrong}")
    audited = do("audit", folder.scheme, stores, wanted=(0, 1))
    differ((audited.returncode, audited.stderr) != (bool(fault), fault), f"audit ended with {audited.stderr.strip()}")
    compare(audited.stdout, "" if fault else ended.stdout, "audit and audit --cut write different tables")
    return sum(count for _, _, count, _ in cut.rests())


def try_copies(seed, path, came):
    """Takes sets of copies of the stores of a run that goes on, and checks each."""
    chance = random.Random(seed)
    folder, places = Folder(path, scheme(codes_of(REGISTRIES), ORDERS // REGISTRIES)), []
    # The last line is a question that waits, so that the run goes on while copies are taken.
    process = folder.start([*lines_of_transfers(chance, folder.codes), "until ITL AA999999 Completed 10000"])
    while process.poll() is None and len(places) < SETS:
        time.sleep(chance.uniform(0, 0.3))
        if not (folder.stores / "ITL.db-wal").exists():
            continue
        places.append(folder.path / f"copies-{len(places)}")
        places[-1].mkdir()
        by_library = copy_stores(folder, places[-1], chance)
        came.update(by_library=by_library, by_files=1 + REGISTRIES - by_library)
    process.kill()
    end_of(process, killed=True)
    whole = folder.records()
    for place in places:
        ended = do("audit", "--cut", folder.scheme, place, wanted=(0, 1, 4))
        if ended.returncode == 4:
            found = DAMAGED.fullmatch(ended.stderr)
            differ(not found or is_whole(place / f"{found[1]}.db"), f"{place.name}: {ended.stderr.strip()}")
            came.update(torn=1)
            continue
        records = folder.records(place)
        other = [name for name, texts in records.items() if whole[name][:len(texts)] != texts]
        differ(other, f"stores in {place.name} have other records than those they were copied from: {other}")
        left = check_cut(folder, place, ended, records)
        came.update(sets=1, with_rest=left > 0, left=left, records=sum(map(len, records.values())))


def try_forged(seed, path, came):
    """Inserts one record into the stores of a run, and checks the commands over them."""
    chance = random.Random(seed)
    folder = Folder(path, scheme(codes_of(REGISTRIES), ORDERS // REGISTRIES))
    end_of(folder.start(itertools.islice(lines_of_transfers(chance, folder.codes), 60)))
    message, records = forged(chance, folder.codes), folder.records()
    name, text = message.receiver, record_text(Given("message", (message, int(time.time()))))
    place = chance.randrange(len(records[name]) + 1)
    put_in(folder.stores / f"{name}.db", place, text)
    records[name].insert(place, text)
    differ(folder.records() != records, "show writes other records than the stores have")
    ended = do("audit", "--cut", folder.scheme, folder.stores, wanted=(1,))
    words = f"{message.kind} {formats.identifier_text(message.transaction)} from {message.sender}"
    lines = f"\nleft {name} {place} {len(records[name]) - place}\nwaits {name} {place} {words}\n"
    differ(lines not in ended.stdout, f"audit --cut doesn't report that record {place} of {name} waits for {words}")
    left = check_cut(folder, folder.stores, ended, records)
    came.update(folders=1, left=left, records=sum(map(len, records.values())))


def measure(registries, count):
    """Prints the best times over stores of whole transfers. Returns whether `events` is within its limit."""
    with tempfile.TemporaryDirectory() as place:
        stores, given, taken = (pathlib.Path(place) / name for name in ("stores", "scheme", "output"))
        stores.mkdir()
        codes, size, times = codes_of(registries), max(4, count // RECORDS_EACH), collections.defaultdict(list)
        given.write_text(f"{scheme(codes, size // registries + 1)}\n", encoding="utf-8")
        write_stores(stores, journals(codes, size))
        for _ in range(TRIES):
            for name in ("audit", "events to nowhere", "events to a file", "audit --cut"):
                words = [program(), *name.partition(" to ")[0].split(" "), given, stores]
                output = pathlib.Path("/dev/null") if name == "events to nowhere" else taken
                times[name].append(run(words, given, output)[0])
                if "audit" in name:
                    check_table(taken, name, size)
                elif output == taken and sum(1 for _ in taken.open("rb")) != 1 + LINES_EACH * size:
                    sys.exit("events writes another number of lines")
    best = {name: min(spent) for name, spent in times.items()}
    parts = (f"{name} {spent:.2f} s, {spent / best['audit']:.2f} times audit" for name, spent in best.items())
    print(f"{registries} registries, {RECORDS_EACH * size:,} records: {'; '.join(parts)}", flush=True)
    return max(best["events to nowhere"], best["events to a file"]) <= MOST_TIMES_AUDIT * best["audit"]


# The function that tries a part, the name of its count, and the line that is printed.
PARTS = {
    "runs": (try_run, "folders", "{folders} folders with {runs} runs, {killed} of them killed: {events} events, "
             "{transactions} transactions, {open} of them under way at the end, in {unfinished} folders"),
    "copies": (try_copies, "sets", "{sets} sets of copies with {records} records: {with_rest} sets had records left, "
               "{left} in all; {torn} more were torn; SQLite's library copied {by_library} stores, {by_files} not"),
    "forged": (try_forged, "folders", "{folders} folders with a forged record: of {records} records {left} were left"),
}


def try_part(part, count, seed):
    """Tries a part until its count is reached, and prints its line."""
    attempt, counted, line = PARTS[part]
    came = collections.Counter()
    while came[counted] < count:
        # In turn on a disk and, if there is such a folder, in memory, which is faster.
        room = MEMORY if seed % 2 and MEMORY.is_dir() else None
        path = pathlib.Path(tempfile.mkdtemp(prefix="kyoto-link-events-", dir=room))
        try:
            attempt(seed, path, came)
        except (Difference, ValueError, subprocess.TimeoutExpired) as found:
            sys.exit(f"{part}, seed {seed}: {found}; kept in {path}")
        shutil.rmtree(path)
        seed += 1
    print(f"{part}: {line.format_map(came)}", flush=True)
    if part == "copies" and not came["with_rest"]:
        sys.exit("no set of copies had records left")


def main():
    words = argparse.ArgumentParser(description=__doc__, formatter_class=argparse.RawDescriptionHelpFormatter)
    for part, count in DEFAULTS.items():
        words.add_argument(f"--{part}", type=int, nargs="?", const=count, metavar="N", help=f"N is {count:,} by default")
    words.add_argument("--seed", type=int, default=0, help="the first seed")
    given, kept = vars(words.parse_args()), True
    program()
    for part, count in ({it: given[it] for it in DEFAULTS if given[it] is not None} or DEFAULTS).items():
        if part == "records":
            kept = all([measure(registries, count) for registries in (2, 32)])
        else:
            try_part(part, count, given["seed"])
    sys.exit(0 if kept else 1)


if __name__ == "__main__":
    main()
