#!/usr/bin/env python3
"""Refuses each allocation of tests and of whole commands in turn, and checks that a command writes all or nothing.

    no_memory.py [--tests TEXT] [--seconds N] [--within N]

Each test of `test_functions` runs alone, once for each of its allocations, of which that one is refused
(`no_memory.c`, loaded before the C library). The test must pass, as it repeats a call that
found no memory, after it has checked the state; or it stops while it reads its own texts. If the runs of a test would
take longer than `--seconds` together, allocations are skipped at equal distances. The tests of EXEMPT are left out.

`rehearse` reads the input of each example of its own, `chart` the examples with a diagram, the command lines of the
examples that have one are read, `audit` reads the stores of a whole transfer and of one whose proposal comes too late,
and `show` migrates a store of format 1. Each command runs once with all its memory and must write the outputs in its
folder, and then once for each of its allocations. Each time it must write the same as the first run, or nothing, with
`out of memory` on standard error and exit status 5. If the command fails with a fault and has no memory for its line,
it may write `out of memory` with the status of that fault. The stores must keep their records.

`node` gets two lines of a peer and carries out its operator's lines, at a registry and at the log, once for each
allocation. Each reply must be the one that it has with all its memory, or `refused` with 50. The node must end with
status 0, and the number of records in its last line must be that of its store; or with `out of memory` and status 5.
Each record that it reported, and each message to which it replied `received`, must be in its store.

With --within the tests of ASKED come first, then commands, nodes, and the other tests. Each of these parts has the
share of the seconds that PARTS gives it, of which each command, node or test has as many as those after it. If they are
too few for all its allocations, these are skipped at equal distances. A test is named, and its allocations aren't
refused, if no time is left for it or too little to count them.

A line is printed for each test and each command, and one for each run that failed. The exit status is 1 if one failed.
"""

import argparse
import collections.abc
import concurrent.futures
import dataclasses
import json
import pathlib
import shutil
import signal
import sqlite3
import subprocess
import sys
import tempfile
import time

import paths
from audit import MOMENT, write_stores
from endings import check_end, run_to_end
from examples import EXAMPLES, end_of
from migrate import shown, texts
from records import FORMAT, write_store
from refused_nodes import LINES, refuse_each_of_node
from refusing import MOST_OTHERS, OUT_OF_MEMORY, PROCESSORS, Refusing, Share, allocations_of, built, distance, in_turn

TOP = pathlib.Path(__file__).resolve().parent.parent
TESTS = "test_functions"
# The message of a test that found no memory for its own texts, and the status of a test that fails.
READING = b"the test's own texts"
FAILED = -signal.SIGABRT
# The number of runs in which the allocations of a test are counted, nearly.
COUNTING = 30
# Millions of interrupted calls take too long to run thousands of times.
EXEMPT = {
    "limit_rows::an_input_is_read_so_often",
    "limit_rows::a_write_is_interrupted_so_often",
}
# The tests whose subject is a refused allocation: holdings and their pieces, and a weave.
ASKED = ("accounts_rows::", "weave_rows::")
# With --within, the part of the seconds after which each part of the runs should have ended.
PARTS = {"asked": 0.2, "commands": 0.6, "nodes": 0.7, "tests": 1.0}
# The inputs of these examples are of other commands.
OF_OTHER_COMMANDS = {"as_json", "furthest_cut", "trace"}
# The number of records of the store that is migrated.
OLD_RECORDS = 20
UNITS = ["NZ:1:1-100:AAU"]
# A clean-up a day after the moment of all messages.
CLEANED_UP = {"input": "clean_up", "moment": MOMENT + 86_400}
PROPOSED = {"account": 1, "input": "propose", "to_account": 7, "to_registry": "JP", "units": UNITS}


def received(**message):
    return {"input": "received", "message": message, "moment": MOMENT}


def proposal(source, status, to, name):
    words = {"account": 1, "to_account": 7, "to_registry": "JP", "units": UNITS}
    return received(call="AcceptProposal", status=status, to=to, transaction=name, **{"from": source}, **words)


def notification(source, status, to, name):
    return received(call="AcceptNotification", codes=[], status=status, to=to, transaction=name, **{"from": source})


WHOLE = {
    "ITL": [
        proposal("NZ", "Proposed", "ITL", "NZ1"),
        notification("JP", "Accepted", "ITL", "NZ1"),
        notification("NZ", "Completed", "ITL", "NZ1"),
    ],
    "JP": [proposal("ITL", "Checked", "JP", "NZ1"), notification("ITL", "Completed", "JP", "NZ1")],
    "NZ": [PROPOSED, notification("ITL", "Accepted", "NZ", "NZ1")],
}
# NZ1 is cancelled, NZ2 takes its place, and then the proposal of NZ1 comes to JP.
STALE = {
    "ITL": [
        proposal("NZ", "Proposed", "ITL", "NZ1"),
        CLEANED_UP,
        proposal("NZ", "Proposed", "ITL", "NZ2"),
        notification("JP", "Accepted", "ITL", "NZ2"),
        notification("NZ", "Completed", "ITL", "NZ2"),
    ],
    "JP": [
        proposal("ITL", "Checked", "JP", "NZ2"),
        notification("ITL", "Completed", "JP", "NZ2"),
        proposal("ITL", "Checked", "JP", "NZ1"),
    ],
    "NZ": [
        PROPOSED,
        notification("ITL", "Cancelled", "NZ", "NZ1"),
        PROPOSED,
        notification("ITL", "Accepted", "NZ", "NZ2"),
    ],
}


def text_of(record):
    return json.dumps(record | {"v": FORMAT}, separators=(",", ":"), sort_keys=True)


def texts_of(journals):
    return {node: [text_of(record) for record in records] for node, records in journals.items()}


def records_in(folder):
    """Returns the owner and the records of each store, without their format."""
    found = {}
    for path in sorted(folder.glob("*.db")):
        store = sqlite3.connect(path)
        bodies = store.execute("SELECT place, replace(body, ',\"v\":2}', '}') FROM entries ORDER BY place").fetchall()
        found[path.name] = (store.execute("SELECT node FROM about").fetchall(), bodies)
        store.close()
    return found


@dataclasses.dataclass
class Command:
    """A command: its words over a folder of stores, its input, that folder, and the end that it must have."""

    name: str
    words: collections.abc.Callable
    text: bytes = b""
    folder: pathlib.Path | None = None
    wanted: tuple | None = None

    def run(self, refusing, number, thread=0):
        """Runs the command over a copy of the stores, and returns its end, whether an allocation was refused, and the
        records that the copy then has."""
        with tempfile.TemporaryDirectory(dir=refusing.room) as room:
            own = pathlib.Path(shutil.copytree(self.folder, f"{room}/stores")) if self.folder else None
            ended, refused = refusing.run(self.words(own), self.text, number, thread=thread)
            return ended, refused, own and records_in(own)


def refuse_each(command, refusing, seconds=None):
    """Returns whether each run wrote all or nothing, and whether the first one, with all its memory, has the wanted
    end."""
    begin = time.monotonic()
    whole, _, _ = command.run(refusing, 0)
    each = time.monotonic() - begin
    if command.wanted is None:
        check_end([built(), *command.words(command.folder)], whole[0], (0,), whole[2])
    elif whole != command.wanted:
        print(f"{command.name}: status {whole[0]}, {len(whole[1])} bytes written, {whole[2]!r}, other than the outputs in its folder")
        return False
    # The end of a fault without memory for its line.
    untold = (whole[0], *OUT_OF_MEMORY[1:]) if whole[0] else whole
    before = command.folder and records_in(command.folder)
    step = 1 if seconds is None else distance(allocations_of(lambda number: command.run(refusing, number)[1]), each, seconds)

    def take(number, thread):
        """Returns whether the program was out of memory, or a text about another end."""
        came, refused, after = command.run(refusing, number, thread)
        if came not in ((whole, OUT_OF_MEMORY, untold) if refused else (whole,)) or after != before:
            allocation = f"allocation {number}" if refused else "none"
            return f"with {allocation} refused: status {came[0]}, {len(came[1])} bytes written, {came[2]!r}"
        return came != whole if refused else None

    ended = in_turn(take, step)
    others = [it for it in ended if isinstance(it, str)]
    print(*(f"{command.name}: {it}" for it in others[:MOST_OTHERS]), sep="\n", end="\n" if others else "")
    told = f"{len(ended)} allocations" if step == 1 else f"{len(ended)} allocations, 1 in {step}"
    print(f"{command.name}: {told}; out of memory {ended.count(True)} times, otherwise all was written", flush=True)
    return not others


def commands_of_examples():
    """Yields the commands of all examples."""
    for example in sorted(it for it in [*EXAMPLES.iterdir(), *EXAMPLES.glob("*/*")] if it.is_dir()):
        name = example.relative_to(EXAMPLES)
        if name.parts[0] in OF_OTHER_COMMANDS:
            continue
        given = example / "input"
        if given.exists():
            yield Command(f"rehearse {name}", lambda _: ["rehearse"], given.read_bytes(), wanted=end_of(example))
        drawn = example / "chart.mmd"
        if drawn.exists():
            yield Command(f"chart {name}", lambda _: ["chart"], given.read_bytes(), wanted=(0, drawn.read_bytes(), b""))
        line = example / "words"
        if line.exists():
            yield Command(f"words {name}", lambda _, words=line.read_text().split(): words, wanted=end_of(example))


def commands_over_stores(room, scheme):
    """Yields audits of stores, and the migration of a store of format 1."""
    for name, journals in (("one_transfer", WHOLE), ("stale_proposal", STALE)):
        folder = room / name
        folder.mkdir()
        write_stores(folder, texts_of(journals))
        yield Command(f"audit {name}", lambda stores: ["audit", scheme, stores], folder=folder)
    folder = room / "format_one"
    folder.mkdir()
    write_store(folder, "NZ", texts(OLD_RECORDS), form=1)
    yield Command("show format_one", lambda stores: ["show", scheme, stores, "NZ"], folder=folder, wanted=(0, "".join(shown(OLD_RECORDS)).encode(), b""))


def test_program():
    """Returns the program of the tests. `rt test` proves and builds it if it is missing."""
    crate = TOP / "crates" / TESTS
    built = crate / "out" / f"{TESTS}_tests"
    if not built.exists():
        run_to_end(["rt", "test"], cwd=crate, stdout=subprocess.DEVNULL)
    return built


def tests_of(test):
    """Returns the names of all tests of a program."""
    listed = run_to_end([test, "--list"], stdout=subprocess.PIPE, text=True).stdout
    return [line.removesuffix(": test") for line in listed.splitlines() if line.endswith(": test")]


def refuse_each_of_test(refusing, threads, test, name, seconds, least_runs=0):
    """Returns whether the test passed with all its memory, and passed or stopped while reading with each allocation
    refused, or with the ones that the time allows. Returns also the number of allocations, of those refused, of passes
    and of stops while reading. The test is only named if the time is too short for that number of runs."""
    begin = time.monotonic()
    whole, _ = refusing.run([name], b"", 0, test)
    each = time.monotonic() - begin
    check_end([test, name], whole[0], (0,), whole[2])
    if least_runs * each > seconds:
        print(f"test {name}: {seconds:.1f} seconds are too few for it")
        return True, (0, 0, 0, 0)
    count = allocations_of(lambda number: refusing.run([name], b"", number, test)[1])
    step = distance(count, each, seconds)
    numbers = range(1, count + 1, step)

    def take(number):
        (status, _, said), _ = refusing.run([name], b"", number, test, f"{name}-{number}")
        if status == 0:
            return "passed"
        return "reading" if status == FAILED and said.startswith(READING) else f"status {status}, {said.decode(errors='replace')}"

    ended = dict(zip(numbers, threads.map(take, numbers)))
    passed = sum(how == "passed" for how in ended.values())
    reading = sum(how == "reading" for how in ended.values())
    others = {number: how for number, how in ended.items() if how not in ("passed", "reading")}
    for number, how in list(others.items())[:5]:
        print(f"test {name}: with allocation {number} refused: {how.strip()}")
    tried = "" if step == 1 else f", {len(numbers)} of them refused"
    more = f", otherwise {len(others)} times" if others else ""
    print(f"test {name}: {count} allocations{tried}; passed {passed} times, stopped while reading {reading} times{more}", flush=True)
    return not others, (count, len(numbers), passed, reading)


def refuse_each_of_tests(refusing, is_chosen, seconds, end=None):
    """Returns whether all chosen tests passed, or stopped while reading, each time. Prints their sums. A test has that
    number of seconds, or if the moment `end` is given, an equal share of the seconds until then."""
    test, ended = test_program(), []
    names = [it for it in tests_of(test) if is_chosen(it) and not any(it.startswith(exempt) for exempt in EXEMPT)]
    share = Share(len(names), end, seconds)
    with concurrent.futures.ThreadPoolExecutor(PROCESSORS) as threads:
        for name in names:
            given = share.next()
            if given > 0:
                ended.append(refuse_each_of_test(refusing, threads, test, name, given, COUNTING if end else 0))
            else:
                print(f"test {name}: no time is left for it")
    counts, refused, passed, reading = (sum(it[part] for _, it in ended) for part in range(4))
    print(f"{len(ended)} tests, {counts} allocations, {refused} of them refused; passed {passed} times, stopped while reading "
          f"{reading} times", flush=True)
    return all(is_kept for is_kept, _ in ended)


def refuse_each_of_commands(refusing, room, end_of_part):
    """Returns whether the runs of all commands wrote all or nothing, the stores kept their records, and nodes ended
    well."""
    scheme = room / "scheme"
    text = (EXAMPLES / "stale_proposal" / "input").read_bytes()
    scheme.write_bytes(text.split(b"\n", 1)[0] + b"\n")
    commands = [*commands_of_examples(), *commands_over_stores(room, scheme)]
    of_commands, of_nodes = Share(len(commands), end_of_part("commands")), Share(len(LINES), end_of_part("nodes"))
    ended = [refuse_each(it, refusing, of_commands.next()) for it in commands]
    ended += [refuse_each_of_node(refusing, scheme, node, of_nodes.next()) for node in LINES]
    return all(ended)


def is_asked(name):
    return name.startswith(ASKED)


def main():
    words = argparse.ArgumentParser(description=__doc__, formatter_class=argparse.RawDescriptionHelpFormatter)
    words.add_argument("--tests", metavar="TEXT", help="run only the tests with this text in their names, and no command")
    words.add_argument("--seconds", type=float, default=20, help="the most seconds of the runs of one test together (20)")
    words.add_argument("--within", metavar="SECONDS", type=float, help="the most seconds of all runs together, nearly")
    given = words.parse_args()
    begin = time.monotonic()

    def end_of_part(name):
        return None if given.within is None else begin + given.within * PARTS[name]

    with tempfile.TemporaryDirectory() as room:
        refusing, kept = Refusing(room), True
        if given.tests is None:
            built()
            kept = refuse_each_of_tests(refusing, is_asked, given.seconds, end_of_part("asked"))
            kept = refuse_each_of_commands(refusing, pathlib.Path(room), end_of_part) and kept
        is_chosen = (lambda name: given.tests in name) if given.tests is not None else (lambda name: not is_asked(name))
        kept = refuse_each_of_tests(refusing, is_chosen, given.seconds, end_of_part("tests")) and kept
    print("all or nothing each time" if kept else "other texts were written, a store changed, or a test failed")
    return 0 if kept else 1


if __name__ == "__main__":
    sys.exit(main())
