#!/usr/bin/env python3
"""Runs every command over inputs at each limit of the protocol and the formats and beyond it, with a small stack.

    limits.py [--input TEXT]

No proof covers the stack. Each input is given to every command that reads it, with a stack of 512 kB by `setrlimit`. A
run must end with the status and the line on standard error that docs/FORMATS.md gives. A line is printed for each
input. The exit status is 1 if a run ended otherwise, or if no input has TEXT in its name.
"""

import argparse
import dataclasses
import json
import pathlib
import random
import resource
import subprocess
import sys
import tempfile
import time

import paths
from endings import without_new_stores
from records import record, write_store
from rehearse import LONGEST_INPUT, codes_of, program

STACK = 512 * 1024
SECONDS = 300
LONGEST_LINE = 1_048_576
MOST_REGISTRIES, MOST_ACCOUNTS, MOST_BLOCKS, MOST_RECORDS = 32, 1_000, 10_000, 1_000_000
MOST_BLOCKS_OF_AN_ORDER = 16
LAST_UNIT, LAST_ACCOUNT = 999_999_999_999_999, 999_999_999
# The deepest nesting of arrays that the JSON reader accepts.
DEEPEST = 127
REHEARSED = ("rehearse", "chart")
FINE = (0, "")


def fault(text, status=3):
    return status, f"kyoto-link: {text}\n"


@dataclasses.dataclass
class Registry:
    code: str
    accounts: list = dataclasses.field(default_factory=lambda: [1, 2])
    # The account and the blocks of each allotment.
    allotted: list = dataclasses.field(default_factory=list)

    def value(self):
        allotted = [{"account": account, "units": units} for account, units in self.allotted]
        return {"accounts": self.accounts, "allotted": allotted, "code": self.code, "eligible": True, "kinds": ["AAU", "CER"]}


@dataclasses.dataclass
class Case:
    """An input, and the end of each command that reads it."""

    name: str
    scheme: str
    # The lines after the scheme for `rehearse` and `chart`, and the lines of the script for `run`.
    events: list = dataclasses.field(default_factory=list)
    script: list = dataclasses.field(default_factory=lambda: ["status JP JP1"])
    # The texts of each node's records.
    records: dict = dataclasses.field(default_factory=dict)
    rehearsed: tuple = FINE
    stored: tuple = FINE
    # The end of `run`, and of `audit` if there are records, if it isn't that of `show`.
    ran: tuple = None
    # A line that `run` writes.
    answer: str = None


def scheme(registries, records=1_000):
    return json.dumps({"records": records, "registries": [it.value() for it in registries]}, separators=(",", ":"))


def two(units=(), accounts=(1, 2), **others):
    """Returns a scheme of Japan and New Zealand, in which New Zealand's account 1 has the units."""
    return scheme([Registry("JP"), Registry("NZ", list(accounts), [(1, list(units))])], **others)


def padded(text, length):
    """Returns the JSON text with spaces at its end, `length` bytes in all."""
    return text + " " * (length - len(text))


def single(unit, code="NZ", kind="AAU"):
    return f"{code}:1:{unit}-{unit}:{kind}"


def shuffled(things):
    """Returns the things in an order that is the same each time."""
    return random.Random(45).sample(things, len(things))


def order(units, to="JP 1"):
    return f"propose NZ 1 {to} {' '.join(units)}"


def long_order(length):
    """Returns the line of an order, `length` bytes long, with more blocks than an order may have."""
    text = "propose NZ 1 JP 1"
    count, rest = divmod(length - len(text), len(single(1)) + 1)
    return f"{text}{(' ' + single(1)) * (count - 1)} NZ:1:1-1{'0' * rest}:AAU"


def nested(depth):
    return "[" * depth + "]" * depth


def eligible(count):
    """Yields records of the log, each of which changes New Zealand's eligibility."""
    for number in range(count):
        may = "true" if number % 2 else "false"
        yield record(f'"input":"eligible","may":{may},"registry":"NZ"')


def whole_inputs():
    """Yields inputs of the greatest length, and a byte longer."""
    text = two()
    left = LONGEST_INPUT - len(text) - 1
    lines = [long_order(LONGEST_LINE)] * (left // (LONGEST_LINE + 1))
    left -= len(lines) * (LONGEST_LINE + 1)
    fine = [*lines, long_order(left - 1)]
    # The newline of the last line is the first byte over the limit.
    over = [*lines, long_order(left)]
    yield Case("an input of 16,777,216 bytes", text, fine, fine[:1])
    yield Case("an input of a byte more", text, over, over[:1], rehearsed=fault(f"line {len(over) + 1}: too-long"))
    script = [long_order(LONGEST_LINE - 1)] * (LONGEST_INPUT // LONGEST_LINE)
    yield Case("a script of 16,777,216 bytes", text, script[:1], script, answer=f"{len(script)} refused 101")
    longer = [*script[:-1], long_order(LONGEST_LINE)]
    yield Case("a script of a byte more", text, script[:1], longer, ran=fault(f"line {len(longer)}: too-long"))


def lines():
    fine, over = long_order(LONGEST_LINE), long_order(LONGEST_LINE + 1)
    yield Case("a line of 1,048,576 bytes", two(), [fine], [fine], answer="1 refused 101")
    yield Case("a line of a byte more", two(), [over], [over], rehearsed=fault("line 2: too-long"), ran=fault("line 1: too-long"))
    yield Case("a scheme of 1,048,576 bytes", padded(two(), LONGEST_LINE))
    both = fault("line 1: too-long")
    yield Case("a scheme of a byte more", padded(two(), LONGEST_LINE + 1), rehearsed=both, stored=both)


def members():
    codes = codes_of(MOST_REGISTRIES + 1)
    accounts = shuffled(range(LAST_ACCOUNT - MOST_ACCOUNTS + 1, LAST_ACCOUNT + 1))
    whole = [Registry(code, accounts) for code in shuffled(codes[:-1])]
    ask = [f"status {codes[-2]} {codes[0]}999999"]
    yield Case("32 registries of 1,000 accounts", scheme(whole), script=ask, answer="1 status none")
    for name, word, members_of in (
        ("33 registries", "too-many", [Registry(code) for code in codes]),
        ("1,001 accounts", "too-many", [Registry("JP"), Registry("NZ", [*accounts, 1])]),
        ("account 1,000,000,000", "shape", [Registry("JP"), Registry("NZ", [LAST_ACCOUNT + 1])]),
        ("account 0", "shape", [Registry("JP"), Registry("NZ", [0])]),
        ("one registry", "too-few", [Registry("NZ")]),
    ):
        both = fault(f"line 1: {word}")
        yield Case(name, scheme(members_of), rehearsed=both, stored=both)


def allotments():
    apart = [single(2 * place + 1) for place in range(MOST_BLOCKS)]
    joined = [single(place + 1) for place in range(MOST_BLOCKS)]
    kinds = [single(place + 1, kind=("AAU", "CER")[place % 2]) for place in range(MOST_BLOCKS)]
    for name, units in (("apart", apart), ("apart, in any order", shuffled(apart)), ("side by side", joined), ("of two kinds", kinds)):
        yield Case(f"10,000 blocks in one list, {name}", two(units), [order(units[:1])], [order(units[:1])], answer="1 recorded 0")
    each = [(1 + place % 2, [block]) for place, block in enumerate(shuffled(apart))]
    yield Case("10,000 allotments of a block", scheme([Registry("JP"), Registry("NZ", allotted=each)]))
    codes = codes_of(MOST_REGISTRIES)
    spread = [Registry(code, allotted=[(1, shuffled(apart[place::MOST_REGISTRIES]))]) for place, code in enumerate(codes)]
    yield Case("10,000 blocks over 32 registries", scheme(spread), script=[f"status {codes[0]} {codes[1]}1"], answer="1 status none")
    both = fault("line 1: too-many")
    yield Case("10,001 blocks", two([*apart, single(2 * MOST_BLOCKS + 1)]), rehearsed=both, stored=both)
    last = single(LAST_UNIT)
    yield Case(f"unit {LAST_UNIT:,}", two([last]), [order([last])], [order([last])], answer="1 recorded 0")
    both = fault("line 1: shape")
    yield Case(f"unit {LAST_UNIT + 1:,}", two([single(LAST_UNIT + 1)]), rehearsed=both, stored=both)


def orders():
    units = [single(2 * place + 1) for place in range(MOST_BLOCKS_OF_AN_ORDER + 1)]
    until = "until JP NZ1 Completed 60000"
    yield Case("an order of 16 blocks", two(units), [order(units[:-1])], [order(units[:-1]), until], answer="2 status Completed")
    yield Case("an order of 17 blocks", two(units), [order(units)], [order(units)], answer="1 refused 101")


def texts():
    both = fault("line 1: shape")
    yield Case("arrays of the deepest nesting", nested(DEEPEST), rehearsed=both, stored=both)
    both = fault("line 1: not-json")
    for depth in (DEEPEST + 1, 1_000, 500_000):
        yield Case(f"arrays {depth:,} deep", nested(depth), rehearsed=both, stored=both)
        yield Case(f"arrays {depth:,} deep without their ends", "[" * depth, rehearsed=both, stored=both)
    for depth in (DEEPEST, 500_000):
        name = f"a record whose arrays are {depth:,} deep"
        yield Case(name, two(), records={"NZ": [nested(depth)]}, stored=fault("store NZ: damaged 0", 4))


def journals():
    full = {"ITL": list(eligible(MOST_RECORDS))}
    flip = ["eligible NZ no"]
    yield Case("a journal of 1,000,000 records", two(records=MOST_RECORDS), script=flip, records=full, answer="1 refused 49")
    over = {"ITL": list(eligible(11))}
    yield Case("a journal of a record too many", two(records=10), records=over, ran=fault("store ITL: damaged 10", 4))
    both = fault("line 1: shape")
    for records in (0, MOST_RECORDS + 1):
        yield Case(f"{records:,} records", two(records=records), rehearsed=both, stored=both)


GROUPS = (members, allotments, orders, lines, texts, whole_inputs, journals)


def held_small():
    resource.setrlimit(resource.RLIMIT_STACK, (STACK, STACK))


def end_of(words, given):
    """Returns the status of a run with a small stack, and its outputs. The status is None if it didn't end in time."""
    with given.open("rb") as reader:
        words = [program(), *words]
        try:
            ended = subprocess.run(words, stdin=reader, capture_output=True, text=True, timeout=SECONDS, preexec_fn=held_small, check=False)
        except subprocess.TimeoutExpired:
            return None, "", f"no end after {SECONDS} seconds"
    return ended.returncode, ended.stdout, ended.stderr


def write_stores(folder, records):
    folder.mkdir()
    for node, bodies in records.items():
        write_store(folder, node, bodies)


def is_written(command, case, text):
    """Returns whether the text on standard output is complete."""
    if command == "chart":
        return text.startswith("sequenceDiagram\n") and text.endswith("end\n")
    lines_of = text.splitlines()
    if command == "node":
        return len(lines_of) == 2 and lines_of[0].startswith("scheme ") and lines_of[1].startswith("records ")
    return lines_of[-1:] == ["end"] and (command != "run" or case.answer is None or case.answer in lines_of[: len(case.script)])


def node_words(case, node, scheme, stores):
    """Returns the words for `node`. A fault of the scheme is reported before the peers are read."""
    codes = (codes_of_registries(case.scheme) or ["AA"]) if node == "ITL" else ["ITL"]
    peers = [word for code in codes for word in ("--peer", f"{code}=127.0.0.1:1")]
    return ["node", scheme, stores, node, "--listen", "127.0.0.1:0", *peers]


def codes_of_registries(text):
    """Returns the codes of a scheme's registries, or none if the text isn't a scheme."""
    try:
        return [it["code"] for it in json.loads(text)["registries"]]
    except (ValueError, RecursionError, TypeError, KeyError):
        return []


def runs_of(case, room):
    """Yields each command's name, its words, its standard input, and its expected end."""
    given, given_scheme, given_script = room / "input", room / "scheme", room / "script"
    given.write_text("".join(f"{line}\n" for line in (case.scheme, *case.events)), encoding="utf-8")
    given_scheme.write_text(case.scheme, encoding="utf-8")
    given_script.write_text("".join(f"{line}\n" for line in case.script), encoding="utf-8")
    stores = room / "stores"
    write_stores(stores, case.records)
    for command in REHEARSED:
        yield command, [command], given, case.rehearsed
    node = next(iter(case.records), "ITL")
    # `show` reads one store alone, and accepts a record that its node would not have recorded.
    yield "show", ["show", given_scheme, stores, node], given, case.stored
    ran = case.ran or case.stored
    yield "audit", ["audit", given_scheme, stores], given, ran if case.records else case.stored
    nothing = room / "nothing"
    nothing.touch()
    # `node` ends at the end of its lines, and has none here. It reads its own store alone.
    own = ran if f"store {node}" in ran[1] else case.stored
    yield "node", node_words(case, node, given_scheme, stores), nothing, own
    yield "run", ["run", given_scheme, stores, given_script], given, ran


def is_said(command, said, error):
    """Returns whether the messages are the line of the expected fault, after which `node` writes hints."""
    said = without_new_stores(said)
    if command != "node" or not error:
        return said == error
    return said.startswith(error) and all(it.startswith("kyoto-link: ") for it in said.splitlines())


def check(case):
    """Runs the commands over the input, prints a line, and returns whether each ended as it should."""
    kept, begin = True, time.monotonic()
    with tempfile.TemporaryDirectory() as folder:
        for command, words, given, (status, error) in runs_of(case, pathlib.Path(folder)):
            got, text, errors = end_of(words, given)
            whole = is_written(command, case, text) if status == 0 else text == ""
            if got != status or not is_said(command, errors, error) or not whole:
                kept = False
                print(f"{command} of {case.name}: status {got}, {errors[:200]!r}, {text[:60]!r}..{text[-60:]!r}", flush=True)
    print(f"{case.name:<45} {time.monotonic() - begin:7.1f} s  {'as it should' if kept else 'OTHERWISE'}", flush=True)
    return kept


def main():
    parser = argparse.ArgumentParser(description=__doc__, formatter_class=argparse.RawDescriptionHelpFormatter)
    parser.add_argument("--input", help="run only inputs with this text in their names")
    words = parser.parse_args()
    program()
    kept = [check(case) for group in GROUPS for case in group() if words.input is None or words.input in case.name]
    print(f"{len(kept)} inputs, {kept.count(False)} with a run that ended otherwise")
    sys.exit(0 if kept and all(kept) else 1)


if __name__ == "__main__":
    main()
