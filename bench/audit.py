#!/usr/bin/env python3
"""Measures the time and the memory of `kyoto-link audit` over stores with many records.

    audit.py [--runs N] [--records N]

The stores have the journals of whole transfers between 2 and between 32 registries, in three sizes, written by SQLite's
library. In the table that `audit` writes, each transfer must be Completed. A line for each size has the best time in
seconds, its ratio to that of the previous size, and the greatest peak of memory as a multiple of the bytes of the
records' texts. For the largest size, the line also has the time as a multiple of the time that SQLite's library needs
to find the valid JSON texts in the same files, and the time of `kyoto-link show` over the log's store as a multiple of
the time in which the `sqlite3` shell writes the same records.

The exit status is 1 if a limit is exceeded or a program fails. The limits of memory, of SQLite and of the shell apply
to the largest size.
"""

import argparse
import pathlib
import sqlite3
import sys
import tempfile
import time

from building import need
from records import record, write_store
from rehearse import codes_of, program, run, scheme

MOST_RATIO = 2.3
MOST_TIMES_SQLITE = 6.0
MOST_TIMES_SHELL = 6.0
MOST_TIMES_BYTES = 20.0
# The number of records of a whole transfer, at its three nodes.
RECORDS_EACH = 7
MOMENT = 1335830400
VALID = "SELECT count(*) FROM entries WHERE json_valid(body)"
RECORDS_OF = "SELECT place, body FROM entries ORDER BY place"


def received(message):
    return record(f'"input":"received","message":{{{message}}},"moment":{MOMENT}')


def notification(source, status, to, name):
    return received(f'"call":"AcceptNotification","codes":[],"from":"{source}","status":"{status}","to":"{to}","transaction":"{name}"')


def proposal(source, status, to, acquirer, name, units):
    return received(
        f'"account":1,"call":"AcceptProposal","from":"{source}","status":"{status}","to":"{to}","to_account":1,'
        f'"to_registry":"{acquirer}","transaction":"{name}","units":["{units}"]'
    )


def journals(codes, count):
    """Returns the records of each node. Each registry in turn transfers a unit to the next one."""
    records = {node: [] for node in ["ITL", *codes]}
    for number in range(count):
        initiator, acquirer = codes[number % len(codes)], codes[(number + 1) % len(codes)]
        turn = number // len(codes) + 1
        name, units = f"{initiator}{turn}", f"{initiator}:1:{turn}-{turn}:AAU"
        records[initiator].append(record(f'"account":1,"input":"propose","to_account":1,"to_registry":"{acquirer}","units":["{units}"]'))
        records["ITL"].append(proposal(initiator, "Proposed", "ITL", acquirer, name, units))
        records[acquirer].append(proposal("ITL", "Checked", acquirer, acquirer, name, units))
        records["ITL"].append(notification(acquirer, "Accepted", "ITL", name))
        records[initiator].append(notification("ITL", "Accepted", initiator, name))
        records["ITL"].append(notification(initiator, "Completed", "ITL", name))
        records[acquirer].append(notification("ITL", "Completed", acquirer, name))
    return records


def write_stores(folder, texts_of):
    """Makes a store for each node with the texts of its records, and returns the number of bytes of all records."""
    length = 0
    for node, texts in texts_of.items():
        write_store(folder, node, texts)
        length += sum(len(text) for text in texts)
    return length


def sqlite_time(folder):
    """Returns the seconds that SQLite's library needs to find the valid texts of all stores."""
    start = time.perf_counter()
    for path in sorted(folder.glob("*.db")):
        store = sqlite3.connect(path)
        store.execute(VALID).fetchone()
        store.close()
    return time.perf_counter() - start


def times_of_shell(scheme_file, folder, taken, runs):
    """Returns the time of `show` over the log's store as a multiple of the `sqlite3` shell's."""
    ours = min(run([program(), "show", scheme_file, folder, "ITL"], scheme_file, taken)[0] for _ in range(runs))
    shown = sum(1 for line in taken.read_text(encoding="utf-8").splitlines() if line[:1].isdigit())
    theirs = min(run(["sqlite3", "-separator", " ", folder / "ITL.db", RECORDS_OF], scheme_file, taken)[0] for _ in range(runs))
    wanted = sum(1 for _ in taken.open(encoding="utf-8"))
    if shown != wanted:
        sys.exit(f"show writes {shown} of {wanted} records")
    return ours / theirs


def check_table(path, name, count):
    lines = path.read_text(encoding="utf-8").splitlines()
    done = sum(1 for line in lines if line.startswith("transaction ") and line.count("Completed") == 3)
    if done != count or "owed 0" not in lines or lines[-1] != "end":
        sys.exit(f"{name}: {done} of {count} transfers are completed in the table")


def measure(name, codes, largest, runs, room):
    """Prints a line for each size, and returns whether all are within the limits."""
    kept, before = True, None
    for size in (largest // 4, largest // 2, largest):
        with tempfile.TemporaryDirectory(dir=room) as place:
            folder, given, taken = pathlib.Path(place) / "stores", pathlib.Path(place) / "scheme", pathlib.Path(place) / "output"
            folder.mkdir()
            given.write_text(scheme(codes, size // len(codes) + 1) + "\n", encoding="utf-8")
            length = write_stores(folder, journals(codes, size))
            words = [program(), "audit", given, folder]
            run(words, given, taken)
            check_table(taken, name, size)
            measured = [run(words, given, taken) for _ in range(runs)]
            best = min(spent for spent, _ in measured)
            memory = max(peak for _, peak in measured) / length
            text = f"{name:<16} {RECORDS_EACH * size:>9,} records  {length:>11,} bytes  {best:8.3f} s  memory {memory:5.1f}"
            if before is not None:
                ratio = best / before
                kept = kept and ratio <= MOST_RATIO
                text += f"  ratio {ratio:.2f}"
            if size == largest:
                beside = min(sqlite_time(folder) for _ in range(runs))
                kept = kept and best <= MOST_TIMES_SQLITE * beside and memory <= MOST_TIMES_BYTES
                shell = times_of_shell(given, folder, taken, runs)
                kept = kept and shell <= MOST_TIMES_SHELL
                text += f"  {best / beside:.1f} times SQLite  show {shell:.1f} times the shell"
            print(text, flush=True)
            before = best
    return kept


def main():
    parser = argparse.ArgumentParser(description=__doc__.splitlines()[0])
    parser.add_argument("--runs", type=int, default=3, help="the number of runs of each command; the best time counts")
    parser.add_argument("--records", type=int, default=1_000_000, help="the number of records of all stores in the largest size")
    words = parser.parse_args()
    need("sqlite3", "is compared with show")
    program()
    largest = max(4, words.records // RECORDS_EACH)
    kept = True
    with tempfile.TemporaryDirectory() as room:
        for registries in (2, 32):
            kept = measure(f"{registries} registries", codes_of(registries), largest, max(1, words.runs), room) and kept
    print(f"limits: ratio {MOST_RATIO}, memory {MOST_TIMES_BYTES:.0f} times the records, {MOST_TIMES_SQLITE:.0f} times SQLite, "
          f"show {MOST_TIMES_SHELL:.0f} times the shell")
    sys.exit(0 if kept else 1)


if __name__ == "__main__":
    main()
