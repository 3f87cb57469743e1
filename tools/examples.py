#!/usr/bin/env python3
"""Runs the program kyoto-link over the folders of examples/, and compares what it writes with the files there.

    examples.py [PROGRAM] [NAME ..]

PROGRAM is the path of the program; without it the program is run that ./kyoto-link runs. NAME is an example, such as
one_transfer, or a folder of examples, such as faults; without a NAME all examples are run.

The files of an example say what is run. `output` has the standard output, and `error` the line of a fault, whose exit
status must be that of docs/FORMATS.md:

- `input`: `rehearse`, and also `chart` if there is `chart.mmd`, its output. checker/ must write the same report. If all
  records are committed in the end, `audit` and `audit --cut` of stores with these records must write the table of
  `output`, and so must `rehearse` of the events that `events` writes.
- `words`, one a line: the command with these words. If they are wrong, `error` has the text about them, of which the
  program writes each line that isn't empty after its name.
- `word`: `explain` of this topic.
- `input` and `id`: `trace` of this transaction, of stores with the records to which the events of `input` lead.
- `input` and `kept`: `audit --cut` of such stores. For each line `NODE COUNT` of `kept`, the store of the node has only
  that many first records. If there is `json` too, the output is JSON.
- `input` and `json`: `audit`, `events`, `trace` of this transaction and `show` of its initiator's store, with `--json`.
  Their outputs are in files of these names.
- `scheme` and `stores`: `audit` of a copy of these stores.
- `command`, and `NODE.sql` with the statements that make the store of a node, or `stores`: the command of these words,
  one a line, over the scheme of `one_transfer`. A store that isn't refused has format 2 afterwards, and one that is refused has the
  same content as before.

checker/ finds the records to which events lead, and SQLite's library writes them into stores. A line is printed for
each example that is as written, in the order of their names. For another one there is a line for each difference, with
the command, the first line that differs, the expected one and the one that was found. The exit status is 1 if there is
a difference or no example, and 2 if the words are wrong.
"""
import argparse
import collections
import concurrent.futures
import functools
import itertools
import os
import pathlib
import shutil
import sqlite3
import subprocess
import sys
import tempfile

TOP = pathlib.Path(__file__).resolve().parent.parent
sys.path += [str(TOP / "checker"), str(TOP / "bench")]

import formats
import rehearse
import worlds
from explained import codes_in, named_by, plain, rows_of
from journals import record_text
from records import FORMAT, write_store

EXAMPLES = TOP / "examples"
# The example whose scheme stores by statements have.
WORKED = "one_transfer"
# The name under which ./kyoto-link starts the program. Help and usage begin with it.
NAME = "kyoto-link"
# The most seconds of a command.
LONGEST = 60
# The exit status after wrong words.
WRONG_WORDS = 2
# The last words of each command over stores: a file and a folder in the room of an example.
STORES = ("scheme", "stores")
# With this variable hints would follow a fault, as they do at a terminal.
ENVIRONMENT = {name: value for name, value in os.environ.items() if name != "KYOTO_LINK_HINTS"}
# The columns of the tables in FORMATS.md with the faults of a scheme and of a store, and a fault with their status.
LIKEWISE = {("Word", "Cause"): "shape", ("Word", "When"): "damaged"}


@functools.cache
def statuses():
    """Returns for the topic of each fault its exit statuses, by the tables of FORMATS.md."""
    rows, found = list(rows_of("FORMATS.md")), collections.defaultdict(set)
    for _, columns, cells in rows:
        if columns == ["Line", "Status", "When"]:
            found[named_by(codes_in(cells[0])[0])].add(int(cells[1]))
    for _, columns, cells in rows:
        if tuple(columns) in LIKEWISE:
            found[named_by(plain(cells[0]))] |= found[LIKEWISE[tuple(columns)]]
    return found


def status_of(fault):
    """Returns the exit status of a fault. Raises `ValueError` unless FORMATS.md has one."""
    found = statuses()[named_by(fault)]
    if len(found) != 1:
        raise ValueError(f"FORMATS.md has the statuses {sorted(found)} for {fault!r}")
    return min(found)


def content(path):
    """Returns the bytes of a file, or none if there is no such file."""
    return path.read_bytes() if path.exists() else b""


def end_of(folder):
    """Returns the end that `output` and `error` of an example describe: the exit status, and the bytes of standard
    output and of standard error."""
    out, error = content(folder / "output"), folder / "error"
    if not error.exists():
        return 0, out, b""
    said = content(error).decode()
    if (folder / "words").exists():
        return WRONG_WORDS, out, "".join(f"{NAME}: {line}\n" for line in said.splitlines() if line).encode()
    return status_of(said), out, said.encode()


def table_of(report, given):
    """Returns what follows the lines of the events in a report of that input."""
    events = given.count(b"\n") - 1
    return report.split(b"\n", events)[-1]


def shown(line):
    return "nothing" if line is None else repr(line.decode(errors="backslashreplace"))


def first_difference(expected, found):
    """Returns a text about the first line that differs between two texts that aren't equal."""
    pairs = itertools.zip_longest(expected.splitlines(keepends=True), found.splitlines(keepends=True))
    number, (line, other) = next(it for it in enumerate(pairs, 1) if it[1][0] != it[1][1])
    return f"line {number}: expected {shown(line)}, found {shown(other)}"


def is_committed(world):
    """Returns whether all records of a world are committed."""
    return not any(map(world.tail, world.nodes))


class Example:
    """An example, a folder for its stores, and the differences between its files and what the program writes."""

    def __init__(self, program, folder, room):
        self.program, self.folder, self.room = program, folder, room
        self.differences = []

    def has(self, name):
        return (self.folder / name).exists()

    def bytes_of(self, name):
        return content(self.folder / name)

    def lines_of(self, name):
        return self.bytes_of(name).decode().splitlines()

    def compare(self, command, part, expected, found):
        """Notes the difference between a part of what the command wrote and the expected one, if there is one."""
        if expected != found:
            self.differences.append(f"{command}: {part}, {first_difference(expected, found)}")

    def run(self, end, *words, given=b""):
        """Runs the program with these words and that input, and compares its end with the expected one, where None in
        place of the standard output stands for any. Returns the standard output."""
        command = " ".join([NAME, *words])
        try:
            ended = subprocess.run([NAME, *words], executable=self.program, input=given, cwd=self.room, env=ENVIRONMENT,
                                   capture_output=True, timeout=LONGEST, check=False)
        except subprocess.TimeoutExpired:
            self.differences.append(f"{command}: no end within {LONGEST} seconds")
            return b""
        status, out, err = end
        if ended.returncode != status:
            self.differences.append(f"{command}: exit status, expected {status}, found {ended.returncode}")
        self.compare(command, "standard error", err, ended.stderr)
        if out is not None:
            self.compare(command, "standard output", out, ended.stdout)
        return ended.stdout

    def rehearsal(self):
        """Returns the report that checker/ writes about `input`, and the world to which the events lead."""
        return worlds.rehearse(self.bytes_of("input").decode())

    def make_stores(self, world, kept):
        """Makes the scheme and the stores of a world. The store of a node in `kept` has only that many first records.
        Raises `ValueError` if the node has fewer, or if a record isn't committed."""
        if not is_committed(world):
            raise ValueError("a record is not committed in the end")
        journals = {name: node.journal for name, node in world.nodes.items()}
        for name, count in kept.items():
            if name not in journals or count > len(journals[name]):
                raise ValueError(f"{name} doesn't have {count} records")
            journals[name] = journals[name][:count]
        scheme, stores = (self.room / it for it in STORES)
        scheme.write_bytes(self.bytes_of("input").split(b"\n")[0] + b"\n")
        stores.mkdir()
        for name, journal in journals.items():
            write_store(stores, name, map(record_text, journal))


def check_report(example):
    """Compares the report, the chart, and the table of stores."""
    given, output = example.bytes_of("input"), example.bytes_of("output")
    example.run(end_of(example.folder), "rehearse", given=given)
    if example.has("chart.mmd"):
        example.run((0, example.bytes_of("chart.mmd"), b""), "chart", given=given)
    if example.has("output"):
        report, world = example.rehearsal()
        example.compare("checker/check.py", "standard output", output, report.encode())
        if is_committed(world):
            check_table(example, world, table_of(output, given))


def check_table(example, world, table):
    """Compares the table of the world's stores, that of their furthest cut, and that of the events that lead to their
    records."""
    example.make_stores(world, {})
    example.run((0, table, b""), "audit", *STORES)
    example.run((0, table, b""), "audit", "--cut", *STORES)
    events = example.run((0, None, b""), "events", *STORES)
    report = example.run((0, None, b""), "rehearse", given=events)
    example.compare("kyoto-link rehearse of the output of events", "table", table, table_of(report, events))


def check_words(example):
    """Compares help, the version, or the text about wrong words."""
    example.run(end_of(example.folder), *example.lines_of("words"))


def check_topic(example):
    """Compares the text of a topic, or the fault if there is no such topic."""
    example.run(end_of(example.folder), "explain", *example.lines_of("word"))


def check_trace(example):
    """Compares the records of a transaction."""
    _, world = example.rehearsal()
    example.make_stores(world, {})
    example.run(end_of(example.folder), "trace", *STORES, *example.lines_of("id"))


def check_cut(example):
    """Compares the furthest cut of stores, and the fault that names the first record beyond it."""
    _, world = example.rehearsal()
    kept = {node: formats.number(count) for node, count in map(str.split, example.lines_of("kept"))}
    example.make_stores(world, kept)
    form = ["--json"] if example.has("json") else []
    example.run(end_of(example.folder), "audit", "--cut", *STORES, *form)


def check_json(example):
    """Compares the JSON texts of the commands that write them."""
    _, world = example.rehearsal()
    (name,) = example.lines_of("json")
    initiator, _ = formats.identifier(name)
    example.make_stores(world, {})
    for command, *words in ("audit",), ("events",), ("trace", name), ("show", initiator):
        example.run((0, example.bytes_of(command), b""), command, *STORES, *words, "--json")


def check_copy(example):
    """Compares the table of the stores that the folder has. The first command that opens them may migrate them."""
    shutil.copytree(example.folder, example.room, dirs_exist_ok=True)
    example.run(end_of(example.folder), "audit", *STORES)


def make_by_statements(path, statements):
    """Makes a database of the statements, which need not be a store."""
    database = sqlite3.connect(path)
    database.executescript(statements)
    database.close()


def content_of(path):
    """Returns the statements that make the content of a database, or the bytes of a file that is none."""
    database = sqlite3.connect(path)
    try:
        return list(database.iterdump())
    except sqlite3.DatabaseError:
        return path.read_bytes()
    finally:
        database.close()


def format_of(path):
    """Returns the format of a store."""
    database = sqlite3.connect(path)
    try:
        return database.execute("SELECT format FROM about").fetchone()[0]
    finally:
        database.close()


def check_store(example):
    """Compares a command's end over stores that may have a fault, and what they hold afterwards."""
    scheme, stores = (example.room / it for it in STORES)
    scheme.write_bytes(content(EXAMPLES / WORKED / "input").split(b"\n")[0] + b"\n")
    if example.has("stores"):
        shutil.copytree(example.folder / "stores", stores)
    else:
        stores.mkdir()
    for path in example.folder.glob("*.sql"):
        make_by_statements(stores / f"{path.stem}.db", path.read_text())
    before = {path: content_of(path) for path in stores.glob("*.db")}
    example.run(end_of(example.folder), *example.lines_of("command"))
    for path, held in before.items():
        if example.has("error") and content_of(path) != held:
            example.differences.append(f"{path.name}: its content was changed")
        if not example.has("error") and format_of(path) != FORMAT:
            example.differences.append(f"{path.name}: format, expected {FORMAT}, found {format_of(path)}")


# What is compared, by all names in a folder.
CHECKS = {
    "input output": check_report,
    "chart.mmd input output": check_report,
    "error input": check_report,
    "output words": check_words,
    "error words": check_words,
    "output word": check_topic,
    "error word": check_topic,
    "id input output": check_trace,
    "error input kept output": check_cut,
    "error input json kept output": check_cut,
    "audit events input json show trace": check_json,
    "output scheme stores": check_copy,
    "NZ.sql command error": check_store,
    "NZ.sql command output": check_store,
    "ITL.sql JP.sql NZ.sql command error": check_store,
    "ITL.sql JP.sql NZ.sql command output": check_store,
    "command error stores": check_store,
}


def differences_of(program, name):
    """Returns the differences between the files of an example and what the program writes."""
    folder = EXAMPLES / name
    files = " ".join(sorted(it.name for it in folder.iterdir()))
    if files not in CHECKS:
        return [f"no example has exactly these files: {files or 'none'}"]
    with tempfile.TemporaryDirectory() as room:
        example = Example(program, folder, pathlib.Path(room))
        try:
            CHECKS[files](example)
        except (OSError, ValueError, LookupError, formats.NotWritten) as fault:
            example.differences.append(f"not all was run: {fault!r}")
        return example.differences


def names_below(folder):
    """Yields the names of the examples below a folder. One that has only folders is a folder of examples."""
    for it in folder.iterdir():
        if it.is_dir():
            parts = list(it.iterdir())
            if parts and all(part.is_dir() for part in parts):
                yield from names_below(it)
            else:
                yield str(it.relative_to(EXAMPLES))


def chosen(names, word):
    """Returns the names that are the word, or are those of examples below it."""
    return [name for name in names if f"{name}/".startswith(f"{word.rstrip('/')}/")]


def given_words():
    """Returns the path of the program, and the names of the examples to run. The first word is the program unless it is
    the name of examples."""
    parser = argparse.ArgumentParser(description=__doc__.splitlines()[0])
    parser.add_argument("program", metavar="PROGRAM", nargs="?", help="the program; otherwise that of ./kyoto-link")
    parser.add_argument("names", metavar="NAME", nargs="*", help="an example, or a folder of examples; otherwise all")
    given = parser.parse_args()
    every, words = sorted(names_below(EXAMPLES)), [it for it in (given.program, *given.names) if it]
    program = None if not words or chosen(every, words[0]) else words.pop(0)
    for word in words:
        if not chosen(every, word):
            parser.error(f"examples/ has no {word}")
    path = pathlib.Path(program or rehearse.program()).resolve()
    if not path.is_file() or not os.access(path, os.X_OK):
        parser.error(f"{path} is no program, and examples/ has no {program}")
    wanted = {name for word in words for name in chosen(every, word)}
    return path, [name for name in every if name in wanted or not words]


def main():
    program, names = given_words()
    right = 0
    with concurrent.futures.ThreadPoolExecutor(os.cpu_count()) as threads:
        for name, differences in zip(names, threads.map(functools.partial(differences_of, program), names)):
            print(*(f"{name}: {it}" for it in differences or ["as written"]), sep="\n", flush=True)
            right += not differences
    wrong = len(names) - right
    print(f"{right} examples as written" + (f", and {wrong} otherwise" if wrong else ""))
    sys.exit(0 if names and not wrong else 1)


if __name__ == "__main__":
    main()
