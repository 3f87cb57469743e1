"""Runs the program over folders with a scheme and stores, and copies and changes stores."""

import contextlib
import itertools
import pathlib
import shutil
import signal
import sqlite3
import subprocess
import time

import paths
from cuts import formats
from endings import without_new_stores
from rehearse import program

# The most seconds of a command.
SECONDS = 300


class Difference(Exception):
    """A difference between a result and the expected one."""


def differ(found, text):
    if found:
        raise Difference(text)


def compare(found, wanted, text):
    """Raises `Difference` with the first lines that differ, if the two texts differ."""
    pairs = itertools.zip_longest(found.splitlines(), wanted.splitlines())
    differ(found != wanted, f"{text}: {next((it for it in pairs if it[0] != it[1]), '')}")


def do(*words, given=None, wanted=(0,)):
    """Runs the program with these words and returns its result, without messages about new stores. Its status must be
    one of the wanted ones."""
    words = [program(), *map(str, words)]
    ended = subprocess.run(words, input=given, capture_output=True, text=True, check=False, timeout=SECONDS)
    ended.stderr = without_new_stores(ended.stderr)
    differ(ended.returncode not in wanted, f"{words[1]} ended with status {ended.returncode}: {ended.stderr.strip()}")
    return ended


class Folder:
    """A folder with a scheme, a script and stores."""

    def __init__(self, path, text):
        self.path, self.text = pathlib.Path(path), text
        self.scheme, self.stores, self.script = (self.path / name for name in ("scheme", "stores", "script"))
        self.stores.mkdir()
        self.scheme.write_text(f"{text}\n")
        self.codes = list(formats.scheme(text)[0])

    def start(self, lines):
        """Starts a run with a script of these lines."""
        self.script.write_text("".join(f"{line}\n" for line in lines))
        words = [program(), "run", self.scheme, self.stores, self.script]
        pipe, null = subprocess.PIPE, subprocess.DEVNULL
        return subprocess.Popen(words, stdin=null, stdout=pipe, stderr=pipe, text=True)

    def records(self, stores=None):
        """Returns the texts of each node's records, as `show` writes them."""
        found = {}
        for name in (formats.ITL, *self.codes):
            lines = do("show", self.scheme, stores or self.stores, name).stdout.splitlines()
            found[name] = [line.partition(" ")[2] for line in lines[:-1]]
            numbered = [f"{place} {text}" for place, text in enumerate(found[name])]
            differ([*numbered, "end"] != lines, f"show of {name} has a gap or no end")
        return found


def end_of(process, killed=False):
    """Waits for the end of a run, and returns its output."""
    try:
        text, said = process.communicate(timeout=SECONDS)
    finally:
        process.kill()
    status = process.returncode
    differ(status not in ((-signal.SIGKILL, 0) if killed else (0,)), f"run ended with status {status}: {said.strip()}")
    return text


def copy_by_library(path, copy):
    """Copies a store by SQLite's library. Returns whether the library could read it, which fails while the program has
    it open."""
    reader = sqlite3.connect(f"{path.as_uri()}?mode=ro", uri=True, timeout=0)
    with contextlib.suppress(sqlite3.OperationalError), contextlib.closing(reader):
        reader.execute("SELECT * FROM about").fetchall()
        with contextlib.closing(sqlite3.connect(copy)) as writer:
            reader.backup(writer)
        return True
    return False


def copy_stores(folder, place, chance):
    """Copies the stores of all nodes, the log's first or last, with pauses, and returns the number of those that
    SQLite's library copied. Of each other store, the file and its log are copied in any order."""
    names, by_library = chance.sample(folder.codes, len(folder.codes)), 0
    for name in chance.choice(([formats.ITL, *names], [*names, formats.ITL])):
        path = folder.stores / f"{name}.db"
        if path.exists() and copy_by_library(path, place / path.name):
            by_library += 1
        else:
            for it in chance.sample((path, path.with_name(f"{path.name}-wal")), 2):
                with contextlib.suppress(FileNotFoundError):
                    shutil.copyfile(it, place / it.name)
                time.sleep(chance.choice((0, 0, 0, 0.01, 0.1)))
        time.sleep(chance.choice((0, 0.001, 0.01, 0.05)))
    return by_library


def is_whole(path):
    """Returns whether SQLite's library finds a store whole, without a gap in its places."""
    with contextlib.suppress(sqlite3.DatabaseError), contextlib.closing(sqlite3.connect(path)) as store:
        count, after = store.execute("SELECT count(*), coalesce(max(place) + 1, 0) FROM entries").fetchone()
        return count == after and store.execute("PRAGMA integrity_check").fetchall() == [("ok",)]
    return False


def put_in(path, place, text):
    """Inserts a record into a store at a place, and moves the records from there on by one."""
    with contextlib.closing(sqlite3.connect(path)) as store:
        store.execute("UPDATE entries SET place = -1 - place WHERE place >= ?1", (place,))
        store.execute("UPDATE entries SET place = -place WHERE place < 0")
        store.execute("INSERT INTO entries VALUES (?1, ?2)", (place, text))
        store.commit()
