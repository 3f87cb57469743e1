"""Writes stores as docs/FORMATS.md describes them by SQLite's library, and makes the texts of their records."""

import sqlite3

# The format of a store and of its records.
FORMAT = 2
TABLES = (
    "CREATE TABLE about (id INTEGER PRIMARY KEY CHECK (id = 1), format INTEGER NOT NULL, node TEXT NOT NULL) STRICT",
    "CREATE TABLE entries (place INTEGER PRIMARY KEY, body TEXT NOT NULL) STRICT",
)


def record(keys):
    """Returns the text of a record with these keys of its input, which are JSON without braces."""
    return f'{{{keys},"v":{FORMAT}}}'


def write_store(folder, node, texts, form=FORMAT):
    """Makes the node's store of that format, with these texts as its records."""
    store = sqlite3.connect(folder / f"{node}.db")
    for table in TABLES:
        store.execute(table)
    store.execute("INSERT INTO about VALUES (1, ?1, ?2)", (form, node))
    store.executemany("INSERT INTO entries VALUES (?1, ?2)", enumerate(texts))
    store.commit()
    store.close()
