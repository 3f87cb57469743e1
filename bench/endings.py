"""Checks the ends of programs that a bench starts. If one is wrong, the bench exits with status 1."""

import re
import subprocess
import sys

# A line on standard error about a store that a command creates.
NEW_STORE = re.compile(r"^kyoto-link: \S+\.db doesn't exist, and is created as an empty store\n", re.MULTILINE)
# The number of the last characters of a program's messages that are printed.
MOST_SAID = 2_000


def check_end(words, status, wanted=(0,), said=None):
    """Exits with a message if the program that these words started ended with none of the wanted statuses. A status
    below 0 is that of a signal."""
    if status in wanted:
        return
    command = " ".join(map(str, words)).split("\n")[0]
    how = f"status {status}" if status >= 0 else f"signal {-status}"
    text = said.decode(errors="replace") if isinstance(said, bytes) else said or ""
    sys.exit(f"{command} ended with {how}: {text.strip()[-MOST_SAID:]}".rstrip(": "))


def run_to_end(words, **given):
    """Runs a program by `subprocess.run`, which must end with status 0, and returns its result."""
    ended = subprocess.run(words, check=False, **given)
    check_end(words, ended.returncode, said=ended.stderr)
    return ended


def without_new_stores(said):
    """Returns a program's messages without those about stores that it creates."""
    return NEW_STORE.sub("", said)
