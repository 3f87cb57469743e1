#!/usr/bin/env python3
"""Runs the gate, and writes the processor seconds of each crate's code, tests and edits into docs/log/times.md.

    gate.py           runs `rt ci`
    gate.py --last    runs nothing, and says what the page has: the sum of all seconds as a multiple of those of
                      `units`, the longest chain of crates of which each waits for the one before it, and the crates
                      that take longer than by the page before it, as multiples of `units` too

The seconds are those of the prover. Its processes are sampled once a second, so a check of less than two seconds may be
missing. After a run that was cut off, a crate that it did not check keeps its row and its date. A crate that crates.txt
doesn't list loses its row, and a run that checked none leaves the page.
The sum in the head of the page is measured by the system, and includes the time of `rt` and of the compiler. The output
of `rt` goes to gate.log in the folder for temporary files. The exit status is that of `rt`.
"""
import argparse
import collections
import datetime
import os
import pathlib
import re
import resource
import signal
import subprocess
import sys
import tempfile
import time

from record import head

TOP = pathlib.Path(__file__).resolve().parent.parent
TIMES = TOP / "docs/log/times.md"
KINDS = ("code", "tests", "edits")
TICK = os.sysconf("SC_CLK_TCK")
ROW = re.compile(r"^\| `(\w+)` \| (\d+) \| (\d+) \| (\d+) \| \d+ \| ([\d-]+) \|$", re.M)


class Gate:
    """The seconds of each crate's checks, by the processes of one session."""

    def __init__(self, session):
        self.session, self.last, self.seconds = session, {}, collections.Counter()

    def look(self):
        """Adds the seconds that each process of the prover has used since the last look."""
        for folder in pathlib.Path("/proc").glob("[0-9]*"):
            try:
                words = (folder / "cmdline").read_bytes().split(b"\0")
                if not words[0].endswith(b"/rattle") or b"--crate-name" not in words:
                    continue
                if os.getsid(int(folder.name)) != self.session:
                    continue
                fields = (folder / "stat").read_text().rsplit(")", 1)[1].split()
                at = os.readlink(folder / "cwd")
            except (OSError, IndexError):
                continue
            crate = words[words.index(b"--crate-name") + 1].decode()
            kind = "edits" if "rt-edit" in at else "tests" if b"--test" in words else "code"
            # The system reuses numbers of processes; the time of the start makes them distinct.
            process, used = (folder.name, fields[19]), (int(fields[11]) + int(fields[12])) / TICK
            self.seconds[crate, kind] += used - self.last.get(process, 0)
            self.last[process] = used


def rows_of(page):
    """Returns the rows of a page: for each crate its three numbers of seconds, and the date of their measurement."""
    return {name: (*map(int, parts), date) for name, *parts, date in ROW.findall(page)}


def rows(seconds, today):
    """Returns for each crate its name, its three numbers of seconds, and the date on which they were measured."""
    listed, page = uses(), rows_of(TIMES.read_text()) if TIMES.exists() else {}
    known = {name: row for name, row in page.items() if name in listed}
    for name in {crate for crate, _ in seconds}:
        known[name] = (*(round(seconds[name, kind]) for kind in KINDS), today)
    return sorted(known.items(), key=lambda row: -sum(row[1][:3]))


def uses():
    """Returns for each crate of crates.txt the crates and libraries that it uses."""
    lines = (line for line in (TOP / "crates.txt").read_text().splitlines() if line and not line.startswith("#"))
    return {name.split()[0]: used.split() for name, used in (line.split(":") for line in lines)}


def longest_chain(known):
    """Returns the seconds of the longest chain of crates, and their names. A crate's code waits for that of the crates
    that it uses, and its tests for its code."""
    below, found = uses(), {}

    def chain_to(name):
        if name not in found:
            before = [chain_to(it) for it in below[name] if it in below]
            seconds, names = max(before, default=(0, ()))
            found[name] = (seconds + known.get(name, (0,))[0], (*names, name))
        return found[name]

    chains = ((chain_to(name)[0] + known.get(name, (0, 0))[1], chain_to(name)[1]) for name in below)
    return max(chains, default=(0, ()))


def times_units(known, seconds):
    """Returns a number of seconds as a multiple of those of `units` on the same page."""
    return seconds / sum(known["units"][:3])


def summary(known):
    """Yields the sum of a page and its longest chain."""
    together = sum(sum(row[:3]) for row in known.values())
    chain, names = longest_chain(known)
    yield f"sum: {together} seconds, {times_units(known, together):.1f} times `units`"
    yield f"longest chain: {chain} seconds, {times_units(known, chain):.1f} times `units`: {', '.join(names)}"


def page_before():
    """Returns the page as the commit before its last change has it, or no page if there is none."""
    path = str(TIMES.relative_to(TOP))
    commits = git("log", "--format=%H", "-2", "--", path).split()
    return git("show", f"{commits[-1]}:{path}") if len(commits) == 2 else ""


def git(*words):
    return subprocess.run(["git", *words], cwd=TOP, capture_output=True, text=True, check=True).stdout


def growth(known, before):
    """Yields each crate that takes more than a tenth of `units` longer than before."""
    for name, row in known.items():
        now = times_units(known, sum(row[:3]))
        then = times_units(before, sum(before[name][:3])) if name in before else 0
        if now > then + 0.1:
            yield f"{name}: {then:.2f} times `units` before, and {now:.2f} now"


def tell_last():
    """Prints what the page has."""
    known, before = rows_of(TIMES.read_text()), rows_of(page_before())
    print(*summary(known), sep="\n")
    if "units" in before:
        print(*growth(known, before), sep="\n")


def text(seconds, lines):
    """Yields the page: its head and its table."""
    table = rows(seconds, str(datetime.date.today()))
    sums = [sum(row[1][at] for row in table) for at in range(3)]
    yield "# Times\n\nProcessor seconds of the prover by crate. Made by `tools/gate.py`; `release/prove` reads the table.\n\n"
    lines = [*lines, *summary(dict(table))]
    yield from (f"- {line}\n" for line in lines)
    yield "\n| Crate | Code | Tests | Edits | Together | Measured |\n|---|---|---|---|---|---|\n"
    yield from (f"| `{name}` | {code} | {tests} | {edits} | {code + tests + edits} | {date} |\n" for name, (code, tests, edits, date) in table)
    yield f"| all | {sums[0]} | {sums[1]} | {sums[2]} | {sum(sums)} | |\n"


def main():
    parser = argparse.ArgumentParser(description=__doc__.splitlines()[0])
    parser.add_argument("--last", action="store_true", help="say what the page has, and run nothing")
    given = parser.parse_args()
    if given.last:
        tell_last()
        return
    lines = head("tools/gate.py", [])
    begin = time.time()
    log = pathlib.Path(tempfile.gettempdir()) / "gate.log"
    with log.open("w", encoding="utf-8") as out:
        run = subprocess.Popen(["rt", "ci"], cwd=TOP, stdout=out, stderr=subprocess.STDOUT, start_new_session=True)
        gate = Gate(run.pid)
        try:
            while run.poll() is None:
                gate.look()
                time.sleep(1)
        finally:
            # After Ctrl-C the gate would go on, as it has a session of its own.
            if run.poll() is None:
                os.killpg(run.pid, signal.SIGTERM)
                run.wait()
    used = resource.getrusage(resource.RUSAGE_CHILDREN)
    measured = len({crate for crate, _ in gate.seconds})
    lines.append(f"last run: status {run.returncode}, {(time.time() - begin) / 60:.0f} minutes, "
                 f"{used.ru_utime + used.ru_stime:.0f} processor seconds in all, {measured} crates measured")
    # A run that checked nothing, as one whose files are refused, has nothing to say about times.
    if gate.seconds:
        TIMES.write_text("".join(text(gate.seconds, lines)), encoding="utf-8")
    print(f"{lines[-1]}; the output of rt is in {log}")
    sys.exit(run.returncode)


if __name__ == "__main__":
    main()
