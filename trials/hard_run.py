#!/usr/bin/env python3
"""Runs `kyoto-link run` with too few resources and with bad clients. Each run must end, and in time.

    hard_run.py [--connects N] [--threads N] [--registries N ..] [--only TEXT] [--seed N]

Over 2 and over 32 registries, runs are started with connects, accepts or threads that fail, with few file handles,
little memory and few threads, with clients that send a byte now and then, read nothing or stay idle, and with SIGTERM
at random moments. Each run must end within 15 seconds after its script, with its results and table and status 0, with
one line of a fault and its status, or by SIGTERM if that was sent. Afterwards `audit` must count each tonne once in its
stores, and after status 0 it must write the run's table.

A line is printed for each kind of run, and one for each run that failed. The exit status is 1 if a run failed. The kind
`few threads` needs root and is left out without it.
"""

import argparse
import dataclasses
import os
import pathlib
import random
import re
import resource
import signal
import socket
import subprocess
import sys
import tempfile
import threading
import time

import paths
from building import build_c
from endings import run_to_end, without_new_stores
from kills import tonnes
from rehearse import codes_of, program, scheme

FAILING = pathlib.Path(__file__).resolve().with_name("hard_run.c")
# The time that a question of the script waits, in turns of a millisecond, and the most seconds of a run after its script.
TURNS = 3_000
SECONDS = 15
FAULTS = {1, 3, 4, 5}
FAULT = re.compile(r"kyoto-link: [^\n]+\n")
# The statuses of a run that is sent SIGTERM: it may have ended just before.
ENDED = (-signal.SIGTERM, 0)
# The user nobody, who has no other processes, so that a limit on processes is one on the run's threads.
NOBODY = 65_534


@dataclasses.dataclass
class Case:
    """A run: the calls that fail in it, its limits, and its client."""
    name: str
    fail: dict = dataclasses.field(default_factory=dict)
    limits: dict = dataclasses.field(default_factory=dict)
    client: object = None
    killed_after: float | None = None


def failing(function, start, count):
    return Case(f"{function} {start}, {count} times", fail={"FAIL": function, "FAIL_FROM": str(start), "FAIL_COUNT": str(count)})


def cases(chance, connects, threads):
    """Yields each kind of run with its runs."""
    yield "no failure", [Case("plain")]
    yield "a connect fails once", [failing("connect", it, 1) for it in range(1, connects + 1)]
    yield "a hundred connects fail", [failing("connect", it, 100) for it in (1, 5, 20)]
    yield "an accept fails once", [failing("accept4", it, 1) for it in range(1, connects + 1)]
    yield "all accepts fail", [failing("accept4", it, 1_000_000) for it in (1, 10, 30)]
    yield "a thread can't be made", [failing("pthread_create", it, 1) for it in range(1, threads + 1)]
    yield "no more threads can be made", [failing("pthread_create", it, 1_000_000) for it in range(1, threads + 1)]
    handles = [*range(12, 40), *range(40, 300, 13)]
    yield "few file handles", [Case(f"{it} handles", limits={resource.RLIMIT_NOFILE: it}) for it in handles]
    memory = [32, 40, 48, 56, 64, 80, 100, 120, 140, 160, 180, 200, 250, 300, 350, 400]
    yield "little memory", [Case(f"{it} MB", limits={resource.RLIMIT_AS: it << 20}) for it in memory]
    if os.geteuid() == 0:
        processes = [1, 2, 3, 5, 8, 10, 15, 20, 25, 30, 40, 60, 100, 150, 200, 250, 300, 350, 400]
        yield "few threads", [Case(f"{it} threads", limits={resource.RLIMIT_NPROC: it}) for it in processes]
    yield "a client that sends a byte every 1.5 s", [Case("slow", client=send_slowly)]
    yield "a client that never reads", [Case("deaf", client=never_read)]
    yield "1,000 idle connections", [Case("idle", client=sit_idle)]
    yield "SIGTERM", [Case(f"after {it:.2f} s", killed_after=it) for it in (chance.uniform(0, 1.5) for _ in range(20))]


def ports_of(process):
    """Returns the ports at which a process listens."""
    inodes = set()
    for it in pathlib.Path(f"/proc/{process.pid}/fd").glob("*"):
        try:
            found = re.fullmatch(r"socket:\[(\d+)\]", os.readlink(it))
        except OSError:
            continue
        inodes |= {found[1]} if found else set()
    lines = [it.split() for it in pathlib.Path("/proc/net/tcp").read_text().splitlines()[1:]]
    return [int(it[1].split(":")[1], 16) for it in lines if it[3] == "0A" and it[9] in inodes]


def connected(ports):
    try:
        return socket.create_connection(("127.0.0.1", random.choice(ports)), timeout=2)
    except OSError:
        return None


def send_slowly(ports, over):
    """Sends a byte every 1.5 seconds over four connections to each port, the number that a node serves at once."""
    clients = [socket.create_connection(("127.0.0.1", port), timeout=2) for port in ports for _ in range(4)]
    while not over.wait(1.5):
        for it in clients:
            try:
                it.send(b"x")
            except OSError:
                pass


def never_read(ports, over):
    """Sends lines without end, and reads no reply."""
    clients = [it for it in (connected(ports) for _ in range(8)) if it]
    for it in clients:
        it.setblocking(False)
    while not over.wait(0.01):
        for it in clients:
            try:
                it.send(b"x\n" * 1_000)
            except OSError:
                pass


def sit_idle(ports, over):
    """Opens up to 1,000 connections and sends nothing over them."""
    clients = [connected(ports) for _ in range(1_000) if not over.is_set()]
    over.wait()
    del clients


class Folder:
    """A folder with a scheme, a script of transfers, and new stores for each run."""

    def __init__(self, room, registries):
        self.codes = codes_of(registries)
        self.room = pathlib.Path(room) / str(registries)
        self.room.mkdir()
        self.scheme, self.script = self.room / "scheme", self.room / "script"
        self.scheme.write_text(scheme(self.codes, 10))
        lines, first = [], self.codes[:2]
        for number in range(1, 4):
            lines.append(f"propose {first[0]} 1 {first[1]} 1 {first[0]}:1:{number}-{number}:AAU\n")
        self.questions = [f"until {first[1]} {first[0]}{number} Completed {TURNS}\n" for number in range(1, 4)]
        self.script.write_text("".join(lines + self.questions))
        self.lines = len(lines) + len(self.questions)

    def new_stores(self):
        stores = pathlib.Path(tempfile.mkdtemp(dir=self.room))
        stores.chmod(0o777)
        return stores


def start(folder, stores, case, library):
    """Starts the run with the limits of its case."""
    def limit():
        for what, most in case.limits.items():
            resource.setrlimit(what, (most, most))
        if resource.RLIMIT_NPROC in case.limits:
            os.setgid(NOBODY)
            os.setuid(NOBODY)

    environment = {**os.environ, **case.fail, **({"LD_PRELOAD": str(library)} if case.fail else {})}
    words = [program(), "run", folder.scheme, stores, folder.script]
    return subprocess.Popen(words, stdin=subprocess.DEVNULL, stdout=subprocess.PIPE, stderr=subprocess.PIPE, text=True, env=environment, preexec_fn=limit)


def wrong_end(case, folder, process, text, said):
    """Returns a text about the run's end, if it is wrong, or None."""
    said = without_new_stores(said)
    if case.killed_after is not None:
        return None if process.returncode in ENDED else f"status {process.returncode}"
    if process.returncode == 0:
        answers = re.match(rf"(?:\d+ [^\n]+\n){{{folder.lines}}}", text)
        return None if answers and text.endswith("end\n") and not said else "results or table are missing"
    if process.returncode in FAULTS and FAULT.fullmatch(said):
        return None
    return f"status {process.returncode}"


def follow(folder, case, library):
    """Runs a case. Returns a text about the run or its stores, if they are wrong, or None, and the seconds of the
    run."""
    stores, over, begin = folder.new_stores(), threading.Event(), time.monotonic()
    process = start(folder, stores, case, library)
    client = None
    if case.client:
        while not (ports := ports_of(process)) and process.poll() is None:
            time.sleep(0.01)
        client = threading.Thread(target=case.client, args=(ports, over))
        client.start()
    if case.killed_after is not None:
        threading.Timer(case.killed_after, process.send_signal, [signal.SIGTERM]).start()
    longest = len(folder.questions) * TURNS / 1_000 + SECONDS
    try:
        text, said = process.communicate(timeout=longest)
    except subprocess.TimeoutExpired:
        process.kill()
        process.communicate()
        return f"it had not ended after {longest:.0f} seconds", longest
    finally:
        over.set()
        if client:
            client.join()
    spent = time.monotonic() - begin
    wrong = wrong_end(case, folder, process, text, said)
    if wrong:
        return f"{wrong}: {text[-300:]}{said[-300:]}", spent
    table = run_to_end([program(), "audit", folder.scheme, stores], capture_output=True, text=True).stdout
    if tonnes(table) != 10 * len(folder.codes):
        return f"audit counts {tonnes(table)} tonnes", spent
    if process.returncode == 0 and not text.endswith(table):
        return "audit writes another table than the run", spent
    return None, spent


def main():
    words = argparse.ArgumentParser(description=__doc__, formatter_class=argparse.RawDescriptionHelpFormatter)
    words.add_argument("--connects", type=int, default=40, help="the number of first connects and accepts that fail, one in each run")
    words.add_argument("--threads", type=int, default=40, help="the number of first threads that can't be made, one in each run")
    words.add_argument("--registries", type=int, nargs="*", default=[2, 32])
    words.add_argument("--only", default="", help="run only the kinds with this text in their names")
    words.add_argument("--seed", type=int, default=None)
    given = words.parse_args()
    program()
    failed = False
    with tempfile.TemporaryDirectory() as room:
        os.chmod(room, 0o755)
        library = pathlib.Path(room) / "hard_run.so"
        build_c(FAILING, library, "-shared", "-fPIC", "-ldl")
        for registries in given.registries:
            folder = Folder(room, registries)
            folder.room.chmod(0o755)
            for kind, runs in cases(random.Random(given.seed), given.connects, given.threads):
                if given.only not in kind:
                    continue
                wrong, longest = [], 0.0
                for case in runs:
                    found, spent = follow(folder, case, library)
                    longest = max(longest, spent)
                    wrong += [f"    {case.name}: {found}"] if found else []
                print(f"{registries} registries, {kind}: {len(runs) - len(wrong)} of {len(runs)} ended well, the longest after {longest:.1f} s", flush=True)
                print("\n".join(wrong) + "\n" * bool(wrong), end="", flush=True)
                failed |= bool(wrong)
    sys.exit(failed)


if __name__ == "__main__":
    main()
