#!/usr/bin/env python3
"""Measures the transfers a second of `kyoto-link run`, and compares them with a C program and with PostgreSQL.

    run.py [--alone N] [--together N] [--registries N ..] [--syncs MICROSECONDS ..] [--tries N] [--room DIR]

Transfers of one unit each are made among 2, 8 and 31 registries, on a disk as it is and with 0.1 and 1 milliseconds
more for each sync (bench/slow_sync.c): one after another, each Completed at the acquiring registry before the next one
is proposed, and together, all proposed and then awaited. The C program (bench/transfers.c) sends the same messages over
the same number of connections between the same number of threads, and commits the same records by SQLite's library.
Both run in turn, and the best times count. The time of a run without transfers is subtracted from the times of
kyoto-link. Transfers one after another run with a script that asks every 20 microseconds, so that its own waiting
counts little.

Printed are the rates, their ratio, and the processor time of a transfer, with those of the C program; the rate of
PostgreSQL, if it is installed, which moves one row a time between two databases by PREPARE TRANSACTION in both; the
system calls of a transfer; and the memory of a run with 32 registries. The exit status is 1 if a limit is exceeded or a
program fails.
"""

import argparse
import contextlib
import dataclasses
import os
import pathlib
import re
import shutil
import signal
import subprocess
import sys
import tempfile
import time

import building
from building import need
from endings import check_end, run_to_end
from rehearse import codes_of, program, scheme

BENCH = pathlib.Path(__file__).resolve().parent
TURNS = 600_000
# The microseconds that a script sleeps between its questions if transfers go one after another.
NAP = 20
LEAST_ALONE = {0: 0.6, 100: 0.6, 1_000: 0.95}
LEAST_TOGETHER = 0.7
# The microseconds of a sync from which on transfers one after another must be faster than PostgreSQL's.
AHEAD_FROM = 100
MOST_TIMES_TWO = 1.3
MOST_MEGABYTES = 150
POSTGRES = sorted(pathlib.Path("/usr/lib/postgresql").glob("*/bin"))
TRACED = "futex,connect,accept4,sendto,recvfrom,write,fdatasync,fsync,clock_nanosleep"


@dataclasses.dataclass
class Ended:
    """A program's output, its seconds, its processor time and the kernel's part of it, and its peak of memory in
    megabytes."""
    said: str
    seconds: float
    busy: float
    kernel: float
    megabytes: float


def timed(words, env=None):
    """Runs a program, which must end with status 0."""
    with tempfile.TemporaryFile("w+") as said, tempfile.TemporaryFile("w+") as errors:
        begin = time.monotonic()
        started = subprocess.Popen([str(it) for it in words], stdout=said, stderr=errors, env={**os.environ, **(env or {})})
        _, status, used = os.wait4(started.pid, 0)
        seconds = time.monotonic() - begin
        started.returncode = os.waitstatus_to_exitcode(status)
        said.seek(0)
        errors.seek(0)
        check_end(words, started.returncode, said=errors.read())
        return Ended(said.read(), seconds, used.ru_utime + used.ru_stime, used.ru_stime, used.ru_maxrss / 1024)


def parties(registries, count):
    """Returns the sender and the receiver of each transfer, and its number at the sender, from 1 on."""
    codes = codes_of(registries)
    return [(codes[it % registries], codes[(it + 1) % registries], it // registries + 1) for it in range(count)]


def script(registries, count, kind):
    all_of = parties(registries, count)
    orders = [f"propose {first} 1 {other} 1 {first}:1:{number}-{number}:AAU\n" for first, other, number in all_of]
    waits = [f"until {other} {first}{number} Completed {TURNS}\n" for first, other, number in all_of]
    if kind == "together":
        return "".join(orders + waits)
    return "".join(order + wait for order, wait in zip(orders, waits))


class Bench:
    """A folder on the disk to try, with the C program and the library that makes syncs slow."""

    def __init__(self, room):
        self.room = pathlib.Path(room)
        self.peer = self.room / "transfers"
        self.slow = self.room / "slow_sync.so"
        building.build_c(BENCH / "transfers.c", self.peer, "-std=c11", "-lsqlite3", "-lpthread")
        building.build_c(BENCH / "slow_sync.c", self.slow, "-shared", "-fPIC", "-ldl")

    def env(self, sync, nap=0):
        return {"LD_PRELOAD": str(self.slow), "SYNC_MICROSECONDS": str(sync), "NAP_MICROSECONDS": str(nap)}

    def play(self, registries, count, kind, env=None, before=()):
        """Runs that many transfers with new stores."""
        folder = pathlib.Path(tempfile.mkdtemp(dir=self.room))
        (folder / "stores").mkdir()
        (folder / "scheme").write_text(scheme(codes_of(registries), max(count, 1)))
        (folder / "script").write_text(script(registries, count, kind) or "status AA AA1\n")
        words = [*before, program(), "run", folder / "scheme", folder / "stores", folder / "script"]
        ended = timed(words, env)
        shutil.rmtree(folder)
        if len(re.findall(r"^transaction \S+ \S+ Completed ITL Completed \S+ Completed$", ended.said, re.MULTILINE)) != count:
            sys.exit("a transfer isn't completed")
        return ended

    def play_in_c(self, registries, count, kind, env):
        folder = pathlib.Path(tempfile.mkdtemp(dir=self.room))
        ended = timed([self.peer, folder, registries, count, "together" if kind == "together" else "one"], env)
        shutil.rmtree(folder)
        return ended

    def compare(self, registries, count, kind, sync, tries):
        """Prints a comparison with the C program. Returns the rate, its ratio to C's, and the seconds of processor time
        of a transfer."""
        env = self.env(sync, 0 if kind == "together" else NAP)
        idle = min((self.play(registries, 0, kind, env) for _ in range(2)), key=lambda it: it.seconds)
        ours, theirs, commits = [], [], 0
        for _ in range(tries):
            ended = self.play(registries, count, kind, env)
            ours.append((ended.seconds - idle.seconds, ended.busy - idle.busy, ended.kernel - idle.kernel))
            ended = self.play_in_c(registries, count, kind, env)
            micros, commits = map(int, ended.said.split())
            theirs.append((micros / 1_000_000, ended.busy, ended.kernel))
        if min(ours)[0] <= 0:
            sys.exit("a run without transfers takes longer than one with them: use more transfers")
        seconds, busy, kernel = map(min, zip(*ours))
        other, other_busy, other_kernel = map(min, zip(*theirs))
        print(f"{registries:3} registries, syncs of {sync / 1000} ms more, {kind}: {count / seconds:.0f} a second, C {count / other:.0f}; "
              f"{other / seconds:.2f} of C's rate; {busy / count * 1000:.2f} ms of processor time a transfer, the kernel's "
              f"{kernel / count * 1000:.2f}, C {other_busy / count * 1000:.2f} and {other_kernel / count * 1000:.2f}; C makes "
              f"{commits / count:.1f} commits each", flush=True)
        return count / seconds, other / seconds, busy / count

    def calls(self, registries, count):
        """Prints the system calls of a transfer of those that go together."""
        trace = self.room / "trace"
        self.play(registries, count, "together", before=["strace", "-f", "-qq", "-c", "-e", f"trace={TRACED}", "-o", trace])
        found = {}
        for line in trace.read_text().splitlines():
            fields = line.split()
            if len(fields) >= 5 and fields[-1] in TRACED.split(","):
                found[fields[-1]] = int(fields[3]) / count
        print(f"{registries:3} registries, system calls of a transfer: "
              + ", ".join(f"{name} {times:.1f}" for name, times in sorted(found.items(), key=lambda it: -it[1])), flush=True)


class Session:
    """A session of psql, which executes one statement after another, and ends with status 3 at the first that fails."""

    def __init__(self, bin, room, database):
        words = [bin / "psql", "-h", room, "-U", "postgres", "-v", "ON_ERROR_STOP=1", "-qAt", "-d", database]
        self.psql = subprocess.Popen(words, stdin=subprocess.PIPE, stdout=subprocess.PIPE, text=True)

    def make(self, statements):
        # If psql has ended, its output ends, and its status is checked.
        with contextlib.suppress(BrokenPipeError):
            self.psql.stdin.write(f"{statements}\n\\echo made\n")
            self.psql.stdin.flush()
        if self.psql.stdout.readline() != "made\n":
            self.end()
            sys.exit(f"psql has an unexpected output for {statements}")

    def end(self):
        with contextlib.suppress(BrokenPipeError):
            self.psql.stdin.close()
        check_end(self.psql.args, self.psql.wait())


def await_server(bin, data):
    """Waits until the server takes connections. pg_isready ends with status 1 while the server takes none, and with 2
    while there is no server."""
    words = [bin / "pg_isready", "-q", "-h", data]
    for _ in range(100):
        status = subprocess.run(words, check=False).returncode
        check_end(words, status, (0, 1, 2))
        if status == 0:
            return
        time.sleep(0.1)
    check_end(words, status)


@contextlib.contextmanager
def postgres(room, env):
    """Starts a server, yields its folder, and stops it."""
    bin = POSTGRES[-1]
    data = pathlib.Path(tempfile.mkdtemp(dir=room))
    own = ["setpriv", "--reuid=postgres", "--regid=postgres", "--clear-groups"] if shutil.which("setpriv") else []
    shutil.chown(data, "postgres", "postgres")
    pathlib.Path(room).chmod(0o755)
    quiet = {"stdout": subprocess.DEVNULL, "stderr": subprocess.DEVNULL}
    run_to_end([*own, bin / "initdb", "-D", data / "data", "-A", "trust"], **quiet)
    words = [*own, bin / "postgres", "-D", data / "data", "-k", data, "-c", "listen_addresses=", "-c", "max_prepared_transactions=10"]
    server = subprocess.Popen(words, env={**os.environ, **env}, **quiet)
    try:
        await_server(bin, data)
        yield data
    finally:
        # With this signal the server stops without waiting for sessions, which still exist if a statement failed.
        server.send_signal(signal.SIGINT)
        status = server.wait()
    check_end(words, status)


def postgres_rate(room, count, env):
    """Returns the transfers a second of rows between two databases of a server, each prepared in both and then
    committed."""
    bin = POSTGRES[-1]
    with postgres(room, env) as data:
        first = Session(bin, data, "postgres")
        first.make("CREATE DATABASE nz; ")
        first.make("CREATE DATABASE jp; ")
        first.end()
        nz, jp = Session(bin, data, "nz"), Session(bin, data, "jp")
        nz.make(f"CREATE TABLE units AS SELECT generate_series(1, {count}) AS unit; ALTER TABLE units ADD PRIMARY KEY (unit);")
        jp.make("CREATE TABLE units (unit integer PRIMARY KEY);")
        begin = time.monotonic()
        for unit in range(1, count + 1):
            nz.make(f"BEGIN; DELETE FROM units WHERE unit = {unit}; PREPARE TRANSACTION 'nz{unit}';")
            jp.make(f"BEGIN; INSERT INTO units VALUES ({unit}); PREPARE TRANSACTION 'jp{unit}';")
            nz.make(f"COMMIT PREPARED 'nz{unit}';")
            jp.make(f"COMMIT PREPARED 'jp{unit}';")
        seconds = time.monotonic() - begin
        nz.end()
        jp.end()
    return count / seconds


def compare_all(bench, given):
    """Returns whether a rate, or the processor time at many registries, exceeds its limit."""
    passed = False
    for sync in given.syncs:
        busy = {}
        for registries in given.registries:
            rate, share, _ = bench.compare(registries, given.alone, "one after another", sync, given.tries)
            passed |= share < LEAST_ALONE.get(sync, LEAST_ALONE[0])
            _, share, busy[registries] = bench.compare(registries, given.together, "together", sync, given.tries)
            passed |= share < LEAST_TOGETHER
            if POSTGRES and registries == 2:
                other = postgres_rate(bench.room, given.alone, bench.env(sync))
                print(f"PostgreSQL, one after another: {other:.0f} a second; kyoto-link has {rate / other:.2f} of that rate", flush=True)
                passed |= sync >= AHEAD_FROM and rate < other
        least, most = min(busy), max(busy)
        times = busy[most] / busy[least]
        print(f"processor time of a transfer together at {most} registries: {times:.2f} times that at {least}", flush=True)
        passed |= times > MOST_TIMES_TWO
    return passed


def main():
    words = argparse.ArgumentParser(description=__doc__, formatter_class=argparse.RawDescriptionHelpFormatter)
    words.add_argument("--alone", type=int, default=300, help="the number of transfers one after another")
    words.add_argument("--together", type=int, default=2_000, help="the number of transfers together")
    words.add_argument("--registries", type=int, nargs="+", default=[2, 8, 31], help="the numbers of registries")
    words.add_argument("--syncs", type=int, nargs="+", default=[0, 100, 1_000], help="the microseconds by which a sync takes longer")
    words.add_argument("--tries", type=int, default=3, help="the number of runs of each; the best times count")
    words.add_argument("--room", default=None, help="a folder on the disk to try; the default is a temporary one")
    given = words.parse_args()
    need("gcc", "builds the C program")
    need("strace", "counts system calls")
    program()
    with tempfile.TemporaryDirectory(dir=given.room) as room:
        bench = Bench(room)
        passed = compare_all(bench, given)
        for registries in (min(given.registries), max(given.registries)):
            bench.calls(registries, 200)
        megabytes = bench.play(32, 320, "together").megabytes
        print(f"most memory of a run with 32 registries: {megabytes:.0f} MB")
        passed |= megabytes > MOST_MEGABYTES
    sys.exit(1 if passed else 0)


if __name__ == "__main__":
    main()
