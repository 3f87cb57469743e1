#!/usr/bin/env python3
"""Tries whether a node pauses: while its operator asks, while transfers are made one after another, while a stranger
repeats a recorded message as fast as the node takes it, while strangers send single bytes over many connections, while
a peer replies a byte at a time, and as it stops.

    pauses.py [NAME ..]

Without names it tries all. Each writes a line with what it measured, and fails beyond its limit, which bench/README has.
Stores are on a disk in memory if the system has one.
"""
import argparse
import contextlib
import json
import os
import socket
import statistics
import sys
import tempfile
import threading
import time

import paths
from audit import notification
from audit import proposal as recorded_proposal
from folders import Difference, differ
from node_group import HOST, LOG, Group, wait_for
from node_process import NodeProcess
from records import record, write_store
from slow_peer import SlowPeer
import node_group

QUESTIONS, LONGEST_GAP = 2_100, 0.020
TRANSFERS, LONGEST_TRANSFER, MOST_OF_MEDIAN = 3_000, 0.100, 3
# The seconds for which transfers are counted, and the part of their rate that must be left beside repeats.
SECONDS, LEAST_RATE = 20, 0.8
REPEATS, WARM_UP, MOST_GROWTH = 1_000_000, 100_000, 1 << 20
# The most repeats that are under way on one connection.
BURST = 1_000
# How many connections send single bytes, and how long each pauses between two of them; the seconds for which transfers
# are counted beside them, and the part of their rate that must be left.
SLOW, SLOW_PAUSE, SLOW_SECONDS, LEAST_BESIDE_SLOW = (60, 1_000), (0.001, 0.05), 10, 0.5
# The seconds between two bytes of a peer's reply; how many connections send its message a byte at a time, and the
# seconds between two bytes of each.
REPLY_PAUSE, MESSAGES, MESSAGE_PAUSE = 1, 10, 0.005
# The records of a long log, the questions of its operator, and the longest gap between two of their results.
RECORDS, LONG_QUESTIONS, LONGEST_LONG_GAP = 1_000_000, 200_000, 0.100
# The most turns of a wait, and the most seconds that a node takes to stop.
TURNS, LONGEST_STOP = 1_000_000, 1


class TimedNode(NodeProcess):
    """A process that keeps the moment of each line of its output."""

    def __init__(self, *given):
        self.moments = []
        super().__init__(*given)

    def keep(self, line):
        self.moments.append(time.monotonic())
        super().keep(line)


@contextlib.contextmanager
def started(given, registries, units, nodes=None, prepare=None):
    """Yields a group whose nodes run and keep moments, and ends it afterwards. `prepare` gets it before its nodes
    start."""
    room = "/dev/shm" if os.path.isdir("/dev/shm") else None
    with tempfile.TemporaryDirectory(dir=room) as folder:
        group = Group(folder, registries, units, given.seed)
        node_group.NodeProcess = TimedNode
        try:
            if prepare:
                prepare(group)
            for node in nodes or group.nodes:
                group.start(node)
            for node in nodes or group.nodes:
                group.check_sum(node)
            yield group
        finally:
            node_group.NodeProcess = NodeProcess
            group.close()


def try_questions(given):
    """Asks an idle registry again and again. Between two results there is no gap."""
    with started(given, 2, 10, ["AA"]) as group:
        process = group.running["AA"]
        process.ask(["status AA1"] * QUESTIONS)
        moments = process.moments[-QUESTIONS:]
        gaps = [later - earlier for earlier, later in zip(moments, moments[1:])]
        differ(max(gaps) > LONGEST_GAP, f"a gap of {max(gaps) * 1_000:.0f} ms between two of {QUESTIONS} results")
        group.stop_all()
        return f"{QUESTIONS} questions, longest gap {max(gaps) * 1_000:.1f} ms"


def transfer(group, first, other, number):
    """Makes one transfer of that unit, and returns its seconds."""
    begin = time.monotonic()
    answers = group.running[first].ask([f"propose 1 {other} 1 {first}:1:{number}-{number}:AAU", f"until {first}{number} Completed 60000"])
    differ(answers[1] != "status Completed", f"{first} wrote {answers} for transfer {number}")
    return time.monotonic() - begin


def try_transfers(given):
    """Makes transfers one after another, as an operator does. None takes much longer than the others."""
    with started(given, 2, TRANSFERS) as group:
        first, other = group.codes
        times = sorted(transfer(group, first, other, number) for number in range(1, TRANSFERS + 1))
        median, late, longest = statistics.median(times), times[len(times) * 99 // 100], times[-1]
        differ(late > MOST_OF_MEDIAN * median, f"the 99th percentile is {late * 1_000:.1f} ms, and the median {median * 1_000:.1f} ms")
        differ(longest > LONGEST_TRANSFER, f"a transfer took {longest * 1_000:.0f} ms")
        group.stop_all()
        return f"{TRANSFERS} transfers, median {median * 1_000:.1f} ms, 99th percentile {late * 1_000:.1f} ms, longest {longest * 1_000:.1f} ms"


class Repeater:
    """A stranger that sends a node one line again and again. Each reply must be `received`."""

    def __init__(self, port, line):
        self.port, self.line, self.sent, self.over, self.wrong = port, line, 0, threading.Event(), None
        self.thread = threading.Thread(target=self.work, daemon=True)

    def burst(self):
        with socket.create_connection((HOST, self.port), timeout=10) as it:
            it.sendall((self.line + b"\n") * BURST)
            it.shutdown(socket.SHUT_WR)
            taken = b""
            while piece := it.recv(65_536):
                taken += piece
        self.sent += taken.count(b"\n")
        if any(b"received" not in reply for reply in taken.splitlines()):
            self.wrong = taken[:200]

    def work(self):
        while not self.over.is_set() and not self.wrong:
            with contextlib.suppress(OSError):
                self.burst()

    def stop(self):
        self.over.set()
        self.thread.join(60)
        differ(self.wrong, f"a repeat got {self.wrong!r}")


def proposal(first, other, number):
    """The line by which a registry proposes the transfer of that unit to the log."""
    message = {"account": 1, "call": "AcceptProposal", "from": first, "status": "Proposed", "to": LOG, "to_account": 1, "to_registry": other,
               "transaction": f"{first}{number}", "units": [f"{first}:1:{number}-{number}:AAU"]}
    return json.dumps(message, sort_keys=True, separators=(",", ":")).encode()


def rate(group, first, other, number, seconds=SECONDS):
    """Makes transfers from that unit on for some seconds. Returns the next unit, and their seconds."""
    begin = time.monotonic()
    while time.monotonic() - begin < seconds:
        transfer(group, first, other, number)
        number += 1
    return number, (time.monotonic() - begin)


def try_repeats(given):
    """Makes transfers of one registry beside a stranger that repeats a recorded message of another one, at the pace of
    its replies. Their rate is nearly as without it."""
    with started(given, 3, 100_000) as group:
        quiet, first, other = group.codes
        transfer(group, quiet, other, 1)
        number, spent = rate(group, first, other, 1)
        alone = (number - 1) / spent
        repeater = Repeater(group.ports[LOG], proposal(quiet, other, 1))
        repeater.thread.start()
        then, spent = rate(group, first, other, number)
        repeater.stop()
        beside = (then - number) / spent
        group.stop_all()
        text = f"{alone:.0f} transfers a second alone, {beside:.0f} beside {repeater.sent / spent:.0f} repeats a second"
        differ(beside < LEAST_RATE * alone and not given.busy, text)
        return text


def grow(given, group, line):
    """Repeats the line at the log, which mustn't grow."""
    process, repeater = group.running[LOG], Repeater(group.ports[LOG], line)
    repeater.thread.start()
    wait_for(lambda: repeater.sent >= WARM_UP or repeater.wrong, 600, f"{WARM_UP} repeats weren't replied to")
    before = process.memory()
    wait_for(lambda: repeater.sent >= WARM_UP + given.repeats or repeater.wrong, 3_600, f"{given.repeats} repeats weren't replied to")
    grown, count = process.memory() - before, repeater.sent
    repeater.stop()
    differ(grown >= MOST_GROWTH, f"the log has {grown} bytes more after {count - WARM_UP} repeats")
    return f"{count - WARM_UP} repeats, {grown / 1_024:+.0f} kB"


def try_memory(given):
    """Repeats a recorded message at the log. The log doesn't grow."""
    with started(given, 2, 10) as group:
        first, other = group.codes
        transfer(group, first, other, 1)
        text = grow(given, group, proposal(first, other, 1))
        group.stop_all()
        return text


class Trickle:
    """Strangers that send a text again and again over connections, a byte at a time, each at its pace, and connect again
    when a node has closed one."""

    def __init__(self, port, count, pause, text=b"x"):
        self.port, self.pause, self.text, self.sent, self.over = port, pause, text, 0, threading.Event()
        self.connections, self.places = [self.connect() for _ in range(count)], [0] * count
        self.thread = threading.Thread(target=self.work, daemon=True)

    def connect(self):
        it = socket.create_connection((HOST, self.port), timeout=10)
        it.setsockopt(socket.IPPROTO_TCP, socket.TCP_NODELAY, 1)
        it.setblocking(False)
        return it

    def send(self, place):
        """Sends a byte over the connection with that place."""
        try:
            self.connections[place].send(self.text[self.places[place]:][:1])
            self.places[place] = (self.places[place] + 1) % len(self.text)
            self.sent += 1
        except BlockingIOError:
            pass
        except OSError:
            self.connections[place].close()
            self.places[place] = 0
            with contextlib.suppress(OSError):
                self.connections[place] = self.connect()

    def work(self):
        while not self.over.is_set():
            begin = time.monotonic()
            for place in range(len(self.connections)):
                self.send(place)
            time.sleep(max(0, self.pause - (time.monotonic() - begin)))

    def stop(self):
        self.over.set()
        self.thread.join(60)
        for it in self.connections:
            it.close()


def try_slow(given):
    """Makes transfers while the log has many connections that send it single bytes."""
    with started(given, 2, 200_000) as group:
        first, other = group.codes
        number, spent = rate(group, first, other, 1, SLOW_SECONDS)
        alone, texts = (number - 1) / spent, []
        for count, pause in zip(SLOW, SLOW_PAUSE):
            trickle = Trickle(group.ports[LOG], count, pause)
            trickle.thread.start()
            then, spent = rate(group, first, other, number, SLOW_SECONDS)
            trickle.stop()
            beside, number = (then - number) / spent, then
            texts.append(f"{beside:.0f} beside {count} connections with {trickle.sent / spent:.0f} bytes a second")
            differ(beside < LEAST_BESIDE_SLOW * alone and not given.busy, f"{alone:.0f} transfers a second alone, {texts[-1]}")
        group.stop_all()
        return f"{alone:.0f} transfers a second alone, {', '.join(texts)}"


@contextlib.contextmanager
def trickling(group, quiet, first, number):
    """Exchanges the registry `quiet` for a peer that replies a byte at a time, and yields it as soon as the log waits for
    a reply: the log has that transfer of `first` for it."""
    process = group.running.pop(quiet)
    process.begin_stop()
    process.end_stop()
    peer = SlowPeer(group.ports[quiet], REPLY_PAUSE)
    try:
        answer, = group.running[first].ask([f"propose 1 {quiet} 1 {first}:1:{number}-{number}:AAU"])
        differ(not answer.startswith("recorded "), f"{first} wrote {answer}")
        wait_for(peer.replies, 120, f"{LOG} sent {quiet} nothing", 0.01)
        yield peer
    finally:
        peer.stop()


def try_trickle(given):
    """Makes transfers between two registries while a third peer of the log replies, and sends a recorded message of its
    own, a byte at a time. Their rate is nearly as without it."""
    with started(given, 3, 100_000) as group:
        quiet, first, other = group.codes
        transfer(group, quiet, other, 1)
        number, spent = rate(group, first, other, 1)
        alone = (number - 1) / spent
        with trickling(group, quiet, first, number):
            lines = Trickle(group.ports[LOG], MESSAGES, MESSAGE_PAUSE, proposal(quiet, other, 1) + b"\n")
            lines.thread.start()
            then, spent = rate(group, first, other, number + 1)
            lines.stop()
        beside = (then - number - 1) / spent
        group.stop_all()
        text = f"{alone:.0f} transfers a second alone, {beside:.0f} beside a peer that trickles its replies and {lines.sent / spent:.0f} bytes a second"
        differ(beside < LEAST_RATE * alone and not given.busy, text)
        return text


def whole_transfers(first, other, count):
    """Yields the texts of the log's records of whole transfers, until it has that many records."""
    turn = 0
    while count > 2:
        turn, count = turn + 1, count - 3
        name = f"{first}{turn}"
        yield recorded_proposal(first, "Proposed", LOG, other, name, f"{first}:1:{turn}-{turn}:AAU")
        yield notification(other, "Accepted", LOG, name)
        yield notification(first, "Completed", LOG, name)
    for number in range(count):
        yield record(f'"input":"eligible","may":{"false" if number == 0 else "true"},"registry":"{other}"')


def try_long_log(given):
    """Asks a log with as many records as one may have, while a stranger repeats one of its messages. Between two results
    there is no long gap."""

    def fill(group):
        first, other = group.codes
        write_store(group.stores[LOG], LOG, whole_transfers(first, other, RECORDS))

    with started(given, 2, RECORDS // 3 + 1, [LOG], fill) as group:
        first, other = group.codes
        process = group.running[LOG]
        repeater = Repeater(group.ports[LOG], proposal(first, other, 1))
        repeater.thread.start()
        begin = time.monotonic()
        process.ask([f"status {first}1"] * LONG_QUESTIONS, 600)
        spent = time.monotonic() - begin
        repeater.stop()
        moments = process.moments[-LONG_QUESTIONS:]
        gap = max(later - earlier for earlier, later in zip(moments, moments[1:]))
        count = group.stop_all()[LOG]
        differ(count != RECORDS, f"the log has {count} records instead of {RECORDS}")
        text = f"{LONG_QUESTIONS / spent:.0f} questions a second beside {repeater.sent / spent:.0f} repeats, longest gap {gap * 1_000:.0f} ms"
        differ(gap > LONGEST_LONG_GAP, text)
        return text


def try_until_memory(given):
    """Repeats a recorded message at the log while its operator waits for a transfer. The log doesn't grow."""
    with started(given, 2, 10) as group:
        first, other = group.codes
        transfer(group, first, other, 1)
        process = group.running[LOG]
        process.send(f"until {first}2 Completed {TURNS}")
        text = grow(given, group, proposal(first, other, 1))
        differ(not process.waiting(), f"the wait ended: {process.answers[-1:]}")
        return text


def try_stop(given):
    """Stops the log while it waits for the reply of a peer that sends it a byte at a time."""
    with started(given, 2, 10) as group:
        quiet, first = group.codes
        with trickling(group, quiet, first, 1):
            process = group.running.pop(LOG)
            begin = time.monotonic()
            process.begin_stop()
            process.end_stop()
            spent = time.monotonic() - begin
        group.stop_all()
        text = f"the log ended after {spent:.1f} s"
        differ(spent > LONGEST_STOP, text)
        return text


TRIALS = {"questions": try_questions, "transfers": try_transfers, "repeats": try_repeats, "slow": try_slow, "memory": try_memory,
          "trickle": try_trickle, "long_log": try_long_log, "until_memory": try_until_memory, "stop": try_stop}


def main():
    parser = argparse.ArgumentParser(description=__doc__, formatter_class=argparse.RawDescriptionHelpFormatter)
    parser.add_argument("names", nargs="*", metavar="NAME", help=", ".join(TRIALS))
    parser.add_argument("--seed", default="1", help="of the ports")
    parser.add_argument("--repeats", type=int, default=REPEATS, help="how many repeats the memory is measured over")
    parser.add_argument("--busy", action="store_true", help="beside other work: the rates beside others have no limit")
    parser.add_argument("--program", metavar="PATH", help="the program to try, in place of the one that ./kyoto-link runs")
    given = parser.parse_args()
    if given.program:
        node_group.program = lambda: given.program
    status = 0
    for name in given.names or TRIALS:
        try:
            print(f"{name}: {TRIALS[name](given)}", flush=True)
        except Difference as difference:
            print(f"{name}: {difference}", flush=True)
            status = 1
    return status


if __name__ == "__main__":
    sys.exit(main())
