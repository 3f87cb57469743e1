"""Tries a node in a process of its own with strangers, with idle and slow connections, and with a peer that is down."""

import contextlib
import json
import math
import pathlib
import random
import re
import socket
import threading
import time

import paths
from building import need
from folders import differ
from hard_run import send_slowly, sit_idle
from node_group import HOST, LOG, group_of, wait_for

# The limit of the growth of a node's memory, after a warm-up of that part of the messages.
MOST_GROWTH, WARM_UP = 1 << 20, 0.1
# The number of strangers at once, and the most lines that they send over one connection.
STRANGERS, MOST_LINES = 4, 200
# With keys there is one line on each connection, and the number of messages is divided by this.
PART_WITH_KEYS = 10
# The messages a second by which the time of strangers is limited.
SLOWEST = 200
IDLE, SLOW, IDLE_SECONDS = 1_000, 100, 120
# The transfers that wait for a peer that is down, and the longest pause of a sender and a day in seconds.
WAITING, LONGEST_PAUSE, DAY = 20, 60, 86_400
CONNECT = re.compile(r"^\d+ +(\d+\.\d+) connect\(\d+, \{sa_family=AF_INET, sin_port=htons\((\d+)\)", re.MULTILINE)


def strange_lines(node, keyed):
    """Yields messages that a registry refuses from every sender: for another node, from a node that may not send to it,
    about a transaction that it doesn't know, and from a node that doesn't exist. With keys it also yields one that the
    registry would record with its tag."""
    proposal = {"account": 1, "call": "AcceptProposal", "status": "Checked", "to_account": 1, "to_registry": node, "transaction": "AB1",
                "units": ["AB:1:1-1:AAU"]}
    completed = {"call": "AcceptNotification", "codes": [], "status": "Completed", "transaction": "AB900000"}
    request = {"call": "RequestCancellation", "transaction": f"{node}1"}
    ends = [("AB", node), ("ZZ", node), (LOG, "AB"), (node, LOG), (node, node), ("ZZ", "ZZ")]
    for first, other in ends:
        for it in (proposal, completed, request):
            yield json.dumps({**it, "from": first, "to": other}, sort_keys=True, separators=(",", ":")).encode()
    for it in (completed, proposal) if keyed else (completed,):
        yield json.dumps({**it, "from": LOG, "to": node}, sort_keys=True, separators=(",", ":")).encode()


class Strangers:
    """Threads that send a node useless lines until a number of messages is sent."""

    def __init__(self, port, node, keyed, seed):
        self.port, self.keyed, self.lines = port, keyed, list(strange_lines(node, keyed))
        self.seed, self.sent, self.goal, self.lock = seed, 0, 0, threading.Lock()
        self.wrong, self.connections = None, 0

    def line(self, chance):
        """Returns a line of any kind: garbage, or a message, which with keys may have a tag that no key makes."""
        kind = chance.random()
        if kind < 0.3:
            return bytes(it for it in chance.randbytes(chance.randrange(200)) if it != 10)
        text = chance.choice(self.lines)
        if kind < 0.4:
            return text[:chance.randrange(len(text))]
        return chance.randbytes(32).hex().encode() + b" " + text if self.keyed and kind < 0.8 else text

    def replies_to(self, lines):
        """Sends these lines over one connection, and returns the number of replies. None of them may be that a message
        was received."""
        taken = b""
        with contextlib.suppress(OSError), socket.create_connection((HOST, self.port), timeout=5) as it:
            it.sendall(b"".join(line + b"\n" for line in lines))
            while taken.count(b"\n") < len(lines):
                piece = it.recv(65_536)
                if not piece:
                    break
                taken += piece
        if b'"received"' in taken:
            self.wrong = taken
        return taken.count(b"\n")

    def leave(self, piece):
        """Sends a piece without an end, and closes the connection."""
        with contextlib.suppress(OSError), socket.create_connection((HOST, self.port), timeout=5) as it:
            it.sendall(piece)

    def come_once(self, chance):
        """Makes one connection, and returns the number of its messages."""
        kind = chance.random()
        if kind < 0.1:
            self.leave(b"")
            return 1
        if kind < 0.15:
            self.leave(chance.choice(self.lines)[:50])
            return 1
        if kind < 0.17:
            self.leave(b"x" * 20_000)
            return 1
        count = 1 if self.keyed or kind < 0.3 else chance.randint(1, MOST_LINES)
        return self.replies_to([self.line(chance) for _ in range(count)])

    def work(self, number, end):
        chance = random.Random(f"{self.seed} {number} {self.goal}")
        while not self.wrong and self.sent < self.goal and time.monotonic() < end:
            count = self.come_once(chance)
            with self.lock:
                self.sent += count
                self.connections += 1

    def send(self, goal):
        """Sends messages until `goal` are sent in all."""
        self.goal, end = goal, time.monotonic() + 60 + goal / SLOWEST
        threads = [threading.Thread(target=self.work, args=(it, end), daemon=True) for it in range(STRANGERS)]
        for it in threads:
            it.start()
        for it in threads:
            it.join()
        differ(self.wrong, f"the node replied {self.wrong!r} to a stranger")
        differ(self.sent < goal, f"strangers had sent {self.sent} of {goal} messages when their time was over")


def try_strangers(keyed, room, given):
    """Sends messages of strangers to one idle registry, whose memory may grow by less than 1 MB. Returns a text of the
    result."""
    count = max(100, given.strangers // (PART_WITH_KEYS if keyed else 1))
    with group_of(room, 2, 10, given.seed, keyed=keyed) as group:
        node = group.codes[0]
        process = group.start(node)
        group.check_sum(node)
        strangers = Strangers(group.ports[node], node, keyed, given.seed)
        strangers.send(int(count * WARM_UP))
        before, warm, begin = process.memory(), strangers.sent, time.monotonic()
        strangers.send(warm + count)
        spent = time.monotonic() - begin
        answer, = process.ask([f"status {node}1"])
        differ(answer != "status none", f"{node} wrote {answer} after the strangers")
        grown = process.memory() - before
        differ(grown >= MOST_GROWTH, f"{node} has {grown} bytes more after {strangers.sent - warm} messages of strangers")
        differ(group.stop_all() != {node: 0}, f"{node} recorded a message of strangers")
        return (f"{strangers.sent - warm} messages over {strangers.connections} connections, {(strangers.sent - warm) / spent:.0f} a second; "
                f"{before / 1024:.0f} kB after {warm} of them, {grown / 1024:+.0f} kB at the end")


def order_transfers(group, count):
    """Orders transfers of the first registry to the second one, and returns the questions for them."""
    first, other = group.codes[:2]
    lines = [f"propose 1 {other} 1 {first}:1:{number}-{number}:AAU" for number in range(1, count + 1)]
    answers = group.running[first].ask(lines)
    differ(odd := [it for it in answers if not it.startswith("recorded ")], f"{first} wrote {odd[:1]} for an order")
    return [f"status {first}{number}" for number in range(1, count + 1)]


def are_completed(group, questions):
    """Returns whether these transfers are Completed at both ends."""
    group.check()
    return all(set(group.running[it].ask(questions)) == {"status Completed"} for it in group.codes[:2])


def connected_to(port):
    """Returns the number of connections to a port."""
    lines = (it.split() for it in pathlib.Path("/proc/net/tcp").read_text().splitlines()[1:])
    return sum(it[1].endswith(f":{port:04X}") and it[3] == "01" for it in lines)


def try_idle(room, given):
    """Makes transfers while each node has idle connections, and slow ones that send a byte now and then. Returns a text
    of the result."""
    with group_of(room, 2, WAITING, given.seed) as group:
        group.start_all()
        over, ports = threading.Event(), list(group.ports.values())
        clients = []
        for port in ports:
            clients.append(threading.Thread(target=sit_idle, args=([port], over), daemon=True))
            # That client makes four connections to each port of its list.
            clients.append(threading.Thread(target=send_slowly, args=([port] * (SLOW // 4), over), daemon=True))
        try:
            for it in clients:
                it.start()
            wait_for(lambda: all(connected_to(it) >= IDLE * 9 // 10 for it in ports), 30, "the idle connections weren't there")
            there, begin = sum(map(connected_to, ports)), time.monotonic()
            questions = order_transfers(group, WAITING)
            wait_for(lambda: are_completed(group, questions), IDLE_SECONDS, f"{WAITING} transfers weren't Completed beside idle connections", 0.05)
            spent = time.monotonic() - begin
        finally:
            over.set()
            for it in clients:
                it.join(60)
        group.stop_all()
        return f"{WAITING} transfers in {spent:.1f} s beside {there} idle and slow connections to three nodes"


def attempts(trace, port):
    """Returns the moments of the connects to a port in the output of strace."""
    return [float(moment) for moment, found in CONNECT.findall(trace.read_text()) if int(found) == port]


def check_attempts(moments, seconds):
    """Checks that each pause between connects is at least as long as the one before, up to a minute. Returns the number
    of connects in a day."""
    differ(not moments, "the sender didn't try to connect")
    gaps = [later - earlier for earlier, later in zip(moments, moments[1:])]
    # Pauses of 1, 2, 4 .. seconds, and two connects more for orders and the clock.
    most = math.log2(max(2, seconds)) + seconds / LONGEST_PAUSE + 3
    differ(len(moments) > min(most, max(3, seconds)), f"the sender tried {len(moments)} times in {seconds:.0f} seconds")
    shorter = [(one, other) for one, other in zip(gaps, gaps[1:]) if other < min(one, LONGEST_PAUSE) - 1.5]
    differ(shorter, f"a pause between two connects is shorter than the one before: {shorter[:1]}")
    differ(any(it < 0.5 for it in gaps), f"two connects are {min(gaps, default=0):.2f} seconds apart")
    return len(moments) + (DAY - seconds) / LONGEST_PAUSE


def try_downtime(room, given):
    """Starts the log only after a while, during which a registry has transfers for it. `strace` writes the registry's
    connects. Returns a text of the result."""
    need("strace", "writes the connects")
    with group_of(room, 2, WAITING, given.seed) as group:
        first, other = group.codes[:2]
        trace = pathlib.Path(room) / "trace"
        group.start(first, ["strace", "-f", "-qq", "-ttt", "-e", "trace=connect", "-o", trace])
        group.start(other)
        for node in (first, other):
            group.check_sum(node)
        begin = time.monotonic()
        questions = order_transfers(group, WAITING)
        while time.monotonic() - begin < given.down:
            group.check()
            time.sleep(0.5)
        moments, seconds = attempts(trace, group.ports[LOG]), time.monotonic() - begin
        day = check_attempts(moments, seconds)
        group.start(LOG)
        group.check_sum(LOG)
        back = time.monotonic()
        wait_for(lambda: are_completed(group, questions), 2 * LONGEST_PAUSE + 60, "the transfers weren't Completed after the log was back")
        spent = time.monotonic() - back
        group.stop_all()
        pauses = ", ".join(f"{later - earlier:.0f}" for earlier, later in zip(moments, moments[1:]))
        return (f"{len(moments)} connects in {seconds:.0f} s, with pauses of {pauses} s; a day would have {day:.0f}, {day / DAY:.3f} a second; "
                f"{WAITING} transfers Completed {spent:.0f} s after the log was back")
