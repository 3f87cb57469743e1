#!/usr/bin/env python3
"""Sends lines to a node as its peers and strangers do, and takes the messages of one.

    lines.py [--only NAME ..]

`kyoto-link node` runs the log or NZ of the example `one_transfer`, without keys except in the parts of tags. These parts
are tried at the same time, each at nodes of its own:

- messages: texts with something wrong in them, which the log must refuse with 41, and others that are messages.
- session: an empty line, a message, and one that is cut; lines of 8,192 bytes and of one more.
- single: lines that come together have their replies one after another, and a part of a line has none.
- ends: a peer that ends before its line, within it, and after it.
- slow: while a line comes byte by byte, other lines have their replies within a second.
- parts: while a peer has sent a part of its proposal, the log replies to the same proposal of another one.
- idle: 1,030 idle connections don't keep out a further one, and the one that has waited longest is closed.
- late: a connection whose line isn't whole after ten seconds is closed, and only it.
- endless: a line without an end doesn't keep a node from stopping.
- stopped: while a node is held, another one replies.
- accepts: the nodes of a run go on after 99 accepts in a row that fail, and stop after a hundred (`hard_run.c`).
- commits: a message and an order have their replies only once the files of the store are synced (`file_faults.c`).
- together: eight peers send the log a hundred proposals at the same time, and each is recorded once.
- tags: the log refuses a line whose tag is wrong, turned, of another key, in upper case or missing, and reads one
  message over a connection; its replies have their tags.
- tagged: a message is sent with its tag, and again after each reply that hasn't the tag of its message.
- sending: a message is sent again if its peer was down, closed the connection or gave a bad reply. It is sent no more
  once it was received.
- waiting: a peer that replies a byte now and then holds its sender for ten seconds.

A line is printed for each part. The exit status is 1 if a part differed.
"""

import argparse
import concurrent.futures
import contextlib
import hashlib
import hmac
import os
import pathlib
import random
import resource
import signal
import socket
import subprocess
import sys
import tempfile
import time

import paths
from building import build_c
from examples import EXAMPLES, WORKED
from folders import Difference, differ
from line_rows import CODES, MESSAGES, NO_MESSAGES, RIGHT_IN_PROPOSAL, WRONG, codes_text
from node_group import HOST, free_ports, raise_handles
from node_process import NodeProcess
from rehearse import program

FAILING, HOLDING = (pathlib.Path(__file__).resolve().with_name(it) for it in ("hard_run.c", "file_faults.c"))
SCHEME = (EXAMPLES / WORKED / "input").read_bytes().splitlines(keepends=True)[0]
PEERS = {"ITL": ("JP", "NZ"), "NZ": ("ITL",), "JP": ("ITL",)}
ORDER = "propose 1 JP 7 NZ:1:1-100:AAU"
PROPOSED, ACCEPTED = (MESSAGES[it].encode() + b"\n" for it in ("proposal", "acceptance"))
# The log notifies NZ that a transfer is completed that NZ doesn't know.
UNKNOWN = b'{"call":"AcceptNotification","codes":[],"from":"ITL","status":"Completed","to":"NZ","transaction":"NZ9"}\n'
# The log notifies JP that a transfer is cancelled that JP doesn't know.
CANCELLED = b'{"call":"AcceptNotification","codes":[],"from":"ITL","status":"Cancelled","to":"JP","transaction":"NZ9"}\n'
RECEIVED = b'{"code":0,"result":"received"}\n'
# The results of a transfer and an order whose nodes go on, and of one whose nodes have stopped.
COMPLETED_RUN = "1 recorded 0\n2 status Completed\n3 recorded 3\n"
STOPPED_RUN = "1 recorded 0\n2 refused 48\n3 refused 48\n"
LONGEST_LINE, MOST_IDLE, MOST_FAILING = 8_192, 1_030, 100
SPARE_HANDLES = 300
# The seconds after which a line or a reply must be whole, the most of a reply at all and of a quick one, and some in
# which nothing may come.
LINE_SECONDS, REPLY_SECONDS, QUICK_SECONDS, QUIET_SECONDS = 10, 5, 1, 0.3


def refused(code):
    return b'{"code":%d,"result":"refused"}\n' % code


NO_MESSAGE = refused(41)
# The keys of the log's links.
KEYS = {"JP": bytes(range(32)), "NZ": bytes(range(32, 64))}


def tagged(key, start, text):
    """Returns a line behind its tag: the HMAC under the key of what the tag's own text begins with, and the line."""
    digits = hmac.new(key, start + text.removesuffix(b"\n"), hashlib.sha256).hexdigest()
    return digits.encode() + b" " + text


class Client:
    """A connection with a node."""

    def __init__(self, port):
        self.socket = socket.create_connection((HOST, port), REPLY_SECONDS)
        self.reader = self.socket.makefile("rb")

    def send(self, *pieces):
        for piece in pieces:
            self.socket.sendall(piece)
        return self

    def expect(self, *lines):
        """Raises `Difference` unless these lines come."""
        for line in lines:
            found = self.reader.readline()
            differ(found != line, f"{found!r} came instead of {line!r}")
        return self

    def expect_nothing(self, seconds=QUIET_SECONDS):
        """Raises `Difference` if a byte comes within that time, or the connection is closed."""
        self.socket.settimeout(seconds)
        with contextlib.suppress(TimeoutError):
            raise Difference(f"{self.socket.recv(1)!r} came instead of nothing")
        self.socket.settimeout(REPLY_SECONDS)
        return self

    def end(self):
        """Sends no more. The node may have closed the connection already."""
        with contextlib.suppress(OSError):
            self.socket.shutdown(socket.SHUT_WR)
        return self

    def expect_end(self):
        """Raises `Difference` unless the node closes the connection and sends nothing more."""
        with contextlib.suppress(ConnectionResetError):
            found = self.reader.readline()
            differ(found, f"{found!r} came instead of the end")
        self.close()

    def close(self):
        self.reader.close()
        self.socket.close()


class Place:
    """A folder with a scheme and stores, and the processes of its nodes."""

    def __init__(self, room, chance):
        self.room, self.chance, self.running = pathlib.Path(room), chance, []
        (self.room / "scheme").write_bytes(SCHEME)
        (self.room / "stores").mkdir()

    def start(self, node, log=None, before=(), keys=None):
        """Starts a node, whose messages go to that port, perhaps with the text of a file of keys, and returns its
        process and its own port. The words in `before` come ahead of its command."""
        port, other = free_ports(2, self.chance)
        words = [*before, program(), "node", self.room / "scheme", self.room / "stores", node, "--listen", f"{HOST}:{port}"]
        for peer in PEERS[node]:
            words += ["--peer", f"{peer}={HOST}:{log or other}"]
        if keys:
            path = self.room / f"{node}.keys"
            path.touch(0o600)
            path.write_text(keys, encoding="utf-8")
            words += ["--keys", path]
        process = NodeProcess(node, words, self.room / f"{node}.said")
        self.running.append(process)
        process.wait_ready()
        return process, port

    def stop(self, process, *records):
        """Stops a process, whose store must then have one of these numbers of records."""
        process.begin_stop()
        found = process.end_stop()
        differ(found not in records, f"{process.name} has {found} records instead of {records}")

    def close(self):
        for process in self.running:
            process.end_at_once()


def try_messages(place):
    _, port = place.start("ITL")
    client, count = Client(port), 0

    def try_line(line, is_message):
        nonlocal client, count
        with contextlib.suppress(OSError):
            client.close()
        client = Client(port).send(line + b"\n")
        reply, count = client.reader.readline(), count + 1
        differ((reply == NO_MESSAGE) == is_message or not reply, f"{line[:200]!r} had the reply {reply!r}")

    for name, changes in WRONG.items():
        for old, new in changes:
            differ(MESSAGES[name].count(old) != 1, f"{old} isn't once in the {name}")
            try_line(MESSAGES[name].replace(old, new).encode(), False)
    for old, new in RIGHT_IN_PROPOSAL:
        differ(MESSAGES["proposal"].count(old) != 1, f"{old} isn't once in the proposal")
        try_line(MESSAGES["proposal"].replace(old, new).encode(), True)
    for status, codes, is_message in CODES:
        try_line(codes_text(status, codes).encode(), is_message)
    for line in NO_MESSAGES:
        try_line(line, False)
    for at in range(len(PROPOSED) - 1):
        try_line(PROPOSED[:at] + b"\xff" + PROPOSED[at + 1:-1], False)
    client.close()
    return f"{count} lines"


def try_session(place):
    process, port = place.start("NZ")
    Client(port).send(b"\n" + UNKNOWN + b'{"ca').expect(NO_MESSAGE, refused(47)).end().expect_end()
    for length, replies in (LONGEST_LINE, (NO_MESSAGE,)), (LONGEST_LINE + 1, ()):
        Client(port).send(b"x" * length + b"\n").expect(*replies).end().expect_end()
    place.stop(process, 0)
    process, port = place.start("ITL")
    for length, replies in (LONGEST_LINE + 1, ()), (LONGEST_LINE, (RECEIVED,)):
        Client(port).send(PROPOSED[:-1].ljust(length) + b"\n").expect(*replies).end().expect_end()
    place.stop(process, 1)


def try_single(place):
    process, port = place.start("NZ")
    client = Client(port).send(b"\ntwo").expect(NO_MESSAGE).expect_nothing()
    client.send(b"\n" + UNKNOWN + b"\n").expect(NO_MESSAGE, refused(47), NO_MESSAGE).end().expect_end()
    place.stop(process, 0)


def try_ends(place):
    process, port = place.start("NZ")
    for sent, replies in (b"", ()), (b"part", ()), (b"\n", (NO_MESSAGE,)), (UNKNOWN, (refused(47),)):
        Client(port).send(sent).end().expect(*replies).expect_end()
    place.stop(process, 0)


def try_slow(place):
    process, port = place.start("NZ")
    slow = Client(port)
    for byte in UNKNOWN:
        slow.send(bytes([byte]))
        begin = time.monotonic()
        Client(port).send(b"quick\n").expect(NO_MESSAGE).close()
        passed = time.monotonic() - begin
        differ(passed > QUICK_SECONDS, f"a reply took {passed:.2f} s beside a slow line")
        time.sleep(0.02)
    slow.expect(refused(47)).close()
    place.stop(process, 0)


def try_parts(place):
    process, port = place.start("ITL")
    first = Client(port).send(PROPOSED[:50])
    Client(port).send(PROPOSED).expect(RECEIVED).close()
    first.expect_nothing().send(PROPOSED[50:]).expect(RECEIVED).close()
    place.stop(process, 1)


def try_idle(place):
    process, port = place.start("NZ")
    # The script and the node each need a handle for a connection, and some more.
    count = min(MOST_IDLE, resource.getrlimit(resource.RLIMIT_NOFILE)[0] - SPARE_HANDLES)
    idle = [socket.create_connection((HOST, port), REPLY_SECONDS) for _ in range(count)]
    begin = time.monotonic()
    Client(port).send(UNKNOWN).expect(refused(47)).close()
    passed = time.monotonic() - begin
    differ(passed > QUICK_SECONDS, f"a reply took {passed:.2f} s beside idle connections")
    if count == MOST_IDLE:
        with contextlib.suppress(ConnectionResetError):
            differ(idle[0].recv(1), "a byte came over an idle connection")
    for it in idle:
        it.close()
    place.stop(process, 0)
    return f"{count} idle connections"


def try_late(place):
    process, port = place.start("NZ")
    late, begin = Client(port).send(b"late"), time.monotonic()
    time.sleep(LINE_SECONDS - 2)
    other = Client(port).send(b"oth")
    late.socket.settimeout(LINE_SECONDS)
    late.expect_end()
    passed = time.monotonic() - begin
    differ(not LINE_SECONDS - 1 < passed < LINE_SECONDS + 2, f"a connection was closed after {passed:.1f} s")
    other.send(b"er\n").expect(NO_MESSAGE).close()
    place.stop(process, 0)


def try_endless(place):
    process, port = place.start("NZ")
    client, begin = Client(port), None
    with contextlib.suppress(ConnectionError):
        for count in range(LONGEST_LINE):
            client.send(b"x")
            time.sleep(0.001)
            if count == 100:
                process.begin_stop()
                begin = time.monotonic()
    differ(begin is None or process.end_stop() != 0, "a node without records has some")
    passed = time.monotonic() - begin
    differ(passed > REPLY_SECONDS, f"a node ended only after {passed:.1f} s")


def try_stopped(place):
    (held, held_port), (other, port) = place.start("NZ"), place.start("JP")
    held.process.send_signal(signal.SIGSTOP)
    first = Client(held_port).send(UNKNOWN)
    Client(port).send(CANCELLED).expect(RECEIVED).close()
    first.expect_nothing()
    held.process.send_signal(signal.SIGCONT)
    first.expect(refused(47)).close()
    place.stop(held, 0)
    place.stop(other, 1)


def try_accepts(place):
    library, script = place.room / "hard_run.so", place.room / "script"
    build_c(FAILING, library, "-std=gnu11", "-shared", "-fPIC", "-ldl", "-lpthread")
    script.write_text(f"propose NZ{ORDER.removeprefix('propose')}\nuntil JP NZ1 Completed 5000\nclose JP 8\n")
    for count, wanted in (MOST_FAILING - 1, COMPLETED_RUN), (1_000_000, STOPPED_RUN):
        stores = place.room / f"stores-{count}"
        stores.mkdir()
        given = os.environ | {"LD_PRELOAD": str(library), "FAIL": "accept4", "FAIL_FROM": "1", "FAIL_COUNT": str(count)}
        words = [program(), "run", place.room / "scheme", stores, script]
        ended = subprocess.run(words, env=given, capture_output=True, text=True, timeout=6 * LINE_SECONDS, check=False)
        found = ended.stdout.split("transaction ")[0]
        differ(ended.returncode != 0 or found != wanted, f"with {count} failed accepts run ended with {ended.returncode}, {found!r}")


def try_commits(place):
    library, held = place.room / "file_faults.so", place.room / "held"
    build_c(HOLDING, library, "-std=gnu11", "-shared", "-fPIC", "-ldl")
    before = ("env", f"LD_PRELOAD={library}", f"HELD={held}")
    (log, port), (registry, _) = (place.start(node, before=before) for node in ("ITL", "NZ"))
    held.touch()
    client = Client(port).send(PROPOSED).expect_nothing()
    registry.send(ORDER)
    registry.send("status NZ1")
    client.expect_nothing(QUICK_SECONDS)
    differ(registry.answers, f"{registry.answers} came before a sync")
    held.unlink()
    client.expect(RECEIVED).close()
    registry.wait_until(lambda: not registry.waiting(), REPLY_SECONDS, "result")
    differ(registry.answers != ["recorded 0", "status Proposed"], f"{registry.answers} came after a sync")
    place.stop(log, 1)
    place.stop(registry, 1)


def try_together(place):
    process, port = place.start("ITL")
    units, number = "NZ:1:1-100:AAU", '"NZ1"'
    text = MESSAGES["proposal"]
    differ(text.count(units) != 1 or text.count(number) != 1, f"{text} isn't as it was")
    lines = [text.replace(units, f"NZ:1:{it}-{it}:AAU").replace(number, f'"NZ{it}"').encode() + b"\n" for it in range(1, 101)]

    def send(mine):
        client = Client(port)
        for line in mine:
            client.send(line).expect(RECEIVED)
        client.close()

    with concurrent.futures.ThreadPoolExecutor(8) as peers:
        list(peers.map(send, [lines[at::8] for at in range(8)]))
    place.stop(process, 100)


def try_tags(place):
    process, port = place.start("ITL", keys="".join(f"{node} {key.hex()}\n" for node, key in KEYS.items()))
    key, other, text = KEYS["JP"], KEYS["NZ"], ACCEPTED
    right = tagged(key, b"JP ITL ", text)
    # Typed from another program's output, so that both programs have the same tags.
    typed = b"47b10b070cc541cc60c48dbe8644c5c1e222977c6e600ec85af7772f9266326f "
    differ(right != typed + text, f"{right!r} has another tag than {typed!r}")
    unknown = tagged(key, b"ITL JP " + text, refused(47))
    odd, padded, sent = b'{"from":"JP"}\n', text[:-1].ljust(LONGEST_LINE) + b"\n", tagged(key, b"ITL JP ", CANCELLED)
    for line, reply in (
        (right, unknown),
        (right + right, unknown),
        (tagged(key, b"JP ITL ", odd), tagged(key, b"ITL JP " + odd, NO_MESSAGE)),
        (tagged(key, b"JP ITL ", padded), tagged(key, b"ITL JP " + padded, refused(47))),
        (b"0" + right[1:], NO_MESSAGE),
        (right[:64].upper() + right[64:], NO_MESSAGE),
        (tagged(key, b"ITL JP ", text), NO_MESSAGE),
        (tagged(other, b"JP ITL ", text), NO_MESSAGE),
        (text, NO_MESSAGE),
        (sent, NO_MESSAGE),
        (right[:-1], None),
        (b"a" * (65 + LONGEST_LINE + 1), None),
    ):
        client = Client(port)
        # The node may have closed the connection before.
        with contextlib.suppress(OSError):
            client.send(line).end()
        client.expect(*[reply] if reply else []).expect_end()
    proposal = tagged(other, b"NZ ITL ", PROPOSED)
    Client(port).send(proposal).expect(tagged(other, b"ITL NZ " + PROPOSED, RECEIVED)).close()
    place.stop(process, 1)


class Peer:
    """A peer of a node, which takes its messages."""

    def __init__(self, port):
        self.listener = socket.create_server((HOST, port))
        self.listener.settimeout(2 * REPLY_SECONDS)

    def take(self, reply):
        """Takes a message, replies with these bytes and closes the connection. Returns the message."""
        connection, _ = self.listener.accept()
        with connection, connection.makefile("rb") as reader:
            line = reader.readline()
            connection.sendall(reply)
        return line


# Replies after which a message is sent again.
BAD_REPLIES = (b"", RECEIVED[:10], b"{}\n", b"\n", b" " * (LONGEST_LINE + 1) + b"\n", refused(48))


def try_reply(place, reply):
    """Tries a reply other than that a message was received."""
    (log,) = free_ports(1, place.chance)
    process, _ = place.start("NZ", log)
    peer = Peer(log)
    differ(process.ask([ORDER]) != ["recorded 0"], "an order isn't recorded")
    for given in reply, RECEIVED:
        found = peer.take(given)
        differ(found != PROPOSED, f"{found!r} came instead of the proposal")
    peer.listener.settimeout(3 * QUIET_SECONDS)
    with contextlib.suppress(TimeoutError):
        raise Difference(f"{peer.take(RECEIVED)!r} came after the message was received")
    # An acknowledgement is committed with the next record, and may be lost.
    place.stop(process, 1, 2)


def try_sending(place):
    (log,) = free_ports(1, place.chance)
    process, _ = place.start("NZ", log)
    begin = time.monotonic()
    differ(process.ask([ORDER]) != ["recorded 0"], "an order isn't recorded")
    time.sleep(QUIET_SECONDS)
    found = Peer(log).take(RECEIVED)
    passed = time.monotonic() - begin
    differ(found != PROPOSED or not 0.9 < passed < REPLY_SECONDS, f"{found!r} came after {passed:.1f} s to a peer that was down")
    place.stop(process, 1, 2)
    for number, reply in enumerate(BAD_REPLIES):
        inner = place.room / str(number)
        inner.mkdir()
        with contextlib.closing(Place(inner, place.chance)) as another:
            try_reply(another, reply)


def try_tagged(place):
    (log,) = free_ports(1, place.chance)
    key = KEYS["NZ"]
    process, _ = place.start("NZ", log, keys=f"ITL {key.hex()}")
    peer, sent = Peer(log), tagged(key, b"NZ ITL ", PROPOSED)
    differ(process.ask([ORDER]) != ["recorded 0"], "an order isn't recorded")
    right, again = (tagged(key, b"ITL NZ " + it, RECEIVED) for it in (PROPOSED, ACCEPTED))
    turned = tagged(key, b"NZ ITL " + PROPOSED, RECEIVED)
    for reply in RECEIVED, again, turned, sent, b"\n", b"", right[:-1], right:
        found = peer.take(reply)
        differ(found != sent, f"{found!r} came instead of {sent!r}")
    peer.listener.settimeout(3 * QUIET_SECONDS)
    with contextlib.suppress(TimeoutError):
        raise Difference(f"{peer.take(right)!r} came after the message was received")
    place.stop(process, 1, 2)


def try_waiting(place):
    (log,) = free_ports(1, place.chance)
    process, _ = place.start("NZ", log)
    listener = socket.create_server((HOST, log))
    listener.settimeout(REPLY_SECONDS)
    process.ask([ORDER])
    connection, _ = listener.accept()
    begin = time.monotonic()
    with connection, contextlib.suppress(ConnectionError):
        while time.monotonic() < begin + 2 * LINE_SECONDS:
            connection.sendall(b" ")
            time.sleep(0.1)
    passed = time.monotonic() - begin
    differ(not LINE_SECONDS - 1 < passed < LINE_SECONDS + 3, f"a slow reply held its sender for {passed:.1f} s")
    listener.close()
    place.stop(process, 1)


PARTS = {name.removeprefix("try_"): part for name, part in list(globals().items()) if name.startswith("try_") and name != "try_reply"}


def attempt(name, chance):
    """Tries a part. Returns a line about it, and whether it passed."""
    with tempfile.TemporaryDirectory() as room, contextlib.closing(Place(room, chance)) as place:
        begin = time.monotonic()
        try:
            text = PARTS[name](place) or "as expected"
        except (Difference, OSError, subprocess.TimeoutExpired) as found:
            return f"{name}: {found!r}", False
        return f"{name}: {text}, {time.monotonic() - begin:.1f} s", True


def main():
    words = argparse.ArgumentParser(description=__doc__, formatter_class=argparse.RawDescriptionHelpFormatter)
    words.add_argument("--only", action="append", choices=list(PARTS), help="try only the part of this name; can be given several times")
    words.add_argument("--seed", type=int, default=random.randrange(1_000_000))
    given = words.parse_args()
    raise_handles()
    program()
    names = given.only or list(PARTS)
    kept = True
    with concurrent.futures.ThreadPoolExecutor(len(names)) as threads:
        for line, passed in threads.map(lambda name: attempt(name, random.Random(f"{given.seed} {name}")), names):
            print(line, flush=True)
            kept = kept and passed
    return 0 if kept else 1


if __name__ == "__main__":
    sys.exit(main())
