"""Runs nodes of which one allocation is refused, with a peer and an operator who write lines to them."""

import contextlib
import os
import re
import socket
import subprocess
import tempfile
import time

import paths
from endings import check_end
from refusing import LONGEST, MOST_OTHERS, OUT_OF_MEMORY, allocations_of, built, distance, in_turn

# The lines for each node, and its peers, of which none has a process.
LINES = {
    "ITL": b"eligible NZ no\neligible NZ no\neligible FR no\nopen 1\nstatus NZ1\nstop\n",
    "NZ": b"close 2\nopen 3\nclean-up 2012-05-02T00:00:00Z\nstatus NZ1\npropose 1 JP 7 NZ:1:1-100:AAU\nexport there.db\nstop\n",
}
PEERS = {"ITL": ("JP", "NZ"), "NZ": ("ITL",)}
# The lines that a peer sends to each of them before, and the replies: one without a message, and one with a message that
# the log records and that NZ doesn't know.
SENT = {
    "ITL": b'\n{"account":1,"call":"AcceptProposal","from":"NZ","status":"Proposed","to":"ITL","to_account":7,"to_registry":"JP",'
    b'"transaction":"NZ1","units":["NZ:1:1-100:AAU"]}\n',
    "NZ": b'\n{"call":"AcceptNotification","codes":[],"from":"ITL","status":"Completed","to":"NZ","transaction":"NZ9"}\n',
}
RECEIVED = b'{"code":0,"result":"received"}\n'
# A node without memory for a message refuses it, and one without memory for its store has stopped.
REFUSALS = (b'{"code":50,"result":"refused"}\n', b'{"code":48,"result":"refused"}\n')
REPLIES = {
    "ITL": (b'{"code":41,"result":"refused"}\n', RECEIVED),
    "NZ": (b'{"code":41,"result":"refused"}\n', b'{"code":47,"result":"refused"}\n'),
}
# The number of times that a connection with a node is tried.
LISTEN_TRIES = 500


def replies_of(process, port, lines):
    """Sends a node these lines over a connection of its own, and returns its replies; none if it doesn't listen."""
    for _ in range(LISTEN_TRIES):
        with contextlib.suppress(OSError), socket.create_connection(("127.0.0.1", port), LONGEST) as client:
            client.sendall(lines)
            client.shutdown(socket.SHUT_WR)
            with client.makefile("rb") as reader:
                return reader.read().splitlines(keepends=True)
        if process.poll() is not None:
            return []
        time.sleep(0.01)
    return []


def run_node(refusing, scheme, stores, node, number, thread):
    """Runs a node whose peer sends it lines, and whose operator then writes lines and stops it. Returns its end, whether
    an allocation was refused, and its replies."""
    with socket.create_server(("127.0.0.1", 0)) as it:
        port = it.getsockname()[1]
    peers = [word for peer in PEERS[node] for word in ("--peer", f"{peer}=127.0.0.1:1")]
    words = ["kyoto-link", "node", scheme, stores, node, "--listen", f"127.0.0.1:{port}", *peers]
    pipe, mark = subprocess.PIPE, refusing.room / f"refused-{thread}"
    mark.unlink(missing_ok=True)
    given = os.environ | {"LD_PRELOAD": str(refusing.library), "REFUSE": str(number), "REFUSED": str(mark)}
    with tempfile.TemporaryDirectory(dir=refusing.room) as own:
        process = subprocess.Popen(words, executable=built(), stdin=pipe, stdout=pipe, stderr=pipe, env=given, cwd=own)
        replies = replies_of(process, port, SENT[node])
        try:
            out, err = process.communicate(LINES[node], timeout=LONGEST)
        except subprocess.TimeoutExpired:
            process.kill()
            out, err = process.communicate()
    return (process.returncode, out, err), mark.exists(), replies


def other_end_of_node(refusing, scheme, stores, node, ended, replies):
    """Returns a text about an end that a node must not have, or no text."""
    (status, out, err), said = ended, ended[2].decode(errors="replace")
    if any(reply not in (wanted, *REFUSALS) for reply, wanted in zip(replies, REPLIES[node])):
        return f"replied {replies}"
    reported = len(re.findall(rb"^\d+ recorded \d+$", out, re.M)) + replies.count(RECEIVED)
    (shown_status, records, _), _ = refusing.run(["show", scheme, stores, node], b"", 0)
    count = records.count(b"\n") - 1
    if shown_status != 0 or reported > count:
        return f"reported {reported} records, and its store has {count}"
    if status == 0:
        return "" if out.endswith(b"\nrecords %d\n" % count) else f"wrote {out!r} with {count} records in its store"
    return "" if (status, err.endswith(OUT_OF_MEMORY[2])) == (OUT_OF_MEMORY[0], True) else f"status {status}, {said!r}"


def refuse_each_of_node(refusing, scheme, node, seconds):
    """Returns whether a node ended well with each allocation refused, or with those that the time allows."""
    def run(number, thread=0):
        with tempfile.TemporaryDirectory(dir=refusing.room) as stores:
            ended, refused, replies = run_node(refusing, scheme, stores, node, number, thread)
            return ended, refused, other_end_of_node(refusing, scheme, stores, node, ended, replies)

    def take(number, thread):
        ended, refused, other = run(number, thread)
        if other:
            return f"with allocation {number} refused: {other}"
        return ended[0] != 0 if refused else None

    begin = time.monotonic()
    whole, _, other = run(0)
    each = time.monotonic() - begin
    check_end([built(), "node", node], whole[0], (0,), whole[2])
    step = 1 if seconds is None else distance(allocations_of(lambda number: run(number)[1]), each, seconds)
    ended = in_turn(take, step)
    others = [it for it in [other, *ended] if isinstance(it, str) and it]
    print(*(f"node {node}: {it}" for it in others[:MOST_OTHERS]), sep="\n", end="\n" if others else "")
    print(f"node {node}: {len(ended)} allocations, 1 in {step}; out of memory {ended.count(True)} times", flush=True)
    return not others
