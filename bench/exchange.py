#!/usr/bin/env python3
"""Measures the exchanges a second of a node, and those of its sender with many messages to send.

    exchange.py [--exchanges N] [--runs N] [--messages N]

An exchange is one message and its reply over a connection of its own on the loopback interface. A C program sends the
same message again and again to `kyoto-link node` of a registry, which refuses it without a record, or to a thread of its
own that has a reply ready (bench/exchange.c). Both run in turn. The best rates and their ratio are printed.

Then a node of the log has 1,000 and 100,000 messages for a registry that it hasn't sent, in a store that the bench
writes, and a peer takes the first 1,000 of them. A sender that walked all messages for the next one would take a
hundred times as long with the larger store. The best times and their ratio are printed.

The exit status is 1 if a ratio is beyond its limit, or if a program fails.
"""

import argparse
import contextlib
import pathlib
import random
import socket
import sys
import tempfile
import time

from audit import proposal
from building import build_c
from endings import run_to_end
from records import write_store
from rehearse import codes_of, program, scheme

TOP = pathlib.Path(__file__).resolve().parent.parent
sys.path.append(str(TOP / "trials"))

from node_group import HOST, free_ports  # noqa: E402
from node_process import NodeProcess  # noqa: E402

SOURCE = TOP / "bench" / "exchange.c"
LEAST_OF_C = 0.4
MOST_OF_FEW = 2.0
FEW = 1_000
RECEIVED = b'{"code":0,"result":"received"}\n'
ACCEPT_SECONDS = 60
# The registries of the message that the C program sends, and those of the messages to send.
CODES = ("JP", "NZ")


class Place:
    """A folder with a scheme and the stores of its nodes, and the processes that run there."""

    def __init__(self, room, codes, units):
        self.room, self.codes, self.running = pathlib.Path(room), codes, []
        (self.room / "stores").mkdir()
        (self.room / "scheme").write_text(scheme(codes, units) + "\n", encoding="utf-8")

    def start(self, node, port, peers):
        """Starts a node at a port, whose peers are at these ports, and returns its process."""
        words = [program(), "node", self.room / "scheme", self.room / "stores", node, "--listen", f"{HOST}:{port}"]
        for peer, other in peers.items():
            words += ["--peer", f"{peer}={HOST}:{other}"]
        process = NodeProcess(node, words, self.room / f"{node}.said")
        self.running.append(process)
        process.wait_ready()
        return process

    def close(self):
        for process in self.running:
            process.end_at_once()


@contextlib.contextmanager
def place(codes, units):
    with tempfile.TemporaryDirectory() as room, contextlib.closing(Place(room, codes, units)) as made:
        yield made


def exchanges(words):
    """Returns the seconds that the program in C prints, and the number of exchanges that it made again."""
    printed = run_to_end(list(map(str, words)), capture_output=True, text=True).stdout
    micros, again = map(int, printed.split())
    return micros / 1_000_000, again


def rates(in_c, count, runs):
    """Returns the best rates of the node and of the program in C, and how many exchanges with the node were made again
    in its best run."""
    with place(CODES, 1) as made:
        port, other = free_ports(2, random.Random())
        made.start("NZ", port, {"ITL": other})
        times = [(exchanges([in_c, count, port]), exchanges([in_c, count])) for _ in range(runs)]
    (ours, again), (of_c, _) = map(min, zip(*times))
    return count / ours, count / of_c, again


def sending_time(messages):
    """Returns the seconds in which a peer takes the first 1,000 of these messages of the log's."""
    initiator, acquirer = codes = codes_of(2)
    with place(codes, messages) as made, socket.create_server((HOST, 0), backlog=128) as listener:
        units = (f"{initiator}:1:{number}-{number}:AAU" for number in range(1, messages + 1))
        texts = (proposal(initiator, "Proposed", "ITL", acquirer, f"{initiator}{at}", it) for at, it in enumerate(units, 1))
        write_store(made.room / "stores", "ITL", texts)
        listener.settimeout(ACCEPT_SECONDS)
        port, other = free_ports(2, random.Random())
        made.start("ITL", port, {initiator: other, acquirer: listener.getsockname()[1]})
        for taken in range(FEW):
            connection, _ = listener.accept()
            if taken == 0:
                start = time.perf_counter()
            with connection, connection.makefile("rb") as reader:
                if b'"AcceptProposal"' not in reader.readline():
                    sys.exit("the log sent another message")
                connection.sendall(RECEIVED)
        return time.perf_counter() - start


def main():
    words = argparse.ArgumentParser(description=__doc__, formatter_class=argparse.RawDescriptionHelpFormatter)
    words.add_argument("--exchanges", type=int, default=20_000)
    words.add_argument("--messages", type=int, default=100_000, help="the number of messages of the larger store, at least 1,000")
    words.add_argument("--runs", type=int, default=5, help="the number of runs of each; the best counts")
    given = words.parse_args()
    program()
    with tempfile.TemporaryDirectory() as room:
        in_c = pathlib.Path(room) / "exchange"
        build_c(SOURCE, in_c, "-std=gnu11", "-pthread")
        ours, of_c, again = rates(in_c, given.exchanges, given.runs)
    print(f"exchanges a second: {ours:,.0f}; C: {of_c:,.0f}; ratio {ours / of_c:.2f} (at least {LEAST_OF_C}); {again} made again", flush=True)
    sizes = (FEW, max(FEW, given.messages))
    few, many = (min(sending_time(size) for _ in range(given.runs)) for size in sizes)
    print(f"{FEW:,} messages are sent in {few:.3f} s of {sizes[0]:,}, and in {many:.3f} s of {sizes[1]:,}; ratio {many / few:.2f} (limit {MOST_OF_FEW})")
    return 0 if ours / of_c >= LEAST_OF_C and many / few <= MOST_OF_FEW else 1


if __name__ == "__main__":
    sys.exit(main())
