#!/usr/bin/env python3
"""Relays messages between nodes, and disturbs them as a hostile network can.

    relay.py [--mode lossy|hostile] [--seed N] [--forged FILE] FROM:TO:IP:PORT:TARGET_IP:TARGET_PORT ..

For each direction of a link the relay listens at an address of its own and knows the address of the node behind it. It
passes each message on, at once, later or twice, or drops it before or after its delivery, or cuts it in the middle. It
delivers older lines of that link again, lines of the other direction, which come back to their author, and lines of
other links. This is the mode `lossy`, which nodes without keys withstand. In the mode `hostile` it also alters a byte
of a message, of its tag or of its reply; drops messages and forges their replies or replaces them by old ones; and
makes messages that no node wrote, without a tag, with a made-up one or with that of another message.

The relay has no key. It keeps the texts of all messages that nodes sent through it and of those that it made, so that a
bench can look for them in the records. A message that it made either is about a transaction that was never proposed, or
is one that no node sends about a real transaction if no node rejects, cancels or asks to cancel.

As a program it ends at the end of standard input or with SIGTERM, and prints as JSON the number of each action and its
own faults. The exit status is 1 if it had a fault.
"""

import argparse
import asyncio
import collections
import contextlib
import dataclasses
import json
import pathlib
import random
import re
import signal
import threading

# The bytes of the longest line that is passed on; the seconds to wait for a line, and for a reply.
LONGEST_LINE, LINE_WAIT, REPLY_WAIT = 32_768, 15, 5
# The most seconds until the relay's own thread has begun or ended.
OWN_WAIT = 30
# The number of last lines and replies of each direction that are kept for another delivery.
KEPT = 2_000
# The most seconds until an older line is delivered again, and of a delay. One delay in `GIVEN_UP_ONE_IN` is longer than the
# sender waits.
LATEST_REPLAY, LONGEST_DELAY = 3.0, 0.1
GIVEN_UP_ONE_IN, GIVEN_UP = 40, (2.2, 3.5)
# The first number of transactions that no registry proposes.
NEVER_PROPOSED = 900_000
TAG = re.compile(rb"[0-9a-f]{64} ")
RECEIVED = b'{"code":0,"result":"received"}\n'
# The weight of each action.
LOSSY = {"forward": 60, "drop_before": 4, "drop_after": 7, "delay": 6, "duplicate": 7, "replay": 7, "reflect": 3, "cross": 3, "cut": 3}
HOSTILE = {**LOSSY, "alter_text": 5, "alter_tag": 3, "forge": 8, "forge_reply": 4, "old_reply": 3, "alter_reply": 3}
MODES = {"lossy": LOSSY, "hostile": HOSTILE}


@dataclasses.dataclass(frozen=True)
class Link:
    """One direction of a link: its sender and receiver, the address of the relay for it, and that of the receiver."""
    sender: str
    receiver: str
    listen: tuple
    target: tuple

    @property
    def ends(self):
        return self.sender, self.receiver


def split_tag(line):
    """Returns the tag of a line with its space, or nothing, and the text after it, without the newline."""
    found = TAG.match(line)
    at = found.end() if found else 0
    return line[:at], line[at:].rstrip(b"\n")


def same_text(text):
    """Returns the compact text with sorted keys, which is the same for all lines of one message, or None if the text
    isn't a JSON object."""
    try:
        message = json.loads(text)
    except (ValueError, RecursionError):
        return None
    return json.dumps(message, sort_keys=True, separators=(",", ":")) if isinstance(message, dict) else None


class Relay:
    """The links, the lines and replies on them, and the relay's own faults. It runs in a thread of its own from `start`
    to `stop`."""

    def __init__(self, links, mode, seed=None):
        self.links, self.actions, self.chance = list(links), MODES[mode], random.Random(seed)
        self.targets = {link.receiver: link.target for link in self.links}
        self.registries = sorted({link.sender for link in self.links} - {"ITL"})
        self.counts = collections.Counter()
        # The texts that nodes sent, those that the relay made, and the relay's own faults.
        self.genuine, self.forged, self.faults = set(), set(), []
        self.lines = {link.ends: collections.deque(maxlen=KEPT) for link in self.links}
        self.replies = {link.ends: collections.deque(maxlen=KEPT) for link in self.links}
        self.transactions = []
        self.loop, self.later = asyncio.new_event_loop(), set()
        self.thread = threading.Thread(target=self.work, daemon=True)
        self.ready, self.over = threading.Event(), None

    # The actions on a message. Each returns the line that goes back to the sender, or None to close the connection.

    async def forward(self, link, line):
        reply = await self.exchange(link.target, line)
        if reply:
            self.replies[link.ends].append(reply)
        return reply

    async def drop_before(self, link, line):
        return None

    async def drop_after(self, link, line):
        await self.forward(link, line)

    async def delay(self, link, line):
        given_up = self.chance.randrange(GIVEN_UP_ONE_IN) == 0
        await asyncio.sleep(self.chance.uniform(*GIVEN_UP) if given_up else self.chance.uniform(0, LONGEST_DELAY))
        return await self.forward(link, line)

    async def duplicate(self, link, line):
        both = await asyncio.gather(self.forward(link, line), self.forward(link, line))
        return self.chance.choice(both)

    async def replay(self, link, line):
        self.spawn(self.deliver_later(link.target, self.chance.choice(self.lines[link.ends])))
        return await self.forward(link, line)

    async def reflect(self, link, line):
        back = self.lines.get((link.receiver, link.sender))
        if back:
            self.spawn(self.deliver_later(link.target, self.chance.choice(back)))
        return await self.forward(link, line)

    async def cross(self, link, line):
        other = self.chance.choice(self.links)
        if self.lines[other.ends]:
            self.spawn(self.deliver_later(link.target, self.chance.choice(self.lines[other.ends])))
        return await self.forward(link, line)

    async def cut(self, link, line):
        part = line[:self.chance.randrange(1, len(line))].rstrip(b"\n")
        if self.chance.random() < 0.5:
            await self.exchange(link.target, part + b"\n")
        else:
            self.spawn(self.hold(link.target, part, self.chance.choice((0, 0, 0.5, 3))))

    async def alter_text(self, link, line):
        tag, text = split_tag(line)
        altered = self.altered(text)
        made = same_text(altered)
        if made and made != same_text(text):
            self.forged.add(made)
        return await self.attempt(link.target, tag + altered + b"\n", "altered")

    async def alter_tag(self, link, line):
        tag, text = split_tag(line)
        return await self.attempt(link.target, self.altered(tag) + text + b"\n", "altered") if tag else await self.forward(link, line)

    async def forge(self, link, line):
        text = json.dumps(self.made_message(link), sort_keys=True, separators=(",", ":"))
        self.forged.add(text)
        tag = self.chance.choice((b"", self.made_tag(), split_tag(self.chance.choice(self.lines[link.ends]))[0]))
        self.spawn(self.attempt(link.target, tag + text.encode() + b"\n", "forged"))
        return await self.forward(link, line)

    async def forge_reply(self, link, line):
        return self.chance.choice((b"", self.made_tag(), split_tag(line)[0])) + RECEIVED

    async def old_reply(self, link, line):
        return self.chance.choice(self.replies[link.ends]) if self.replies[link.ends] else None

    async def alter_reply(self, link, line):
        reply = await self.forward(link, line)
        return reply and self.altered(reply[:-1]) + b"\n"

    # Parts of the actions.

    def altered(self, some):
        """Returns the bytes with one of them changed, but not into a newline."""
        at = self.chance.randrange(len(some))
        byte = self.chance.choice([it for it in range(32, 127) if it != some[at]])
        return some[:at] + bytes([byte]) + some[at + 1:]

    def made_tag(self):
        return self.chance.randbytes(32).hex().encode() + b" "

    def made_message(self, link):
        """Returns a message that no node writes, from the receiver's peer or from another node."""
        other = self.chance.choice(self.registries)
        sender = link.sender if self.chance.random() < 0.75 else other
        never = f"{self.chance.choice(self.registries)}{self.chance.randrange(NEVER_PROPOSED, 1_000_000)}"
        real = self.chance.choice(self.transactions) if self.transactions else never
        made = {"from": sender, "to": link.receiver}
        kind = self.chance.choice(("Rejected", "Cancelled", "Terminated", "Accepted", "Completed", "proposal", "request"))
        if kind == "request":
            return {**made, "call": "RequestCancellation", "transaction": real}
        if kind == "proposal":
            status, code = ("Proposed", sender) if link.receiver == "ITL" else ("Checked", other)
            acquirer = other if link.receiver == "ITL" else link.receiver
            number = self.chance.randrange(NEVER_PROPOSED, 1_000_000)
            content = {"account": 1, "to_account": 1, "to_registry": acquirer, "units": [f"{code}:1:1-1:AAU"]}
            return {**made, **content, "call": "AcceptProposal", "status": status, "transaction": f"{code}{number}"}
        codes = {"Rejected": [301], "Terminated": [201]}.get(kind, [])
        transaction = never if kind in ("Accepted", "Completed") else real
        return {**made, "call": "AcceptNotification", "codes": codes, "status": kind, "transaction": transaction}

    async def attempt(self, target, line, what):
        """Delivers a line that no node wrote, and counts a reply that it was received."""
        reply = await self.exchange(target, line)
        self.counts[f"{what}_received"] += bool(reply) and b'"received"' in reply
        return reply

    async def deliver_later(self, target, line):
        await asyncio.sleep(self.chance.uniform(0, LATEST_REPLAY))
        await self.exchange(target, line)

    async def hold(self, target, part, seconds):
        """Sends a part of a line, and closes the connection after a while."""
        with contextlib.suppress(OSError):
            _, writer = await asyncio.open_connection(*target)
            with contextlib.closing(writer):
                writer.write(part)
                await writer.drain()
                await asyncio.sleep(seconds)

    async def exchange(self, target, line):
        """Sends a line over a connection of its own, and returns the reply, or None."""
        with contextlib.suppress(OSError, ValueError, asyncio.IncompleteReadError, asyncio.TimeoutError):
            reader, writer = await asyncio.open_connection(*target, limit=LONGEST_LINE)
            with contextlib.closing(writer):
                writer.write(line)
                await writer.drain()
                return await asyncio.wait_for(reader.readuntil(b"\n"), REPLY_WAIT)
        self.counts["no_reply"] += 1
        return None

    # The service of the links.

    def learn(self, link, line):
        """Keeps a line that a node sent. A line of another form is counted."""
        self.lines[link.ends].append(line)
        text = same_text(split_tag(line)[1])
        if text is None:
            self.counts["no_message"] += 1
        elif text not in self.genuine:
            self.genuine.add(text)
            message = json.loads(text)
            if message.get("call") == "AcceptProposal":
                self.transactions.append(message["transaction"])

    async def serve(self, link, reader, writer):
        """Reads the lines of a connection, and chooses an action for each."""
        try:
            with contextlib.closing(writer), contextlib.suppress(OSError, ValueError, asyncio.IncompleteReadError, asyncio.TimeoutError):
                while True:
                    line = await asyncio.wait_for(reader.readuntil(b"\n"), LINE_WAIT)
                    self.learn(link, line)
                    name, = self.chance.choices(list(self.actions), self.actions.values())
                    self.counts[name] += 1
                    reply = await getattr(self, name)(link, line)
                    if not reply:
                        return
                    writer.write(reply)
                    await writer.drain()
        except asyncio.CancelledError:  # the relay is being stopped
            return
        except Exception as fault:  # a fault of the relay's own, which the bench reports
            self.faults.append(repr(fault))

    def spawn(self, work):
        """Starts the work as a task beside the others."""
        task = self.loop.create_task(work)
        self.later.add(task)
        task.add_done_callback(self.forget)

    def forget(self, task):
        self.later.discard(task)
        if not task.cancelled() and task.exception():
            self.faults.append(repr(task.exception()))

    async def run(self):
        """Serves all links until the relay is stopped."""
        self.over = asyncio.Event()
        servers = []
        try:
            for link in self.links:
                def serve(reader, writer, link=link):
                    return self.serve(link, reader, writer)
                servers.append(await asyncio.start_server(serve, *link.listen, limit=LONGEST_LINE, backlog=1_024))
        except OSError as fault:
            self.faults.append(repr(fault))
            self.over.set()
        self.ready.set()
        await self.over.wait()
        for server in servers:
            server.close()
        mine = asyncio.all_tasks() - {asyncio.current_task()}
        for task in mine:
            task.cancel()
        await asyncio.gather(*mine, return_exceptions=True)

    def work(self):
        self.loop.run_until_complete(self.run())
        self.loop.close()

    def start(self):
        self.thread.start()
        if not self.ready.wait(OWN_WAIT):
            self.faults.append("the relay didn't begin")

    def stop(self):
        """Ends all connections, and returns the number of each action."""
        with contextlib.suppress(RuntimeError):  # the loop may have ended with a fault
            self.loop.call_soon_threadsafe(self.over.set)
        self.thread.join(OWN_WAIT)
        if self.thread.is_alive():
            self.faults.append("the relay didn't end")
        return dict(sorted(self.counts.items()))


def link_of(text):
    """Returns the link that a word of the command line names."""
    sender, receiver, host, port, target_host, target_port = text.split(":")
    return Link(sender, receiver, (host, int(port)), (target_host, int(target_port)))


def main():
    words = argparse.ArgumentParser(description=__doc__, formatter_class=argparse.RawDescriptionHelpFormatter)
    words.add_argument("links", type=link_of, nargs="+", metavar="FROM:TO:IP:PORT:TARGET_IP:TARGET_PORT", help="a direction of a link")
    words.add_argument("--mode", choices=MODES, default="lossy")
    words.add_argument("--seed", type=int, default=None)
    words.add_argument("--forged", type=pathlib.Path, default=None, help="a file for the messages that the relay made, one on each line")
    given = words.parse_args()
    relay, over = Relay(given.links, given.mode, given.seed), threading.Event()
    signal.signal(signal.SIGTERM, lambda *_: over.set())
    relay.start()

    def wait_for_end():
        with contextlib.suppress(OSError):
            while open(0, "rb", buffering=0, closefd=False).read(4_096):
                pass
        over.set()

    threading.Thread(target=wait_for_end, daemon=True).start()
    while not over.wait(0.2) and relay.thread.is_alive():
        pass
    counts = relay.stop()
    if given.forged:
        given.forged.write_text("".join(f"{text}\n" for text in sorted(relay.forged - relay.genuine)))
    print(json.dumps({"counts": counts, "faults": relay.faults}), flush=True)
    return 1 if relay.faults else 0


if __name__ == "__main__":
    raise SystemExit(main())
