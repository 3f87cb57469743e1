"""Finds the furthest cut of all nodes' records by checker/, and the expected output of `kyoto-link audit --cut`."""

import json

import paths

import formats
import worlds
from journals import message_text
from nodes import Given, Message

CALLS = {"AcceptProposal": "proposal", "RequestCancellation": "request"}


def message_of(parts):
    """Returns the message with these keys and values."""
    kind = CALLS.get(parts["call"]) or parts["status"]
    status = content = None
    if kind == "proposal":
        units = [formats.raw_block(it) for it in parts["units"]]
        status = parts["status"]
        content = formats.Order(parts["account"], parts["to_registry"], parts["to_account"], units)
    transaction = formats.identifier(parts["transaction"])
    return Message(kind, parts["from"], parts["to"], transaction, status, content, tuple(parts.get("codes", ())))


def given_of(text):
    """Returns the node's input that a record's text describes."""
    parts = json.loads(text)
    name = parts["input"]
    if name == "received":
        return Given("message", (message_of(parts["message"]), parts["moment"]))
    if name == "propose":
        units = [formats.raw_block(it) for it in parts["units"]]
        return Given(name, formats.Order(parts["account"], parts["to_registry"], parts["to_account"], units))
    if name == "request":
        return Given(name, formats.identifier(parts["transaction"]))
    if name == "clean_up":
        return Given("clean-up", parts["moment"])
    if name == "eligible":
        return Given(name, (parts["registry"], parts["may"]))
    return Given(name, parts["key" if name == "ack" else "account"])


def blocks_of(given):
    """Returns the blocks that an order or a message names."""
    content = given.value[0].content if given.name == "message" else given.value if given.name == "propose" else None
    return content.units if content else []


def name_of(message):
    """Returns a text that is the same for equal messages."""
    return json.dumps(message_text(message), sort_keys=True)


def forged(chance, codes):
    """Returns a message that its receiver would record and that no node sends, since there is no such transaction."""
    initiator, acquirer = chance.sample(codes, 2)
    kind, status, content = chance.choice(("proposal", "request", "Checked", "Cancelled")), None, None
    to_log = kind in ("proposal", "request")
    sender, receiver = (initiator, formats.ITL) if to_log else (formats.ITL, acquirer)
    if kind in ("proposal", "Checked"):
        kind, status = "proposal", "Proposed" if to_log else "Checked"
        content = formats.Order(1, acquirer, 1, [formats.Block(initiator, 1, 900_000, 900_000, "AAU")])
    return Message(kind, sender, receiver, (initiator, 900_000), status, content, ())


class Cut:
    """The world to which the texts of all nodes' records lead, up to messages that no node sent."""

    def __init__(self, scheme, records, blocks=()):
        registries, most = formats.scheme(scheme)
        self.given = {name: [given_of(it) for it in texts] for name, texts in records.items()}
        named = [block for it in self.given.values() for given in it for block in blocks_of(given)]
        self.world = worlds.World(registries, most, [*blocks, *named])
        self.sent = set()
        while any([self.follow(name, node) for name, node in self.world.nodes.items()]):
            pass

    def follow(self, name, node):
        """Gives the node its next records, up to a message that no node sent. Returns whether there was one."""
        start, known = len(node.journal), len(node.sent)
        for place, given in enumerate(self.given[name][start:], start):
            if given.name == "message" and name_of(given.value[0]) not in self.sent:
                break
            outcome = node.take(given)
            if outcome != f"recorded {place}":
                raise ValueError(f"record {place} of {name} is {outcome} by the checker")
        self.sent.update(name_of(message) for _, message in node.sent[known:])
        return len(node.journal) > start

    def rests(self):
        """Yields, for each node with records left, its name, the place of the first one, their number, and the message
        of the first one."""
        for name, node in self.world.nodes.items():
            place = len(node.journal)
            if place < len(self.given[name]):
                yield name, place, len(self.given[name]) - place, self.given[name][place].value[0]

    def text(self):
        """Returns the expected output of `audit --cut`."""
        lines = self.world.table()
        for name, place, count, message in self.rests():
            words = f"{message.kind} {formats.identifier_text(message.transaction)} from {message.sender}"
            lines += [f"left {name} {place} {count}", f"waits {name} {place} {words}"]
        return "".join(f"{line}\n" for line in lines)

    def fault(self):
        """Returns the line that `audit` and `audit --cut` must write to standard error."""
        return next((f"kyoto-link: stuck at {name} {place}\n" for name, place, _, _ in self.rests()), "")
