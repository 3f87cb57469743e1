"""Writes the records of journals and their messages as docs/FORMATS.md describes them."""
import json

from formats import block_text, identifier_text

# The format of records.
FORMAT = 2


def order_text(order):
    """Returns the keys of an order to transfer units, or of the content of a proposal, with their values."""
    units = [block_text(it) for it in order.units]
    return {"account": order.account, "to_account": order.to_account, "to_registry": order.acquirer, "units": units}


def message_text(message):
    """Returns the keys of a message with their values."""
    found = {"from": message.sender, "to": message.receiver, "transaction": identifier_text(message.transaction)}
    if message.kind == "request":
        return {**found, "call": "RequestCancellation"}
    if message.kind != "proposal":
        return {**found, "call": "AcceptNotification", "codes": list(message.codes), "status": message.kind}
    return {**found, **order_text(message.content), "call": "AcceptProposal", "status": message.status}


def record_text(given):
    """Returns the text of the record of an input."""
    name, value = given.name, given.value
    if name == "message":
        parts = {"input": "received", "message": message_text(value[0]), "moment": value[1]}
    elif name == "propose":
        parts = {**order_text(value), "input": name}
    elif name == "request":
        parts = {"input": name, "transaction": identifier_text(value)}
    elif name in ("open", "close"):
        parts = {"account": value, "input": name}
    elif name == "ack":
        parts = {"input": name, "key": value}
    elif name == "clean-up":
        parts = {"input": "clean_up", "moment": value}
    else:
        parts = {"input": name, "may": value[1], "registry": value[0]}
    return json.dumps({**parts, "v": FORMAT}, sort_keys=True, separators=(",", ":"))
