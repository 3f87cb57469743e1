"""Checks the results of one node for each kind of line, and again after another start."""

from folders import differ, do
from node_group import LOG, group_of

# A line of more bytes than allowed.
TOO_LONG = "x" * 1_048_577
# Lines for a registry whose log is down, and for the log, with the expected results.
OF_REGISTRY = [
    ("propose 1 AB 1 AA:1:1-3:AAU", "recorded 0"),
    ("propose 1 AB 1 AA:1:3-4:AAU", "refused 106"),
    ("propose 1 AB 1 AA:1:8-12:AAU", "refused 105"),
    ("status AA1", "status Proposed"),
    ("status AA2", "status none"),
    ("until AA1 Completed 5", "status Proposed"),
    ("request AA1", "recorded 1"),
    ("request AA1", "repeat"),
    ("request AA2", "refused 115"),
    ("open 1", "refused 111"),
    ("close 7", "refused 110"),
    ("eligible AA no", "not possible"),
    ("clean-up 2012-05-02T00:00:00Z", "not possible"),
    ("", "fault order"),
    ("stop now", "fault order"),
    ("propose AA 1 AB 1 AA:1:5-5:AAU", "fault order"),
    (TOO_LONG, "fault too-long"),
    ("propose 1 AB 1 AA:1:5-5:AAU", "recorded 2"),
]
OF_LOG = [
    ("eligible AA no", "recorded 0"),
    ("eligible AA no", "repeat"),
    ("eligible ZZ no", "refused 114"),
    ("clean-up 2012-05-02T00:00:00Z", "repeat"),
    ("status AA1", "status none"),
    ("propose 1 AB 1 AA:1:1-1:AAU", "not possible"),
    ("open 1", "not possible"),
    ("status", "fault order"),
]
# Lines after another start, with which the records are still there.
LATER = {
    "AA": [("status AA1", "status Proposed"), ("request AA1", "repeat"), ("propose 1 AB 1 AA:1:5-5:AAU", "refused 106")],
    LOG: [("eligible AA no", "repeat"), ("eligible AA yes", "recorded 1")],
}
STARTS = ({"AA": OF_REGISTRY, LOG: OF_LOG}, LATER)


def check_answers(group, node, lines, export):
    """Starts a node, gives it the lines, lets it export its records, and stops it. Returns the number of its
    records."""
    process = group.start(node)
    group.check_sum(node)
    for line, wanted in lines:
        answer, = process.ask([line])
        differ(answer != wanted, f"{node} wrote {answer} for {line[:60]!r} instead of {wanted}")
    nowhere, answer = process.ask([f"export {export / 'nowhere' / node}.db", f"export {export / node}.db"])
    differ(nowhere != "fault export", f"{node} wrote {nowhere} for an export into a missing folder")
    recorded = group.stop_all()[node]
    differ(answer != f"exported {recorded}", f"{node} wrote {answer} for an export of {recorded} records")
    shown = do("show", group.gathered.scheme, export, node).stdout
    differ(shown != do("show", group.gathered.scheme, group.stores[node], node).stdout, f"the export of {node} has other records")
    return recorded


def try_answers(room, given):
    """Tries each kind of line at a registry and at the log, each of which runs alone, and again after a second
    start."""
    recorded, count = {"AA": 0, LOG: 0}, 0
    with group_of(room, 2, 10, given.seed) as group:
        for number, lines in enumerate(STARTS):
            export = room / f"exports-{number}"
            export.mkdir()
            for node, of_node in lines.items():
                before, recorded[node] = recorded[node], check_answers(group, node, of_node, export)
                more = sum(answer.startswith("recorded ") for _, answer in of_node)
                differ(recorded[node] != before + more, f"{node} printed {recorded[node]} records instead of {before + more}")
                count += len(of_node)
    return f"{count} lines had the expected results"
