"""Makes transfers among processes that are killed: orders them, waits for their ends, and checks the stores."""

import collections
import contextlib
import json
import math
import shutil
import signal
import sqlite3
import time

import paths
from events import check_events
from folders import differ, do
from kills import is_completed, transactions
from night import wrong_table
from node_group import group_of, wait_for
from relay import same_text
from run import parties, script

# The most seconds after which some nodes are killed, soon after their orders or later, and after which they are started again.
LONGEST_WORK, LONGEST_DOWN = (0.4, 0.4, 0.02, 0.002), 0.2
# The number of times that the records of all nodes are exported while they work.
CUTS = 5
# The most questions that a node is asked at once.
MOST_ASKED = 100
# The refusals of an order that is given again, as its first result was not read: its units are gone, or reserved.
ORDERED_BEFORE = {"refused 105", "refused 106"}
UNDER_WAY = {"status none", "status Proposed", "status Checked", "status Accepted"}
# The arguments of a group for each way of the messages.
WAYS = {
    "plain": {"shared": True},
    "direct": {"shared": True},
    "lossy": {"mode": "lossy"},
    "hostile": {"mode": "hostile", "keyed": True},
}


class Orders:
    """The transfers of one registry, of one unit each, and the results of their orders."""

    def __init__(self, code, other):
        self.code, self.other = code, other
        self.pending, self.sent = collections.deque(), {}
        # The units of orders without a result, the places of the recorded ones, and the units of those with an expected refusal.
        self.unsure, self.recorded, self.known = set(), {}, set()

    def count(self):
        return len(self.recorded) + len(self.known)

    def give(self, process):
        """Gives the process all orders that wait."""
        while self.pending:
            unit = self.pending.popleft()
            self.sent[process.send(f"propose 1 {self.other} 1 {self.code}:1:{unit}-{unit}:AAU")] = unit

    def collect(self, process, ended=False):
        """Reads the results. If the process has ended, the orders without a result wait again."""
        for place, unit in list(self.sent.items()):
            if place < len(process.answers):
                self.take(unit, process.answers[place])
            elif ended:
                self.unsure.add(unit)
                self.pending.append(unit)
            else:
                continue
            del self.sent[place]

    def take(self, unit, answer):
        word, _, place = answer.partition(" ")
        if word == "recorded":
            self.recorded[unit] = int(place)
        else:
            differ(unit not in self.unsure or answer not in ORDERED_BEFORE, f"{self.code} wrote {answer} for the order of unit {unit}")
            self.known.add(unit)


class Trial:
    """A group of processes with transfers to make."""

    def __init__(self, group, transfers):
        self.group, self.transfers, self.chance = group, transfers, group.chance
        self.released = collections.deque(parties(len(group.codes), transfers))
        pairs = {first: other for first, other, _ in self.released}
        self.orders = {first: Orders(first, other) for first, other in pairs.items()}
        self.waiting = collections.defaultdict(list)
        for first, other, number in self.released:
            self.waiting[first].append(f"{first}{number}")
            self.waiting[other].append(f"{first}{number}")
        self.terminated = self.restarts = 0

    def release(self, count):
        """Orders up to `count` further transfers, at the registries that run."""
        for _ in range(min(count, len(self.released))):
            first, _, number = self.released.popleft()
            self.orders[first].pending.append(number)
        for code, orders in self.orders.items():
            process = self.group.running.get(code)
            if process:
                orders.give(process)
                orders.collect(process)

    def is_ordered(self):
        """Orders all transfers that wait. Returns whether each transfer is recorded at its registry."""
        self.release(len(self.released))
        self.group.check()
        return sum(it.count() for it in self.orders.values()) == self.transfers

    def end_some(self, most):
        """Kills some nodes, one in most cases, and starts them again after a while. Returns the number of those killed
        by SIGKILL."""
        count = min(most, self.chance.choice((1, 1, 1, 1, 2, 3)), len(self.group.nodes))
        by = signal.SIGTERM if self.chance.random() < 0.1 else signal.SIGKILL
        chosen = self.chance.sample(self.group.nodes, count)
        for node in chosen:
            process = self.group.kill(node, by)
            if node in self.orders:
                self.orders[node].collect(process, ended=True)
        time.sleep(self.chance.uniform(0, LONGEST_DOWN))
        for node in chosen:
            self.group.start(node)
            if self.chance.random() < 0.5:
                self.group.check_sum(node)
        self.terminated += count if by == signal.SIGTERM else 0
        return count if by == signal.SIGKILL else 0

    def kill_often(self, kills):
        """Orders transfers bit by bit, and meanwhile kills nodes at random moments, `kills` times in all."""
        killed, cuts, step = 0, 0, math.ceil(self.transfers / max(1, kills))
        while killed < kills:
            more = self.end_some(kills - killed)
            killed += more
            self.release(step * more)
            self.group.check()
            time.sleep(self.chance.uniform(0, self.chance.choice(LONGEST_WORK)))
            if killed * CUTS >= kills * (cuts + 1):
                cuts += 1
                self.check_cut()

    def is_at_rest(self):
        """Returns whether each transfer is Completed according to its initiator and its acquirer."""
        self.group.check()
        for node, names in self.waiting.items():
            some, process = names[:MOST_ASKED], self.group.running[node]
            answers = dict(zip(some, process.ask([f"status {it}" for it in some])))
            odd = {it for it in answers.values() if it not in UNDER_WAY and it != "status Completed"}
            differ(odd, f"{node} wrote {sorted(odd)[:1]} for a transfer that no node rejected")
            self.waiting[node] = [it for it in names if answers.get(it) != "status Completed"]
        return not any(self.waiting.values())

    def come_to_rest(self, seconds):
        """Waits until each transfer is Completed. After half of the time the nodes are stopped and started once, since
        senders may pause for a minute."""
        end = time.monotonic() + seconds / 2
        while not self.is_at_rest():
            if time.monotonic() > end:
                self.restarts += 1
                self.group.restart_all()
                wait_for(self.is_at_rest, seconds / 2, f"{sum(map(len, self.waiting.values()))} transfers weren't Completed")
                return
            time.sleep(0.2)

    def export(self):
        """Exports the records of each node, and returns the folder and the number of records of each export."""
        folder, counts = self.group.room / "exports", {}
        shutil.rmtree(folder, ignore_errors=True)
        folder.mkdir()
        for node, process in self.group.running.items():
            answer, = process.ask([f"export {folder / node}.db"])
            differ(not answer.startswith("exported "), f"{node} wrote {answer} for export")
            counts[node] = int(answer.split(" ")[1])
        return folder, counts

    def check_cut(self):
        """Checks that exports of different moments have a table with each tonne once, as far as one run leads to their
        records."""
        folder, _ = self.export()
        table = do("audit", "--cut", self.group.gathered.scheme, folder, wanted=(0, 1)).stdout
        differ(wrong := wrong_table(self.group.text, table.splitlines()), f"audit --cut of exports writes a table that has {wrong}")


def rows_of(stores):
    """Returns the texts of the records of each node's store by their places."""
    found = {}
    for node, folder in stores.items():
        path = folder / f"{node}.db"
        with contextlib.closing(sqlite3.connect(f"{path.absolute().as_uri()}?mode=ro", uri=True)) as store:
            found[node] = dict(store.execute("SELECT place, body FROM entries ORDER BY place"))
    return found


def received(rows):
    """Returns the messages that the nodes recorded, each as a text that is the same for equal messages."""
    inputs = (json.loads(body) for places in rows.values() for body in places.values())
    return [same_text(json.dumps(it["message"])) for it in inputs if it["input"] == "received"]


def check_orders(trial, rows):
    """Checks that each recorded order is in the journal at the place of its result."""
    for code, orders in trial.orders.items():
        for unit, place in orders.recorded.items():
            body = json.loads(rows[code].get(place, "{}"))
            same = body.get("input") == "propose" and body["units"] == [f"{code}:1:{unit}-{unit}:AAU"]
            differ(not same, f"the order of unit {unit} of {code} isn't at place {place}")


def check_messages(relay, rows):
    """Checks that each recorded message was sent by a node, and none was made by the relay. Returns the number of
    messages that the relay made."""
    texts, made = received(rows), relay.forged - relay.genuine
    differ(found := [it for it in texts if it in made], f"a node recorded a message that the relay made: {found[:1]}")
    differ(found := [it for it in texts if it not in relay.genuine], f"a node recorded a message that no node sent: {found[:1]}")
    for what in ("forged_received", "altered_received"):
        differ(relay.counts[what], f"a node replied that it received a message that no node wrote: {what} {relay.counts[what]}")
    return len(made)


def check_table(trial, table):
    """Checks that nothing is owed, each tonne is there once, and each transfer is Completed at its three nodes."""
    lines = table.splitlines()
    differ(wrong := wrong_table(trial.group.text, lines), f"the table has {wrong}")
    differ("owed 0" not in lines, "units are owed at rest")
    found = transactions(table)
    differ(len(found) != trial.transfers, f"the table has {len(found)} transactions instead of {trial.transfers}")
    differ(odd := [it for it in found if not is_completed(it)], f"a transfer isn't Completed: {odd[:1]}")


def check_stores(trial, recorded, exports, exported):
    """Checks the stores after the end of all nodes. Returns the number of events of the run that leads to them, and the
    number of messages that the relay made."""
    group, rows = trial.group, rows_of(trial.group.stores)
    for node, places in rows.items():
        differ(recorded[node] != len(places), f"{node} printed {recorded[node]} records, and its store has {len(places)}")
    check_orders(trial, rows)
    made = check_messages(group.relay, rows) if group.relay else 0
    folder = group.gather()
    events, table = check_events(folder)
    check_table(trial, table)
    differ(do("audit", folder.scheme, exports).stdout != table, "audit of the exports writes another table")
    for node, places in rows_of(dict.fromkeys(group.nodes, exports)).items():
        differ(len(places) != exported[node], f"{node} printed {exported[node]} exported records, and there are {len(places)}")
        differ(not places.items() <= rows[node].items(), f"{node} exported other records than its store has")
    return events, made


def try_transfers(way, registries, room, given):
    """Tries transfers by that way with kills, and returns the result as a text."""
    units = math.ceil(given.transfers / registries)
    with group_of(room, registries, units, given.seed, **WAYS[way]) as group:
        trial, begin = Trial(group, given.transfers), time.monotonic()
        group.start_all()
        trial.kill_often(given.kills)
        wait_for(trial.is_ordered, given.patience, "not all orders were recorded")
        ordered = time.monotonic() - begin
        trial.come_to_rest(given.patience)
        rest = time.monotonic() - begin
        exports, exported = trial.export()
        recorded = group.stop_all()
        counts = group.relay.stop() if group.relay else {}
        group.check()
        events, made = check_stores(trial, recorded, exports, exported)
        unsure = sum(len(it.unsure) for it in trial.orders.values())
        text = f"all orders after {ordered:.1f} s, at rest after {rest:.1f} s, {given.kills} kills and {trial.terminated} by SIGTERM, "
        text += f"{unsure} orders given again, {trial.restarts} restarts of all, {sum(recorded.values())} records, {events} events"
        if made:
            text += f", {made} messages made by the relay, none of them recorded"
        return f"{text}; the relay: {json.dumps(counts)}" if counts else text


def try_plain(registries, room, given):
    """Tries the same transfers without a kill, by processes and by one `run`, and returns their times as a text."""
    units = math.ceil(given.transfers / registries)
    with group_of(room, registries, units, given.seed, **WAYS["plain"]) as group:
        trial, begin = Trial(group, given.transfers), time.monotonic()
        group.start_all()
        wait_for(trial.is_ordered, given.patience, "not all orders were recorded", 0.005)
        wait_for(trial.is_at_rest, given.patience, "not all transfers were Completed", 0.02)
        group.stop_all()
        spent = time.monotonic() - begin
        check_table(trial, do("audit", group.gather().scheme, group.gathered.stores).stdout)
        beside = room / "run"
        beside.mkdir()
        group.gathered.script.write_text(script(registries, given.transfers, "together"))
        begin = time.monotonic()
        ended = do("run", group.gathered.scheme, beside, group.gathered.script)
        of_one = time.monotonic() - begin
        differ(sum(map(is_completed, transactions(ended.stdout))) != given.transfers, "run didn't complete all transfers")
        return f"{spent:.2f} s from the first start to the last end, run of one process {of_one:.2f} s, ratio {spent / of_one:.2f}"
