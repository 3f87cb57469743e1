"""Runs the processes of all nodes of a scheme, with their addresses, keys and folders, and the relay between them."""

import contextlib
import pathlib
import random
import resource
import shutil
import signal
import socket
import time

import paths
from folders import Difference, Folder, differ
from node_process import NodeProcess
from rehearse import codes_of, program, scheme
from relay import Link, Relay

HOST = "127.0.0.1"
LOG = "ITL"
# The number of file handles that the bench asks for: each process takes three of them, and each idle connection one.
HANDLES = 8_192
RANGE = pathlib.Path("/proc/sys/net/ipv4/ip_local_port_range")


def raise_handles():
    """Raises the limit of file handles to that number, or to the most that the system allows."""
    _, most = resource.getrlimit(resource.RLIMIT_NOFILE)
    wanted = HANDLES if most == resource.RLIM_INFINITY else min(HANDLES, most)
    if resource.getrlimit(resource.RLIMIT_NOFILE)[0] < wanted:
        resource.setrlimit(resource.RLIMIT_NOFILE, (wanted, most))


def is_free(port):
    with contextlib.closing(socket.socket()) as it:
        it.setsockopt(socket.SOL_SOCKET, socket.SO_REUSEADDR, 1)
        with contextlib.suppress(OSError):
            it.bind((HOST, port))
            return True
    return False


def free_ports(count, chance):
    """Returns free ports that the system gives to no connection, so that a node finds its own free after a restart."""
    first, last = map(int, RANGE.read_text().split())
    ports = [*range(2_000, first), *range(last + 1, 65_536)]
    found = []
    for port in chance.sample(ports, len(ports)):
        if len(found) == count:
            return found
        if is_free(port):
            found.append(port)
    raise Difference(f"there are no {count} free ports")


class Group:
    """The nodes of a scheme with a process each. They have a folder each, or all share one. The links have keys or
    none, and a relay of that mode or none."""

    def __init__(self, room, registries, units, seed, shared=False, keyed=False, mode=None):
        self.room, self.chance = pathlib.Path(room), random.Random(seed)
        self.codes = codes_of(registries)
        self.nodes = [LOG, *self.codes]
        self.units, self.text = units, scheme(self.codes, units)
        (self.room / "gathered").mkdir()
        self.gathered = Folder(self.room / "gathered", self.text)
        self.stores = {node: self.room / ("stores" if shared else f"stores-{node}") for node in self.nodes}
        for folder in self.stores.values():
            folder.mkdir(exist_ok=True)
        self.ports = dict(zip(self.nodes, free_ports(len(self.nodes), self.chance)))
        self.keyed, self.sums, self.running = keyed, {}, {}
        self.relay = self.make_relay(mode, seed) if mode else None
        self.write_keys()

    def peers(self, node):
        return self.codes if node == LOG else [LOG]

    def make_relay(self, mode, seed):
        """Starts and returns a relay on both directions of each link."""
        ends = [(node, peer) for node in self.nodes for peer in self.peers(node)]
        ports = free_ports(len(ends) + len(self.nodes), self.chance)
        ports = [it for it in ports if it not in self.ports.values()]
        links = [Link(*pair, (HOST, port), (HOST, self.ports[pair[1]])) for pair, port in zip(ends, ports)]
        relay = Relay(links, mode, seed)
        relay.start()
        return relay

    def write_keys(self):
        """Writes the nodes' files of keys, with one key for each link."""
        if not self.keyed:
            return
        keys = {code: self.chance.randbytes(32).hex() for code in self.codes}
        for node in self.nodes:
            path = self.room / f"{node}.keys"
            path.touch(mode=0o600)
            path.write_text("".join(f"{peer} {keys[peer if node == LOG else node]}\n" for peer in self.peers(node)))

    def address(self, node, peer):
        """Returns the address to which the node sends its messages for that peer."""
        links = self.relay.links if self.relay else []
        host, port = next((it.listen for it in links if it.ends == (node, peer)), (HOST, self.ports[peer]))
        return f"{host}:{port}"

    def words(self, node):
        words = [program(), "node", self.gathered.scheme, self.stores[node], node, "--listen", f"{HOST}:{self.ports[node]}"]
        for peer in self.peers(node):
            words += ["--peer", f"{peer}={self.address(node, peer)}"]
        return [*words, "--keys", self.room / f"{node}.keys"] if self.keyed else words

    def start(self, node, before=()):
        """Starts the node, with the words in `before` ahead of its command."""
        self.running[node] = NodeProcess(node, [*before, *self.words(node)], self.room / f"{node}.said")
        return self.running[node]

    def start_all(self):
        for node in self.nodes:
            self.start(node)
        for node in self.nodes:
            self.check_sum(node)

    def check_sum(self, node):
        """Checks that the node prints the same sum of the scheme as the others, and has it in the file beside its
        store."""
        found = self.running[node].wait_ready()
        self.sums[node] = found
        differ(len(set(self.sums.values())) > 1, f"{node} prints another sum of the scheme than a node before it")
        kept = self.stores[node] / f"{node}.scheme"
        differ(not kept.exists() or found not in kept.read_text(), f"{kept.name} doesn't have the scheme's sum")

    def kill(self, node, by=signal.SIGKILL):
        """Kills the node, and returns its process."""
        process = self.running.pop(node)
        process.kill(by)
        return process

    def check(self):
        """Raises `Difference` if a node ended, or if the relay had a fault of its own."""
        for process in self.running.values():
            process.check()
        faults = self.relay.faults if self.relay else []
        differ(faults, f"the relay had a fault: {faults[:1]}")

    def stop_all(self):
        """Stops all nodes, each by `stop` or by the end of its lines. Returns the number of records that each
        prints."""
        for process in self.running.values():
            process.begin_stop(self.chance.choice(("stop", "")))
        counts = {node: process.end_stop() for node, process in self.running.items()}
        self.running.clear()
        return counts

    def restart_all(self):
        self.stop_all()
        self.start_all()

    def gather(self):
        """Copies all stores and their logs into one folder, and returns it."""
        for node, folder in self.stores.items():
            for name in (f"{node}.db", f"{node}.db-wal"):
                if (folder / name).exists():
                    shutil.copyfile(folder / name, self.gathered.stores / name)
        return self.gathered

    def close(self):
        """Ends all processes and the relay at once."""
        for process in self.running.values():
            process.end_at_once()
        if self.relay and self.relay.thread.is_alive():
            self.relay.stop()


@contextlib.contextmanager
def group_of(*given, **named):
    """Yields a group, and ends all its processes afterwards."""
    group = Group(*given, **named)
    try:
        yield group
    finally:
        group.close()


def wait_for(done, seconds, what, pause=0.2):
    """Waits until `done` returns true. After `seconds` it raises `Difference` with the text `what`."""
    end = time.monotonic() + seconds
    while not done():
        differ(time.monotonic() > end, f"{what} after {seconds:.0f} seconds")
        time.sleep(pause)
