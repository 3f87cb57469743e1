"""A peer that trickles: it replies to each message a byte at a time, and never ends the reply."""

import contextlib
import selectors
import socket
import threading
import time

HOST = "127.0.0.1"
# The bytes of a reply without its newline, with spaces that JSON allows.
REPLY = b'{"code":0,' + b" " * 8_000


class SlowPeer:
    """Listens at the port of a node that is down, and replies in its place: over each connection a byte each `pause`
    seconds, until the other end has closed the connection."""

    def __init__(self, port, pause):
        self.pause, self.sent, self.over = pause, {}, threading.Event()
        self.listener = socket.create_server((HOST, port))
        self.waits = selectors.DefaultSelector()
        self.waits.register(self.listener, selectors.EVENT_READ)
        self.thread = threading.Thread(target=self.work, daemon=True)
        self.thread.start()

    def accept(self):
        it, _ = self.listener.accept()
        it.setsockopt(socket.IPPROTO_TCP, socket.TCP_NODELAY, 1)
        it.setblocking(False)
        self.waits.register(it, selectors.EVENT_READ)
        self.sent[it] = 0

    def leave(self, it):
        self.waits.unregister(it)
        self.sent.pop(it)
        it.close()

    def read(self, it):
        """Reads what the other end sent, and closes the connection if that end has."""
        try:
            if it.recv(65_536):
                return
        except OSError:
            pass
        self.leave(it)

    def reply(self):
        """Sends the next byte over each connection."""
        for it, count in list(self.sent.items()):
            try:
                it.send(REPLY[count % len(REPLY):][:1])
                self.sent[it] = count + 1
            except OSError:
                self.leave(it)

    def work(self):
        then = time.monotonic()
        while not self.over.is_set():
            for key, _ in self.waits.select(max(0, then - time.monotonic())):
                self.accept() if key.fileobj is self.listener else self.read(key.fileobj)
            if time.monotonic() >= then:
                self.reply()
                then = time.monotonic() + self.pause

    def replies(self):
        """Returns whether a reply is under way, which has just begun."""
        return any(0 < count <= 2 for count in list(self.sent.values()))

    def stop(self):
        self.over.set()
        self.thread.join(60)
        for it in [*self.sent, self.listener]:
            with contextlib.suppress(OSError):
                it.close()
