"""Our end of the link to a node: connections over TCP, frames in pieces, and what went over each."""

import contextlib
import select
import socket
import time
from random import Random

from . import frames
from .frames import Frame, LinkFault
from .program import PATIENCE, Difference, free_port

LINK_HOST = "127.0.0.1"
ROLE_CODES = {"A": 1, "B": 2}
OTHER = {"A": "B", "B": "A"}


class Connection:
    """One connection's record: what both ends told at its start, and all frames after that."""

    def __init__(self, told_by_node, told_by_us):
        self.told_by_node = told_by_node
        self.told_by_us = told_by_us
        self.sent = []
        self.received = []
        self.reached = 0


def listener_at(address):
    """A listener at a port that was free: a child of another thread's may have that still, until it is a program."""
    for _ in range(PATIENCE * 50):
        with contextlib.suppress(OSError):
            return socket.create_server(address)
        time.sleep(0.02)
    raise Difference(f"nobody can listen at {address}")


class LinkEnd:
    """The partner of a node of the role: it waits for the primary, and connects to the secondary. It has no key, and
    speaks no notices."""

    key = None

    def __init__(self, role, address, random):
        self.role = role
        self.address = address
        self.random = random
        self.socket = None
        self.feed = None
        self.waiting = []
        self.connections = []
        self.listener = None
        if role == "A":
            self.listener = listener_at(address)
            self.listener.settimeout(PATIENCE)

    def close(self):
        if self.socket is not None:
            self.socket.close()
            self.socket = None

    def leave(self):
        """Closes the connection, and those that came meanwhile."""
        self.close()
        while self.listener is not None and select.select([self.listener], [], [], 0)[0]:
            self.listener.accept()[0].close()

    def end(self):
        self.close()
        if self.listener is not None:
            self.listener.close()
            self.listener = None

    @property
    def connection(self):
        return self.connections[-1]

    def joined(self):
        """A connection of TCP: the primary's that comes, or ours to the secondary as soon as it listens."""
        if self.listener is not None:
            return self.listener.accept()[0]
        for _ in range(PATIENCE * 50):
            try:
                return socket.create_connection(self.address, PATIENCE)
            except ConnectionRefusedError:
                time.sleep(0.02)
        raise Difference("the secondary doesn't listen")

    def meet(self):
        """A connection over which frames may go; whether there is one."""
        self.close()
        self.socket = self.joined()
        self.socket.setsockopt(socket.IPPROTO_TCP, socket.TCP_NODELAY, 1)
        self.feed = frames.Feed()
        self.waiting = []
        return True

    def vouch(self, daemon):
        """Says our clock to a daemon that asks before it begins: without a key none does."""

    def open(self, last, role=None):
        """Begins a connection, telling the node our role and the last serial that we took; whether it is joined."""
        if not self.meet():
            self.close()
            return False
        mine = ROLE_CODES[role or OTHER[self.role]]
        if self.role == "B":
            self.write(frames.encode(Frame(frames.CONNECT, 0, 0, (mine, last))))
        kind = frames.CONNECT if self.role == "A" else frames.CONNECT_REPLY
        first = self.next_frame()
        if first is None and self.role == "B":
            self.close()
            return False
        if first is None or first.kind != kind or first.body[0] != ROLE_CODES[self.role] or first.term != 0:
            raise Difference(f"the node begins the link by {first}")
        if self.role == "A":
            self.write(frames.encode(Frame(frames.CONNECT_REPLY, 0, 0, (mine, last))))
        self.connections.append(Connection(first.body[1], last))
        return True

    def write(self, octets):
        """Writes the octets, at times in pieces; whether the connection took them."""
        try:
            while octets:
                length = len(octets)
                if self.random.random() < 0.2:
                    length = self.random.randrange(1, len(octets) + 1)
                self.socket.sendall(octets[:length])
                octets = octets[length:]
                if octets and self.random.random() < 0.2:
                    time.sleep(0.001)
            return True
        except OSError:
            return False

    def send(self, *sent):
        """Sends frames one after another."""
        self.connection.sent += sent
        return self.write(b"".join(frames.encode(frame) for frame in sent))

    def read(self, patience):
        """Puts the frames that come within that time in the queue; False at the connection's end."""
        ready, _, _ = select.select([self.socket], [], [], patience)
        if not ready:
            return True
        try:
            piece = self.socket.recv(1 << 16)
        except ConnectionError:
            return False
        try:
            self.waiting += self.feed.feed(piece)
        except LinkFault as fault:
            raise Difference(f"the node sends {piece.hex()} after {self.feed.rest.hex()}: {fault}") from fault
        return piece != b""

    def next_frame(self, patience=PATIENCE):
        """The node's next frame; None where the connection has ended or the time is over."""
        until = time.monotonic() + patience
        while not self.waiting:
            left = until - time.monotonic()
            if left < 0 or not self.read(left):
                break
        return self.waiting.pop(0) if self.waiting else None

    def answer_and_leave(self, book):
        """Joins a node that waits, which has taken nothing of ours and has nothing due, answers it, and leaves for
        good; the events that this leaves."""
        term = book.term
        self.open(book.serial)
        told = ("contact", 0, 0)
        self.send(frames.message_frame(term, 1, told))
        asking = self.next_frame()
        while asking is not None and asking.kind != frames.CONTACT:
            asking = self.next_frame()
        wanted = frames.message_frame(term, book.serial + 1, book.contact())
        if asking != wanted:
            raise Difference(f"a node that waits says {asking}, awaited {wanted}")
        answer = ("contact", 0, book.restart)
        self.send(frames.message_frame(term, 2, answer), Frame(frames.DISCONNECT))
        if not self.ended():
            raise Difference("DISCONNECT doesn't end the connection")
        self.end()
        return [("take", term, 1, told), ("send", term, wanted.serial, wanted.body),
                ("take", term, 2, answer)]

    def second(self):
        """Whether the node closes a second connection while one stands."""
        with socket.create_connection(self.address, PATIENCE) as other:
            try:
                other.sendall(frames.encode(Frame(frames.CONNECT, 0, 0, (1, 0))))
                return other.recv(100) == b""
            except ConnectionError:
                return True

    def comes_again(self):
        """Whether a primary connects in the next seconds."""
        ready, _, _ = select.select([self.listener], [], [], 3)
        return bool(ready)

    def ended(self, patience=PATIENCE):
        """Whether the node ends the connection within that time; frames until then are kept."""
        until = time.monotonic() + patience
        while time.monotonic() < until:
            if not self.read(until - time.monotonic()):
                return True
        return False


@contextlib.contextmanager
def partner_of(settings):
    """The partner's end of a link, for as long as a daemon lives."""
    link = LinkEnd(settings.role, (LINK_HOST, free_port(LINK_HOST, socket.SOCK_STREAM)), Random(1))
    try:
        yield link
    finally:
        link.end()
