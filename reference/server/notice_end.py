"""Our end of a link with a key: an older partner, which speaks no notices, or one that does."""

import contextlib
import secrets
import select
import socket
import time
from random import Random

from . import notices
from .frames import Feed, LinkFault
from .keyed import NONCE, PROOF, Channel, Records, nonce
from .linkend import LINK_HOST, OTHER, LinkEnd
from .notices import NONCE_END, Clock, ClockReply, Misspelled, Program, Splitter, Terms, octets_of, terms_of, text_of
from .program import PATIENCE, Difference, free_port, now

PROGRAM = Program("second", "0.0.1")
# What `status` begins with while a server asks its partner's clock, before it writes any line.
ASKS = ("serving: no, asks its partner's clock", "serving: no, its partner's clock differs")
# How long a piece of the stream may be that goes in one record, mostly.
PIECE = 512


class KeyedEnd(LinkEnd):
    """One that has the key, and whose nonce ends so: an older partner's end is drawn."""

    def __init__(self, role, address, random, end=b""):
        super().__init__(role, address, random)
        self.key = secrets.token_bytes(32)
        self.end_of_nonce = end
        self.mine = self.others = None
        self.met = 0.0

    def exactly(self, count):
        """So many octets; None where the connection ends before."""
        octets = b""
        try:
            while len(octets) < count:
                piece = self.socket.recv(count - len(octets))
                if not piece:
                    return None
                octets += piece
        except OSError:
            return None
        return octets

    def meet(self):
        """A connection over which each has shown the other that it has the key. What waited for us too long is over."""
        until = time.monotonic() + PATIENCE
        while time.monotonic() < until:
            super().meet()
            self.socket.settimeout(PATIENCE)
            self.met = time.monotonic()
            if self.is_proved():
                self.feed = self.new_feed()
                return True
            if self.role == "B":
                return False
        return False

    def is_proved(self):
        """Who calls says its nonce first; who was called adds its proof to its own."""
        own, side = nonce(self.end_of_nonce), OTHER[self.role]
        if self.role == "B":
            self.socket.sendall(own)
        other = self.exactly(NONCE)
        if other is None:
            return False
        channel, theirs = Channel(self.key, side, own, other), Channel(self.key, self.role, other, own)
        if self.role == "A":
            self.socket.sendall(own + channel.proof)
        found = self.exactly(PROOF)
        if found is None:
            return False
        if found != theirs.proof:
            raise Difference(f"the node proves itself by {found.hex()}, awaited {theirs.proof.hex()}")
        if self.role == "B":
            self.socket.sendall(channel.proof)
        if not other.endswith(NONCE_END):
            raise Difference(f"the node's nonce is {other.hex()}")
        self.mine, self.others = channel, Records(theirs)
        return True

    def new_feed(self):
        return Feed()

    def write(self, octets):
        """Writes the octets in records of drawn sizes; whether the connection took them."""
        pieces = []
        while octets:
            length = min(len(octets), self.random.randrange(1, PIECE) if self.random.random() < 0.2 else PIECE)
            pieces.append(octets[:length])
            octets = octets[length:]
        return self.put(*pieces)

    def put(self, *pieces):
        """Writes each piece in a record of its own."""
        return super().write(b"".join(map(self.mine.record, pieces)))

    def read(self, patience):
        """Puts what comes within that time in the queue; False at the connection's end."""
        ready, _, _ = select.select([self.socket], [], [], max(0, patience))
        if not ready:
            return True
        try:
            piece = self.socket.recv(1 << 16)
        except ConnectionError:
            return False
        octets = b""
        try:
            octets = self.others.feed(piece)
            self.waiting += self.feed.feed(octets)
        except (LinkFault, Misspelled, ValueError) as fault:
            raise Difference(f"the node sends {octets.hex()} after {self.feed.rest.hex()}: {fault!r}") from fault
        return piece != b""

    def vouch(self, daemon):
        """Meets a daemon that asks until it knows that we are of an older version."""
        self.begins(daemon, self.meet)
        self.leave()

    def begins(self, daemon, talk):
        """Talks with a daemon until it has begun."""
        until = time.monotonic() + PATIENCE
        while not has_begun(daemon):
            if time.monotonic() > until:
                raise Difference(f"the node doesn't begin: {daemon.said()!r}")
            if self.role == "B" or select.select([self.listener], [], [], 0.2)[0]:
                talk()
            time.sleep(0.02)


class NoticeEnd(KeyedEnd):
    """One that speaks notices: what it says of itself, and by how much its clock is ahead, in milliseconds."""

    def __init__(self, role, address, random, settings):
        super().__init__(role, address, random, NONCE_END)
        self.terms, self.ahead = terms_of(settings), 0
        # By how much what we answer is ahead of what was asked, if that is to be exact.
        self.exactly_ahead = None
        self.heard, self.replies, self.late = [], [], []

    def new_feed(self):
        # What was said over this connection: notices, answers and when they came, frames that came at its end.
        self.heard, self.replies, self.late = [], [], []
        return Splitter()

    def clock(self):
        return now() + self.ahead

    def say(self, *said):
        """Says notices, or texts that may be none."""
        texts = (each if isinstance(each, (str, bytes)) else text_of(each) for each in said)
        return self.write(b"".join(map(octets_of, texts)))

    def next_item(self, patience=PATIENCE):
        """The node's next frame or notice; None where the connection has ended or the time is over."""
        return super().next_frame(patience)

    def note(self, notice):
        """Keeps what a notice says."""
        self.heard.append(notice)
        if isinstance(notice, ClockReply):
            self.replies.append((notice, now()))

    def answer(self, notice):
        """Answers who asks our clock."""
        self.note(notice)
        if isinstance(notice, Clock):
            self.say(self.reply(notice))

    def reply(self, clock):
        reading = self.clock() if self.exactly_ahead is None else clock.reading + self.exactly_ahead
        return ClockReply(clock.number, clock.reading, reading)

    def next_frame(self, patience=PATIENCE):
        """The node's next frame; notices in front of it are heard, and answered."""
        until = time.monotonic() + patience
        while True:
            item = self.next_item(until - time.monotonic())
            if not isinstance(item, notices.SPOKEN):
                return item
            self.answer(item)

    def ended(self, patience=PATIENCE, is_mute=False):
        """Whether the node ends the connection within that time; its clocks are answered, and frames are kept."""
        until = time.monotonic() + patience
        while time.monotonic() < until:
            stands = self.read(until - time.monotonic())
            self.hear_all(is_mute)
            if not stands:
                return True
        return False

    def hear_all(self, is_mute=False):
        """Hears the notices that have come, and answers them unless it is mute; frames are kept apart."""
        for item in self.waiting:
            if isinstance(item, notices.SPOKEN):
                (self.note if is_mute else self.answer)(item)
            else:
                self.late.append(item)
        self.waiting = []

    def first(self):
        """What the node says first, at once and in this order: its program, its settings, and a question for our
        clock. None where it ends the connection before."""
        found = [self.next_item() for _ in range(3)]
        if None in found:
            return None
        kinds = [type(item) for item in found]
        if kinds != [Program, Terms, Clock] or found[2].number != 1:
            raise Difference(f"the node says first {found}")
        for item in found:
            self.note(item)
        return found

    def bare(self):
        """A connection over which the node has said what it says first, and we nothing: that, or None."""
        return self.first() if super().meet() else None

    def meet(self):
        """A connection over which both said what they have to say before frames may go."""
        found = self.bare()
        if found is None:
            return False
        self.say(PROGRAM, self.terms, Clock(1, self.clock()), self.reply(found[2]))
        return self.hears_reply()

    def hears_reply(self):
        """Waits for the answer to our clock; whether it comes."""
        until = time.monotonic() + PATIENCE
        while not self.replies:
            item = self.next_item(until - time.monotonic())
            if item is None:
                return False
            if not isinstance(item, notices.SPOKEN):
                self.waiting.insert(0, item)
                raise Difference(f"the node says {item} before it answers our clock")
            self.answer(item)
        return True

    def vouch(self, daemon):
        """Says our clock to a daemon that asks, until it has begun."""
        def talk():
            if self.meet():
                until = time.monotonic() + 2
                while not has_begun(daemon) and time.monotonic() < until and self.read(0.05):
                    self.hear_all()
        self.begins(daemon, talk)
        self.leave()


def has_begun(daemon):
    """Whether a daemon has begun to write, and doesn't ask any more."""
    if daemon.process.poll() is not None:
        raise Difference(f"the node has ended: {daemon.said()!r}")
    said = daemon.control("status")
    return said.returncode == 0 and not said.stdout.startswith(ASKS)


@contextlib.contextmanager
def end_of(settings, kind, *words):
    """Our end of a link with a key, for as long as a daemon lives."""
    address = LINK_HOST, free_port(LINK_HOST, socket.SOCK_STREAM)
    link = kind(settings.role, address, Random(1), *words)
    try:
        yield link
    finally:
        link.end()
