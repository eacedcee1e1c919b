"""A daemon that is told what to do step by step: its lines, its answers to clients, and its partner, which is ours."""

import contextlib
import time
from dataclasses import replace

from . import answers, frames, journal, messages, stories
from .beginning import WHOLE, first_events
from .book import Book, BookRefusal
from .frames import Frame
from .full import message
from .linkend import partner_of
from .lives import Tail
from .matching import opened
from .program import NO_HEARTBEAT, PATIENCE, Daemon, Difference, now
from .serving import plain_settings
from .values import NOBODY

# How long nothing has to come where nothing may.
QUIET = 0.3
# Seconds of a heartbeat, where one is asked for: so many that nothing else takes as long.
HEARTBEAT = 2
# A line that a quiet server writes may show so many milliseconds less than its heartbeat.
SLACK = 100
STOPPED = ("partner-down", "the partner is stopped")
A_MOMENT = 0.02
SAID = "<3>node: serves nobody: its journal lacks messages that its partner took"
SHORT = "no, journal older than what its partner took"


class Scene:
    """One daemon, with the book that its lines lead to, and the last serial of ours that it took."""

    def __init__(self, daemon, link=None):
        self.daemon = daemon
        self.link = link
        self.own = daemon.settings.own
        self.transactions = 0
        self.others = []
        self.tail = Tail(daemon.volume)
        self.waiting_lines = []
        self.book = Book.open(0, daemon.settings)
        if daemon.goes_on:
            self.book = Book.replay(daemon.settings.role, daemon.past)
        count = len(self.book.lines)
        lines = [self.next_line() for _ in range(count)]
        if None in lines:
            self.fault("the volume has fewer lines than it begins with")
        if not daemon.goes_on:
            self.book = opened(daemon.settings, lines)
        self.serial = stories.last_taken(self.book)
        if lines != self.book.lines:
            self.fault("the volume doesn't begin as awaited")
        self.expect(*first_events(self.book, daemon.has_link))

    def fault(self, words):
        rows = [journal.line_text(line) for line in self.book.lines[-20:]]
        raise Difference("\n".join((*rows, words, self.daemon.said())))

    def new_lines(self):
        rows = self.tail.rows()
        return [journal.spelled_line_of(row) for row in rows if not row.startswith("pd-journal ")]

    def look(self):
        self.waiting_lines += self.new_lines()
        return self.waiting_lines

    def next_line(self):
        """The next line that the daemon writes."""
        until = time.monotonic() + PATIENCE
        while not self.look():
            if time.monotonic() > until:
                return None
            time.sleep(A_MOMENT)
        return self.waiting_lines.pop(0)

    def expect(self, *events):
        """The next lines are these, and no other stands behind them; what is sent comes over the link too."""
        for event in events:
            self.follow(event)
            if event[0] == "send" and event[3][0] == "contact":
                self.may_say(event[3])
        self.still(0)

    def follow(self, event):
        """The next line is this one."""
        line = self.next_line()
        if line is None or line.event != event:
            self.fault(f"awaited {event}, found {line}")
        try:
            self.book.append(line)
        except BookRefusal as refusal:
            self.fault(f"{journal.line_text(line)}: {refusal}")
        if event[0] == "send":
            self.hears(frames.message_frame(*event[1:]))

    def may_say(self, body, seconds=A_MOMENT):
        """Nothing says how often a contact is sent that several things asked for, or whether who joins tells what is
        due before it is asked: that may be, as often as it likes."""
        time.sleep(seconds)
        while self.look() and self.waiting_lines[0].event == self.sent(body):
            self.follow(self.sent(body))

    def beat(self):
        """The reading behind which a heartbeat is counted: a contact that is taken is no sign of life."""
        return next(line.reading for line in reversed(self.book.lines)
                    if line.event[0] != "take" or line.event[3][0] != "contact")

    def follow_behind(self, body, event):
        """The next line is this one, but for what may be said at any time."""
        until = time.monotonic() + PATIENCE
        while not self.look() and time.monotonic() < until:
            time.sleep(A_MOMENT)
        while self.look() and self.waiting_lines[0].event == self.sent(body) != event:
            self.follow(self.sent(body))
        self.follow(event)

    def still(self, seconds=QUIET):
        """No line is written meanwhile."""
        time.sleep(seconds)
        if self.look():
            self.fault(f"lines that aren't awaited: {self.waiting_lines}")

    def hears(self, wanted):
        """Our end's next frame is this one; in front of one that the journal knows others may come."""
        frame = self.link.next_frame()
        while frame is not None and frame != wanted and frame.kind not in frames.NUMBERED:
            self.others.append(frame)
            frame = self.link.next_frame()
        if frame != wanted:
            self.fault(f"awaited {wanted}, our end hears {frame}")

    def hears_none(self, frame, seconds=QUIET):
        """Our end hears none of these frames, which the journal doesn't know, over this connection or meanwhile."""
        until = time.monotonic() + seconds
        while (left := until - time.monotonic()) > 0 and self.link.read(left):
            pass
        if frame in [*self.others, *self.link.waiting]:
            self.fault(f"our end hears {frame}")

    def greets(self, told):
        """Our end joins, and says that it took messages up to `told`; the node says what it took."""
        self.others = []
        for _ in range(PATIENCE * 10):
            if self.link.open(told):
                break
            time.sleep(A_MOMENT)
        else:
            self.fault("the node closes each connection at its start")
        if self.link.connection.told_by_node != self.serial:
            self.fault(f"told {self.link.connection.told_by_node}, awaited {self.serial}")

    def says(self, *bodies, term=None):
        """Our end sends messages of its next serials; the events of their being taken."""
        events = []
        for body in bodies:
            self.serial += 1
            events.append(("take", self.book.term if term is None else term, self.serial, body))
        self.link.send(*(frames.message_frame(*event[1:]) for event in events))
        return events

    def sent(self, body):
        """The event of the daemon's next message."""
        return ("send", self.book.term, self.book.serial + 1, body)

    def told(self, update):
        """Our end tells of a unit, and is replied to."""
        for event in self.says(update):
            self.follow(event)
        self.expect(self.sent(self.book.table.get(update[2]).pending))

    def asks(self, kind):
        self.link.send(Frame(kind))

    def answers(self, *due):
        """Our end, which has joined, answers a daemon that waits, which tells at once what is due, a body at most. Of
        ours nothing is due."""
        self.hears(Frame(frames.UPDATE_REQUEST_ALL))
        self.asks(frames.UPDATE_DONE)
        self.expect(*map(self.sent, due))
        self.expect(*self.says(("contact", 0, 0)), ("send", self.book.term, self.book.serial + 1, self.book.contact()))
        self.expect(*self.says(("contact", 0, self.book.restart)))

    def is_ended(self):
        """The node ends the connection."""
        if not self.link.ended():
            self.fault("the node doesn't end the connection")
        self.link.close()

    def leaves(self):
        """Our end says DISCONNECT."""
        self.asks(frames.DISCONNECT)
        self.is_ended()

    def request(self, kind):
        self.transactions += 1
        return message(kind, self.transactions.to_bytes(3, "big"), self.own, 1)

    def serves(self, is_joined=False):
        """A client that asks is given what the book gives, and the partner is told where it has joined."""
        octets = self.request(messages.REQUEST)
        self.daemon.send(octets)
        found = self.daemon.receive()
        lines, count = self.look(), len(self.book.lines)
        reading = lines[0].reading if lines else 0
        wanted, _ = answers.serve_datagram(self.book, self.own, octets, reading)
        if found != wanted:
            self.fault(f"answered {found and found.hex()}, awaited {wanted and wanted.hex()}")
        for line in self.book.lines[count:]:
            if self.next_line() != line:
                self.fault(f"awaited {line}")
            if is_joined:
                self.expect(self.sent(self.book.table.get(line.event[3]).update()))
        self.still(0)

    def waits(self):
        """A client that asks is told nothing; one that gives back is heard, though it has nothing."""
        for kind in (messages.REQUEST, messages.RELEASE):
            octets = self.request(kind)
            self.daemon.send(octets)
        message_read = messages.decode(octets, self.own)
        wanted = answers.octets_of(self.own, message_read, [answers.NO_BINDING])
        found = self.daemon.receive()
        if found != wanted:
            self.fault(f"who waits answers {found and found.hex()}, awaited {wanted.hex()}")
        self.still(0)

    def passes_over(self, seconds=QUIET):
        """No client is answered, whatever it asks, and no line is written."""
        for kind in (messages.SOLICIT, messages.REQUEST, messages.RELEASE):
            self.daemon.send(self.request(kind))
        self.still(seconds)
        self.daemon.silent()
        self.daemon.socket.settimeout(PATIENCE)

    def status(self, serving, journal_words=WHOLE):
        """The status says first whether it serves, and then how its journal is, by words that begin so."""
        rows = self.daemon.told("status").splitlines()
        found = [row for row in rows if row.startswith("journal: ")]
        if not rows or not rows[0].startswith(f"serving: {serving}"):
            self.fault(f"the status begins with {rows[:1]}, awaited serving: {serving}")
        if len(found) != 1 or not found[0].startswith(f"journal: {journal_words}"):
            self.fault(f"the status says {found}, awaited journal: {journal_words}")

    def refuses(self, why, *words):
        """What the daemon is told to do it refuses, for a reason that begins so."""
        said = self.daemon.control(*words)
        if said.returncode != 1 or why not in said.stderr:
            self.fault(f"{words}: awaited {why}: status {said.returncode}, {said.stdout}{said.stderr}")
        self.still(0)

    def is_older(self, words):
        """It ends the connection, says why, and from then on nobody is served and no line is written."""
        self.is_ended()
        self.daemon.wait_for(SAID)
        self.passes_over()
        self.status(SHORT, words)

    def begins_again(self):
        """It is stopped, with its volume open, and begins again."""
        self.daemon.begin_again()
        self.expect(*first_events(self.book, self.daemon.has_link))

    def closes(self, text):
        """It is stopped by `stop --close`, and answers by that text."""
        found = self.daemon.told("stop", "--close")
        self.daemon.wait_for_end()
        *rows, end = self.tail.rows()
        lines = self.waiting_lines + [journal.spelled_line_of(row) for row in rows]
        if [line.event for line in lines] != [("close",)] or end != f"end {len(self.book.lines) + 1}":
            self.fault(f"awaited a close line, found {lines}, {end}")
        if text not in found:
            self.fault(f"stop --close answers {found!r}, awaited {text!r}")


def settings_of(role):
    return replace(plain_settings(), role=role)


class Beside(str):
    """A program, with what makes its partner's end of the link from its settings."""

    def __new__(cls, program, partner):
        found = super().__new__(cls, program)
        found.partner = partner
        return found


@contextlib.contextmanager
def scene_of(program, settings, book=None, heartbeat=NO_HEARTBEAT):
    """A daemon with a partner, which goes on with a book where there is one."""
    past = list(book.lines) if book else []
    partner = program.partner if isinstance(program, Beside) else partner_of
    with partner(settings) as link, \
            Daemon(program, settings, answers.PLAIN, has_link=True, past=past, link=link,
                   heartbeat=heartbeat) as daemon:
        yield Scene(daemon, link)


def lived(role):
    """A book of a minute ago: a client has a unit, and nothing is due; a secondary has another unit to give."""
    reading = now() - 60_000
    book = Book.open(reading, settings_of(role))
    for unit in book.table.ordered[-2:] if role == "B" else ():
        update = stories.partners_update(unit, "backup", 0, (NOBODY, 0))
        book.add(reading, ("take", 0, stories.last_taken(book) + 1, update))
        book.apply(reading, ("send reply", unit.prefix))
    book.apply(reading, ("request", b"a client", 1, None))
    unit = book.table.lowest_held(b"a client", 1)
    book.apply(reading, ("send update", unit.prefix))
    book.add(reading, ("take", 0, stories.last_taken(book) + 1, stories.acknowledgement(unit)))
    return book
