"""A daemon and our end of its link, which speaks notices: what a script of them waits for."""

import contextlib
import re
import time

from . import answers, frames, notices
from .frames import Frame
from .linkend import OTHER, ROLE_CODES
from .notice_end import NoticeEnd, end_of
from .notices import Clock, ClockReply, terms_of
from .program import Daemon, Difference, now
from .scenes import QUIET

STAY_APART = ": they stay apart until the two agree"
SAID_RANGE = re.compile(r"<3>node: its partner's clock is between (\d+\.\d) s and (\d+\.\d) s (ahead of|behind) this "
                        "one" + STAY_APART)
TOLD_RANGE = re.compile(r"between (\d+) ms (ahead|behind) and (\d+) ms (ahead|behind)\Z")
# How soon what is at once is, in seconds, and by when a connection is ended at once: before a deadline ends it.
AT_ONCE, ENDS_BY = 1.5, 3.5


class Talk:
    """A daemon and our end of its link, which speaks notices; what is wrong is told with what the daemon said."""

    def __init__(self, daemon, link):
        self.daemon, self.link = daemon, link
        self.mine, self.has_joined = terms_of(daemon.settings), False

    def fault(self, words):
        raise Difference(f"{words}\n{self.daemon.said()}")

    def bare(self):
        """A connection over which the node has said what it says first: that."""
        self.has_joined = False
        for _ in range(20):
            found = self.link.bare()
            if found is not None:
                return found
        self.fault("the node closes each connection at its start")

    def opens(self, last=0):
        """The two join, and we say that we took messages up to that one."""
        self.has_joined = True
        for _ in range(20):
            if self.link.open(last):
                return
        self.fault("the node closes each connection at its start")

    def greeting(self, last=0):
        """Our frame at the beginning of a connection."""
        kind = frames.CONNECT_REPLY if self.link.role == "A" else frames.CONNECT
        return Frame(kind, 0, 0, (ROLE_CODES[OTHER[self.link.role]], last))

    def is_still(self, seconds=QUIET):
        """No frame comes, and the connection stands."""
        until = time.monotonic() + seconds
        while (left := until - time.monotonic()) > 0:
            if not self.link.read(left):
                self.fault("the node ends the connection")
        found = [item for item in self.link.waiting if isinstance(item, Frame)]
        if found:
            self.fault(f"the node sends {found} too soon")

    def joins(self):
        """Frames may go: the node says what it took, once we called if we are the primary."""
        if self.link.role == "B":
            self.link.write(frames.encode(self.greeting()))
        found = self.link.next_frame()
        wanted = frames.CONNECT if self.link.role == "A" else frames.CONNECT_REPLY
        if found is None or found.kind != wanted:
            self.fault(f"awaited that the two join, our end hears {found}")
        if self.link.role == "A":
            self.link.write(frames.encode(self.greeting()))
        self.has_joined = True

    def is_joined(self):
        """A request is answered."""
        self.link.write(frames.encode(Frame(frames.UPDATE_REQUEST)))
        self.hears_done()

    def hears_done(self):
        found = self.link.next_frame()
        while found is not None and found.kind != frames.UPDATE_DONE:
            found = self.link.next_frame()
        if found is None:
            self.fault("the two haven't joined: a request isn't answered")

    def is_ended(self, why=None):
        """The node ends the connection at once, and says why if it does."""
        if not self.link.ended(ENDS_BY):
            self.fault("the node doesn't end the connection")
        self.link.close()
        if why is not None:
            self.daemon.wait_for(why)

    def asks_clock(self, count):
        """We ask the node's clock, and are answered at once."""
        before = now()
        self.link.say(Clock(count, before))
        self.is_answered(count, before)

    def is_answered(self, count, asked):
        begun = time.monotonic()
        while not any(reply.number == count for reply, _ in self.link.replies):
            item = self.link.next_item(AT_ONCE)
            if item is None:
                self.fault(f"clock {count} isn't answered at once")
            if isinstance(item, notices.SPOKEN):
                self.link.note(item)
            elif not self.has_joined:
                self.fault(f"the node sends {item} before the two have joined")
        reply, came = self.link.replies[-1]
        if reply != ClockReply(count, asked, reply.reading) or not asked <= reply.reading <= came:
            self.fault(f"clock {count} {asked} is answered by {reply} at {came}")
        if time.monotonic() - begun > AT_ONCE:
            self.fault(f"clock {count} isn't answered at once")

    def status(self, **wanted):
        """What the status says behind these words; a moment later where it doesn't say so yet."""
        until = time.monotonic() + AT_ONCE
        while True:
            rows = dict(row.split(": ", 1) for row in self.daemon.told("status").splitlines() if ": " in row)
            wrong = {key: rows.get(key) for key, value in wanted.items() if rows.get(key) != value}
            if not wrong:
                return rows
            if time.monotonic() > until:
                self.fault(f"the status says {wrong}, awaited {wanted}")
            time.sleep(0.1)

    def range(self):
        """The range that the status tells, and its verdict by the metrics."""
        text = self.status()["partner_clock"]
        found = TOLD_RANGE.match(text)
        if not found:
            self.fault(f"the status says partner_clock: {text}")
        least, first, most, second = found.groups()
        told = int(least) * (1 if first == "ahead" else -1), int(most) * (1 if second == "ahead" else -1)
        name = "fengtuyas_partner_clock"
        start, end = f'{name}{{{name}="', '"} 1'
        rows = self.daemon.told("status", "--metrics").splitlines()
        verdicts = [row[len(start):-len(end)] for row in rows if row.startswith(start) and row.endswith(end)]
        return told, verdicts

    def says_once(self, words):
        """It said this, once."""
        self.daemon.wait_for(words)
        count = self.daemon.said().count(words + "\n")
        if count != 1:
            self.fault(f"it says {count} times {words!r}")


@contextlib.contextmanager
def talk_of(program, settings, book=None, terms=None, **how):
    """A daemon that has begun, and our end, which says these terms from then on."""
    past = list(book.lines) if book else []
    with end_of(settings, NoticeEnd, settings) as link, \
            Daemon(program, settings, answers.PLAIN, has_link=True, past=past, link=link, **how) as daemon:
        if terms is not None:
            link.terms = terms
        yield Talk(daemon, link)
