"""A play's stage: servers whose clocks are set, and what is looked at while they are."""
import collections
import datetime
import re
import secrets
import socket
import time

from living.customers import Customers
from living.play import RIGHT, Broken
from living.play import Play as Living
from living.servers import OTHER
from refusing.servers import Ports

from . import form
from .servers import ENDS, SKEW, Server

# Why a server serves nobody; as its status has it.
BEHIND, SET, DIFFERS = "clock behind", "clock set", "its partner's clock differs"
# What is said on standard error.
WAS_SET = re.compile(r"<3>node: serves nobody: its clock was set: it shows (\S+), and by the monotonic clock it would "
                     r"show (\S+)\n")
FELL_BEHIND = "<3>node: serves nobody: its clock fell behind its journal by more than twice the skew\n"
AGAIN = "<6>node: serves again: its clock is right\n"
ACCEPTED = "<4>node: takes its clock for right, as it was told\n"
ASKS_FIRST = "<6>node: asks its partner's clock before it begins\n"
BEGINS_WITHOUT = "<4>node: begins without its partner's clock: nobody said it within 30 s\n"
PARTNERS_CLOCK = re.compile(r"<3>node: its partner's clock is between (\d+\.\d) s and (\d+\.\d) s (ahead of|behind) "
                            r"this one: they stay apart until the two agree\n")
# What is told, and why it is refused.
NOT_SET, IS_SET = "the clock wasn't set", "the clock was set: set it right, or say clock-accepted"
WRITES_NOTHING = "it asks its partner's clock and writes no line yet"
WRONG_WORDS = ('clock-accepted wants the words "the clock is right": say them only of a clock that you compared with '
               'another')
NOT_NOW = (("roll",), ("partner-down", "the partner is stopped"), ("partner-normal",), ("stop", "--close"))
# How soon a server sees its clock, and how soon two that may join have joined, in seconds.
SEES, JOINS = 5, 40
# How long a server asks before it begins without an answer; and when it has begun at the latest.
ASKS_FOR, BEGINS_BY = 30, 40
# By how many seconds what is told of an hour may differ from one.
NEARLY = 10
# How many new clients ask who should be out of service, beside those that have something.
MANY = 50


class Play(Living):
    """One play. `one` is the server that it is about, `other` its partner; each may have a program and terms of its
    own."""

    def __init__(self, programs, shim, folder, place, side, kinds=(ENDS, ENDS), is_alone=False):
        ports, key = Ports(place), secrets.token_hex(32)
        link = ports.free(socket.SOCK_STREAM)
        folder.mkdir(parents=True)
        self.begun, self.sides = time.time(), {}
        for each, node, kind in zip((side, OTHER[side]), programs, kinds):
            port, delays = ports.free(socket.SOCK_DGRAM), shim.delays(folder / f"delays-{each}")
            self.sides[each] = Server(node, delays, folder, each, port, link, key, kind, is_alone)
        self.one, self.other = self.sides[side], self.sides[OTHER[side]]
        self.customers, self.faults, self.holds = Customers(), [], []
        # Who speaks notices: a program before them has no such status. By how much each clock is shifted, in seconds,
        # and how often a start has said of it what was looked at already.
        self.speaks = {each: True for each in OTHER}
        self.shifts, self.seen = {each: 0 for each in OTHER}, collections.Counter()
        # What is wrong with statuses.
        self.forms = []

    # What befalls a clock

    def shift(self, server, seconds):
        """Sets a server's clock, to so much more than the right time."""
        self.shifts[server.side] = seconds
        server.delays.shift(1000 * seconds)

    # What is wanted

    def until(self, what, holds, seconds=JOINS):
        """Waits until something holds: whether it does."""
        return super().until(what, holds, seconds)

    def begin(self, sides="BA"):
        """Both begin, have joined, and share their units."""
        for side in sides:
            self.start(self.sides[side])
        self.together("at first")
        for server in self.sides.values():
            self.until(f"at first {server.side} serves", lambda each=server: each.serving() == "yes")

    def is_one_of(self, server, reasons, what, patience=SEES):
        """Waits until a server serves nobody for one of these reasons: the one that it says."""
        until = time.monotonic() + patience
        while (said := server.serving()) not in reasons and server.is_up() and time.monotonic() < until:
            time.sleep(0.1)
        first = server.status()[0]
        return said if self.see(said in reasons, f"{what}: {server.side}'s status begins {first!r}, wants "
                                f"{' or '.join(reasons)}") else None

    def says_once(self, server, words, what, patience=SEES):
        """A server says so, once since its start."""
        count = None
        until = time.monotonic() + patience
        while (count := server.said().count(words)) == 0 and time.monotonic() < until:
            time.sleep(0.1)
        return self.see(count == 1, f"{what}: {server.side} says {count} times {words!r}: {server.said()[-300:]!r}")

    def refuses(self, server, wanted, what, commands=NOT_NOW):
        """What isn't heard now is refused, for that reason."""
        for words in commands:
            if not server.is_up():
                return
            status, said = server.told(*words)
            is_so = status == 1 and wanted in said
            self.see(is_so, f"{what}: {' '.join(words)} has status {status}, {said!r}, wants {wanted!r}")

    def is_told_right(self, server, what):
        """A person says that a server's clock is right."""
        status, said = server.told(*RIGHT)
        self.see(status == 0, f"{what}: clock-accepted has status {status}, {said!r}")
        self.says_once(server, ACCEPTED, what)

    def is_told_wrongly(self, server):
        """Without these words nobody says that a clock is right."""
        for words in (RIGHT[:1], (RIGHT[0], "the clock is wrong")):
            status, said = server.told(*words)
            self.see(status == 2, f"{' '.join(words)} has status {status}, {said!r}")
            wanted = WRONG_WORDS if len(words) > 1 else ""
            self.see(wanted in said, f"{' '.join(words)} says {said!r}, wants {WRONG_WORDS!r}")

    def joined(self, what, seconds=JOINS):
        """The two have joined."""
        return all([self.until(f"{what}: {server.side} has joined", server.link_is_up, seconds)
                    for server in self.sides.values()])

    def both_serve(self, mine, theirs, what, seconds=JOINS):
        """The two have joined and serve; each renews what it gave, and what the other gave."""
        self.joined(what, seconds)
        for server, clients in ((self.one, mine), (self.other, theirs)):
            self.until(f"{what}: {server.side} serves", lambda each=server: each.serving() == "yes", seconds)
            self.serves(server, clients, what)
        self.told(self.one, self.other)
        self.told(self.other, self.one)
        self.rebinds(self.other, mine, what)
        self.rebinds(self.one, theirs, what)

    def writes_nothing(self, server, before, what):
        """A server's volumes are as they were."""
        now = server.lines()
        more = sum(text.count(b"\n") for text in now.values()) - sum(text.count(b"\n") for text in before.values())
        self.see(now == before, f"{what}: {server.side}'s volumes have {more} lines more")

    def idle(self, server, known, what, seconds=2):
        """A server answers nobody and writes no line, for a while."""
        before = server.lines()
        self.silent(server, known, what, seconds)
        self.writes_nothing(server, before, what)

    def was_set(self, server, seconds, what, reasons=(SET,)):
        """A server has seen that its clock was set by so much, says so, and is out of service: for which reason."""
        reason = self.is_one_of(server, reasons, what)
        clock = server.value("clock").split(",")[0]
        wanted = [each.removeprefix("clock ") for each in reasons]
        self.see(clock in wanted, f"{what}: {server.side}'s clock is {clock!r} by its status, wants {wanted}")
        said = self.words_of_set(server, BEHIND in reasons)
        if self.see(said is not None, f"{what}: {server.side} says nothing of its clock: {server.said()[-300:]!r}"):
            self.times_are_right(server, seconds, what, said)
        if server.value("link") != "alone":
            self.until(f"{what}: {server.side}'s connection is ended", lambda: not server.link_is_up(), SEES)
        return reason

    def times_are_right(self, server, seconds, what, said):
        """The two times that a server said, if it did, are those of a clock that was set just now, by so much if that
        is known."""
        for shows, expected in said:
            by, age = shows - expected, time.time() + self.shifts[server.side] - shows
            self.see(-1 < age < 60, f"{what}: {server.side} says that its clock showed {age:.1f} s less than it did")
            is_so = seconds is None or abs(by - seconds) < 1
            self.see(is_so, f"{what}: {server.side} says that its clock shows {by:.3f} s more than it would")

    def words_of_set(self, server, may_be_behind):
        """The pair of times that a server said when it saw that its clock was set, in seconds; none where it fell
        behind; None where it says neither, or not anew."""
        until, start = time.monotonic() + SEES, (server.side, server.starts)
        while time.monotonic() < until:
            found, fell = WAS_SET.findall(server.said()), server.said().count(FELL_BEHIND)
            if len(found) + fell * may_be_behind > self.seen[start]:
                self.seen[start] = len(found) + fell * may_be_behind
                times = [tuple(datetime.datetime.fromisoformat(each).timestamp() for each in pair) for pair in found]
                return times[-1:] if not fell else []
            time.sleep(0.1)
        return None

    def are_not_joined(self, what):
        """The two have not joined; while they learn why they mustn't there may be a connection for a moment."""
        for server in self.sides.values():
            self.until(f"{what}: {server.side} is connected", lambda each=server: not each.link_is_up(), SEES)

    def is_apart(self, server, seconds, what, may_serve=False):
        """A server has said, and once, that its partner's clock differs by so much: whether it has."""
        until = time.monotonic() + JOINS
        while not PARTNERS_CLOCK.search(server.said()) and time.monotonic() < until:
            if not may_serve and server.serving() == "yes":
                break
            time.sleep(0.15)
        found = PARTNERS_CLOCK.findall(server.said())
        self.see(len(found) == 1, f"{what}: {server.side} says {len(found)} times that its partner's clock differs")
        for least, most, way in found[:1]:
            sign = 1 if way == "ahead of" else -1
            near = all(abs(sign * float(each) - seconds) < NEARLY for each in (least, most))
            self.see(near, f"{what}: {server.side} says that its partner's clock is {least} to {most} s {way} it")
        return found != []

    def goes_no_further(self, server, known, what):
        """A server isn't out of service, though it should be: so many ask it that it gives what others have."""
        count = len(self.customers.lease(server, self.customers.new(len(known) + MANY), 4))
        raise Broken(f"{what}: {server.side} gives {count} leases")

    def says_of_partner(self, server, wanted):
        """The lines of a status that tell of the partner: whether there are any."""
        if server.value("notices") == "nothing":
            self.forms.append(f"{server.side}'s status has no line notices: {wanted['notices']}")
            return False
        for key, value in wanted.items():
            self.until(f"{server.side}'s status has {key}: {value}",
                       lambda each=key: server.value(each) == wanted[each], 8)
        return True

    # What is looked at in the end

    def form(self, server):
        """What is wrong with a status, in its three forms; moments later where they were of different moments."""
        for _ in range(4):
            rows, data = server.status(), server.data()
            metrics = server.told("status", "--metrics")[1]
            wrong = form.of_lines(rows)
            wrong = wrong or form.of_object(rows, data) + form.of_metrics(rows, metrics)
            if not wrong:
                return []
            time.sleep(0.3)
        return wrong

    def look(self):
        """The statuses have their form."""
        for side, server in self.sides.items():
            if server.is_up() and self.speaks[side]:
                self.forms += [f"{side}'s status: {fault}" for fault in self.form(server)]

    def judge(self):
        """What clients saw, and what was wrong with statuses, once each."""
        super().judge()
        self.faults += dict.fromkeys(self.forms)

    def readings_are_right(self):
        """No line was read from a clock that was wrong."""
        least, most = 1000 * self.begun - 2 * SKEW, 1000 * time.time() + 2 * SKEW
        for side, server in self.sides.items():
            wrong = [reading for reading in server.readings() if not least < reading < most]
            if wrong:
                by = wrong[0] / 1000 - time.time()
                self.faults.append(f"{len(wrong)} lines of {side} were read from a wrong clock, of {by:.0f} s more")

    def new(self, server):
        """What a status says of a partner that speaks notices and has the same settings."""
        if not self.says_of_partner(server, {"notices": form.UNDERSTOOD, "settings": "agree"}):
            return
        told = form.range_of(server.value("partner_clock"))
        if told is None or not server.value("partner_program").startswith("fengtuyas "):
            said = {key: server.value(key) for key in form.LINES}
            self.forms.append(f"{server.side}'s status says of its partner {said}")
