"""Lives of a daemon whose partner is ours: between two datagrams it acknowledges, renews, gives back and asks for
units."""

import time

from . import frames, stories, takes
from .frames import Frame
from .life_draws import WAITS
from .life_ports import behind
from .lives import Life
from .messages import RELEASE
from .partner import A_MOMENT, Partner
from .program import PATIENCE, now
from .rules import own_pool
from .units import ACTIVE, BACKUP, FREE, RELEASED
from .values import NOBODY

# What the partner may say of a unit by its status.
STEPS = {ACTIVE: ("known", "known", "known", "given_by_partner", "given_back_at_partner"),
         RELEASED: ("known", "known", "known", "expired_at_partner"),
         BACKUP: ("known", "given_by_partner", "given_by_partner")}
STEPS_OF_PRIMARY = {**STEPS, FREE: ("moved", "given_by_partner"), BACKUP: ("known", "taken_back")}
DOWN, NORMAL = ("partner-down", "the partner is stopped"), ("partner-normal",)
# How many units a message may ask for, and how long is waited behind each while the partner is taken for down.
MOST, A_WHILE = 16, 0.15
# How many units at once the primary moves to a secondary that asks.
MOVES = 4
# How far ahead, in milliseconds, the bound of a RELEASE is laid; and how long behind it the client gives back.
AHEAD = 30
LATE = (-40, -5, -2, -1, -1, 0, 0, 1)


class LifePartner(Partner):
    """The partner of a life, which knows the node's book by its journal."""

    def __init__(self, life, link):
        super().__init__(life.daemon, link, life.draws, life.draws.random, life.tally)
        self.life = life
        self.is_primary = life.book.role == "B"
        self.steps = STEPS_OF_PRIMARY if self.is_primary else STEPS
        self.serial = stories.last_taken(life.book)
        self.last = life.book.serial

    def learn(self, body):
        """The journal tells what a message does."""

    def took(self, frame):
        """A contact that asks is answered."""
        if frame.body[0] == "contact" and frame.body[1] != 0:
            self.say(("contact", 0, frame.body[1]))

    def unnumbered(self, frame):
        """A node that began again asks for all that is due."""
        super().unnumbered(frame)
        if frame.kind == frames.UPDATE_REQUEST_ALL:
            self.say_done()

    def say(self, body):
        self.send(self.number(body, self.life.book.term))

    def say_done(self):
        """Says that all that was due is told: from now on the node may end leases."""
        self.life.ends.is_done = True
        super().say_done()

    def join(self):
        """Joins the node, and sends again what it hasn't taken."""
        self.open()
        self.resend()
        if not self.life.often:
            self.withheld = 0

    def is_told(self):
        """Whether the node has said that all is told that was due as we joined, or has a reason not to."""
        book = self.life.book
        return self.is_first_told or book.waiting or any(unit.mark for unit in book.table.ordered)

    def take_over(self, part):
        """Tells a node that waits that so many of the units that somebody has were taken over meanwhile."""
        for unit in self.life.book.table.ordered:
            if unit.status == ACTIVE and self.draws.chance(part):
                self.say(stories.partners_update(unit, "seized", 0, (NOBODY, 0)))

    def unit(self):
        """A unit of which a client's line says something, mostly the last such."""
        table = self.life.book.table
        prefixes = [line.event[3] for line in self.life.book.lines if line.event[0] in ("grant", "release")]
        if not prefixes:
            return self.random.choice(table.ordered)
        return table.get(prefixes[-1] if self.draws.chance(0.5) else self.random.choice(prefixes))

    def step(self):
        """Says something of a unit or of all, or asks for units, or moves some where it was asked to."""
        way = self.draws.pick(40, "of one", 4, "of all", 1, "moves" if self.is_primary else "asks")
        if way == "of all":
            for unit in self.life.book.table.ordered:
                self.known(unit)
        elif way == "asks":
            self.send(Frame(frames.POOL_REQUEST))
            self.wait_for(frames.POOL_RESPONSE)
        elif way == "moves" or (self.questions and self.draws.chance(0.3)):
            self.move()
        else:
            unit = self.unit()
            getattr(self, self.random.choice(self.steps.get(unit.status, ("known",))))(unit)

    def move(self):
        """Answers a secondary that asks for units, and moves some."""
        free = [unit for unit in self.life.book.table.ordered if unit.status == FREE][:MOVES]
        for _ in self.questions:
            self.send(Frame(frames.POOL_RESPONSE, 0, 0, (len(free),)))
        self.questions = []
        for unit in free:
            self.moved(unit)

    def moved(self, unit):
        self.say(stories.partners_update(unit, "backup", 0, (NOBODY, 0)))

    def taken_back(self, unit):
        self.say(stories.partners_update(unit, "free", 0, (NOBODY, 0)))

    def known(self, unit):
        if unit.due is not None:
            self.say(stories.acknowledgement(unit))

    def holder(self, unit):
        """Who has a unit; who is to have it where nobody has: mostly who had it by the last grant."""
        if unit.status == ACTIVE:
            return unit.client, unit.identifier
        lines = (line.event for line in reversed(self.life.book.lines) if line.event[0] == "grant")
        last = next((event[1:3] for event in lines if event[3] == unit.prefix), None)
        return last if last is not None and self.draws.chance(0.8) else self.draws.holder()

    def given_by_partner(self, unit):
        """Tells of a grant of just now; or of one whose RELEASE isn't early any more, or soon; or an end that tells no
        reading."""
        reading, holder = now(), self.holder(unit)
        way = self.draws.pick(4, "now", 2, "once", 2, "soon", 1, "never")
        if way == "now":
            self.tell_grant(unit, holder, reading)
        elif way == "once":
            self.tell_grant(unit, holder, reading - self.window() - self.random.randrange(5000))
        elif way == "soon":
            bound = reading + self.random.randrange(*WAITS)
            self.tell_bound(unit, holder, bound)
            self.draws.await_moments([(bound, *holder, unit.prefix, (RELEASE,))])
        else:
            most = 2000 * self.life.book.life
            self.tell_grant(unit, holder, -self.random.choice((0, 1, most - 1, self.random.randrange(most))))

    def window(self):
        """How long behind the partner's grant a RELEASE is early, in milliseconds."""
        return 1000 * self.life.limits.renew_floor + 2 * self.life.book.skew

    def tell_grant(self, unit, holder, reading):
        """Tells the end of a grant at a reading; it may be one of before any clock. At times it hadn't seen the last
        change yet."""
        update = stories.partners_update(unit, "active", reading + 2000 * self.life.book.life, holder)
        has_crossed = self.life.often > 0 and unit.mine > 0 and self.draws.chance(0.2)
        self.say((*update[:4], unit.mine - has_crossed, *update[5:]))

    def tell_bound(self, unit, holder, bound):
        """Tells of a grant whose RELEASE is early until the clock shows the bound."""
        self.tell_grant(unit, holder, bound - self.window())

    def given_back_at_partner(self, unit):
        self.say(stories.partners_update(unit, "released", 0, (unit.client, unit.identifier)))

    def expired_at_partner(self, unit):
        self.say(stories.partners_update(unit, "expired", 0, (unit.client, unit.identifier)))


class LinkedLife(Life):
    """A life with a partner, which says something before so many of the datagrams."""

    UNASKED = ("expire", "send", "take", "backup")

    def __init__(self, daemon, *words, often=0.7, leaves=None):
        self.often, self.leaves = often, often / 150 if leaves is None else leaves
        self.away = 0
        self.said = set()
        self.raised, self.firsts = set(), set()
        super().__init__(daemon, *words)
        self.partner = LifePartner(self, daemon.link)
        self.taken = self.partner.serial
        self.meet()

    def take_unasked(self, lines):
        """Takes over such lines; what is taken is what the partner said."""
        for line in lines:
            kind, *words = line.event
            if kind == "take":
                self.take_message(line, *words)
                continue
            if kind == "send":
                self.look_at_telling(words[2])
            super().take_unasked([line])

    def take_message(self, line, term, serial, body):
        self.taken = serial
        if frames.message_frame(term, serial, body) != self.partner.sent.get(serial):
            self.fault(f"taken {body}, said {self.partner.sent.get(serial)}")
        unit = self.book.table.get(body[2]) if body[0] == "update" else None
        goes_first = unit is not None and takes.goes_first(unit, body)
        super().take_unasked([line])
        if unit is not None and unit.by_take and unit.seen == body[3]:
            self.raised.add(unit.prefix)
            self.firsts.update([unit.prefix] * goes_first)
            self.tally["renewals that crossed, the node's own told first"] += goes_first

    def look_at_telling(self, body):
        """What the node tells: of renewals that crossed its own first, and then its reply. Else a secondary doesn't
        tell its own over this connection."""
        unit = self.book.table.get(body[2]) if body[0] != "contact" else None
        is_first = unit is not None and unit.prefix in self.firsts
        if body[0] == "reply" and is_first and unit.due is not None:
            self.fault(f"a reply that goes before the node's own change: {body}")
        if body[0] == "update":
            if self.is_held_back(unit) and not is_first and body[2:4] not in self.said:
                self.fault(f"a renewal that crossed is told before the next connection: {body}")
            self.said.add(body[2:4])
            self.firsts.discard(unit.prefix)

    def is_held_back(self, unit):
        """Whether the node tells what is due of a unit on its next connection."""
        return takes.is_held_back(self.book.role, unit) and unit.prefix in self.raised

    def is_quiet(self):
        """Whether the node took all that the partner said, and said all that is due, and that it is."""
        units = self.book.table.ordered
        return (self.taken == self.partner.serial and all(unit.pending is None for unit in units)
                and all(unit.update() is None or (unit.prefix, unit.mine) in self.said
                        or self.is_held_back(unit) for unit in units) and self.partner.is_told())

    def hear(self, is_served=False):
        """Waits until the link is quiet, at times also until the node serves: behind this the book is the node's."""
        until = time.monotonic() + PATIENCE
        while True:
            self.partner.poll(A_MOMENT)
            self.take_unasked(self.new_lines())
            if self.is_quiet() and not (is_served and self.book.waiting):
                return
            if time.monotonic() > until:
                self.fault(f"the link isn't quiet: {self.taken} of {self.partner.serial} messages taken")

    def meet(self):
        """Has the partner join the node, which serves behind this, though it may have begun again. Until it has said
        that all that was due is told no lease ends."""
        self.ends.is_done = False
        held_back = sum(map(self.is_held_back, self.book.table.ordered))
        self.tally["renewals that crossed, told on the next connection"] += held_back
        self.raised.clear()
        self.partner.join()
        self.parted = None
        self.ask()
        self.take_unasked(self.new_lines())
        self.partner.say_done_in_time()
        self.hear()
        if self.book.waiting:
            self.partner.take_over(self.often / 10)
            self.hear()
            self.partner.say(("contact", 0, 0))
            self.hear(is_served=True)

    def part(self):
        """The partner leaves; what it said was heard."""
        self.hear()
        before = now()
        self.daemon.leave()
        self.parted = (before, now())
        self.go_apart()

    def go_apart(self):
        """Behind two answers the node knows that its partner is gone: what it writes then it writes alone."""
        for _ in range(2):
            self.ask()
        self.take_unasked(self.new_lines())
        self.ends.is_done = False

    def takes(self, words, name):
        """The server is told how to take its partner, and writes so."""
        self.daemon.told(*words)
        for line in self.new_lines():
            if line.event == ("state", name):
                self.book.append(line)
            else:
                self.take_unasked([line])
        if (self.book.down is not None) != (name == "down"):
            self.fault(f"told {words}, and no line says so")

    def take_for_down(self):
        """At times the partner is taken for down, where its units needn't be taken over meanwhile."""
        free = sum(unit.status == own_pool(self.book.role) for unit in self.book.table.ordered)
        if free > MOST * self.away and self.draws.chance(self.often):
            self.takes(DOWN, "down")
            self.tally["partners that were taken for down"] += 1

    def finish(self):
        """A server that takes its partner for down closes no volume."""
        if self.book.down is not None:
            self.takes(NORMAL, "normal")

    def come_back(self):
        """The partner joins again, if it was away."""
        if self.away > 0:
            self.away = 0
            self.finish()
            self.daemon.leave()
            self.meet()

    def put_without_partner(self, octets, name):
        super().put(octets, name)
        if self.book.down is not None:
            time.sleep(A_WHILE)
        if self.away == 1:
            self.come_back()
        self.away = max(0, self.away - 1)

    def put(self, octets, name):
        if self.away > 0:
            self.put_without_partner(octets, name)
            return
        self.partner.say_done_in_time()
        if self.draws.chance(self.often):
            self.hear()
            for _ in range(self.draws.random.randrange(1, 4)):
                self.partner.step()
                self.hear()
        if self.draws.chance(self.leaves):
            self.part()
            self.away = self.draws.random.randrange(2, 12)
            self.take_for_down()
            self.tally["partners that left"] += 1
        super().put(octets, name)
        if self.away > 0:
            return
        unit = self.partner.unit()
        if unit.status in (ACTIVE, takes.partner_pool(self.book.role)) and self.draws.chance(self.often / 8):
            self.release_near_bound(unit, self.draws.random.choice(LATE))

    def release_near_bound(self, unit, late):
        """Has the partner tell of a grant whose RELEASE is early up to a moment that is soon, and the client give it
        back so many milliseconds behind that."""
        client, identifier = self.partner.holder(unit)
        until = now() + AHEAD
        self.partner.tell_bound(unit, (client, identifier), until - late)
        self.hear()
        octets = self.draws.message(RELEASE, client, [(identifier, unit.prefix)])
        port = self.policy.records.get(unit.prefix)
        octets = octets if port is None else behind(port, 0, bytes(16), octets, [], self.draws.random)
        while now() < until:
            time.sleep(0.0002)
        super().put(octets, "near a bound")

    def roll(self):
        self.come_back()
        self.hear()
        super().roll()
        self.go_apart()
        self.meet()

    def begin_again(self):
        self.come_back()
        self.hear()
        super().begin_again()
        self.meet()

    def begin_next(self):
        self.come_back()
        self.hear()
        super().begin_next()
        self.meet()
