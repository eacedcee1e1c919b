"""Honest runs: two servers and the link between them, by the books of this folder, drawn at random."""
from typing import NamedTuple

from .books import UNTOUCHED, Book
from .journals import (
    MOST_VOLUME,
    Backup,
    Base,
    Carry,
    Close,
    Expire,
    Grant,
    Line,
    Open,
    Pool,
    Reclaim,
    Release,
    Restart,
    Seize,
    Send,
    State,
    Take,
    Transit,
    UnitLine,
    Update,
)
from .heads import drawn_head
from .rules import broken_rule, contact_of, reply_of, update_of
from .words import MOST_READING, Prefix, other_side

DOCUMENTATION = 0x20010DB8 << 96
# Lists of pools, each with the length of its units.
POOLS = (
    ((Prefix(DOCUMENTATION, 54), 56),),
    ((Prefix(DOCUMENTATION, 56), 56),),
    ((Prefix(DOCUMENTATION, 55), 56), (Prefix(DOCUMENTATION + (7 << 72), 56), 57)),
    ((Prefix(0, 0), 1),),
    ((Prefix(DOCUMENTATION + 8, 126), 128), (Prefix(DOCUMENTATION, 126), 127)),
    ((Prefix((1 << 128) - 4, 126), 127),),
    ((Prefix(DOCUMENTATION, 48), 49), (Prefix(DOCUMENTATION + (1 << 81), 63), 64)),
)
CLIENTS = (b"\0\3\0\1\2\0\0\0\0\1", b"\0\3\0\1\2\0\0\0\0\2", b"\0\3\0", b"\xff" * 130, b"\0\3\0\1\2\0\0\0\0")
KINDS = {
    "grant": 25,
    "renew": 15,
    "release": 8,
    "expire": 6,
    "backup": 3,
    "reclaim": 1,
    "update": 14,
    "reply": 12,
    "contact": 3,
    "take": 26,
    "restart": 1,
    "state": 1,
    "seize": 3,
    "exchange": 20,
    "outage": 1,
    "roll": 1,
}
# A server does without its partner, seizes units, and meets it again: who does what, the server or its partner.
OUTAGE = (
    ("server", "down"),
    ("server", "seize"),
    ("server", "seize"),
    ("server", "grant"),
    ("partner", "restart"),
    ("server", "state"),
    ("server", "contact"),
    ("partner", "take"),
    ("server", "update"),
    ("partner", "take"),
    ("partner", "reply"),
    ("server", "take"),
    ("server", "update"),
    ("partner", "contact"),
    ("server", "take"),
    ("server", "contact"),
    ("partner", "take"),
)


MINUTE, HOUR, DAY = 60_000, 3_600_000, 86_400_000
# A moment of these years.
NOW = 1_795_377_600_000
# How often a run has a clock that is wrong.
OFTEN_SLOW = 0.15


class Settings(NamedTuple):
    skew: int
    mclt: int
    life: int
    transit: int
    pools: tuple


class Entry(NamedTuple):
    reading: int
    event: object


class Server:
    """One side: its book, the entries of its present volume, and all that it ever sent."""

    def __init__(self, side):
        self.side = side
        self.book = Book(side, 1)
        self.entries = []
        self.sent = []
        self.taken = 0

    def reading(self):
        return self.entries[-1].reading if self.entries else 0

    def would_break(self, reading, event):
        return broken_rule(self.book, Line(len(self.entries) + 1, reading, event, b""))

    def write(self, reading, event):
        self.book.add(Line(len(self.entries) + 1, reading, event, b""))
        self.entries.append(Entry(reading, event))
        if isinstance(event, Send):
            self.sent.append(event)


def units_of(pools):
    """The first few units of each pool."""
    units = []
    for pool, length in pools:
        size = 1 << (128 - length)
        count = min(4, 1 << (length - pool.length))
        units += [Prefix(pool.address + place * size, length) for place in range(count)]
    return units


class Run:
    """Two servers at a true moment."""

    def __init__(self, rng, settings, moment, weights, slow):
        self.rng = rng
        self.settings = settings
        self.moment = moment
        self.weights = weights
        # By how much each clock is behind the time, beside what the skew allows; a fast one's number is negative.
        self.slow = slow
        # The most by which a reading was off so far.
        self.off = 0
        # How often time passes between events.
        self.haste = rng.choice((0.2, 0.5, 1))
        self.units = units_of(settings.pools)
        # Every step so far of both servers, earlier volumes included, with its true moment.
        self.history = []
        self.servers = {side: Server(side) for side in "AB"}
        # Whether what came before the journals is known.
        self.honest = True
        term = rng.choice((0, 0, 1, 2**32 - 2))
        anything = rng.random() < 0.3
        for server in self.servers.values():
            if anything and rng.random() < 0.7:
                self.begin_anywhere(server, term)
            else:
                self.open(server)

    def clock(self, server):
        """What a server's clock shows, within the skew where the clock is right; a book's readings never fall."""
        skew = self.settings.skew
        drift = self.rng.choice((-skew, 0, skew, self.rng.randint(-skew, skew))) - self.slow[server.side]
        return max(server.reading(), min(max(self.moment + drift, 0), MOST_READING))

    def open(self, server):
        reading = self.clock(server)
        self.write(server, reading, Open(self.settings.skew, self.settings.mclt, self.settings.life))
        for prefix, length in self.settings.pools:
            self.write(server, reading, Pool(prefix, length))
        if self.settings.transit:
            self.write(server, reading, Transit(self.settings.transit))

    def begin_anywhere(self, server, term):
        """Begins a server with a later volume of any state."""
        self.honest = False
        server.book = Book(server.side, 2)
        reading = self.clock(server)
        for event in drawn_head(self.rng, self.settings, self.units, CLIENTS[:3], term, reading):
            self.write(server, reading, event)

    def write(self, server, reading, event):
        self.history.append((self.moment, event))
        self.off = max(self.off, abs(reading - self.moment))
        server.write(reading, event)

    def pass_time(self):
        life = 1000 * self.settings.life
        steps = (0, 0, 0, 1, self.rng.randint(0, 3 * self.settings.skew + 2), self.rng.randint(0, life // 4), life // 2)
        if self.rng.random() < self.haste:
            self.moment = min(self.moment + self.rng.choice(steps), MOST_READING)

    def step(self):
        """One event at one server, where one can be drawn that breaks no rule."""
        self.pass_time()
        server = self.servers[self.rng.choice("AB")]
        kind = self.rng.choices(list(self.weights), list(self.weights.values()))[0]
        if kind == "roll":
            self.roll(server)
        elif kind == "exchange":
            self.exchange(server)
        elif kind == "outage":
            self.outage(server)
        else:
            self.try_kind(server, kind)

    def try_kind(self, server, kind):
        reading = self.clock(server)
        event = self.propose(server, kind, reading)
        if event is None:
            return
        if isinstance(event, (Expire, Seize)) and self.rng.random() < 0.7:
            reading = self.wait_until(server, self.bound_of(server, event), reading)
        if isinstance(event, Take) and isinstance(event.body, Update) and self.rng.random() < 0.2:
            own_end = server.book.unit(event.body.prefix).own_end
            reading = self.wait_until(server, own_end - self.rng.choice((0, 1)), reading)
        if reading <= MOST_READING and server.would_break(reading, event) is None:
            self.write(server, reading, event)

    def exchange(self, server):
        """An update, its take, the reply and its take, with what else was on the way."""
        partner = self.servers[other_side(server.side)]
        self.try_kind(server, "update")
        self.catch_up(partner)
        self.try_kind(partner, "reply")
        self.catch_up(server)

    def outage(self, server):
        """A server's time without its partner, each step of it mostly done."""
        partner = self.servers[other_side(server.side)]
        careless = self.rng.choice((0, 0, 0.1, 0.3))
        for who, kind in OUTAGE:
            if self.rng.random() >= careless:
                acting = server if who == "server" else partner
                self.catch_up(acting) if kind == "take" else self.try_kind(acting, kind)

    def catch_up(self, server):
        for _ in range(len(self.servers[other_side(server.side)].sent) - server.taken):
            self.pass_time()
            self.try_kind(server, "take")

    def bound_of(self, server, event):
        """The first reading at which a unit may be expired or seized."""
        unit, book = server.book.unit(event.prefix), server.book
        if isinstance(event, Expire):
            return max(unit.own_end, unit.told)
        return max(unit.own_end, book.takeover(unit)) if book.down is not None else 0

    def wait_until(self, server, wanted, reading):
        """Lets the time pass until a server's clock shows a reading."""
        reading = max(reading, min(wanted, MOST_READING))
        drift = self.rng.randint(-self.settings.skew, self.settings.skew) - self.slow[server.side]
        self.moment = max(self.moment, reading - drift)
        return reading

    def propose(self, server, kind, reading):
        """An event of a kind at a reading, None where there is nothing to propose; it may break a rule."""
        return getattr(self, f"propose_{kind}")(server, self.rng.choice(self.units), reading)

    def propose_grant(self, server, prefix, reading):
        usable = [unit for unit in self.units if server.book.unit(unit).status == server.book.own_status()]
        prefix = self.rng.choice(usable or [prefix])
        client, association = self.rng.choice(CLIENTS[:3]), self.rng.choice((0, 1, 1, 2**32 - 1))
        return Grant(client, association, prefix, server.book.valid_of(server.book.unit(prefix), reading))

    def propose_renew(self, server, prefix, reading):
        unit = server.book.unit(prefix)
        if unit.client is None:
            return None
        return Grant(unit.client, unit.association, prefix, server.book.valid_of(unit, reading))

    def active(self, server, prefix):
        """An active unit where there is one, else this one."""
        return self.rng.choice([unit for unit in self.units if server.book.unit(unit).status == "active"] or [prefix])

    def propose_release(self, server, prefix, _reading):
        prefix = self.active(server, prefix) if self.rng.random() < 0.7 else prefix
        unit = server.book.unit(prefix)
        return None if unit.client is None else Release(unit.client, unit.association, prefix)

    def propose_expire(self, server, prefix, _reading):
        return Expire(self.active(server, prefix))

    def propose_backup(self, _server, prefix, _reading):
        return Backup(prefix)

    def propose_reclaim(self, _server, prefix, _reading):
        return Reclaim(prefix)

    def propose_seize(self, server, prefix, _reading):
        """A seize of a unit that is not the server's own, where the server is down."""
        others = [unit for unit in self.units if server.book.unit(unit).status != server.book.own_status()]
        return None if server.book.down is None else Seize(self.rng.choice(others or [prefix]))

    def send(self, server, body):
        return None if body is None else Send(server.book.term, server.book.serial + 1, body)

    def propose_update(self, server, prefix, _reading):
        due = [unit for unit in self.units if update_of(unit, server.book.unit(unit)) is not None]
        prefix = self.rng.choice(due or [prefix])
        return self.send(server, update_of(prefix, server.book.unit(prefix)))

    def propose_reply(self, server, prefix, _reading):
        pending = [unit for unit in self.units if server.book.unit(unit).pending is not None]
        prefix = self.rng.choice(pending or [prefix])
        return self.send(server, reply_of(prefix, server.book.unit(prefix)))

    def propose_contact(self, server, _prefix, _reading):
        return self.send(server, contact_of(server.book))

    def propose_take(self, server, _prefix, _reading):
        """The partner's next message, now and then another one that it ever sent."""
        sent = self.servers[other_side(server.side)].sent
        if not sent:
            return None
        if self.rng.random() < 0.05:
            return Take(*self.rng.choice(sent))
        place = server.taken
        if place >= len(sent):
            return None
        if self.rng.random() < 0.1:
            place = self.rng.randrange(place, len(sent))
        server.taken = place + 1
        return Take(*sent[place])

    def propose_restart(self, server, _prefix, _reading):
        return Restart(server.book.restart + 1)

    def propose_down(self, _server, _prefix, _reading):
        return State("down")

    def propose_state(self, _server, _prefix, _reading):
        return State(self.rng.choice(("normal", "interrupted", "down", "down")))

    def close(self, server):
        self.write(server, min(self.clock(server), MOST_READING), Close())

    def roll(self, server):
        """Closes a volume and begins the next one, of which alone the run keeps the entries."""
        if server.book.down is not None or server.book.marks:
            return
        self.close(server)
        self.pass_time()
        reading = self.clock(server)
        closed, entries = server.book, server.entries
        head = later_head(closed, entries, reading)
        server.book = Book(server.side, min(self.rng.choice((closed.volume + 1, MOST_VOLUME)), MOST_VOLUME))
        server.entries = []
        for event in head:
            self.write(server, reading, event)


def later_head(closed, entries, reading):
    """The events that the next volume of a closed book begins with."""
    events = [closed.settings, *[Pool(prefix, length) for prefix, length in closed.pools]]
    if closed.transit:
        events.append(Transit(closed.transit))
    events.append(Base(closed.term, closed.serial, closed.restart, closed.waiting, closed.asked))
    events += carries_of(closed, entries, reading)
    for prefix, unit in sorted(closed.units.items()):
        if unit != UNTOUCHED:
            fields = [unit.status, unit.client, unit.association, unit.mine, unit.seen, unit.own_end, unit.out_end]
            events.append(UnitLine(prefix, *fields, unit.acked, unit.told, unit.due, unit.pending))
    return events


def carries_of(closed, entries, reading):
    """A line for each client, association and prefix that may still hold what this volume granted or carried."""
    ends = {}
    for at, event in entries:
        if isinstance(event, Release):
            ends.pop((event.prefix, event.client, event.association), None)
        elif isinstance(event, (Grant, Carry)):
            end = event.end if isinstance(event, Carry) else at + 1000 * event.valid
            key = (event.prefix, event.client, event.association)
            if end + closed.margin() > reading:
                ends[key] = max(end, ends.get(key, end))
    return [Carry(client, association, prefix, end) for (prefix, client, association), end in sorted(ends.items())]


def drawn_settings(rng):
    skew = rng.choice((0, 1, 7, 500, 2000))
    mclt, life = rng.choice((1, 2, 5, 60, 3600)), rng.choice((1, 3, 10, 100, 3600))
    return Settings(skew, mclt, life, rng.choice((0, 0, 0, 1, 500)), rng.choice(POOLS))


def drawn_slow(rng, skew):
    """One clock is wrong by up to a day, or by just so much that it begins to show."""
    wrong = rng.choice((1000, 2 * skew, 2 * skew + 1, MINUTE, HOUR, DAY, rng.randint(1000, DAY)))
    side = rng.choice("AB")
    return {side: rng.choice((-wrong, wrong)), other_side(side): 0}


def drawn_run(rng):
    """A run of some length whose servers have both closed."""
    settings = drawn_settings(rng)
    weights = {kind: weight * rng.choice((0.3, 1, 1, 3)) for kind, weight in KINDS.items()}
    weights["roll"] = rng.choice((0, 0, 1, 2))
    weights["restart"] = rng.choice((0, 0, 1))
    weights["state"] = rng.choice((0, 0, 1, 4))
    weights["outage"] = rng.choice((0, 0, 1, 4))
    slow = drawn_slow(rng, settings.skew) if rng.random() < OFTEN_SLOW else {"A": 0, "B": 0}
    moments = (NOW,) if any(slow.values()) else (10_000, 0, NOW, MOST_READING - 3_000_000)
    run = Run(rng, settings, rng.choice(moments), weights, slow)
    for _ in range(rng.choice((20, 60, 120, 200))):
        run.step()
    if rng.random() < 0.15:
        meet(run)
    run.moment = min(run.moment + rng.choice((0, 1000, 2000 * settings.life, 3000 * settings.life, 4000 * settings.life)), MOST_READING)
    for server in run.servers.values():
        run.close(server)
    return run


def meet(run):
    """Each server takes the contact that the other sends after: no order of lines fits, though each journal is legal."""
    first, second = run.servers["A"], run.servers["B"]
    if first.book.waiting or second.book.waiting or first.book.term != second.book.term:
        return
    contacts = {server.side: Send(server.book.term, server.book.serial + 1, contact_of(server.book)) for server in (first, second)}
    for server in (first, second):
        reading = run.clock(server)
        run.write(server, reading, Take(*contacts[other_side(server.side)]))
        run.write(server, reading, contacts[server.side])
