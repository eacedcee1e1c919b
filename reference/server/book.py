"""A server's book: orders, their refusals and replies, and the journal lines that they leave."""

from . import rules, takes
from .units import ACTIVE, BACKUP, EXPIRED, FREE, RELEASED
from .values import MOST_LINES, Line

FULL = MOST_LINES - 1


class BookRefusal(Exception):
    """An order that a book refuses; where the name is Rule, `rule` is the journal rule's number."""

    def __init__(self, name, rule=None):
        super().__init__(name if rule is None else f"{name} {rule}")
        self.name = name
        self.rule = rule


class Book:
    """The state that a journal's lines lead to.

    Orders are tuples: ("request" or "renew" or "release", client, identifier, hint), ("expire" or "backup" or
    "reclaim" or "seize" or "send update" or "send reply", prefix), ("send contact",), ("take", term, serial, body),
    ("state", name), ("restart",), ("close",).
    """

    def __init__(self, role, volume=1):
        self.role = role
        self.volume = volume
        self.based = False
        self.lines = []
        self.skew = self.mclt = self.life = self.transit = 0
        self.pools = []
        self.units = None
        self.term = self.serial = self.restart = self.asked = 0
        self.waiting = self.closed = False
        self.down = None

    @classmethod
    def open(cls, reading, settings):
        book = cls(settings.role)
        events = [("open", settings.skew, settings.mclt, settings.life)]
        events += [("pool", prefix, length) for prefix, length in settings.pools]
        if settings.transit != 0:
            events.append(("transit", settings.transit))
        for event in events:
            book.add(reading, event)
        return book

    @classmethod
    def replay(cls, role, lines, volume=1):
        """The book that the lines lead to; BookRefusal with the first bad line's least broken rule."""
        book = cls(role, volume)
        for line in lines:
            book.append(line)
        return book

    @property
    def table(self):
        if self.units is None:
            self.units = rules.table_of(self.pools)
        return self.units

    def contact(self):
        """The contact that the book has to send."""
        silent = self.down is not None or any(unit.mark for unit in self.table.ordered)
        return ("contact", self.restart if self.waiting else 0, 0 if silent else self.asked)

    def reading_after(self, reading):
        return max(reading, self.lines[-1].reading) if self.lines else reading

    def add(self, reading, event):
        line = Line(len(self.lines) + 1, self.reading_after(reading), event)
        return self.append(line)

    def append(self, line):
        """Adds a legal line and answers what it made of it; a line that breaks a rule is refused."""
        rule = rules.broken_rule(self, line)
        if rule is not None:
            raise BookRefusal("Rule", rule)
        made = getattr(self, "_" + line.event[0])(line.reading, *line.event[1:])
        self.lines.append(line)
        if line.event[0] == "grant":
            self.table.get(line.event[3]).standing = line
        return made

    def _open(self, _reading, skew, mclt, life):
        self.skew, self.mclt, self.life = skew, mclt, life

    def _pool(self, _reading, prefix, length):
        self.pools.append((prefix, length))
        self.units = None

    def _transit(self, _reading, transit):
        self.transit = transit

    def _base(self, _reading, term, serial, restart, waiting, asked):
        self.term, self.serial, self.restart, self.waiting, self.asked = term, serial, restart, waiting == 1, asked
        self.based = True

    def _carry(self, _reading, _client, _identifier, _prefix, _end):
        pass

    def _unit(self, _reading, prefix, status, client, identifier, *numbers):
        unit = self.table.get(prefix)
        self.table.change(unit, status, client, identifier)
        (unit.mine, unit.seen, unit.own_end, unit.out_end, unit.acked, unit.told, unit.due, unit.pending) = numbers

    def _grant(self, reading, client, identifier, prefix, valid):
        unit = self.table.get(prefix)
        self.table.change(unit, ACTIVE, client, identifier)
        unit.raise_mine()
        unit.own_end = max(unit.own_end, reading + 1000 * valid + 2 * self.skew + self.transit)
        unit.out_end = reading + 2000 * self.life
        unit.due = ACTIVE

    def _release(self, _reading, client, identifier, prefix):
        self._ended(prefix, RELEASED)

    def _expire(self, _reading, prefix):
        self._ended(prefix, EXPIRED)

    def _ended(self, prefix, status):
        unit = self.table.get(prefix)
        self.table.change(unit, status, unit.client, unit.identifier)
        unit.raise_mine()
        unit.due = status

    def _backup(self, _reading, prefix):
        unit = self.table.get(prefix)
        self.table.change(unit, BACKUP)
        unit.raise_mine()
        unit.due = BACKUP

    def _reclaim(self, _reading, prefix):
        unit = self.table.get(prefix)
        unit.raise_mine()
        unit.due = FREE

    def _seize(self, _reading, prefix):
        unit = self.table.get(prefix)
        self.table.free(unit, rules.own_pool(self.role))
        unit.raise_mine()
        unit.mark = True

    def _send(self, _reading, _term, serial, body):
        self.serial = serial
        if body[0] == "reply":
            self.table.get(body[2]).pending = None

    def _take(self, reading, term, _serial, body):
        return takes.take(self, reading, term, body)

    def _state(self, reading, name):
        self.down = reading if name == "down" else None
        if name == "down":
            self.term += 1

    def _restart(self, _reading, number):
        self.restart = number
        self.waiting = True

    def _close(self, _reading):
        self.closed = True

    def bound(self, client, identifier, hint):
        """The unit that an order of this client is about, None where it has none."""
        unit = self.table.get(hint) if hint is not None else None
        if unit is not None and unit.holds(client, identifier):
            return unit
        return self.table.lowest_held(client, identifier)

    def check_serving(self, order):
        if self.closed or (self.waiting and order[0] in ("request", "renew")):
            raise BookRefusal("NotServing")
        if len(self.lines) >= FULL and order[0] != "close":
            raise BookRefusal("Full")

    def given(self, reading, order):
        """The unit and the lifetime that a request or a renewal is given."""
        kind, client, identifier, hint = order
        unit = self.bound(client, identifier, hint)
        if unit is None and kind == "renew":
            raise BookRefusal("NoBinding")
        unit = unit or self.table.lowest(rules.own_pool(self.role))
        if unit is None:
            raise BookRefusal("NoPrefix")
        return unit, rules.allowed_lifetime(self, unit, self.reading_after(reading))

    def released(self, order):
        _, client, identifier, hint = order
        unit = self.table.get(hint) if hint is not None else None
        if unit is None or not unit.holds(client, identifier):
            raise BookRefusal("NoBinding")
        return ("release", client, identifier, hint)

    def message(self, order):
        """The body that an order to send has to send; what a made-up one would break where it has none."""
        if order[0] == "send contact":
            return self.contact()
        unit = self.table.get(order[1])
        if unit is None:
            raise BookRefusal("Rule", 4)
        body = unit.update() if order[0] == "send update" else unit.pending
        if body is None:
            raise BookRefusal("Rule", 13 if order[0] == "send update" else 14)
        return body

    def event_of(self, reading, order):
        """The event that the order leaves as a line."""
        kind = order[0]
        if kind in ("request", "renew"):
            unit, valid = self.given(reading, order)
            return ("grant", order[1], order[2], unit.prefix, valid)
        if kind == "release":
            return self.released(order)
        if kind.startswith("send "):
            return ("send", self.term, self.serial + 1, self.message(order))
        if kind == "restart":
            return ("restart", self.restart + 1)
        return order

    def offer(self, reading, order):
        """What a request would be given now: a prefix and a lifetime. Nothing changes."""
        self.check_serving(order)
        unit, valid = self.given(reading, order)
        return unit.prefix, valid

    def apply(self, reading, order):
        """Does an order: the reply to it, or the first refusal that applies. The line is the last of `lines`."""
        self.check_serving(order)
        event = self.event_of(reading, order)
        made = self.add(reading, event)
        if event[0] == "grant":
            return ("granted", event[3], event[4])
        if event[0] == "release":
            return ("released",)
        if event[0] == "send":
            return ("sent", event[2], event[3])
        if event[0] == "take":
            return ("taken", made)
        return ("done",)
