"""A book: what the lines of a journal have come to, and what each line does to it."""
from dataclasses import dataclass, replace
from typing import Optional

from .journals import (
    Backup,
    Base,
    Carry,
    Close,
    Contact,
    Expire,
    Grant,
    Open,
    Pending,
    Pool,
    Reclaim,
    Release,
    Reply,
    Restart,
    Seize,
    Send,
    State,
    Take,
    Transit,
    UnitLine,
    Update,
)

# The statuses in which a unit has a client.
LEFT = ("expired", "released")


@dataclass(frozen=True)
class Unit:
    """What a book knows of one prefix that it may delegate."""

    status: str = "free"
    client: Optional[bytes] = None
    association: int = 0
    mine: int = 0
    seen: int = 0
    own_end: int = 0
    out_end: int = 0
    acked: int = 0
    told: int = 0
    due: str = "none"
    pending: Optional[Pending] = None
    marked: bool = False

    def is_of(self, client, association):
        return self.client == client and self.association == association

    def emptied(self, status):
        """The unit without its client, ends and due change; counters and pending reply stay."""
        return replace(
            self, status=status, client=None, association=0, own_end=0, out_end=0, acked=0, told=0, due="none"
        )


UNTOUCHED = Unit()


class Book:
    """The state of one side's journal, line by line."""

    def __init__(self, side, volume):
        self.side = side
        self.volume = volume
        self.settings = None
        self.opened = 0
        self.pools = []
        self.transit = 0
        self.last_event = None
        self.based = False
        self.term = 0
        self.serial = 0
        self.restart = 0
        self.waiting = False
        self.asked = 0
        self.down = None
        self.units = {}
        self.marks = 0
        self.closed = False

    def has_unit(self, prefix):
        return any(pool.contains(prefix) and prefix.length == length for pool, length in self.pools)

    def unit(self, prefix):
        """The unit of a prefix that is one."""
        return self.units.get(prefix, UNTOUCHED)

    def set_unit(self, prefix, unit):
        self.marks += unit.marked - self.unit(prefix).marked
        self.units[prefix] = unit

    def own_status(self):
        """The status of the units that this side may give."""
        return "free" if self.side == "A" else "backup"

    def foreign_status(self):
        return "backup" if self.side == "A" else "free"

    def margin(self):
        """What an own end allows for clocks and transit."""
        return 2 * self.settings.skew + self.transit

    def valid_of(self, unit, reading):
        """The lifetime that a grant at this reading has, in seconds."""
        bound = max(unit.acked, reading) + 1000 * self.settings.mclt - reading
        return min(self.settings.life, bound // 1000)

    def takeover(self, unit):
        """The reading from which a unit of the partner's may be seized while the partner is down."""
        return max(unit.told, self.down) + 1000 * self.settings.mclt + self.margin()

    def add(self, line):
        """Makes a line's change. The line breaks no rule."""
        event = line.event
        effect = EFFECTS.get(type(event))
        if effect:
            effect(self, line.reading, event)
        self.last_event = event


def add_open(book, reading, event):
    book.settings = event
    book.opened = reading


def add_pool(book, _, event):
    book.pools.append((event.prefix, event.unit_length))


def add_transit(book, _, event):
    book.transit = event.milliseconds


def add_base(book, _, event):
    book.based = True
    book.term, book.serial, book.restart, book.waiting, book.asked = event


def add_unit_line(book, _, event):
    prefix, *fields = event
    book.set_unit(prefix, Unit(*fields))


def add_grant(book, reading, event):
    unit = book.unit(event.prefix)
    own_end = max(unit.own_end, reading + 1000 * event.valid + book.margin())
    out_end = reading + 2000 * book.settings.life
    bound = replace(unit, status="active", client=event.client, association=event.association)
    book.set_unit(event.prefix, replace(bound, mine=unit.mine + 1, own_end=own_end, out_end=out_end, due="active"))


def changed(status, due):
    """The effect of an event that gives a unit a status and makes a change due."""

    def effect(book, _, event):
        unit = book.unit(event.prefix)
        book.set_unit(event.prefix, replace(unit, status=status or unit.status, mine=unit.mine + 1, due=due))

    return effect


def add_seize(book, _, event):
    unit = book.unit(event.prefix)
    book.set_unit(event.prefix, replace(unit.emptied(book.own_status()), mine=unit.mine + 1, marked=True))


def add_send(book, _, event):
    book.serial = event.serial
    if isinstance(event.body, Reply):
        book.set_unit(event.body.prefix, replace(book.unit(event.body.prefix), pending=None))


def add_state(book, reading, event):
    if event.name == "down":
        book.term += 1
        book.down = reading
    else:
        book.down = None


def add_restart(book, _, event):
    book.restart = event.number
    book.waiting = True


def add_close(book, _reading, _event):
    book.closed = True


def add_take(book, reading, event):
    """Takes a message; gives whether it was accepted, rejected or dropped."""
    body = event.body
    if isinstance(body, Contact):
        return take_contact(book, event.term, body)
    if event.term != book.term or not book.has_unit(body.prefix):
        return "drop"
    unit = book.unit(body.prefix)
    if isinstance(body, Reply):
        return take_reply(book, unit, body)
    return take_update(book, reading, unit, body)


def take_contact(book, term, body):
    if term == book.term:
        if body.ask != 0:
            book.asked = body.ask
        if body.answer == book.restart and body.answer != 0:
            book.waiting = False
        return "accept"
    if term > book.term and book.waiting:
        book.term = term
        if body.ask != 0:
            book.asked = body.ask
        return "accept"
    return "drop"


def take_reply(book, unit, body):
    due = "mark" if unit.marked else unit.due
    if body.verdict != "accept" or due == "none" or body.of != unit.mine or body.mine <= unit.seen:
        return "drop"
    after = replace(unit, seen=body.mine)
    if unit.marked:
        # The mark stands for the due change, which becomes a newer one.
        after = replace(after, marked=False, mine=unit.mine + (unit.due != "none"))
    elif due == "active":
        after = replace(after, due="none", acked=max(unit.acked, unit.out_end))
    elif due == "backup":
        after = replace(after, due="none")
    else:
        after = after.emptied("free")
    book.set_unit(body.prefix, after)
    return "accept"


def take_update(book, reading, unit, body):
    if body.mine <= unit.seen:
        return "drop"
    after = updated(book, reading, unit, body)
    if after is None:
        pending = Pending("reject", body.mine, unit.mine, unit.seen)
        book.set_unit(body.prefix, replace(unit, pending=pending))
        return "reject"
    mine = unit.mine + 1
    pending = Pending("accept", body.mine, mine, body.mine)
    book.set_unit(body.prefix, replace(after, mine=mine, seen=body.mine, pending=pending))
    return "accept"


def updated(book, reading, unit, body):
    """What a unit becomes by an update that its book accepts, counters and pending reply apart; None where it rejects it."""
    at_secondary = book.side == "B"
    same = unit.status == "active" and unit.is_of(body.client, body.association)
    # The units that are the partner's to give.
    partners = unit.status == book.foreign_status()
    if unit.marked:
        return None
    if body.status == "active" and (partners or same):
        due = "active" if unit.due == "active" else "none"
        bound = replace(unit, status="active", client=body.client, association=body.association)
        return replace(bound, told=max(unit.told, body.end), due=due)
    if body.status in LEFT and ((same and reading >= unit.own_end) or unit.status in LEFT or partners):
        return unit.emptied("free")
    if body.status == "released" and same and body.seen == unit.mine:
        return unit.emptied("free")
    if body.status == "backup" and at_secondary and unit.status == "free" and body.seen == unit.mine:
        return replace(unit, status="backup")
    if body.status == "free" and at_secondary and unit.status in ("free", "backup"):
        return unit.emptied("free")
    if body.status == "seized" and book.waiting:
        return unit.emptied(book.foreign_status())
    return None


EFFECTS = {
    Open: add_open,
    Pool: add_pool,
    Transit: add_transit,
    Base: add_base,
    UnitLine: add_unit_line,
    Grant: add_grant,
    Release: changed("released", "released"),
    Expire: changed("expired", "expired"),
    Backup: changed("backup", "backup"),
    Reclaim: changed(None, "free"),
    Seize: add_seize,
    Send: add_send,
    Take: add_take,
    State: add_state,
    Restart: add_restart,
    Close: add_close,
}
