"""The demands of the journal's rules on a line, asked of the book before it."""

from .units import ACTIVE, BACKUP, FREE, Table
from .values import MOST_LINES, READING_LIMIT, overlap, units_of

PREFIX_RULES = ("grant", "release", "expire", "backup", "reclaim")
MOST_UNITS = 65_536
SKEW_LIMIT = 86_400_000
LIFETIME_LIMIT = 31_536_000
TRANSIT_LIMIT = 3_600_000
LAST_TERM = 4_294_967_295
HEAD_EVENTS = ("base", "carry", "unit")
HEAD_LIMIT = 1 << 48


def allowed_lifetime(book, unit, now):
    """The lead-time sum: no grant outlasts what the partner acknowledged by more than the lead time."""
    lead = max(unit.acked, now) + 1000 * book.mclt - now
    return min(book.life, lead // 1000)


def own_pool(role):
    return FREE if role == "A" else BACKUP


def takeover(book, unit):
    """The first reading at which a unit of the partner's may be seized."""
    return max(unit.told, book.down) + 1000 * book.mclt + 2 * book.skew + book.transit


def may_expire(unit, reading):
    return unit.status == ACTIVE and reading >= unit.own_end and reading >= unit.told


def may_seize(book, unit, reading):
    if book.down is None or unit is None or unit.status == own_pool(book.role):
        return False
    return reading >= unit.own_end and reading >= takeover(book, unit)


def opening_rule(book, event):
    """Rules 2, 3 and 19: the lines with which a journal begins."""
    place = len(book.lines)
    if event[0] == "open":
        _, skew, mclt, life = event
        fit = skew <= SKEW_LIMIT and 1 <= mclt <= LIFETIME_LIMIT and 1 <= life <= LIFETIME_LIMIT
        return None if place == 0 and fit else 2
    if place == 0:
        return 2
    if event[0] == "pool":
        return None if pool_fits(book, event) else 3
    if place == 1:
        return 3
    if event[0] == "transit":
        fit = book.lines[-1].event[0] == "pool" and 1 <= event[1] <= TRANSIT_LIMIT
        return None if fit else 19
    return None


def carried(event):
    """What carry and unit lines are sorted by."""
    return (event[3], event[1], event[2]) if event[0] == "carry" else (event[1],)


def head_fits(book, event):
    """Rule 18: the lines with which a later volume goes on after its opening."""
    before = book.lines[-1].event
    if event[0] == "base":
        return not book.based and before[0] in ("pool", "transit") and max(event[2], event[3]) <= HEAD_LIMIT
    if not book.based or before[0] not in (("base", "carry") if event[0] == "carry" else ("base", "carry", "unit")):
        return False
    if before[0] == event[0] and carried(before) >= carried(event):
        return False
    if book.table.get(carried(event)[0]) is None:
        return False
    if event[0] == "unit":
        return event[5] <= HEAD_LIMIT
    return event[4] + 2 * book.skew + book.transit > book.lines[0].reading


def volume_rule(book, event):
    if event[0] in HEAD_EVENTS:
        return None if book.volume > 1 and head_fits(book, event) else 18
    early = book.volume > 1 and not book.based and event[0] not in ("open", "pool", "transit")
    return 18 if early else None


def pool_fits(book, event):
    _, prefix, length = event
    if book.lines[-1].event[0] not in ("open", "pool") or len(book.pools) == 16:
        return False
    if not prefix[1] <= length <= 128 or any(overlap(prefix, other) for other, _ in book.pools):
        return False
    return sum(1 << (bits - pool[1]) for pool, bits in book.pools + [(prefix, length)]) <= MOST_UNITS


def grant_rule(book, event, reading):
    _, client, identifier, prefix, valid = event
    unit = book.table.get(prefix)
    if book.waiting:
        return 5
    if unit.status != own_pool(book.role) and not unit.holds(client, identifier):
        return 6
    return None if valid == allowed_lifetime(book, unit, reading) else 7


def unit_rule(book, event, reading):
    """Rules 4 to 11: what an event on one unit asks of it."""
    kind = event[0]
    unit = book.table.get(event[1] if kind in ("expire", "backup", "reclaim") else event[3])
    if unit is None:
        return 4
    if kind == "grant":
        return grant_rule(book, event, reading)
    if kind == "release":
        return None if unit.holds(event[1], event[2]) else 8
    if kind == "expire":
        return None if may_expire(unit, reading) else 9
    status, rule = (FREE, 10) if kind == "backup" else (BACKUP, 11)
    return None if book.role == "A" and unit.status == status else rule


def send_rule(book, event):
    """Rules 12 to 15: what is sent is what the book has to say, under its next serial."""
    _, term, serial, body = event
    unit = None
    if body[0] != "contact":
        unit = book.table.get(body[2])
        if unit is None:
            return 4
    if serial != book.serial + 1 or term != book.term:
        return 12
    if body[0] == "update":
        return None if body == unit.update() else 13
    if body[0] == "reply":
        return None if body == unit.pending else 14
    return None if body == book.contact() else 15


def state_rule(book, event):
    if event[1] != "down":
        return None
    return None if not book.waiting and book.down is None and book.term < LAST_TERM else 16


def event_rule(book, line):
    """Rules 4 to 17 and 20."""
    event = line.event
    if event[0] in PREFIX_RULES:
        return unit_rule(book, event, line.reading)
    if event[0] == "send":
        return send_rule(book, event)
    if event[0] == "state":
        return state_rule(book, event)
    if event[0] == "restart":
        return None if event[1] == book.restart + 1 else 17
    if event[0] == "seize":
        seizable = may_seize(book, book.table.get(event[1]), line.reading)
        return None if seizable else min(20, volume_rule(book, event) or 20)
    return None


def broken_rule(book, line):
    """The least rule that the line breaks as the book's next one, None where it is legal."""
    place, event = len(book.lines), line.event
    last = book.lines[-1].reading if book.lines else 0
    if line.number != place + 1 or line.number > MOST_LINES or not last <= line.reading <= READING_LIMIT or book.closed:
        return 1
    rule = opening_rule(book, event)
    if rule is not None:
        return rule
    return event_rule(book, line) or volume_rule(book, event)


def table_of(pools):
    return Table(units_of(pools))
