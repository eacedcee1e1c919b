"""Inputs at the very bound of what each rule and refusal compares, and one off it, which random draws seldom meet."""
from .certificates import ByChain, Certificate, Early, Foreign, Late, Piece, Released
from .journals import Base, Carry, Close, Contact, Expire, Grant, Release, Reply, Seize, Send, State, Take, Transit, UnitLine, Update
from .limits import FIRST, HEAD, HOLDER, HOUR, STRANGER
from .running import Entry
from .words import Reference
from .writing import certificate_text, journal_text

OPENED = 9_000
CLOSED = 40_000_000
BASE = Base(0, 0, 0, False, 0)
UNIT = UnitLine(FIRST, "active", HOLDER, 1, 3, 2, 0, 0, 0, 0, "none", None)
GRANT = Grant(HOLDER, 1, FIRST, HOUR)
OTHER = Grant(STRANGER, 1, FIRST, HOUR)


def at(reading, *events):
    return [Entry(reading, event) for event in events]


def text_of(side, entries, volume=1):
    return journal_text(side, volume, [*entries, Entry(CLOSED, Close())])


def certificate(grant, start, end, foreign=(), earliest=None):
    piece = Piece(grant, start, end, [grant], earliest or [grant], [])
    return certificate_text(Certificate(HOLDER, FIRST, start, end, [piece], list(foreign)))


PLAIN = certificate(Reference("A", 3), 12_000, 13_000)
PARTNER = text_of("B", at(OPENED, *HEAD))


def later(*events):
    return at(OPENED, *HEAD, BASE, *events)


def state_of_a():
    """Journals of A whose legality hangs on what an earlier line left of a unit."""
    for reading in (19_999_999, 20_000_000):
        yield [*later(UNIT._replace(own_end=20_000_000)), *at(OPENED, GRANT), *at(reading, Expire(FIRST))]
        told = UNIT._replace(told=20_000_000)
        taken = Take(0, 1, Update("active", FIRST, 3, 3, 100, 1, HOLDER))
        yield [*later(told, taken), *at(reading, Expire(FIRST))]
    accepted = Take(0, 1, Reply("accept", FIRST, 3, 4, 3))
    acked = UNIT._replace(acked=20_000_000, out_end=10_000, due="active")
    short = [HEAD[0]._replace(mclt=1), *HEAD[1:], BASE]
    for valid in (1, HOUR):
        granted = at(10_000_000, GRANT._replace(valid=valid))
        yield [*at(OPENED, *short, acked, accepted), *granted]
        yield [*at(OPENED, *short, acked._replace(acked=0, out_end=20_000_000), accepted), *granted]
    for reading in (22_603_999 + 1_000_000, 23_604_000, 23_603_999):
        yield [*later(UNIT._replace(told=20_000_000), State("down")), *at(reading, Seize(FIRST))]
    active = Take(0, 1, Update("active", FIRST, 3, 3, 100, 1, HOLDER))
    for due in ("none", "active", "expired", "released"):
        changed = UNIT._replace(due=due)
        for status in ("active", "expired", "released"):
            sent = Send(0, 1, Update(status, FIRST, 4, 3, 0, 1, HOLDER))
            yield later(changed, active, sent)
    yield later(UNIT, Carry(HOLDER, 1, FIRST, 10_000))
    for answer in (0, 1):
        yield [*at(OPENED, *HEAD, Base(0, 0, 0, True, 0)), *at(OPENED, Take(0, 1, Contact(0, answer)), GRANT)]


def openings():
    """Pieces of B's grant beside a later volume of A, with and without transit."""
    first = text_of("A", [*at(1_000_000, *HEAD, BASE), *at(1_000_001, Send(0, 1, Contact(0, 0)))], 2)
    backup = Take(0, 1, Contact(0, 0))
    for reading in (1_000_000, 1_003_999, 1_004_000, 1_004_001):
        unit = UnitLine(FIRST, "backup", None, 0, 1, 1, 0, 0, 0, 0, "none", None)
        second = text_of("B", [*at(OPENED, *HEAD, BASE, unit), *at(reading, backup, GRANT)], 2)
        grant = Reference("B", 6)
        for earliest in (None, [Reference("A", 4), Reference("B", 5), grant]):
            yield [first, second], [certificate(grant, start, 1_010_000, (), earliest) for start in (1_007_000, 1_006_003)]
    unit = UnitLine(FIRST, "backup", None, 0, 1, 1, 0, 0, 0, 0, "none", None)
    behind = text_of("B", [*at(OPENED, *HEAD, BASE, unit), *at(999_000, backup, GRANT)], 2)
    chain = [Reference("A", 4), Reference("B", 5), Reference("B", 6)]
    for start in (1_001_999, 1_002_000, 1_002_002, 1_002_003):
        yield [first, behind], [certificate(chain[-1], start, 1_010_000, (), chain)]
    second = text_of("A", [*at(1_000_000, *HEAD, BASE), *at(1_000_000, GRANT)], 2)
    for start in (1_001_999, 1_002_000, 1_002_002, 1_002_003):
        yield [second, PARTNER], [certificate(Reference("A", 4), start, 1_010_000)]


def foreigners():
    """Reasons of a stranger's grant or carry line, at their bounds."""
    carry = Reference("A", 4)
    unit = UNIT._replace(status="free", client=None, association=0)
    head = later(Carry(STRANGER, 1, FIRST, 20_000), unit)
    journals = [text_of("A", [*head, *at(10_000, GRANT)], 2), PARTNER]
    for start in (21_999, 22_000, 22_002, 22_003):
        yield journals, [certificate(Reference("A", 6), start, 30_000, [Foreign(carry, Early([carry]))])]
    for end in (6_000, 7_000, 30_000):
        yield journals, [certificate(Reference("A", 6), 13_000, end, [Foreign(carry, Late([carry]))])]
    late = Reference("A", 6)
    for reading in (40_000, 40_001):
        unit_b = UnitLine(FIRST, "backup", None, 0, 1, 1, 0, 0, 0, 0, "none", None)
        second = text_of("B", [*at(OPENED, *HEAD, BASE, unit_b), *at(reading, OTHER)], 2)
        reference = Reference("B", 5)
        reasons = [Foreign(carry, Early([carry])), Foreign(reference, Late([reference]))]
        yield [journals[0], second], [certificate(late, 24_000, end, reasons) for end in (37_999, 38_000, 38_001)]
        again = text_of("A", [*head, *at(3_000_000, GRANT)], 2)
        reasons = [Foreign(carry, Early([carry])), Foreign(reference, Early([reference]))]
        yield [again, second], [certificate(late, 3_642_000 + more, 3_700_000, reasons) for more in range(5)]
    yield carried_late()


def carried_late():
    """A carry line long after its open line: it tells of a grant before it all the same."""
    carry = Reference("A", 4)
    first = text_of("A", [*at(OPENED, *HEAD, BASE), *at(100_000, Carry(STRANGER, 1, FIRST, 90_000_000))], 2)
    unit = UnitLine(FIRST, "backup", None, 0, 1, 1, 0, 0, 0, 0, "none", None)
    second = text_of("B", [*at(OPENED, *HEAD, BASE, unit), *at(20_000, GRANT)], 2)
    return [first, second], [certificate(Reference("B", 5), 23_000, 98_000, [Foreign(carry, Late([carry]))])]


def releases():
    """A stranger's grant that was released: the interval begins with the release's latest moment, or a millisecond before."""
    unit_b = UnitLine(FIRST, "backup", None, 0, 1, 1, 0, 0, 0, 0, "none", None)
    head = at(OPENED, *HEAD, BASE, Carry(STRANGER, 1, FIRST, 90_000_000), UNIT._replace(client=STRANGER))
    first = text_of("A", [*head, *at(20_000, Release(STRANGER, 1, FIRST))], 2)
    partner = text_of("B", [*at(OPENED, *HEAD, BASE, unit_b), *at(19_000, GRANT)], 2)
    carry, release, grant = Reference("A", 4), Reference("A", 6), Reference("B", 5)
    for start in (21_999, 22_000, 22_001):
        reason = Released(release, ByChain([carry, release]), [release])
        yield [first, partner], [certificate(grant, start, 30_000, [Foreign(carry, reason)])]


def inputs():
    """Two journals and a list of certificates each, with the transits to audit them with."""
    for entries in state_of_a():
        yield [text_of("A", entries, 2), PARTNER], [PLAIN], (0,)
        yield [text_of("A", at(OPENED, *HEAD)), text_of("B", entries, 2)], [PLAIN], (0,)
    for journals, certificates in [*openings(), *foreigners(), *releases()]:
        yield journals, certificates, (0, 3)
    for milliseconds in (1, 3):
        entries = [*at(OPENED, *HEAD, Transit(milliseconds)), *at(10_000, GRANT)]
        for reading in (3_614_000, 3_614_001, 3_614_002, 3_614_003):
            yield [text_of("A", [*entries, *at(reading, Expire(FIRST))]), PARTNER], [PLAIN], (0,)
