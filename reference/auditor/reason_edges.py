"""Small journals of which each reason why nobody is named holds, and all that may have been so of a delegation."""
from .edges import BASE, GRANT, OTHER, UNIT, at
from .journals import Carry, Close, Release, UnitLine
from .limits import FIRST, HEAD, HOLDER, SECOND, STRANGER
from .running import Entry
from .words import Prefix
from .writing import journal_text

OPENED = 9_000
CLOSED = 200_000_000
SKEW = 2_000
TRANSIT = 3
GIVEN = Release(HOLDER, 1, FIRST)
BACKUP = UnitLine(FIRST, "backup", None, 0, 1, 1, 0, 0, 0, 0, "none", None)
EARLIER = [*HEAD, BASE]
ADDRESS = Prefix(FIRST.last(), 128)
WIDER = Prefix(FIRST.address, 55)
OUTSIDE = Prefix(FIRST.address ^ (1 << 100), 56)


def text_of(side, entries, volume=1, closed=CLOSED):
    return journal_text(side, volume, [*entries, Entry(closed, Close())])


def pair(first, second, volumes=(1, 1), closed=(CLOSED, CLOSED)):
    return [text_of(*given) for given in zip("AB", (first, second), volumes, closed)]


def given_back():
    """A's grant, and B's release just as far away as the clocks may be, a millisecond farther or nearer."""
    granted = [*at(OPENED, *HEAD), *at(50_000, GRANT)]
    for apart in (-2 * SKEW - 1, -2 * SKEW, 0, 2 * SKEW, 2 * SKEW + 1):
        second = [*at(OPENED, *EARLIER, UNIT), *at(50_000 + apart, GIVEN)]
        yield pair(granted, second, (1, 2)), (FIRST,), (SKEW,)
    own = [*granted, *at(60_000, GIVEN)]
    yield pair(own, at(OPENED, *HEAD)), (FIRST, ADDRESS), (SKEW, 0)
    second = [*at(49_000, *EARLIER, UNIT), *at(51_000, GIVEN)]
    yield pair(granted, second, (1, 2)), (FIRST,), (SKEW,)
    # Two releases: of A, and of B before or after it.
    for reading in (55_000, 61_000, 70_000):
        second = [*at(OPENED, *EARLIER, UNIT), *at(reading, GIVEN)]
        yield pair(own, second, (1, 2)), (FIRST,), (SKEW,)


def carried():
    """What a later volume carries, beside nothing, a grant to its client and one to another."""
    head = at(OPENED, *EARLIER, Carry(HOLDER, 1, FIRST, 20_000), UNIT._replace(own_end=24_000))
    yield pair(head, at(OPENED, *HEAD), (2, 1)), (FIRST, WIDER), (SKEW,)
    long = at(OPENED, *EARLIER, Carry(HOLDER, 1, FIRST, 90_000), UNIT._replace(own_end=94_000))
    yield pair([*long, *at(30_000, GIVEN)], at(OPENED, *HEAD), (2, 1)), (FIRST,), (SKEW,)
    yield pair([*head, *at(15_000, GRANT)], at(OPENED, *HEAD), (2, 1)), (FIRST,), (SKEW,)
    second = [*at(OPENED + 1, *EARLIER, BACKUP), *at(30_000, OTHER)]
    yield pair(head, second, (2, 3)), (FIRST,), (SKEW,)
    yield pair(long, second, (2, 3)), (FIRST,), (SKEW,)
    # Two of one client.
    twice = [Carry(HOLDER, association, FIRST, 20_000) for association in (1, 2)]
    yield pair(at(OPENED, *EARLIER, *twice), at(OPENED, *HEAD), (2, 1)), (FIRST,), (SKEW,)


def earlier_volumes():
    """A's grant, and B's later volume that opens as far before it as the clocks may be, or a millisecond farther."""
    for apart in (2 * SKEW - 1, 2 * SKEW, 2 * SKEW + 1):
        first = [*at(OPENED, *HEAD), *at(50_000, GRANT)]
        yield pair(first, at(50_000 - apart, *EARLIER), (1, 2)), (FIRST, WIDER), (SKEW,)
        second = [*at(OPENED, *EARLIER, BACKUP), *at(50_000, GRANT)]
        yield pair(at(50_000 - apart, *EARLIER), second, (2, 2), (60_000, 60_000)), (FIRST, WIDER), (SKEW,)


def ends():
    """First volumes that open or close apart, with a grant to one client, to two, or to none; and what no pool has."""
    nothing = at(OPENED, *HEAD)
    granted = [*nothing, *at(50_000, GRANT)]
    for closed in ((1_000_000, 1_000_001), (1_000_001, 1_000_000), (1_000_000, CLOSED)):
        yield pair(granted, at(OPENED + 1, *HEAD), (1, 1), closed), (FIRST,), (SKEW,)
    backed = [*at(OPENED, *EARLIER, BACKUP), *at(60_000, OTHER)]
    yield pair(granted, backed, (1, 2)), (FIRST, WIDER), (SKEW,)
    other = at(50_000, GRANT._replace(prefix=SECOND, client=STRANGER))
    yield pair([*granted, *other], nothing), (WIDER, OUTSIDE), (SKEW,)
    yield pair(nothing, nothing), (FIRST, OUTSIDE), (SKEW,)
    yield pair([*nothing, *at(100_000_000, GRANT)], nothing), (FIRST,), (SKEW,)


def inputs():
    """Two journals, prefixes and skews to ask of, and the transit."""
    for group in (given_back, carried, earlier_volumes, ends):
        for texts, prefixes, skews in group():
            yield texts, prefixes, skews, TRANSIT
