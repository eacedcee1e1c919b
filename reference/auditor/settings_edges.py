"""Journals that differ in an open, pool or transit line, or in none, asked at their skew and transit and one off."""
from .clock_edges import CLOSED, FAR, OPENED, sends, takes
from .edges import BASE, GRANT, at, certificate
from .journals import Close, Contact, Open, Pool, Take, Transit
from .limits import HOUR, POOL
from .running import Entry
from .words import Prefix, Reference
from .writing import journal_text

OPEN, WIDER = Open(2_000, HOUR, HOUR), Open(2_001, HOUR, HOUR)
FIRST_POOL, OTHER_POOL = Pool(POOL, 56), Pool(Prefix(0x20010DB9 << 96, 48), 56)
TRANSIT, LONGER = Transit(3), Transit(4)
USUAL = [OPEN, FIRST_POOL, OTHER_POOL, TRANSIT]
# Other lines that a server may begin with.
OTHERS = (
    [WIDER, *USUAL[1:]],
    [Open(2_000, HOUR + 1, HOUR), *USUAL[1:]],
    [Open(2_000, HOUR, HOUR + 1), *USUAL[1:]],
    [OPEN, Pool(POOL, 57), OTHER_POOL, TRANSIT],
    [OPEN, FIRST_POOL, TRANSIT],
    [OPEN, OTHER_POOL, FIRST_POOL, TRANSIT],
    [OPEN, FIRST_POOL, OTHER_POOL],
    [OPEN, FIRST_POOL, OTHER_POOL, LONGER],
)
# Lines that break rules, and are lines all the same.
BROKEN = (
    [],
    USUAL[1:],
    [*USUAL, OPEN],
    [*USUAL, WIDER],
    [WIDER, *USUAL],
    [*USUAL, TRANSIT],
    [*USUAL, LONGER],
    [OPEN, FIRST_POOL, OTHER_POOL, LONGER, TRANSIT],
    [OPEN, FIRST_POOL, TRANSIT, OTHER_POOL],
    # A pool line that is late, in the usual order.
    [OPEN, FIRST_POOL, BASE, OTHER_POOL, TRANSIT],
)
# Skews and transits to ask with.
ASKED = ((2_000, 3), (1_999, 3), (2_001, 3), (2_000, 2), (2_000, 4), (2_001, 4), (0, 0))
CERTIFICATE = certificate(Reference("A", len(USUAL) + 1), 12_000, 13_000)


def pair(first, second, sent=(), taken=()):
    """A's journal, of these lines and a grant, and B's, opened a millisecond later, each with these entries more."""
    entries = {"A": [*at(OPENED - 1, *first), *at(OPENED, GRANT), *sent], "B": [*at(OPENED, *second), *taken]}
    return [journal_text(side, 1, [*entries[side], Entry(CLOSED, Close())]) for side in "AB"]


def refused():
    """Journals of two pairs that are refused for their messages or clocks, or as texts, which aren't warned of."""
    heads = (USUAL, OTHERS[-1])
    yield pair(*heads, (), takes(OPENED, 1))
    yield pair(*heads, sends(OPENED, 1), at(OPENED, Take(0, 1, Contact(1, 0))))
    yield pair(*heads, [*takes(OPENED, 1), *sends(OPENED, 1)], [*takes(OPENED, 1), *sends(OPENED, 1)])
    yield pair(*heads, sends(OPENED + FAR, 1), takes(OPENED, 1))
    first, second = pair(*heads)
    yield [first.replace(b"A", b"B", 1), second]
    yield [first, second.removesuffix(b"\n")]
    yield [first, second.replace(b"transit 4", b"transit 04")]


def inputs():
    """Two journals."""
    yield pair(USUAL, USUAL)
    for head in OTHERS + BROKEN:
        yield from (pair(USUAL, head), pair(head, USUAL), pair(head, head))
    yield from refused()
