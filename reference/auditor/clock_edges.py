"""Takes that read just twice the skew behind their sends, or a millisecond more: which is named, and what is refused before."""
from .edges import BASE, GRANT, PLAIN, at, certificate
from .journals import Close, Contact, Send, Take
from .limits import HEAD
from .rules import MOST_SKEW
from .running import Entry
from .words import MOST_READING, Reference
from .writing import journal_text

OPENED = 9_000
CLOSED = 400_000_000
FAR = 100_000
NOTHING = Contact(0, 0)
EMPTY = certificate(Reference("A", 3), 12_000, 12_000)
CERTIFICATES = [PLAIN, EMPTY, PLAIN.replace(b"piece", b"pieces")]


def sends(reading, *serials):
    return at(reading, *[Send(0, serial, NOTHING) for serial in serials])


def takes(reading, *serials):
    return at(reading, *[Take(0, serial, NOTHING) for serial in serials])


def pair(first, second, opened=OPENED, closed=CLOSED):
    """A's journal, with a grant, and B's, each with these entries more."""
    heads = {"A": at(opened, *HEAD, GRANT), "B": at(opened, *HEAD)}
    added = {"A": first, "B": second}
    return [journal_text(side, 1, [*heads[side], *added[side], Entry(closed, Close())]) for side in "AB"]


def distances():
    """One take behind its send, on either side, by as much as a skew allows and by a millisecond more."""
    for skew in (0, 1, 2_000, MOST_SKEW):
        skews = [near for near in (skew - 1, skew, skew + 1) if 0 <= near <= MOST_SKEW]
        for milliseconds in (2 * skew, 2 * skew + 1, 2 * skew + 2):
            sent, taken = sends(OPENED + milliseconds, 1), takes(OPENED, 1)
            yield pair(sent, taken), skews
            yield pair(taken, sent), skews
    ends = [sends(MOST_READING, 1), takes(0, 1)]
    yield pair(*ends, opened=0, closed=MOST_READING), (0, MOST_SKEW)


def choices():
    """Several takes that are behind: the first is refused, and the farthest needs the least skew."""
    far, farther = OPENED + FAR, OPENED + 2 * FAR
    skews = (2_000, FAR // 2 - 1, FAR // 2, FAR - 1, FAR)
    # Two takes of one side, the later one farther, and both as far.
    yield pair([*sends(far, 1), *sends(farther, 2)], takes(OPENED, 1, 2)), skews
    yield pair(takes(OPENED, 1, 2), [*sends(far, 1), *sends(farther, 2)]), skews
    yield pair(sends(far, 1, 2), takes(OPENED, 1, 2)), skews
    # The later send taken before the earlier one, and one taken again.
    yield pair([*sends(far, 1), *sends(farther, 2)], takes(OPENED, 2, 1)), skews
    yield pair(sends(far, 1), [*takes(OPENED, 1), *takes(OPENED + 1, 1)]), skews
    # A take of either side: B's is farther, A's, or neither.
    for sent in (far + FAR + 1, far + FAR, far + FAR - 1):
        yield pair([*takes(OPENED, 1), *sends(sent, 1)], [*sends(far, 1), *takes(far, 1)]), skews
        yield pair([*sends(far, 1), *takes(far, 1)], [*takes(OPENED, 1), *sends(sent, 1)]), skews


def earlier_volumes():
    """Takes of what a partner's earlier volume sent are passed over, those behind them aren't."""
    skews = (2_000, FAR // 2 - 1, FAR // 2)
    for serials in ((4, 5), (5, 6), (6, 5), (4, 5, 6)):
        sent = sends(OPENED + FAR, 6) if 6 in serials else []
        later = [*at(OPENED, *HEAD, BASE._replace(serial=5)), *sent, Entry(CLOSED, Close())]
        first = [*at(OPENED, *HEAD), *takes(OPENED, *serials), Entry(CLOSED, Close())]
        yield [journal_text("A", 2, later), journal_text("B", 1, first)], skews
        yield [journal_text("A", 1, first), journal_text("B", 2, later)], skews


def refused_before():
    """A take that is early beside what is refused before it."""
    early = takes(OPENED, 1)
    yield pair(sends(OPENED + FAR, 1), [*early, *takes(OPENED, 2)]), (2_000,)
    yield pair(sends(OPENED + FAR, 1, 2), [*early, *at(OPENED, Take(0, 2, Contact(1, 0)))]), (2_000,)
    yield pair([*early, *sends(OPENED + FAR, 1)], [*early, *sends(OPENED + FAR, 1)]), (2_000,)
    yield pair(sends(OPENED + FAR, 1), [*early, *at(OPENED, GRANT)]), (2_000,)
    first, second = pair(sends(OPENED + FAR, 1), early)
    yield [first, second.removesuffix(b"\n")], (2_000,)


def inputs():
    """Two journals, and the skews to audit them with."""
    yield from distances()
    yield from choices()
    yield from earlier_volumes()
    yield from refused_before()
