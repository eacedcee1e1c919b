"""Later volumes whose lines carry an end just as far ahead as one may be, a millisecond farther, or far beyond."""
from .carried import MOST_AHEAD
from .clock_edges import FAR, sends, takes
from .edges import BASE, UNIT, at
from .journals import Carry, Close, Contact, Take, Transit
from .limits import FIRST, HEAD, HOLDER, SECOND, STRANGER
from .running import Entry
from .words import MOST_COUNTER, MOST_READING, Prefix
from .writing import journal_text

OPENED = 9_000
CLOSED = 400_000_000
LAST = OPENED + MOST_AHEAD
THIRD = Prefix(FIRST.address + (2 << 72), 56)
EARLIER = [*HEAD, BASE]
# As far as is carried, farther, and less far.
ENDS = (LAST - 1, LAST, LAST + 1, LAST + FAR, MOST_COUNTER)
# Skews to ask with: the takes of the pairs of clock_edges that are behind are refused by the first alone.
SKEWS = (2_000, FAR)


def carry(end, prefix=FIRST, client=HOLDER):
    return Carry(client, 1, prefix, end)


def unit(end, prefix=FIRST):
    return UNIT._replace(prefix=prefix, own_end=end)


def volume(side, events, more=(), number=2, opened=OPENED):
    """A later volume that carries these, with these entries more."""
    entries = [*at(opened, *EARLIER, *events), *more]
    return journal_text(side, number, [*entries, Entry(max(CLOSED, opened), Close())])


def first_volume(side, more=()):
    return journal_text(side, 1, [*at(OPENED, *HEAD), *more, Entry(CLOSED, Close())])


def beside(events, **given):
    """A volume of either side that carries these, beside a first volume of the other."""
    yield [volume("A", events, **given), first_volume("B")]
    yield [first_volume("A"), volume("B", events, **given)]


def alone():
    """One line, of every status and in volumes of other numbers and readings."""
    for end in ENDS:
        yield from beside([carry(end)])
        yield from beside([unit(end)])
        for status in ("expired", "released"):
            yield from beside([unit(end)._replace(status=status)])
        for status in ("free", "backup"):
            yield from beside([unit(end)._replace(status=status, client=None, association=0)], number=3)
    for opened in (0, 1, MOST_READING - MOST_AHEAD, MOST_READING):
        for more in (0, 1):
            yield from beside([carry(opened + MOST_AHEAD + more)], opened=opened)
            yield from beside([unit(opened + MOST_AHEAD + more)], opened=opened)


def of_other_ends():
    """Ends of a unit that aren't its own, and carry lines that stand later than the first line."""
    for name in ("out_end", "acked", "told", "seen", "mine"):
        end = MOST_COUNTER // 2 if name == "mine" else MOST_COUNTER
        yield from beside([unit(LAST)._replace(**{name: end})])
        yield from beside([unit(LAST + 1)._replace(**{name: end})])
    for end in (LAST, LAST + 1, LAST + FAR):
        yield from beside([], more=at(OPENED + FAR, carry(end)))
        yield from beside([], more=at(OPENED + FAR, unit(end)))


def several():
    """Which line is named of several, on one side and on both."""
    for first in (LAST, LAST + 1):
        for second in (LAST, LAST + 1, MOST_COUNTER):
            yield from beside([carry(first), carry(second, FIRST, STRANGER)])
            yield from beside([carry(first), carry(LAST, SECOND), unit(second, SECOND)])
            yield from beside([unit(first), unit(second, SECOND), unit(LAST, THIRD)])
            yield [volume("A", [carry(first)]), volume("B", [carry(second)])]
            yield [volume("A", [unit(first)]), volume("B", [carry(second)], number=7)]
            yield [volume("A", [carry(LAST), unit(first)]), volume("B", [unit(second)])]
            # Each side's own first reading counts.
            yield [volume("A", [carry(first + 1)], opened=OPENED + 1), volume("B", [unit(second)])]
            yield [volume("A", [carry(first)]), volume("B", [unit(second)], opened=OPENED + FAR)]


def refused_before():
    """A line that carries too much beside what is refused before it."""
    sent, early = sends(OPENED + FAR, 1), takes(OPENED, 1)
    for over in ([carry(LAST + 1)], [unit(LAST + 1)]):
        yield [volume("A", over, sent), volume("B", over, early)]
        yield [volume("A", over, early), first_volume("B", sent)]
        yield [first_volume("A", early), volume("B", over, sent)]
        yield [volume("A", over, early), volume("B", over)]
        yield [volume("A", over, sent), volume("B", over, at(OPENED + FAR, Take(0, 1, Contact(1, 0))))]
        yield [volume("A", over, [*early, *sent]), volume("B", over, [*early, *sent])]
        yield [volume("A", over), volume("B", [*over, Transit(1)])]
        yield [volume("A", over), volume("B", over).removesuffix(b"\n")]
        # A first volume carries nothing, and neither does one without numbers.
        yield from beside(over, number=1)
        yield [volume("A", over, number=1), volume("B", over)]


def inputs():
    """Two journals, and the skews to audit them with."""
    for journals in (*alone(), *of_other_ends(), *several()):
        yield journals, SKEWS[:1]
    for journals in refused_before():
        yield journals, SKEWS
