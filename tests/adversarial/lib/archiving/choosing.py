"""Which volumes show a moment, and what these show, by hand."""
import re
from typing import NamedTuple

from auditor.joining import HEAD
from auditor.journals import Base, Close, Send, Take
from auditor.running import Entry
from auditor.words import other_side
from auditor.writing import journal_text

from .drawing import Volume


# The volumes that an answer names: `volumes A40-48 B39-47`.
NAMED = re.compile(rb"^volumes A(\d+)(?:-(\d+))? B(\d+)(?:-(\d+))?$", re.MULTILINE)


class Stretch(NamedTuple):
    """The moments that a volume shows: from its open line, or from ever where it's its server's first, to its last."""

    start: int
    end: int


def shown_by(volume, settings):
    start = 0 if volume.number == 1 else volume.opened() + settings.skew + settings.transit
    return Stretch(start, max(0, volume.last() - settings.skew))


def pair_for(volumes, moment, settings):
    """The volume of each side that shows a moment, by its side; only those sides that have one."""
    pair = {}
    for volume in volumes:
        stretch = shown_by(volume, settings)
        if stretch.start <= moment < stretch.end:
            pair[volume.side] = volume
    return pair


def last_serial(entries):
    """The serial of the last message that a server sent by the end of these lines."""
    serial = 0
    for _, event in entries:
        if isinstance(event, (Send, Base)):
            serial = event.serial
    return serial


def borne_out(own, other):
    """A volume up to its first take of what the other doesn't send yet, closed behind its last line there."""
    serial, entries = last_serial(other.entries), []
    for entry in own.entries:
        if isinstance(entry.event, Take) and entry.event.serial > serial:
            break
        entries.append(entry)
    if entries and not isinstance(entries[-1].event, Close):
        entries.append(Entry(entries[-1].reading, Close()))
    return Volume(own.side, own.number, entries)


def texts_of(pair):
    """The two journals that a pair of volumes shows."""
    shown = [borne_out(pair[side], pair[other_side(side)]) for side in "AB"]
    return [journal_text(volume.side, volume.number, volume.entries) for volume in shown]


def spans_in(notes):
    """The numbers of the first volume and the last of each side that an answer names on standard error; None where it names none."""
    found = NAMED.search(notes)
    if not found:
        return None
    first_a, last_a, first_b, last_b = (found[part] for part in (1, 2, 3, 4))
    return {"A": (int(first_a), int(last_a or first_a)), "B": (int(first_b), int(last_b or first_b))}


def joined(volumes, side, span):
    """The volumes of a side with these numbers as one: without heads and closes between them."""
    entries = []
    for number in range(span[0], span[1] + 1):
        volume = next(volume for volume in volumes if (volume.side, volume.number) == (side, number))
        behind = volume.entries
        if entries:
            entries.pop()
            behind = behind[next(place for place, entry in enumerate(behind) if not isinstance(entry.event, HEAD)) :]
        entries += behind
    return Volume(side, span[0], entries)


def pair_of(volumes, spans):
    """The volumes of both sides, each side's as one."""
    return {side: joined(volumes, side, spans[side]) for side in "AB"}
