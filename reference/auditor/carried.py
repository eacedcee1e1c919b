"""What a later volume carries that no legal volume before it leaves: the refusal K4."""
from .journals import Carry, UnitLine
from .words import SIDES, Refused

# The most milliseconds behind its journal's first reading at which what a line carries may end.
MOST_AHEAD = 10**11


def end_of(event):
    """The end that a carry line, or a unit's own, says; nothing of another line."""
    if isinstance(event, UnitLine):
        return event.own_end
    return event.end if isinstance(event, Carry) else 0


def refusal_of(pair):
    """K4: the first line that carries an end too far ahead of its journal's first reading. None where none does."""
    for side in SIDES:
        most = pair.open_reading(side) + MOST_AHEAD
        for line in pair.lines[side]:
            if end_of(line.event) > most:
                return Refused(f"K4 Carried {side}{line.number}")
    return None
