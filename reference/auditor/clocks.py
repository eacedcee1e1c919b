"""What two journals tell of the clocks that wrote them: the refusal K1, and the least skew that they fit."""
from typing import NamedTuple

from .words import SIDES, Reference, Refused, other_side


class Behind(NamedTuple):
    """A take that reads less than its send, and by how many milliseconds."""

    take: Reference
    send: Reference
    milliseconds: int

    def __str__(self):
        return f"{self.take} behind {self.send}"


def takes_behind(pair):
    """The takes that read less than their sends, A's before B's, of two journals whose takes have their sends."""
    for side in SIDES:
        for line in pair.takes(side):
            send = pair.send_of(side, line.event)
            if line.reading < send.reading:
                take, sent = Reference(side, line.number), Reference(other_side(side), send.number)
                yield Behind(take, sent, send.reading - line.reading)


def refusal_of(behind, skew):
    """K1: a take that reads more than twice the skew behind its send fits no clocks within that skew. None where all fit."""
    early = (found.take for found in behind if found.milliseconds > 2 * skew)
    return next((Refused(f"K1 Clocks {take}") for take in early), None)


def farthest(behind):
    """The first of the takes that read the most behind their sends, None where no take is behind."""
    return max(behind, key=lambda found: found.milliseconds, default=None)


def least_skew(behind):
    """The least skew with which no take is refused: half of the most that one is behind, rounded up."""
    needing = farthest(behind)
    return 0 if needing is None else (needing.milliseconds + 1) // 2
