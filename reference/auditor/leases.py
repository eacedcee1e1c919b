"""The delegations near a moment that were a client's or may have been, and what was so of each at that moment."""
from typing import NamedTuple

from .auditing import INFINITE, ends
from .journals import Carry, Grant, Release
from .values import time_of
from .words import SIDES, Prefix, Reference, association_word, client_word, other_side, prefix_word

# So many milliseconds from the moment asked of a delegation is still told.
NEAR = 86_400_000
# What was so of a delegation that was surely nobody's at the moment.
NOBODYS = ("not_begun", "ended", "given_back")


class Asked(NamedTuple):
    """A prefix and a moment, and what is allowed for clocks and transit."""

    prefix: Prefix
    moment: int
    skew: int
    transit: int


class Lease(NamedTuple):
    """A grant or carry line, and what was so of it."""

    reference: Reference
    line: object
    state: dict

    def may_have_been(self):
        return self.state["is"] not in NOBODYS


class Leases:
    """What two journals tell of a prefix near a moment."""

    def __init__(self, pair, asked):
        self.pair = pair
        self.asked = asked
        self.releases = [entry for entry in pair.held if isinstance(entry[1].event, Release)]
        self.all = [Lease(*entry, self.state(*entry)) for entry in pair.held if self.is_near(entry[1])]

    def surely_begun(self, line):
        return line.reading + self.asked.skew + self.asked.transit

    def lasts_to(self, line):
        """Up to when a grant surely lasted, None where it never ends."""
        if line.event.valid == INFINITE:
            return None
        return max(0, line.reading + 1000 * line.event.valid - self.asked.skew)

    def ended_by(self, line):
        """By when what a line tells of had surely ended, None where it never ends."""
        if isinstance(line.event, Carry):
            return line.event.end + self.asked.skew + self.asked.transit
        if line.event.valid == INFINITE:
            return None
        return self.surely_begun(line) + 1000 * line.event.valid

    def is_near(self, line):
        """Whether a line tells of a delegation of an address asked of, at most a day away."""
        event, asked = line.event, self.asked
        if isinstance(event, Release) or not event.prefix.overlaps(asked.prefix):
            return False
        if isinstance(event, Grant) and line.reading > asked.moment + asked.skew + NEAR:
            return False
        ended = self.ended_by(line)
        return ended is None or ended + NEAR >= asked.moment

    def follows(self, later, earlier):
        """Whether a line was surely written after another: in its own journal, or by clocks that are far apart."""
        if later.side == earlier.side:
            return later.number > earlier.number
        return self.pair.line(later).reading > self.pair.line(earlier).reading + 2 * self.asked.skew

    def giving_back(self, event):
        """The lines that give back what a line tells of."""
        return [entry for entry in self.releases if ends(entry[1].event, event)]

    def state(self, reference, line):
        """What was so of a line's delegation at the moment: the first that holds."""
        for name, values_of in STATES.items():
            values = values_of(self, reference, line)
            if values is not None:
                return {"is": name, **values}
        return {"is": "shown"}

    def not_begun(self, _, line):
        later = isinstance(line.event, Grant) and self.asked.moment + self.asked.skew < line.reading
        return {} if later else None

    def ended(self, _, line):
        by = self.ended_by(line)
        return {"by": time_of(by)} if by is not None and by <= self.asked.moment else None

    def given_back(self, reference, line):
        for release, told in self.giving_back(line.event):
            if self.follows(release, reference) and told.reading + self.asked.skew <= self.asked.moment:
                return {"release": str(release)}
        return None

    def carried(self, _, line):
        return {} if isinstance(line.event, Carry) else None

    def beginning(self, _, line):
        short = self.surely_begun(line) - self.asked.moment
        return {"begun_by": time_of(self.surely_begun(line)), "short_ms": short} if short > 0 else None

    def ending(self, _, line):
        lasts_to = self.lasts_to(line)
        if lasts_to is None or lasts_to > self.asked.moment:
            return None
        return {"lasts_to": time_of(lasts_to), "short_ms": self.asked.moment + 1 - lasts_to}

    def may_be_given_back(self, reference, line):
        for release, told in self.giving_back(line.event):
            if not self.follows(reference, release) and told.reading <= self.asked.moment + self.asked.skew:
                return {"release": str(release)}
        return None

    def earlier_volumes(self, reference, line):
        """The other side's volumes before its own may have had a line of it."""
        side = other_side(reference.side)
        needed = self.pair.open_reading(side) + 2 * self.asked.skew + 1
        if self.pair.volume(side) == 1 or line.reading >= needed:
            return None
        return {"side": side, "needed": time_of(needed)}

    def later_volumes(self, _reference, _line):
        return self.past_end()

    def needed(self):
        """Up to when a journal has to go to show the moment."""
        return self.asked.moment + 1 + self.asked.skew

    def ends_too_soon(self):
        """The sides whose journals end too soon for the moment."""
        return [side for side in SIDES if self.needed() > self.pair.close_reading(side)]

    def past_end(self):
        """The first side whose journal ends too soon for the moment, with what it needs; None where neither does."""
        for side in self.ends_too_soon():
            return {"side": side, "needed": time_of(self.needed()), "closed": time_of(self.pair.close_reading(side))}
        return None

    def told(self):
        """The delegations, of the kinds that JSON has."""
        return [self.object_of(lease) for lease in self.all]

    def object_of(self, lease):
        line, event = lease.line, lease.line.event
        shown = None
        possible = {"from": None, "to": time_or_none(self.ended_by(line))}
        if isinstance(event, Grant):
            shown = {"from": time_of(self.surely_begun(line)), "to": time_or_none(self.lasts_to(line))}
            possible["from"] = time_of(max(0, line.reading - self.asked.skew))
        return {
            "line": str(lease.reference),
            "reading": time_of(line.reading),
            "client": client_word(event.client),
            "iaid": association_word(event.association),
            "prefix": prefix_word(event.prefix),
            "shown": shown,
            "possible": possible,
            "at_the_moment": lease.state,
        }


def time_or_none(milliseconds):
    return None if milliseconds is None else time_of(milliseconds)


# What may have been so, each with what gives its values, or None where it wasn't so.
STATES = {
    "not_begun": Leases.not_begun,
    "ended": Leases.ended,
    "given_back": Leases.given_back,
    "carried": Leases.carried,
    "beginning": Leases.beginning,
    "ending": Leases.ending,
    "may_be_given_back": Leases.may_be_given_back,
    "earlier_volumes": Leases.earlier_volumes,
    "later_volumes": Leases.later_volumes,
}
