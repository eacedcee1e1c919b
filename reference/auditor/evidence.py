"""Whether two journals that nothing refuses have a certificate of a client, a prefix and an interval: by lines alone, or by messages too."""
from typing import NamedTuple

from .auditing import INFINITE, ends
from .holders import Holders
from .journals import Grant, Release
from .leases import Asked
from .words import SIDES, Prefix


class Wanted(NamedTuple):
    """What a certificate has to say."""

    holder: bytes
    prefix: Prefix
    start: int
    end: int


class Evidences:
    """The certificates of an interval, of bounds of one kind."""

    def __init__(self, bounds, wanted, skew, transit):
        self.bounds, self.pair, self.wanted = bounds, bounds.pair, wanted
        self.skew, self.transit = skew, transit
        # (what is asked of the first moment alone is asked as of a holder)
        self.first = Holders(bounds, Asked(wanted.prefix, wanted.start, skew, transit))

    def exist(self):
        """Whether there is one that `audit` accepts."""
        wanted = self.wanted
        return wanted.start < wanted.end and self.is_within() and self.is_alone() and self.is_covered()

    def is_within(self):
        """Whether both journals show the interval."""
        pair, wanted = self.pair, self.wanted
        closed = all(wanted.end + self.skew <= pair.close_reading(side) for side in SIDES)
        return closed and all(pair.volume(side) == 1 or wanted.start >= pair.open_reading(side) + self.skew + self.transit for side in SIDES)

    def is_alone(self):
        """Whether each delegation of another client is outside of the interval."""
        return all(self.is_outside(*entry) for entry in self.pair.held if self.is_foreign(entry[1].event))

    def is_foreign(self, event):
        return not isinstance(event, Release) and event.client != self.wanted.holder and event.prefix.overlaps(self.wanted.prefix)

    def is_outside(self, reference, line):
        is_behind = isinstance(line.event, Grant) and self.bounds.written_from(reference) - self.skew >= self.wanted.end
        return is_behind or self.first.is_early(reference, line.event) or self.first.is_given_back(reference, line.event)

    def is_covered(self):
        """Whether pieces of the holder's grants cover the interval without a gap."""
        reached = self.wanted.start
        for begun, ended in sorted(self.longest_pieces()):
            if begun > reached:
                return False
            reached = max(reached, ended)
            if reached >= self.wanted.end:
                return True
        return False

    def longest_pieces(self):
        """From when to when each grant may carry a piece, at most."""
        for reference, line in self.pair.held:
            event = line.event
            if not isinstance(event, Grant) or event.client != self.wanted.holder or not event.prefix.contains(self.wanted.prefix):
                continue
            begun, ended = self.bounds.written_by(reference) + self.skew + self.transit, self.ended(reference, event)
            if ended is not None and begun < ended:
                yield begun, ended

    def ended(self, reference, grant):
        """Up to when a grant may carry a piece, None where no chain shows that it came after the other side's open line."""
        other = next(side for side in SIDES if side != reference.side)
        lasts = [
            float("inf") if grant.valid == INFINITE else reading - self.skew + 1000 * grant.valid
            for reading, is_after in self.first.chains_to(reference, other)
            if is_after
        ]
        releases = [release for release, line in self.pair.held if ends(line.event, grant) and not self.first.precedes(release, reference)]
        bounds = [self.bounds.written_from(release) - self.skew for release in releases]
        return min([max(lasts), *bounds]) if lasts else None
