"""Certificates for two legal journals, by a plain search: mostly such as hold, at their very bounds."""
from .certificates import (
    After,
    Before,
    ByChain,
    ByClock,
    Certificate,
    Clear,
    Early,
    Foreign,
    Late,
    Piece,
    Released,
)
from .auditing import ends
from .journals import Carry, Grant, Release, Send, Take
from .words import MOST_READING, SIDES, Prefix, Reference, other_side

MOST_STEPS = 8
MOST_PIECES = 8


class Links:
    """Which line of one journal takes what a line of the other sent, and the chains that go that way."""

    def __init__(self, pair, rng):
        self.pair = pair
        self.rng = rng
        # For each side, pairs of a send's number there and the number of a take on the other side, and the same by send.
        self.steps = {side: [] for side in SIDES}
        self.taken = {}
        self.sent = {}
        # Best chains found before.
        self.least, self.greatest = {}, {}
        for side in SIDES:
            for line in pair.takes(side):
                send = pair.send_of(side, line.event)
                self.steps[other_side(side)].append((send.number, line.number))
                self.taken.setdefault(Reference(other_side(side), send.number), []).append(Reference(side, line.number))
                self.sent[Reference(side, line.number)] = Reference(other_side(side), send.number)

    def reading(self, reference):
        return self.pair.line(reference).reading

    def best_from(self, reference):
        """A chain from a line that ends at the least reading."""
        if reference not in self.least:
            self.least[reference] = self.search_from(reference)
        return self.least[reference]

    def best_to(self, reference):
        """A chain to a line that begins at the greatest reading."""
        if reference not in self.greatest:
            self.greatest[reference] = self.search_to(reference)
        return self.greatest[reference]

    def search_from(self, reference):
        takes = [step for step in self.steps[reference.side] if step[0] >= reference.number]
        chains = [self.joined(reference, send, take) for send, take in takes]
        return min([[reference], *chains], key=lambda chain: self.reading(chain[-1]))

    def search_to(self, reference):
        takes = [step for step in self.steps[other_side(reference.side)] if step[1] <= reference.number]
        chains = [self.joined_back(reference, send, take) for send, take in takes]
        return max([[reference], *chains], key=lambda chain: self.reading(chain[0]))

    def joined(self, reference, send, take):
        middle = [Reference(reference.side, send)] if send > reference.number else []
        return [reference, *middle, Reference(other_side(reference.side), take)]

    def joined_back(self, reference, send, take):
        middle = [Reference(reference.side, take)] if take < reference.number else []
        return [Reference(other_side(reference.side), send), *middle, reference]

    def shortest(self, first, second):
        """A chain of two or more lines from one line to another, None where there is none."""
        if first.side == second.side:
            return [first, second] if first.number < second.number else None
        for send, take in self.steps[first.side]:
            if first.number <= send and take <= second.number:
                chain = self.joined(first, send, take)
                return chain if take == second.number else [*chain, second]
        return None

    def wandering(self, first):
        """A chain from a line by random steps."""
        chain = [first]
        while len(chain) < MOST_STEPS and self.rng.random() < 0.8:
            here = chain[-1]
            last = len(self.pair.lines[here.side])
            if here in self.taken and self.rng.random() < 0.7:
                chain.append(self.rng.choice(self.taken[here]))
            elif here.number < last:
                chain.append(Reference(here.side, self.rng.randint(here.number + 1, min(last, here.number + 4))))
        return chain

    def wandering_to(self, last):
        """A chain to a line by random steps back."""
        chain = [last]
        while len(chain) < MOST_STEPS and self.rng.random() < 0.8:
            here = chain[0]
            if here in self.sent and self.rng.random() < 0.7:
                chain.insert(0, self.sent[here])
            elif here.number > 1:
                chain.insert(0, Reference(here.side, self.rng.randint(max(1, here.number - 4), here.number - 1)))
        return chain

    def between(self, first, second):
        """A chain from one line to another, often by a detour; None where there is none."""
        shortest = self.shortest(first, second)
        if shortest is None or self.rng.random() < 0.5:
            return shortest
        chain = self.wandering(first)
        while len(chain) > 1:
            if chain[-1] == second:
                return chain
            rest = self.shortest(chain[-1], second)
            if rest is not None:
                return chain[:-1] + rest
            chain.pop()
        return shortest

    def from_line(self, reference):
        """A chain from a line: the best one, the line alone, or any."""
        draw = self.rng.random()
        return self.best_from(reference) if draw < 0.6 else [reference] if draw < 0.8 else self.wandering(reference)

    def to_line(self, reference):
        draw = self.rng.random()
        return self.best_to(reference) if draw < 0.6 else [reference] if draw < 0.8 else self.wandering_to(reference)


class Search:
    """Draws certificates for one pair of journals."""

    def __init__(self, pair, rng, skew, transit):
        self.pair = pair
        self.rng = rng
        self.skew = skew
        self.transit = transit
        self.links = Links(pair, rng)
        self.grants = [(reference, line) for reference, line in pair.held if isinstance(line.event, Grant)]
        self.carries = [(reference, line) for reference, line in pair.held if isinstance(line.event, Carry)]
        self.releases = [(reference, line) for reference, line in pair.held if isinstance(line.event, Release)]

    def latest(self, chain):
        return self.links.reading(chain[-1]) + self.skew

    def earliest(self, chain):
        return self.links.reading(chain[0]) - self.skew

    def order(self, first, second):
        """Why a line surely came before another, None where that can't be told."""
        chain = self.links.between(first, second)
        clock = ByClock(self.links.from_line(first), self.links.to_line(second))
        by_clock = clock if self.latest(clock.first) < self.earliest(clock.second) else None
        if chain is None or (by_clock and self.rng.random() < 0.5):
            return by_clock
        return ByChain(chain)

    def clears(self, grant, end):
        """Clear entries for the releases of a piece's grant that ends at this moment, and the greatest end that they allow."""
        entries = []
        for reference, line in self.releases:
            if not ends(line.event, self.pair.line(grant).event):
                continue
            order = self.order(reference, grant)
            if order is not None:
                entries.append(Clear(reference, Before(order)))
                continue
            chain = self.links.to_line(reference)
            end = min(end, self.earliest(chain))
            entries.append(Clear(reference, After(chain)))
        return entries, end

    def piece(self, reference, line, start, most):
        """The longest piece of a grant that begins at a moment, None where there is none."""
        latest, earliest = self.links.from_line(reference), self.links.to_line(reference)
        if self.latest(latest) + self.transit > start:
            return None
        end = min(most, self.earliest(earliest) + 1000 * line.event.valid)
        entries, end = self.clears(reference, end)
        return Piece(reference, start, end, latest, earliest, entries) if end > start else None

    def pieces(self, holder, prefix, start, most):
        """Pieces one after the other, as far as the holder's grants reach."""
        usable = [held for held in self.grants if held[1].event.client == holder and held[1].event.prefix.contains(prefix)]
        found = []
        while start < most and len(found) < MOST_PIECES:
            candidates = [self.piece(*held, start, most) for held in usable]
            candidates = [piece for piece in candidates if piece is not None]
            if not candidates:
                break
            best = max(candidates, key=lambda piece: piece.end)
            # Now and then a piece ends before it must.
            if self.rng.random() < 0.2:
                best = best._replace(end=self.rng.randint(start + 1, best.end))
            found.append(best)
            start = best.end
        return found

    def reason(self, reference, line, start):
        """Why another client's grant is no matter from a moment on, and the greatest end of the interval for which it isn't."""
        event = line.event
        latest = self.links.from_line(reference)
        reasons = []
        end = event.end + self.skew if isinstance(event, Carry) else self.latest(latest) + 1000 * event.valid
        if end + self.transit <= start:
            reasons.append((Early(latest), MOST_READING))
        for release, released in self.releases:
            chain = self.links.from_line(release)
            order = self.order(reference, release) if ends(released.event, event) else None
            if order is not None and self.latest(chain) <= start:
                reasons.append((Released(release, order, chain), MOST_READING))
        if reasons:
            return self.rng.choice(reasons)
        chain = self.links.to_line(reference)
        return Late(chain), self.earliest(chain)

    def foreign(self, holder, prefix, start):
        """Foreign entries for all that needs one, and the greatest end that they allow."""
        entries, most = [], MOST_READING
        for reference, line in self.grants + self.carries:
            needed = line.event.client != holder and line.event.prefix.overlaps(prefix)
            if needed or self.rng.random() < 0.03:
                reason, end = self.reason(reference, line, start)
                if end > start or needed:
                    entries.append(Foreign(reference, reason))
                    most = min(most, end)
        return entries, most

    def queried(self, prefix):
        """A prefix, or a smaller one inside it, or now and then a greater one."""
        draw = self.rng.random()
        if draw < 0.6:
            return prefix
        length = self.rng.randint(prefix.length, 128) if draw < 0.95 else self.rng.randint(0, prefix.length)
        size = 1 << (128 - length)
        within = prefix.address + self.rng.randrange(1 << (128 - prefix.length))
        return Prefix(within // size * size, length)

    def first_moment(self, reference):
        """The first moment from which a grant and the open lines let an interval begin."""
        start = self.latest(self.links.from_line(reference))
        opens = [self.pair.open_reading(side) + self.skew for side in SIDES if self.pair.volume(side) > 1]
        return max([start, *opens]) + self.transit

    def draw(self):
        """A certificate that mostly holds; None where there is no grant."""
        if not self.grants:
            return None
        # One without pieces is of little use.
        for _ in range(6):
            drawn = self.draw_once()
            if drawn.pieces:
                return drawn
        return drawn if self.rng.random() < 0.2 else None

    def draw_once(self):
        reference, line = self.rng.choice(self.grants)
        holder, prefix = line.event.client, self.queried(line.event.prefix)
        start = self.first_moment(reference) + self.rng.choice((0, 0, 0, 1, self.rng.randint(0, 500 * line.event.valid)))
        return self.from_moment(holder, prefix, min(max(start, 0), MOST_READING))

    def from_moment(self, holder, prefix, start):
        """A certificate that begins at a moment, and mostly holds."""
        entries, most = self.foreign(holder, prefix, start)
        closes = min(self.pair.close_reading(side) for side in SIDES) - self.skew
        most = max(min(most, closes), 0)
        pieces = self.pieces(holder, prefix, start, most)
        end = pieces[-1].end if pieces else max(start, min(most, start + 1000))
        return Certificate(holder, prefix, start, end, pieces, entries)
