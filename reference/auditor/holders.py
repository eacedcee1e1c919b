"""Who surely had a prefix at a moment, over two journals that nothing refuses: by lines alone, or by messages too."""
from .auditing import INFINITE, ends
from .journals import Carry, Grant, Release, Take
from .merging import merged
from .words import SIDES, Reference, other_side


class ByLines:
    """What a line shows alone."""

    def __init__(self, pair):
        self.pair = pair

    def written_by(self, reference):
        """The least reading that bounds a line from above."""
        return self.pair.line(reference).reading

    def written_from(self, reference):
        """The greatest reading that bounds a line from below."""
        return self.pair.line(reference).reading

    def written_from_beyond(self, _reference):
        """The same of chains with a line of the other side; None where there is none."""
        return None

    def leads(self, first, second):
        """Whether a chain leads from one line to another."""
        return first.side == second.side and first.number < second.number


class ByMessages(ByLines):
    """What all chains show of a line."""

    def __init__(self, pair):
        super().__init__(pair)
        order = merged(pair)
        # Of each line how many lines of each side came surely before it, or are it.
        self.before, self.earliest = {}, {}
        self.latest = {reference: pair.line(reference).reading for reference in order}
        for reference in order:
            self.place(reference)
        for reference in reversed(order):
            for source in self.sources(reference):
                self.latest[source] = min(self.latest[source], self.latest[reference])

    def sources(self, reference):
        """The lines that a line comes behind: the one before it, and the send of what it takes."""
        if reference.number > 1:
            yield Reference(reference.side, reference.number - 1)
        event = self.pair.line(reference).event
        if isinstance(event, Take) and not self.pair.sent_earlier(reference.side, event):
            yield Reference(other_side(reference.side), self.pair.send_of(reference.side, event).number)

    def place(self, reference):
        sources = list(self.sources(reference))
        counts = {side: max([0, *[self.before[each][side] for each in sources]]) for side in SIDES}
        self.before[reference] = {**counts, reference.side: reference.number}
        self.earliest[reference] = max([self.pair.line(reference).reading, *[self.earliest[each] for each in sources]])

    def written_by(self, reference):
        return self.latest[reference]

    def written_from(self, reference):
        return self.earliest[reference]

    def written_from_beyond(self, reference):
        other = other_side(reference.side)
        count = self.before[reference][other]
        return self.earliest[Reference(other, count)] if count else None

    def leads(self, first, second):
        return first != second and first.number <= self.before[second][first.side]


class Holders:
    """Whom a certificate may name of a prefix and a moment, of bounds of one kind."""

    def __init__(self, bounds, asked):
        self.bounds, self.pair, self.asked = bounds, bounds.pair, asked

    def named(self):
        """The client, None where no certificate is accepted."""
        if not self.is_within():
            return None
        for reference, line in self.pair.held:
            if isinstance(line.event, Grant) and self.is_piece(reference, line.event) and self.is_alone(line.event.client):
                return line.event.client
        return None

    def is_within(self):
        """Whether both journals show the moment."""
        pair, asked = self.pair, self.asked
        shown = all(asked.moment + 1 + asked.skew <= pair.close_reading(side) for side in SIDES)
        opened = all(pair.volume(side) == 1 or asked.moment >= pair.open_reading(side) + asked.skew + asked.transit for side in SIDES)
        return shown and opened

    def is_piece(self, reference, grant):
        """Whether a grant carries a piece of the moment alone."""
        asked, bounds = self.asked, self.bounds
        if not grant.prefix.contains(asked.prefix) or bounds.written_by(reference) + asked.skew + asked.transit > asked.moment:
            return False
        if not self.lasts(reference, grant):
            return False
        releases = [release for release, line in self.pair.held if ends(line.event, grant)]
        return all(self.precedes(release, reference) or self.is_late(release) for release in releases)

    def lasts(self, reference, grant):
        """Whether a chain to a grant shows that it lasts, and that it came after the other side's open line."""
        other = other_side(reference.side)
        for reading, is_after in self.chains_to(reference, other):
            long = grant.valid == INFINITE or reading - self.asked.skew + 1000 * grant.valid > self.asked.moment
            if long and is_after:
                return True
        return False

    def chains_to(self, reference, other):
        """The readings from which chains to a grant begin, and whether they show that the other side's volume was open."""
        opened = self.pair.open_reading(other) + self.asked.skew
        reading = self.bounds.written_from(reference)
        yield reading, self.pair.volume(other) == 1 or opened < reading - self.asked.skew
        beyond = self.bounds.written_from_beyond(reference)
        if beyond is not None:
            yield beyond, True

    def is_late(self, reference):
        return self.bounds.written_from(reference) - self.asked.skew > self.asked.moment

    def precedes(self, first, second):
        """Whether a line surely came before another."""
        apart = self.bounds.written_from(second) - self.bounds.written_by(first)
        return self.bounds.leads(first, second) or apart > 2 * self.asked.skew

    def is_alone(self, client):
        """Whether no other client's delegation touches the moment."""
        return all(
            self.is_outside(reference, line.event)
            for reference, line in self.pair.held
            if not isinstance(line.event, Release) and line.event.client != client and line.event.prefix.overlaps(self.asked.prefix)
        )

    def is_outside(self, reference, event):
        """Whether a delegation surely ended before the moment, began behind it, or was given back before it."""
        is_behind = isinstance(event, Grant) and self.is_late(reference)
        return is_behind or self.is_early(reference, event) or self.is_given_back(reference, event)

    def is_early(self, reference, event):
        asked = self.asked
        if isinstance(event, Carry):
            return event.end + asked.skew + asked.transit <= asked.moment
        ended = self.bounds.written_by(reference) + asked.skew + asked.transit + 1000 * event.valid
        return event.valid != INFINITE and ended <= asked.moment

    def is_given_back(self, reference, event):
        return any(
            self.bounds.written_by(release) + self.asked.skew <= self.asked.moment and self.precedes(reference, release)
            for release, line in self.pair.held
            if ends(line.event, event)
        )
