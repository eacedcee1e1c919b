"""The audit of a certificate over two legal journals: the refusals C4 to C11."""
from .certificates import After, Before, ByChain, Early, Late
from .journals import Carry, Grant, Release, Send, Take
from .words import MOST_OF_32_BITS, SIDES, Refused

# A lifetime without an end.
INFINITE = MOST_OF_32_BITS


class Audit:
    """One certificate, the journals, and what is allowed for clocks and transit."""

    def __init__(self, pair, certificate, skew, transit):
        self.pair = pair
        self.certificate = certificate
        self.skew = skew
        self.transit = transit

    def check(self):
        for step in (
            self.check_interval,
            self.check_closes,
            self.check_gaps,
            self.check_grants,
            self.check_opens,
            self.check_releases,
            self.check_covered,
            self.check_reasons,
        ):
            step()

    def check_interval(self):
        if self.certificate.start >= self.certificate.end:
            raise Refused("C4 EmptyInterval")

    def check_closes(self):
        for side in SIDES:
            if self.certificate.end + self.skew > self.pair.close_reading(side):
                raise Refused(f"C5 PastEnd {side}")

    def check_gaps(self):
        begin = self.certificate.start
        for number, piece in enumerate(self.certificate.pieces, start=1):
            if piece.start != begin or piece.end <= piece.start:
                raise Refused(f"C6 PieceGap {number}")
            begin = piece.end
        if begin != self.certificate.end:
            raise Refused(f"C6 PieceGap {len(self.certificate.pieces) + 1}")

    def check_grants(self):
        for number, piece in enumerate(self.certificate.pieces, start=1):
            if not self.grant_holds(piece):
                raise Refused(f"C7 PieceGrant {number}")

    def grant_holds(self, piece):
        """Whether a piece's grant is the holder's, of the whole prefix, and valid from its start to its end."""
        line = self.pair.line(piece.grant)
        if line is None or not isinstance(line.event, Grant) or line.event.client != self.certificate.holder:
            return False
        latest, earliest = self.latest(piece.grant, piece.latest), self.earliest(piece.grant, piece.earliest)
        if not line.event.prefix.contains(self.certificate.prefix) or latest is None or earliest is None:
            return False
        lasts = line.event.valid == INFINITE or earliest + 1000 * line.event.valid >= piece.end
        return latest + self.transit <= piece.start and lasts

    def check_opens(self):
        """What came before a later volume is not shown: the interval and its grants must lie after."""
        for side in SIDES:
            if self.pair.volume(side) > 1:
                opened = self.pair.open_reading(side) + self.skew
                late = all(self.follows_open(piece, side, opened) for piece in self.certificate.pieces)
                if self.certificate.start < opened + self.transit or not late:
                    raise Refused("C11 BeforeOpen")

    def follows_open(self, piece, side, opened):
        """Whether a piece's grant by the other side surely came after this side's open line."""
        if piece.grant.side == side:
            return True
        met = any(reference.side == side for reference in piece.earliest)
        return met or opened < self.earliest(piece.grant, piece.earliest)

    def check_releases(self):
        for number, piece in enumerate(self.certificate.pieces, start=1):
            grant = self.pair.line(piece.grant).event
            for reference, line in self.pair.held:
                if ends(line.event, grant) and not self.is_cleared(reference, piece):
                    raise Refused(f"C8 PieceRelease {number} {reference}")

    def is_cleared(self, release, piece):
        return any(self.clears(entry, piece) for entry in piece.clear if entry.release == release)

    def clears(self, entry, piece):
        """Whether a release surely came before the piece's grant, or not before the piece's end."""
        if isinstance(entry.why, Before):
            return self.precedes(entry.release, piece.grant, entry.why.order)
        assert isinstance(entry.why, After)
        earliest = self.earliest(entry.release, entry.why.chain)
        return earliest is not None and earliest >= piece.end

    def check_covered(self):
        named = {entry.grant for entry in self.certificate.foreign}
        for reference, line in self.pair.held:
            others = isinstance(line.event, (Grant, Carry)) and line.event.client != self.certificate.holder
            if others and line.event.prefix.overlaps(self.certificate.prefix) and reference not in named:
                raise Refused(f"C9 Uncovered {reference}")

    def check_reasons(self):
        for entry in self.certificate.foreign:
            if not self.reason_holds(entry):
                raise Refused(f"C10 Reason {entry.grant}")

    def reason_holds(self, entry):
        """Whether a foreign grant had ended before the interval, or came after it."""
        line = self.pair.line(entry.grant)
        if line is None or not isinstance(line.event, (Grant, Carry)):
            return False
        if isinstance(entry.reason, Early):
            return self.is_early(entry.grant, line.event, entry.reason.chain)
        if isinstance(entry.reason, Late):
            earliest = self.earliest(entry.grant, entry.reason.chain)
            # A carry line tells of a grant before it.
            return isinstance(line.event, Grant) and earliest is not None and earliest >= self.certificate.end
        return self.is_released(entry.grant, line.event, entry.reason)

    def is_early(self, reference, event, chain):
        latest = self.latest(reference, chain)
        if latest is None:
            return False
        if isinstance(event, Carry):
            return event.end + self.skew + self.transit <= self.certificate.start
        return event.valid != INFINITE and latest + self.transit + 1000 * event.valid <= self.certificate.start

    def is_released(self, reference, event, reason):
        line = self.pair.line(reason.release)
        latest = self.latest(reason.release, reason.latest)
        if line is None or not ends(line.event, event) or latest is None:
            return False
        return latest <= self.certificate.start and self.precedes(reference, reason.release, reason.order)

    def is_chain(self, chain):
        """Whether each line of a chain comes after the one before it, in its journal or as the take of what it sent."""
        if any(self.pair.line(reference) is None for reference in chain):
            return False
        return all(self.is_step(first, second) for first, second in zip(chain, chain[1:]))

    def is_step(self, first, second):
        if first.side == second.side:
            return first.number < second.number
        send, take = self.pair.line(first).event, self.pair.line(second).event
        if not isinstance(send, Send) or not isinstance(take, Take) or self.pair.sent_earlier(second.side, take):
            return False
        return (send.term, send.serial, send.body) == (take.term, take.serial, take.body)

    def latest(self, reference, chain):
        """The latest moment of the line that a chain begins with; None where it is no chain that does."""
        if chain[0] != reference or not self.is_chain(chain):
            return None
        return self.pair.line(chain[-1]).reading + self.skew

    def earliest(self, reference, chain):
        """The earliest moment of the line that a chain ends with; None where it is no chain that does."""
        if chain[-1] != reference or not self.is_chain(chain):
            return None
        return self.pair.line(chain[0]).reading - self.skew

    def precedes(self, first, second, order):
        """Whether a line surely came before another."""
        if isinstance(order, ByChain):
            chain = order.chain
            return len(chain) >= 2 and chain[0] == first and chain[-1] == second and self.is_chain(chain)
        latest, earliest = self.latest(first, order.first), self.earliest(second, order.second)
        return latest is not None and earliest is not None and latest < earliest


def ends(event, grant):
    """Whether an event releases what a grant or carry line gives."""
    if not isinstance(event, Release):
        return False
    return (event.client, event.association, event.prefix) == (grant.client, grant.association, grant.prefix)


def audit(pair, certificate, skew, transit):
    Audit(pair, certificate, skew, transit).check()


