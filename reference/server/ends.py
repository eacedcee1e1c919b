"""When the server of a life may end leases, and has to: a lone one, one together with its partner, and one that takes
it for down. Nothing is ended that the partner may have renewed."""

from . import rules


class Ends:
    """What a life knows of whether its server ends leases. With `is_done` it has had UPDDONE over a connection that
    stands."""

    def __init__(self, has_partner):
        self.has_partner = has_partner
        self.is_done = False
        self.state = None
        self.count = 0

    def is_due(self, book, unit, reading):
        """Whether the server ends a lease at a reading."""
        if not rules.may_expire(unit, reading):
            return False
        if not self.has_partner:
            return True
        if book.down is not None:
            return reading >= rules.takeover(book, unit)
        return self.is_done and not book.waiting

    def note(self, book):
        """Takes note that a datagram was answered."""
        state = (self.is_done, book.waiting, book.down)
        self.count = self.count + 1 if state == self.state else 0
        self.state = state

    def owed(self, began, exchanges):
        """The moment whose leases have ended by now: each turn hears what came, then does what is owed, and only then
        has answers leave, so it is that at which the message before the last was sent. None where the server didn't end
        leases by then as it does now."""
        if not self.has_partner and len(exchanges) < 2:
            return began
        return exchanges[-2].before if not self.has_partner or self.count > 1 else None

    def left(self, book, moment):
        """A lease that was due to end at a moment, and hasn't."""
        units = (book.table.ordered[place] for places in book.table.held.values() for place in places)
        return next((unit for unit in units if self.is_due(book, unit, moment)), None)
