"""What a book keeps of each unit, and the order in which it finds them."""

import heapq

from .values import NOBODY

FREE, BACKUP, ACTIVE, EXPIRED, RELEASED = "free", "backup", "active", "expired", "released"


class Unit:
    """One prefix that is delegated as a whole, with what its server and the partner know of it.

    `standing` is its last grant line of the volume, as long as no later line has ended the lease; `by_take` says
    whether `mine` was last raised by a take.
    """

    __slots__ = ("prefix", "place", "status", "client", "identifier", "mine", "seen", "own_end", "out_end",
                 "acked", "told", "due", "pending", "mark", "standing", "by_take")

    def __init__(self, prefix, place):
        self.prefix = prefix
        self.place = place
        self.status = FREE
        self.client = NOBODY
        self.identifier = 0
        self.mine = 0
        self.seen = 0
        self.pending = None
        self.mark = False
        self.standing = None
        self.by_take = False
        self.forget()

    def forget(self):
        """What a unit loses as it becomes free, its client apart."""
        self.own_end = 0
        self.out_end = 0
        self.acked = 0
        self.told = 0
        self.due = None

    def holds(self, client, identifier):
        return self.status == ACTIVE and self.client == client and self.identifier == identifier

    def raise_mine(self, by_take=False):
        """Counts one more change."""
        self.mine += 1
        self.by_take = by_take

    def update(self):
        """The body of the update that is due for this unit, None where none is."""
        if self.mark:
            return ("update", "seized", self.prefix, self.mine, self.seen, 0, 0, NOBODY)
        if self.due is None:
            return None
        end = self.out_end if self.due == ACTIVE else 0
        return ("update", self.due, self.prefix, self.mine, self.seen, end, self.identifier, self.client)


class Table:
    """All units by prefix; which of them is the lowest of a status, and the lowest that a client holds."""

    def __init__(self, prefixes):
        self.ordered = [Unit(prefix, place) for place, prefix in enumerate(prefixes)]
        self.by_prefix = {unit.prefix: unit for unit in self.ordered}
        self.own = {FREE: list(range(len(self.ordered))), BACKUP: []}
        self.held = {}

    def get(self, prefix):
        return self.by_prefix.get(prefix)

    def change(self, unit, status, client=NOBODY, identifier=0):
        """Gives the unit its status and client; only this changes them. Of a unit that nobody has no grant stands."""
        if unit.status == ACTIVE:
            self.held[(unit.client, unit.identifier)].discard(unit.place)
        unit.status, unit.client, unit.identifier = status, client, identifier
        if status == ACTIVE:
            self.held.setdefault((client, identifier), set()).add(unit.place)
        else:
            unit.standing = None
        if status in self.own:
            heapq.heappush(self.own[status], unit.place)

    def free(self, unit, status):
        unit.forget()
        self.change(unit, status)

    def lowest(self, status):
        places = self.own[status]
        while places and self.ordered[places[0]].status != status:
            heapq.heappop(places)
        return self.ordered[places[0]] if places else None

    def lowest_held(self, client, identifier):
        places = self.held.get((client, identifier))
        return self.ordered[min(places)] if places else None
