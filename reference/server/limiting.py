"""What one client, and those behind one relay port, may take, and whose releases and renewals are believed: what
`serve` denies, what it leaves to its partner, and what it doesn't hear."""

from .answers import NO_BINDING, NO_PREFIX, NOTHING
from .messages import RELEASE, REQUEST, SOLICIT
from .permit import Permit
from .units import ACTIVE

ASKING = (SOLICIT, REQUEST)


def named(port):
    """The port, None where nothing names it: no relay was between, or one that gives neither identifier."""
    if port is None or (port[1] is None and port[2] is None):
        return None
    return port


def counts(unit, at):
    """Whether a unit counts for a quota: somebody has it, and by no server's grant its lease is over."""
    return unit.status == ACTIVE and at < max(unit.own_end, unit.told)


def held_under(book, client, identifier):
    """The units that a client has under an identity association."""
    return [book.table.ordered[place] for place in book.table.held.get((client, identifier), ())]


def units_about(book, kind, order):
    """The units that an order of such a message is about: the one that it names, where its client has that under the
    association. Else none of a RELEASE, and for any other message all that its client has there."""
    unit = book.table.get(order[3])
    if unit is not None and unit.holds(*order[1:3]):
        return [unit]
    return [] if kind == RELEASE else held_under(book, *order[1:3])


class Asking:
    """A message that asks, the port that names it, the moment, and whether the server has been without its partner for
    long."""

    def __init__(self, message, orders, port, at, is_apart):
        self.message = message
        self.kind = message.kind
        self.client = message.client
        self.orders = orders
        self.port = named(port)
        self.at = at
        self.is_apart = is_apart


class Policy:
    """The limits, and the access record of this server's last grant of each unit: the port of its client."""

    def __init__(self, limits):
        self.limits = limits
        self.records = {}

    def granted(self, prefix, port):
        """Takes note of a grant of this server."""
        self.records[prefix] = port

    def is_recorded(self, unit):
        """Whether there is a record of a grant of this server by which somebody may have the unit still."""
        return unit.out_end != 0 and unit.prefix in self.records

    def is_known(self, unit):
        """Whether it is known where whoever has the unit sits: the partner told of no later grant."""
        return self.is_recorded(unit) and unit.told <= unit.out_end

    def units_of_client(self, book, asking):
        return sum(counts(book.table.ordered[place], asking.at) for (holder, _), places in book.table.held.items()
                   if holder == asking.client for place in places)

    def units_of_port(self, book, asking):
        units = [book.table.get(prefix) for prefix, given in self.records.items() if named(given) == asking.port]
        return sum(self.is_recorded(unit) and counts(unit, asking.at) for unit in units)

    def is_elsewhere(self, book, client, identifier, port):
        """Whether an identity association has a prefix that is known to be another port's."""
        units = held_under(book, client, identifier)
        given = {named(self.records[unit.prefix]) for unit in units if self.is_known(unit)} - {None}
        return bool(given - {port})

    def is_unknown(self, book, kind, order):
        """Whether an order is about units of its client, and the port of none of them is known."""
        units = units_about(book, kind, order)
        return bool(units) and not any(self.is_known(unit) for unit in units)

    def permit(self, book, asking):
        """What of a message may be ordered."""
        permit = Permit()
        for place, orders in enumerate(asking.orders if self.limits.bind_to_port else ()):
            for number, order in enumerate(orders):
                self.believe(book, asking, order, (place, number), permit)
        if asking.kind in ASKING:
            permit.told.update({(place, 0): NO_PREFIX for place in self.beyond(book, asking, permit)})
        return permit

    def believe(self, book, asking, order, place, permit):
        """Whether an order may be done for what is known of the ports of its units: else what is told in its place."""
        is_release = asking.kind == RELEASE
        if self.is_elsewhere(book, *order[1:3], asking.port):
            permit.told[place] = NO_BINDING if is_release else NO_PREFIX
            return
        if asking.kind in ASKING or not self.is_unknown(book, asking.kind, order):
            return
        if is_release or not asking.is_apart:
            permit.told[place] = NOTHING
        else:
            permit.anew.add(place[0])

    def beyond(self, book, asking, permit):
        """The places of the IA_PDs that ask for more than their client may take."""
        found, asked = set(), 0
        of_client = self.units_of_client(book, asking)
        of_port = self.units_of_port(book, asking) if asking.port is not None else 0
        for place, (order, *_) in enumerate(asking.orders):
            unit = book.bound(*order[1:])
            if permit.of(place) is not None or (unit is not None and counts(unit, asking.at)):
                continue
            if self.is_full(place, of_client + asked, of_port + asked, asking.port):
                found.add(place)
            else:
                asked += 1
        return found

    def is_full(self, asked, of_client, of_port, port):
        """Whether the message, its client or its port has its fill."""
        limits = self.limits
        pairs = [(asked, limits.ias_per_message), (of_client, limits.units_per_client)]
        pairs += [(of_port, limits.units_per_port)] if port is not None else []
        return any(most != 0 and count >= most for count, most in pairs)


class Hearing:
    """How many messages of a client behind a port were heard in a second of the server's clock: all that can be."""

    def __init__(self, rate):
        self.rate = rate
        self.counts = {}

    def ways(self, key, seconds):
        """What may become of a message in one of these seconds: the second and the count behind it, and whether it is
        heard."""
        found = set()
        for last, count in self.counts.get(key, {(0, 0)}):
            for second in seconds:
                before = count if second == last else 0
                is_heard = before < self.rate
                if second >= last:
                    found.add((second, before + is_heard, is_heard))
        return found

    def note(self, key, ways):
        self.counts[key] = {(second, count) for second, count, _ in ways}
