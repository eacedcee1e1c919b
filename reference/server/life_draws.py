"""What a life by the clock draws: settings, a past whose grants are as old as tells them apart, and datagrams."""

from .book import Book
from .draws import LARGEST_BY_IPV4, LARGEST_BY_IPV6, Draws
from .life_ports import behind, drawn_ports
from .limits import Limits
from .messages import INFORMATION_REQUEST, REBIND, RELEASE, RENEW, REQUEST, SOLICIT
from .program import LEAST_TRANSIT, now
from .units import ACTIVE, FREE
from .values import Line, Settings, prefix_of

OWN = bytes.fromhex("00030001020000000009")
# How long before its bound a grant of the past is as the life begins, in milliseconds; and how near to a bound its
# client asks.
WAITS = (40, 400)
NEAR = 2
FAULTS = 0.03
ASKING = (REQUEST, RENEW, REBIND)
# A port, and then where its client may move to: the link, relays that don't tell, and other ports.
FIXED_PORTS = ((bytes(16), b"one port", None), None, (bytes(16), None, None), (b"elsewhere" + bytes(7), None, None),
               (bytes(16), None, b""), (bytes(16), b"one port", b""))


class LifeDraws(Draws):
    """Datagrams of few clients behind few relay ports, most of which the server reads."""

    def __init__(self, random, own, book, largest, ports, crowd=(2, 5, 12), associations=(1, 2, 4)):
        super().__init__(random, own, book, largest, random.choice(crowd), random.choice(associations), FAULTS)
        self.ports = ports
        self.weights = [random.choice((1, 4, 12)) for _ in range(6)]
        self.strays = random.choice((0.0, 0.1, 0.3))
        self.claims = 0.0
        self.asking = b""
        self.moments = []
        self.heaps = True
        self.pauses = (0,)

    def kind(self):
        if self.amiss(0.1):
            return self.random.randrange(256)
        kinds = (SOLICIT, REQUEST, RENEW, REBIND, RELEASE, INFORMATION_REQUEST)
        weights = (2, 8, 8, 6, 0.5, 0.5)
        return self.random.choices(kinds, [one * other for one, other in zip(weights, self.weights)])[0]

    def client(self):
        self.asking = super().client()
        return self.asking

    def port(self):
        """The port of the client that asks, at times another."""
        home = self.clients.index(self.asking) if self.asking in self.clients else 0
        stray = self.random.randrange(len(self.ports)) if self.chance(self.strays) else 0
        return self.ports[(home + stray) % len(self.ports)]

    def address_associations(self, kind):
        """Where there are no heaps, never so many that an answer hasn't room for them."""
        found = super().address_associations(kind)
        return found if self.heaps else found[:20]

    def associations(self, client, kind):
        count = 0 if kind == INFORMATION_REQUEST else self.pick(60, 1, 20, 2, 10, 3, 4, 5, 1, 16, 1, 0)
        return [self.association(client, kind) for _ in range(count)]

    def await_bounds(self, bounds):
        """Has the clients of the book's grants ask when these are as old as one of the bounds."""
        grants = [line for line in self.book.lines if line.event[0] == "grant"]
        self.await_moments((line.reading + bound, *line.event[1:4], ASKING) for line in grants for bound in bounds)

    def await_moments(self, moments):
        """Has clients ask at moments: each is a reading, a client, an identifier, a prefix, and what may be asked."""
        self.moments = sorted([*self.moments, *moments], reverse=True)

    def timely(self):
        """What the client of a grant asks whose moment is now; None where there is none."""
        while self.moments and self.moments[-1][0] < now() - NEAR:
            self.moments.pop()
        if not self.moments or self.moments[-1][0] > now() + NEAR:
            return None
        _, self.asking, identifier, prefix, kinds = self.random.choice(self.moments[-2:])
        return self.message(self.random.choice(kinds), self.asking, [(identifier, prefix)])

    def claim_of_bound(self, limits):
        """Has somebody claim what clients have, mostly behind another port, where a port is bound."""
        self.claims = 0.3 if limits.bind_to_port else 0.0

    def claim(self):
        """What is asked, for one or more units that somebody has, under the name of that client; None mostly."""
        held = [unit for unit in self.book.table.ordered if unit.status == ACTIVE]
        if not held or not self.chance(self.claims):
            return None
        self.asking = self.random.choice(held).client
        units = [unit for unit in held if unit.client == self.asking]
        units = self.random.sample(units, min(len(units), self.pick(5, 1, 3, 2, 1, 3)))
        kind = self.pick(4, RELEASE, 3, RENEW, 3, REBIND, 1, REQUEST, 1, SOLICIT)
        wanted = [(unit.identifier, unit.prefix) for unit in units]
        if kind == RELEASE and self.chance(0.2):
            wanted = [(units[0].identifier, *(unit.prefix for unit in units)), *wanted[1:]]
        wanted += self.pick(5, [], 1, wanted[:1], 1, [(self.random.getrandbits(32), units[0].prefix)])
        return self.message(kind, self.asking, wanted)

    def any_port(self):
        """The port of who claims, mostly another than that of the client whose name he has."""
        return self.random.choice(self.ports) if self.chance(0.6) else self.port()

    def asked(self, kind, client, identifiers, port):
        """What a client asks for these identity associations, behind a port."""
        octets = self.message(kind, client, [(identifier, None) for identifier in identifiers])
        return octets if port is None else behind(port, 0, bytes(16), octets, [], self.random)

    def up_to_usual_limits(self):
        """Clients behind one port each of which asks for one more than it may: in a message, and in all."""
        for place in range(9):
            for identifiers in (range(5), range(10, 15), range(20, 22)):
                yield self.asked(REQUEST, b"client" + bytes([place]), identifiers, FIXED_PORTS[0])

    def moving(self):
        """One of two clients that share a port moves to the link, or another port, and the other asks before and after;
        then it moves back."""
        for place, other in enumerate(FIXED_PORTS[1:]):
            one, two = b"one" + bytes([place]), b"two" + bytes([place])
            port = (bytes([place + 1]) * 16, b"port", None)
            asking = ((REQUEST, one, port), (REQUEST, two, port), (RENEW, one, other), (REQUEST, two, port),
                      (RENEW, two, other), (RENEW, one, port), (REQUEST, one + two, port))
            for kind, client, at in asking:
                yield self.asked(kind, client, [1], at)

    def datagram(self):
        claim = self.claim()
        octets = claim or self.timely() or self.client_message()
        port, name = self.port() if claim is None else self.any_port(), "direct"
        if port is not None:
            more = [self.foreign_option()] if self.chance(0.1) else []
            hops, peer, name = self.random.randrange(256), self.octets(16), "relayed"
            octets = behind(port, hops, peer, octets, more, self.random)
            for _ in range(self.pick(8, 0, 3, 1, 1, 2)):
                octets = self.relayed(octets)
        if self.amiss(0.5):
            octets, name = self.mutated(octets), "mutated"
        return octets[:self.largest], name


def drawn_times(source, has_past=False):
    """Settings whose grants have one lifetime, with which none ends in a life. Where there is a past it may have been
    begun without a transit."""
    valid = source.choice((241, 242, 300, 999, 1800, 3601))
    more = valid + source.choice((0, 1, 9, valid, 7200))
    mclt, life = source.choice(((valid, more), (more, valid)))
    most = 1000 * valid // 4
    skew = source.choice((0, 0, 1, 7, 250, 2000, most // 4))
    transit = source.choice((LEAST_TRANSIT, 60_000, max(LEAST_TRANSIT, most - 2 * skew)))
    if has_past and source.random() < 0.1:
        transit = 0
    pools = [(prefix_of("2001:db8::/48"), source.choice((48, 50, 53, 56)))]
    if source.random() < 0.3:
        pools.append((prefix_of("fd00::/64"), source.choice((64, 66))))
    return Settings("A", OWN, skew, mclt, life, pools, transit)


def drawn_short_times(source):
    """Settings whose grants are over within a life: those of a past that was begun without a transit."""
    mclt, life = source.choice(((1, 1), (1, 7), (2, 1)))
    pools = [(prefix_of("2001:db8::/48"), source.choice((51, 53, 56)))]
    return Settings("A", OWN, source.choice((0, 1, 40)), mclt, life, pools, 0)


def half_bound(settings):
    """The age in milliseconds up to which a half of a new grant is left of one, rounded up to seconds."""
    valid = min(settings.mclt, settings.life)
    return 1000 * (valid // 2) - 2 * settings.skew - settings.transit


def end_bound(settings):
    """The age in milliseconds at which a grant is over by any clock."""
    return 1000 * min(settings.mclt, settings.life) + 2 * settings.skew + settings.transit


def drawn_floor(source, settings):
    """A floor on either side of the half, far behind it, or none that is said."""
    half = half_bound(settings) // 1000
    near = (max(1, half // 3), max(1, half - 1), max(1, half), half + 1, half + 60)
    return source.choice((0, 1, 2, 5, None, *near, 31_536_000))


def bounds_of(settings, floor):
    """The ages in milliseconds at which a grant isn't told again any more."""
    half = half_bound(settings)
    return [bound for bound in (1000 * floor, half, half + 1) if bound <= half + 2000]


def drawn_ages(source, settings, floor, count, ahead):
    """How old the grants of a past are in milliseconds, the eldest first: most come to a bound in the life, and some
    are of a clock that was ahead."""
    half = half_bound(settings)
    bounds = bounds_of(settings, floor)
    ages = []
    for _ in range(count):
        age = source.choice(bounds) - source.randrange(*WAITS)
        ages.append(source.choice((age, age, age, source.randrange(half + 2000))))
    ages += [-source.randrange(ahead) for _ in range(2 if ahead else 0)]
    return sorted((max(-ahead, age) for age in ages), reverse=True)


def drawn_ahead(source, settings):
    """By how much the clock of the past was ahead; a server begins with one that is twice the skew behind."""
    return source.choice((0, 2 * settings.skew)) if settings.skew < 10_000 else 0


def half_of_units(settings):
    """Half of the first pool's units; one at least."""
    prefix, length = settings.pools[0]
    return max(1, 1 << (length - prefix[1]) >> 1)


def write_past(source, book, draws, readings):
    """Grants at these readings to clients that will ask: most of a unit that is free, others again of one that
    isn't."""
    free = [unit.prefix for unit in book.table.ordered if unit.status == FREE]
    source.shuffle(free)
    given = []
    for reading in readings:
        if given and (not free or source.random() < 0.2):
            client, identifier, prefix = source.choice(given)
        else:
            client, identifier, prefix = source.choice(draws.clients), source.choice(draws.identifiers), free.pop()
            given.append((client, identifier, prefix))
        valid = min(book.mclt, book.life)
        book.append(Line(len(book.lines) + 1, reading, ("grant", client, identifier, prefix, valid)))


def drawn_life(source, settings, begun, *crowd, kind=LifeDraws):
    """The host, the book with its opening at a reading, and the draws, of that kind; `crowd` has how many clients there
    may be, and how many identity associations of each."""
    host = source.choice(("127.0.0.1", "::1"))
    largest = LARGEST_BY_IPV4 if host == "127.0.0.1" else LARGEST_BY_IPV6
    book = Book.open(begun, settings)
    ports = [None, *drawn_ports(source, source.choice((1, 2, 5)))]
    source.shuffle(ports)
    return host, book, kind(source, settings.own, book, largest, ports, *crowd)


LIMITS = ("ias_per_message", "units_per_client", "units_per_port", "client_rate")
FEW = {"ias_per_message": (1, 2, 3, 5, None), "units_per_client": (1, 2, 3, 6, None),
       "units_per_port": (1, 2, 4, 9, None), "client_rate": (1, 3, 8, None)}


def drawn_limits(source):
    """One or two limits that are small or not said; the others aren't there, mostly."""
    found = Limits(renew_floor=source.choice((0, 0, 0, 31_536_000, None)), bind_to_port=source.random() < 0.4)
    for key in source.sample(LIMITS, source.choice((1, 1, 2, 4))):
        setattr(found, key, source.choice(FEW[key]))
    return found


def drawn_records(source, book, draws):
    """Which record each grant of a past has, by its number: none at times, and at times none has one."""
    often = source.choice((0, 0.5, 0.9, 1, 1))
    numbers = [line.number for line in book.lines if line.event[0] == "grant" and source.random() < often]
    numbers += source.choices(numbers, k=min(2, len(numbers)))
    return [(number, source.choice(draws.ports)) for number in numbers]


def drawn_tail(source, records):
    """What a crash left of a last record."""
    return records and source.choice(("", "", "1", "3 0000:0000", records.splitlines()[-1], "\0\0"))
