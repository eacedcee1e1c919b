"""An archive: the volumes that two servers leave over days, drawn by the second implementation's books and its honest runs."""
from typing import NamedTuple

from auditor.books import Book
from auditor.journals import Close, State
from auditor.running import KINDS, NOW, POOLS, Run, Settings, later_head
from auditor.words import other_side
from auditor.writing import journal_text

SETTINGS = Settings(skew=500, mclt=1800, life=3600, transit=1000, pools=POOLS[0])
# What befalls a whole server is drawn between stretches of these steps.
WEIGHTS = {**KINDS, "restart": 0, "state": 0, "outage": 0, "roll": 0}
STRETCH = (20, 60)
# Within so many rounds of messages two servers have met again, in most cases.
MOST_ROUNDS = 20
# In so many stretches for each volume most servers have rolled.
MOST_STRETCHES = 4
# A stopped server stays away for so many steps of its partner's.
AWAY = (1, 25)
# What a server does that begins again, and its partner with it, until it serves.
RETURN = (
    ("server", "restart"),
    ("server", "contact"),
    ("partner", "take"),
    ("partner", "contact"),
    ("server", "take"),
)


class Volume(NamedTuple):
    """A volume as its server left it; one that is still written has no close line."""

    side: str
    number: int
    entries: list

    def is_closed(self):
        return isinstance(self.entries[-1].event, Close)

    def opened(self):
        return self.entries[0].reading

    def last(self):
        return self.entries[-1].reading

    def text(self):
        whole = journal_text(self.side, self.number, self.entries)
        return whole if self.is_closed() else whole[: whole.rindex(b"end ")]


class Years(Run):
    """Two servers of which each keeps the volumes that it has ended."""

    def __init__(self, rng):
        self.kept = {"A": [], "B": []}
        self.stops = self.outages = self.leases_over_rolls = 0
        super().__init__(rng, SETTINGS, NOW, WEIGHTS, {"A": 0, "B": 0})

    def begin_anywhere(self, server, term):
        self.open(server)

    def pass_time(self):
        """Time passes in steps that leases outlast, more often than in others."""
        life = 1000 * self.settings.life
        steps = (0, 1, self.rng.randint(0, 3 * self.settings.skew), self.rng.randint(0, life // 40), life // 20)
        self.moment += self.rng.choice(steps)

    def roll(self, server):
        """Ends a volume and begins the next; a server that is down, or has seized what its partner doesn't know of, doesn't."""
        if server.book.down is not None or server.book.marks or server.book.waiting:
            return
        self.leases_over_rolls += any(unit.status == "active" for unit in server.book.units.values())
        self.close(server)
        closed, entries = server.book, server.entries
        self.kept[server.side].append(Volume(server.side, closed.volume, entries))
        self.pass_time()
        reading = self.clock(server)
        head = later_head(closed, entries, reading)
        server.book, server.entries = Book(server.side, closed.volume + 1), []
        for event in head:
            self.write(server, reading, event)

    def act(self, server):
        """One event of this server, where one can be drawn that breaks no rule."""
        self.pass_time()
        kinds = {kind: weight for kind, weight in self.weights.items() if kind not in ("exchange", "outage", "roll")}
        self.try_kind(server, self.rng.choices(list(kinds), list(kinds.values()))[0])

    def stop(self, server):
        """The server is away for a while, and comes back."""
        partner = self.servers[other_side(server.side)]
        for _ in range(self.rng.randint(*AWAY)):
            self.act(partner)
        self.pass_time()
        for who, kind in RETURN:
            acting = server if who == "server" else partner
            self.catch_up(acting) if kind == "take" else self.try_kind(acting, kind)
        self.stops += 1

    def settle(self):
        """Lets the two meet again: neither is down then, or waits, or has a unit that it seized and its partner doesn't know of."""
        for _ in range(MOST_ROUNDS):
            if not any(server.book.down is not None or server.book.waiting or server.book.marks for server in self.servers.values()):
                return
            for server in self.servers.values():
                self.catch_up(server)
                if server.book.down is not None:
                    self.write(server, self.clock(server), State("normal"))
                for kind in ("update", "reply", "contact"):
                    self.try_kind(server, kind)

    def volumes(self):
        """All volumes, those that are still written among them."""
        live = [Volume(side, server.book.volume, server.entries) for side, server in self.servers.items()]
        return [*self.kept["A"], *self.kept["B"], *live]


def lived(rng, volumes):
    """Two servers that have lived for so many volumes together; None where they don't meet again, and so don't roll."""
    years = Years(rng)
    for _ in range(MOST_STRETCHES * volumes):
        for _ in range(rng.randint(*STRETCH)):
            years.step()
        server = years.servers[rng.choice("AB")]
        befalls = rng.random()
        if befalls < 0.3:
            years.stop(server)
        elif befalls < 0.5:
            years.outage(server)
            years.outages += 1
        years.settle()
        years.roll(server)
        if len(years.volumes()) == volumes:
            return years
    return None


def drawn_years(rng, volumes):
    """Two servers with so many volumes together, of which the primary's last is still written."""
    years = None
    while years is None:
        years = lived(rng, volumes)
    for _ in range(STRETCH[1]):
        years.step()
    years.close(years.servers["B"])
    return years
