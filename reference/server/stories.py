"""Stories of units many of whose lines share a reading: what a clock that stepped back leaves in a journal, and what
clients ask while it is behind."""

from . import rules
from .again import early_until
from .life_draws import LifeDraws
from .messages import REBIND, RELEASE, RENEW, REQUEST
from .units import ACTIVE, BACKUP, FREE, RELEASED
from .values import NOBODY

# What may become of a unit by its status; what stands there twice comes twice as often.
STEPS = {FREE: ("given", "given", "given", "moved"), BACKUP: ("known", "given_by_partner", "given_by_partner"),
         ACTIVE: ("given", "given", "given", "known", "known", "given_back", "given_back", "given_by_partner",
                  "given_back_at_partner", "taken_over"),
         RELEASED: ("known", "known", "expired_at_partner")}
# And at the secondary, whose units the partner moves.
STEPS_OF_SECONDARY = {**STEPS, FREE: ("moved", "given", "given_by_partner"), BACKUP: ("given", "given", "known")}
MOST_STEPS = 8
# Ways by which a unit that somebody has, or nobody, comes to whoever has it then: each in one reading.
WAYS = (("given", "known"), ("given", "known", "given"), ("given", "known", "given", "given_back", "known", "given"),
        ("given", "known", "given", "given_back_at_partner", "given"), ("given", "taken_over", "given_by_partner"),
        ("given", "given_back_at_partner", "moved", "given_by_partner"),
        ("given", "given_back", "known", "moved", "given_by_partner"),
        ("given", "given_back", "expired_at_partner", "moved", "given_by_partner"))
# What a client asks one after the other, from the last on.
ASKED = (RENEW, REQUEST, RELEASE, RENEW, REQUEST)
WEIGHTS = {RENEW: 3, REQUEST: 3, RELEASE: 3, REBIND: 1}


def acknowledgement(unit):
    """The partner's reply to the change of a unit that is due."""
    return ("reply", "accept", unit.prefix, unit.mine, unit.seen + 1, unit.mine)


def partners_update(unit, status, end, holder):
    """An update of the partner's, which has seen the unit as it is."""
    client, identifier = holder
    return ("update", status, unit.prefix, unit.seen + 1, unit.mine, end, identifier, client)


class Story:
    """What the server, its clients and the partner make of one unit at one reading; a step is some lines."""

    def __init__(self, draws, book, unit, reading, asking):
        self.draws = draws
        self.book = book
        self.unit = unit
        self.reading = book.reading_after(reading)
        self.asking = asking

    def holder(self):
        """Who has the unit; who is to have it where nobody has."""
        if self.unit.status == ACTIVE:
            self.asking = self.unit.client, self.unit.identifier
        return self.asking

    def add(self, *event):
        self.book.add(self.reading, event)

    def take(self, body):
        self.add("take", self.book.term, 1 + last_taken(self.book), body)

    def given(self):
        if self.unit.status == FREE and self.book.role == "B":
            self.moved()
        valid = rules.allowed_lifetime(self.book, self.unit, self.reading)
        self.add("grant", *self.holder(), self.unit.prefix, valid)

    def given_back(self):
        self.add("release", *self.holder(), self.unit.prefix)

    def moved(self):
        """The unit comes to the secondary, from the primary that moves it."""
        if self.book.role == "A":
            self.add("backup", self.unit.prefix)
        else:
            self.take(partners_update(self.unit, "backup", 0, (NOBODY, 0)))

    def known(self):
        """The partner is told of what is due, if anything, and acknowledges it."""
        if self.unit.due is not None:
            self.add("send", self.book.term, self.book.serial + 1, self.unit.update())
            self.take(acknowledgement(self.unit))

    def given_by_partner(self):
        end = self.reading + 2000 * self.book.life
        self.take(partners_update(self.unit, "active", end, self.holder()))

    def given_back_at_partner(self):
        self.take(partners_update(self.unit, "released", 0, self.holder()))

    def expired_at_partner(self):
        self.take(partners_update(self.unit, "expired", 0, self.asking))

    def taken_over(self):
        """The server begins again, and hears that its partner took the unit over meanwhile."""
        self.add("restart", self.book.restart + 1)
        self.take(partners_update(self.unit, "seized", 0, (NOBODY, 0)))
        self.take(("contact", 0, self.book.restart))

    def go(self, steps):
        for step in steps:
            getattr(self, step)()

    def run(self):
        """Some steps, and mostly one of the ways; the unit isn't free behind them."""
        steps = STEPS if self.book.role == "A" else STEPS_OF_SECONDARY
        for _ in range(self.draws.random.randrange(MOST_STEPS)):
            self.asking = self.draws.holder() if self.draws.chance(0.2) else self.asking
            self.go([self.draws.random.choice(steps[self.unit.status])])
        if self.unit.status in (FREE, ACTIVE) and self.draws.chance(0.7):
            self.go(self.draws.random.choice(WAYS))
        if self.unit.status == FREE:
            self.given()


def last_taken(book):
    """The serial of the last message that was taken."""
    return next((line.event[2] for line in reversed(book.lines) if line.event[0] == "take"), 0)


def write_stories(book, draws, readings, most):
    """A story at each of these readings, of the lowest unit of which there was none yet, or again of another: so what
    becomes free is mostly what is given next. Stories have so many units at most."""
    count = 0
    for reading in readings:
        count += count == 0 or (count < most and draws.chance(0.4))
        first = draws.random.choice((0, max(0, count - 3)))
        unit = book.table.ordered[draws.random.randrange(first, count)]
        Story(draws, book, unit, reading, draws.holder()).run()


class StoryDraws(LifeDraws):
    """Datagrams half of which are a client's that asks one thing after the other: for a unit, again, for more, and
    gives it back."""

    def __init__(self, *words):
        super().__init__(*words)
        self.steps = []
        self.teller = b"", 0, None

    def holder(self):
        return self.random.choice(self.clients), self.random.choice(self.identifiers)

    def await_releases(self, floor):
        """Has clients give back what they have at the moment up to which that is early."""
        for unit in self.book.table.ordered:
            bound = early_until(self.book, floor, unit)
            if unit.status == ACTIVE and bound > 0:
                self.await_moments([(bound, unit.client, unit.identifier, unit.prefix, (RELEASE,))])

    def client_message(self):
        return self.step() if self.chance(0.5) else super().client_message()

    def begin(self):
        """Draws whose story is next, mostly one that has a unit, and by no grant that stands, and its steps."""
        held = [unit for unit in self.book.table.ordered if unit.status == ACTIVE]
        by_partner = [unit for unit in held if unit.standing is None]
        self.teller = *self.holder(), None
        if held and self.chance(0.8):
            unit = self.random.choice(by_partner if by_partner and self.chance(0.5) else held)
            self.teller = unit.client, unit.identifier, unit.prefix
        others = self.random.choices(list(WEIGHTS), WEIGHTS.values(), k=self.random.randrange(1, 6))
        self.steps = list(ASKED) if self.chance(0.5) else [RENEW, *others]

    def step(self):
        """What the client that tells its story asks next; behind its last step another begins."""
        if not self.steps:
            self.begin()
        kind, (self.asking, identifier, prefix) = self.steps.pop(), self.teller
        unit = self.book.bound(self.asking, identifier, prefix)
        wanted = [(identifier, None if unit is None else unit.prefix)]
        if kind == REQUEST and self.chance(0.4):
            # With a new identity association the message is ordered whole: the unit has one more line.
            wanted += self.random.choice(([], wanted)) + [(self.random.getrandbits(32), None)]
        return self.message(kind, self.asking, wanted)
