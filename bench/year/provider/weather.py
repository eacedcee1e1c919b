"""What befalls servers, links, relays and clocks in a year, drawn by a seed."""
from dataclasses import dataclass

from .pair import BROKEN, SILENT

SECOND, MINUTE, HOUR, DAY = 1000, 60_000, 3_600_000, 86_400_000
# How far a clock may drift, in milliseconds.
DRIFT = 900


@dataclass(frozen=True)
class Trouble:
    """Something that happens at a moment: its name, and whom it befalls."""

    at: int
    name: str
    who: int = 0


def count_in(days, each):
    """How often something happens in so many days that happens once in `each`: once at least."""
    return max(1, round(days / each))


class Weather:
    """The troubles of a run, and the windows in which they last, by name."""

    def __init__(self, begins, days, relays, dice):
        self.begins, self.days, self.dice = begins, days, dice
        self.troubles, self.windows = [], []
        # when the partner may be away for a day, no other trouble of a server begins
        self.quiet = []
        self.drifts = [[dice.uniform(-DRIFT, DRIFT) for _ in range(days + 3)] for _ in range(2)]
        self.hour = None
        self.draw_down_days()
        self.draw_hour()
        self.draw_cuts()
        self.draw_links()
        self.draw_relays(relays)
        self.troubles.sort(key=lambda trouble: trouble.at)

    def moment(self, first=0.08, last=0.97):
        return self.begins + int(self.dice.uniform(first, last) * self.days * DAY)

    def add(self, at, name, who, lasts, end):
        self.troubles += [Trouble(at, name, who), Trouble(at + lasts, end, who)]
        self.windows.append((name, at, at + lasts))

    def draw_down_days(self):
        """Either server's machine is away for a day; after half an hour its partner is told that it is down."""
        for who, place in ((0, 0.35), (1, 0.7)):
            at = self.begins + int((place + self.dice.uniform(-0.05, 0.05)) * self.days * DAY)
            lasts = min(DAY, self.days * DAY // 10)
            self.add(at, "machine away", who, lasts, "machine back")
            self.troubles.append(Trouble(at + lasts // 48, "say down", 1 - who))
            self.troubles.append(Trouble(at + lasts + 10 * MINUTE, "say normal", 1 - who))
            self.quiet.append((at - HOUR, at + lasts + 2 * HOUR))

    def draw_hour(self):
        """The secondary's clock is an hour ahead for twenty minutes, and is then set right."""
        at = self.begins + int(self.dice.uniform(0.5, 0.55) * self.days * DAY)
        self.hour = (at, at + 20 * MINUTE)
        self.windows.append(("clock ahead by an hour", at, at + 80 * MINUTE))
        self.quiet.append((at - HOUR, at + 2 * HOUR))

    def is_quiet(self, at, lasts):
        return any(at < end and begin < at + lasts for begin, end in self.quiet)

    def fit(self, lasts):
        while self.is_quiet(at := self.moment(), lasts):
            pass
        return at

    def draw_cuts(self):
        """Each month the power goes at one server, or at both; each quarter one is stopped and started again."""
        for _ in range(count_in(self.days, 30)):
            lasts = int(self.dice.uniform(1, 15) * MINUTE)
            at = self.fit(lasts)
            for who in self.dice.choice([(0,), (1,), (0, 1)]):
                self.add(at, "power cut", who, lasts + who * SECOND, "power back")
        for _ in range(count_in(self.days, 90)):
            at = self.fit(2 * MINUTE)
            self.add(at, "restart", self.dice.randrange(2), MINUTE, "power back")

    def draw_links(self):
        """Twice a month the link is gone for a while, with a word or without one."""
        for _ in range(count_in(self.days, 15)):
            lasts = int(self.dice.choice([20 * SECOND, 5 * MINUTE, HOUR, 3 * HOUR]) * self.dice.uniform(0.5, 1.5))
            at = self.fit(lasts)
            self.add(at, "link cut", self.dice.choice([SILENT, BROKEN]), lasts, "link back")
            self.quiet.append((at, at + lasts))

    def draw_relays(self, relays):
        """Each relay is gone for a while twice a year."""
        for relay in range(relays):
            for _ in range(count_in(self.days, 183)):
                lasts = int(self.dice.choice([5 * MINUTE, HOUR, 6 * HOUR]) * self.dice.uniform(0.5, 1.5))
                self.add(self.moment(), "relay away", relay, lasts, "relay back")

    def offset(self, side, now):
        """How far a server's clock is from true time, in milliseconds: it drifts from day to day."""
        place, part = divmod(now - self.begins, DAY)
        knots = self.drifts[side]
        drift = knots[place] + (knots[place + 1] - knots[place]) * part / DAY
        if side == 1 and self.hour[0] <= now < self.hour[1]:
            drift += HOUR
        return int(drift)

