"""The clocks of two servers, which step within the skew at drawn instants, and what they showed at each moment."""
import bisect
import math
import random
import threading

from .clients import now
from .daemons import ROLES, SKEW

# How far a clock is from the system's, at most, in milliseconds: less than the skew, as a reading has no fractions of
# one.
MOST = SKEW - 2
# How long it is until either clock is set, on average, in seconds, and by how much it steps where that is little, in
# milliseconds.
STANDS, LITTLE = 0.6, 30
# How far a clock steps at once, at most, in milliseconds: a step by more than the skew is a clock that was set, also where two
# steps fall into one turn of a server.
FARTHEST = SKEW // 2
# Where a clock is set to, and how often: anywhere, to either end, to the end that the other is farthest from, by
# little, right.
AIMS = {"anywhere": 3, "end": 3, "apart": 2, "little": 2, "right": 1}
# By how much a line may read less than its server's clock can have shown, in milliseconds.
ROUNDING = 2


class Clocks(threading.Thread):
    """`delays` has what sets each side's clock."""

    def __init__(self, seed, delays):
        super().__init__(daemon=True)
        self.dice, self.delays, self.over = random.Random(seed), delays, threading.Event()
        # How each clock was shifted, and from when on at the earliest; each lasts until that moment in `ends` at the
        # latest.
        self.shifts = {side: [0.0] for side in ROLES}
        self.begins = {side: [now()] for side in ROLES}
        self.ends = {side: [math.inf] for side in ROLES}

    def run(self):
        while not self.over.wait(self.dice.expovariate(1 / STANDS)):
            self.step(self.dice.choice(list(ROLES)))

    def aim(self, side):
        """By how much a clock is to be shifted."""
        shift, other = self.shifts[side][-1], self.shifts["B" if side == "A" else "A"][-1]
        aim = self.dice.choices(list(AIMS), AIMS.values())[0]
        if aim == "little":
            return max(-MOST, min(MOST, shift + self.dice.uniform(-LITTLE, LITTLE)))
        if aim == "apart":
            return -MOST if other > 0 else MOST
        return {"anywhere": self.dice.uniform(-MOST, MOST), "end": self.dice.choice([-MOST, MOST]), "right": 0.0}[aim]

    def step(self, side):
        before = self.shifts[side][-1]
        shift = max(before - FARTHEST, min(before + FARTHEST, self.aim(side)))
        self.begins[side].append(now())
        self.delays[side].shift(shift)
        self.ends[side][-1] = now()
        self.ends[side].append(math.inf)
        self.shifts[side].append(shift)

    def between(self, side, sent, came):
        """How a clock was shifted between a question and its answer, the last first, from when on, and until when."""
        for place in range(bisect.bisect_right(self.begins[side], came) - 1, -1, -1):
            if self.ends[side][place] < sent:
                break
            yield self.shifts[side][place], max(self.begins[side][place], sent), min(self.ends[side][place], came)

    def least(self, side, sent, came):
        """The least that a clock showed between a question and its answer."""
        return min(begin + shift for shift, begin, _ in self.between(side, sent, came)) - ROUNDING

    def moment(self, side, reading, sent, came):
        """The latest moment between a question and its answer at which a server can have taken a reading, None where it
        can't: its clock showed no more than that then, since what falls behind the journal's last reading is written as
        that."""
        for shift, begin, end in self.between(side, sent, came):
            moment = min(end, reading + ROUNDING - shift)
            if moment >= begin:
                return moment
        return None

    def steps(self):
        """By how much the clocks stepped, each time."""
        for shifts in self.shifts.values():
            yield from (after - before for before, after in zip(shifts, shifts[1:]))

    def end(self):
        self.over.set()
        if self.is_alive():
            self.join(10)
