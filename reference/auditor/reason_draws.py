"""Draws who had a prefix at a moment, asks the desk why it names nobody, and tells where the second says otherwise."""
import collections
import itertools
import random
from typing import NamedTuple

from . import carry_edges, reason_edges, settings_edges
from .clocks import least_skew
from .comparing import Difference, Question, desk_answer
from .desk import Evidence, cut
from .disturbing import disturbed
from .explaining import canonical, first_difference, object_of
from .journals import MOST_TRANSIT, Grant, Release
from .leases import NEAR, Asked, Leases
from .nobody import nobody_named
from .rules import MOST_SKEW
from .running import drawn_run
from .schema import fault_of
from .words import ADDRESS_BITS, MOST_READING, SIDES, Prefix, other_side, prefix_word
from .writing import journal_text

# So many questions are asked of each drawn pair of journals.
ASKED_OF_EACH = 20
OFTEN_DISTURBED = 0.25
WHOLE = (1 << ADDRESS_BITS) - 1


class Who(NamedTuple):
    """A question over two journals."""

    asked: Asked
    settings_differ: bool
    text: bytes

    def words(self):
        asked = self.asked
        words = ["who", "--skew-ms", str(asked.skew), "--transit-ms", str(asked.transit)]
        words += ["--prefix", prefix_word(asked.prefix), "--at", str(asked.moment)]
        return [*words, *["--settings-differ"] * self.settings_differ, "--explain", "--json"]


def bounds_of_line(line, leases):
    """The moments at which something of a line begins or ends to hold."""
    asked = leases.asked
    yield from (line.reading - asked.skew, line.reading + asked.skew)
    if isinstance(line.event, Release):
        return
    ended = leases.ended_by(line)
    if ended is not None:
        yield from (ended, ended + NEAR)
    if isinstance(line.event, Grant):
        yield from (leases.surely_begun(line), line.reading - asked.skew - NEAR)
        yield from [] if leases.lasts_to(line) is None else [leases.lasts_to(line)]


def bounds(pair, asked):
    """The moments at which an answer may change."""
    leases = Leases(pair, asked)
    for side in SIDES:
        opened, closed = pair.open_reading(side), pair.close_reading(side)
        yield from (opened - asked.skew, opened + asked.skew + asked.transit, closed - asked.skew - 1)
    for _, line in pair.held:
        if line.event.prefix.overlaps(asked.prefix):
            yield from bounds_of_line(line, leases)


def cut_to(address, length):
    return Prefix(address >> (ADDRESS_BITS - length) << (ADDRESS_BITS - length), length)


def address_in(rng, prefix):
    return rng.choice((prefix.address, prefix.last(), rng.randint(prefix.address, prefix.last())))


def longer(rng, prefix):
    length = rng.choice((ADDRESS_BITS, min(prefix.length + 1, ADDRESS_BITS), rng.randint(prefix.length, ADDRESS_BITS)))
    return cut_to(address_in(rng, prefix), length)


def shorter(rng, prefix):
    length = rng.choice((max(prefix.length - 1, 0), max(prefix.length - 1, 0), rng.randint(0, prefix.length), 0))
    return cut_to(prefix.address, length)


def beside(rng, prefix):
    """A neighbour of a pool, or any address."""
    size = 1 << (ADDRESS_BITS - prefix.length)
    near = rng.choice((prefix.address + size, prefix.address - size, rng.randint(0, WHOLE))) & WHOLE
    return cut_to(near, rng.choice((prefix.length, ADDRESS_BITS, max(prefix.length - 1, 0))))


class Draw:
    """The questions of one run."""

    def __init__(self, rng):
        self.rng = rng
        self.run = drawn_run(rng)
        servers = self.run.servers.items()
        texts = [journal_text(side, server.book.volume, server.entries) for side, server in servers]
        if rng.random() < OFTEN_DISTURBED:
            texts = disturbed(rng, self.run)
        self.evidence = Evidence(*texts)
        self.text = b"".join(texts)

    def prefix(self):
        """A unit, one of a line where there is any, or a prefix in it, around it or beside all."""
        rng = self.rng
        held = self.evidence.pair.held if self.evidence.pair else []
        prefix = rng.choice(held)[1].event.prefix if held and rng.random() < 0.9 else rng.choice(self.run.units)
        draw = rng.random()
        if draw < 0.55:
            return prefix
        if draw < 0.8:
            return longer(rng, prefix)
        if draw < 0.9:
            return shorter(rng, prefix)
        return beside(rng, rng.choice(self.run.settings.pools)[0])

    def skews_at_bounds(self):
        """Half of what lies between a line and a release or a volume's first line of the other side."""
        pair = self.evidence.pair
        for reference, line in pair.held:
            other = other_side(reference.side)
            if isinstance(line.event, Release):
                continue
            yield line.reading - pair.open_reading(other)
            for release, told in pair.held:
                if release.side == other and isinstance(told.event, Release) and told.event.prefix == line.event.prefix:
                    yield abs(told.reading - line.reading)

    def skew(self):
        """The run's skew, one more or less, or one by which two lines just follow each other; K1 mostly allows it."""
        rng, skew = self.rng, self.run.settings.skew
        between = [0]
        draw = rng.random()
        if draw > 0.9:
            between = [max(0, skew - 1), skew + 1, 0, self.run.off, MOST_SKEW]
        elif draw > 0.6 and self.evidence.pair:
            between = [apart // 2 + more for apart in self.skews_at_bounds() for more in (-1, 0, 0, 1)]
        least = least_skew(self.evidence.behind) if rng.random() < 0.9 else 0
        allowed = [drawn for drawn in between if least <= drawn <= MOST_SKEW and draw > 0.6]
        return rng.choice(allowed) if allowed else min(max(skew, least), MOST_SKEW)

    def transit(self):
        transit = self.run.settings.transit
        return transit if self.rng.random() < 0.8 else self.rng.choice((0, transit + 1, 1000, MOST_TRANSIT))

    def moment(self, asked):
        """A bound, a millisecond beside one, or any moment of the journals."""
        rng, evidence = self.rng, self.evidence
        if evidence.before or evidence.after:
            return self.run.moment
        if rng.random() < 0.25:
            return rng.randint(*sorted((evidence.pair.open_reading("A"), evidence.pair.close_reading("B"))))
        return rng.choice(list(bounds(evidence.pair, asked))) + rng.choice((-1, 0, 0, 1))

    def question(self):
        skew, transit = self.skew(), self.transit()
        asked = Asked(self.prefix(), 0, skew, transit)
        moment = min(max(self.moment(asked), 0), MOST_READING)
        less = skew < self.run.settings.skew or transit < self.run.settings.transit
        return Who(asked._replace(moment=moment), self.rng.random() < (0.8 if less else 0.1), self.text)

    def questions(self):
        # What is refused is refused at every moment.
        refused = self.evidence.before or self.evidence.after or self.evidence.carried
        for _ in range(1 if refused else ASKED_OF_EACH):
            yield self.question()


def edge_questions():
    """Fixed journals, at each moment at which an answer may change and a millisecond beside it; and refused ones."""
    yield from refused_questions()
    for texts, prefixes, skews, transit in reason_edges.inputs():
        evidence, text = Evidence(*texts), b"".join(texts)
        for prefix in prefixes:
            for skew in skews:
                asked = Asked(prefix, 0, skew, transit)
                near = {moment + more for moment in bounds(evidence.pair, asked) for more in (-1, 0, 1)}
                for moment in sorted(moment for moment in near if 0 <= moment <= MOST_READING):
                    yield Who(asked._replace(moment=moment), True, text)


def refused_questions():
    """Fixed journals that `who` refuses, or nearly, some for several reasons at once."""
    prefix, moment = reason_edges.FIRST, 20_000
    asked = itertools.cycle(settings_edges.ASKED)
    for texts, margins in zip(settings_edges.inputs(), asked):
        for settings_differ in (False, True):
            yield Who(Asked(prefix, moment, *margins), settings_differ, b"".join(texts))
    for (first, second), skews in itertools.islice(carry_edges.inputs(), 0, None, 3):
        yield from (Who(Asked(prefix, moment, skew, 0), False, first + second) for skew in skews)
        other = second.replace(b"open 2000 3600 3600", b"open 2000 3600 3601")
        yield from (Who(Asked(prefix, moment, skew, 0), False, first + other) for skew in (2_000, 1_999))
        yield Who(Asked(prefix, moment, 1_999, 0), False, first + second)


def kinds_of(told):
    """What was met: the reason or the refusal, and what was so of each delegation."""
    if told["why"] is None:
        return [" ".join(told["answer"].split(" ")[:2])]
    return [f"why {told['why']['reason']}", *[f"is {lease['at_the_moment']['is']}" for lease in told["leases"]]]


def compare(desk, who):
    """What was met, and the difference, None where there is none."""
    words = who.words()
    written, complaint, status = desk_answer(desk, Question(words, who.text))
    its = object_of(written)
    fault = "it is no object" if its is None else fault_of(its)
    if status == 0:
        return ["named"], Difference(words, who.text, "an object of the schema", fault) if fault else None
    mine, lengths = nobody_named(Evidence(*cut(who.text)), who.asked, who.settings_differ)
    if status != 1 or complaint or its is None:
        told = f"{written}{complaint}status {status}"
        return kinds_of(mine), Difference(words, who.text, "an object, no warning, status 1", told)
    take_length(mine["why"], its.get("why"), lengths)
    if fault:
        return kinds_of(mine), Difference(words, who.text, "an object of the schema", fault)
    if canonical(mine) == canonical(its):
        return kinds_of(mine), None
    place, ours, theirs = first_difference(mine, its)
    return kinds_of(mine), Difference(words, who.text, f"{place} {canonical(ours)}", f"{place} {canonical(theirs)}")


def take_length(mine, its, lengths):
    """Of several pools whose units are longer than the prefix, the desk may say the length of any."""
    if mine and its and "unit_length" in mine and its.get("unit_length") in lengths:
        mine["unit_length"] = its["unit_length"]


def compare_all(desk, questions):
    """How often each kind was met, how many questions were asked, and the differences."""
    met, count, differences = collections.Counter(), 0, []
    for who in questions:
        kinds, difference = compare(desk, who)
        met.update(set(kinds))
        count += 1
        differences += [difference] if difference else []
    return met, count, differences


def compare_draw(desk, seed, index):
    """All questions of one draw."""
    return compare_all(desk, Draw(random.Random(f"reasons {seed} {index}")).questions())
