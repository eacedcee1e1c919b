"""Servers that tell clients again what they have (`renew_floor`): which answers have a grant line of their own, and on
which lines the others rest."""
import collections
import math
from typing import NamedTuple

from .daemons import SKEW, TRANSIT
from .judging import STEP, Expire, Grant, Release, Seize, key_of, prefix_text, prefix_word

# By how much what is told again has to end before its line does, by the clock's reading then, and how late such an
# answer may be by chance, in milliseconds.
BEFORE, SLACK = 2 * SKEW + TRANSIT, 400


class Terms(NamedTuple):
    """How long an answer is told again, in seconds, and the clocks of both servers where these are set."""

    floor: int
    clocks: object

    def margin(self):
        """By how much a clock may be off, in milliseconds."""
        return 0 if self.clocks is None else SKEW

    def least(self, answer):
        """The least that the server's clock can have shown when it heard the question."""
        return answer.sent - STEP if self.clocks is None else self.clocks.least(answer.server, answer.sent, answer.came)


class GrantLine(NamedTuple):
    """A line that gave a prefix, until when it was its unit's last of its kind, or until that was over."""

    reading: int
    valid: int
    until: float


class Way(NamedTuple):
    """One way in which answers to a client can have come of lines: the last one's line, whether that is its own, and
    the way before."""

    answer: object
    line: GrantLine
    is_own: bool
    before: object


def grant_lines(volumes):
    """The lines of each holder and prefix, as they stand."""
    lines, until = collections.defaultdict(list), collections.defaultdict(lambda: math.inf)
    for line in reversed(volumes.lines):
        event = line.event
        if not isinstance(event, (Grant, Release, Expire, Seize)):
            continue
        prefix = prefix_word(event.prefix)
        if isinstance(event, Grant):
            lines[key_of(event), prefix].append(GrantLine(line.reading, event.valid, until[prefix]))
        until[prefix] = line.reading
    return {place: found[::-1] for place, found in lines.items()}


def is_own(answer, line, heard):
    """Whether an answer may be a line's own, of a question that was heard when the clock showed no less than that."""
    return line.valid == answer.valid and heard <= line.reading


def rests(answer, line, heard, terms):
    """Whether an answer may tell a line's lease again: the line is young, it is the last, and what is told ends before
    it does, by the clock as by the moment at which the answer came."""
    end, told = line.reading + 1000 * line.valid, 1000 * answer.valid
    # (the clock may have stepped back behind the answer, before the line behind this one)
    is_last = line.until + 2 * terms.margin() >= heard and heard - 1000 * terms.floor <= line.reading
    return is_last and max(heard, line.reading) + told + BEFORE <= end and answer.came + told + SKEW <= end + SLACK


def ways_on(ways, answer, lines, terms):
    """The ways on by an answer, by the place of their last line: its own is behind those of the answers before."""
    found, heard = {}, terms.least(answer)
    for last, way in ways.items():
        for place in range(max(last, 0), len(lines)):
            line = lines[place]
            if line.reading > answer.came + 1 + terms.margin():
                break
            if place > last and is_own(answer, line, heard):
                found[place] = Way(answer, line, True, way)
            elif place not in found and rests(answer, line, heard, terms):
                found[place] = Way(answer, line, False, way)
    return found


def read(answers, lines, terms):
    """The last of the ways in which the answers to one holder came of its lines, and the answers that came of none."""
    ways, missing = {-1: None}, []
    for answer in answers:
        found = ways_on(ways, answer, lines, terms)
        if not found:
            missing.append((answer, f"no grant line of {answer}, or for it to rest on: {near(answer, lines)}"))
        ways = found or ways
    return ways[max(ways)], missing


def near(answer, lines):
    return [line for line in lines if abs(line.reading - answer.sent) < 10_000][:6]


def matched_again(answers, sides, terms):
    """As `matched` of judging.py: the line of each answer that has its own, by its reading, and each that came of none;
    and how many were told again what a line gave."""
    by_place, found, missing, again = collections.defaultdict(list), [], [], 0
    for answer in sorted(answers, key=lambda answer: answer.came):
        by_place[answer.server, answer.key, prefix_text(answer.prefix)].append(answer)
    lines = {side: grant_lines(volumes) for side, volumes in sides.items()}
    for (side, *place), told in by_place.items():
        way, lacking = read(told, lines[side].get(tuple(place), []), terms)
        missing += lacking
        while way is not None:
            again += not way.is_own
            found += [(way.answer, way.line.reading)] if way.is_own else []
            way = way.before
    return sorted(found, key=lambda pair: pair[0].came), missing, again
