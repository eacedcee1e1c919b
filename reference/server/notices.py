"""What partners say beside the frames: notices to octets, a stream parted into frames and notices, and what a clock and
the settings of the partner are worth."""

import re
from dataclasses import dataclass

from . import frames
from .frames import LinkFault
from .values import canonical_prefix, prefix_text

# The end of a nonce whose server speaks notices.
NONCE_END = b"fengtnk2"
FRAME, NOTICE = 0, 1
LONGEST = 4096
NUMBER = re.compile(r"(0|[1-9][0-9]*)\Z")
KNOWN = ("program", "settings", "clock", "clock-reply")
# Of so many milliseconds the clocks of two servers may differ at least: each skew counts as that much.
LEAST_SKEW = 100


class Misspelled(Exception):
    """A notice whose first word is known, and whose others aren't spelled so."""


@dataclass(frozen=True)
class Program:
    name: str
    version: str


@dataclass(frozen=True)
class Terms:
    """A server's settings, as far as a partner compares them: milliseconds, seconds, seconds, milliseconds."""

    skew: int
    mclt: int
    life: int
    transit: int
    pools: tuple


@dataclass(frozen=True)
class Clock:
    number: int
    reading: int


@dataclass(frozen=True)
class ClockReply:
    number: int
    asked: int
    reading: int


@dataclass(frozen=True)
class Unknown:
    """A notice whose first word isn't known."""

    text: str


SPOKEN = (Program, Terms, Clock, ClockReply, Unknown)


def terms_of(settings):
    return Terms(settings.skew, settings.mclt, settings.life, settings.transit, tuple(settings.pools))


def text_of(notice):
    """How a notice is spelled."""
    match notice:
        case Program(name, version):
            return f"program {name} {version}"
        case Terms(skew, mclt, life, transit, pools):
            words = "".join(f" {prefix_text(prefix)} {length}" for prefix, length in pools)
            return f"settings {skew} {mclt} {life} {transit}{words}"
        case Clock(number, reading):
            return f"clock {number} {reading}"
        case ClockReply(number, asked, reading):
            return f"clock-reply {number} {asked} {reading}"
        case Unknown(text):
            return text
    raise ValueError(notice)


def octets_of(text):
    """The octets of a notice, also of one that isn't spelled as one."""
    octets = text.encode() if isinstance(text, str) else text
    return bytes([NOTICE]) + len(octets).to_bytes(2, "big") + octets


def number(word):
    if not NUMBER.match(word):
        raise Misspelled(word)
    return int(word)


def pool(prefix, length):
    try:
        return canonical_prefix(prefix), number(length)
    except ValueError as fault:
        raise Misspelled(prefix) from fault


def notice_of(text):
    """What a notice says."""
    first, *words = text.split(" ")
    if first not in KNOWN:
        return Unknown(text)
    match first, words:
        case "program", [name, version] if name and version:
            return Program(name, version)
        case "settings", [skew, mclt, life, transit, *pools] if pools and len(pools) % 2 == 0:
            pairs = tuple(map(pool, pools[::2], pools[1::2]))
            return Terms(number(skew), number(mclt), number(life), number(transit), pairs)
        case "clock", [count, reading]:
            return Clock(number(count), number(reading))
        case "clock-reply", [count, asked, reading]:
            return ClockReply(number(count), number(asked), number(reading))
    raise Misspelled(text)


class Splitter:
    """Puts the pieces of a stream together, and parts frames and notices."""

    def __init__(self):
        self.rest = b""

    def feed(self, piece):
        octets, found = self.rest + piece, []
        while octets:
            end = self.end_of(octets)
            if end is None or len(octets) < end:
                break
            item = octets[:end]
            found.append(frames.decode(item) if item[0] == FRAME else notice_of(item[3:].decode("ascii")))
            octets = octets[end:]
        self.rest = octets
        return found

    @staticmethod
    def end_of(octets):
        """How many octets the first frame or notice has, None where these don't say it yet."""
        if octets[0] == FRAME:
            return 4 + frames.length_of(octets) if len(octets) >= 4 else None
        if octets[0] != NOTICE:
            raise LinkFault("Length")
        if len(octets) < 3:
            return None
        length = int.from_bytes(octets[1:3], "big")
        if not 1 <= length <= LONGEST:
            raise LinkFault("Length")
        return 3 + length


def bound(mine, others):
    """By how many milliseconds two right clocks differ at most, of servers of these skews."""
    return 2 * max(LEAST_SKEW, min(mine, others))


def verdict(least, most, limit):
    """What it is worth that a partner's clock is ahead by at least and at most so many milliseconds."""
    if -limit <= least and most <= limit:
        return "agrees"
    if most < -limit or least > limit:
        return "differs"
    return "unclear"


def differences(mine, others):
    """Of each key in which settings differ how it is told."""
    found = []
    if mine.mclt != others.mclt:
        found.append(f"mclt: {mine.mclt} here, {others.mclt} there")
    shorter = min(len(mine.pools), len(others.pools))
    if mine.pools[:shorter] != others.pools[:shorter]:
        is_order = sorted(mine.pools) == sorted(others.pools)
        found.append("pool_order" if is_order else "pools")
    for key, here, there in (("skew_ms", mine.skew, others.skew), ("transit_ms", mine.transit, others.transit),
                             ("life", mine.life, others.life)):
        if here != there:
            found.append(f"{key}: {here} here, {there} there")
    return found


def keeps_apart(difference):
    return difference.startswith(("mclt", "pool"))
