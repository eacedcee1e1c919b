"""Worked examples of notices: how they are spelled and parted, and what clocks and settings are worth."""

import hashlib
import hmac

from . import frames, notices
from .frames import Frame, LinkFault
from .keyed import Channel, Records
from .notices import (
    Clock, ClockReply, Misspelled, Program, Splitter, Terms, Unknown, bound, differences, notice_of, octets_of, text_of,
    verdict,
)
from .values import prefix_of

POOL, OTHER = ((prefix_of(text), 56) for text in ("2001:db8::/48", "2001:db8:1::/48"))
TERMS = Terms(2000, 3600, 7200, 10_000, (POOL,))
TEXTS = ((Program("fengtuyas", "1.0.0"), "program fengtuyas 1.0.0"),
         (TERMS, "settings 2000 3600 7200 10000 2001:0db8:0000:0000:0000:0000:0000:0000/48 56"),
         (Clock(1, 1_795_983_131_329), "clock 1 1795983131329"), (ClockReply(1, 5, 0), "clock-reply 1 5 0"),
         (Unknown("choice 00ff"), "choice 00ff"))
WRONG = ("clock 1", "clock 1 ", "clock  1", "clock 01 5", "clock 1 5 6", "clock 1 5\n", "clock-reply 1 5", "program a",
         "settings 2000 3600 7200 10000", "settings 2000 3600 7200 10000 2001:db8::/48 56")


def equal(found, wanted):
    if found != wanted:
        raise AssertionError(f"found {found!r}, wanted {wanted!r}")


def fault_of(call, *words):
    try:
        call(*words)
    except (Misspelled, LinkFault) as fault:
        return type(fault)
    return None


def spell():
    for notice, text in TEXTS:
        equal(text_of(notice), text)
        equal(notice_of(text), notice)
    equal(octets_of("clock 1 5").hex(), "010009" + "636c6f636b20312035")
    for text in WRONG:
        equal(fault_of(notice_of, text), Misspelled)


def part():
    """Whatever the pieces, the same comes out."""
    items = [TEXTS[0][0], Frame(frames.UPDATE_REQUEST), *(notice for notice, _ in TEXTS)]
    items.append(Frame(frames.CONTACT, 1, 2, ("contact", 3, 4)))
    octets = b"".join(frames.encode(item) if isinstance(item, Frame) else octets_of(text_of(item)) for item in items)
    for size in range(1, len(octets) + 1):
        splitter = Splitter()
        found = [item for place in range(0, len(octets), size) for item in splitter.feed(octets[place:place + size])]
        equal((found, splitter.rest), (items, b""))
    for wrong in (b"\1\0\0", b"\1\x10\1", b"\2\0\1a", b"\xff", b"\0\0\0\1"):
        equal(fault_of(Splitter().feed, wrong), LinkFault)
    equal(Splitter().feed(octets_of("x" * notices.LONGEST)), [Unknown("x" * notices.LONGEST)])


def compare_clocks():
    equal([bound(*skews) for skews in ((2000, 700), (700, 2000), (50, 2000), (0, 0), (100, 101))],
          [1400, 1400, 200, 200, 200])
    equal([verdict(least, most, 1000) for least, most in
           ((-1000, 1000), (-1001, 1000), (-1000, 1001), (-1500, -1001), (-1500, -1000), (1001, 1500), (1000, 1500))],
          ["agrees", "unclear", "unclear", "differs", "unclear", "differs", "unclear"])


def compare_settings():
    def told(**changed):
        others = {"skew": 2000, "mclt": 3600, "life": 7200, "transit": 10_000, "pools": (POOL,)} | changed
        return differences(TERMS, Terms(**others))
    equal(told(), [])
    equal(told(mclt=1, life=2), ["mclt: 3600 here, 1 there", "life: 7200 here, 2 there"])
    equal(told(skew=1, transit=2), ["skew_ms: 2000 here, 1 there", "transit_ms: 10000 here, 2 there"])
    equal([told(pools=pools) for pools in ((POOL, OTHER), (OTHER, POOL), (OTHER,), ((POOL[0], 57),))],
          [[], ["pools"], ["pools"], ["pools"]])
    both = Terms(1, 1, 1, 1, (POOL, OTHER))
    equal(differences(both, Terms(1, 1, 1, 1, (OTHER, POOL))), ["pool_order"])
    equal(differences(both, Terms(1, 1, 1, 1, (POOL,))), [])


def have_key():
    """Each reads what the other says by the key of both, and nothing else."""
    key, first, second = bytes(range(32)), bytes(32), bytes([1] * 32)
    mine, theirs = Channel(key, "A", first, second), Channel(key, "B", second, first)
    wanted = hmac.new(key, b"fengtuyas link: proof\1" + first + second, hashlib.sha256).digest()
    equal(mine.proof, wanted)
    stream = mine.record(b"abc") + mine.record(b"") + mine.record(b"d")
    records = Records(Channel(key, "A", first, second))
    equal(b"".join(records.feed(stream[place:place + 1]) for place in range(len(stream))), b"abcd")
    for wrong in (theirs.record(b"abc"), stream[21:], stream[:-1] + b"\0" * 2):
        try:
            Records(Channel(key, "A", first, second)).feed(wrong)
        except ValueError:
            continue
        raise AssertionError(f"a record that is another's was read: {wrong.hex()}")


EXAMPLES = (spell, part, compare_clocks, compare_settings, have_key)
