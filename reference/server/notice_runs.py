"""Scripts of a partner that speaks notices: what is said first, what is refused, which clocks keep the two apart."""

import contextlib
import pathlib
import time
from dataclasses import replace

from . import frames, notices
from .frames import Frame
from .notice_end import PROGRAM
from .notice_talk import AT_ONCE, SAID_RANGE, talk_of
from .notices import LONGEST, Clock, Misspelled, Program, Unknown, octets_of, terms_of, text_of
from .program import now
from .scenes import settings_of

VERSION = pathlib.Path(__file__).resolve().parents[2] / "VERSION"
ENDED = "<4>node: ended the connection with its partner: "
NO_SETTINGS, NO_CLOCK = "its partner's program sent no settings", "its partner's program sent no clock"
NOT_SPELLED = "it sent a notice that isn't spelled as one"
OTHER_PROGRAM = Program("other", "2.5.13")
# Within how many seconds an end has to say what it has to, and how much sooner or later it is found that it hasn't.
SAYS, SOONER, LATER = 5, 1, 3
# Seconds of a heartbeat, and how much sooner or later a clock may be asked than it is due.
BEAT, NEARLY = 4, 0.9
# An answer that takes so long on its way, in seconds, makes a range by which nothing is known of a clock that is ahead
# by so much more than the two may differ, in milliseconds.
SLOW, MORE = 0.7, 300
# How far a range reaches at most for the time that an answer takes, in milliseconds.
WAY = 3000
MISSPELLED = ("clock", "clock 1", "clock 1 ", "clock  1 5", "clock 1 5 ", "clock 1 5 6", "clock 01 5", "clock 1 05",
              "clock -1 5", "clock +1 5", "clock a 5", "clock 1 5\n", "clock-reply", "clock-reply 1 2",
              "clock-reply 1 2 3 4", "clock-reply 1 2 x", "program", "program fengtuyas", "program a 1 2", "settings",
              "settings 1 2 3 4", "settings 2000 3600 3600", "settings 2000 3600 3600 40000 2001:db8::/48 56",
              "settings 2000 3600 3600 40000 2001:0db8:0000:0000:0000:0000:0000:0000/48",
              "settings 2000 3600 3600 40000 2001:0db8:0000:0000:0000:0000:0000:0001/48 56",
              "settings 02000 3600 3600 40000 2001:0db8:0000:0000:0000:0000:0000:0000/48 56")
# What is no notice: its length, its octets, its first octet.
NONE = (octets_of(b""), b"\1" + (LONGEST + 1).to_bytes(2, "big") + bytes(LONGEST + 1), octets_of(b"clock \xff 5"),
        b"\2\0\1a", b"\1\377\377")
# Which of these a node is told that calls us, and which the others, as it waits before it calls again.
FEW = 5
UNKNOWN = ("choice 00ff", "seal A 1 open 5 00ff", "hello", "a", "clocks 1 5", "weather is fine today", "x" * LONGEST)


def speaks_first(program, role):
    """The node says its program, its settings and its first question at once; and no frame before it knows our settings
    and our clock, in whichever order."""
    with talk_of(program, settings_of(role)) as talk:
        for is_clock_first in (False, True):
            before = now()
            name, terms, clock = talk.bare()
            if name != Program("fengtuyas", VERSION.read_text().strip()) or terms != talk.mine:
                talk.fault(f"the node says {name} and {terms}")
            if not before - 15_000 <= clock.reading <= now() or time.monotonic() - talk.link.met > AT_ONCE:
                talk.fault(f"the node asks by {clock}, {time.monotonic() - talk.link.met:.1f} s behind the call")
            talk.is_still()
            talk.asks_clock(7)
            said = [talk.link.terms, talk.link.reply(clock)]
            talk.link.say(said[is_clock_first])
            talk.is_still()
            talk.asks_clock(1 << 40)
            talk.link.say(said[not is_clock_first])
            talk.joins()
            talk.is_joined()
            talk.status(notices="understood", settings="agree")
            talk.link.say(OTHER_PROGRAM, PROGRAM if is_clock_first else Unknown("hello"))
            said = PROGRAM if is_clock_first else OTHER_PROGRAM
            talk.status(partner_program=f"{said.name} {said.version}")
            talk.asks_clock(3)


def frames_too_soon(program, role):
    """A frame before both are known ends the connection, and nobody is joined."""
    with talk_of(program, settings_of(role)) as talk:
        journal = talk.daemon.volume.read_text()
        contact = frames.message_frame(0, 1, ("contact", 0, 0))
        for said in ((), (PROGRAM,), ("settings",), ("clock",)):
            for frame in (talk.greeting(), contact)[:2 if role == "B" else 1]:
                _, _, clock = talk.bare()
                known = {"settings": talk.link.terms, "clock": talk.link.reply(clock)}
                talk.link.say(*(known.get(each, each) for each in said))
                talk.link.write(frames.encode(frame))
                talk.is_ended()
        if talk.daemon.volume.read_text() != journal:
            talk.fault("the node has written lines")
        if "is connected" in talk.daemon.said():
            talk.fault("the node says that it is connected")


def misspelled(program, role):
    """A notice whose first word is known, and whose others aren't spelled so, ends the connection; so does none."""
    with talk_of(program, settings_of(role)) as talk:
        texts = [octets_of(text) for text in MISSPELLED]
        chosen = [*texts, *NONE] if role == "B" else [*texts[::len(texts) // FEW], NONE[0], NONE[3]]
        for text in MISSPELLED:
            with contextlib.suppress(Misspelled, ValueError):
                talk.fault(f"the second itself reads {text!r} as {notices.notice_of(text)}")
        for octets in chosen:
            talk.bare()
            talk.link.write(octets)
            talk.is_ended()
            if octets == texts[0]:
                talk.daemon.wait_for(ENDED + NOT_SPELLED)
        talk.opens(0)
        talk.is_joined()
        talk.link.write(octets_of(MISSPELLED[4]))
        talk.is_ended()


def unknown(program, role):
    """A notice whose first word isn't known is passed over, before and behind the joining."""
    with talk_of(program, settings_of(role)) as talk:
        _, _, clock = talk.bare()
        for count, text in enumerate(UNKNOWN, start=1):
            talk.link.say(Unknown(text))
            talk.asks_clock(count)
        talk.link.say(talk.link.terms, talk.link.reply(clock))
        talk.joins()
        for count, text in enumerate(UNKNOWN, start=100):
            talk.link.say(Unknown(text))
            talk.asks_clock(count)
        talk.is_joined()


def pieces(octets, *places):
    """The octets, cut at these places."""
    ends = (0, *places, len(octets))
    return [octets[begin:end] for begin, end in zip(ends, ends[1:])]


def split(program, role):
    """A notice comes in two records, cut at each octet; in records of an octet; and with others, and frames, in one."""
    with talk_of(program, settings_of(role)) as talk:
        _, _, clock = talk.bare()
        sent = now()
        octets = octets_of(text_of(Clock(1000, sent)))
        for place in range(1, len(octets)):
            count = 1000 + place
            talk.link.put(*pieces(octets_of(text_of(Clock(count, sent))), place))
            talk.is_answered(count, sent)
        talk.link.put(*(bytes([octet]) for octet in octets))
        talk.is_answered(1000, sent)
        talk.link.put(b"".join(octets_of(text_of(each)) for each in (PROGRAM, talk.link.terms, talk.link.reply(clock))))
        talk.joins()
        request = frames.encode(Frame(frames.UPDATE_REQUEST))
        for count in range(2000, 2003):
            first, second = (octets_of(text_of(Clock(each, sent))) for each in (count, count + 10))
            whole = first + request + second
            talk.link.put(*{2000: [whole], 2001: pieces(whole, *range(1, len(whole))),
                            2002: pieces(whole, len(first) + 2, len(first) + len(request) + 1)}[count])
            talk.hears_done()
            while sum(reply.number in (count, count + 10) for reply, _ in talk.link.replies) < 2:
                item = talk.link.next_item(AT_ONCE)
                if item is None:
                    talk.fault(f"clocks {count} and {count + 10} aren't answered")
                talk.link.note(item)


def says_nothing(program, role):
    """Who doesn't say its settings, or its clock, within five seconds is no partner for now."""
    with talk_of(program, settings_of(role)) as talk:
        for said, why in (((), NO_SETTINGS), (("settings",), NO_CLOCK), (("clock",), NO_SETTINGS)):
            _, _, clock = talk.bare()
            begun = talk.link.met
            known = {"settings": talk.link.terms, "clock": talk.link.reply(clock)}
            talk.link.say(PROGRAM, *(known[each] for each in said))
            if not talk.link.ended(is_mute=True):
                talk.fault(f"who says {said} stays connected")
            took = time.monotonic() - begun
            if not SAYS - SOONER < took < SAYS + LATER:
                talk.fault(f"who says {said} stays connected for {took:.1f} s")
            talk.link.close()
            talk.daemon.wait_for(ENDED + why)
        talk.opens(0)
        talk.is_joined()


def greeted(talk, ahead):
    """A connection over which our clock is ahead by so much of what was asked."""
    talk.link.exactly_ahead = ahead
    _, _, clock = talk.bare()
    talk.link.say(PROGRAM, talk.link.terms, talk.link.reply(clock))


def joins_by_clock(talk, limit, ahead):
    """Our clock is ahead by so much: the two join, and the status has the range."""
    greeted(talk, ahead)
    talk.joins()
    talk.is_joined()
    for _ in range(3):
        (least, most), verdicts = talk.range()
        # (it may be asked anew meanwhile)
        if verdicts == [notices.verdict(least, most, limit)]:
            break
    else:
        talk.fault(f"a clock ahead by {least} to {most} ms of {limit} is {verdicts} by the metrics")
    if most != ahead or not ahead - WAY <= least <= ahead or verdicts == ["differs"]:
        talk.fault(f"a clock ahead by {ahead} ms is told as {least} to {most}, {verdicts}")
    talk.link.leave()


def stays_apart_by_clock(talk, ahead):
    """Our clock is ahead by so much: no frame comes, and the connection is ended."""
    greeted(talk, ahead)
    talk.is_ended()
    if talk.link.late:
        talk.fault(f"a clock ahead by {ahead} ms, and the node sends {talk.link.late}")
    if not SAID_RANGE.search(talk.daemon.said()):
        talk.fault(f"a clock ahead by {ahead} ms, and no word of it")


def clock_bounds(program, role, mine=2000, others=2000):
    """Clocks at the least and the most by which those of two right servers differ, and beyond that."""
    settings = replace(settings_of(role), skew=mine)
    with talk_of(program, settings, terms=replace(terms_of(settings), skew=others)) as talk:
        limit = notices.bound(mine, others)
        for ahead in (limit, -limit, 0, limit - 1):
            joins_by_clock(talk, limit, ahead)
        for ahead in (-limit - 1, limit + WAY):
            stays_apart_by_clock(talk, ahead)
        found = SAID_RANGE.findall(talk.daemon.said())
        if len(found) != 1:
            talk.fault(f"it says {len(found)} times within an hour that its partner's clock differs")
        *ends, way = found[0]
        least, most = (1000 * float(each) for each in ends)
        if way != "behind" or least > limit + 101 or not least <= most <= limit + WAY:
            talk.fault(f"it says {found[0]} of a clock {limit + 1} ms behind")


def clock_bounds_of_less(program, role):
    """The partner's skew is less, and counts."""
    clock_bounds(program, role, others=700)


def clock_bounds_of_more(program, role):
    """The node's own skew is less, and counts."""
    clock_bounds(program, role, mine=700)


def clock_bounds_at_least(program, role):
    """A skew of less than 100 ms counts as that."""
    clock_bounds(program, role, others=50)


def next_clock(talk):
    """The node's next question, and when it came."""
    while True:
        item = talk.link.next_item(BEAT + AT_ONCE)
        if item is None:
            talk.fault("the node doesn't ask our clock")
        if isinstance(item, Clock):
            return item, time.monotonic()


def asks_on(program, role):
    """Joined, the node asks our clock at each heartbeat, each second while it isn't known to agree; and ends the
    connection once it differs."""
    with talk_of(program, settings_of(role), heartbeat=BEAT) as talk:
        limit = notices.bound(talk.mine.skew, talk.link.terms.skew)
        talk.opens(0)
        talk.is_joined()
        last, answered = next_clock(talk)
        talk.link.say(talk.link.reply(last))
        # (of what is asked each second one more question may be on its way as an answer says that the clocks agree)
        ways = ((BEAT, False), (BEAT, True), (1, True), (1, False), (None, False), (BEAT, False))
        for period, is_slow in ways:
            clock, came = next_clock(talk)
            least = 0 if period != BEAT else BEAT - NEARLY
            period = period or BEAT
            if clock.number <= last.number or not least < came - answered < period + NEARLY:
                talk.fault(f"{clock} comes {came - answered:.1f} s behind the answer to {last}, awaited {period} s")
            talk.link.exactly_ahead = limit + MORE if is_slow else 0
            time.sleep(SLOW * is_slow)
            talk.link.say(talk.link.reply(clock))
            last, answered = clock, time.monotonic()
        clock, _ = next_clock(talk)
        talk.link.exactly_ahead = limit + WAY
        talk.link.say(talk.link.reply(clock))
        talk.is_ended()
        if not SAID_RANGE.search(talk.daemon.said()):
            talk.fault("no word of a clock that differs")
