"""Scripts of starts that ask the partner's clock, of partners whose settings differ, and of those of an older version;
and of all that a partner which speaks notices has in common with one that doesn't."""

import contextlib
import time
from concurrent.futures import ThreadPoolExecutor
from dataclasses import replace

from . import answers, copy_runs, notice_runs, notices, start_runs
from .notice_end import PROGRAM, KeyedEnd, NoticeEnd, end_of
from .notice_runs import MORE, SLOW
from .notice_talk import AT_ONCE, SAID_RANGE, STAY_APART, Talk, talk_of
from .notices import NONCE_END, Clock, octets_of
from .program import Daemon, now
from .scenes import Beside, lived, scene_of, settings_of
from .values import prefix_of

ASKS, DIFFERS = "no, asks its partner's clock", "no, its partner's clock differs"
ASKS_FIRST = "<6>node: asks its partner's clock before it begins\n"
SAID = "node: its partner's settings differ in "
# How many seconds behind a connection that was ended for clocks or settings the primary calls again.
AGAIN, NEARLY = 10, 2
FIRST, SECOND = ((prefix_of(f"2001:db8:{digit}::/48"), 56) for digit in "12")
# Of each difference what the partner's settings have that differs, and what is told of it.
JOINED = (({"skew": 1999}, "skew_ms: 2000 here, 1999 there"),
          ({"transit": 39_999}, "transit_ms: 40000 here, 39999 there"), ({"life": 7200}, "life: 3600 here, 7200 there"))
# Ends of a nonce by which nobody speaks notices.
OLDER = (b"", b"fengtnk1", b"fengtnk3", b"Fengtnk2", NONCE_END + b"\0")


def is_awaited(daemon):
    """A daemon is awaited that asks before it begins: a script is what answers it."""
    daemon.listens = "listens for clients and relays"


class Asked(NoticeEnd):
    """Our end for such a daemon."""

    def vouch(self, daemon):
        is_awaited(daemon)


def has_lines(daemon):
    """Whether a daemon has written anything behind what it goes on with."""
    text = daemon.volume.read_text() if daemon.volume.exists() else ""
    return text.count("\n") > (len(daemon.past) + 1 if daemon.past else 0)


@contextlib.contextmanager
def asking(program, role, book=None):
    """A daemon that has been started and asks."""
    settings = settings_of(role)
    past = list(book.lines) if book else []
    with end_of(settings, Asked, settings) as link, \
            Daemon(program, settings, answers.PLAIN, has_link=True, past=past, link=link) as daemon:
        yield Talk(daemon, link)


def is_asking(talk, reasons=(ASKS,)):
    """It says that it asks, and writes nothing."""
    talk.daemon.wait_for(ASKS_FIRST)
    rows = talk.status()
    if rows["serving"] not in reasons:
        talk.fault(f"the status says serving: {rows['serving']}, awaited {reasons}")
    if has_lines(talk.daemon):
        talk.fault("a server that asks has written lines")


def begins(talk):
    """It has begun, at once."""
    until = time.monotonic() + 2 * AT_ONCE
    while not has_lines(talk.daemon) or talk.status()["serving"] in (ASKS, DIFFERS):
        if time.monotonic() > until:
            talk.fault("the node doesn't begin")
        if talk.link.socket is not None and talk.link.read(0.02):
            talk.link.hear_all()


def begins_by_clock(program, role, book=None):
    """A start asks, says no frame and writes no line; it begins at once where our clock agrees."""
    with asking(program, role, book) as talk:
        _, _, clock = talk.bare()
        talk.link.say(PROGRAM, talk.link.terms)
        talk.is_still()
        is_asking(talk)
        talk.link.leave()
        _, _, clock = talk.bare()
        talk.link.say(PROGRAM, talk.link.terms, talk.link.reply(clock))
        begins(talk)
        talk.link.leave()
        talk.opens(book.serial if book else 0)
        talk.is_joined()


def goes_on_by_clock(program, role):
    """So does one that goes on with its volume."""
    begins_by_clock(program, role, lived(role))


def waits_by_clock(program, role):
    """A start doesn't begin while our clock differs: it calls again, and begins once that agrees."""
    with asking(program, role, lived(role)) as talk:
        limit = notices.bound(talk.mine.skew, talk.link.terms.skew)
        for _ in range(2):
            talk.link.exactly_ahead = 2 * limit
            _, _, clock = talk.bare()
            talk.link.say(PROGRAM, talk.link.terms, talk.link.reply(clock))
            talk.is_ended()
            is_asking(talk, (ASKS, DIFFERS))
            if talk.link.late:
                talk.fault(f"a server that asks sends {talk.link.late}")
        if len(SAID_RANGE.findall(talk.daemon.said())) != 1:
            talk.fault("it says not once that its partner's clock differs")
        talk.link.exactly_ahead = None
        _, _, clock = talk.bare()
        talk.link.say(PROGRAM, talk.link.terms, talk.link.reply(clock))
        begins(talk)


def asks_until_known(program, role):
    """A start that learns nothing by an answer that took long asks each second, and begins once one says enough."""
    with asking(program, role, lived(role)) as talk:
        limit = notices.bound(talk.mine.skew, talk.link.terms.skew)
        _, _, clock = talk.bare()
        talk.link.say(PROGRAM, talk.link.terms)
        for _ in range(2):
            talk.link.exactly_ahead = limit + MORE
            time.sleep(SLOW)
            talk.link.say(talk.link.reply(clock))
            clock = next_question(talk)
            is_asking(talk)
        talk.link.exactly_ahead = 0
        talk.link.say(talk.link.reply(clock))
        begins(talk)


def next_question(talk):
    """The node's last question of those that come within two seconds."""
    found, until = None, time.monotonic() + 2
    while found is None and time.monotonic() < until:
        item = talk.link.next_item(until - time.monotonic())
        found = item if isinstance(item, Clock) else None
    if found is None:
        talk.fault("the node asks no more")
    return found


def begins_by_older(program, role):
    """A start begins at once where its partner is of an older version."""
    settings = settings_of(role)
    with end_of(settings, KeyedEnd) as link:
        link.vouch = is_awaited
        with Daemon(program, settings, answers.PLAIN, has_link=True, past=lived(role).lines, link=link) as daemon:
            talk = Talk(daemon, link)
            talk.daemon.wait_for(ASKS_FIRST)
            if not link.meet():
                talk.fault("the node ends a connection with an older partner")
            until = time.monotonic() + 2 * AT_ONCE
            while not has_lines(daemon):
                if time.monotonic() > until:
                    talk.fault("the node doesn't begin")
                time.sleep(0.05)


def differs(talk, changed):
    talk.link.terms = replace(talk.mine, **changed)
    _, _, clock = talk.bare()
    talk.link.say(PROGRAM, talk.link.terms, talk.link.reply(clock))


def apart(program, role, changed, text, pools=None):
    """Settings that keep the two apart: no frame comes, the connection is ended, and the primary calls again later."""
    settings = replace(settings_of(role), pools=list(pools or settings_of(role).pools))
    with talk_of(program, settings) as talk:
        for count in range(2):
            differs(talk, changed)
            if count and role == "A" and not AGAIN - NEARLY < talk.link.met - moment < AGAIN + NEARLY:
                talk.fault(f"the node calls again behind {talk.link.met - moment:.1f} s")
            talk.is_ended()
            moment = time.monotonic()
            if talk.link.late:
                talk.fault(f"settings differ in {text}, and the node sends {talk.link.late}")
            talk.says_once(f"<3>{SAID}{text}{STAY_APART}")
            talk.status(settings=f"differ in {text}", serving="no, waits for its partner's answer")
            talk.link.leave()
        talk.link.terms = talk.mine
        talk.opens(0)
        talk.is_joined()
        talk.status(settings="agree")


def mclt_apart(program, role):
    """Another mclt."""
    apart(program, role, {"mclt": 3601}, "mclt: 3600 here, 3601 there")


def pools_apart(program, role):
    """Another pool, and none that both have."""
    apart(program, role, {"pools": (FIRST,)}, "pools")


def units_apart(program, role):
    """The same pools, one of which has other units."""
    apart(program, role, {"pools": (FIRST, (SECOND[0], 57))}, "pools", (FIRST, SECOND))


def order_apart(program, role):
    """The same pools in another order."""
    apart(program, role, {"pools": (SECOND, FIRST)}, "pool_order", (FIRST, SECOND))


def settings_joined(program, role):
    """Settings that differ, and may: the two join, and it is said once. They may be told anew."""
    with talk_of(program, settings_of(role)) as talk:
        together, words = {}, []
        for changed, text in JOINED:
            together |= changed
            words.append(text)
            differs(talk, changed)
            talk.joins()
            talk.is_joined()
            talk.says_once(f"<4>{SAID}{text}")
            talk.status(settings=f"differ in {text}", notices="understood")
            talk.link.leave()
        differs(talk, together)
        talk.joins()
        talk.is_joined()
        talk.status(settings=f"differ in {'; '.join(words)}")
        talk.link.say(talk.mine)
        talk.is_joined()
        talk.status(settings="agree")


def pools_joined(program, role):
    """The one list of pools begins with the other: that is no difference."""
    settings = replace(settings_of(role), pools=[FIRST, SECOND])
    with talk_of(program, settings) as talk:
        for pools in ((FIRST,), (FIRST, SECOND), (FIRST, SECOND, settings_of(role).pools[0])):
            differs(talk, {"pools": pools})
            talk.joins()
            talk.is_joined()
            talk.status(settings="agree")
            talk.link.leave()
        if SAID in talk.daemon.said():
            talk.fault("it says that settings differ")


def older_partner(program, role):
    """A partner whose nonce doesn't end so: no notice is said or taken, and the two join as ever."""
    for end in OLDER:
        partner = Beside(program, lambda settings, end=end: end_of(settings, KeyedEnd, end))
        with scene_of(partner, settings_of(role)) as scene:
            scene.greets(0)
            scene.answers()
            scene.serves(is_joined=True)
            rows = scene.daemon.told("status").splitlines()
            wanted = ["notices: none, its partner is of an older version", "partner_program: unknown",
                      "partner_clock: unknown", "settings: unknown"]
            first = next((place for place, row in enumerate(rows) if row.startswith("notices: ")), 0)
            if rows[first:][:4] != wanted:
                scene.fault(f"awaited {wanted}: {rows}")
            scene.link.write(octets_of(f"clock 1 {now()}"))
            scene.is_ended()


def without_key(program, role):
    """Without a key no notice is said or taken."""
    with scene_of(program, settings_of(role)) as scene:
        scene.greets(0)
        scene.answers()
        if 'notices: none, link_key is "none"' not in scene.daemon.told("status").splitlines():
            scene.fault(f"awaited that there are no notices: {scene.daemon.told('status')}")
        scene.link.write(octets_of(f"clock 1 {now()}"))
        scene.is_ended()


# Scripts of starts and copies, whose partner speaks notices here.
AS_EVER = (start_runs.first_of_both, start_runs.first_is_begun_again, start_runs.closes_with_partner,
           copy_runs.greetings, copy_runs.seen_over, copy_runs.survivor_is_asked, copy_runs.survivor_lacks_messages)
SCRIPTS = (notice_runs.clock_bounds, notice_runs.clock_bounds_of_less, notice_runs.clock_bounds_of_more,
           notice_runs.clock_bounds_at_least, mclt_apart, pools_apart, units_apart, order_apart, waits_by_clock,
           older_partner, notice_runs.says_nothing, notice_runs.misspelled, notice_runs.asks_on, settings_joined,
           pools_joined, notice_runs.speaks_first, notice_runs.frames_too_soon, notice_runs.unknown, notice_runs.split,
           begins_by_clock, goes_on_by_clock, asks_until_known, begins_by_older, without_key)
SIDE_BY_SIDE = 24


def serve_notices(program, tally, only=None):
    """Each script for each role, side by side: most of their time they wait."""
    speaking = Beside(program, lambda settings: end_of(settings, NoticeEnd, settings))
    chosen = [(script, beside, role) for scripts, beside in ((SCRIPTS, program), (AS_EVER, speaking))
              for script in scripts for role in "AB" if only is None or f"{script.__name__}/{role}" in only
              or script.__name__ in only]
    with ThreadPoolExecutor(SIDE_BY_SIDE) as pool:
        for way in [pool.submit(start_runs.play, *words) for words in chosen]:
            way.result()
            tally["scripts of notices"] += 1
