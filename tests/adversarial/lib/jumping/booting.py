"""Clocks that were set while their servers were stopped, and starts that know nothing of their clock."""
import time

from living.play import ASKS, WAITS, restarts

from .play import (
    ASKS_FIRST, ASKS_FOR, BEGINS_BY, BEGINS_WITHOUT, BEHIND, DIFFERS, IS_SET, SEES, SET, WRITES_NOTHING,
)
from .running import leased
from .servers import ENDS, HOUR, LITTLE, OUTLASTS

BACK = (BEHIND, SET)
# What a start is refused by whose clock is far behind its journal.
SET_RIGHT = "set the clock right: it reads "


def stopped(play):
    """A pair, one of which was stopped: the clients of both."""
    mine, theirs = leased(play)
    play.stop(play.one)
    return mine, theirs


def goes_on(play, mine, theirs, before, what, seconds=25):
    """The server has begun: its next line is a restart, and the two have joined."""
    one = play.one
    play.until(f"{what}: {one.side} serves", lambda: one.serving() == "yes", seconds)
    more = restarts(one)[len(before):]
    play.see(len(more) == 1, f"{what}: {one.side} writes the restarts {more}, wants one")
    play.both_serve(mine, theirs, what)
    play.readings_are_right()


def is_out(play, known, what, before, refusal=None):
    """A server that was started writes no line and answers nobody; of commands it hears few."""
    one = play.one
    play.silent(one, known, what, 2)
    play.writes_nothing(one, before, what)
    play.look()
    if refusal is not None:
        play.refuses(one, refusal, what)
    play.silent(one, known, what, 1)
    play.writes_nothing(one, before, what)


def starts_set(play, seconds, known, what):
    """A server is started whose clock was set since it ran, of which the record in its directory tells."""
    one = play.one
    before, had = one.lines(), restarts(one)
    play.shift(one, seconds)
    play.start(one)
    if play.was_set(one, seconds, what) is None:
        play.goes_no_further(one, known, what)
    is_out(play, known, what, before, IS_SET)
    return before, had


def ahead(play):
    """An hour ahead at its start, once more behind a stop; then right."""
    mine, theirs = stopped(play)
    before, had = starts_set(play, HOUR, mine, "started an hour ahead")
    play.serves(play.other, theirs, "the partner of one that was started an hour ahead")
    play.rebinds(play.other, mine, "the partner of one that was started an hour ahead")
    play.stop(play.one)
    play.writes_nothing(play.one, before, "stopped an hour ahead")
    starts_set(play, HOUR, mine, "started again an hour ahead")
    play.shift(play.one, 0)
    goes_on(play, mine, theirs, had, "right again")


def agrees(play):
    """An hour ahead at its start, and then so little that its partner agrees."""
    mine, theirs = stopped(play)
    _, had = starts_set(play, HOUR, mine, "started an hour ahead")
    play.shift(play.one, LITTLE)
    goes_on(play, mine, theirs, had, "its partner agrees")


def back(play):
    """An hour back at its start: it isn't started, or serves nobody; then right."""
    mine, theirs = stopped(play)
    one, what = play.one, "started an hour back"
    before, had = one.lines(), restarts(one)
    play.shift(one, -HOUR)
    one.start()
    if one.is_up():
        play.was_set(one, -HOUR, what, BACK)
        is_out(play, mine, what, before)
    else:
        status = one.process.returncode
        play.see(status == 1 and SET_RIGHT in one.said(), f"{what}: status {status}, {one.said()[-300:]!r}")
        play.writes_nothing(one, before, what)
    play.shift(one, 0)
    if not one.is_up():
        play.start(one)
    goes_on(play, mine, theirs, had, "right again")


def lone(play):
    """A lone server that is started an hour ahead: right again, or as a person says."""
    one = play.one
    play.start(one)
    mine = play.lease(one, 6)
    play.stop(one)
    starts_set(play, HOUR, mine, "started an hour ahead")
    play.shift(one, 0)
    play.until(f"{one.side} serves", lambda: one.serving() == "yes", 10)
    play.serves(one, mine, "right again")
    play.readings_are_right()
    play.stop(one)
    starts_set(play, HOUR, mine, "started an hour ahead again")
    play.is_told_right(one, "started an hour ahead")
    play.until(f"{one.side} serves, as it was told", lambda: one.serving() == "yes", 10)
    play.serves(one, mine, "a clock that was accepted")
    play.stop(one)
    play.start(one)
    play.until(f"{one.side} serves behind its restart", lambda: one.serving() == "yes", 10)
    play.serves(one, mine, "started again by a clock that was accepted")


def unknown(play):
    """Behind a start of its machine nothing is known of its clock, and its partner says that it differs; then right."""
    mine, theirs = stopped(play)
    one, what = play.one, "started an hour ahead, its machine too"
    before, had = one.lines(), restarts(one)
    one.forget_clock(is_of_another_boot=one.side == "A")
    play.shift(one, HOUR)
    play.start(one)
    play.says_once(one, ASKS_FIRST, what)
    play.is_one_of(one, (ASKS, DIFFERS), what)
    if not play.is_apart(one, -HOUR, what):
        play.goes_no_further(one, mine, what)
    play.is_one_of(one, (ASKS, DIFFERS), what)
    is_out(play, mine, what, before, WRITES_NOTHING)
    play.is_apart(play.other, HOUR, what, may_serve=True)
    play.serves(play.other, theirs, f"{what}, its partner")
    play.rebinds(play.other, mine, f"{what}, its partner")
    play.shift(one, 0)
    goes_on(play, mine, theirs, had, "right again")


def begins(play, had):
    """It begins at once, as it was told, and not since nobody said its partner's clock."""
    one = play.one
    play.until(f"{one.side} begins, as it was told", lambda: len(restarts(one)) == len(had) + 1, SEES)
    play.see(BEGINS_WITHOUT not in one.said(), f"{one.side} was told to begin, and says {BEGINS_WITHOUT!r}")


def told(play):
    """The same, and a person says that its clock is right: it begins, and waits for its partner, which stays apart."""
    mine, theirs = stopped(play)
    one, what = play.one, "started an hour ahead, its machine too"
    before, had = one.lines(), restarts(one)
    one.forget_clock()
    play.shift(one, HOUR)
    play.start(one)
    if not play.is_apart(one, -HOUR, what):
        play.goes_no_further(one, mine, what)
    play.writes_nothing(one, before, what)
    play.is_told_right(one, what)
    begins(play, had)
    # (its partner's clock is known to differ once the two have talked anew)
    play.is_one_of(one, (DIFFERS,), "a clock that was accepted", 15)
    play.silent(one, mine + theirs, "a clock that was accepted", 3)
    play.are_not_joined("a clock that was accepted")
    for server, seconds in ((one, -HOUR), (play.other, HOUR)):
        play.is_apart(server, seconds, "a clock that was accepted", may_serve=True)
    play.serves(play.other, theirs, "the partner of one whose clock was accepted")
    play.rebinds(play.other, mine, "the partner of one whose clock was accepted")


def at_once(play):
    """Behind a start of its machine, with a right clock: its partner agrees, and it goes on at once."""
    mine, theirs = stopped(play)
    one, had = play.one, restarts(play.one)
    for is_of_another_boot in (False, True):
        one.forget_clock(is_of_another_boot)
        play.start(one)
        goes_on(play, mine, theirs, had, "a partner that agrees", 12)
        had = restarts(one)
        if not is_of_another_boot:
            play.stop(one)


def asks(play, mine, what):
    """A server is started that knows nothing of its clock, whose partner is away: nothing is written."""
    one = play.one
    before, had = one.lines(), restarts(one)
    one.forget_clock()
    play.start(one)
    play.says_once(one, ASKS_FIRST, what)
    if play.is_one_of(one, (ASKS,), what) is None:
        play.goes_no_further(one, mine, what)
    is_out(play, mine, what, before, WRITES_NOTHING)
    play.is_one_of(one, (ASKS,), what)
    return before, had


def nobody(play):
    """Nobody says its partner's clock: it begins behind half a minute, and waits as ever."""
    mine, theirs = stopped(play)
    one, other, what = play.one, play.other, "nobody says its clock"
    other.kill()
    before, had = asks(play, mine, what)
    play.stop(one)
    play.writes_nothing(one, before, "stopped while it asks")
    asks(play, mine, what)
    while one.age() < ASKS_FOR - 2:
        play.is_one_of(one, (ASKS,), what)
        play.silent(one, mine, what)
        play.writes_nothing(one, before, what)
    while restarts(one) == had and one.age() < BEGINS_BY:
        time.sleep(0.1)
    is_in_time = ASKS_FOR - 1 < one.age() < BEGINS_BY
    play.see(is_in_time, f"{what}: {one.side} begins when it has run for {one.age():.1f} s, or not at all")
    play.says_once(one, BEGINS_WITHOUT, what)
    play.is_one_of(one, (WAITS,), "it has begun without its partner's clock")
    play.silent(one, mine, "it has begun without its partner's clock")
    play.start(other)
    play.both_serve(mine, theirs, "its partner is back", 45)
    play.see(len(restarts(one)) == len(had) + 1, f"{one.side} writes the restarts {restarts(one)[len(had):]}")
    play.readings_are_right()


def accepted(play):
    """Nobody says its partner's clock, but a person does: it begins at once, and waits as ever."""
    mine, theirs = stopped(play)
    one, other, what = play.one, play.other, "nobody says its clock, but a person"
    other.kill()
    _, had = asks(play, mine, what)
    play.is_told_right(one, what)
    begins(play, had)
    play.is_one_of(one, (WAITS,), what)
    play.silent(one, mine, what, 1)
    play.start(other)
    goes_on(play, mine, theirs, had, "its partner is back", 45)


PLAYS = {
    "boot-ahead": (ahead, "AB", ENDS),
    "boot-agrees": (agrees, "AB", ENDS),
    "boot-back": (back, "AB", ENDS),
    "boot-lone": (lone, "1", OUTLASTS),
    "boot-unknown": (unknown, "AB", ENDS),
    "boot-told": (told, "AB", ENDS),
    "boot-at-once": (at_once, "AB", ENDS),
    "boot-nobody": (nobody, "AB", ENDS),
    "boot-accepted": (accepted, "AB", ENDS),
}
