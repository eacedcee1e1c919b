"""Partners whose clocks differ by an hour: they stay apart, and each goes on as it was."""
import time

from living.play import ASKS, restarts

from .play import DIFFERS
from .running import leased
from .servers import ENDS, HOUR, OUTLASTS

EITHER = (ASKS, DIFFERS)
# For how long they are looked at: it is said once an hour, and they call each other each ten seconds.
APART = 23


def are_apart(play, seconds, what, may_serve=False):
    """Both say, and once, by how much the other's clock differs, and don't join."""
    for server, by in ((play.one, -seconds), (play.other, seconds)):
        if not play.is_apart(server, by, what, may_serve):
            play.goes_no_further(server, [], what)
    play.are_not_joined(what)


def new(play):
    """Two new servers, one of which is an hour ahead or back: neither writes a line; then right."""
    one, other = play.one, play.other
    seconds = HOUR if one.side == "A" else -HOUR
    play.shift(one, seconds)
    for server in (one, other):
        play.start(server)
    are_apart(play, seconds, "two new servers")
    for server in (one, other):
        play.is_one_of(server, EITHER, "two new servers")
        play.silent(server, [], "two new servers", 1)
        play.see(not server.readings(), f"{server.side} has written {len(server.readings())} lines")
    play.look()
    play.shift(one, 0)
    play.together("both clocks are right")
    mine, theirs = play.lease(one, 4), play.lease(other, 4)
    play.both_serve(mine, theirs, "both clocks are right")
    for server in (one, other):
        play.see(restarts(server) == [1], f"{server.side} writes the restarts {restarts(server)}")
        play.new(server)
    play.readings_are_right()


def apart(play):
    """One's clock is set an hour ahead, and a person says that it is right: both serve, and don't join."""
    mine, theirs = leased(play)
    one, other = play.one, play.other
    play.shift(one, HOUR)
    if play.was_set(one, HOUR, "an hour ahead") is None:
        play.goes_no_further(one, mine, "an hour ahead")
    play.is_told_right(one, "an hour ahead")
    begun = time.monotonic()
    play.until(f"{one.side} serves, as it was told", lambda: one.serving() == "yes", 10)
    are_apart(play, HOUR, "a clock that was accepted", may_serve=True)
    while time.monotonic() < begun + APART:
        mine += play.lease(one, 1)
        theirs += play.lease(other, 1)
        play.are_not_joined("a clock that was accepted")
        time.sleep(2)
    for server, clients in ((one, mine), (other, theirs)):
        play.serves(server, clients, "servers that stay apart")
    are_apart(play, HOUR, "servers that stay apart", may_serve=True)
    wrong = [reading for reading in other.readings() if reading > 1000 * (time.time() + HOUR / 2)]
    play.see(not wrong, f"{other.side} has {len(wrong)} lines that were read from a clock that was wrong")


def survivor(play):
    """A partner that was taken for down comes back with its clock an hour ahead: the survivor goes on; then right."""
    mine, theirs = leased(play)
    one, other, what = play.one, play.other, "a partner that comes back an hour ahead"
    play.down()
    mine += play.lease(one, 2)
    had, before = restarts(other), other.lines()
    other.forget_clock()
    play.shift(other, HOUR)
    play.start(other)
    if not play.is_apart(other, -HOUR, what):
        play.goes_no_further(other, theirs, what)
    play.is_apart(one, HOUR, what, may_serve=True)
    play.is_one_of(other, EITHER, what)
    play.writes_nothing(other, before, what)
    play.silent(other, theirs, what, 2)
    play.serves(one, mine, what)
    play.see(one.value("partner").startswith("down"), f"{what}: {one.side} takes it for {one.value('partner')}")
    play.shift(other, 0)
    play.both_serve(mine, theirs, "its clock is right")
    more = restarts(other)[len(had):]
    play.see(len(more) == 1, f"{other.side} writes the restarts {more}, wants one")
    play.readings_are_right()


PLAYS = {
    "differs-new": (new, "AB", ENDS),
    "differs-apart": (apart, "AB", OUTLASTS),
    "differs-survivor": (survivor, "AB", ENDS),
}
