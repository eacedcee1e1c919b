"""Clocks that are set while their servers run."""
import time

from living.play import RIGHT, restarts

from .play import AGAIN, BEHIND, IS_SET, NOT_SET, SET
from .servers import ENDS, HOUR, LESS, LITTLE, OUTLASTS

BACK = (BEHIND, SET)


def leased(play, count=6):
    """A pair with leases, of which each has told the other."""
    one, other = play.one, play.other
    play.begin()
    mine, theirs = play.lease(one, count), play.lease(other, count)
    play.told(one, other)
    play.told(other, one)
    for server in (one, other):
        play.new(server)
    return mine, theirs


def is_out(play, seconds, known, what, reasons=(SET,)):
    """The server is out of service: nobody is answered, no line is written, no command changes anything."""
    one = play.one
    play.shift(one, seconds)
    reason = play.was_set(one, seconds, what, reasons)
    if reason is None:
        play.goes_no_further(one, known, what)
    play.idle(one, known, what)
    play.look()
    if reason == SET:
        play.refuses(one, IS_SET, what)
    play.idle(one, known, what, 1)


def serves_again(play, mine, theirs, what):
    """The server serves again, and says so; it has joined its partner, and began no further time."""
    one = play.one
    before = restarts(one)
    play.until(f"{what}: {one.side} serves again", lambda: one.serving() == "yes", 25)
    play.see(AGAIN in one.said(), f"{what}: {one.side} doesn't say that it serves again: {one.said()[-300:]!r}")
    play.see(one.value("clock").startswith("right"), f"{what}: {one.side}'s clock is {one.value('clock')}")
    play.both_serve(mine, theirs, what)
    play.see(restarts(one) == before, f"{what}: {one.side} writes the restarts {restarts(one)}")
    play.readings_are_right()


def stopped_by(play, seconds, what, reasons=(SET,)):
    """A pair, one of whose clocks is set while it runs; the other goes on."""
    mine, theirs = leased(play)
    is_out(play, seconds, mine + theirs, what, reasons)
    play.serves(play.other, theirs, f"{what}, its partner")
    play.rebinds(play.other, mine, f"{what}, its partner")
    return mine, theirs


def ahead(play):
    """An hour ahead, and right again."""
    mine, theirs = stopped_by(play, HOUR, "an hour ahead")
    play.shift(play.one, 0)
    serves_again(play, mine, theirs, "right again")


def back(play):
    """An hour back, and right again."""
    mine, theirs = stopped_by(play, -HOUR, "an hour back", BACK)
    play.shift(play.one, 0)
    serves_again(play, mine, theirs, "right again")


def agrees(play):
    """An hour ahead, and then so little that its partner agrees."""
    mine, theirs = stopped_by(play, HOUR, "an hour ahead")
    play.shift(play.one, LITTLE)
    serves_again(play, mine, theirs, "its partner agrees")


def little(play):
    """By more than the skew, to either side, and so little that its partner agrees: it serves again at once."""
    mine, theirs = leased(play)
    one = play.one
    for turn, seconds in enumerate((LITTLE, 0, -LITTLE), start=1):
        play.shift(one, seconds)
        what = f"set to {seconds:+.1f} s"
        play.until(f"{what}: {one.side} says that its clock was set",
                   lambda wanted=turn: one.said().count("serves nobody: its clock was set") == wanted)
        serves_again(play, mine, theirs, what)


def lone(play):
    """A lone server, an hour ahead, back and right again: no partner says that its clock is right."""
    one = play.one
    play.start(one)
    mine = play.lease(one, 6)
    for seconds, reasons in ((HOUR, (SET,)), (-HOUR, BACK)):
        is_out(play, seconds, mine, f"set by {seconds} s", reasons)
        if seconds > 0:
            play.shift(one, LITTLE)
            play.idle(one, mine, "nearly right again", 3)
            play.is_one_of(one, (SET,), "nearly right again")
        play.shift(one, 0)
        play.until(f"{one.side} serves again", lambda: one.serving() == "yes", 10)
        play.serves(one, mine, "right again")
    play.readings_are_right()


def stopped(play):
    """While its clock was set a server is stopped, and its directory is as it was."""
    mine, theirs = leased(play)
    one = play.one
    play.shift(one, HOUR)
    play.was_set(one, HOUR, "an hour ahead")
    before = one.lines()
    play.stop(one)
    play.writes_nothing(one, before, "stopped while its clock was set")
    play.shift(one, 0)
    play.start(one)
    play.both_serve(mine, theirs, "started with a right clock")
    play.readings_are_right()


def accepted(play):
    """A lone server, whose clock a person takes for right, twice."""
    one = play.one
    play.start(one)
    mine = play.lease(one, 6)
    play.is_told_wrongly(one)
    for seconds in (HOUR, 2 * HOUR):
        status, said = one.told(*RIGHT)
        play.see(status == 1 and NOT_SET in said, f"clock-accepted has status {status}, {said!r}, wants {NOT_SET!r}")
        play.shift(one, seconds)
        play.was_set(one, HOUR, f"set to {seconds} s")
        play.idle(one, mine, f"set to {seconds} s", 1)
        told = one.said().count("takes its clock for right, as it was told")
        play.see(told == seconds // HOUR - 1, f"{one.side} says {told} times that it takes its clock for right")
        status, said = one.told(*RIGHT)
        play.see(status == 0, f"clock-accepted has status {status}, {said!r}")
        play.until(f"{one.side} serves, as it was told", lambda: one.serving() == "yes", 10)
        play.serves(one, mine, "a clock that was accepted")
        ahead_by = one.readings()[-1] / 1000 - time.time()
        play.see(abs(ahead_by - seconds) < 10, f"{one.side}'s lines read {ahead_by:.0f} s more than it is")


def steps(play):
    """Steps of less than the skew are none; together they are, once they are more than twice as much."""
    one = play.one
    play.start(one)
    mine = play.lease(one, 3)
    for count in (1, 2, 1, 0, -1, -2):
        play.shift(one, count * LESS)
        time.sleep(0.7)
        play.is_one_of(one, ("yes",), f"{count} steps of {LESS} s", 0)
        play.serves(one, mine, f"{count} steps of {LESS} s")
    play.see("its clock was set" not in one.said(), f"{one.side} says that its clock was set: {one.said()[-300:]!r}")
    for count in (-1, 0, 1, 2):
        play.shift(one, count * LESS)
        # (who answers has had a turn)
        play.see(play.customers.answered(one, [], 1, 1) == 1, f"{count} steps of {LESS} s: {one.side} answers nobody")
    play.shift(one, 3 * LESS)
    play.was_set(one, None, f"3 steps of {LESS} s")
    play.idle(one, mine, f"3 steps of {LESS} s", 1)
    play.shift(one, 2 * LESS)
    play.until(f"{one.side} serves again", lambda: one.serving() == "yes", 10)
    play.serves(one, mine, "a step back")


PLAYS = {
    "running-ahead": (ahead, "AB", ENDS),
    "running-back": (back, "AB", ENDS),
    "running-agrees": (agrees, "AB", ENDS),
    "running-little": (little, "AB", ENDS),
    "running-stopped": (stopped, "AB", ENDS),
    "running-lone": (lone, "1", ENDS),
    "running-accepted": (accepted, "1", OUTLASTS),
    "running-steps": (steps, "1", ENDS),
}
