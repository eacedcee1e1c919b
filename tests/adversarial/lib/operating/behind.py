"""A clock that is set back by more than twice the skew while its server runs, and is right again."""
from jumping.play import AGAIN, BEHIND, FELL_BEHIND, SET
from jumping.play import Play as Jumping
from jumping.servers import ENDS, LESS
from living.play import restarts

from .downs import leased
from .stage import PATIENCE
from .stage import Play as Operated

# Leases that end behind the trial, whose answers may leave late.
KIND = {**ENDS, "transit": 120_000}

# By how many seconds it is set back.
BACK = 600


class Play(Operated, Jumping):
    """One play, with a library that shifts the clocks."""

    def __init__(self, shim, node, folder, place, side, kind, is_alone):
        super().__init__((node, node), shim, folder, place, side, (kind, kind), is_alone)


def is_out(play, known, what):
    """The server serves nobody and says why, in each form; it writes no line."""
    one = play.one
    reason = play.is_one_of(one, (BEHIND, SET), what, PATIENCE)
    if reason is None:
        play.goes_no_further(one, known, what)
    why = reason.replace(" ", "_")
    had = one.data().get("serving")
    play.see(had == {"is": False, "why": why}, f"{what}: {one.side}'s status as an object has serving {had}")
    metrics = one.told("status", "--metrics")[1].splitlines()
    for row in ("fengtuyas_serving 0", f'fengtuyas_not_serving{{why="{why}"}} 1'):
        play.see(row in metrics, f"{what}: {one.side}'s metrics have no row {row}")
    play.see(one.value("clock").startswith(reason.split(" ")[1]), f"{what}: its clock is {one.value('clock')}")
    if reason == BEHIND:
        play.says_once(one, FELL_BEHIND, what, PATIENCE)
    play.idle(one, known, what, 3)


def back(play):
    """Ten minutes back: nobody is served; right again: all are."""
    one, other, what = play.one, play.other, "ten minutes back"
    mine, theirs = leased(play)
    before = restarts(one)
    play.shift(one, -BACK)
    is_out(play, mine + theirs, what)
    play.serves(other, theirs, f"{what}, its partner")
    play.rebinds(other, mine, f"{what}, its partner")
    play.shift(one, 0)
    is_right(play, before)
    play.both_serve(mine, theirs, "right again")
    play.readings_are_right()


def is_right(play, before):
    """It serves again, and says so; it began no further time."""
    one = play.one
    play.until(f"right again: {one.side} serves", lambda: one.serving() == "yes")
    play.until(f"right again: {one.side} says that it serves again", lambda: AGAIN in one.said())
    play.see(one.value("clock").startswith("right"), f"right again: {one.side}'s clock is {one.value('clock')}")
    play.see(restarts(one) == before, f"right again: {one.side} writes the restarts {restarts(one)[len(before):]}")


def lone(play):
    """The same of a server that is alone; and a step back of less than the skew is none."""
    one, what = play.one, "ten minutes back"
    play.start(one)
    mine = play.lease(one, 4)
    play.shift(one, -LESS)
    play.serves(one, mine, f"{LESS} s back")
    play.shift(one, -BACK)
    is_out(play, mine, what)
    play.shift(one, 0)
    is_right(play, restarts(one))
    play.serves(one, mine, "right again")
    play.readings_are_right()


PLAYS = {
    "clock-behind": (back, "AB", KIND),
    "clock-behind-lone": (lone, "1", KIND),
}
