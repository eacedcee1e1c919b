"""First starts: of a pair, in either order; alone over a pair's directory; alone, with a partner later."""
import time

from .play import WAITS, behind_opening, restarts
from .servers import LONG, NOT_STARTED
from .survivors import both_serve

NEVER_ANSWERED = "this directory was begun for a pair and never answered: begin in an empty one"
HAS_LEASES = ("this directory has leases and waits for its partner's answer: give it link and link_key again and start "
              "the partner")


def first_starts(play):
    """Two new servers: the first that comes serves nobody, and both serve once both are there."""
    one, other = play.one, play.other
    play.begins(one)
    play.says(one, WAITS, "a first server")
    play.silent(one, [], "a first server", 4)
    events = one.events()
    play.see(behind_opening(one) == "restart 1", f"{one.side}'s first volume goes on with {behind_opening(one)!r}")
    sends = sum(event.startswith("send ") for event in events)
    play.see(sends == 0, f"{one.side} sends {sends} messages though nobody is there")
    living = events.count("state interrupted")
    play.see(2 <= living <= 8, f"{one.side} writes {living} times 'state interrupted' in 4 s")
    play.start(other)
    play.together("two new servers")
    first = behind_opening(other)
    play.see(first == "restart 1", f"{other.side}'s first volume goes on with {first!r}")
    mine, theirs = play.lease(one, 4), play.lease(other, 4)
    play.told(one, other)
    both_serve(play, mine, theirs, "two new servers")
    play.rebinds(other, mine, "two new servers")
    journals = {server.side: server.value("journal") for server in (one, other)}
    play.see(set(journals.values()) == {"whole"}, f"the journals are {journals} by the statuses")


def refused_alone(play, wanted, what):
    """A lone start over a book that waits is refused, and writes nothing."""
    one = play.one
    one.settle(is_alone=True)
    before, text = one.octets(), one.text()
    one.start()
    ended = one.process.poll() if not one.is_up() else None
    if one.is_up():
        answered = sum(play.customers.answered(one) for _ in range(3))
        play.see(False, f"{what}: {one.side} starts alone, and {'serves' if answered else 'serves nobody'}")
        one.kill()
    else:
        play.see(ended == NOT_STARTED and wanted in one.said(), f"{what}: status {ended}, {one.said()[-300:]!r}")
    lines = one.text().count("\n") - text.count("\n")
    play.see(one.octets() == before, f"{what}: the refused start changed its directory, {lines} lines more")
    one.settle()


def lone_empty(play):
    """A directory that was begun for a pair and never answered, also once it was closed."""
    one = play.one
    for words in ([], ["--close"]):
        play.begins(one)
        time.sleep(1)
        play.stop(one, *words)
        refused_alone(play, NEVER_ANSWERED, f"never answered, behind {' '.join(['stop', *words])}")


def lone_leases(play):
    """A directory with leases that waits; the secondary's has them in its second volume alone."""
    one, other = play.one, play.other
    play.begin()
    if one.side == "B":
        play.see(one.told("roll")[0] == 0, "roll is refused")
        play.together("behind its roll")
    mine, theirs = play.lease(one, 4), play.lease(other, 4)
    play.told(one, other)
    play.stop(one)
    play.stop(other)
    for words in ([], ["--close"]):
        play.begins(one)
        time.sleep(1)
        play.stop(one, *words)
        refused_alone(play, HAS_LEASES, f"has leases, behind {' '.join(['stop', *words])}")
    play.start(one)
    play.silent(one, mine, "a server that waits")
    play.start(other)
    both_serve(play, mine, theirs, "has leases, with its partner again")


def lone_then_pair(play):
    """A server that began alone gets a partner; either is started first."""
    primary, secondary = play.sides.values()
    primary.settle(is_alone=True)
    play.start(primary)
    mine = play.lease(primary, 10)
    play.serves(primary, mine, "alone at first")
    play.see(restarts(primary) == [], f"a lone server writes {restarts(primary)}")
    play.stop(primary)
    primary.settle()
    for server in (play.one, play.other):
        play.start(server)
    play.together("a partner later")
    theirs = play.lease(secondary, 6)
    play.told(primary, secondary)
    for server, clients in ((primary, mine), (secondary, theirs)):
        play.serves(server, clients, "a partner later")
    play.rebinds(secondary, mine, "a partner later")
    play.see(restarts(primary) == [1], f"a partner later: the primary's restarts are {restarts(primary)}")


SCENARIOS = {
    "first-starts": (first_starts, "AB", LONG),
    "lone-empty": (lone_empty, "AB", LONG),
    "lone-leases": (lone_leases, "AB", LONG),
    "lone-then-pair": (lone_then_pair, "AB", LONG),
}
