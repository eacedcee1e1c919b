"""Clients whose REBIND reaches both servers, which both grant: how many lines come of it, and that it comes to rest.

Of two grants that cross, one server's change stays due until the client renews again where it did last.
"""
import time

from living.play import Broken
from server.messages import REBIND, RENEW
from server.values import prefix_text

KIND = {"skew": 500, "mclt": 600, "life": 1200, "transit": 10_000, "pool": "2001:db8::/48", "unit": 56}
CLIENTS, TURNS = 60, 3
# How long the way between the two takes, or how much later a REBIND reaches the second, in seconds.
LITTLE = 0.005
# The lines of both journals that one such REBIND may leave, where each tells of its grant before it knows of the
# other's: two grants; the two changes told and taken, and the replies to both; and the primary's change told again,
# taken and replied to.
MOST = 14
# For how long nothing is written once all is at rest, and how soon that is so, in seconds.
QUIET, SOON = 2, 20


def lines_of(play, prefixes):
    """How many lines of both journals are about these prefixes."""
    events = [event for server in play.sides.values() for event in server.events()]
    return sum(any(word in prefixes for word in event.split(" ")) for event in events)


def hear(play, count):
    """Clients hear so many answers, or as many as come."""
    until = time.monotonic() + 5
    while count and time.monotonic() < until:
        count -= play.customers.heard(until - time.monotonic()) is not None


def rebind_at_both(play, clients, pause):
    """Each client's REBIND reaches both servers, the second so much later."""
    for client in clients:
        for server in (play.one, play.other):
            play.customers.send(server, REBIND, client, play.customers.has(client))
            time.sleep(pause)
    hear(play, 2 * len(clients))


def rests(play, prefixes, what):
    """It comes to rest: no line is written of these any more, though nobody asks. How many there are by then."""
    until, count = time.monotonic() + SOON, lines_of(play, prefixes)
    while True:
        time.sleep(QUIET)
        before, count = count, lines_of(play, prefixes)
        if count == before:
            return count
        if time.monotonic() > until:
            raise Broken(f"{what}: {count - before} lines in {QUIET} s, though nobody asks since {SOON} s; changes of "
                         f"{play.due()} units are due")


def crossed(play, delay, pause, what):
    play.begin()
    clients = play.lease(play.one, CLIENTS)
    play.told(play.one, play.other)
    prefixes = {prefix_text(play.customers.has(client)) for client in clients}
    play.way.delay = delay
    before = rests(play, prefixes, "at first")
    for turn in range(1, TURNS + 1):
        rebind_at_both(play, clients, pause)
        count = rests(play, prefixes, f"{what}, turn {turn}") - before
        text = f"{what}: {count} lines of {turn * CLIENTS} REBINDs"
        play.see(count <= MOST * turn * CLIENTS, f"{text}, {count / turn / CLIENTS:.1f} of each, wants {MOST} at most")
    for server in (play.one, play.other):
        renewed = play.customers.renew(server, clients, RENEW)
        full = sum(play.lifetime(client) == KIND["life"] for client in renewed)
        play.see(full == CLIENTS, f"{what}: {full} of {CLIENTS} get the whole lifetime of {server.side}")
        rests(play, prefixes, f"{what}, renewed at {server.side}")
    play.at_rest(what, lambda: play.customers.renew(play.one, clients, RENEW))


PLAYS = {
    "crossing": (lambda play: crossed(play, LITTLE, 0.0, "the way takes 5 ms"), "AB", KIND),
    "crossing-later": (lambda play: crossed(play, LITTLE, LITTLE, "the way takes 5 ms, as long as to the second"), "AB",
                       KIND),
}
