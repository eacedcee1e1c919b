"""Partners of the program before notices: they join as ever, and a pair is upgraded one server at a time."""
from living.play import restarts

from . import form
from .play import ASKS_FOR, BEGINS_WITHOUT
from .servers import ENDS

# What a status says of a partner that speaks no notices.
OF_OLDER = {"notices": form.OLDER, "partner_program": "unknown", "partner_clock": "unknown", "settings": "unknown"}


def begins_at_once(play):
    """A start asks nothing of an older partner."""
    one = play.one
    if one.age() < ASKS_FOR:
        play.see(BEGINS_WITHOUT not in one.said(), f"{one.side} says within {one.age():.0f} s {BEGINS_WITHOUT!r}")


def first(play, servers):
    """Two first starts, in this order."""
    one, other = play.one, play.other
    play.speaks[other.side] = False
    play.begin([server.side for server in servers])
    begins_at_once(play)
    play.says_of_partner(one, OF_OLDER)
    mine, theirs = play.lease(one, 5), play.lease(other, 5)
    play.both_serve(mine, theirs, "the older partner")
    for server in (one, other):
        had = restarts(server)
        play.stop(server)
        play.start(server)
        play.both_serve(mine, theirs, f"the older partner, {server.side} began again")
        begins_at_once(play)
        more = restarts(server)[len(had):]
        play.see(len(more) == 1, f"{server.side} writes the restarts {more}, wants one")
    play.says_of_partner(one, OF_OLDER)
    play.look()
    play.readings_are_right()


def first_older(play):
    """The older one is started first."""
    first(play, (play.other, play.one))


def first_newer(play):
    """The newer one is started first."""
    first(play, (play.one, play.other))


def upgraded(play):
    """Both are older; then one is, and then none, while clients ask."""
    one, other = play.one, play.other
    newer, server_of = one.node, {one: other, other: one}
    one.node = other.node
    play.speaks = {"A": False, "B": False}
    play.begin()
    clients = {one: play.lease(one, 6), other: play.lease(other, 6)}
    play.both_serve(clients[one], clients[other], "both older")
    for count, server in enumerate((one, other), start=1):
        partner, what = server_of[server], f"{count} of 2 servers upgraded"
        play.stop(server)
        play.rebinds(partner, clients[server], f"{server.side} is stopped")
        clients[partner] += play.lease(partner, 2)
        server.node, play.speaks[server.side] = newer, True
        play.start(server)
        play.rebinds(partner, clients[server], f"{server.side} has just begun")
        play.both_serve(clients[one], clients[other], what)
        clients[server] += play.lease(server, 2)
        if count == 1:
            play.says_of_partner(server, OF_OLDER)
            play.look()
    for server in (one, other):
        play.new(server)
    play.both_serve(clients[one], clients[other], "both upgraded")
    play.readings_are_right()


PLAYS = {
    "older-first": (first_older, "AB", ENDS),
    "newer-first": (first_newer, "AB", ENDS),
    "upgraded": (upgraded, "AB", ENDS),
}
