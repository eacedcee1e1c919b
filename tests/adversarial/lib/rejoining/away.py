"""A server that was away for longer than the leases that it gave, whose clients renewed at its partner meanwhile."""
import time

from server.messages import REBIND, RENEW

from operating.stage import DOWN

KIND = {"skew": 100, "mclt": 4, "life": 8, "transit": 2000, "pool": "2001:db8::/52", "unit": 59}
CLIENTS = 30
# How long it is away, in seconds: what the partner was told ends twice `life` behind a grant, and its own last lease
# twice the skew and the transit behind its lifetime.
AWAY = 2 * KIND["life"] + 4
# How often clients renew meanwhile, and for how long they try to get the whole lifetime again, in seconds.
RENEWS, TRIES = 1.0, 15


def leased(play):
    """Clients that have the whole lifetime of the server that will be away, of which its partner was told."""
    one, other = play.one, play.other
    play.begin()
    clients = play.lease(one, CLIENTS)
    count = get_life(play, one, clients, RENEW)
    play.see(count == CLIENTS, f"before: {count} of {CLIENTS} get the whole lifetime")
    play.told(one, other)
    return clients


def get_life(play, server, clients, kind):
    """Clients renew at a server until it gives each the whole lifetime: how many it gives it in the end."""
    until = time.monotonic() + TRIES
    while True:
        renewed = play.customers.renew(server, clients, kind, 3)
        count = sum(play.lifetime(client) == KIND["life"] for client in renewed)
        if count == len(clients) or time.monotonic() > until:
            return count
        time.sleep(0.5)


def outlast(play, clients):
    """Time goes by, in which the clients renew at the partner."""
    until, kind = time.monotonic() + AWAY, REBIND
    while time.monotonic() < until:
        again = time.monotonic() + RENEWS
        play.customers.renew(play.other, clients, kind, 3)
        kind = RENEW
        time.sleep(max(0.0, again - time.monotonic()))


def is_back(play, clients, had, what):
    """The two have joined: each client has what it had, and gets the whole lifetime of either."""
    play.joined(what)
    for server, kind in ((play.other, RENEW), (play.one, REBIND)):
        count = get_life(play, server, clients, kind)
        play.see(count == CLIENTS, f"{what}: {count} of {CLIENTS} get the whole lifetime of {server.side}")
        # (what one tells of them isn't to cross what the other gives next)
        play.has_no_due(4)
    kept = sum(play.customers.has(client) == had[client] for client in clients)
    play.see(kept == CLIENTS, f"{what}: {kept} of {CLIENTS} have what they had")
    play.at_rest(what, lambda: play.customers.renew(play.other, clients, RENEW, 3))


def begin_again(play, server):
    play.stop(server)
    play.begins(server)


def cut(play, before_it_is_mended, what):
    """The way between them is cut, and mended."""
    clients = leased(play)
    had = {client: play.customers.has(client) for client in clients}
    play.way.is_cut = True
    outlast(play, clients)
    before_it_is_mended()
    play.way.is_cut = False
    is_back(play, clients, had, what)


def stopped(play, before_it_starts, what, is_down=False):
    """It is stopped, and started."""
    clients = leased(play)
    had = {client: play.customers.has(client) for client in clients}
    play.stop(play.one)
    if is_down:
        play.until(f"{play.other.side} is told that it is down", lambda: play.other.told(*DOWN)[0] == 0)
    outlast(play, clients)
    before_it_starts()
    play.start(play.one)
    is_back(play, clients, had, what)


PLAYS = {
    "cut": (lambda play: cut(play, lambda: None, "the way is mended"), "AB", KIND),
    "cut-restarted": (lambda play: cut(play, lambda: begin_again(play, play.one),
                                       "it was started again, and the way is mended"), "AB", KIND),
    "cut-partner-restarted": (lambda play: cut(play, lambda: begin_again(play, play.other),
                                               "its partner was started again, and the way is mended"), "AB", KIND),
    "stopped": (lambda play: stopped(play, lambda: None, "it is started"), "AB", KIND),
    "stopped-down": (lambda play: stopped(play, lambda: None, "it was taken for down, and is started", is_down=True),
                     "AB", KIND),
    "stopped-partner-restarted": (lambda play: stopped(play, lambda: begin_again(play, play.other),
                                                       "both are started"), "AB", KIND),
}
