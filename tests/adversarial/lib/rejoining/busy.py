"""Partners whose clients renew four times a second: whether they are told of leases, though tellings have no reply."""
import itertools
import threading
import time

from living.customers import Customers
from server.messages import REBIND, RENEW

from .crossing import LITTLE, hear

KIND = {"skew": 500, "mclt": 600, "life": 1200, "transit": 60_000, "pool": "2001:db8::/44", "unit": 56}
# How many clients' REBINDs reach both servers: of more than 256 of them one server's telling never has a reply, where
# it tells them in an order in which the partner drops them.
CLIENTS, AT_ONCE = 800, 100
# How often a client renews, and how soon its server's partner should be told of another lease, in seconds: two, and
# more where the machine is busy too.
RENEWS, SOON = 0.25, 10
LEASES = 4


class Busy(threading.Thread):
    """A client of a server that renews again and again, until it is told to end."""

    def __init__(self, server, number):
        super().__init__(daemon=True)
        self.server, self.customers, self.is_over, self.renewed = server, Customers(), False, 0
        self.customers.numbers = itertools.count(number)

    def run(self):
        clients = self.customers.new(1)
        self.customers.lease(self.server, clients)
        while not self.is_over:
            self.renewed += len(self.customers.renew(self.server, clients, RENEW, 2))
            time.sleep(RENEWS)

    def end(self, play):
        self.is_over = True
        self.join(20)
        self.customers.end()
        play.customers.grants += self.customers.grants


def told_of(server, partner, client):
    """Waits until the partner has taken of a lease that a server gave: after how long, None where it hasn't soon."""
    begun, name = time.monotonic(), client.duid.hex()
    while (age := time.monotonic() - begun) < SOON:
        # (it has the client's name by what it took alone)
        if name in partner.text():
            return age
        time.sleep(0.1)
    return None


def tells(play, what):
    """Each tells the other of new leases, soon."""
    for _ in range(LEASES):
        for server, partner in ((play.one, play.other), (play.other, play.one)):
            client = play.lease(server, 1)[0]
            is_told = told_of(server, partner, client) is not None
            play.see(is_told, f"{what}: {partner.side} isn't told within {SOON} s of a lease that {server.side} gave")


def busy(play):
    """Clients' REBINDs reach both, while another's renewals keep each busy."""
    play.begin()
    clients = []
    while len(clients) < CLIENTS:
        clients += play.lease(play.one, AT_ONCE)
    play.told(play.one, play.other)
    renewing = [Busy(server, number) for server, number in ((play.one, 100_000), (play.other, 200_000))]
    for each in renewing:
        each.start()
    try:
        tells(play, "both are busy")
        play.way.delay = LITTLE
        for client in clients:
            for server in (play.one, play.other):
                play.customers.send(server, REBIND, client, play.customers.has(client))
        hear(play, 2 * len(clients))
        tells(play, "both are busy, and REBINDs reached both")
    finally:
        for each in renewing:
            each.end(play)
    for each in renewing:
        play.see(each.renewed > 4 * LEASES, f"{each.server.side}'s client renewed {each.renewed} times")


PLAYS = {"busy": (busy, "AB", KIND)}
