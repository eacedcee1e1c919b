"""Clients behind a relay, who ask one server each time, and what they were told: who holds which prefix until when."""
import collections
import itertools
import socket
import time
from dataclasses import dataclass, replace

from crashing.clients import Client, message_of, relayed
from server.messages import (
    ADVERTISE, IA_PD, IA_PREFIX, REBIND, RELAY_MESSAGE, RELEASE, RENEW, REPLY, REQUEST, SOLICIT, options,
)
from server.values import prefix_text

from .servers import HOST

# After how many seconds who has no answer asks again.
AGAIN = 1.0


@dataclass(frozen=True)
class Grant:
    """A lease that a client was told of: by whom, when, and until when, in seconds of one clock."""

    prefix: tuple
    client: str
    side: str
    begin: float
    end: float


def heard_of(octets):
    """What a datagram says: its transaction, the kind of message, the prefix and the valid lifetime, if any."""
    inner = dict(options(octets, 34))[RELAY_MESSAGE]
    association = dict(options(inner, 4)).get(IA_PD, b"")
    given = dict(options(association, 12)).get(IA_PREFIX) if association else None
    prefix = (int.from_bytes(given[9:25], "big"), given[8]) if given else None
    return int.from_bytes(inner[1:4], "big"), inner[0], prefix, int.from_bytes(given[4:8], "big") if given else 0


class Customers:
    """All clients of a scenario. Each grant that any of them sees is kept, whether it asked for it or not."""

    def __init__(self):
        self.socket = socket.socket(socket.AF_INET6, socket.SOCK_DGRAM)
        self.numbers, self.transactions = itertools.count(1), itertools.count(1)
        # Of each transaction its client and server; all that was granted; and which transactions were answered.
        self.asked, self.grants, self.answers = {}, [], set()

    def new(self, count):
        """So many clients that nobody knows."""
        return [Client(4 * next(self.numbers)) for _ in range(count)]

    def has(self, client):
        """The prefix that a client was told of last."""
        mine = client.duid.hex()
        return next((grant.prefix for grant in reversed(self.grants) if grant.client == mine), None)

    def send(self, server, kind, client, prefix=None):
        transaction = next(self.transactions)
        self.asked[transaction] = client, server.side
        named = None if kind in (SOLICIT, REBIND) else server.duid
        self.socket.sendto(relayed(message_of(kind, transaction, client, named, prefix)), (HOST, server.port))
        return transaction

    def heard(self, seconds):
        """The next answer within that time: its client, kind and prefix; None where there is none."""
        self.socket.settimeout(max(0.001, seconds))
        try:
            octets = self.socket.recv(65536)
        except TimeoutError:
            return None
        number, kind, prefix, valid = heard_of(octets)
        client, side = self.asked[number]
        self.answers.add(number)
        if kind == REPLY and prefix is not None and valid > 0:
            moment = time.monotonic()
            self.grants.append(Grant(prefix, client.duid.hex(), side, moment, moment + valid))
        return client, kind, prefix

    def exchange(self, server, questions, patience):
        """Asks all of them at once, again where no answer comes: the kind and prefix of each one's answer.
        `questions` has the kind and the prefix of what each client asks."""
        found, until, again = {}, time.monotonic() + patience, 0.0
        while len(found) < len(questions) and (moment := time.monotonic()) < until:
            if moment >= again:
                for client, (kind, prefix) in questions.items():
                    if client not in found:
                        self.send(server, kind, client, prefix)
                again = moment + AGAIN
            answer = self.heard(min(again, until) - time.monotonic())
            # (an offer that was asked for twice may come while its client requests)
            if answer and answer[0] in questions and (answer[1] == ADVERTISE) == (questions[answer[0]][0] == SOLICIT):
                found[answer[0]] = answer[1:]
        return found

    def lease(self, server, clients, patience=8.0):
        """They solicit and request: the prefix of each that was given one."""
        offers = self.exchange(server, {client: (SOLICIT, None) for client in clients}, patience)
        wanted = {client: prefix for client, (kind, prefix) in offers.items() if kind == ADVERTISE and prefix}
        requests = {client: (REQUEST, prefix) for client, prefix in wanted.items()}
        return self.given(self.exchange(server, requests, patience))

    def renew(self, server, clients, kind=RENEW, patience=8.0):
        """They renew what they were told of last, or rebind it: the prefix of each that was given one."""
        return self.given(self.exchange(server, {client: (kind, self.has(client)) for client in clients}, patience))

    def release(self, server, clients, patience=8.0):
        """They give back what they were told of last, and use it no more from then on: how many were answered."""
        names = {client.duid.hex() for client in clients}
        questions, moment = {client: (RELEASE, self.has(client)) for client in clients}, time.monotonic()
        self.grants = [replace(grant, end=min(grant.end, moment)) if grant.client in names else grant
                       for grant in self.grants]
        return len(self.exchange(server, questions, patience))

    @staticmethod
    def given(answers):
        return {client: prefix for client, (kind, prefix) in answers.items() if kind == REPLY and prefix}

    def answered(self, server, known=(), fresh=1, seconds=0.5):
        """How many answers a server gives in that time to some that it may know and to some others."""
        sent = {self.send(server, RENEW, client, self.has(client)) for client in known}
        sent |= {self.send(server, SOLICIT, client) for client in self.new(fresh)}
        until = time.monotonic() + seconds
        while (left := until - time.monotonic()) > 0:
            self.heard(left)
        return len(sent & self.answers)

    def second_holders(self, prefixes=None):
        """The prefixes, of these or of all, that a client was told of while another's lease of them lasted."""
        twice, latest = {}, collections.defaultdict(dict)
        for grant in sorted(self.grants, key=lambda each: each.begin):
            of_prefix = latest[grant.prefix]
            for client, end in of_prefix.items():
                if client != grant.client and grant.begin < end and (prefixes is None or grant.prefix in prefixes):
                    words = f"{prefix_text(grant.prefix)} of {client}, and of {grant.client} by {grant.side}"
                    twice.setdefault(grant.prefix, words)
            of_prefix[grant.client] = max(grant.end, of_prefix.get(grant.client, 0.0))
        return twice

    def end(self):
        self.socket.close()
