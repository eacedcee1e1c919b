"""Clients behind a relay: what they ask of the two servers, and each answer that they see."""
import collections
import heapq
import itertools
import select
import socket
import struct
import sys
import time
from dataclasses import dataclass, field
from pathlib import Path

from .daemons import HOST

sys.path.append(str(Path(__file__).resolve().parents[4] / "reference"))
from server.messages import (  # noqa: E402
    ADVERTISE, CLIENT_IDENTIFIER, IA_PD, IA_PREFIX, INTERFACE_IDENTIFIER, NO_BINDING, NO_PREFIX_AVAILABLE, REBIND, RELAY_FORWARD,
    RELAY_MESSAGE, RELAY_REPLY, RELEASE, RENEW, REPLY, REQUEST, SERVER_IDENTIFIER, SOLICIT, STATUS_CODE, option, options, prefix_option,
)

STATUSES = {NO_BINDING: "NoBinding", NO_PREFIX_AVAILABLE: "NoPrefixAvail"}
# How a socket says when a datagram came, by the kernel's clock.
TIMESTAMP_NS = 35
# How long a client waits for an answer, and for a second offer, in seconds.
PATIENCE, OFFERS = 1.5, 0.15
# What a client that has a lease does, and how often; with None it is silent. Who comes and goes gives back more often.
DEEDS = {RENEW: 11, REBIND: 4, RELEASE: 3, None: 2}
COMING_AND_GOING = {RENEW: 4, REBIND: 8, RELEASE: 8, None: 1}


def now():
    """Milliseconds of the clock that the servers read too."""
    return time.time_ns() / 1e6


@dataclass
class Lease:
    prefix: tuple
    server: str
    until: float


class Client:
    """What a client knows: its identifiers, and the lease that it was told of last. `home` is the one server that it
    keeps to, if it does."""

    def __init__(self, number, home=None):
        # Every fourth client has a second association.
        self.duid = bytes.fromhex(f"0003000102{number - (number % 4 == 3):010x}")
        self.association = 1 + (number % 4 == 3)
        self.lease, self.home = None, home

    def key(self):
        return self.duid.hex(), f"{self.association:08x}"


@dataclass
class Exchange:
    """A question, to whom it went, and who has answered it."""

    kind: int
    client: Client
    servers: tuple
    sent: float
    until: float
    likes: str
    prefix: tuple | None
    answered: set = field(default_factory=set)
    offers: set = field(default_factory=set)
    over: bool = False


@dataclass(frozen=True)
class Answer:
    """What a client saw: whether it took it, or had given up before; moments are milliseconds."""

    server: str
    kind: int
    key: tuple
    prefix: tuple
    valid: int
    sent: float
    came: float
    taken: bool


@dataclass(frozen=True)
class GivenBack:
    """A lease that a client gave back, at that moment in milliseconds, whoever heard of it."""

    key: tuple
    prefix: tuple
    sent: float


def message_of(kind, transaction, client, server, prefix):
    content = option(CLIENT_IDENTIFIER, client.duid)
    if server is not None:
        content += option(SERVER_IDENTIFIER, bytes.fromhex(server))
    lease = b"" if prefix is None else prefix_option(prefix, 0, 0)
    content += option(IA_PD, client.association.to_bytes(4, "big") + bytes(8) + lease)
    return bytes([kind]) + transaction.to_bytes(3, "big") + content


def relayed(message):
    return bytes([RELAY_FORWARD, 0]) + bytes(15) + b"\1" + bytes(15) + b"\2" + option(INTERFACE_IDENTIFIER, b"p") + option(RELAY_MESSAGE, message)


class Relay:
    """All clients, by one socket to each server. `servers` has each side's port and identifier. With `does_keep` two of
    three clients keep to one server each, which then often tells them again what they have."""

    def __init__(self, servers, count, dice, faults, does_keep=False, deeds=None):
        self.dice, self.faults, self.seen = dice, faults, collections.Counter()
        self.does_keep, self.deeds = does_keep, deeds or DEEDS
        self.own = {side: duid for side, (_, duid) in servers.items()}
        # What clients were given, what they gave back, and by whom they were told Success.
        self.answers, self.given_back, self.releases = [], [], []
        self.exchanges, self.open = {}, collections.deque()
        self.numbers = itertools.count()
        homes = [*servers, None] if does_keep else [None]
        clients = [Client(number, homes[number % len(homes)]) for number in range(count)]
        # The moment at which each client asks next, the soonest first; a number keeps their order where moments are the same.
        self.turns = [(time.monotonic() + dice.uniform(0, 1), next(self.numbers), client) for client in clients]
        heapq.heapify(self.turns)
        self.sockets = {}
        for side, (port, _) in servers.items():
            stream = socket.socket(socket.AF_INET6, socket.SOCK_DGRAM)
            stream.setsockopt(socket.SOL_SOCKET, socket.SO_RCVBUF, 1 << 22)
            stream.setsockopt(socket.SOL_SOCKET, TIMESTAMP_NS, 1)
            stream.connect((HOST, port))
            self.sockets[side] = stream

    def live(self, seconds, asking=True):
        """Lets so much time pass: clients ask, and hear what they are answered."""
        until = time.monotonic() + seconds
        while (moment := time.monotonic()) < until:
            while asking and self.turns and self.turns[0][0] <= moment:
                self.ask(heapq.heappop(self.turns)[2])
            next_turn = self.turns[0][0] - moment if asking and self.turns else 0.01
            self.hear(max(0.0, min(next_turn, 0.01, until - moment)))
            self.give_up()

    def rest(self, client, seconds=None):
        """The client asks again later."""
        pause = self.dice.uniform(0.05, 1.2) if seconds is None else seconds
        heapq.heappush(self.turns, (time.monotonic() + pause, next(self.numbers), client))

    def ask(self, client):
        lease = client.lease
        if lease is None or lease.until <= now():
            client.lease = None
            self.send(SOLICIT, client, self.servers_of(client), OFFERS)
            return
        kind = self.dice.choices(list(self.deeds), self.deeds.values())[0]
        if kind is None:
            # It is silent until its lease has ended.
            self.rest(client, (lease.until - now()) / 1000 + self.dice.uniform(0, 1))
        elif kind == REBIND:
            self.send(REBIND, client, self.servers_of(client), PATIENCE)
        else:
            self.send(kind, client, (lease.server,), PATIENCE)

    def servers_of(self, client):
        """Whom a client asks that names no server."""
        return tuple(self.own) if client.home is None else (client.home,)

    def send(self, kind, client, servers, patience):
        transaction = len(self.exchanges)
        prefix = client.lease.prefix if client.lease else None
        moment = now()
        exchange = Exchange(kind, client, servers, moment, time.monotonic() + patience, self.dice.choice(servers), prefix)
        self.exchanges[transaction] = exchange
        self.open.append(exchange)
        if kind == RELEASE:
            # From now on it doesn't use the prefix, whoever hears of that.
            self.given_back.append(GivenBack(client.key(), prefix, moment))
            client.lease = None
        self.seen["asked"] += 1
        named = self.own[servers[0]] if kind not in (SOLICIT, REBIND) else None
        datagram = relayed(message_of(kind, transaction, client, named, prefix))
        for side in servers:
            try:
                self.sockets[side].send(datagram)
            except ConnectionError:
                self.seen["port closed"] += 1

    def hear(self, patience):
        ready, _, _ = select.select(list(self.sockets.values()), [], [], patience)
        for side, stream in self.sockets.items():
            while stream in ready:
                try:
                    octets, extra, _, _ = stream.recvmsg(1 << 16, 64, socket.MSG_DONTWAIT)
                except BlockingIOError:
                    break
                except ConnectionError:
                    self.seen["port closed"] += 1
                    continue
                seconds, nanoseconds = struct.unpack("qq", extra[0][2][:16])
                self.take(side, octets, seconds * 1e3 + nanoseconds / 1e6)

    def take(self, side, octets, came):
        """Takes an answer, which must be the only one of that server to a question that is known."""
        inner = dict(options(octets, 34)).get(RELAY_MESSAGE, b"") if octets[:1] == bytes([RELAY_REPLY]) else b""
        exchange = self.exchanges.get(int.from_bytes(inner[1:4], "big")) if len(inner) >= 4 else None
        content = dict(options(inner, 4)) if exchange else {}
        client = exchange.client if exchange else None
        if client is None or content.get(CLIENT_IDENTIFIER) != client.duid or side not in exchange.servers:
            self.faults.append(f"{side} sent what nobody asked for: {octets.hex()}")
        elif content.get(SERVER_IDENTIFIER) != bytes.fromhex(self.own[side]):
            self.faults.append(f"{side} answers by another's name: {octets.hex()}")
        elif side in exchange.answered:
            self.faults.append(f"{side} answered twice: {octets.hex()}")
        else:
            exchange.answered.add(side)
            self.seen["answered"] += 1
            self.told(side, exchange, inner[0], content.get(IA_PD, b""), came)

    def told(self, side, exchange, kind, association, came):
        """What an answer says of the client's association."""
        client, given = exchange.client, dict(options(association, 12)) if len(association) >= 12 else {}
        if association and int.from_bytes(association[:4], "big") != client.association:
            self.faults.append(f"{side} answers of another association: {association.hex()}")
        if STATUS_CODE in given:
            self.seen[STATUSES.get(int.from_bytes(given[STATUS_CODE][:2], "big"), "another status")] += 1
        elif kind == ADVERTISE and IA_PREFIX in given:
            exchange.offers.add(side)
        elif kind == REPLY and IA_PREFIX in given:
            self.granted(side, exchange, given[IA_PREFIX], came)
        elif kind == REPLY and exchange.kind == RELEASE:
            self.releases.append((side, GivenBack(client.key(), exchange.prefix, exchange.sent)))
        self.go_on(side, exchange)

    def granted(self, side, exchange, content, came):
        client, valid = exchange.client, int.from_bytes(content[4:8], "big")
        prefix = int.from_bytes(content[9:25], "big"), content[8]
        taken = not exchange.over
        self.answers.append(Answer(side, exchange.kind, client.key(), prefix, valid, exchange.sent, came, taken))
        if taken:
            client.lease = Lease(prefix, side, came + 1000 * valid)

    def go_on(self, side, exchange):
        """Behind an answer: a client that was offered a prefix by whom it likes requests it, and others are done."""
        if exchange.over or (exchange.kind == SOLICIT and exchange.likes not in exchange.offers):
            return
        exchange.over = True
        if exchange.kind == SOLICIT:
            self.send(REQUEST, exchange.client, (exchange.likes,), PATIENCE)
        else:
            self.rest(exchange.client)

    def give_up(self):
        """Questions that had no answer in time are over."""
        moment = time.monotonic()
        for _ in range(len(self.open)):
            exchange = self.open.popleft()
            if exchange.over:
                continue
            if exchange.until > moment:
                self.open.append(exchange)
                continue
            exchange.over = True
            if exchange.offers:
                self.send(REQUEST, exchange.client, (min(exchange.offers),), PATIENCE)
            else:
                self.seen["unanswered"] += 1
                self.rest(exchange.client)

    def end(self):
        for stream in self.sockets.values():
            stream.close()
