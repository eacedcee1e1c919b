"""Messages by several relay ports in one turn of a server: each grant's record says by which port it was asked for."""
import contextlib
import random
import signal
import socket
import time
from dataclasses import dataclass

from living.servers import HOST
from server.messages import (
    CLIENT_IDENTIFIER, IA_PD, IA_PREFIX, INTERFACE_IDENTIFIER, REBIND, RELAY_FORWARD, RELAY_MESSAGE, RELAY_REPLY, RENEW,
    REPLY, REQUEST, SERVER_IDENTIFIER, SOLICIT, option, options, prefix_option,
)

from .stage import LONG, rows_of

REMOTE_IDENTIFIER = 37
NOTHING, EMPTY, SOURCE = "-", "empty", f"{'0000:' * 7}0001"
# How long a turn's answers may take, in seconds.
PATIENCE = 90


def address_word(octets):
    return ":".join(octets[place:place + 2].hex() for place in range(0, 16, 2))


def identifier_word(octets):
    return NOTHING if octets is None else octets.hex() or EMPTY


class Port:
    """A relay port with a socket of its own; or the link itself, where it has no address. Each record of a grant that
    was asked for by it has these words."""

    def __init__(self, server, number=None, interface=None, remote=None, is_nested=False):
        self.stream = socket.socket(socket.AF_INET6, socket.SOCK_DGRAM)
        self.stream.connect((HOST, server.port))
        self.is_relay, self.is_nested = number is not None, is_nested
        self.names, self.words = b"", f"{NOTHING} {NOTHING} {NOTHING}"
        if self.is_relay:
            self.link = bytes.fromhex("20010db800ff") + bytes(8) + number.to_bytes(2, "big")
            # RFC 4649: an enterprise number stands before the identifier.
            remote = remote if remote is None else (9).to_bytes(4, "big") + remote
            for code, octets in ((INTERFACE_IDENTIFIER, interface), (REMOTE_IDENTIFIER, remote)):
                self.names += b"" if octets is None else option(code, octets)
            self.words = f"{address_word(self.link)} {identifier_word(interface)} {identifier_word(remote)}"

    def send(self, message):
        if self.is_relay:
            message = self.around(0, self.link, self.names, message)
        if self.is_nested:
            # (a relay further away, of which no record tells)
            outer = option(INTERFACE_IDENTIFIER, b"outer") + option(REMOTE_IDENTIFIER, bytes(4) + b"outer")
            message = self.around(1, bytes.fromhex("20010db800fe") + bytes(9) + b"\1", outer, message)
        self.stream.send(message)

    @staticmethod
    def around(hops, link, names, message):
        return bytes([RELAY_FORWARD, hops]) + link + bytes(15) + b"\2" + names + option(RELAY_MESSAGE, message)

    def heard(self, seconds):
        """The next answer, without what relays have around it; None where there is none."""
        self.stream.settimeout(max(0.01, seconds))
        try:
            octets = self.stream.recv(65536)
        except TimeoutError:
            return None
        while octets[0] == RELAY_REPLY:
            octets = dict(options(octets, 34))[RELAY_MESSAGE]
        return octets


@dataclass
class Question:
    """What a client asks by a port, of how many associations; whom it names, and what it has; and the number of the
    first association."""

    kind: int
    duid: bytes
    port: Port
    count: int = 1
    prefixes: tuple = ()
    first: int = 1

    def message(self, server):
        content = option(CLIENT_IDENTIFIER, self.duid)
        if self.kind not in (SOLICIT, REBIND):
            content += option(SERVER_IDENTIFIER, bytes.fromhex(server.duid))
        for number in range(self.count):
            has = prefix_option(self.prefixes[number], 0, 0) if self.prefixes else b""
            content += option(IA_PD, (self.first + number).to_bytes(4, "big") + bytes(8) + has)
        return bytes([self.kind]) + self.duid[-3:] + content


def ports_of(server):
    """Ports with every way in which a relay names itself, two that differ in one of these alone, and the link."""
    return [
        Port(server, 1, b"eth0", b"near"), Port(server, 1, b"eth1", b"near"), Port(server, 1, b"eth0", b"far"),
        Port(server, 2, b"eth0", b"near"), Port(server, 3), Port(server, 3, b"only"), Port(server, 3, None, b"only"),
        Port(server, 4, b"", b""), Port(server, 5, b"eth0", b"inner", is_nested=True), Port(server),
    ]


@contextlib.contextmanager
def standing(server):
    """The server stands meanwhile."""
    server.process.send_signal(signal.SIGSTOP)
    try:
        while "State:\tT" not in open(f"/proc/{server.process.pid}/status").read():
            time.sleep(0.005)
        yield
    finally:
        server.process.send_signal(signal.SIGCONT)


def in_one_turn(play, server, questions, what, meanwhile=lambda: None):
    """All of these reach a server while it stands, and something is done meanwhile: the prefixes of each answer, by its
    client."""
    with standing(server):
        meanwhile()
        for question in questions:
            question.port.send(question.message(server))
    found, until = {}, time.monotonic() + PATIENCE
    for question in questions:
        answer = question.port.heard(until - time.monotonic())
        if not play.see(answer is not None, f"{what}: {server.side} leaves a port without its answer"):
            continue
        # (of each port the answers come in the order of its questions; a port has one a turn)
        play.see(answer[1:4] == question.duid[-3:], f"{what}: {server.side} answers another port's client")
        play.see((answer[0] == REPLY) == (question.kind != SOLICIT), f"{what}: {server.side} answers by {answer[0]}")
        given = [dict(options(body, 12)).get(IA_PREFIX) for code, body in options(answer, 4) if code == IA_PD]
        found[question.duid] = tuple((int.from_bytes(each[9:25], "big"), each[8]) for each in given if each)
    return found


def records(volume):
    """The last record of each line of a volume: its words behind the number."""
    path = volume.with_suffix(".access")
    rows = rows_of(path) if path.exists() else [""]
    return rows[0], {int(number): words for number, _, words in (row.partition(" ") for row in rows[1:])}


def grants(server, duid, count):
    """The numbers of a client's last grants in the last volume."""
    rows = [row.split(" ") for row in rows_of(server.volumes()[-1])[1:]]
    return [int(row[0]) for row in rows if row[2] == "grant" and row[3] == duid.hex()][-count:]


def are_recorded(play, server, questions, what):
    """Each grant has the record of its question's port, and no other line has one."""
    volume = server.volumes()[-1]
    head, found = records(volume)
    wanted = f"pd-access 1 {server.side} {len(server.volumes())}"
    play.see(head == wanted, f"{what}: {volume.stem}.access begins {head!r}, wants {wanted!r}")
    for question in questions:
        numbers = grants(server, question.duid, question.count)
        play.see(len(numbers) == question.count, f"{what}: {server.side} has {len(numbers)} grants of a client")
        for number in numbers:
            words = f"{question.port.words} {SOURCE}"
            had = found.get(number, "nothing")
            play.see(had == words, f"{what}: the record of {server.side}{number} is {had!r}, wants {words!r}")
    numbers = {int(row.split(" ", 1)[0]) for row in rows_of(volume)[1:] if row.split(" ")[2] in ("grant", "unit")}
    play.see(set(found) <= numbers, f"{what}: {volume.stem}.access has records of {sorted(set(found) - numbers)[:3]}")


def asks(play, server, ports, first, what):
    """A client behind each port asks, some for two prefixes, and some that get none between them."""
    dice = random.Random(first)
    requests = [Question(REQUEST, bytes.fromhex(f"00030001aa{first + place:010x}"), port, 1 + place % 2)
                for place, port in enumerate(ports)]
    others = [bytes.fromhex(f"00030001bb{first + 100 + place:010x}") for place in range(4)]
    between = [Question(SOLICIT, duid, Port(server, place, b"offer")) for place, duid in enumerate(others, start=9)]
    turn = requests + between
    dice.shuffle(turn)
    given = in_one_turn(play, server, turn, what)
    for question in requests:
        question.prefixes = given.get(question.duid, ())
        count = len(question.prefixes)
        play.see(count == question.count, f"{what}: a client is given {count} prefixes, wants {question.count}")
    are_recorded(play, server, requests, what)
    return requests


def asks_again(play, server, requests, kind, what):
    """The same clients in one turn more, each by another one's port: a record is of the last grant's."""
    ports = [Port(server, 20 + place, f"eth{place}".encode(), b"moved") for place in range(len(requests))]
    moved = [Question(kind, each.duid, port, each.count, each.prefixes) for each, port in zip(requests, ports)]
    random.Random(len(what)).shuffle(moved)
    given = in_one_turn(play, server, moved, what)
    for question in moved:
        had = given.get(question.duid)
        play.see(had == question.prefixes, f"{what}: a client is told {had}, has {question.prefixes}")
    are_recorded(play, server, moved, what)
    return moved


def are_carried(play, server, moved, what):
    """Behind a roll the unit lines have the ports of their last grants; no datagram had brought them."""
    count = len(server.volumes())
    play.heard(server, ("roll",), what)
    play.until(f"{what}: {server.side} begins a volume", lambda: len(server.volumes()) == count + 1)
    rows = [row.split(" ") for row in rows_of(server.volumes()[-1])[1:]]
    _, found = records(server.volumes()[-1])
    for question in moved:
        numbers = [int(row[0]) for row in rows if row[2] == "unit" and row[5] == question.duid.hex()]
        play.see(len(numbers) == question.count, f"{what}: {server.side} has {len(numbers)} unit lines of a client")
        for number in numbers:
            words, had = f"{question.port.words} {NOTHING}", found.get(number, "nothing")
            play.see(had == words, f"{what}: the record of {server.side}{number} is {had!r}, wants {words!r}")


def pair(play):
    """Clients of a server by ten ports in one turn; renewed by others; rebound at its partner; and a roll."""
    one, other = play.one, play.other
    play.begin()
    for server in (one, other):
        play.until(f"{server.side} serves", lambda each=server: each.serving() == "yes")
    first = 0x100 if one.side == "A" else 0x1100
    requests = asks(play, one, ports_of(one), first, "asked in one turn")
    moved = asks_again(play, one, requests, RENEW, "renewed in one turn")
    play.told(one, other)
    asks_again(play, other, requests, REBIND, "rebound in one turn")
    asks(play, one, ports_of(one), first + 0x200, "asked in one more turn")
    are_carried(play, one, moved, "rolled")


PLAYS = {"ports-one-turn": (pair, "AB", LONG)}
