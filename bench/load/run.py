#!/usr/bin/env python3
"""run.py [COUNT [SEED]]: COUNT datagrams (1,000,000 if not said) to two nodes on the loopback address, a third of them broken or
hostile, while the link between the nodes is cut and joined again every few seconds.

Clients solicit, request, renew, rebind and release, some through a relay; the hostile datagrams are cut, altered, drawn by chance,
empty or very long. At the end each prefix in an answer must be a grant line of the node that gave it, no node may have ended before
its datagrams, and the desk must accept what it finds of 100 drawn leases. Prints exchanges a second, answers by kind and the nodes'
peak memory. The node and the desk must have been proved and built. Ends with status 1 where something was otherwise.
"""
import collections
import os
import pathlib
import random
import re
import select
import socket
import subprocess
import sys
import tempfile
import threading
import time

HERE = pathlib.Path(__file__).resolve().parent
CRATES = HERE.parent.parent / "crates"
NODE, DESK = CRATES / "node_cli" / "out" / "node_cli", CRATES / "desk_cli" / "out" / "desk_cli"
SETTINGS = """role = "{role}"
duid = "{duid}"
skew_ms = 500
mclt = 3600
life = 3600
listen = "127.0.0.1:{listen}"
link = "127.0.0.1:{link}"
workers = 2
[[pool]]
prefix = "2001:db8::/44"
unit = 56
"""
SERVERS = [("primary", "00030001020000000009", 15470, 16470), ("secondary", "0003000102000000000a", 15471, 16471)]
CLIENTS = 1000
# Datagrams that are under way at once.
WINDOW = 24
SOLICIT, ADVERTISE, REQUEST, RENEW, REBIND, REPLY, RELEASE, RELAY_FORW, RELAY_REPL = 1, 2, 3, 5, 6, 7, 8, 12, 13
STATUS = {0: "Success", 1: "UnspecFail", 2: "NoAddrsAvail", 3: "NoBinding", 4: "NotOnLink", 5: "UseMulticast", 6: "NoPrefixAvail"}


def option(code, content):
    return code.to_bytes(2, "big") + len(content).to_bytes(2, "big") + content


def options(octets):
    """Each option's code and content."""
    at = 0
    while at + 4 <= len(octets):
        code, length = int.from_bytes(octets[at : at + 2], "big"), int.from_bytes(octets[at + 2 : at + 4], "big")
        yield code, octets[at + 4 : at + 4 + length]
        at += 4 + length


def duid(number):
    return bytes.fromhex(f"0003000102{number:010x}")


class Client:
    """What a client knows of its lease."""

    def __init__(self, number):
        self.duid, self.prefix, self.server, self.offered = duid(number), None, None, None

    def asks(self, dice):
        """The server's number, and a message to it."""
        if self.prefix is None and self.offered is not None:
            server, self.offered = self.offered, None
            return server, self.message(REQUEST, server, dice)
        if self.prefix is None or dice.random() < 0.8:
            server = dice.randrange(2)
            return server, self.message(SOLICIT, None, dice)
        kind = dice.choices([RENEW, REBIND, RELEASE], [6, 2, 1])[0]
        if kind == REBIND:
            return 1 - self.server, self.message(REBIND, None, dice)
        return self.server, self.message(kind, self.server, dice)

    def message(self, kind, server, dice):
        held = option(1, self.duid)
        if server is not None:
            held += option(2, bytes.fromhex(SERVERS[server][1]))
        lease = b"" if self.prefix is None else option(26, bytes(8) + self.prefix)
        held += option(25, (1).to_bytes(4, "big") + bytes(8) + lease)
        return bytes([kind]) + dice.randbytes(3) + held


def relayed(message, dice):
    """The message by a relay, for some."""
    if dice.random() < 0.5:
        return message
    return bytes([RELAY_FORW, 0]) + bytes(15) + b"\1" + bytes(15) + b"\2" + option(18, b"port") + option(9, message)


def hostile(message, dice):
    """A datagram that no client sends."""
    kind = dice.randrange(6)
    if kind == 0:
        return message[: dice.randrange(len(message))]
    if kind == 1:
        at = dice.randrange(len(message))
        return message[:at] + dice.randbytes(1) + message[at + 1 :]
    if kind == 2:
        return dice.randbytes(dice.randrange(1, 300))
    if kind == 3:
        return b""
    if kind == 4:
        return message[:4] + option(99, b"") * dice.randrange(1, 2000)
    return bytes([dice.randrange(256)]) + message[1:]


def answered(octets):
    """An answer's kind, client, and each prefix or status that it gives."""
    while octets[:1] == bytes([RELAY_REPL]):
        octets = dict(options(octets[34:])).get(9, b"")
    found = list(options(octets[4:]))
    client, given = dict(found).get(1, b""), []
    for code, content in found:
        if code == 25:
            given += [(inner, value) for inner, value in options(content[12:])]
    return octets[0], client, given


class Link(threading.Thread):
    """Joins the primary to the secondary, and cuts them apart again every few seconds."""

    def __init__(self, seed):
        super().__init__(daemon=True)
        self.dice, self.cuts, self.ends = random.Random(seed), 0, False

    def run(self):
        with socket.create_server(("127.0.0.1", SERVERS[0][3])) as listener:
            listener.settimeout(0.2)
            while not self.ends:
                try:
                    near, _ = listener.accept()
                except TimeoutError:
                    continue
                with near:
                    try:
                        with socket.create_connection(("127.0.0.1", SERVERS[1][3])) as far:
                            self.carry(near, far)
                    except OSError:
                        pass

    def carry(self, near, far):
        """Passes octets on, some time long."""
        until = time.monotonic() + self.dice.uniform(0.5, 6)
        while time.monotonic() < until and not self.ends:
            ready, _, _ = select.select([near, far], [], [], 0.1)
            for stream in ready:
                octets = stream.recv(self.dice.choice([1, 7, 100, 65536]))
                if not octets:
                    return
                (far if stream is near else near).sendall(octets)
        self.cuts += 1


class Load:
    """Clients, what they were answered, and what they were given."""

    def __init__(self, count, seed):
        self.dice, self.left, self.seen = random.Random(seed), [count // 2, count - count // 2], collections.Counter()
        self.clients = {duid(number + 1): Client(number + 1) for number in range(CLIENTS)}
        self.given = [collections.Counter(), collections.Counter()]
        self.sockets = [socket.socket(socket.AF_INET, socket.SOCK_DGRAM) for _ in SERVERS]
        for stream, (_, _, listen, _) in zip(self.sockets, SERVERS):
            stream.setsockopt(socket.SOL_SOCKET, socket.SO_RCVBUF, 1 << 22)
            stream.connect(("127.0.0.1", listen))

    def send(self, server, datagram):
        if self.left[server] > 0:
            self.left[server] -= 1
            self.seen["sent"] += 1
            try:
                self.sockets[server].send(datagram)
            except ConnectionError:
                self.seen["refused ports"] += 1

    def hear(self, server, octets):
        kind, duid_of, given = answered(octets)
        self.seen["answered"] += 1
        client = self.clients.get(duid_of)
        for code, value in given:
            if code == 13:
                self.seen[STATUS.get(int.from_bytes(value[:2], "big"), "other")] += 1
            elif code == 26 and int.from_bytes(value[4:8], "big") > 0:
                self.take(server, kind, duid_of, client, value)

    def take(self, server, kind, duid_of, client, value):
        if kind == ADVERTISE:
            self.seen["offered"] += 1
            if client:
                client.offered = server
            return
        self.seen["granted"] += 1
        prefix = socket.inet_ntop(socket.AF_INET6, value[9:25]), value[8]
        self.given[server][duid_of.hex(), prefix, int.from_bytes(value[4:8], "big")] += 1
        if client:
            client.prefix, client.server = value[8:25], server

    def drain(self, wanted):
        """Takes answers until so many came, or none comes any more."""
        until = time.monotonic() + 0.05
        while wanted > 0 and time.monotonic() < until:
            ready, _, _ = select.select(self.sockets, [], [], 0.01)
            for stream in ready:
                try:
                    self.hear(self.sockets.index(stream), stream.recv(65535))
                    wanted -= 1
                except ConnectionError:
                    self.seen["refused ports"] += 1

    def round(self):
        """A window of datagrams, and their answers."""
        wanted = 0
        for client in self.dice.sample(sorted(self.clients), WINDOW):
            server, message = self.clients[client].asks(self.dice)
            if self.dice.random() < 1 / 3:
                self.send(server, hostile(message, self.dice))
                self.seen["hostile"] += 1
                continue
            if message[0] == RELEASE:
                self.clients[client].prefix = None
            self.send(server, relayed(message, self.dice))
            wanted += 1
        self.drain(wanted)


def lines_of(text):
    """Each grant line's reading, client, prefix and lifetime."""
    for words in (line.split() for line in text.splitlines()):
        if len(words) == 7 and words[2] == "grant":
            address, length = words[5].split("/")
            yield int(words[1]), words[3], (socket.inet_ntop(socket.AF_INET6, socket.inet_pton(socket.AF_INET6, address)), int(length)), int(words[6])


def desk(words, given):
    done = subprocess.run([DESK, *words], input=given.encode(), capture_output=True, check=False)
    return done.returncode, done.stdout.decode(), done.stderr.decode()


def returned(text):
    """The readings at which each client gave back each prefix."""
    found = collections.defaultdict(list)
    for words in (line.split() for line in text.splitlines()):
        if len(words) == 6 and words[2] == "release":
            found[words[3]].append(int(words[1]))
    return found


def drawn(texts, dice):
    """A hundred leases that nobody gave back near their beginning."""
    close = min(int(text.splitlines()[-2].split()[1]) for text in texts)
    releases, leases = returned("".join(texts)), []
    for text in texts:
        for reading, client, (address, length), _ in lines_of(text):
            apart = all(abs(release - reading) > 4000 for release in releases[client])
            if apart and reading + 3000 < close:
                leases.append((reading, client, f"{address}/{length}"))
    return dice.sample(leases, min(100, len(leases)))


def judged(texts, dice):
    """What the desk says of these leases: how many were accepted, and what it said of others."""
    text, accepted, others = "".join(texts), 0, []
    for reading, client, prefix in drawn(texts, dice):
        words = ["--holder", client, "--prefix", prefix, "--from", str(reading + 500), "--to", str(reading + 1500)]
        status, found, complaint = desk(["find", "--skew-ms", "500", *words], text)
        verdict = desk(["audit", "--skew-ms", "500"], text + found)[1] if status == 0 else found + complaint
        if verdict == "accepted\n":
            accepted += 1
        else:
            others.append(f"{' '.join(words)}: {verdict.strip()}")
    return accepted, others


def started(folder, count):
    for (role, own, listen, link), number in zip(SERVERS, [count // 2, count - count // 2]):
        settings = folder / f"{role}.toml"
        settings.write_text(SETTINGS.format(role=role, duid=own, listen=listen, link=link))
        with open(settings, "rb") as given, open(folder / role, "wb") as out, open(folder / f"{role}.notes", "wb") as notes:
            yield subprocess.Popen([NODE, "run", "--count", str(number)], stdin=given, stdout=out, stderr=notes)


def is_over(child):
    """Whether the node has ended; its figures stay to be asked for."""
    return os.waitid(os.P_PID, child.pid, os.WEXITED | os.WNOHANG | os.WNOWAIT) is not None


def ended(children, load):
    """Each node's status and peak memory in octets. What was lost on the way is sent again, as hostile datagrams."""
    found = {}
    while len(found) < len(children):
        for place, child in enumerate(children):
            if place in found:
                continue
            done, status, used = os.wait4(child.pid, os.WNOHANG)
            if done:
                found[place] = (os.waitstatus_to_exitcode(status), used.ru_maxrss * 1024)
            else:
                load.left[place] += 32
                for _ in range(32):
                    load.send(place, b"x")
        time.sleep(0.002)
    return [found[place] for place in range(len(children))]


def main():
    count = int(sys.argv[1]) if len(sys.argv) > 1 else 1_000_000
    seed = int(sys.argv[2]) if len(sys.argv) > 2 else 1
    folder, wrong = pathlib.Path(tempfile.mkdtemp()), []
    link, children = Link(seed), list(started(folder, count))
    time.sleep(1)
    link.start()
    load, begun = Load(count, seed), time.perf_counter()
    while any(load.left):
        load.round()
        if any(is_over(child) for child in children) and sum(load.left) > 2 * WINDOW:
            wrong.append("a node ended before its datagrams")
            break
    seconds = time.perf_counter() - begun
    ends = ended(children, load)
    link.ends = True
    texts = [(folder / role).read_text() for role, *_ in SERVERS]
    for (role, *_), text, given, (status, peak) in zip(SERVERS, texts, load.given, ends):
        lines = collections.Counter((client, prefix, lasts) for _, client, prefix, lasts in lines_of(text))
        missing = sum((given - lines).values())
        print(f"{role}: status {status}, {text.count(chr(10))} lines, {peak >> 20} MiB at the peak, {missing} given without a line")
        wrong += [f"{role}: status {status}"] if status else []
        wrong += [f"{role}: {missing} given without a line"] if missing else []
    accepted, others = judged(texts, random.Random(seed))
    wrong += others
    print(f"{load.seen['sent']} datagrams in {seconds:.0f} s, {load.seen['answered'] / seconds:.0f} exchanges a second, {link.cuts} cuts of the link")
    print(", ".join(f"{number} {name}" for name, number in sorted(load.seen.items())))
    print(f"the desk accepts {accepted} of 100 leases")
    for line in wrong[:10]:
        print(f"wrong: {line}")
    return int(bool(wrong) or accepted < 100)


sys.exit(main())
