#!/usr/bin/env python3
"""run.py [NODE [UNITS..]]: a pair whose link goes through a relay, against a lone node, over the loopback address.

NODE is the node's program, crates/node_cli/out/node_cli if not said; UNITS are 256, 4,096, 65,536 (256 and 4,096 if not said), and
each has a pair and a lone node of its own, all with one worker. The relay copies the octets of the link and notes when each frame has
gone on. Of a pair, in this order: handing over half of the pool, from POOLREQ to the last reply and until both servers are idle; their
processor time of 5 idle seconds; 200 exchanges of one client after another with 3 to 43 ms between, or as many as 30 s let, each from
the client's REPLY to when its update has gone on to the other server; then ROUNDS rounds of bench/node's asker, 16 exchanges at a time,
and the processor time of each server for one exchange until both are idle. The lone node answers the same rounds. A processor time is
the kernel's count of nanoseconds of all threads.
"""
import pathlib
import random
import select
import socket
import struct
import subprocess
import sys
import tempfile
import time

HERE = pathlib.Path(__file__).resolve().parent
NODE = HERE.parent.parent / "crates" / "node_cli" / "out" / "node_cli"
ASKER = HERE.parent / "node" / "asker.rs"
CLIENTS, ROUNDS, SINGLE, PATIENCE, IDLE = 100, 200, 200, 30, 5
PRIMARY, SECONDARY, RELAY, LINK = 5481, 5482, 6481, 6482
LENGTHS = {256: 48, 4096: 44, 65536: 40}
SETTINGS = """role = "{role}"
duid = "000300010200000000{last}"
skew_ms = 2000
mclt = 3600
life = 3600
listen = "127.0.0.1:{port}"
{link}workers = 1
[[pool]]
prefix = "2001:db8::/{length}"
unit = 56
"""
UPDATE, REPLY, POOLREQ, POOLRESP, CONNECT = 1, 2, 3, 4, 8


class Server:
    def __init__(self, node, role, port, link, units):
        last = {"primary": "09", "secondary": "0a"}[role]
        link = f'link = "127.0.0.1:{link}"\n' if link else ""
        settings = SETTINGS.format(role=role, last=last, port=port, link=link, length=LENGTHS[units])
        self.child = subprocess.Popen([node, "run", "--count", "1000000"], stdin=subprocess.PIPE, stdout=subprocess.DEVNULL,
                                      stderr=subprocess.PIPE)
        self.child.stdin.write(settings.encode())
        self.child.stdin.close()
        for _ in range(2 if link else 1):
            said = self.child.stderr.readline()
            assert b"listens for" in said or b"connects to" in said, said

    def spent(self):
        """Seconds of processor of all its threads."""
        tasks = pathlib.Path(f"/proc/{self.child.pid}/task").glob("*/schedstat")
        return sum(int(task.read_text().split()[0]) for task in tasks) / 1e9

    def end(self):
        self.child.kill()
        self.child.wait()


class Way:
    """One direction of the link: what has come of the next frame, and the frames that have gone on, each with its moment."""

    def __init__(self, source, target):
        self.source, self.target, self.rest, self.frames = source, target, b"", []

    def copy(self):
        piece = self.source.recv(1 << 16)
        assert piece, "the link has ended"
        self.target.sendall(piece)
        moment = time.perf_counter()
        self.rest += piece
        while len(self.rest) >= 4 and len(self.rest) >= 4 + struct.unpack(">I", self.rest[:4])[0]:
            length = 4 + struct.unpack(">I", self.rest[:4])[0]
            self.frames.append((moment, self.rest[4], self.rest[17:length]))
            self.rest = self.rest[length:]

    def count(self, kind):
        return sum(1 for frame in self.frames if frame[1] == kind)


class Link:
    def __init__(self):
        self.listener = socket.create_server(("127.0.0.1", RELAY))
        self.quiet, self.ways = time.perf_counter(), []

    def join(self):
        first, _ = self.listener.accept()
        second = socket.create_connection(("127.0.0.1", LINK))
        for end in (first, second):
            end.setsockopt(socket.IPPROTO_TCP, socket.TCP_NODELAY, 1)
        self.ways = [Way(first, second), Way(second, first)]

    def pump(self, patience, *others):
        """Copies what comes within that time; gives those of the other sockets that have something."""
        sockets = {way.source: way for way in self.ways}
        ready, _, _ = select.select([*sockets, *others], [], [], patience)
        for source in ready:
            if source in sockets:
                sockets[source].copy()
                self.quiet = time.perf_counter()
        return [source for source in ready if source not in sockets]

    def settle(self, seconds):
        while time.perf_counter() - self.quiet < seconds:
            self.pump(0.01)

    def end(self):
        for way in self.ways:
            way.source.close()
        self.listener.close()


def option(code, body):
    return struct.pack(">HH", code, len(body)) + body


def message(kind, client):
    """A client's message; the client's number is its transaction."""
    number = struct.pack(">I", client)
    body = bytes([kind]) + number[1:] + option(1, b"\0\3\0\1\2\1" + number)
    body += option(2, b"\0\3\0\1\2\0\0\0\0\x09") if kind == 3 else b""
    return body + option(8, b"\0\0") + option(25, b"\0\0\0\1" + bytes(8))


def exchange(link, client, number):
    """One client's SOLICIT and REQUEST; the moment of its REPLY."""
    for kind, answer in ((1, 2), (3, 7)):
        client.send(message(kind, number))
        while not link.pump(5, client):
            pass
        moment = time.perf_counter()
        assert client.recv(2048)[0] == answer
    return moment


def rest(link, servers):
    """Lets the servers do what they have to, until they are idle; the moment."""
    while True:
        moment = time.perf_counter()
        before = sum(server.spent() for server in servers)
        while time.perf_counter() - moment < 0.2:
            link.pump(0.05)
        if sum(server.spent() for server in servers) - before < 0.01 * len(servers) + 0.03:
            return moment


def hand_over(link, servers, units):
    """Seconds from POOLREQ to the last reply, and until both servers are idle."""
    down, up = link.ways
    began = time.perf_counter()
    while not (down.count(POOLRESP) and up.count(REPLY) >= units // 2):
        link.pump(0.1)
        assert time.perf_counter() - began < 300, (down.count(UPDATE), up.count(REPLY))
    asked = next(moment for moment, kind, _ in up.frames if kind == POOLREQ)
    replied = max(moment for moment, kind, _ in up.frames if kind == REPLY)
    return replied - asked, max(0, rest(link, servers) - asked)


def tellings(link, units):
    """Milliseconds from each client's REPLY to its update's arrival."""
    client = socket.socket(socket.AF_INET, socket.SOCK_DGRAM)
    client.connect(("127.0.0.1", PRIMARY))
    drawn = random.Random(1)
    times = []
    began = time.perf_counter()
    for turn in range(SINGLE):
        if time.perf_counter() - began > PATIENCE:
            break
        until = time.perf_counter() + drawn.uniform(0.003, 0.043)
        while time.perf_counter() < until:
            link.pump(max(0, until - time.perf_counter()))
        link.settle(0.003)
        told = link.ways[0].count(UPDATE)
        answered = exchange(link, client, turn % CLIENTS)
        while link.ways[0].count(UPDATE) == told:
            link.pump(5)
        arrived = [moment for moment, kind, _ in link.ways[0].frames if kind == UPDATE][told]
        times.append(max(0, arrived - answered) * 1e3)
    return sorted(times)


def load(asker, link, servers):
    """Each server's processor microseconds for one exchange."""
    before = [server.spent() for server in servers]
    began = time.perf_counter()
    for _ in range(ROUNDS):
        asking = subprocess.Popen([asker, str(PRIMARY), str(CLIENTS)], stdout=subprocess.DEVNULL)
        while asking.poll() is None:
            if link:
                link.pump(0.005)
            else:
                time.sleep(0.001)
        assert asking.returncode == 0
    elapsed = time.perf_counter() - began
    if link:
        link.settle(1.5)
        rest(link, servers)
    spent = [(server.spent() - old) / (CLIENTS * ROUNDS) * 1e6 for server, old in zip(servers, before)]
    return spent, CLIENTS * ROUNDS / elapsed


def of_pair(node, asker, units):
    second = Server(node, "secondary", SECONDARY, LINK, units)
    link = Link()
    first = Server(node, "primary", PRIMARY, RELAY, units)
    try:
        link.join()
        replied, rested = hand_over(link, (first, second), units)
        print(f"{units} units: {units // 2} handed over in {replied:.2f} s, and both idle after {rested:.2f} s", flush=True)
        link.settle(1)
        before = [server.spent() for server in (first, second)]
        until = time.perf_counter() + IDLE
        while time.perf_counter() < until:
            link.pump(until - time.perf_counter())
        idle = [(server.spent() - old) / IDLE * 100 for server, old in zip((first, second), before)]
        print(f"{units} units: an idle second costs {idle[0]:.2f} % of a processor at the primary, {idle[1]:.2f} % at the secondary")
        times = tellings(link, units)
        print(f"{units} units: from an answer to its update {times[len(times) // 2]:.2f} ms (median), "
              f"{times[len(times) * 95 // 100]:.2f} ms (of 95 %), {times[-1]:.2f} ms (all), of {len(times)}")
        return load(asker, link, (first, second))
    finally:
        link.end()
        first.end()
        second.end()


def of_lone(node, asker, units):
    lone = Server(node, "primary", PRIMARY, None, units)
    try:
        return load(asker, None, (lone,))
    finally:
        lone.end()


def main():
    node = pathlib.Path(sys.argv[1]).resolve() if len(sys.argv) > 1 else NODE
    with tempfile.TemporaryDirectory() as folder:
        asker = pathlib.Path(folder) / "asker"
        subprocess.run(["rustc", "--edition", "2021", "-O", "-o", asker, ASKER], check=True)
        for units in map(int, sys.argv[2:] or ["256", "4096"]):
            (alone,), pace = of_lone(node, asker, units)
            print(f"{units} units: alone {alone:.1f} processor microseconds an exchange, at {pace:.0f} a second")
            (first, second), pace = of_pair(node, asker, units)
            print(f"{units} units: in a pair {first:.1f} at the primary and {second:.1f} at the secondary, at {pace:.0f} a second; "
                  f"pair : alone {first / alone:.2f} and {second / alone:.2f}", flush=True)


main()
