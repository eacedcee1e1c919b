"""Strangers at the port of a link, and callers at a server's control socket: what they say, and what they say again of others."""
import multiprocessing
import random
import select
import socket
import struct
import sys
import threading
import time
from pathlib import Path

from .daemons import HOST

sys.path.append(str(Path(__file__).resolve().parents[4] / "reference"))
from server import frames  # noqa: E402
from server.frames import Frame, encode  # noqa: E402

# The roles as frames have them.
PRIMARY, SECONDARY = 1, 2
# A serial far above all that a server has sent.
FAR = 1 << 40
# How long one waits for what it is told, in seconds.
PATIENCE = 0.3
# How often each kind of stranger comes among drawn ones.
KINDS = {"silent": 4, "slow": 2, "garbage": 6, "leaves": 3, "connects": 3, "far": 3, "again": 4, "reflected": 3, "resets": 2, "gone": 6}

# What is no request at a control socket.
NO_REQUESTS = [
    b"\n", b"status \n", b" status\n", b"Stop\n", b"stop close now\n", b"roll 2\n", b"partner-down\n", b"partner-down the partner is stoppe\n", b"stop\0\n",
    b"partner-down the partner is stopped \n", b"status json metrics\n", b"stop\r\n", b"\xff\xfe\n",
]


def connect_frame(role, last=0):
    return encode(Frame(frames.CONNECT, 0, 0, (role, last)))


def far_update():
    """An update of a serial that no server has reached, of a unit of the pool."""
    prefix = (0x20010DB8 << 96, 56)
    return encode(frames.message_frame(1, FAR, ("update", "free", prefix, FAR, 0, 0, 0, b"")))


class Recorder(threading.Thread):
    """The way between the servers, which keeps what the primary said over its first connections."""

    def __init__(self, port):
        super().__init__(daemon=True)
        self.port, self.over, self.joins, self.said = port, False, 0, []
        self.listener = socket.create_server((HOST, 0), family=socket.AF_INET6)
        self.listener.settimeout(0.1)

    def address(self):
        return self.listener.getsockname()[1]

    def run(self):
        with self.listener:
            while not self.over:
                try:
                    near, _ = self.listener.accept()
                except TimeoutError:
                    continue
                with near:
                    self.join_to(near)

    def join_to(self, near):
        try:
            with socket.create_connection((HOST, self.port), timeout=2) as far:
                self.joins += 1
                self.said.append(b"")
                self.carry(near, far)
        except OSError:
            pass

    def carry(self, near, far):
        while not self.over:
            ready, _, _ = select.select([near, far], [], [], 0.05)
            for stream in ready:
                octets = stream.recv(65536)
                if not octets:
                    return
                if stream is near and len(self.said[-1]) < 100_000:
                    self.said[-1] += octets
                (far if stream is near else near).sendall(octets)

    def end(self):
        self.over = True
        self.join(3)


class Strangers(multiprocessing.Process):
    """Drawn connections to a port, one behind another, some of which stay open; `old` is what the primary said before."""

    # Not more stay open than this, so that the system has descriptors left.
    kinds, stay, most = KINDS, ("silent", "slow"), 40

    def __init__(self, port, seed, old, pause):
        super().__init__(daemon=True)
        self.port, self.dice, self.old, self.pause = port, random.Random(seed), old, pause
        self.over, self.number = multiprocessing.Event(), multiprocessing.Value("i")
        self.kept = []

    def count(self):
        """How many have come."""
        return self.number.value

    def run(self):
        while not self.over.is_set():
            self.come()
            if self.pause:
                time.sleep(self.dice.expovariate(1 / self.pause))

    def connected(self):
        return socket.create_connection((HOST, self.port), timeout=PATIENCE)

    def come(self):
        try:
            stream = self.connected()
        except OSError:
            time.sleep(0.01)
            return
        self.number.value += 1
        kind = self.dice.choices(list(self.kinds), self.kinds.values())[0]
        try:
            self.speak(stream, kind)
        except OSError:
            pass
        if kind in self.stay:
            self.kept.append(stream)
            if len(self.kept) > self.most:
                self.kept.pop(0).close()
        else:
            stream.close()

    def speak(self, stream, kind):
        if kind == "slow":
            stream.sendall(bytes(self.dice.randrange(1, 60)))
        elif kind == "garbage":
            stream.sendall(self.dice.randbytes(self.dice.randrange(1, 400)))
        elif kind == "leaves":
            stream.sendall(encode(Frame(frames.DISCONNECT)))
        elif kind == "connects":
            stream.sendall(connect_frame(PRIMARY))
        elif kind == "far":
            stream.sendall(connect_frame(PRIMARY) + far_update())
        elif kind == "again":
            # whole or from some place on
            stream.sendall(self.old[self.dice.choice([0, 0, 32, 64]) :] or b"\0")
        elif kind == "reflected":
            stream.sendall(stream.recv(4096))
            stream.sendall(stream.recv(4096))
        elif kind == "resets":
            stream.setsockopt(socket.SOL_SOCKET, socket.SO_LINGER, struct.pack("ii", 1, 0))

    def end(self):
        self.over.set()
        self.join(3)
        if self.is_alive():
            self.kill()


class Callers(Strangers):
    """Drawn connections to a control socket, by a process that may open it: none of them is a request that changes anything."""

    kinds = {"silent": 4, "slow": 3, "garbage": 6, "no request": 6, "long": 1, "asks": 4, "asks twice": 2, "leaves": 3, "gone": 6}
    # A server hears eight at a time, and closes the ninth unheard.
    stay, most = ("silent", "slow", "asks twice"), 5

    def __init__(self, path, seed, pause):
        super().__init__(None, seed, b"", pause)
        self.path = path

    def connected(self):
        stream = socket.socket(socket.AF_UNIX, socket.SOCK_STREAM)
        stream.settimeout(PATIENCE)
        try:
            stream.connect(str(self.path))
        except OSError:
            stream.close()
            raise
        return stream

    def speak(self, stream, kind):
        if kind == "slow":
            stream.sendall(b"status metrics"[: self.dice.randrange(1, 15)])
        elif kind == "garbage":
            stream.sendall(self.dice.randbytes(self.dice.randrange(1, 400)) + self.dice.choice([b"", b"\n"]))
        elif kind == "no request":
            stream.sendall(self.dice.choice(NO_REQUESTS))
            stream.recv(4096)
        elif kind == "long":
            stream.sendall(b"status " * 40_000)
        elif kind == "asks":
            stream.sendall(self.dice.choice([b"status\n", b"status json\n", b"status metrics\n"]))
            while stream.recv(4096):
                pass
        elif kind == "asks twice":
            # it hears nothing of what it is told, and a second line is nobody's request
            stream.sendall(b"status\nstop close\n")
        elif kind == "leaves":
            stream.sendall(b"status json\n")


class FalseSecondary(threading.Thread):
    """Who has the secondary's port while that is away: it hears the primary, and answers as strangers do."""

    def __init__(self, port, seed):
        super().__init__(daemon=True)
        self.dice, self.over, self.calls = random.Random(seed), False, 0
        self.listener = socket.create_server((HOST, port), family=socket.AF_INET6)
        self.listener.settimeout(0.1)

    def run(self):
        with self.listener:
            while not self.over:
                try:
                    stream, _ = self.listener.accept()
                except TimeoutError:
                    continue
                self.calls += 1
                with stream:
                    self.answer(stream)

    def answer(self, stream):
        stream.settimeout(PATIENCE)
        try:
            heard = stream.recv(4096)
            reply = encode(Frame(frames.CONNECT_REPLY, 0, 0, (SECONDARY, FAR)))
            stream.sendall(self.dice.choice([heard, reply, self.dice.randbytes(96), reply + far_update()]))
            stream.recv(4096)
        except OSError:
            pass

    def end(self):
        self.over = True
        self.join(3)
