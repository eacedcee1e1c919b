"""A play's stage: a pair between whose servers there is a way that can be cut, and that takes as long as it is told."""
import collections
import contextlib
import select
import socket
import threading
import time

from living.servers import HOST
from operating.stage import Play as Operated

# How long a thread looks away, in seconds.
LOOK = 0.01


class Way(threading.Thread):
    """It joins the primary to the secondary's port. Each piece takes `delay` seconds, to either side; while it is cut
    nobody gets through."""

    def __init__(self, port):
        super().__init__(daemon=True)
        self.port, self.delay, self.is_cut, self.is_over = port, 0.0, False, False
        self.listener = socket.create_server((HOST, 0), family=socket.AF_INET6)
        self.listener.settimeout(0.1)

    def address(self):
        return self.listener.getsockname()[1]

    def run(self):
        with self.listener:
            while not self.is_over:
                try:
                    near, _ = self.listener.accept()
                except TimeoutError:
                    continue
                # (a connection that breaks is the primary's to begin again)
                with near, contextlib.suppress(OSError):
                    self.join_to(near)

    def join_to(self, near):
        if self.is_cut:
            return
        with socket.create_connection((HOST, self.port), 5) as far:
            for stream in (near, far):
                stream.setsockopt(socket.IPPROTO_TCP, socket.TCP_NODELAY, 1)
            self.carry({near: far, far: near})

    def carry(self, ends):
        under_way = collections.deque()
        while not (self.is_over or self.is_cut):
            left = under_way[0][0] - time.monotonic() if under_way else LOOK
            ready, _, _ = select.select(list(ends), [], [], max(0.0, min(left, LOOK)))
            for stream in ready:
                octets = stream.recv(65536)
                if not octets:
                    return
                under_way.append((time.monotonic() + self.delay, ends[stream], octets))
            while under_way and under_way[0][0] <= time.monotonic():
                _, stream, octets = under_way.popleft()
                stream.sendall(octets)

    def end(self):
        self.is_over = True
        self.join(10)


class Play(Operated):
    """One play. `one` is the server that it is about, `other` its partner."""

    def __init__(self, *words, **how):
        super().__init__(*words, **how)
        primary = self.sides["A"]
        self.way = Way(primary.link)
        self.way.start()
        primary.link = self.way.address()
        primary.settle()

    def lifetime(self, client):
        """For how many seconds a client was given what it was told of last."""
        mine = client.duid.hex()
        return next((round(grant.end - grant.begin) for grant in reversed(self.customers.grants)
                     if grant.client == mine), 0)

    def joined(self, what):
        """Both are connected, and serve."""
        for server in (self.one, self.other):
            self.until(f"{what}: {server.side} is connected",
                       lambda each=server: each.value("link").startswith("connected"))
            self.until(f"{what}: {server.side} serves", lambda each=server: each.serving() == "yes")

    def due(self):
        """How many changes are due at each."""
        return {side: server.value("due") for side, server in self.sides.items()}

    def at_rest(self, what, renew=lambda: None):
        """No change of any unit is due at either any more, though clients renew again and again."""
        for _ in range(10):
            renew()
            if self.has_no_due(2):
                return
        self.see(False, f"{what}: changes of {self.due()} units are due for good")

    def has_no_due(self, seconds):
        """Waits until no change is due at either: whether that is so within this time."""
        until = time.monotonic() + seconds
        while set(self.due().values()) != {"0"}:
            if time.monotonic() > until:
                return False
            time.sleep(0.1)
        return True

    def end(self):
        super().end()
        self.way.end()
