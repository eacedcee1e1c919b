"""The way between the servers: it joins the primary to the secondary, and cuts them apart, holds what comes or turns the primary away."""
import random
import select
import socket
import struct
import threading
import time

from .daemons import HOST

# What becomes of a connection, and how often.
FATES = {"stand": 6, "close": 2, "reset": 2, "hold": 4}


class Link(threading.Thread):
    def __init__(self, seed, port):
        super().__init__(daemon=True)
        # What becomes of connections is drawn apart from the pieces in which they come.
        self.dice, self.pieces, self.port = random.Random(seed), random.Random(seed), port
        self.joins, self.cuts, self.holds = 0, 0, 0
        # Without trouble each connection stands; behind its end the thread ends.
        self.trouble, self.over = True, False
        self.listener = socket.create_server((HOST, 0), family=socket.AF_INET6)
        self.listener.settimeout(0.1)

    def address(self):
        return self.listener.getsockname()[1]

    def run(self):
        with self.listener:
            while not self.over:
                try:
                    near, _ = self.listener.accept()
                except TimeoutError:
                    continue
                with near:
                    self.join_to(near)

    def join_to(self, near):
        """Carries what the primary and the secondary say, until either is gone or they are cut apart."""
        far = self.reached()
        if far is None:
            return
        with far:
            self.joins += 1
            try:
                self.carry(near, far)
            except OSError:
                pass

    def reached(self):
        """A connection to the secondary, once it listens; now and then the primary isn't let wait for that: None."""
        until = time.monotonic() + (self.dice.choice([0, 1, 9]) if self.trouble else 9)
        while not self.over:
            try:
                return socket.create_connection((HOST, self.port))
            except OSError:
                if time.monotonic() > until:
                    return None
                time.sleep(0.02)
        return None

    def carry(self, near, far):
        for end in (near, far):
            end.setsockopt(socket.IPPROTO_TCP, socket.TCP_NODELAY, 1)
        fate = self.dice.choices(list(FATES), FATES.values())[0]
        moment = time.monotonic() + self.dice.uniform(0.05, 3)
        while not self.over:
            if self.trouble and fate != "stand" and time.monotonic() > moment:
                if fate != "hold":
                    self.cut(fate, near, far)
                    return
                self.holds += 1
                time.sleep(self.dice.uniform(0.2, 2.5))
                fate, moment = self.dice.choice([("stand", 0), ("close", 0), ("hold", time.monotonic() + 3)])
            ready, _, _ = select.select([near, far], [], [], 0.02)
            for stream in ready:
                octets = stream.recv(self.pieces.choice([1, 7, 100, 65536, 65536]))
                if not octets:
                    return
                (far if stream is near else near).sendall(octets)

    def cut(self, fate, near, far):
        """Ends both connections; what they hold is lost."""
        self.cuts += 1
        if fate == "reset":
            for end in (near, far):
                end.setsockopt(socket.SOL_SOCKET, socket.SO_LINGER, struct.pack("ii", 1, 0))

    def end(self):
        self.over = True
        self.join(10)
