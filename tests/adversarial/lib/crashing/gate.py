"""The way between the servers as a gate: of each connection it lets so many frames through, either way, and notes which it holds."""
import collections
import select
import socket
import threading

from .daemons import HOST

# The kinds of frames that are named here (docs/FORMATS.md).
UPDATE, REPLY, CONNECT_REPLY = 1, 2, 9
# A frame's length field, and where its kind stands.
LENGTH, KIND = 4, 4


def whole_frames(octets):
    """Takes the whole frames off the front of what has come."""
    while len(octets) >= LENGTH and len(octets) >= (size := LENGTH + int.from_bytes(octets[:LENGTH], "big")):
        yield bytes(octets[:size])
        del octets[:size]


class Gate(threading.Thread):
    def __init__(self, port):
        super().__init__(daemon=True)
        self.port, self.over, self.is_cut, self.count = port, False, False, 0
        # How many frames of A and of B the next connections let through, None for all; of the last connection which were held, and passed.
        self.plans = collections.deque()
        self.held, self.passed = collections.Counter(), collections.Counter()
        self.listener = socket.create_server((HOST, 0), family=socket.AF_INET6)
        self.listener.settimeout(0.1)

    def address(self):
        return self.listener.getsockname()[1]

    def run(self):
        with self.listener:
            while not self.over:
                try:
                    near, _ = self.listener.accept()
                except TimeoutError:
                    continue
                with near:
                    try:
                        with socket.create_connection((HOST, self.port)) as far:
                            self.join_to(near, far)
                    except OSError:
                        pass

    def join_to(self, near, far):
        """Carries frames until either end is gone, or they are cut apart."""
        plan = self.plans.popleft() if self.plans else {}
        left = {side: plan.get(side) for side in "AB"}
        self.held.clear()
        self.passed.clear()
        self.is_cut, self.count = False, self.count + 1
        come = {"A": bytearray(), "B": bytearray()}
        while not (self.over or self.is_cut):
            ready, _, _ = select.select([near, far], [], [], 0.02)
            for stream in ready:
                side, other = ("A", far) if stream is near else ("B", near)
                octets = stream.recv(65536)
                if not octets:
                    return
                come[side] += octets
                for frame in whole_frames(come[side]):
                    self.carry(side, frame, other, left)

    def carry(self, side, frame, other, left):
        if left[side] == 0:
            self.held[side, frame[KIND]] += 1
            return
        if left[side] is not None:
            left[side] -= 1
        other.sendall(frame)
        self.passed[side, frame[KIND]] += 1

    def cut(self, *plans):
        """Ends the connection; the next ones go by these plans."""
        self.plans.extend(plans)
        self.is_cut = True

    def end(self):
        self.over = True
        self.join(10)
