"""Two servers as processes whose clocks read what the driver says, and the way to each."""
import ctypes
import os
import pathlib
import signal
import socket
import subprocess
import time

HERE = pathlib.Path(__file__).resolve().parent.parent
HOST = "::1"
SIDES = {0: "A", 1: "B"}
DUIDS = ("00030001020000000009", "0003000102000000000a")
STANDS, SILENT, BROKEN = 0, 1, 2
SETTINGS = """role = "{role}"
duid = "{duid}"
skew_ms = {skew}
mclt = {mclt}
life = {life}
transit_ms = {transit}
listen = "[{host}]:{listen}"
link = "[{host}]:{link}"
link_key = "link.key"
workers = 1
heartbeat = {heartbeat}
volume_hours = {volume_hours}
volume_lines = {volume_lines}
[[pool]]
prefix = "{pool}"
unit = {unit}
"""
# How long a turn of the servers may last, in microseconds, before the driver holds that one hangs.
PATIENCE = 120_000_000


def free_port(kind):
    with socket.socket(socket.AF_INET6, kind) as probe:
        probe.bind((HOST, 0))
        return probe.getsockname()[1]


def compiled(folder):
    """Compiles the shim and the driver's part; gives their paths."""
    made = []
    for name in ("shim", "driver"):
        path = folder / f"{name}.so"
        subprocess.run(["cc", "-O2", "-shared", "-fPIC", "-o", path, HERE / f"{name}.c", "-ldl"], check=True)
        made.append(path)
    return made


class Server:
    """One server: its directory, its process, and the clients' socket to it."""

    def __init__(self, folder, node, side, settings):
        self.side, self.node, self.name = side, node, SIDES[side]
        self.folder = folder / self.name
        self.folder.mkdir(parents=True)
        self.duid = bytes.fromhex(DUIDS[side])
        self.port = settings["ports"][side]
        key = self.folder / "link.key"
        key.touch(0o600)
        key.write_text("5a" * 32 + "\n")
        text = SETTINGS.format(role=("primary", "secondary")[side], duid=DUIDS[side], host=HOST, listen=self.port, **settings)
        (self.folder / "settings.toml").write_text(text)
        self.process, self.starts, self.notes = None, 0, self.folder / "notes"
        self.socket = socket.socket(socket.AF_INET6, socket.SOCK_DGRAM)
        self.socket.setsockopt(socket.SOL_SOCKET, socket.SO_RCVBUF, 1 << 22)
        self.socket.bind((HOST, 0))
        self.socket.connect((HOST, self.port))
        self.socket.setblocking(False)

    def is_up(self):
        return self.process is not None and self.process.poll() is None

    def last_volume(self):
        return max(self.folder.glob(f"{self.name}-*.journal"), default=None)

    def said(self):
        return self.notes.read_text(errors="replace")

    def told(self, *words):
        """Tells it something by the node's own command; the clocks of that are the system's."""
        done = subprocess.run([self.node, *words, "--dir", self.folder], capture_output=True, text=True, timeout=60, check=False)
        return done.returncode, (done.stdout + done.stderr).strip()

    def answers(self):
        """The datagrams that have come from it."""
        while True:
            try:
                yield self.socket.recv(4096)
            except BlockingIOError:
                return
            except ConnectionError:
                continue


class Pair:
    """Both servers, and time, in milliseconds of true time since 1970."""

    def __init__(self, folder, node, settings, begins):
        self.folder, self.now = folder, begins
        shim, driver = compiled(folder)
        self.lib = ctypes.CDLL(str(driver))
        self.lib.set_clock.argtypes = [ctypes.c_int, ctypes.c_int64, ctypes.c_int64]
        self.lib.settle.argtypes = [ctypes.c_uint, ctypes.c_int64]
        self.lib.turns.restype = self.lib.syncs.restype = ctypes.c_uint64
        self.ticks = [os.eventfd(0, os.EFD_NONBLOCK) for _ in SIDES]
        path = folder / "shared"
        path.write_bytes(bytes(4096))
        assert self.lib.begin(str(path).encode(), *self.ticks) == 0
        settings["ports"] = [free_port(socket.SOCK_DGRAM) for _ in SIDES]
        settings["link"] = free_port(socket.SOCK_STREAM)
        self.servers = [Server(folder, node, side, settings) for side in SIDES]
        words = {"LD_PRELOAD": str(shim), "YEAR_SHARED": str(path), "YEAR_TICKS": ",".join(map(str, self.ticks)), "YEAR_UNSYNCED": "1"}
        self.environment = {**os.environ, **words}
        # How far each server's clock is from true time, in milliseconds.
        self.offsets = [0, 0]
        self.given = [0, 0]
        self.begins = begins
        self.faults = []
        self.waited = 0.0
        self.set_clocks(begins)

    def set_clocks(self, now):
        self.now = now
        monotonic = int((now - self.begins + 1_000_000) * 1_000_000)
        for side in SIDES:
            self.lib.set_clock(side, int((now + self.offsets[side]) * 1_000_000), monotonic)

    def up(self):
        return sum(1 << server.side for server in self.servers if server.process is not None)

    def start(self, side):
        server = self.servers[side]
        server.starts += 1
        self.lib.forget(side)
        with open(server.notes, "ab") as notes:
            notes.write(f"-- start {server.starts} at {self.now}\n".encode())
            notes.flush()
            server.process = subprocess.Popen([server.node, "serve", "--dir", server.folder], stdin=subprocess.DEVNULL,
                                              stdout=subprocess.DEVNULL, stderr=notes, pass_fds=self.ticks,
                                              env={**self.environment, "YEAR_SIDE": str(side)})
        begun = time.monotonic()
        self.settle()
        return time.monotonic() - begun

    def kill(self, side):
        server = self.servers[side]
        server.process.send_signal(signal.SIGKILL)
        server.process.wait()
        server.process = None

    def stop(self, side, *words):
        """Has it stop by the node's command, time standing still but for its last rests."""
        server = self.servers[side]
        teller = subprocess.Popen([server.node, "stop", *words, "--dir", server.folder], stdout=subprocess.DEVNULL)
        until = time.monotonic() + 60
        while server.process.poll() is None and time.monotonic() < until:
            self.set_clocks(self.now + 50)
            self.lib.tick(side)
            time.sleep(0.002)
        if server.process.poll() is None:
            self.faults.append(f"{self.now} {server.name} doesn't stop")
            server.process.kill()
        teller.wait()
        if server.process.wait() != 0:
            self.faults.append(f"{self.now} {server.name} stopped with status {server.process.returncode}")
        server.process = None

    def set_link(self, how):
        self.lib.set_link(how)
        self.tick()

    def tick(self):
        for server in self.servers:
            if server.process is not None:
                self.lib.tick(server.side)

    def send(self, side, octets):
        try:
            self.servers[side].socket.send(octets)
        except ConnectionError:
            # what a server that was down made of an earlier one
            self.servers[side].socket.send(octets)
        self.given[side] += 1

    def settle(self):
        """Waits until nothing is under way. Where a server has ended by itself, that is a fault."""
        lib, given = self.lib, self.given
        for side in SIDES:
            if given[side]:
                lib.give(side, given[side])
                given[side] = 0
        begun = time.perf_counter()
        mask = self.up()
        for _ in range(PATIENCE // 1_000_000):
            if not mask or lib.settle(mask, 1_000_000) == 0:
                break
            self.look()
            mask = self.up()
        else:
            self.faults.append(f"{self.now} a turn doesn't end")
        self.waited += time.perf_counter() - begun

    def look(self):
        """Notes a server that has ended by itself."""
        for server in self.servers:
            if server.process is not None and server.process.poll() is not None:
                self.faults.append(f"{self.now} {server.name} ended by itself, status {server.process.returncode}: {server.said()[-600:]!r}")
                server.process = None

    def step(self, now):
        """Time goes on to `now`, and both servers have a turn."""
        self.set_clocks(now)
        self.tick()
        self.settle()

    def end(self):
        for server in self.servers:
            if server.process is not None:
                server.process.kill()
                server.process.wait()
                server.process = None
            server.socket.close()
