"""A server of the pair as a process: its directory and settings, how it is started, ended and told what to do."""
import re
import resource
import signal
import socket
import subprocess
import time

HOST = "::1"
SKEW, TRANSIT, MCLT, LIFE = 500, 1000, 4, 8
# How long a server is stopped in the midst of what it does, at most, in seconds: less than what an own end allows for, so that an
# answer which is on its way then is no fault.
LONGEST_HOLD = 0.5
ROLES = {"A": ("primary", "00030001020000000009"), "B": ("secondary", "0003000102000000000a")}
SETTINGS = """role = "{role}"
duid = "{duid}"
skew_ms = {skew}
mclt = {mclt}
life = {life}
transit_ms = {transit}
listen = "[{host}]:{listen}"
link = "[{host}]:{link}"
link_key = "{key}"
workers = 1
heartbeat = 2
volume_lines = {volume_lines}
renew_floor = {floor}
units_per_port = 0
client_rate = 0
[[pool]]
prefix = "2001:db8::/49"
unit = 56
"""
# What a server says once it has started.
STARTED = re.compile("node: (goes on with|begins) volume")
# What it says before that where it has a partner and a key.
ASKS = "node: asks its partner's clock before it begins"
# The status of a server whose disk failed, and that of one which doesn't start.
DISK_FAILED, NOT_STARTED = 3, 1
# How long a server may take to stop, and both to serve once they have begun again, in seconds: the primary calls every ten.
PATIENCE = 25


def free_port(kind):
    with socket.socket(socket.AF_INET6, kind) as probe:
        probe.bind((HOST, 0))
        return probe.getsockname()[1]


def is_waiting(text):
    """Whether a server waits for its partner's answer, by its last volume as it is written."""
    number, waits = "0", False
    for row in text.splitlines():
        match row.split()[2:]:
            case ["base", _, _, number, waiting, _]:
                waits = waiting == "1"
            case ["restart", number]:
                waits = True
            case ["take", _, _, "contact", _, answer] if answer == number:
                waits = False
    return waits


def short_disk(octets):
    """What lets a program write so many octets to a file and then fails its writes, as a full disk does."""
    # A write past the limit fails then and sends no signal, as the signal is ignored here.
    return {"preexec_fn": lambda: resource.setrlimit(resource.RLIMIT_FSIZE, (octets, octets)), "restore_signals": False}


class Daemon:
    """One server; `faults` takes what it did that it mustn't. Its link has the key, if there is one; what a client has
    it tells again within `floor` seconds; `delays` sets its clock and slows its disk, if anything does."""

    def __init__(self, node, folder, side, link, volume_lines, faults, key=None, notes=None, floor=0, delays=None):
        self.node, self.folder, self.side, self.faults = node, folder / side, side, faults
        # Where its notes are kept, its directory if nothing is said; and whether its disk has no room or takes no writes.
        self.noted, self.is_short = notes or self.folder, False
        self.delays, self.environment = delays, delays and delays.environment
        self.port = free_port(socket.SOCK_DGRAM)
        self.process = self.wanted = self.begun = None
        self.starts, self.kills, self.stops, self.full = 0, 0, 0, 0
        # How long starts took until the server said with what it serves, in seconds; and from when to when it was held,
        # in milliseconds.
        self.waits, self.holds = [], []
        self.folder.mkdir(parents=True)
        if key is not None:
            (self.folder / "link.key").touch(0o600)
            (self.folder / "link.key").write_text(key + "\n")
        role, self.duid = ROLES[side]
        given = {"role": role, "duid": self.duid, "host": HOST, "listen": self.port, "link": link, "volume_lines": volume_lines}
        given |= {"key": "none" if key is None else "link.key", "floor": floor}
        settings = SETTINGS.format(skew=SKEW, mclt=MCLT, life=LIFE, transit=TRANSIT, **given)
        (self.folder / "settings.toml").write_text(settings)

    def notes(self):
        return self.noted / (f"notes-{self.starts}" if self.noted == self.folder else f"notes-{self.side}-{self.starts}")

    def said(self):
        return self.notes().read_text(errors="replace")

    def has_started(self):
        return STARTED.search(self.said()) is not None

    def is_heard(self):
        """Whether it has started, or asks its partner's clock before that."""
        return self.has_started() or ASKS in self.said()

    def last_volume(self):
        """The file of the last volume, None before there is one."""
        return max(self.folder.glob(f"{self.side}-*.journal"), default=None)

    def is_waiting(self):
        """Whether it serves nobody until its partner has answered, as once it has begun again; a first volume may too."""
        return is_waiting(self.last_volume().read_text(errors="replace"))

    def start(self, room=None):
        """Starts it; with `room` its disk is full once its last volume has grown by so many octets."""
        assert not self.is_up()
        self.starts += 1
        how = {}
        if room is not None:
            volume = self.last_volume()
            how = short_disk((volume.stat().st_size if volume else 0) + room)
        self.wanted = {DISK_FAILED, NOT_STARTED} if room is not None or self.is_short else set()
        with open(self.notes(), "wb") as notes:
            words = [self.node, "serve", "--dir", self.folder]
            how |= {"stdin": subprocess.DEVNULL, "stdout": subprocess.DEVNULL, "stderr": notes}
            self.process = subprocess.Popen(words, env=self.environment, **how)
        self.begun = time.monotonic()

    def is_up(self):
        return self.process is not None and self.process.poll() is None

    def shorten(self, is_short):
        """Its disk takes no writes from now on, or does again."""
        self.is_short = is_short
        if is_short:
            self.wanted |= {DISK_FAILED, NOT_STARTED}

    def look(self):
        """Notes how long its start took, and whether it has ended as it may."""
        if self.begun is not None and self.has_started():
            self.waits.append(time.monotonic() - self.begun)
            self.begun = None
        if self.process is not None and self.process.poll() is not None:
            self.ended(self.process.returncode)

    def ended(self, status):
        """Judges how it has ended."""
        self.process, self.begun = None, None
        if status not in self.wanted or (status == NOT_STARTED and self.has_started()):
            self.faults.append(f"{self.side} ended by itself, status {status}, in start {self.starts}: {self.said()!r}")
        self.full += status in (DISK_FAILED, NOT_STARTED)

    def kill(self):
        if self.is_up():
            self.kills += 1
            self.wanted.add(-signal.SIGKILL)
            self.process.kill()
            self.process.wait()
            self.look()

    def hold(self, seconds):
        """Stops it in the midst of what it does, and lets it go on."""
        if self.is_up():
            begun = time.time() * 1000
            self.process.send_signal(signal.SIGSTOP)
            time.sleep(seconds)
            self.process.send_signal(signal.SIGCONT)
            self.holds.append((begun, time.time() * 1000))

    def held(self, first, last):
        """For how long it was held between two moments, in milliseconds."""
        return sum(max(0, min(end, last) - max(begun, first)) for begun, end in self.holds)

    def told(self, *words):
        """Tells it something, and gives the process that does, so that nobody waits for it."""
        return subprocess.Popen([self.node, *words, "--dir", self.folder], stdin=subprocess.DEVNULL, stdout=subprocess.PIPE,
                                stderr=subprocess.PIPE, text=True)

    def stop(self, *words):
        """Has it stop, and waits for its end. One that has just been started doesn't listen yet, and is told again."""
        if not self.is_up():
            return
        self.stops += 1
        self.wanted.add(0)
        said, until = None, time.monotonic() + PATIENCE
        while self.process.poll() is None and time.monotonic() < until:
            teller = self.told("stop", *words)
            try:
                said = teller.communicate(timeout=PATIENCE)
                self.process.wait(timeout=5 if teller.returncode == 0 else 0.1)
            except subprocess.TimeoutExpired:
                teller.kill()
        if self.process.poll() is None:
            self.faults.append(f"{self.side} doesn't stop: {said}; its notes: {self.said()[-300:]!r}")
            self.kill()
        self.look()

    def tear(self, dice):
        """Leaves a piece of a line behind a killed server's last one, as a loss of power may."""
        volume = self.last_volume()
        if self.is_up() or volume is None:
            return False
        text = volume.read_bytes()
        lines = text.splitlines()
        if not text.endswith(b"\n") or len(lines) < 2 or lines[-1].startswith(b"end "):
            return False
        number = len(lines)
        line = b"%d %s" % (number, lines[-1].split(b" ", 1)[1])
        with open(volume, "ab") as file:
            file.write(line[: dice.randrange(1, len(line))])
        return True

    def end(self):
        """Leaves nothing of it behind."""
        if self.is_up():
            self.process.send_signal(signal.SIGCONT)
            self.process.kill()
            self.process.wait()
