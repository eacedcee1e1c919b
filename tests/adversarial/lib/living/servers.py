"""A server as a process: its directory and settings, how it is started, asked, ended, and its directory exchanged."""
import json
import re
import shutil
import signal
import subprocess
import time

HOST = "::1"
ROLES = {"A": ("primary", "00030001020000000009"), "B": ("secondary", "0003000102000000000a")}
OTHER = {"A": "B", "B": "A"}
SETTINGS = """role = "{role}"
duid = "{duid}"
skew_ms = {skew}
mclt = {mclt}
life = {life}
transit_ms = {transit}
listen = "[{host}]:{listen}"
{way}
workers = 1
heartbeat = 1
renew_floor = 0
units_per_port = 0
client_rate = 0
{more}[[pool]]
prefix = "{pool}"
unit = {unit}
"""
PAIRED = 'link = "[{host}]:{port}"\nlink_key = "link.key"'
ALONE = "alone = true"
# Leases that outlast the trial, of 64 units a server; and ones that end within it, of four, so that units are seized.
LONG = {"skew": 500, "mclt": 600, "life": 1200, "transit": 10_000, "pool": "2001:db8::/52", "unit": 59}
SHORT = {"skew": 100, "mclt": 2, "life": 4, "transit": 2_000, "pool": "2001:db8::/61", "unit": 64}
# What a server says once it knows its volume; the status of one that isn't started, and of a command that is refused.
STARTED = re.compile("node: (goes on with|begins) volume")
# What it says before that, where it has a partner and a key.
ASKS = "node: asks its partner's clock before it begins"
NOT_STARTED, REFUSED = 1, 1
# How long a server may take to start, to stop, or to be told, in seconds.
PATIENCE = 20
# What a directory has beside its volumes, and what of it no copy has.
GIVEN, NO_COPY = ("settings.toml", "link.key"), ("lock", "control")
# A status of a server that serves nobody, and why.
SERVING = re.compile(r"serving: (?:(yes)|no, (.+))\Z")


class Server:
    """One server of a pair, or one that is alone. `kind` has the terms of its leases, and what more is in its
    settings."""

    def __init__(self, node, folder, side, port, link, key, kind=None, is_alone=False):
        self.node, self.side, self.port, self.kind = node, side, port, kind or LONG
        # The secondary's port, and the key of both.
        self.link, self.key = link, key
        self.folder, self.beside = folder / side, folder
        self.role, self.duid = ROLES[side]
        self.process, self.starts, self.copies, self.begun = None, 0, 0, 0.0
        self.folder.mkdir(parents=True)
        self.settle(is_alone)

    def settle(self, is_alone=False):
        """Writes its settings and its key."""
        way = ALONE if is_alone else PAIRED.format(host=HOST, port=self.link)
        given = {"role": self.role, "duid": self.duid, "host": HOST, "listen": self.port, "way": way, "more": ""}
        (self.folder / "settings.toml").write_text(SETTINGS.format(**{**given, **self.kind}))
        path = self.folder / "link.key"
        path.touch(0o600)
        path.write_text(self.key + "\n")

    # Its process

    def start(self):
        """Starts it, and waits until it knows its volume, asks its partner's clock before that, or has ended."""
        self.starts += 1
        with open(self.notes(), "wb") as notes:
            words = [self.node, "serve", "--dir", self.folder]
            how = {"stdin": subprocess.DEVNULL, "stdout": subprocess.DEVNULL, "stderr": notes}
            self.process = subprocess.Popen(words, **how)
        self.begun = until = time.monotonic()
        while self.is_up() and not (self.has_begun() or ASKS in self.said()) and time.monotonic() < until + PATIENCE:
            time.sleep(0.05)

    def has_begun(self):
        """Whether it has said with which volume it goes on, since its start."""
        return STARTED.search(self.said()) is not None

    def is_up(self):
        return self.process is not None and self.process.poll() is None

    def age(self):
        """For how many seconds it has run."""
        return time.monotonic() - self.begun

    def kill(self):
        if self.is_up():
            self.process.send_signal(signal.SIGKILL)
            self.process.wait()

    def notes(self):
        return self.beside / f"notes-{self.side}-{self.starts}"

    def said(self):
        return self.notes().read_text(errors="replace")

    def told(self, *words):
        """Tells it something: the status and what was said. One that has just begun may not listen yet."""
        until = time.monotonic() + 3
        while True:
            command = [self.node, *words, "--dir", self.folder]
            done = subprocess.run(command, capture_output=True, stdin=subprocess.DEVNULL, text=True, check=False)
            if done.returncode != 2 or not self.is_up() or time.monotonic() > until:
                return done.returncode, (done.stdout + done.stderr).strip()
            time.sleep(0.1)

    def stop(self, *words):
        """Has it stop: what it said, and the status by which it ended; None where it goes on."""
        status, said = self.told("stop", *words)
        if status != 0:
            return said, None
        try:
            return said, self.process.wait(timeout=PATIENCE)
        except subprocess.TimeoutExpired:
            return said, None

    def status(self):
        """The lines of its status."""
        _, said = self.told("status")
        return said.splitlines() or [""]

    def value(self, key):
        """What its status says of a key."""
        return next((line[len(key) + 2:] for line in self.status() if line.startswith(f"{key}: ")), "nothing")

    def serving(self):
        """What the first line of its status says: "yes", or why it serves nobody. None where it says neither."""
        found = SERVING.match(self.status()[0])
        return found and (found[1] or found[2])

    def data(self):
        """Its status as an object."""
        try:
            return json.loads(self.told("status", "--json")[1])
        except ValueError:
            return {}

    # Its directory

    def volumes(self):
        return sorted(self.folder.glob(f"{self.side}-*.journal"))

    def text(self):
        """All of its volumes, as they are."""
        return "".join(path.read_text() for path in self.volumes())

    def events(self):
        """The words of each whole line of its volumes, without number and reading."""
        rows = [row.split(" ", 2) for row in self.text().splitlines(keepends=True) if row.endswith("\n")]
        return [row[2].rstrip("\n") for row in rows if len(row) == 3 and row[0].isdigit()]

    def last_sent(self):
        """The serial of the last message that it sent."""
        return max((int(event.split()[2]) for event in self.events() if event.startswith("send ")), default=0)

    def last_taken(self):
        """The serial of its partner's last message that it took."""
        return max((int(event.split()[2]) for event in self.events() if event.startswith("take ")), default=0)

    def octets(self):
        """What each file of its directory has, but for the lock and the socket."""
        return {path.name: path.read_bytes() for path in self.folder.iterdir() if path.name not in NO_COPY}

    def copied(self):
        """A copy of its directory as it is now."""
        self.copies += 1
        copy = self.beside / f"{self.side}-copy-{self.copies}"
        shutil.copytree(self.folder, copy, ignore=shutil.ignore_patterns(*NO_COPY))
        return copy

    def put_back(self, copy=None):
        """Another directory in the place of its own: a copy, or one that has no volumes."""
        assert not self.is_up()
        self.copies += 1
        away = self.folder.rename(self.beside / f"{self.side}-away-{self.copies}")
        if copy is not None:
            shutil.copytree(copy, self.folder)
            return
        self.folder.mkdir()
        for name in GIVEN:
            shutil.copy(away / name, self.folder / name)
