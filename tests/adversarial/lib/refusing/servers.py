"""A server one of whose calls is refused: its directory, how it is started, asked and ended, and the clients that ask it."""
import itertools
import json
import re
import signal
import socket
import subprocess
import time

from crashing.clients import Answer, Client, GivenBack, message_of, relayed
from crashing.daemons import ASKS, is_waiting
from server.messages import (
    ADVERTISE, IA_PD, IA_PREFIX, REBIND, RELAY_MESSAGE, RELEASE, REPLY, REQUEST, SOLICIT, STATUS_CODE, options,
)

HOST = "::1"
ROLES = {"A": ("primary", "00030001020000000009"), "B": ("secondary", "0003000102000000000a")}
KEY = "0123456789abcdef" * 4
SETTINGS = """role = "{role}"
duid = "{duid}"
skew_ms = 500
mclt = 600
life = 1200
transit_ms = {transit}
listen = "[{host}]:{listen}"
{link}
workers = 1
heartbeat = 3600
renew_floor = 0
units_per_port = 0
client_rate = 0
dns = ["2001:db8::53"]
search = ["example.net"]
information_refresh = 3600
[[pool]]
prefix = "2001:db8::/61"
unit = 64
"""
LINK = 'link = "[{host}]:{port}"\nlink_key = "link.key"'
# What a server says that serves nobody since its clock was set, and what a person says of that.
CLOCK_SET, CLOCK_IS_RIGHT = "node: serves nobody: its clock was set", "the clock is right"
STARTED = re.compile(f"node: (goes on with|begins) volume|{ASKS}|{CLOCK_SET}")
# Why it does nothing that wants a line, while its start waits for its clock.
NOT_BEGUN = "it asks its partner's clock and writes no line yet"
# The last line of a server that ends by itself: it says why.
REASON = re.compile(r"<3>node: \S.*\n\Z")
# What the program says where it has no memory before it serves.
NO_MEMORY = "fault Memory\n"
# How a server may end by itself: it isn't started, by another fault, or its disk failed.
NOT_STARTED, FAULT, DISK_FAILED = 1, 2, 3
# How long a client waits for an answer, and how often it asks, in seconds; and for how long a server may start, or stop.
PATIENCE, TRIES, LONGEST = 1.0, 6, 20
# The ports that stories may have, and how many each has for itself.
FIRST_PORT, LAST_PORT, PORTS = 12_000, 32_000, 16


class Ports:
    """Free ports of the loopback address for one story: no other that is lived meanwhile has them. One that was given comes again last."""

    def __init__(self, place):
        self.first = FIRST_PORT + place * PORTS % (LAST_PORT - FIRST_PORT)
        self.turns = itertools.cycle(range(self.first, self.first + PORTS))

    def free(self, kind):
        for port in itertools.islice(self.turns, PORTS):
            with socket.socket(socket.AF_INET6, kind) as probe:
                try:
                    probe.bind((HOST, port))
                    return port
                except OSError:
                    pass
        raise RuntimeError(f"no port of {PORTS} from {self.first} on is free")


class Server:
    """One server of a directory; `link` is the secondary's port, None for one that is alone."""

    def __init__(self, node, folder, side, port, link=None, transit=3000):
        self.node, self.side, self.port, self.folder = node, side, port, folder / side
        self.process, self.starts, self.is_alone = None, 0, link is None
        role, self.duid = ROLES[side]
        self.folder.mkdir(parents=True, exist_ok=True)
        way = "alone = true" if link is None else LINK.format(host=HOST, port=link)
        text = SETTINGS.format(role=role, duid=self.duid, host=HOST, listen=port, link=way, transit=transit)
        (self.folder / "settings.toml").write_text(text)
        key = self.folder / "link.key"
        key.touch(0o600)
        key.write_text(KEY + "\n")

    def notes(self):
        return self.folder.parent / f"notes-{self.side}-{self.starts}"

    def said(self):
        return self.notes().read_text(errors="replace")

    def start(self, environment=None):
        """Starts it, and waits until it serves or has ended: whether it serves."""
        self.starts += 1
        words = [self.node, "serve", "--dir", self.folder]
        with open(self.notes(), "wb") as notes:
            self.process = subprocess.Popen(words, stdin=subprocess.DEVNULL, stdout=subprocess.DEVNULL, stderr=notes, env=environment)
        until = time.monotonic() + LONGEST
        while self.process.poll() is None and not STARTED.search(self.said()) and time.monotonic() < until:
            # (of one that can't say it, its volume tells)
            if time.monotonic() > until - LONGEST + 2 and self.last_volume():
                break
            time.sleep(0.005)
        return self.is_up()

    def is_up(self):
        return self.process is not None and self.process.poll() is None

    def volumes(self):
        return sorted(self.folder.glob(f"{self.side}-*.journal"))

    def last_volume(self):
        return max(self.volumes(), default=None)

    def is_waiting(self):
        """Whether it serves nobody until its partner has answered, as once it has begun again; a first volume may too.
        Before there is one it may ask its partner's clock."""
        volume = self.last_volume()
        return not self.is_alone if volume is None else is_waiting(volume.read_text(errors="replace"))

    def told(self, *words):
        """Tells it something: the status, and what it said."""
        try:
            done = subprocess.run([self.node, *words, "--dir", self.folder], stdin=subprocess.DEVNULL, capture_output=True,
                                  timeout=40, text=True, check=False)
        except subprocess.TimeoutExpired:
            return None, f"{words} had no answer"
        return done.returncode, done.stdout + done.stderr

    def told_well(self, *words):
        """Tells it something until it is done: once more where the answer was lost."""
        for _ in range(TRIES):
            if not self.is_up():
                return None
            status, said = self.told(*words)
            if status == 0:
                return said
            time.sleep(0.05)
        return None

    def status(self):
        said = self.told_well("status", "--json")
        try:
            return json.loads(said) if said else None
        except ValueError:
            return None

    def stop(self, *words):
        """Has it stop: whether it has ended. One that has yet to begin closes no volume: it is told so much less."""
        until = time.monotonic() + LONGEST
        while self.is_up() and time.monotonic() < until:
            _, said = self.told("stop", *words)
            if NOT_BEGUN in said:
                self.told("stop")
            try:
                self.process.wait(timeout=2)
            except subprocess.TimeoutExpired:
                pass
        return not self.is_up()

    def accept_clock(self):
        """Where it goes by another clock than the one before, a person takes that for right."""
        if CLOCK_SET in self.said():
            self.told_well("clock-accepted", CLOCK_IS_RIGHT)

    def kill(self):
        if self.is_up():
            self.process.send_signal(signal.SIGKILL)
            self.process.wait()

    def wrong_end(self, refusal):
        """What is wrong with how it ended by itself, if it did."""
        status, said = self.process.returncode, self.said()
        if status == 0:
            return None
        if status not in (NOT_STARTED, FAULT, DISK_FAILED):
            return f"status {status}: {said[-300:]!r}"
        if refusal.is_harmless():
            return f"ended by status {status} though nothing failed: {said[-300:]!r}"
        tells = not (refusal.kind == "write" and refusal.target == "stderr")
        tells = tells and not (refusal.is_of_memory() and (status, said) == (FAULT, NO_MEMORY))
        if tells and not REASON.search(said):
            return f"ended by status {status} without a reason: {said[-300:]!r}"
        return None


class Talker:
    """Clients behind a relay that ask servers, one question at a time, again where no answer comes."""

    def __init__(self):
        self.socket = socket.socket(socket.AF_INET6, socket.SOCK_DGRAM)
        self.asked, self.lost = {}, 0
        # What clients were given, what they gave back, and by whom they were told so; as of tests/adversarial/crash.
        self.answers, self.given_back, self.releases = [], [], []

    def client(self, number):
        return Client(4 * number)

    def answer(self, server, kind, client, prefix=None, tries=TRIES):
        """What a server answers to a question: the kind of message and the prefix, or None where nothing comes. Each try is told."""
        for _ in range(tries):
            if not server.is_up():
                return None
            transaction = len(self.asked)
            sent = time.time_ns() / 1e6
            self.asked[transaction] = server, kind, client, prefix, sent
            named = None if kind in (SOLICIT, REBIND) else server.duid
            self.socket.sendto(relayed(message_of(kind, transaction, client, named, prefix)), (HOST, server.port))
            if kind == RELEASE:
                self.given_back.append(GivenBack(client.key(), prefix, sent))
            until = time.monotonic() + PATIENCE
            while (left := until - time.monotonic()) > 0:
                self.socket.settimeout(left)
                try:
                    octets = self.socket.recv(65536)
                except TimeoutError:
                    break
                except OSError:
                    time.sleep(0.02)
                    continue
                number, found = self.heard(octets)
                if number == transaction:
                    return found
            self.lost += 1
        return None

    def heard(self, octets):
        """Notes an answer, whenever it comes: to which question, and what it says."""
        came = time.time_ns() / 1e6
        inner = dict(options(octets, 34))[RELAY_MESSAGE]
        number = int.from_bytes(inner[1:4], "big")
        server, kind, client, prefix, sent = self.asked[number]
        association = dict(options(inner, 4)).get(IA_PD, b"")
        given = dict(options(association, 12)) if association else {}
        found = None
        if IA_PREFIX in given and STATUS_CODE not in given:
            content = given[IA_PREFIX]
            found = int.from_bytes(content[9:25], "big"), content[8]
            valid = int.from_bytes(content[4:8], "big")
            if inner[0] == REPLY and kind != RELEASE and valid:
                self.answers.append(Answer(server.side, kind, client.key(), found, valid, sent, came, True))
        if inner[0] == REPLY and kind == RELEASE and STATUS_CODE not in given:
            self.releases.append((server.side, GivenBack(client.key(), prefix, sent)))
        return number, (inner[0], found)

    def lease(self, server, client, tries=TRIES):
        """A client solicits and requests: the prefix, or None where it gets none."""
        offer = self.answer(server, SOLICIT, client, tries=tries)
        if offer is None or offer[0] != ADVERTISE or offer[1] is None:
            return None
        got = self.answer(server, REQUEST, client, offer[1])
        return got[1] if got and got[0] == REPLY else None

    def end(self):
        self.socket.close()
