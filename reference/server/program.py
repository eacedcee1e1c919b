"""The node program as a child: its settings, its sockets, its journal.

`run` serves so many datagrams, `serve` until it is stopped.
"""

import ipaddress
import pathlib
import socket
import subprocess
import tempfile
import time

from . import journal
from .limits import UNLIMITED
from .manner import settings_rows
from .values import prefix_text

PATIENCE = 20
# Within half of this transit, which is the server's, we have given up an answer ourselves.
LEAST_TRANSIT = 2000 * PATIENCE
# Where volumes have no transit an answer leaves within so many seconds or not at all.
WITHOUT_TRANSIT = 1
WARNING = ("<4>node: its volumes have no transit: an answer is assumed to reach its client at once. "
           "It can be set only in a new directory.")
LATE = "sent no answer: its line was on the disk too late"
# What a volume has before anything happens.
HEAD = ("open", "pool", "transit")
# No line of `serve` comes of itself.
NO_HEARTBEAT = 31_536_000


class Difference(Exception):
    """The program and this implementation disagree."""


def free_port(host, kind=socket.SOCK_DGRAM):
    with socket.socket(family_of(host), kind) as probe:
        probe.bind((host, 0))
        return probe.getsockname()[1]


def family_of(host):
    return socket.AF_INET6 if ":" in host else socket.AF_INET


def address_text(host, port):
    return f"[{host}]:{port}" if ":" in host else f"{host}:{port}"


def pool_text(prefix):
    address, length = prefix
    return f"{ipaddress.IPv6Address(address)}/{length}"


def settings_text(settings, listen, link=None, workers=1):
    """The settings as the program reads them."""
    rows = [f'role = "{"primary" if settings.role == "A" else "secondary"}"', f'duid = "{settings.own.hex()}"',
            f"skew_ms = {settings.skew}", f"mclt = {settings.mclt}", f"life = {settings.life}",
            f'listen = "{listen}"', f"workers = {workers}"]
    if settings.transit != 0:
        rows.append(f"transit_ms = {settings.transit}")
    if link is not None:
        rows.append(f'link = "{link}"')
    for prefix, length in settings.pools:
        rows += ["[[pool]]", f'prefix = "{pool_text(prefix)}"', f"unit = {length}"]
    return "".join(row + "\n" for row in rows)


def now():
    return time.time_ns() // 1_000_000


class Program:
    """One run of the program; the program's own words tell when it listens."""

    listens = "listens for clients and relays"

    def __init__(self, words, settings, host, text=""):
        self.settings = settings
        self.output = tempfile.TemporaryFile()
        self.errors = tempfile.NamedTemporaryFile()
        source = tempfile.TemporaryFile()
        source.write(text.encode())
        source.seek(0)
        self.began = now()
        self.process = subprocess.Popen(words, stdin=source, stdout=self.output, stderr=self.errors)
        self.socket = socket.socket(family_of(host), socket.SOCK_DGRAM)
        self.socket.setsockopt(socket.SOL_SOCKET, socket.SO_RCVBUF, 1 << 20)
        self.socket.bind((host, 0))
        self.socket.settimeout(PATIENCE)
        self.asked, self.is_heard = time.monotonic(), True

    def __enter__(self):
        self.wait_for(self.listens)
        self.socket.connect(self.address)
        return self

    def __exit__(self, *_):
        if self.process.poll() is None:
            self.process.kill()
        self.process.wait()
        self.socket.close()

    def said(self):
        with open(self.errors.name, encoding="utf-8") as text:
            return text.read()

    def wait_for(self, words):
        """Waits until the program says the words."""
        for _ in range(PATIENCE * 100):
            if words in self.said():
                return
            if self.process.poll() is not None:
                break
            time.sleep(0.01)
        raise Difference(f"the program doesn't say {words!r} but {self.said()!r}")

    def send(self, octets):
        if self.is_heard:
            self.asked, self.is_heard = time.monotonic(), False
        self.socket.send(octets)

    def receive(self):
        self.is_heard = True
        try:
            return self.socket.recv(1 << 16)
        except TimeoutError:
            return None

    def silent(self):
        """Whether no answer waits that nobody asked for."""
        self.socket.setblocking(False)
        try:
            octets = self.socket.recv(1 << 16)
        except BlockingIOError:
            return True
        except OSError:
            return True
        raise Difference(f"an answer that wasn't awaited: {octets.hex()}")

    def wait_for_end(self):
        """Waits until the program has ended by itself."""
        try:
            status = self.process.wait(PATIENCE)
        except subprocess.TimeoutExpired as late:
            raise Difference(f"the program doesn't end; it said {self.said()!r}") from late
        if status != 0:
            raise Difference(f"status {status}, and {self.said()!r}")


class Node(Program):
    """`run`, which prints its journal behind the last of its datagrams."""

    def __init__(self, program, settings, count, host="127.0.0.1", link=None, partner_down=False):
        self.count = count
        self.address = (host, free_port(host))
        self.text = settings_text(settings, address_text(*self.address), link)
        words = [program, "run", "--count", str(count)] + (["--partner-down"] if partner_down else [])
        super().__init__(words, settings, host, self.text)

    def journal(self):
        """The printed journal, once the program has ended by itself."""
        self.wait_for_end()
        self.output.seek(0)
        return self.output.read().decode()


def serve_settings_text(settings, listen, rows, limits=UNLIMITED, heartbeat=NO_HEARTBEAT):
    """The settings as `serve` reads them; `rows` are those beside prefixes and of the link."""
    told = (f"heartbeat = {heartbeat}", *limits.rows(), *rows)
    return "".join(row + "\n" for row in told) + settings_text(settings, listen)


class Daemon(Program):
    """`serve` in a directory of its own: it is alone, or names a partner, which doesn't listen but where `link` is its
    end.

    With the lines of a past it goes on with these; where they are a head alone, it begins in their place. Without a
    transit it needs some, and is warned at each start; a life of it in which an answer was too late for that is given
    up.
    """

    def __init__(self, program, settings, manner, host="127.0.0.1", has_link=False, past=(), limits=UNLIMITED,
                 records="", link=None, heartbeat=NO_HEARTBEAT):
        self.program = program
        self.settings = settings
        self.past = past
        self.is_given_up = False
        self.has_link = has_link
        self.link = link
        self.goes_on = any(line.event[0] not in HEAD for line in past)
        self.listens = "goes on with volume 1" if self.goes_on else "begins volume 1"
        self.folder = tempfile.TemporaryDirectory()
        self.address = (host, free_port(host))
        other = link.address if link else (host, free_port(host, socket.SOCK_STREAM))
        named = ["alone = true"]
        if has_link:
            named = [f'link = "{address_text(*other)}"', f'link_key = "{self.key_name()}"']
        rows = settings_rows(manner, "silent" if has_link else "no-binding") + named
        self.text = serve_settings_text(settings, address_text(*self.address), rows, limits, heartbeat)
        (pathlib.Path(self.folder.name) / "settings.toml").write_text(self.text)
        self.number = 0
        self.follow()
        if past:
            self.volume.write_text(journal.write_open(settings.role, past))
        self.past_records = records.split("\n")[:-1]
        if records:
            self.records.write_text(records)
        self.words = [program, "serve", "--dir", self.folder.name]
        super().__init__(self.words, settings, host)

    def key_name(self):
        """How the settings name the link's key, which is written beside them where there is one."""
        if self.link is None or self.link.key is None:
            return "none"
        path = pathlib.Path(self.folder.name) / "link.key"
        path.touch(0o600)
        path.write_text(self.link.key.hex() + "\n")
        return path.name

    def __enter__(self):
        if self.link is not None:
            self.link.vouch(self)
        return super().__enter__()

    def begin_again(self, *words):
        """Stops it by these words, and starts it once more: with its volume open it goes on with that."""
        self.stop(*words)
        self.leave()
        self.errors = tempfile.NamedTemporaryFile()
        self.process = subprocess.Popen(self.words, stdin=subprocess.DEVNULL, stdout=self.output, stderr=self.errors)
        if self.link is not None:
            self.link.vouch(self)
        self.wait_for(f"begins volume {self.number + 1}" if words else f"goes on with volume {self.number}")

    def __exit__(self, kind, fault, trace):
        self.is_given_up = isinstance(fault, Difference) and self.was_late()
        super().__exit__(kind, fault, trace)
        self.folder.cleanup()
        return self.is_given_up

    def was_late(self):
        """Whether it says that an answer came too late for a server without a transit, and so it may have been."""
        if self.settings.transit != 0 or time.monotonic() - self.asked < WITHOUT_TRANSIT:
            return False
        # It may say so a moment later.
        time.sleep(1)
        return LATE in self.said()

    def count(self, tally, lives):
        """Counts a life that is over."""
        tally[lives + (", given up: the disk was too slow" if self.is_given_up else "")] += 1
        tally["lives without a transit"] += self.settings.transit == 0

    def leave(self):
        """The partner ends the connection, if there is one."""
        if self.link is not None:
            self.link.leave()

    def follow(self):
        """Takes the next volume for the one that is written."""
        self.number += 1
        self.volume = pathlib.Path(self.folder.name) / f"{self.settings.role}-{self.number:07}.journal"
        self.records = self.volume.with_suffix(".access")

    def control(self, *words):
        """What the program says that tells or asks the daemon something by its control socket."""
        return subprocess.run([self.program, *words, "--dir", self.folder.name], capture_output=True, text=True,
                              check=False)

    def told(self, *words):
        """Tells the daemon something that it doesn't refuse; the text of its answer."""
        said = self.control(*words)
        if said.returncode != 0:
            raise Difference(f"{words}: status {said.returncode}, {said.stdout}{said.stderr}")
        return said.stdout

    def stop(self, *words):
        """Stops it; since its start it has warned that it has no transit, or has one."""
        self.leave()
        self.told("stop", *words)
        self.wait_for_end()
        count = self.said().splitlines().count(WARNING)
        if count != (self.settings.transit == 0):
            raise Difference(f"transit {self.settings.transit}, and {count} warnings that there is none")

    def journal(self):
        """The closed journal of a server that is told to stop."""
        self.stop("--close")
        return self.volume.read_text()


def settings_line(settings):
    """The settings in one line, for a report."""
    pools = ", ".join(f"{prefix_text(prefix)} in /{length}" for prefix, length in settings.pools)
    return (f"{settings.role} own {settings.own.hex()} skew {settings.skew} mclt {settings.mclt} "
            f"life {settings.life} transit {settings.transit} pools {pools}")
