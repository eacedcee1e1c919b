"""A server whose clocks a preloaded library shifts, of a program and of settings of its own, asked at its socket."""
import json
import os
import socket
import subprocess
import time

from living.servers import ALONE, HOST, PAIRED, PATIENCE
from living.servers import Server as Living

HOUR = 3600
# What a clock is set by, in seconds: less than the skew; and more than that, but less than twice as much.
LESS, LITTLE = 0.9, 1.5
SKEW = 1000
POOL = ("2001:db8::/52", 59)
# Leases that end within an hour, so that who takes a wrong clock for right gives them to others; and ones that don't.
ENDS = {"skew": SKEW, "mclt": 600, "life": 1200, "transit": 10_000, "pools": [POOL]}
OUTLASTS = {**ENDS, "mclt": 14_400, "life": 28_800}
# A directory's record of the clock, and how long its first word is.
RECORD, BOOT = "clock", 36
SETTINGS = """role = "{role}"
duid = "{duid}"
skew_ms = {skew}
mclt = {mclt}
life = {life}
transit_ms = {transit}
listen = "[{host}]:{listen}"
{way}
workers = 1
heartbeat = 1
renew_floor = 0
units_per_port = 0
client_rate = 0
{pools}"""
POOL_ROWS = '[[pool]]\nprefix = "{}"\nunit = {}\n'
# The requests that are said at the socket itself, which is quicker than the program.
ASKED = {("status",): "status", ("status", "--json"): "status json", ("status", "--metrics"): "status metrics"}


class Server(Living):
    """One server; `kind` has its terms and pools. Its clocks are shifted by `delays`."""

    def __init__(self, node, delays, *words, **how):
        self.delays = delays
        super().__init__(node, *words, **how)

    def settle(self, is_alone=False):
        """Writes its settings and its key."""
        way = ALONE if is_alone else PAIRED.format(host=HOST, port=self.link)
        terms = {key: value for key, value in self.kind.items() if key != "pools"}
        pools = "".join(POOL_ROWS.format(*pool) for pool in self.kind["pools"])
        given = {"role": self.role, "duid": self.duid, "host": HOST, "listen": self.port, "way": way, "pools": pools}
        (self.folder / "settings.toml").write_text(SETTINGS.format(**given, **terms))
        path = self.folder / "link.key"
        path.touch(0o600)
        path.write_text(self.key + "\n")

    def start(self):
        """Starts it, and waits until it hears what it is asked, or has ended."""
        self.starts += 1
        with open(self.notes(), "wb") as notes:
            words = [self.node, "serve", "--dir", self.folder]
            how = {"stdin": subprocess.DEVNULL, "stdout": subprocess.DEVNULL, "stderr": notes}
            self.process = subprocess.Popen(words, env=self.delays.environment, **how)
        self.begun = time.monotonic()
        while self.is_up() and self.age() < PATIENCE and self.asked("status") is None:
            time.sleep(0.05)

    def asked(self, line):
        """What it answers to a line at its socket: all of it, or None where nobody hears."""
        directory = os.open(self.folder, os.O_PATH)
        try:
            with socket.socket(socket.AF_UNIX) as stream:
                stream.settimeout(5)
                # (a socket's name has at most 107 octets)
                stream.connect(f"/proc/self/fd/{directory}/control")
                stream.sendall(line.encode() + b"\n")
                answer = b"".join(iter(lambda: stream.recv(65536), b""))
        except OSError:
            return None
        finally:
            os.close(directory)
        return answer.decode() or None

    def told(self, *words):
        """Tells it something by the program, or asks for its status at the socket: a status, and what was said."""
        line, until = ASKED.get(words), time.monotonic() + 3
        if line is None:
            return super().told(*words)
        while (answer := self.asked(line)) is None and self.is_up() and time.monotonic() < until:
            time.sleep(0.1)
        head, _, text = (answer or "").partition("\n")
        return (0 if head == "ok" else 1), text.strip()

    def link_is_up(self):
        return self.value("link").startswith("connected")

    def data(self):
        """Its status as an object."""
        try:
            return json.loads(self.told("status", "--json")[1])
        except ValueError:
            return {}

    # What of its directory no line is in

    def lines(self):
        """Its volumes as they are; what else is there may change."""
        return {path.name: path.read_bytes() for path in self.volumes()}

    def forget_clock(self, is_of_another_boot=False):
        """Takes the record of the clock away, or has it be of another boot, as behind a start of the machine."""
        path = self.folder / RECORD
        if is_of_another_boot and path.exists():
            path.write_text("0" * 8 + "-0000-4000-8000-" + "0" * 12 + path.read_text()[BOOT:])
        else:
            path.unlink(missing_ok=True)

    def readings(self):
        """The reading of each whole line of its volumes, in milliseconds."""
        rows = [row.split(" ", 2) for row in self.text().splitlines(keepends=True) if row.endswith("\n")]
        return [int(row[1]) for row in rows if len(row) == 3 and row[0].isdigit()]
