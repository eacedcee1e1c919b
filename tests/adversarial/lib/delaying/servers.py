"""A server whose calls take long, and a client that asks it while they do."""
import re
import socket
import time

from crashing.clients import Client, message_of, relayed
from crashing.daemons import free_port
from refusing.servers import HOST, Server
from server.messages import ADVERTISE, IA_PD, IA_PREFIX, RELAY_MESSAGE, REPLY, REQUEST, SOLICIT, options

# The skew of the servers' settings, in milliseconds.
SKEW = 500
# For how long a client waits when nothing is slow, and how often it asks then; and for how much longer than a sync takes,
# in seconds.
PATIENCE, TRIES, LONGER = 1.0, 6, 0.4
TOO_LATE = "sent no answer: its line was on the disk too late"


def given_by(octets):
    """What an answer says: its transaction, the kind of the message, and the prefix, if there is one."""
    inner = dict(options(octets, 34))[RELAY_MESSAGE]
    association = dict(options(inner, 4)).get(IA_PD, b"")
    given = dict(options(association, 12)).get(IA_PREFIX) if association else None
    prefix = (int.from_bytes(given[9:25], "big"), given[8]) if given else None
    return int.from_bytes(inner[1:4], "big"), inner[0], prefix


class Asker:
    """A client behind a relay of its own, which hears what it is answered however late that comes."""

    def __init__(self, server, number):
        self.server, self.client, self.count = server, Client(4 * number), 0
        self.socket = socket.socket(socket.AF_INET6, socket.SOCK_DGRAM)

    def ask(self, kind, prefix=None):
        self.count += 1
        named = None if kind == SOLICIT else self.server.duid
        self.socket.sendto(relayed(message_of(kind, self.count, self.client, named, prefix)), (HOST, self.server.port))

    def hear(self, seconds):
        """The kind and the prefix of the answer to the last question, None where none comes in time."""
        until = time.monotonic() + seconds
        while True:
            self.socket.settimeout(max(0.001, until - time.monotonic()))
            try:
                number, *answer = given_by(self.socket.recv(65536))
            except TimeoutError:
                return None
            if number == self.count:
                return tuple(answer)

    def asked(self, kind, prefix=None):
        """What it is answered when nothing is slow."""
        for _ in range(TRIES):
            self.ask(kind, prefix)
            answer = self.hear(PATIENCE)
            if answer:
                return answer
        return None

    def end(self):
        self.socket.close()


class SlowServer(Server):
    """A primary in a folder of its own. With `partner` it is one of a pair whose other nobody hears of."""

    def __init__(self, trial, name, transit, partner=False):
        folder = trial.folder / name
        link = free_port(socket.SOCK_STREAM) if partner else None
        super().__init__(trial.node, folder, "A", free_port(socket.SOCK_DGRAM), link, transit)
        self.delays, self.clients = trial.shim.delays(folder / "delays"), 0

    def __enter__(self):
        return self

    def __exit__(self, *_):
        self.kill()

    def start(self, environment=None):
        return super().start(environment or self.delays.environment)

    def leave_out(self, key):
        """Its settings don't have a key."""
        path = self.folder / "settings.toml"
        path.write_text(re.sub(rf"^{key} = .*\n", "", path.read_text(), flags=re.MULTILINE))

    def put(self, key, value):
        """Its settings have another value."""
        path = self.folder / "settings.toml"
        path.write_text(re.sub(rf"^{key} = .*$", f"{key} = {value}", path.read_text(), flags=re.MULTILINE))

    def late(self):
        """How many answers were too late to be sent, by what it tells."""
        return (self.status() or {}).get("late", 0)

    def requests(self, sync, step=0):
        """A new client requests a prefix while the sync of its line takes so many milliseconds, in the midst of which
        the clock steps. What it is answered, by how much the count of late answers grew, and what it is answered when
        it asks again."""
        self.clients += 1
        asker = Asker(self, self.clients)
        try:
            offer = asker.asked(SOLICIT)
            if offer is None or offer[0] != ADVERTISE:
                return None, None, offer
            before = self.late()
            self.delays.slow_syncs(sync, step)
            asker.ask(REQUEST, offer[1])
            answer = asker.hear(sync / 1000 + LONGER)
            self.delays.slow_syncs(0)
            # (who asks how it is is told behind the turn in which the answer would have left)
            grown = self.late() - before
            return answer or asker.hear(0), grown, asker.asked(REQUEST, offer[1])
        finally:
            asker.end()

    def wrong_answer(self, sync, is_answered, step=0):
        """What is wrong with how a client is answered, or not, behind such a sync."""
        answer, grown, again = self.requests(sync, step)
        clock = f" in the midst of which the clock steps by {step} ms" if step else ""
        what = f"a sync of {sync} ms{clock}, transit {self.transit()} ms"
        if bool(answer) != is_answered or (answer and answer[0] != REPLY):
            yield f"{what}: answered by {answer}, wants {'a REPLY' if is_answered else 'nothing'}"
        if grown != int(not is_answered):
            yield f"{what}: {grown} answers more are counted as late, wants {int(not is_answered)}"
        if not is_answered and TOO_LATE not in self.said():
            yield f"{what}: doesn't say {TOO_LATE!r}: {self.said()[-300:]!r}"
        if again is None or again[0] != REPLY or (answer and again != answer):
            yield f"{what}: asked again it answers {again}, before that {answer}"

    def transit(self):
        found = re.search(r"^transit_ms = (\d+)", (self.folder / "settings.toml").read_text(), re.MULTILINE)
        return int(found[1]) if found else 0
