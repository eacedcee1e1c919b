"""A scenario's stage: two servers and their clients, what is looked at in each scenario, and what wasn't as wanted."""
import re
import secrets
import socket
import time

from refusing.servers import Ports
from server.messages import REBIND

from .customers import Customers
from .servers import OTHER, Server

# Why a server serves nobody, as its status has it.
WAITS, OLDER = "waits for its partner's answer", "journal older than what its partner took"
ASKS = "asks its partner's clock"
HOLDS_OFF = re.compile(r"goes on after its restart in (\d+) s\Z")
# What is said of a journal that is too old, in a status and on standard error.
JOURNAL = re.compile(r"older than what its partner took \(it took message (\d+), this journal sent (\d+)\)\Z")
SAID = ("<3>node: serves nobody: its journal lacks messages that its partner took: it was put back from a copy, or is "
        "another's. Don't begin it again: see \"A lost disk\"\n")
METRIC = 'fengtuyas_journal{fengtuyas_journal="older"} 1'
DOWN = "the partner is stopped"
RIGHT = ("clock-accepted", "the clock is right")
# How long a pair may take to join and to share its units, and a server to see what its partner tells it, in seconds.
TOGETHER = 20
OPENING = ("open ", "pool ", "transit ")


class Broken(Exception):
    """What comes next in a scenario makes no sense any more."""


class Play:
    """One scenario. `one` is the server that it is about, `other` its partner."""

    def __init__(self, node, folder, place, side, kind=None, is_alone=False):
        ports, key = Ports(place), secrets.token_hex(32)
        link = ports.free(socket.SOCK_STREAM)
        folder.mkdir(parents=True)
        listening = {each: ports.free(socket.SOCK_DGRAM) for each in OTHER}
        self.sides = {each: Server(node, folder, each, listening[each], link, key, kind, is_alone) for each in OTHER}
        self.one, self.other = self.sides[side], self.sides[OTHER[side]]
        self.customers, self.faults, self.holds = Customers(), [], []

    # What is wanted

    def see(self, is_so, what):
        """Notes what isn't as wanted, once."""
        if not is_so and what not in self.faults:
            self.faults.append(what)
        return is_so

    def until(self, what, holds, seconds=TOGETHER):
        """Waits until something holds: whether it does."""
        until = time.monotonic() + seconds
        while not holds():
            if time.monotonic() > until:
                return self.see(False, f"{what}: not within {seconds} s")
            time.sleep(0.15)
        return True

    def says(self, server, wanted, what, patience=3):
        """The first line of a status says whether a server serves, or why not; so does the object."""
        until = time.monotonic() + patience
        while (said := server.serving()) != wanted and time.monotonic() < until:
            time.sleep(0.2)
        line = "serving: yes" if wanted == "yes" else f"serving: no, {wanted}"
        first = server.status()[0]
        if self.see(said == wanted, f"{what}: {server.side}'s status begins {first!r}, wants {line!r}"):
            data = server.data().get("serving")
            is_object = isinstance(data, dict) and data.get("is") == (wanted == "yes")
            if wanted == OLDER:
                is_object = data == {"is": False, "why": "journal_older"}
            self.see(is_object, f"{what}: {server.side}'s status as an object has serving {data}")

    # What befalls a pair

    def start(self, server):
        """Starts a server, which has to start."""
        server.start()
        if not server.is_up():
            raise Broken(f"{server.side} doesn't start, status {server.process.returncode}: {server.said()[-300:]!r}")

    def begins(self, server):
        """Starts a server whose partner is away: where it asks the partner's clock first, a person says that its own is
        right."""
        self.start(server)
        if server.serving() == ASKS:
            server.told(*RIGHT)
            self.until(f"{server.side} begins, as it was told", server.has_begun)

    def stop(self, server, *words):
        """Stops a server, which has to stop: what was said."""
        said, status = server.stop(*words)
        if status != 0:
            raise Broken(f"{server.side} doesn't {' '.join(['stop', *words])}: {said!r}, status {status}")
        return said

    def begin(self, sides="BA"):
        """Both begin, and share their units."""
        for side in sides:
            self.start(self.sides[side])
        self.together("at first")

    def together(self, what):
        """Both are connected and have shared their units."""
        shared = [self.until(f"{what}: {server.side} has its share of units", lambda each=server: has_share(each))
                  for server in self.sides.values()]
        if not all(shared):
            said = {side: server.said()[-400:] for side, server in self.sides.items()}
            raise Broken(f"{what}: the two don't join: {said}")

    def lease(self, server, count):
        """So many new clients get a lease each."""
        clients = self.customers.new(count)
        got = self.customers.lease(server, clients)
        if len(got) != count:
            raise Broken(f"{server.side} gives {len(got)} of {count} leases: {server.said()[-300:]!r}")
        return clients

    def told(self, server, partner):
        """The partner has taken all that a server sent."""
        sent = server.last_sent()
        if not self.until(f"{partner.side} takes message {sent}", lambda: partner.last_taken() >= sent):
            raise Broken(f"{server.side} doesn't tell: {server.status()}")

    def down(self):
        """The partner is killed, and taken for down."""
        self.other.kill()
        until = time.monotonic() + 8
        while (answer := self.one.told("partner-down", DOWN))[0] != 0:
            if time.monotonic() > until:
                raise Broken(f"partner-down: {answer}")
            time.sleep(0.3)

    # What is looked at

    def serves(self, server, known, what, fresh=2):
        """A server serves: who has a lease renews it, and others get one."""
        self.says(server, "yes", what)
        renewed = self.customers.renew(server, known)
        kept = sum(renewed.get(client) == self.customers.has(client) for client in known)
        self.see(kept == len(known), f"{what}: {kept} of {len(known)} clients of {server.side} renew what they have")
        given = len(self.customers.lease(server, self.customers.new(fresh)))
        self.see(given == fresh, f"{what}: {server.side} gives {given} of {fresh} new clients a lease")

    def rebinds(self, server, known, what):
        """A server renews what its partner gave."""
        had = {client: self.customers.has(client) for client in known}
        kept = sum(prefix == had[client] for client, prefix in self.customers.renew(server, known, REBIND).items())
        self.see(kept == len(known), f"{what}: {kept} of {len(known)} clients of the other rebind at {server.side}")

    def silent(self, server, known, what, seconds=0.5):
        """A server answers nobody for a while."""
        until = time.monotonic() + seconds
        while True:
            found = self.customers.answered(server, known[:2], 2)
            self.see(found == 0, f"{what}: {server.side} answers clients")
            if time.monotonic() > until or not server.is_up():
                return
            time.sleep(1)

    def refused_for_good(self, known, what, seconds):
        """The server finds that its journal is too old, says so, writes no line any more, and serves nobody, however
        long it runs; its partner serves."""
        one, other = self.one, self.other
        self.until(f"{what}: {one.side}'s status says that its journal is too old", lambda: one.serving() == OLDER, 12)
        self.says(one, OLDER, what, 0)
        found = JOURNAL.match(one.value("journal"))
        if self.see(found is not None, f"{what}: {one.side}'s journal is {one.value('journal')!r} by its status"):
            numbers = other.last_taken(), one.last_sent()
            self.see(tuple(map(int, found.groups())) == numbers, f"{what}: its status says {found[0]!r} of {numbers}")
        self.see(SAID in one.said(), f"{what}: {one.side} says nothing of its journal at level 3")
        self.see(METRIC in one.told("status", "--metrics")[1].splitlines(), f"{what}: no metric {METRIC!r}")
        text = one.text()
        self.silent(one, known, what, seconds)
        self.customers.lease(one, self.customers.new(len(known) + 5), 3)
        more = one.text()[len(text):].count("\n")
        self.see(one.text() == text, f"{what}: {one.side} writes {more} lines more though its journal is too old")
        self.see(self.customers.answered(other, [], 1, 2) == 1, f"{what}: {other.side} serves nobody")

    def holds_off(self, what, known):
        """The server has just begun again, and says for how long it serves nobody yet."""
        found = HOLDS_OFF.match(self.one.serving() or "")
        first, age = self.one.status()[0], self.one.age()
        wanted = "serving: no, goes on after its restart in .. s"
        self.see(found is not None, f"{what}: {self.one.side}'s status begins {first!r}, wants {wanted!r}")
        if found:
            least = 30 - age - 2
            self.see(least <= int(found[1]) <= 30, f"{what}: {first!r} when it has run for {age:.1f} s")
        self.silent(self.one, known, what)

    def judge(self):
        """What clients saw, in the end: no prefix is two clients' at once."""
        twice = self.customers.second_holders()
        if twice:
            held = len({grant.prefix for grant in self.customers.grants})
            self.faults.insert(0, f"{len(twice)} of {held} prefixes that clients had were given to a second client: "
                               f"{next(iter(twice.values()))}, ..")

    def end(self):
        for server in self.sides.values():
            server.kill()
        self.customers.end()


def has_share(server):
    """Whether a server is connected, and has as many units as its partner."""
    if not server.value("link").startswith("connected"):
        return False
    found = re.match(r"(\d+) own, (\d+) partners", server.value("units"))
    return found is not None and min(map(int, found.groups())) > 0


def restarts(server):
    """The numbers of its restarts."""
    return [int(event.split()[1]) for event in server.events() if event.startswith("restart ")]


def behind_opening(server):
    """The first event of its journal behind the opening lines."""
    return next((event for event in server.events() if not event.startswith(OPENING)), "nothing")
