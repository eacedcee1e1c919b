"""A pair that joins and tells each other what clients were given, with a call of one of the two refused."""
import re
import shutil
import socket
import time

from server.messages import REBIND, RELEASE, RENEW
from server.values import prefix_text

from .judging import fit, judged
from .lone import ended
from .servers import TRIES, Server, Talker

# How long the two may take to be together, or to tell, in seconds: a primary whose call came to none calls again two seconds later.
TOGETHER = 15


def waits(seconds, holds):
    """Waits until something holds: whether it does."""
    until = time.monotonic() + seconds
    while not holds():
        if time.monotonic() > until:
            return False
        time.sleep(0.02)
    return True


class Pair:
    """Two servers with a key; `watched` is the side whose call is refused."""

    sides = "AB"
    # how many calls of a kind and target are refused, and by how many ways each; and how often memory is
    most, hows, memory = 2, 2, 60
    # how many are lived at once: most of them wait
    at_once = 8

    def __init__(self, tools):
        self.tools = tools

    def run(self, folder, environment, refusal):
        link = self.tools.ports.free(socket.SOCK_STREAM)
        ports = {side: self.tools.ports.free(socket.SOCK_DGRAM) for side in self.sides}
        servers = {side: Server(self.tools.node, folder, side, ports[side], link) for side in self.sides}
        talker = Talker()
        try:
            return list(self.lived(folder, servers, talker, environment, refusal))
        finally:
            for server in servers.values():
                server.kill()
            talker.end()

    def start(self, servers, environment=None):
        """Starts both, and waits until each is answered, so that no client asks in vain; where one is down nobody waits."""
        for side in "BA":
            servers[side].start(environment if side == self.watched else None)
        both = servers.values()
        waits(TOGETHER, lambda: not all(each.is_up() for each in both) or not any(each.is_waiting() for each in both))

    @staticmethod
    def has_taken(server, prefix):
        """Whether a server's journal has the news of a prefix that the other gave."""
        wanted = re.compile(rf" take \d+ \d+ update active {prefix_text(prefix)} ")
        return any(wanted.search(path.read_text(errors="replace")) for path in server.volumes())

    def takes(self, server, other, prefix):
        """Whether a server takes that news in time, or one of the two has ended."""
        return waits(TOGETHER, lambda: not (server.is_up() and other.is_up()) or self.has_taken(server, prefix))

    def live(self, servers, talker, refusal):
        """What clients ask of the two; the prefixes that the first has in the end, where it was told one."""
        one, other = servers["A"], servers["B"]
        first, second = talker.client(1), talker.client(2)
        given = self.served(servers, one, talker, first)
        lent = self.served(servers, other, talker, second)
        # (whose clock is far off joins nobody)
        is_far = refusal is not None and refusal.is_far()
        if given and not is_far and not self.takes(other, one, given):
            yield f"B isn't told of {given} within {TOGETHER} s"
        if given:
            talker.answer(other, REBIND, first, given)
        if lent:
            talker.answer(other, RELEASE, second, lent)
        for server in servers.values():
            if not (refusal and refusal.is_deaf()):
                server.status()
                server.told_well("roll")
        if given:
            talker.answer(one, RENEW, first, given)

    def served(self, servers, server, talker, client):
        """A lease, once the two have shared their units: clients ask again until then. Where one is down nobody waits for
        that, and a client asks once: the other serves nobody where it was never answered."""
        found = []

        def asks():
            are_up = all(each.is_up() for each in servers.values())
            found.append(talker.lease(server, client, TRIES if are_up else 1))
            return found[-1] is not None or not are_up

        waits(TOGETHER, asks)
        return found[-1]

    def lived(self, folder, servers, talker, environment, refusal):
        self.start(servers, environment)
        yield from self.live(servers, talker, refusal)
        for side, server in servers.items():
            if not ended(server, refusal if side == self.watched else None):
                yield f"{side} doesn't stop: {server.said()[-300:]!r}"
                server.kill()
        for side, server in servers.items():
            status, said = server.process.returncode, server.said()
            is_watched = refusal is not None and side == self.watched
            is_killed = is_watched and refusal.is_deaf()
            wrong = server.wrong_end(refusal) if is_watched and not is_killed else None
            if wrong or (not is_watched and status != 0):
                yield f"{side}: {wrong or f'status {status}'}: {said[-300:]!r}"
            if "refused its partner" in said or "lost its journal" in said:
                yield f"{side} refused its partner: {said[-300:]!r}"
        if refusal is not None and refusal.is_harmless() and refusal.kind != "sendto" and talker.lost > 2:
            yield f"{talker.lost} questions had no answer"
        yield from self.again(servers, talker, refusal)
        wrong, volumes = judged(folder, self.sides, talker, refusal)
        yield from wrong
        # a clock that is none needs more skew than another
        if not wrong and not (refusal and refusal.is_of_clock()):
            yield from fit(self.tools.desk, volumes)

    def again(self, servers, talker, refusal):
        """Both begin again without a refusal and have to serve; what the first client was told it still has, of either."""
        first = talker.client(1)
        told = {answer.prefix for answer in talker.answers if answer.key == first.key()}
        self.start(servers)
        for number, (side, server) in enumerate(servers.items(), start=3):
            if not server.is_up():
                yield f"{side} doesn't start again, status {server.process.returncode}: {server.said()[-300:]!r}"
                return
            if self.served(servers, server, talker, talker.client(number)) is None:
                yield f"{side} serves nobody behind its second start: {server.said()[-300:]!r}"
        if told and not (refusal and refusal.is_far()):
            found = talker.answer(servers["A"], RENEW, first, max(told))
            if found is None or found[1] not in told:
                yield f"what a client was told is lost: it has {found} of {told}"
        for side, server in servers.items():
            if not server.stop("--close") or server.process.returncode:
                yield f"{side} doesn't stop well: {server.process.returncode}, {server.said()[-300:]!r}"


class Primary(Pair):
    """A call of the primary is refused."""

    name, watched = "primary", "A"


class Secondary(Pair):
    """A call of the secondary is refused."""

    name, watched = "secondary", "B"


class Behind(Pair):
    """A primary that was killed begins again; its partner was down, and lacks what it told in an older volume and in this one."""

    name, watched = "partner behind", "A"

    def __init__(self, tools):
        super().__init__(tools)
        self.before, self.given = tools.folder / "behind", None
        ports = [tools.ports.free(kind) for kind in (socket.SOCK_DGRAM, socket.SOCK_DGRAM, socket.SOCK_STREAM)]
        servers = {side: Server(tools.node, self.before, side, port, ports[2]) for side, port in zip("AB", ports)}
        one, other, talker = *servers.values(), Talker()
        try:
            self.watched = None
            self.start(servers)
            client = talker.client(1)
            self.given = self.served(servers, one, talker, client)
            self.takes(other, one, self.given)
            other.kill()
            for number in (2, 3):
                talker.lease(one, talker.client(number))
                one.told_well("roll")
        finally:
            self.watched = "A"
            for server in servers.values():
                server.kill()
            talker.end()
        self.answers, self.lent = talker.answers, [answer.prefix for answer in talker.answers if answer.key != client.key()]

    def run(self, folder, environment, refusal):
        for side in self.sides:
            shutil.copytree(self.before / side, folder / side, ignore=shutil.ignore_patterns("control"))
        return super().run(folder, environment, refusal)

    def live(self, servers, talker, refusal):
        """What the partner lacks it is told."""
        talker.answers.extend(self.answers)
        one, other = servers.values()
        if not self.lent:
            yield "the primary gave nothing while its partner was down"
        for prefix in self.lent:
            if not self.takes(other, one, prefix):
                yield f"B isn't told of {prefix} within {TOGETHER} s: {one.said()[-300:]!r}"

    def again(self, servers, talker, refusal):
        """Where the refusal ended that start the partner is told behind the next."""
        yield from super().again(servers, talker, refusal)
        for prefix in self.lent:
            if not self.has_taken(servers["B"], prefix):
                yield f"B is never told of {prefix}"
