"""A server that is alone: its first start, clients, a roll and a stop; and a start over the volumes of a server that was killed."""
import shutil
import signal
import socket

from server.messages import RELEASE, RENEW

from .judging import judged
from .servers import Server, Talker


def ended(server, refusal):
    """Has a server stop, with its volume closed if it can be; one that nobody can tell anything is killed. Whether it has ended."""
    if refusal and refusal.is_deaf():
        server.kill()
    if refusal and refusal.is_far():
        server.told("stop", "--close")
        return server.stop()
    return server.stop("--close")


class Lone:
    """A first start, what clients ask, `status`, a roll, a stop with its volume closed; and a second start without a refusal."""

    name = "first start"
    # how many calls of a kind and target are refused, and by how many ways each; and how often memory is
    most, hows, memory = 3, 3, 60
    # how many are lived at once: most of them wait
    at_once = 8
    sides = "A"

    def __init__(self, tools):
        self.tools = tools

    def prepare(self, folder):
        """What is there before the server starts whose call is refused."""

    def live(self, server, talker, refusal):
        """What is asked of the server: the prefix that the second client has in the end, as far as it was told."""
        first, second = talker.client(1), talker.client(2)
        given = talker.lease(server, first)
        if given:
            talker.answer(server, RENEW, first, given)
        kept = talker.lease(server, second)
        if given:
            talker.answer(server, RELEASE, first, given)
        if not (refusal and refusal.is_deaf()):
            server.status()
            server.told_well("roll")
        if kept:
            talker.answer(server, RENEW, second, kept)
        return second, kept

    def run(self, folder, environment, refusal):
        """Lives the story in a folder: what was wrong. `environment` is of the server that is watched."""
        self.prepare(folder)
        server = Server(self.tools.node, folder, "A", self.tools.ports.free(socket.SOCK_DGRAM))
        talker = Talker()
        try:
            return list(self.lived(folder, server, talker, environment, refusal))
        finally:
            server.kill()
            talker.end()

    def lived(self, folder, server, talker, environment, refusal):
        up = server.start(environment)
        client, kept = self.live(server, talker, refusal) if up else (talker.client(2), None)
        if not ended(server, refusal):
            yield f"doesn't stop: {server.said()[-300:]!r}"
            return
        if refusal is None and (server.process.returncode or not kept or talker.lost):
            yield f"without a refusal: status {server.process.returncode}, {talker.lost} lost, {server.said()!r}"
        if refusal is not None:
            yield from self.ended(server, talker, kept, refusal)
        yield from self.again(server, talker, client, refusal)
        yield from judged(folder, self.sides, talker, refusal)[0]

    def ended(self, server, talker, kept, refusal):
        if server.process.returncode == -signal.SIGKILL and refusal.is_deaf():
            return
        wrong = server.wrong_end(refusal)
        if wrong:
            yield wrong
        if refusal.is_harmless() and refusal.kind != "sendto" and talker.lost:
            yield f"{talker.lost} questions had no answer"
        # one refusal alone takes nothing from a server that goes on
        if server.process.returncode == 0 and not kept and refusal.how.startswith("fail"):
            yield f"served nobody, and went on: {server.said()[-300:]!r}"

    def again(self, server, talker, client, refusal):
        """It begins again without a refusal, and has to serve; what a client was told it still has."""
        told = {answer.prefix for answer in talker.answers if answer.key == client.key()}
        if not server.start():
            yield f"doesn't start again, status {server.process.returncode}: {server.said()[-300:]!r}"
            return
        if refusal and refusal.is_of_clock():
            server.accept_clock()
        if told and not (refusal and refusal.is_far()):
            found = talker.answer(server, RENEW, client, max(told))
            if found is None or found[1] not in told:
                yield f"what a client was told is lost: it has {found} of {told}"
        other = talker.lease(server, talker.client(3))
        if other is None or other in told:
            yield f"another client gets {other}: {server.said()[-300:]!r}"
        if not server.stop("--close") or server.process.returncode:
            yield f"the second start doesn't stop well: {server.process.returncode}, {server.said()[-300:]!r}"


class Again(Lone):
    """A start over three volumes of a server that was killed in the midst of a line, with clients that have leases."""

    name = "start again"

    def __init__(self, tools):
        super().__init__(tools)
        self.before, self.kept = tools.folder / "killed", None
        server, talker = Server(tools.node, self.before, "A", tools.ports.free(socket.SOCK_DGRAM)), Talker()
        try:
            server.start()
            for number in (1, 2):
                self.kept = talker.lease(server, talker.client(number))
                server.told_well("roll")
            talker.answer(server, RENEW, talker.client(2), self.kept)
        finally:
            server.kill()
            talker.end()
        with open(server.last_volume(), "ab") as file:
            file.write(b"7 17")
        self.answers = talker.answers

    def prepare(self, folder):
        shutil.copytree(self.before / "A", folder / "A", ignore=shutil.ignore_patterns("control"))
        # the socket that the killed server left
        with socket.socket(socket.AF_UNIX) as left:
            left.bind(str(folder / "A" / "control"))

    def run(self, folder, environment, refusal):
        self.prepare(folder)
        server = Server(self.tools.node, folder, "A", self.tools.ports.free(socket.SOCK_DGRAM))
        talker = Talker()
        talker.answers.extend(self.answers)
        try:
            return list(self.lived(folder, server, talker, environment, refusal))
        finally:
            server.kill()
            talker.end()

    def live(self, server, talker, refusal):
        client = talker.client(2)
        talker.answer(server, RENEW, client, self.kept)
        if not (refusal and refusal.is_deaf()):
            server.status()
        return client, self.kept
