"""Commands that answer once, each call of which is refused: `node check`, `status` and the like, and the desk's."""
import re
import socket
import subprocess
import time

from server.messages import RENEW
from server.values import prefix_text

from .pair import Pair
from .servers import Server, Talker

# How long a command may take, in seconds: who asks a server waits for 30.
LONGEST = 40
FAULT = 2
# A fault that a command names, in a line of its own.
NAMED = re.compile(r"^(fault [A-Z]\w+|no (server answers|permission to ask the server) in this directory)", re.MULTILINE)
TRANSIT = 1000
MARGINS = ["--skew-ms", "500", "--transit-ms", str(TRANSIT)]
# How long behind its answer a lease is asked about, and how long behind that the last line of its volume comes, in milliseconds.
BEHIND, ROOM = TRANSIT + 600, 700
# How long behind the heads of two volumes a lease begins that is surely behind both, in milliseconds: twice the skew.
APART = 1200


class Answer:
    """What a command printed, what it said beside that, and its status; None where it didn't end."""

    def __init__(self, words, given=b"", environment=None):
        try:
            done = subprocess.run(words, input=given, capture_output=True, timeout=LONGEST, env=environment, check=False)
            self.out, self.err, self.status = done.stdout, done.stderr.decode(errors="replace"), done.returncode
        except subprocess.TimeoutExpired:
            self.out, self.err, self.status = b"", "", None

    def __str__(self):
        return f"status {self.status}, {self.out[:120]!r}, {self.err[:600]!r}"


class Command:
    """One command. Where a call is refused it answers as without, or by a named fault, and says nothing else."""

    def __init__(self, name, words, given=b"", holder=None, status=0):
        self.name, self.words, self.given, self.status, self.wanted = name, words, given, status, None
        # What an answer over files that end early has to begin with, if it names anybody.
        self.holder = holder

    def run(self, folder, environment, refusal):
        answer = Answer(self.words, self.given, environment)
        if refusal is None:
            self.wanted = answer
            return [] if answer.status == self.status else [f"without a refusal: {answer}"]
        wrong = self.wrong(answer, refusal)
        return [f"{wrong}: {answer}"] if wrong else []

    def is_same(self, answer):
        return (answer.out, answer.status) == (self.wanted.out, self.wanted.status)

    def is_part(self, answer):
        """Whether an answer is the one without a refusal as far as it was written."""
        return self.wanted.out.startswith(answer.out)

    def is_told(self, answer):
        """Whether an answer is the fault that standard error names, as the object or the page that was asked for."""
        named = NAMED.search(answer.err)
        return {"--json", "--html"} & set(self.words) and named and named[0].encode() in answer.out

    def wrong(self, answer, refusal):
        """What is wrong with an answer, if anything is."""
        if answer.status is None:
            return f"no end within {LONGEST} s"
        if answer.status not in (0, 1, FAULT):
            return "another status"
        if self.is_same(answer):
            is_silent = refusal.is_harmless() and answer.err != self.wanted.err and refusal.target != "stderr"
            return "says something else" if is_silent else None
        if refusal.is_harmless():
            return "another answer though nothing failed"
        if answer.status == FAULT and NAMED.search(answer.err):
            is_part = refusal.target == "stdout" and self.is_part(answer)
            return None if is_part or not answer.out or self.is_told(answer) else "a fault behind an answer"
        if answer.status == FAULT and refusal.target == "stderr":
            return None
        if refusal.how.startswith("end") and self.is_honest(answer):
            return None
        if refusal.target.endswith(".access") and self.lacks_records(answer):
            return None
        return "neither the answer nor a named fault"

    def lacks_records(self, answer):
        """Whether an answer is the one without a refusal, but for access records, which are no evidence."""
        lines = [line for line in self.wanted.out.split(b"\n") if not line.startswith(b"access ")]
        return (answer.out, answer.status) == (b"\n".join(lines), self.wanted.status)

    def is_honest(self, answer):
        """Whether an answer over a file that ended early names nobody else, and says what is lacking where it names nobody."""
        if answer.status == 0:
            return self.holder is not None and answer.out.startswith(self.holder)
        return answer.status == 1 and ("lacking " in answer.err or answer.out.startswith((b"refused ", b"lacking ")))


class StatusAsked(Command):
    """Of a server's status the moments differ."""

    def is_same(self, answer):
        return answer.status == self.wanted.status and self.shape(answer.out) == self.shape(self.wanted.out)

    def is_part(self, answer):
        return self.shape(self.wanted.out).startswith(self.shape(answer.out))

    @staticmethod
    def shape(octets):
        return re.sub(rb"[0-9.:TZ-]+", b"0", octets)


class Group:
    """Commands that are lived one by one, in the parts of one story."""

    # how many calls of a kind and target are refused, and by how many ways each; and how often memory is, in all parts together
    most, hows, memory = 3, 3, 150
    # how many are lived at once: the server that they ask hears eight
    at_once = 6

    def __init__(self, tools):
        self.tools, self.servers = tools, []
        self.parts = list(self.made())

    def end(self):
        for server in self.servers:
            server.kill()


class Node(Group):
    """The commands of the node's program but `serve`; those that ask a server ask one that runs."""

    name = "node commands"

    def made(self):
        server = Server(self.tools.node, self.tools.folder / "asked", "A", self.tools.ports.free(socket.SOCK_DGRAM))
        self.servers.append(server)
        server.start()
        node, directory = self.tools.node, ["--dir", str(server.folder)]
        settings = (server.folder / "settings.toml").read_bytes()
        yield Command("check", [node, "check"], settings)
        for form in ([], ["--json"], ["--metrics"]):
            yield StatusAsked(" ".join(["status", *form]), [node, "status", *directory, *form])
        other = Server(self.tools.node, self.tools.folder / "told", "A", self.tools.ports.free(socket.SOCK_DGRAM))
        self.servers.append(other)
        other.start()
        yield Command("roll", [node, "roll", "--dir", str(other.folder)])


class Archive:
    """The directories of a pair that served two clients over a roll and was killed: A's is quiet, over B's it runs again."""

    def __init__(self, tools, folder):
        pair = Pair(tools)
        ports = [tools.ports.free(kind) for kind in (socket.SOCK_DGRAM, socket.SOCK_DGRAM, socket.SOCK_STREAM)]
        self.servers = {side: Server(tools.node, folder, side, port, ports[2], TRANSIT) for side, port in zip("AB", ports)}
        one, other, talker = *self.servers.values(), Talker()
        pair.watched = None
        pair.start(self.servers)
        client = talker.client(1)
        self.holder, self.prefix = client.duid.hex(), pair.served(self.servers, one, talker, client)
        pair.takes(other, one, self.prefix)
        self.early = self.later(talker)
        for server in self.servers.values():
            server.told_well("roll")
        # the partner has to acknowledge what the renewal is for longer than
        pair.served(self.servers, other, talker, talker.client(2))
        # a piece has to begin surely behind both heads
        time.sleep(APART / 1000)
        talker.answer(one, RENEW, client, self.prefix)
        self.late = self.later(talker)
        # a later line of both, and each has it of the other
        for number in (3, 4):
            pair.takes(other, one, pair.served(self.servers, one, talker, talker.client(number)))
        one.kill()
        (one.folder / "control").unlink()
        talker.end()

    @staticmethod
    def later(talker):
        """A moment at which the last lease can be shown, once lines behind it can be written."""
        time.sleep((BEHIND + ROOM) / 1000)
        return int(talker.answers[-1].came) + BEHIND


class Files(Group):
    """The desk's questions over the directories of a pair, one of which has a server that runs."""

    name = "desk over files"

    def made(self):
        archive = Archive(self.tools, self.tools.folder / "archive")
        self.servers = list(archive.servers.values())
        desk, prefix = self.tools.desk, prefix_text(archive.prefix)
        paths = [word for server in self.servers for word in ("--journals", str(server.folder))]
        holder = f"holder {archive.holder}\n".encode()
        file = self.tools.folder / "certificate"
        for name, moment in (("closed", archive.early), ("open", archive.late)):
            who = [desk, "who", *MARGINS, "--prefix", prefix, "--at", f"{moment}ms", *paths]
            found = Answer(who)
            yield Command(f"who, {name}", who, holder=holder)
            if found.status:
                return
            _, begin, end = found.out.split(b"\n")[1].decode().split()
            certificate = found.out[found.out.index(b"pd-certificate") :]
            file = file.with_suffix(f".{name}")
            file.write_bytes(certificate[: certificate.index(b"\nend\n") + 5])
            judged = [*MARGINS, *paths, "--certificate", str(file)]
            yield Command(f"audit, {name}", [desk, "audit", *judged], holder=b"accepted\n")
        of = ["--holder", archive.holder, "--prefix", prefix, "--from", begin, "--to", end]
        yield Command("find", [desk, "find", *MARGINS, *of, *paths], holder=b"journals ")
        yield Command("batch", [desk, "batch", "--workers", "2", *judged], holder=b"accepted\n")
        yield Command("explain", [desk, "explain", *judged, "--zone", "Europe/Paris"], holder=b"accepted\n")
        yield Command("timeline", [desk, "timeline", *paths], holder=b"journals ")
        yield Command("join", [desk, "join", "--side", "B", *paths], holder=b"pd-journal ")


class Streams(Group):
    """The desk's questions over standard input."""

    name = "desk"

    def made(self):
        example = self.tools.examples / "first-path" / "whole-hour" / "stdin"
        whole, desk = example.read_bytes(), self.tools.desk
        journals = whole[: whole.index(b"pd-certificate")]
        skew, prefix = ["--skew-ms", "2000"], "2001:0db8:0000:0000:0000:0000:0000:0000/56"
        of = ["--holder", "00030001020000000001", "--prefix", prefix, "--from", "12000", "--to", "3608000"]
        who = ["who", *skew, "--prefix", "2001:db8::17", "--at", "1970-01-01T00:20:00Z"]
        yield Command("audit", [desk, "audit", *skew], whole)
        yield Command("batch", [desk, "batch", *skew, "--workers", "2"], whole)
        yield Command("explain", [desk, "explain", *skew, "--html"], whole)
        yield Command("find", [desk, "find", *skew, *of], journals)
        yield Command("who", [desk, *who], journals)
        yield Command("who --explain", [desk, *who, "--explain", "--zone", "Europe/Paris"], journals)
        nobody = self.tools.examples / "explain" / "nobody"
        words = [desk, *(nobody / "args").read_text().splitlines()]
        yield Command("who --explain, nobody", words, (nobody / "stdin").read_bytes(), status=1)
        yield Command("who --json", [desk, *who, "--json"], journals)
        yield Command("explain --json", [desk, "explain", *skew, "--json"], whole)
        yield Command("timeline", [desk, "timeline"], journals)
        yield Command("clocks", [desk, "clocks"], journals)
