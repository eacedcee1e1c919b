"""A play's stage, where journals are looked at in the end: each line keeps the rules, by the reference's book."""
import os
import socket
import subprocess

from living.customers import Customers
from living.play import Broken
from living.play import Play as Living
from living.servers import LONG as OUTLASTING
from server.book import Book, BookRefusal
from server.journal import Misspelled, spelled_line_of
from server.messages import RENEW

# Leases that outlast the trial, whose answers may leave late, and how long who waits for something does, in seconds: a
# machine may be busy, and a disk slow.
LONG = {**OUTLASTING, "transit": 120_000}
PATIENCE = 60
DOWN = ("partner-down", "the partner is stopped")
NORMAL = ("partner-normal",)


def rows_of(path):
    """The whole rows of a volume as it is."""
    text = path.read_text()
    return text[:text.rindex("\n") + 1].splitlines() if "\n" in text else []


def book_of(path, side):
    """The book that a volume's lines lead to: BookRefusal where one breaks a rule."""
    head, *rows = rows_of(path)
    words = head.split(" ")
    volume = int(words[3]) if words[1] == "2" else 1
    return Book.replay(side, [spelled_line_of(row) for row in rows if not row.startswith("end ")], volume)


def is_contact(event):
    """Whether a line says no more than that its server lives, or that it heard so."""
    return " contact " in event or event == "state interrupted"


def ran(server, *words, **how):
    """Runs the program once with these words and its directory: a status, standard output and standard error."""
    command = [server.node, *words, "--dir", server.folder]
    done = subprocess.run(command, capture_output=True, stdin=subprocess.DEVNULL, text=True, check=False, **how)
    return done.returncode, done.stdout, done.stderr


def asked(server, line):
    """What a server answers to a line at its socket: its first line, and the text behind it."""
    directory = os.open(server.folder, os.O_PATH)
    try:
        with socket.socket(socket.AF_UNIX) as stream:
            stream.settimeout(20)
            # (a socket's name has at most 107 octets)
            stream.connect(f"/proc/self/fd/{directory}/control")
            stream.sendall(line.encode() + b"\n")
            answer = b"".join(iter(lambda: stream.recv(65536), b""))
    finally:
        os.close(directory)
    head, _, text = answer.decode().partition("\n")
    return head, text


class Patient(Customers):
    """Clients who wait long for an answer."""

    def exchange(self, server, questions, patience=PATIENCE):
        return super().exchange(server, questions, patience)

    def lease(self, server, clients, patience=PATIENCE):
        return super().lease(server, clients, patience)

    def renew(self, server, clients, kind=RENEW, patience=PATIENCE):
        return super().renew(server, clients, kind, patience)

    def release(self, server, clients, patience=PATIENCE):
        return super().release(server, clients, patience)


class Play(Living):
    """One play; its kinds are the terms of leases."""

    def __init__(self, *words, **how):
        super().__init__(*words, **how)
        self.customers.end()
        self.customers = Patient()

    def until(self, what, holds, seconds=PATIENCE):
        return super().until(what, holds, seconds)

    def says(self, server, wanted, what, patience=PATIENCE):
        return super().says(server, wanted, what, patience)

    def down(self):
        """The partner is killed, and taken for down."""
        self.other.kill()
        if not self.until(f"{self.one.side} takes its partner for down", lambda: self.one.told(*DOWN)[0] == 0):
            raise Broken(f"partner-down: {self.one.status()}")

    def refused(self, server, words, wanted, what):
        """A command is refused, for this reason."""
        status, said = server.told(*words)
        is_so = status == 1 and wanted in said
        self.see(is_so, f"{what}: {' '.join(words)} at {server.side} has status {status}, {said!r}, wants {wanted!r}")

    def heard(self, server, words, what):
        """A command is heard."""
        status, said = server.told(*words)
        self.see(status == 0, f"{what}: {' '.join(words)} at {server.side} has status {status}, {said!r}")

    def has(self, server, what, **wanted):
        """What lines of its status say, soon."""
        for key, value in wanted.items():
            self.until(f"{what}: {server.side}'s status has {key}: {value}",
                       lambda each=key: server.value(each) == wanted[each])

    def is_set(self, server, name, state, what):
        """Of a set of states the metrics have this one alone."""
        start = f"fengtuyas_{name}{{fengtuyas_{name}="
        found = dict(row.rsplit(" ", 1) for row in server.told("status", "--metrics")[1].splitlines()
                     if row.startswith(start))
        ones = [key[len(start) + 1:-2] for key, value in found.items() if value == "1"]
        self.see(ones == [state], f"{what}: {server.side}'s metrics have {name} {ones}, wants {state}")

    def both_serve(self, mine, theirs, what):
        """Both serve; each renews what it gave, and what the other gave."""
        one, other = self.one, self.other
        for server in (one, other):
            self.until(f"{what}: {server.side} serves", lambda each=server: each.serving() == "yes")
        self.serves(one, mine, what)
        self.serves(other, theirs, what)
        self.told(one, other)
        self.told(other, one)
        self.rebinds(other, mine, what)
        self.rebinds(one, theirs, what)

    def judge(self):
        """What clients saw; and each volume keeps the rules."""
        super().judge()
        for side, server in self.sides.items():
            for path in filter(rows_of, server.volumes()):
                try:
                    book_of(path, side)
                except (BookRefusal, Misspelled) as refusal:
                    self.faults.append(f"{path.name}: {refusal!r}")
