#!/usr/bin/env python3
"""run.py [DESK]: what `who` takes where one unit has had many lines: as a ratio to the time that the desk takes to read and check the same
journals (`timeline`, which asks nothing), and the most memory, in MB.

DESK is a built desk (bin/desk if not said). The journals are whole ones of two servers, as a book of ../../second writes them; each case
says who has the unit when, and asks of a moment in the middle. What is answered by a certificate is audited as text; ends with status 1
where one isn't accepted, or where `who` takes more than MOST times what reading takes.
"""
import os
import pathlib
import resource
import subprocess
import sys
import time

HERE = pathlib.Path(__file__).resolve().parent
ROOT = HERE.parent.parent
sys.path.insert(0, str(ROOT / "reference"))

from server import journal  # noqa: E402
from server.book import Book  # noqa: E402
from server.values import Settings, prefix_of  # noqa: E402

UNIT = prefix_of("2001:db8::/56")
OWN = bytes.fromhex("00030001020000000009")
MOST = 100


class Pair:
    """Two books of one unit, whose clocks are right."""

    def __init__(self, skew, life):
        self.books = [Book.open(9000, Settings(role, OWN, skew, life, life, [(UNIT, 56)], 0)) for role in "AB"]
        self.now = 10_000

    def order(self, *order):
        return self.books[0].apply(self.now, order)

    def cross(self, teller, hearer, order):
        made = teller.apply(self.now, order)
        hearer.apply(self.now, ("take", teller.term, made[1], made[2]))

    def tell(self):
        """The primary tells what is due, and the secondary answers."""
        primary, secondary = self.books
        self.cross(primary, secondary, ("send update", UNIT))
        self.cross(secondary, primary, ("send reply", UNIT))

    def text(self):
        for book in self.books:
            book.apply(self.now, ("close",))
        return "".join(journal.write(role, book.lines) for role, book in zip("AB", self.books))


def client(number):
    return bytes.fromhex(f"0003000102{number + 2:010x}")


def given_back(pair, count, lasting, client_of):
    """So many leases, each given back after so many milliseconds, which is told."""
    for number in range(count):
        pair.order("request", client_of(number), 1, None)
        pair.now += lasting
        pair.order("release", client_of(number), 1, UNIT)
        pair.tell()


def renewed(returns, renewals):
    """One client's: given back so often, then renewed each second for a second."""
    pair = Pair(0, 1)
    given_back(pair, returns, 10, lambda number: client(0))
    begin = pair.now
    for number in range(renewals):
        pair.order("request", client(0), 1, UNIT)
        pair.now += 1000
    return pair.text(), begin + 1000 * (renewals // 2) + 1, 0


def returned(leases, clients, life=3600, skew=0, lasting=10_000):
    """Leases end to end by so many clients in turn, each given back."""
    pair = Pair(skew, life)
    given_back(pair, leases, lasting, lambda number: client(number % clients))
    return pair.text(), 10_000 + lasting * (leases // 2) + 2 * skew, skew


def ended(leases, clients, life=10):
    """Leases end to end by so many clients in turn, each till its end."""
    pair = Pair(0, life)
    for number in range(leases):
        pair.order("request", client(number % clients), 1, None)
        pair.tell()
        pair.now = max(pair.now, pair.books[0].table.get(UNIT).own_end, pair.books[0].table.get(UNIT).told)
        pair.order("expire", UNIT)
        pair.tell()
    return pair.text(), 10_000 + 1000 * life * (leases // 2), 0


CASES = {
    "100 given back, 660 renewals": lambda: renewed(100, 660),
    "1,000 given back, 20,000 renewals": lambda: renewed(1000, 20_000),
    "4,000 leases of 1,000 clients, given back": lambda: returned(4000, 1000),
    "4,000 leases of 1,000 clients, given back, for a year": lambda: returned(4000, 1000, 31_536_000),
    "4,000 leases of 1,000 clients, to their ends": lambda: ended(4000, 1000),
    "16,000 leases of 4,000 clients, given back": lambda: returned(16_000, 4000),
    "4,000 leases of 1,000 clients, given back, skew 2 s": lambda: returned(4000, 1000, 3600, 2000),
}


def asked(desk, words, text):
    """The seconds, the most memory in MB, the status and the answer."""
    begun = time.perf_counter()
    reading, writing = os.pipe()
    with subprocess.Popen([desk, *words], stdin=subprocess.PIPE, stdout=writing, stderr=subprocess.DEVNULL) as program:
        os.close(writing)
        program.stdin.write(text.encode())
        program.stdin.close()
        with os.fdopen(reading, "rb") as answer:
            told = answer.read().decode()
        _, status, used = os.wait4(program.pid, 0)
        program.returncode = os.waitstatus_to_exitcode(status)
    return time.perf_counter() - begun, used.ru_maxrss // 1024, program.returncode, told


def best(desk, words, text, runs=3):
    return min(asked(desk, words, text) for _ in range(runs))


def main():
    desk = sys.argv[1] if len(sys.argv) > 1 else str(ROOT / "bin" / "desk")
    resource.setrlimit(resource.RLIMIT_CORE, (0, 0))
    bad = False
    for name, journals in CASES.items():
        text, at, skew = journals()
        read, *_ = best(desk, ["timeline"], text)
        words = ["--skew-ms", str(skew)]
        took, memory, status, told = best(desk, ["who", *words, "--prefix", "2001:db8::/56", "--at", str(at)], text, 1)
        answer = told.splitlines()[0] if told else f"status {status}"
        verdict = ""
        if told.startswith("holder"):
            claim = "".join(line + "\n" for line in told.splitlines()[3:])
            verdict = asked(desk, ["audit", *words], text + claim)[3].strip()
            answer = f"{told.splitlines()[1]}, {len(claim.splitlines())} lines"
            bad = bad or verdict != "accepted"
        bad = bad or took > MOST * read
        print(f"{took / read:8.1f}  {memory:6} MB  {name}: {answer} {verdict}", flush=True)
    return int(bad)


sys.exit(main())
