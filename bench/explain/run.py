#!/usr/bin/env python3
"""run.py [DESK]: what `explain` takes where many pieces meet many releases: the most memory, in MB, and the time as a ratio to `audit`'s.

DESK is a built desk (bin/desk if not said). One client is granted a unit so many times, and gives it back each time; the certificate has
so many pieces, end to end, each of the last grant. Where no entry says why a release doesn't end the piece, `audit` refuses it at the
first piece; in the second case each piece has an entry for one release. Ends with status 1 where a report of the first case takes more
than MOST_MB, or where one doesn't tell what is refused.
"""
import os
import pathlib
import subprocess
import sys
import tempfile
import time

HERE = pathlib.Path(__file__).resolve().parent
ROOT = HERE.parent.parent
sys.path.insert(0, str(ROOT / "reference"))

from server import journal  # noqa: E402
from server.book import Book  # noqa: E402
from server.values import Settings, prefix_of  # noqa: E402

UNIT = prefix_of("2001:db8::/56")
UNIT_TEXT = "2001:0db8:0000:0000:0000:0000:0000:0000/56"
SERVER = bytes.fromhex("00030001020000000009")
CLIENT = bytes.fromhex("00030001020000000002")
LIFE = 3600
MOST_MB = 50
FORMS = [], ["--json"], ["--html"]


def tell(teller, hearer, now, order):
    made = teller.apply(now, order)
    hearer.apply(now, ("take", teller.term, made[1], made[2]))


def journals(releases):
    """Both journals' lines, and when the last grant was written."""
    primary, secondary = (Book.open(9000, Settings(role, SERVER, 0, LIFE, LIFE, [(UNIT, 56)], 0)) for role in "AB")
    now = 10_000
    for _ in range(releases):
        primary.apply(now, ("request", CLIENT, 1, None))
        now += 10
        primary.apply(now, ("release", CLIENT, 1, UNIT))
        tell(primary, secondary, now, ("send update", UNIT))
        tell(secondary, primary, now, ("send reply", UNIT))
    primary.apply(now, ("request", CLIENT, 1, None))
    for book in primary, secondary:
        book.apply(now + 1000 * LIFE, ("close",))
    return [journal.write(role, book.lines) for role, book in zip("AB", (primary, secondary))], now


def lines_with(text, word):
    """The lines of a journal of the primary whose event has this name."""
    words = [line.split(" ") for line in text.split("\n")]
    return [f"A{line[0]}" for line in words if len(line) > 2 and line[2] == word]


def case(releases, pieces, named):
    """The input: so many releases of one lease, and so many pieces, each with an entry for a release where `named`."""
    (primary, secondary), begin = journals(releases)
    grant, given_back = lines_with(primary, "grant")[-1], lines_with(primary, "release")
    body = []
    for index in range(pieces):
        body.append(f"piece {grant} {begin + index} {begin + index + 1} latest {grant} earliest {grant}\n")
        if named:
            release = given_back[index % releases]
            body.append(f"clear {release} before chain {release}>{grant}\n")
    head = f"pd-certificate 1\nholder {CLIENT.hex()}\nprefix {UNIT_TEXT}\ninterval {begin} {begin + pieces}\n"
    return primary + secondary + head + "".join(body) + "end\n"


def run(words, path):
    """Seconds, peak memory in MB, and what was written."""
    with open(path, "rb") as given, tempfile.TemporaryFile() as taken:
        begun = time.perf_counter()
        child = subprocess.Popen(words, stdin=given, stdout=taken)
        _, _, used = os.wait4(child.pid, 0)
        seconds = time.perf_counter() - begun
        taken.seek(0)
        return seconds, used.ru_maxrss / 1024, taken.read().decode()


def main():
    desk, failed = sys.argv[1] if len(sys.argv) > 1 else ROOT / "bin" / "desk", False
    for releases, pieces, named in (1000, 1000, False), (1000, 1000, True), (4000, 4000, False):
        with tempfile.NamedTemporaryFile("w") as file:
            text = case(releases, pieces, named)
            file.write(text)
            file.flush()
            audit = min(run([desk, "audit", "--skew-ms", "0"], file.name) for _ in range(5))
            verdict = audit[2].strip()
            print(f"{pieces} pieces, {'an entry each' if named else 'no entry'}, {releases} releases, {len(text) / 1e6:.2f} MB:",
                  f"{verdict}, {audit[1]:.0f} MB")
            for form in FORMS:
                seconds, most, told = min(run([desk, "explain", "--skew-ms", "0", *form], file.name) for _ in range(3))
                print(f"  explain {' '.join(form)}: {most:.0f} MB, {seconds / audit[0]:.1f} times audit, {len(told) / 1e6:.2f} MB")
                failed |= pieces == 1000 and not named and most > MOST_MB
                failed |= verdict not in told or verdict.split()[-1] not in told.replace(verdict, "")
    return int(failed)


if __name__ == "__main__":
    sys.exit(main())
