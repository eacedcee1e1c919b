"""What the volumes that two servers left must be: journals that keep the rules, fit each other, and have each answer that was seen."""
import bisect
import collections
import subprocess
import sys
from pathlib import Path

from .daemons import LONGEST_HOLD, SKEW, TRANSIT

sys.path.append(str(Path(__file__).resolve().parents[4] / "reference"))
from auditor.journals import (  # noqa: E402
    Base, Carry, Close, Expire, Grant, Open, Pool, Release, Seize, Send, Take, UnitLine, read_journal,
)
from auditor.journals import Transit as TransitLine  # noqa: E402
from auditor.rules import book_of  # noqa: E402
from auditor.words import Refused, prefix_word  # noqa: E402
from server.values import prefix_text  # noqa: E402

HEAD = (Open, Pool, TransitLine, Base, Carry, UnitLine)
# How far a line's reading may lie before its question was sent, in milliseconds.
STEP = 20
# By how much an answer may come behind its line's reading: a server may be held between its last look at the clock and the sending.
LATEST = TRANSIT + 1000 * LONGEST_HOLD + 400
# The same without such a hold, where it is asked for: within half of the transit it leaves.
PUNCTUAL = TRANSIT / 2 + 400
# The most skew that journals may need whose servers read one clock, in milliseconds.
ONE_CLOCK = 1
# The least time between the moment asked of and another line of that client and prefix.
APART = 2 * SKEW + TRANSIT


def key_of(event):
    return event.client.hex(), f"{event.association:08x}"


class Volumes:
    """One server's volumes in their order, and the one journal that they are together."""

    def __init__(self, folder, side):
        self.side, self.faults = side, []
        self.paths = sorted((folder / side).glob(f"{side}-*.journal"))
        names = [f"{side}-{number:07}.journal" for number in range(1, len(self.paths) + 1)]
        if [path.name for path in self.paths] != names:
            self.faults.append(f"{side} has other volumes: {[path.name for path in self.paths]}")
        self.texts = [path.read_bytes() for path in self.paths]
        self.journals = [self.read(path, text) for path, text in zip(self.paths, self.texts)]
        self.lines = self.all_lines()
        self.whole = self.whole_text()
        self.grants = self.by_holder(Grant)
        self.releases = self.by_holder(Release)

    def read(self, path, text):
        """The journal of a volume; None of one that is none, or breaks a rule."""
        try:
            journal = read_journal(text, self.side)
            book_of(journal)
        except Refused as refused:
            self.faults.append(f"{path.name}: {refused}")
            return None
        return journal

    def all_lines(self):
        """The lines of all volumes but the heads and the closes between them."""
        journals = [journal for journal in self.journals if journal]
        lines = []
        for place, journal in enumerate(journals):
            is_last = place + 1 == len(journals)
            lines += [line for line in journal.lines if (place == 0 or not isinstance(line.event, HEAD))
                      and (is_last or not isinstance(line.event, Close))]
        return lines

    def whole_text(self):
        """The one journal that a server would have written that never rolled: each rule is asked of it again."""
        rows = [b"%d %d %s" % (number, line.reading, line.words) for number, line in enumerate(self.lines, start=1)]
        text = b"\n".join([b"pd-journal 1 %s" % self.side.encode(), *rows, b"end %d" % len(rows), b""])
        try:
            book_of(read_journal(text, self.side))
        except Refused as refused:
            self.faults.append(f"the volumes of {self.side} aren't one journal: {refused}")
        return text

    def by_holder(self, kind):
        """The readings of these lines, and their lifetimes where they have one, by holder and prefix."""
        found = collections.defaultdict(list)
        for line in self.lines:
            if isinstance(line.event, kind):
                found[key_of(line.event), prefix_word(line.event.prefix)].append((line.reading, getattr(line.event, "valid", None)))
        return found

    def close(self):
        return self.lines[-1].reading

    def covering(self, first, last):
        """The volume that tells of all that time, None where there is none."""
        fit = (journal for journal in self.journals if journal and journal.lines[0].reading <= first and last <= journal.lines[-1].reading)
        return next(fit, None)


def matched(answers, sides, margin=0):
    """The grant line of each answer, by its reading; and each that has none, with what is said of it. Each line is that
    of one answer. `margin` is by how much a server's clock may be off, in milliseconds, here and below."""
    free = {side: {place: list(lines) for place, lines in volumes.grants.items()} for side, volumes in sides.items()}
    found, missing = [], []
    for answer in sorted(answers, key=lambda answer: answer.came):
        lines = free[answer.server].get((answer.key, prefix_text(answer.prefix)), [])
        first, last = answer.sent - STEP - margin, answer.came + 1 + margin
        fit = [line for line in lines if line[1] == answer.valid and first <= line[0] <= last]
        if fit:
            lines.remove(fit[0])
            found.append((answer, fit[0][0]))
        else:
            missing.append((answer, f"no grant line of {answer}; there are {lines[:3]}"))
    return found, missing


def late(found):
    """Answers that left when their time was over."""
    for answer, reading in found:
        if answer.came - reading > LATEST:
            yield f"{answer} came {answer.came - reading:.0f} ms behind its line"


def unpunctual(found, daemons):
    """Answers that came later behind the moments of their lines than half of the transit, but for how long their
    servers were held."""
    for answer, moment in found:
        behind = answer.came - moment
        if behind > PUNCTUAL and behind - daemons[answer.server].held(moment, answer.came) > PUNCTUAL:
            yield f"{answer} came {behind:.0f} ms behind its line: an answer leaves within half of the transit"


def unwritten_releases(releases, sides, margin=0):
    """What clients were told is given back, without a line that says so."""
    for side, given in releases:
        lines = sides[side].releases.get((given.key, prefix_text(given.prefix)), [])
        if not any(given.sent - STEP - margin <= reading <= given.sent + 5000 + margin for reading, _ in lines):
            yield f"no release line of {given} at {side}"


def held_by_two(answers, given_back):
    """Prefixes that two held at once, by what they saw: a lease lasts from its answer for its lifetime, or until it is given back."""
    ends = collections.defaultdict(list)
    for given in given_back:
        ends[given.key, given.prefix].append(given.sent)
    for moments in ends.values():
        moments.sort()
    leases = collections.defaultdict(list)
    for answer in answers:
        if answer.taken:
            moments = ends[answer.key, answer.prefix]
            place = bisect.bisect_left(moments, answer.came)
            end = min([answer.came + 1000 * answer.valid, *moments[place : place + 1]])
            leases[answer.prefix].append((answer.came, end, answer))
    for found in leases.values():
        yield from overlaps(sorted(found, key=lambda lease: lease[0]))


def overlaps(leases):
    """Of the leases of one prefix, those that begin while another client's lasts."""
    latest = {}
    for begin, end, answer in leases:
        for key, (other_end, other) in latest.items():
            if key != answer.key and begin < other_end:
                yield f"{prefix_text(answer.prefix)} is held by two: {other} until {other_end}, and {answer}"
        if answer.key not in latest or latest[answer.key][0] < end:
            latest[answer.key] = end, answer


def desk(program, words, given):
    done = subprocess.run([program, *words], input=given, capture_output=True, check=False)
    return done.returncode, done.stdout.decode(), done.stderr.decode()


def fits(program, text, most=ONE_CLOCK):
    """What the desk says of two journals that don't fit by clocks within so much skew; and the least skew that they
    need."""
    status, clocks, _ = desk(program, ["clocks"], text)
    if status != 0 or not clocks.startswith("least-skew "):
        return [f"clocks: {clocks.strip()}"], None
    skew = int(clocks.split()[1])
    status, timeline, _ = desk(program, ["timeline"], text)
    return ([f"timeline: {timeline[:200]}"] if status else []) + ([f"clocks: {clocks}"] if skew > most else []), skew


def text_until(journal, count):
    """The text of a volume as if it had been closed behind so many lines."""
    lines = journal.lines[:count]
    rows = [b"%d %d %s" % (number, line.reading, line.words) for number, line in enumerate(lines, start=1)]
    if not isinstance(lines[-1].event, Close):
        rows.append(b"%d %d close" % (count + 1, lines[-1].reading))
    head = "pd-journal 1 {0.side}" if journal.volume == 1 else "pd-journal 2 {0.side} {0.volume}"
    return b"\n".join([head.format(journal).encode(), *rows, b"end %d" % len(rows), b""])


def last_sent(journal, count):
    """The serial of the last message that was sent in so many lines, or before."""
    serials = (line.event.serial for line in reversed(journal.lines[:count]) if isinstance(line.event, (Send, Base)))
    return next(serials, 0)


def known(journal, count, sent):
    """How many of so many lines come before the first that takes a message past that serial."""
    takes = (place for place, line in enumerate(journal.lines[:count]) if isinstance(line.event, Take) and line.event.serial > sent)
    return next(takes, count)


def snapshot(journals):
    """The texts of a volume of each side, as far as the other sends what it takes; None where that is nothing."""
    one, other = journals
    counts = [len(one.lines), len(other.lines)]
    while all(counts):
        left = [known(one, counts[0], last_sent(other, counts[1])), known(other, counts[1], last_sent(one, counts[0]))]
        if left == counts:
            return b"".join(text_until(journal, count) for journal, count in zip(journals, counts))
        counts = left
    return None


def beside(sides):
    """The volumes of both sides that were written at one time, in pairs."""
    for one in filter(None, sides["A"].journals):
        for other in filter(None, sides["B"].journals):
            if one.lines[0].reading <= other.lines[-1].reading and other.lines[0].reading <= one.lines[-1].reading:
                yield one, other


def askable(found, sides, dice, count):
    """Drawn leases, each with a moment at which its client held it by one line, nobody gave it back, and both journals tell."""
    close = min(volumes.close() for volumes in sides.values())
    drawn = []
    for answer, reading in found:
        first, last = reading + SKEW + TRANSIT, reading + 1000 * answer.valid - SKEW
        if last - first < 2 or last + SKEW >= close:
            continue
        at = dice.randrange(int(first), int(last))
        places = [volumes.releases.get((answer.key, prefix_text(answer.prefix)), []) for volumes in sides.values()]
        if all(not reading - APART <= release <= at + APART for lines in places for release, _ in lines):
            drawn.append((answer, at))
    return dice.sample(drawn, min(count, len(drawn)))


def named(program, text, prefix, at):
    """Whom the desk names for a prefix and a moment: None for nobody; and what it says."""
    words = ["who", "--skew-ms", str(SKEW), "--transit-ms", str(TRANSIT), "--prefix", prefix_text(prefix), "--at", f"{at}ms"]
    _, said, complaint = desk(program, words, text)
    who = said.split("\n", 1)[0]
    return (who.split()[1] if who.startswith("holder ") else None), (who + " " + complaint.strip())
