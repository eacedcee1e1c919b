"""Draws intervals over directories of both servers' volumes, asks two programs for their evidence by `find`, and tells where they differ."""
import itertools
import os
import pathlib
import random
import shutil
import subprocess
import tempfile
from typing import NamedTuple

from .certificates import read_certificate
from .desk import Evidence
from .evidence import Wanted
from .explaining import object_of
from .finds import FOUND, NONE, finds_of
from .joined_draws import PATHS, Difference, Draw
from .journals import Grant
from .rulings import ACCEPTED
from .running import CLIENTS
from .schema import fault_of
from .volumes import Folder, place_of
from .words import MOST_READING, Malformed, Refused, client_word, prefix_word

# So many intervals are asked of each directory.
ASKED_OF_EACH = 5


class Find(NamedTuple):
    """A question over the volumes of two directories."""

    wanted: Wanted
    skew: int
    transit: int

    def words(self, *further):
        wanted = self.wanted
        words = ["find", "--journals", *PATHS, "--skew-ms", str(self.skew), "--transit-ms", str(self.transit)]
        words += ["--holder", client_word(wanted.holder), "--prefix", prefix_word(wanted.prefix)]
        return [*words, "--from", str(wanted.start), "--to", str(wanted.end), *further]


class Seen(NamedTuple):
    """What a program said: the pairs that it names, each with its reply, what it says alone, and standard error's lines."""

    out: str
    notes: list
    status: int
    replies: list
    alone: list

    def volumes(self):
        return list(dict.fromkeys(row.removeprefix("volumes ") for row in self.notes if row.startswith("volumes ")))

    def whole(self):
        return f"{self.out[:600]}{self.notes} status {self.status}"


def drawn(rng, draw):
    """A question: mostly of a client that a grant of the prefix names, from a moment at which the answer may change."""
    asked = draw.question().asked
    moment = asked.moment
    if rng.random() < 0.5:
        moment = draw.in_a_lease(asked.prefix, asked.skew, asked.transit) or moment
    moment = min(max(moment, 0), MOST_READING)
    grants = [entry for entry in draw.held if isinstance(entry.event, Grant) and entry.event.prefix.overlaps(asked.prefix)]
    before = sorted((entry for entry in grants if entry.reading <= moment + asked.skew), key=lambda entry: entry.reading)
    holder = rng.choice(CLIENTS)
    if grants and rng.random() < 0.95:
        holder = (before[-1] if before and rng.random() < 0.9 else rng.choice(grants)).event.client
    life = 1000 * draw.settings.life
    part = rng.randint(1, max(1, life // rng.choice((2, 8, 32, 128))))
    end = min(moment + rng.choice((0, 1, 1, 2, 1000, part, part, part, rng.randint(1, life), 4 * life)), MOST_READING)
    if rng.random() < 0.02:
        end = max(0, moment - part)
    return Find(Wanted(holder, asked.prefix, moment, end), asked.skew, asked.transit)


def seen(desk, words):
    done = subprocess.run([desk, *words], capture_output=True, stdin=subprocess.DEVNULL, check=False)
    written, complaint = (text.decode("utf-8", "replace") for text in (done.stdout, done.stderr))
    return Seen(written, complaint.splitlines(), done.returncode, *parted(written))


def parted(written):
    """The replies of standard output, each behind the line of its pair, and those that stand alone."""
    replies, alone, pair, rows = [], [], None, written.splitlines(keepends=True)
    while rows:
        row = rows.pop(0)
        if row.startswith("journals "):
            pair = tuple(place_of(pathlib.Path(file).read_bytes()) for file in row.split()[1:])
            continue
        if row.startswith("pd-certificate"):
            rest = list(itertools.takewhile(lambda each: not each.startswith("end"), rows))
            row = "".join([row, *rest, *rows[len(rest) : len(rest) + 1]])
            del rows[: len(rest) + 1]
        if pair is None:
            alone.append(row.removesuffix("\n"))
        else:
            replies.append((pair, row))
        pair = None
    return replies, alone


def fits(reply, text, skew, transit):
    """Whether a reply that may be given is what a program wrote."""
    if reply.line != FOUND:
        return text == f"{reply.line}\n"
    try:
        certificate = read_certificate(text.encode())
    except (Malformed, Refused):
        return False
    is_wanted = (certificate.holder, certificate.prefix, certificate.start, certificate.end) == tuple(reply.wanted)
    return is_wanted and Evidence(*reply.texts).verdict(text.encode(), skew, transit) == ACCEPTED


def choices(said, find, its):
    """Of each stretch the reply that was given, in each way that the words leave open; none where something was said that may not be."""
    pairs = [tuple(zip("AB", stretch.pair)) for stretch in said.stretches]
    if pairs != [pair for pair, _ in its.replies] or any(line != NONE for line in its.alone):
        return []
    fitting = [
        [reply for reply in stretch.replies if fits(reply, text, find.skew, find.transit)]
        for stretch, (_, text) in zip(said.stretches, its.replies)
    ]
    return [
        list(replies)
        for replies in itertools.product(*fitting)
        if list(dict.fromkeys(reply.volumes for reply in replies if reply.volumes)) == its.volumes()
    ]


def is_said_alone(said, its):
    """Whether one of the lines that are said of all is what a program said."""
    faults = [row.partition(": ")[0] for row in its.notes if row.startswith("fault ")]
    return any(
        (faults[:1], its.status) == ([line], 2) if line.startswith("fault ") else (its.out, its.status) == (f"{line}\n", 1)
        for line in said.lines
    )


def is_answered(said, find, replies, its):
    """Whether standard error and the status are those of these replies; of an empty interval the words don't say what it lacks."""
    lacking = any(row.startswith("lacking ") for row in its.notes)
    is_whole = not said.is_lacking and all(reply.line == FOUND for reply in replies)
    is_empty = find.wanted.start >= find.wanted.end
    return its.status == (0 if is_whole else 1) and (is_empty or lacking == said.is_lacking)


def lines_of(rows, replies):
    """The lines of an object: those of standard output, and behind each pair the volumes of its reply where they are several of a side."""
    lines, each = [], iter(replies)
    for row in rows:
        lines.append(row)
        reply = next(each, None) if row.startswith("journals ") else None
        lines += [f"volumes {reply.volumes}"] if reply and reply.volumes else []
    return lines


def object_differs(desk, find, its, given):
    """Where the object of a question says nothing that the lines may mean, by one of the replies that may be given; None where it does."""
    told = seen(desk, find.words("--json"))
    value = object_of(told.out)
    if value is None or (fault := fault_of(value)) is not None:
        return "an object of the schema", told.whole() if value is None else fault
    if "fault" in value:
        return None if its.status == told.status == 2 else (its.whole(), told.whole())
    certificates = [text for _, text in its.replies if text.startswith("pd-certificate")]
    rest = its.out
    for text in certificates:
        rest = rest.replace(text, "", 1)
    rows = rest.splitlines()
    replies = next((each for each in given if lines_of(rows, each) == value["lines"]), given[0])
    wide = [reply.volumes for reply in replies if reply.volumes]
    # (the volumes of an answer that is one stretch, of which nothing is lacking)
    may = wide if wide and len(replies) == 1 and not its.alone else [None]
    mine = {"command": "find", "status": its.status, "lines": lines_of(rows, replies), "certificates": certificates, "notes": its.notes}
    theirs = {name: value.get(name) for name in mine}
    if mine != theirs or told.status != its.status:
        return str(mine), str(theirs)
    return None if value["volumes"] in may else (f"volumes {may}", f"volumes {value['volumes']}")


def kinds_of(said, replies):
    """What was met by an answer."""
    if said.lines:
        return [f"find {' '.join(said.lines[0].split(' ')[:2])}"]
    kinds = ["find lacking"] * said.is_lacking + ["find cut"] * any(stretch.is_cut for stretch in said.stretches)
    kinds += ["find stretches"] * (len(said.stretches) > 1)
    for reply in replies:
        kind = reply.line if reply.line in (FOUND, NONE) else " ".join(reply.line.split(" ")[:2])
        kinds.append(f"find {kind}" + " over several" * (reply.line == FOUND and bool(reply.volumes)))
    return kinds


def compare_one(desk, find, files):
    """What was met, and the difference, None where there is none."""
    said = finds_of(Folder(PATHS), find.wanted, find.skew, find.transit)
    last = [stretch.replies[-1] for stretch in said.stretches]
    if desk is None:
        return kinds_of(said, last), None
    its = seen(desk, find.words())
    given = [[]] if said.lines else choices(said, find, its)
    is_same = is_said_alone(said, its) if said.lines else bool(given) and is_answered(said, find, given[0], its)
    if not is_same:
        return kinds_of(said, last), Difference(find.words(), files, told_of(said), its.whole())
    told = object_differs(desk, find, its, given)
    return kinds_of(said, given[0]), told and Difference(find.words("--json"), files, *told)


def told_of(said):
    if said.lines:
        return str(list(said.lines))
    stretches = [
        (stretch.pair, [(reply.line, reply.wanted.start, reply.wanted.end, reply.volumes, reply.by_messages) for reply in stretch.replies])
        for stretch in said.stretches
    ]
    return f"{stretches}{' lacking' if said.is_lacking else ''}"


def compare_finds(desk, seed, index):
    """What was met, and the differences, of the intervals of one draw."""
    rng = random.Random(f"finds {seed} {index}")
    draw = Draw(rng)
    files, kinds, differences = draw.files(), [], []
    folder, before = pathlib.Path(tempfile.mkdtemp(prefix="finds-")), os.getcwd()
    try:
        for path in PATHS:
            (folder / path).mkdir()
        for name, octets in files.items():
            (folder / name).write_bytes(octets)
        os.chdir(folder)
        for _ in range(ASKED_OF_EACH):
            met, found = compare_one(desk, drawn(rng, draw), files)
            kinds.append(met)
            differences += [found] if found else []
    finally:
        os.chdir(before)
        shutil.rmtree(folder)
    return kinds, differences
