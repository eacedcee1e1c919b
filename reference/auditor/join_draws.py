"""Directories of volumes drawn at random, whole or spoiled, and what two programs say of their `join`."""
import os
import pathlib
import random
import shutil
import subprocess
import tempfile
from typing import NamedTuple

from .books import Book
from .changing import changed_words
from .desk import Usage, answer_of_files
from .joining import HEAD, asked_of
from .journals import MOST_VOLUME, Base, Carry, Close, Open, UnitLine, read_journal
from .rules import book_of
from .running import KINDS, Run, drawn_settings, later_head
from .volumes import Folder
from .words import MOST_COUNTER, MOST_LINES, MOST_READING, Refused
from .writing import journal_text

# What befalls a server that rolls, beside what every run has.
WEIGHTS = {**KINDS, "roll": 6}
STEPS = (40, 90, 160, 260)
# How often a volume closes though its book can't be carried over.
OFTEN_BOLD = 0.2


class Volume(NamedTuple):
    side: str
    number: int
    entries: list


class Rolling(Run):
    """A run whose servers keep each volume that they close."""

    def __init__(self, rng):
        settings = self.drawn_settings(rng)
        self.kept, self.is_bold = {"A": [], "B": []}, rng.random() < OFTEN_BOLD
        weights = {kind: weight * rng.choice((0.3, 1, 1, 3)) for kind, weight in WEIGHTS.items()}
        moment = rng.choice((10_000, 1_795_377_600_000, MOST_READING - 3_000_000))
        super().__init__(rng, settings, moment, weights, {"A": 0, "B": 0})

    def drawn_settings(self, rng):
        return drawn_settings(rng)

    def roll(self, server):
        closed, entries = server.book, server.entries
        if (closed.down is not None or closed.marks) and not self.is_bold:
            return
        if closed.volume == MOST_VOLUME or sum(isinstance(event, HEAD) for _, event in entries) == len(entries) and self.rng.random() < 0.7:
            return
        self.close(server)
        self.kept[server.side].append(Volume(server.side, closed.volume, entries))
        self.pass_time()
        reading = self.clock(server)
        head = later_head(closed, entries, reading)
        server.book, server.entries = Book(server.side, closed.volume + 1), []
        for event in head:
            self.write(server, reading, event)

    def volumes(self):
        live = [Volume(side, server.book.volume, server.entries) for side, server in self.servers.items()]
        return [*self.kept["A"], *self.kept["B"], *live]


def text_of(volume):
    """The file of a volume: without an end line where it is still written."""
    text = journal_text(volume.side, volume.number, volume.entries)
    return text if isinstance(volume.entries[-1].event, Close) else text[: text.rindex(b"end ")]


def renumbered(volume, entries):
    return text_of(volume._replace(entries=entries))


class Directory:
    """The files of one draw; each trouble changes some of them, and gives what it is called."""

    def __init__(self, rng, kind=Rolling):
        self.rng, self.run = rng, kind(rng)
        for _ in range(rng.choice(STEPS)):
            self.run.step()
        if rng.random() < 0.5:
            self.run.close(rng.choice(list(self.run.servers.values())))
        self.volumes = self.run.volumes()
        self.files = {self.name(volume): text_of(volume) for volume in self.volumes}
        # Which names stand for one file, of copies.
        self.same = {}

    def name(self, volume):
        return f"{volume.side}-{volume.number:07}.journal"

    def some(self, is_fit=lambda volume: True):
        """A drawn volume of those that are fit, None where there is none."""
        fit = [volume for volume in self.volumes if is_fit(volume)]
        return self.rng.choice(fit) if fit else None

    def entries_of(self, kinds):
        return [entry for volume in self.volumes for entry in volume.entries if isinstance(entry.event, kinds)]

    def has_next(self, volume):
        return any(other.side == volume.side and other.number == volume.number + 1 for other in self.volumes)

    def is_last(self, volume):
        return not self.has_next(volume)

    def put(self, volume, text):
        self.files[self.name(volume)] = text

    # The troubles.

    def lost(self):
        if volume := self.some():
            self.files.pop(self.name(volume), None)

    def one_side(self):
        side = self.rng.choice("AB")
        self.files = {name: octets for name, octets in self.files.items() if name[0] != side}
        self.files["B.txt"] = b"nothing\n"

    def copied(self):
        if (volume := self.some()) and self.name(volume) in self.files:
            self.files["copy"] = self.files[self.name(volume)]
            self.same["copy"] = self.name(volume)

    def copied_otherwise(self):
        if (volume := self.some()) and len(volume.entries) > 3:
            self.files["copy"] = renumbered(volume, volume.entries[:-1])

    def copied_with_another_octet(self):
        if volume := self.some():
            text = bytearray(text_of(volume))
            text[self.rng.randrange(len(text))] ^= 1
            self.files["copy"] = bytes(text)

    def open_end(self):
        """A last volume that goes on: a piece of a line, or zero octets with or without something behind, or no close line."""
        if volume := self.some(self.is_last):
            entries = [entry for entry in volume.entries if not isinstance(entry.event, Close)]
            tails = (b"", b"%d 17" % (len(entries) + 1), bytes(64), b"1 2\0" + bytes(9) + b"x\n", b"\0end 3\n")
            self.put(volume, renumbered(volume, entries) + self.rng.choice(tails))

    def no_end(self):
        """A close line without its end line."""
        if volume := self.some(lambda volume: isinstance(volume.entries[-1].event, Close)):
            text = text_of(volume)
            self.put(volume, text[: text.rindex(b"end ")] + self.rng.choice((b"", b"en", bytes(5), b"end")))

    def cut_in_head(self):
        """A last volume of head lines alone, whole or not."""
        if volume := self.some(lambda volume: self.is_last(volume) and volume.number > 1):
            head = [entry for entry in volume.entries if isinstance(entry.event, HEAD)]
            count = self.rng.choice((len(head), len(head), self.rng.randint(1, len(head))))
            self.put(volume, renumbered(volume, head[:count]))

    def not_closed(self):
        if volume := self.some(self.has_next):
            entries = volume.entries[:-1]
            self.put(volume, renumbered(volume, entries[: self.rng.choice((len(entries), self.rng.randint(1, len(entries))))]))

    def one_line_else(self):
        """A line that is away, stands twice, or is another's."""
        if volume := self.some():
            entries = list(volume.entries)
            place = self.rng.randrange(len(entries))
            kind = self.rng.choice(("drop", "twice", "swap", "other"))
            if kind == "drop" and len(entries) > 2:
                del entries[place]
            elif kind == "twice":
                entries.insert(place, entries[place])
            elif kind == "swap" and place + 1 < len(entries):
                one, other = entries[place : place + 2]
                entries[place : place + 2] = [one._replace(event=other.event), other._replace(event=one.event)]
            else:
                event = self.rng.choice(self.entries_of(object)).event
                entries[place] = entries[place]._replace(event=event)
            self.put(volume, renumbered(volume, entries))

    def other_words(self):
        if volume := self.some():
            self.put(volume, changed_words(self.rng, text_of(volume)))

    def other_head(self):
        """A later volume whose head says something else, by the rules or not."""
        if volume := self.some(lambda volume: volume.number > 1):
            head = [entry for entry in volume.entries if isinstance(entry.event, HEAD)]
            rest = volume.entries[len(head) :]
            places = [place for place, entry in enumerate(head) if isinstance(entry.event, (Base, Carry, UnitLine))]
            place = self.rng.choice(places)
            kind = self.rng.choice(("number", "number", "number", "drop", "add", "later", "cut"))
            if kind == "drop" and len(places) > 1:
                del head[place]
            elif kind == "cut":
                del head[max(place, places[0] + 1) :]
            elif kind == "add":
                event = self.rng.choice(self.entries_of((Carry, UnitLine)) or [head[place]]).event
                head.insert(place + 1, head[place]._replace(event=event))
            elif kind == "later":
                reading = head[0].reading + 1
                head = [*head[:place], *[entry._replace(reading=reading) for entry in head[place:]]]
                rest = [entry._replace(reading=max(reading, entry.reading)) for entry in rest]
            else:
                head[place] = head[place]._replace(event=another(self.rng, head[place].event))
            self.put(volume, renumbered(volume, [*head, *rest]))

    def head_and_close(self):
        """A last volume of its head and a close line, whose head lacks its last line, or has one more of a unit that is as at an opening."""
        if volume := self.some(lambda volume: self.is_last(volume) and volume.number > 1):
            head = [entry for entry in volume.entries if isinstance(entry.event, HEAD)]
            last = head[-1].event
            if self.rng.random() < 0.5 and isinstance(last, (Carry, UnitLine)):
                del head[-1]
            else:
                after = [unit for unit in sorted(self.run.units) if not isinstance(last, UnitLine) or last.prefix < unit]
                untouched = [UnitLine(unit, "free", None, 0, 0, 0, 0, 0, 0, 0, "none", None) for unit in after]
                head += [head[-1]._replace(event=event) for event in untouched[:1]]
            self.put(volume, renumbered(volume, [*head, head[-1]._replace(event=Close())]))

    def early(self):
        """A later volume all of whose lines read less than the volume before ends."""
        if volume := self.some(lambda volume: volume.number > 1):
            by = self.rng.choice((1, 1, 1000, 10**6))
            self.put(volume, renumbered(volume, [entry._replace(reading=max(0, entry.reading - by)) for entry in volume.entries]))

    def long_ago(self):
        """Readings that fall within a volume."""
        if volume := self.some():
            entries = list(volume.entries)
            entries[-1] = entries[-1]._replace(reading=max(0, entries[0].reading - self.rng.choice((0, 1, 500))))
            self.put(volume, renumbered(volume, entries))

    def other_pair(self):
        if volume := self.some():
            first = volume.entries[0]
            if isinstance(first.event, Open):
                event = first.event._replace(**{self.rng.choice(("skew", "mclt", "life")): self.rng.choice((1, 3, 77))})
                self.put(volume, renumbered(volume, [first._replace(event=event), *volume.entries[1:]]))

    def strange(self):
        """Files that are no volumes."""
        self.files.update(self.rng.sample(STRANGE_FILES, 2))

    def torn(self):
        """Octets behind a close line, or one octet that is another."""
        if volume := self.some():
            text = bytearray(text_of(volume))
            if self.rng.random() < 0.3:
                text += self.rng.choice((b"x", b"\n", b"end 3\n", bytes(3)))
            else:
                text[self.rng.randrange(len(text))] = self.rng.choice(b"0123456789abcdefxyz \n\0")
            self.put(volume, bytes(text))

    def spoiled_ends(self):
        """A file whose first or last lines, by which it is told, are others or none, or behind which something stands."""
        if volume := self.some():
            rows = text_of(volume).split(b"\n")[:-1]
            place = self.rng.choice([place for place in (0, 1, 2, 3, -3, -2, -1) if -len(rows) <= place < len(rows)])
            kind = self.rng.choice(("octet", "blank", "away", "end", "late", "behind"))
            if kind == "octet":
                octets = bytearray(rows[place])
                octets[self.rng.randrange(len(octets))] = self.rng.choice(b"0123456789abcdefxE \0")
                rows[place] = bytes(octets)
            elif kind == "blank":
                rows.insert(place, b"")
            elif kind == "away":
                del rows[place]
            elif kind == "end":
                rows[place] = self.rng.choice((b"end", b"end 3", b"en 3", b"endx", b"e", b"End 3"))
            elif kind == "late":
                number, _, words = (rows[place] + b"  ").split(b" ", 2)
                rows[place] = b"%s %d %s" % (number, MOST_READING + 1, words.strip())
            behind = (b"\0\0", b"9 1", bytes(9) + b"x\n", b"\0\n9 9000000 state normal\n") if kind == "behind" else (b"", b"", b"", b"\0", b"9 1")
            self.put(volume, b"\n".join(rows) + b"\n" + self.rng.choice(behind))

    def great_numbers(self):
        """A volume whose book has numbers over 2^48 when it closes, by the restarts or sends that it begins from."""
        volume = self.some(lambda volume: volume.number > 1 and self.has_next(volume))
        if volume:
            great = {self.rng.choice(("serial", "restart")): 2**48}
            entries = [entry._replace(event=entry.event._replace(**great)) if isinstance(entry.event, Base) else entry for entry in volume.entries]
            self.put(volume, renumbered(volume, entries))

    def words(self):
        """Command words of a join of these files, in a folder of some order."""
        rng = self.rng
        side = rng.choice("AB")
        numbers = [volume.number for volume in self.volumes if volume.side == side]
        words = ["--side", side]
        for name in ("--from", "--to"):
            if rng.random() < 0.3:
                words += [name, str(max(0, rng.choice(numbers) + rng.choice((0, 0, 0, 0, -1, 1, 2))))]
        if rng.random() < 0.05:
            words = rng.choice(STRANGE_WORDS)
        if rng.random() < 0.5:
            return ["--journals", ".", *words]
        files = sorted(self.files)
        rng.shuffle(files)
        place = rng.randint(0, len(files) - 1)
        named = [[word for file in part for word in ("--journals", file)] for part in (files[place:], files[:place])]
        return [*named[0], *words, *named[1]]


STRANGE_FILES = [
    ("noise", bytes(range(256))), ("empty", b""), ("begun", b"pd-journal 2 A 77\n1 12"), ("notes", b"pd-journalist\n"), ("head", b"pd-journal 1 B\n"),
]
STRANGE_WORDS = [
    words.split()
    for words in (
        "", "--side C", "--side A --side A", "--side A --from 0", "--side A --from 01", "--side A --to 1048577", "--side A --from 3 --to 2",
        "--side B --to", "--side b", "--from 1", "--side A --json", "--side A --to x", "--side A --from 1048576", "--side",
        "--side B --to 1048576 --from 1048576", "--side A --skew-ms 3",
    )
]


def another(rng, event):
    """An event of the same kind with one number that is another."""
    fields = [name for name, value in zip(event._fields, event) if isinstance(value, int) and not isinstance(value, bool)]
    name = rng.choice(fields)
    value = getattr(event, name)
    other = rng.choice((value + 1, value - 1, value + 1000, 0, 1, 2**48, 2**48 + 1))
    return event._replace(**{name: max(0, min(MOST_COUNTER, other))})


TROUBLES = [
    Directory.lost, Directory.one_side, Directory.copied, Directory.copied_otherwise, Directory.copied_with_another_octet, Directory.open_end,
    Directory.no_end, Directory.cut_in_head,
    Directory.not_closed, Directory.one_line_else, Directory.one_line_else, Directory.other_words, Directory.other_head, Directory.other_head,
    Directory.head_and_close, Directory.early, Directory.long_ago, Directory.other_pair, Directory.strange, Directory.torn, Directory.great_numbers,
    Directory.spoiled_ends, Directory.spoiled_ends,
]
ASKED_OF_EACH = 4
REFUSED_OF_FILES = tuple(f"refused V{number} " for number in (1, 2, 3, 4))


class Difference(NamedTuple):
    words: list
    files: dict
    second: tuple
    desk: tuple


def second_says(words):
    try:
        written, warned, status = answer_of_files(words)
    except Usage:
        return "", "fault Usage\n", 2
    return written, warned, status


def desk_says(desk, words):
    done = subprocess.run([desk, "join", *words], capture_output=True, stdin=subprocess.DEVNULL, check=False)
    return done.stdout.decode("utf-8", "replace"), done.stderr.decode("utf-8", "replace"), done.returncode


def compared(said, same):
    """What is compared: of standard error the files that are passed over, in any order, without why, and faults of a file or of the words
    without why; a file and its copy are one."""
    written, warned, status = said
    if status == 0 and not warned:
        return said
    for copy, name in same.items():
        written, warned = (text.replace(f"./{copy}", f"./{name}").replace(f" {copy}", f" {name}") for text in (written, warned))
    warned = "fault Usage\n" if warned.startswith("fault Usage\n") else warned
    rows = [row.partition(": ")[0] if row.startswith(("passed over ", "fault Journal ")) else row for row in warned.splitlines()]
    over = sorted(row for row in rows if row.startswith("passed over "))
    return written, [*over, *[row for row in rows if not row.startswith("passed over ")]], status


def differ(first, second, words, same):
    """Whether the answers are two; where several of V1 to V4 apply, either may name any of them."""
    if second[0].startswith(REFUSED_OF_FILES):
        refusals = [f"{refusal}\n" for refusal in Folder(asked_of(words).paths).refusals()]
        return first[0] not in refusals or first[1:] != second[1:]
    return compared(first, same) != compared(second, same)


def kind_of(said):
    """What was answered, in a few words."""
    written, warned, status = said
    first = written.split("\n", 1)[0].split()
    if status == 0:
        return f"joined {min(4, warned.splitlines()[-1].count('.journal'))}"
    if first[:1] == ["refused"]:
        return f"{first[1]} 1" if first[1] == "V7" and first[-1] == "1" else first[1]
    words = warned.splitlines()[-1].split()
    return f"lacking {words[2][:-1]}" if words[0] == "lacking" else " ".join(words[:2])


def long_volume(number, opened, serial, count):
    """The text of a volume of A's whose lines behind its head are contacts, so many, and a close line."""
    head = [b"open 2000 3600 3600", b"pool 2001:0db8:0000:0000:0000:0000:0000:0000/48 56"]
    if number > 1:
        head.append(b"base 0 %d 0 0 0" % serial)
    words = [*head, *(b"send 0 %d contact 0 0" % (serial + place) for place in range(1, count + 1)), b"close"]
    first = b"pd-journal 1 A\n" if number == 1 else b"pd-journal 2 A %d\n" % number
    rows = (b"%d %d %s\n" % (place, opened, each) for place, each in enumerate(words, start=1))
    return first + b"".join(rows) + b"end %d\n" % len(words)


def compare_long(desk):
    """As `compare`, of two volumes whose journal has as many lines as there may be, and of one more."""
    kinds, differences = [], []
    for more in (0, 1):
        first, second = MOST_LINES // 2, MOST_LINES // 2 - 3 + more
        files = {"one": long_volume(1, 9000, 0, first), "two": long_volume(2, 9000, first, second)}
        ask_in_folder(desk, files, [["--journals", ".", "--side", "A"]], {}, kinds, differences)
    return kinds, differences


def unlawful(written):
    """What is wrong of a joined journal that is closed, which must keep the rules too; None where nothing is."""
    if "\nend " not in written:
        return None
    try:
        book_of(read_journal(written.encode(), written.split()[2]))
    except Refused as refused:
        return str(refused)
    return None


def drawn(seed, index):
    """The directory of a draw, with none, one or two troubles."""
    rng = random.Random(f"{seed} {index}")
    directory = Directory(rng)
    for trouble in rng.sample(TROUBLES, rng.choice((0, 1, 1, 1, 2))):
        trouble(directory)
    return directory


def ask_in_folder(desk, files, questions, same, kinds, differences):
    """Asks both in a folder of these files; without a desk the second alone."""
    folder = pathlib.Path(tempfile.mkdtemp(prefix="joins-"))
    before = os.getcwd()
    try:
        for name, octets in files.items():
            (folder / name).write_bytes(octets)
        os.chdir(folder)
        for words in questions:
            second = second_says(words)
            kinds.append(kind_of(second))
            first = desk_says(desk, words) if desk else second
            if second[2] == 0 and (fault := unlawful(second[0])):
                differences.append(Difference(words, files, second, (f"the joined journal: {fault}", "", 2)))
            if differ(first, second, words, same):
                differences.append(Difference(words, files, second, first))
    finally:
        os.chdir(before)
        shutil.rmtree(folder)


def compare(desk, seed, index):
    """How often each answer was met, and the differences."""
    directory = drawn(seed, index)
    kinds, differences = [], []
    questions = [directory.words() for _ in range(ASKED_OF_EACH)]
    ask_in_folder(desk, directory.files, questions, directory.same, kinds, differences)
    return kinds, differences
