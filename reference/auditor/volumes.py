"""Files that hold volumes of two servers: what each says, and the refusals V1 to V4 of all of them together."""
import itertools
import os
from typing import NamedTuple, Optional

from .journals import MOST_READING, Close, Open, Pool, Transit, is_end, line_of, read_journal, volume_of
from .words import Malformed, Refused, SIDES

TIES = (Open, Pool, Transit)
# With what a last line begins that is an end line, or one that was spoiled.
BEGINS_AN_END = b"e"


class Fault(Exception):
    """What the desk says on standard error where it can't answer: `fault Path ..` and the like."""


class Lines(NamedTuple):
    """The lines of a volume, whether or not its file goes on behind them."""

    file: str
    side: str
    number: int
    lines: list


def whole_lines(octets):
    """What stands before the first zero octet, up to its last line feed."""
    written = octets.partition(b"\0")[0]
    return written[: written.rfind(b"\n") + 1]


def place_of(octets):
    """The side and the number of the volume that a file's first line names, None where it names none."""
    head = octets.partition(b"\n")[0]
    for side in SIDES:
        number = volume_of(head, side)
        if number is not None:
            return side, number
    return None


def rows_of(text):
    """The lines behind the head of a text, without a piece of one."""
    return text.split(b"\n")[1:-1]


def told(row):
    """The line that an octet string is, None where it is none that a journal may have."""
    try:
        line = line_of(row)
    except Malformed:
        return None
    return line if line.reading <= MOST_READING else None


def last_of(rows):
    """The last line, or the close line before an end line; None where it is none."""
    if rows and rows[-1].startswith(BEGINS_AN_END):
        line = told(rows[-2]) if len(rows) > 1 else None
        return line if line and isinstance(line.event, Close) else None
    return told(rows[-1]) if rows else None


class Ends(NamedTuple):
    """What a volume's file is told by, and all of it: of two files of one volume all is compared."""

    file: str
    side: str
    number: int
    octets: bytes
    opened: int
    last: int
    ties: Optional[list]


def ends_of(file, octets):
    """What a file is told by, None where it is no volume: its first line, line 1 and the last one."""
    text = whole_lines(octets)
    place, rows = place_of(text), rows_of(text)
    first = told(rows[0]) if rows else None
    # A file may go on behind a zero octet, and its own last line tells it.
    last = last_of(rows_of(octets)) or last_of(rows)
    if place is None or first is None or first.number != 1 or last is None:
        return None
    return Ends(file, *place, octets, first.reading, last.reading, ties_of(rows))


def lines_of(file, octets):
    """The lines of a volume's file, whether or not it is closed and ended."""
    text = whole_lines(octets)
    side, number = place_of(text)
    contents = text.split(b"\n")[1:-1]
    if not contents or not is_end(contents[-1]):
        # as if it were closed here: only what stands there can be at fault
        return Lines(file, side, number, open_lines(file, text, side))
    try:
        return Lines(file, side, number, read_journal(text, side).lines)
    except Refused as refused:
        raise Fault(f"Journal {file}: {refused}") from None


def open_lines(file, text, side):
    """The lines of a text that has no end line yet."""
    try:
        read_journal(text, side)
    except Refused as refused:
        count = text.count(b"\n") - 1
        if str(refused) != f"J5 End {side}" or any(is_end(content) for content in text.split(b"\n")[1:-1]):
            raise Fault(f"Journal {file}: {refused}") from None
        lines = [line_of(content) for content in text.split(b"\n")[1:-1]]
        if len(lines) != count:
            raise AssertionError(file) from None
        if any(isinstance(line.event, Close) for line in lines[:-1]):
            raise Fault(f"Journal {file}: {refused}") from None
        return lines
    raise AssertionError(file)


def files_of(path):
    """The files that a PATH names: itself, or those of a directory, and none deeper."""
    if not os.path.exists(path):
        raise Fault(f"Path {path}")
    if not os.path.isdir(path):
        return [path]
    inside = [os.path.join(path, name) for name in sorted(os.listdir(path))]
    return [file for file in inside if os.path.isfile(file) and not file.endswith(".access")]


class Folder:
    """All files of some PATHs: the volumes among them, and those that are none."""

    def __init__(self, paths):
        self.volumes, self.passed_over = [], []
        self.ends = {side: [] for side in SIDES}
        for file in itertools.chain.from_iterable(map(files_of, paths)):
            with open(file, "rb") as opened:
                octets = opened.read()
            ends = ends_of(file, octets)
            if ends is None:
                self.passed_over.append(file)
            else:
                self.volumes.append((file, octets))
                self.ends[ends.side].append(ends)

    def of_side(self, side):
        """One file for each volume of a side, by its number."""
        found = {}
        for file, octets in self.volumes:
            where, number = place_of(octets)
            if where == side:
                found.setdefault(number, (file, octets))
        return dict(sorted(found.items()))

    def refusals(self, together=False):
        """All of V1 to V3 that apply, as lines, of A first; where V4 applies its alone, of each side's files, or of all together."""
        sides = [self.ends[side] for side in SIDES]
        pairs = [[each for side in sides for each in side]] if together else sides
        others = [f"refused {refusal}" for ends in pairs for refusal in self.other_pair(ends)]
        kinds = self.no_volume, self.differing, self.out_of_order
        return others or [f"refused {refusal}" for ends in sides for kind in kinds for refusal in kind(ends)]

    @staticmethod
    def other_pair(ends):
        tied = [each for each in ends if each.ties is not None]
        return [f"V4 OtherPair {one.file} {other.file}" for one, other in itertools.permutations(tied, 2) if one.ties != other.ties]

    @staticmethod
    def no_volume(ends):
        return [f"V1 NoVolume {each.file}" for each in ends if each.last < each.opened]

    @staticmethod
    def differing(ends):
        pairs = itertools.permutations(ends, 2)
        return [f"V2 Differ {one.file} {other.file}" for one, other in pairs if one.number == other.number and one.octets != other.octets]

    @staticmethod
    def out_of_order(ends):
        pairs = itertools.permutations(ends, 2)
        return [f"V3 OutOfOrder {one.file} {other.file}" for one, other in pairs if one.number < other.number and other.opened < one.last]


def ties_of(rows):
    """The words of the open, pool and transit lines that a volume begins with; None where no other line follows them, or one that is none."""
    ties = []
    for row in rows:
        try:
            line = line_of(row)
        except Malformed:
            return None
        if not isinstance(line.event, TIES):
            return ties
        ties.append(line.words)
    return None
