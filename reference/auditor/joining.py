"""`join`: the volumes of a side, put together as one journal, or why they aren't one."""
import itertools
from typing import NamedTuple, Optional

from .books import Book
from .journals import MOST_VOLUME, Base, Carry, Close, Open, Pool, Transit, UnitLine
from .rules import MOST_CARRIED, broken_rule
from .running import later_head
from .volumes import Fault, Folder, lines_of
from .words import MOST_LINES, SIDES, Malformed, number_of
from .writing import head_of

HEAD = (Open, Pool, Transit, Base, Carry, UnitLine)


class Asked(NamedTuple):
    """What the command's words ask for."""

    paths: list
    side: str
    first: Optional[int]
    last: Optional[int]


class Stopped(Exception):
    """A line of standard output in the place of a journal, with what standard error says then."""

    def __init__(self, line, said=""):
        super().__init__(line)
        self.line, self.said = line, said


def asked_of(words):
    """The values of the words behind `join`; None where they are none."""
    paths, values = [], {}
    words = list(words)
    while words:
        name = words.pop(0)
        if name == "--journals":
            given = list(itertools.takewhile(lambda word: not word.startswith("--"), words))
            del words[: len(given)]
            if not given:
                return None
            paths += given
        elif name in ("--side", "--from", "--to") and name not in values and words:
            values[name] = words.pop(0)
        else:
            return None
    try:
        bounds = [number_of(values[name].encode(), MOST_VOLUME) if name in values else None for name in ("--from", "--to")]
    except Malformed:
        return None
    is_empty = 0 in bounds or (None not in bounds and bounds[0] > bounds[1])
    if not paths or values.get("--side") not in SIDES or is_empty:
        return None
    return Asked(paths, values["--side"], *bounds)


def chosen(asked, folder):
    """The files of the volumes that are asked for, in their order."""
    files = folder.of_side(asked.side)
    over = "".join(f"passed over {file}\n" for file in folder.passed_over)
    if not files:
        raise Stopped("none", f"{over}lacking {asked.side} NoVolume: no file is a journal of this side\n")
    first = asked.first or min([min(files), *([asked.last] if asked.last else [])])
    last = asked.last or max(max(files), first)
    for number in range(first, last + 1):
        if number not in files:
            raise Stopped("none", f"{over}lacking {asked.side} Missing: no file has volume {number}\n")
    return [files[number] for number in range(first, last + 1)]


def split(lines):
    """A volume's head lines, and the others."""
    head = list(itertools.takewhile(lambda line: isinstance(line.event, HEAD), lines))
    return head, lines[len(head) :]


def is_closed(lines):
    return bool(lines) and isinstance(lines[-1].event, Close)


def lines_of_followed(file, octets):
    """The lines of a volume that a further one follows; zero octets up to its close line are at fault."""
    volume = lines_of(file, octets)
    if b"\0" in octets and not is_closed(volume.lines):
        raise Fault(f"Journal {file}: zero octets stand where line {len(volume.lines) + 1} should")
    return volume


def named_head(book, lines, reading):
    """The readings and events of the head that a closed volume names for the next; None where it names none."""
    counts = [book.serial, book.restart, *[unit.mine for unit in book.units.values()]]
    if book.down is not None or book.marks or max(counts) > MOST_CARRIED:
        return None
    at = max(reading, lines[-1].reading)
    head = later_head(book, [(line.reading, line.event) for line in lines], at)
    return [(at, event) for event in head] if len(head) < MOST_LINES else None


def fault_of_head(head, named):
    """The number of the first head line that isn't as named; None where all are."""
    if named is None:
        return 1
    for number, (line, wanted) in enumerate(itertools.zip_longest(head, named), start=1):
        if line is None or wanted is None or (line.reading, line.event) != wanted:
            return number
    return None


class Joined:
    """The journal so far, and the last volume that was put to it with its book."""

    def __init__(self, side):
        self.side, self.number, self.lines = side, None, []
        self.book = self.before = None

    def add(self, volume):
        """Puts a volume behind the others, or says why it can't be."""
        if self.before is not None and not is_closed(self.before.lines):
            raise Stopped(f"refused V5 NotClosed {self.before.file}")
        book = Book(self.side, volume.number)
        for line in volume.lines:
            rule = broken_rule(book, line)
            if rule is not None:
                raise Stopped(f"refused V6 Rule {volume.file} {line.number} {rule}")
            book.add(line)
        head, rest = split(volume.lines)
        if self.before is not None:
            fault = fault_of_head(head, named_head(self.book, self.before.lines, volume.lines[0].reading))
            if fault is not None:
                raise Stopped(f"refused V7 Head {volume.file} {fault}")
            self.lines.pop()
        self.number = self.number or volume.number
        self.lines += volume.lines if self.before is None else rest
        if len(self.lines) > MOST_LINES:
            raise Stopped(f"refused V8 TooLong {volume.file}")
        self.book, self.before = book, volume

    def text(self):
        rows = [f"{number} {line.reading} {line.words.decode()}\n" for number, line in enumerate(self.lines, start=1)]
        end = f"end {len(rows)}\n" if is_closed(self.lines) else ""
        return f"{head_of(self.side, self.number)}\n{''.join(rows)}{end}"


def last_is_untold(files):
    """Whether the last of several volumes is one of which nobody was told: it isn't closed, and has head lines alone."""
    if len(files) < 2:
        return False
    try:
        _, rest = split(lines_of(*files[-1]).lines)
    except Fault:
        # that is said in its turn
        return False
    return not rest


def joined(asked):
    """What standard output has, and standard error, with the exit status."""
    try:
        folder = Folder(asked.paths)
        refusals = folder.refusals()
        if refusals:
            raise Stopped(refusals[0])
        files = chosen(asked, folder)
        last = files[-1]
        if last_is_untold(files):
            files.pop()
        whole = Joined(asked.side)
        for file in files:
            # one that is left out follows the others too
            whole.add(lines_of(*file) if file is last else lines_of_followed(*file))
    except Stopped as stopped:
        return f"{stopped.line}\n", stopped.said, 1
    except Fault as fault:
        return "", f"fault {fault}\n", 2
    over = "".join(f"passed over {file}\n" for file in folder.passed_over)
    return whole.text(), f"{over}journals {' '.join(file for file, _ in files)}\n", 0
