"""Over which volumes of both servers `who` answers out of files, and what it answers there."""
from typing import NamedTuple, Optional

from .books import Book
from .desk import Evidence
from .holders import ByLines, ByMessages, Holders
from .joining import Joined, Stopped, fault_of_head, is_closed, lines_of_followed, named_head, split
from .journals import Base, Open, Send, Take
from .nobody import nobody_named, nobody_over
from .rules import broken_rule
from .values import FORMAT
from .volumes import Fault, Folder, lines_of
from .words import SIDES
from .writing import head_of

# The reasons for which a lease's beginning is looked for in earlier volumes.
LACKING_A_BEGINNING = ("several", "carried", "not_shown")


class Lacking(Exception):
    """No volumes of a side show the moment: its side, and why."""


class Said(NamedTuple):
    """One thing that may be answered: an object, or the client that is named of two journals' texts; and over which volumes."""

    told: Optional[dict]
    holder: Optional[bytes] = None
    texts: tuple = ()
    volumes: str = ""
    # Of which unit lengths the object may say any.
    lengths: tuple = ()
    # The last volume of each side.
    last: tuple = ()
    # Whether one journal is taken up to a message alone that the other doesn't send yet.
    is_cut: bool = False


def fault_of(fault):
    return Said({"fault": f"fault {fault}", "format": FORMAT, "status": 2})


class Shelf:
    """The volumes of a side in some files, each read once."""

    def __init__(self, folder, side):
        self.side = side
        self.files = folder.of_side(side)
        self.ends = {each.number: each for each in folder.ends[side] if self.files[each.number][0] == each.file}
        self.read = {}

    def is_shown(self, number, asked):
        return not self.is_before(number, asked) and not self.is_behind(number, asked)

    def is_before(self, number, asked):
        """Whether the moment is before all that a volume shows."""
        return number > 1 and asked.moment < self.ends[number].opened + asked.skew + asked.transit

    def is_behind(self, number, asked):
        """Whether the moment is behind all that a volume shows."""
        return asked.moment + 1 + asked.skew > self.ends[number].last

    def span_at(self, asked):
        """The numbers of the volumes that show the moment: one, or the two of a roll."""
        if not self.ends:
            raise Lacking(f"{self.side} NoVolume")
        for number in self.ends:
            if self.is_shown(number, asked):
                return range(number, number + 1)
        before = [number for number in self.ends if self.is_before(number, asked)]
        if not before:
            raise Lacking(f"{self.side} Later")
        # Of several rolls in which the moment lies, the first.
        first = min(before)
        if first == min(self.ends):
            raise Lacking(f"{self.side} Older")
        if first - 1 not in self.ends:
            raise Lacking(f"{self.side} Missing")
        return range(first - 1, first + 1)

    def lines(self, number):
        """The lines of a volume, or its fault."""
        if number not in self.read:
            try:
                self.read[number] = lines_of(*self.files[number])
            except Fault as fault:
                self.read[number] = fault
        if isinstance(self.read[number], Fault):
            raise self.read[number]
        return self.read[number]

    def journal(self, numbers):
        """The lines that these volumes are together, and the number of the first."""
        if len(numbers) == 1:
            return numbers[0], self.lines(numbers[0]).lines
        files = [self.files[number] for number in numbers]
        whole = Joined(self.side)
        for file in files:
            whole.add(lines_of(*file) if file is files[-1] else lines_of_followed(*file))
        return whole.number, numbered(whole.lines)

    def check_heads(self, numbers):
        """V7 of these volumes and of the one behind them, each with the one before it: of the last one first."""
        for number in (numbers[-1], numbers[-1] + 1, *reversed(numbers[:-1])):
            if number - 1 in self.files and number in self.files:
                self.check_head(number)

    def check_head(self, number):
        """V7 of a volume and the one before it, where both can be read and the first leads to a closed book."""
        try:
            before, volume = lines_of_followed(*self.files[number - 1]), self.lines(number)
        except Fault:
            return
        head, rest = split(volume.lines)
        book = book_of(before)
        if not rest or book is None or not is_closed(before.lines):
            return
        fault = fault_of_head(head, named_head(book, before.lines, volume.lines[0].reading))
        if fault is not None:
            raise Stopped(f"refused V7 Head {volume.file} {fault}")


def book_of(volume):
    """The book that a volume leads to, None where it breaks a rule."""
    book = Book(volume.side, volume.number)
    for line in volume.lines:
        if broken_rule(book, line) is not None:
            return None
        book.add(line)
    return book


def numbered(lines):
    return [line._replace(number=number) for number, line in enumerate(lines, start=1)]


def last_sent(lines):
    """The last serial that a side sent, in these volumes or before them."""
    serials = [line.event.serial for line in lines if isinstance(line.event, (Send, Base))]
    return max(serials, default=0)


def borne_out(lines, serial):
    """The lines up to the first that takes a message past a serial."""
    for place, line in enumerate(lines):
        if isinstance(line.event, Take) and line.event.serial > serial:
            return lines[:place]
    return lines


def closed_text(side, number, lines):
    """The text of a journal of these lines, closed behind the last one."""
    if not lines:
        # (the words don't say what is said of a copy whose first line the other doesn't bear out)
        raise Fault(f"Shown {side}{number}: the other volume bears out no line of it")
    rows = [b"%d %d %s\n" % (line.number, line.reading, line.words) for line in lines]
    if not is_closed(lines):
        rows.append(b"%d %d close\n" % (len(rows) + 1, lines[-1].reading))
    return b"".join([head_of(side, number).encode(), b"\n", *rows, b"end %d\n" % len(rows)])


def shown(journals):
    """What two journals show, of A and of B, each as far as the other bears it out."""
    (first, lines), (second, others) = journals
    return whole([(first, borne_out(lines, last_sent(others))), (second, borne_out(others, last_sent(lines)))])


def whole(journals):
    """The texts of two journals, of A and of B, closed behind the last line."""
    return tuple(closed_text(side, number, lines) for side, (number, lines) in zip(SIDES, journals))


class Step(NamedTuple):
    """What may be said over some volumes: where nobody is named, and where lines alone name somebody, or messages too."""

    unnamed: Said
    named: Optional[Said] = None
    named_by_messages: Optional[Said] = None
    # The spans that are asked next where nobody is named, None where none are.
    wider: Optional[dict] = None

    def is_refused(self):
        return self.unnamed.told["answer"] != "none"


class Question:
    """Who had a prefix, asked of some files."""

    def __init__(self, folder, asked, settings_differ):
        self.asked, self.settings_differ = asked, settings_differ
        self.shelves = {side: Shelf(folder, side) for side in SIDES}

    def answers(self):
        """What may be answered: more than one thing where only messages show who it was, since no desk has to look at all of them."""
        try:
            spans = self.moment()
        except Lacking as lacking:
            return [Said(self.refused(f"lacking {lacking}"))]
        except Stopped as stopped:
            return [Said(self.refused(stopped.line))]
        except Fault as fault:
            return [fault_of(fault)]
        answers, before = [], None
        while spans is not None:
            try:
                step = self.over(spans)
            except Stopped as stopped:
                return [*answers, before or Said(self.refused(stopped.line))]
            except Fault as fault:
                return [*answers, before or fault_of(fault)]
            if before and step.is_refused():
                return [*answers, before]
            answers += [said for said in (step.named, step.named_by_messages) if said][:1]
            if step.named:
                return answers
            before, spans = step.unnamed, step.wider
        return [*answers, before]

    def moment(self):
        """The numbers of each side's volumes that show the moment. A roll shows it where its two volumes are one journal."""
        spans = {side: shelf.span_at(self.asked) for side, shelf in self.shelves.items()}
        rolls = [side for side, numbers in spans.items() if len(numbers) > 1]
        for side, numbers in spans.items():
            self.shelves[side].lines(numbers[-1])
        for side, numbers in spans.items():
            self.shelves[side].check_heads(numbers)
            try:
                self.shelves[side].journal(numbers)
            except (Stopped, Fault):
                raise Lacking(f"{rolls[0]} Roll") from None
        return spans

    def over(self, spans):
        """What may be said over these spans, and which are asked next."""
        for side, numbers in spans.items():
            self.shelves[side].check_heads(numbers)
        journals = [self.shelves[side].journal(numbers) for side, numbers in spans.items()]
        texts = shown(journals)
        evidence = Evidence(*texts)
        written = [side for side, (_, lines) in zip(SIDES, journals) if not is_closed(lines)]
        told, lengths = nobody_named(evidence, self.asked, self.settings_differ, written)
        last = tuple(numbers[-1] for numbers in spans.values())
        is_cut = [text.count(b"\n") for text in texts] != [text.count(b"\n") for text in whole(journals)]
        told["volumes"] = several_of(volumes_word(spans))
        said = Said(told, None, texts, volumes_word(spans), tuple(lengths), last, is_cut)
        if told["answer"] != "none":
            return Step(said)
        holders = [Holders(kind(evidence.pair), self.asked).named() for kind in (ByLines, ByMessages)]
        named = [said._replace(told=None, holder=holder) if holder else None for holder in holders]
        return Step(said, *named, self.wider(spans, told))

    def wider(self, spans, told):
        """The spans with the volumes before them in which a lease may have begun."""
        is_carried = any(lease["at_the_moment"]["is"] == "carried" for lease in told["leases"])
        if told["why"]["reason"] not in LACKING_A_BEGINNING or not is_carried:
            return None
        taken = {side: self.may_begin_before(side, numbers, spans) for side, numbers in spans.items()}
        if not any(taken.values()):
            return None
        return {side: range(numbers[0] - taken[side], numbers[-1] + 1) for side, numbers in spans.items()}

    def may_begin_before(self, side, numbers, spans):
        """Whether there is a volume before these in which a lease of the moment may have begun."""
        shelf = self.shelves[side]
        return numbers[0] - 1 in shelf.ends and self.asked.moment < shelf.ends[numbers[0]].opened + self.reach(spans)

    def reach(self, spans):
        """For how many milliseconds behind an open line a lease of a volume before is looked for."""
        return 1000 * self.longest(spans) + 2 * (2 * self.asked.skew + self.asked.transit)

    def longest(self, spans):
        """The longest life and the longest mclt that the open lines of these volumes say, together, in seconds."""
        lines = [line.event for side, numbers in spans.items() for number in numbers for line in self.shelves[side].lines(number).lines]
        opened = [event for event in lines if isinstance(event, Open)]
        return max((event.life for event in opened), default=0) + max((event.mclt for event in opened), default=0)

    def refused(self, line):
        return nobody_over(line, self.asked)


def volumes_word(spans):
    """The volumes of an answer, as standard error has them."""
    words = [f"{side}{span[0]}" + (f"-{span[-1]}" if len(span) > 1 else "") for side, span in spans.items()]
    return f"volumes {' '.join(words)}"


def several_of(volumes):
    """The same as objects have them, `A40-48 B39-47`; None where they are one of each side."""
    return volumes.removeprefix("volumes ") if "-" in volumes else None


def answers_of(paths, asked, settings_differ):
    """What may be answered of files: an object or a client, over which volumes."""
    try:
        folder = Folder(paths)
    except Fault as fault:
        return [fault_of(fault)]
    refusals = folder.refusals(together=not settings_differ)
    if refusals:
        return [Said(nobody_over(refusal, asked)) for refusal in refusals]
    return Question(folder, asked, settings_differ).answers()
