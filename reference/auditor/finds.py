"""What `find` answers out of files: of each stretch of an interval its own pair's reply, or what is found over earlier volumes too."""
from typing import NamedTuple

from .evidence import Evidences, Wanted
from .desk import Evidence
from .holders import ByLines, ByMessages
from .joining import Stopped
from .leases import Asked
from .rulings import texts_over, wider
from .spans import Lacking, Question, several_of, volumes_word
from .volumes import Fault
from .words import SIDES

FOUND, NONE = "found", "none"


class Reply(NamedTuple):
    """What may be said of a stretch: evidence of what was wanted, over two texts, `none`, or a refusal of the pair."""

    line: str
    wanted: Wanted
    texts: tuple = ()
    # The volumes of more than one of a side, None else.
    volumes: object = None
    by_messages: bool = False


class Stretch(NamedTuple):
    """A part of the interval that a pair of volumes shows, and what may be said of it."""

    pair: tuple
    replies: list
    # Whether the two files show less of it than the volumes should.
    is_cut: bool


class Complaints(Exception):
    """What is said of all stretches in the place of them: any of these lines; the words don't rank one file's fault and another's head."""

    def __init__(self, lines):
        super().__init__(*lines)
        self.lines = tuple(dict.fromkeys(lines))


def line_of(complaint):
    """The line that is said of a fault or of a head."""
    return complaint.line if isinstance(complaint, Stopped) else f"fault {str(complaint).partition(': ')[0]}"


class Finds:
    """Evidence of what is wanted, over the volumes of some files."""

    def __init__(self, folder, wanted, skew, transit):
        self.folder, self.wanted, self.skew, self.transit = folder, wanted, skew, transit
        self.shelves = Question(folder, self.asked(wanted.start), True).shelves

    def asked(self, moment):
        return Asked(self.wanted.prefix, moment, self.skew, self.transit)

    def question(self, moment):
        """The question that `who` would be asked, over files that are read once."""
        question = Question(self.folder, self.asked(moment), True)
        question.shelves = self.shelves
        return question

    def stretches(self):
        """The stretches, and whether something of the interval is lacking."""
        found, is_lacking, moment, complaints = [], False, self.wanted.start, []
        while moment is not None:
            spans = self.pair_at(moment)
            if spans is None:
                is_lacking, moment = True, self.begins_behind(moment)
                continue
            end = min(self.wanted.end, *[self.ends(side, numbers) for side, numbers in spans.items()])
            complaints += self.complaints_of(spans)
            if not complaints:
                found.append(self.stretch(spans, moment, end if self.wanted.start < self.wanted.end else self.wanted.end))
            moment = end if moment < end < self.wanted.end else None
        if complaints:
            raise Complaints(complaints)
        return found, is_lacking or any(stretch.is_cut for stretch in found)

    def pair_at(self, moment):
        """The volume of each side that shows a moment, None where there is none."""
        try:
            spans = {side: self.shelves[side].span_at(self.asked(moment)) for side in SIDES}
        except Lacking:
            return None
        return None if any(len(numbers) > 1 for numbers in spans.values()) else spans

    def ends(self, side, numbers):
        """The moment from which a volume shows nothing."""
        return self.shelves[side].ends[numbers[0]].last - self.skew

    def begins_behind(self, moment):
        """The next moment from which a volume shows something, None where the interval has none."""
        opened = [each.opened + self.skew + self.transit for side in SIDES for each in self.shelves[side].ends.values()]
        return min([begun for begun in opened if moment < begun < self.wanted.end], default=None)

    def complaints_of(self, spans):
        """The lines that may be said of a pair instead of a reply: faults of its files, and V7 of each side."""
        for side, numbers in spans.items():
            for asked in (lambda: self.shelves[side].lines(numbers[-1]), lambda: self.shelves[side].check_heads(numbers)):
                try:
                    asked()
                except (Stopped, Fault) as complaint:
                    yield line_of(complaint)

    def stretch(self, spans, start, end):
        """What may be said of a stretch that begins and ends so."""
        question = self.question(start)
        evidence, reply = self.over(question, spans, start, end)
        replies = [reply]
        if reply.line == NONE or reply.by_messages:
            replies = self.further(question, spans, evidence, start, end, reply)
        return Stretch(tuple(spans[side][0] for side in SIDES), replies, reply.wanted.end < end)

    def over(self, question, spans, start, end):
        """The journals that volumes show, and what is said over them of a stretch."""
        texts = texts_over(question, spans)
        evidence = Evidence(*texts)
        refusal = evidence.refusal(self.skew)
        wanted = self.wanted._replace(start=start, end=min(end, *[closed_at(text) - self.skew for text in texts]))
        if refusal:
            return evidence, Reply(f"refused {refusal}", wanted, texts)
        several = several_of(volumes_word(spans))
        by_lines, by_messages = (Evidences(kind(evidence.pair), wanted, self.skew, self.transit).exist() for kind in (ByLines, ByMessages))
        return evidence, Reply(FOUND if by_messages else NONE, wanted, texts, several, by_messages and not by_lines)

    def further(self, question, spans, evidence, start, end, own):
        """What may be said where lines of the pair alone show nothing: of evidence by messages no desk has to find all."""
        found, reply = [own] if own.by_messages else [], None
        none = own._replace(line=NONE, by_messages=False)
        try:
            while (spans := wider(question, spans, evidence)) is not None:
                for side, numbers in spans.items():
                    question.shelves[side].check_heads(numbers)
                evidence, reply = self.over(question, spans, start, end)
                if reply.line not in (FOUND, NONE):
                    break
                found += [reply] if reply.line == FOUND else []
                if reply.line == FOUND and not reply.by_messages:
                    return found
        except (Stopped, Fault):
            # (what can't be joined hides nothing)
            pass
        return [*found, none]


def closed_at(text):
    """The reading of a closed text's last line before its end line."""
    return int(text.splitlines()[-2].split()[1])


class Said(NamedTuple):
    """What is said of a whole interval: its stretches and whether something is lacking, or one of some lines alone."""

    stretches: list
    is_lacking: bool = False
    lines: tuple = ()


def finds_of(folder, wanted, skew, transit):
    """What is said of files."""
    refusals = folder.refusals()
    if refusals:
        return Said([], lines=tuple(refusals))
    try:
        return Said(*Finds(folder, wanted, skew, transit).stretches())
    except Complaints as complaints:
        return Said([], lines=complaints.lines)
    except Fault as fault:
        return Said([], lines=(line_of(fault),))
