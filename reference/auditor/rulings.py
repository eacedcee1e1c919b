"""What `audit`, `batch` and `explain` rule of certificates out of files: over their own volumes, or over others too."""
from typing import NamedTuple

from .certificates import read_certificate
from .desk import Evidence
from .leases import Asked, Leases
from .spans import Lacking, Question, shown, volumes_word
from .joining import Stopped
from .volumes import Fault
from .words import Refused

ACCEPTED = "accepted"


class Ruling(NamedTuple):
    """A verdict line, and the volumes that it is over, by side and number, as standard error has them."""

    line: str
    volumes: str = ""


class Rulings:
    """Certificates, ruled over the volumes of some files. A `Stopped` or a `Fault` is said of them all."""

    def __init__(self, folder, skew, transit):
        self.folder, self.skew, self.transit = folder, skew, transit

    def of(self, text):
        """The ruling on a certificate: the first that accepts it, else that over its own pair."""
        try:
            certificate = read_certificate(text)
        except Refused as refused:
            return Ruling(f"refused {refused}")
        own = self.own(certificate, text)
        if own.line == ACCEPTED:
            return own
        return self.near_an_end(certificate, text) or self.between(certificate, text) or own

    def question(self, certificate, moment):
        return Question(self.folder, Asked(certificate.prefix, moment, self.skew, self.transit), True)

    def own(self, certificate, text):
        """The ruling over the pair that shows where the interval begins."""
        question = self.question(certificate, certificate.start)
        try:
            spans = {}
            for side, shelf in question.shelves.items():
                spans[side] = shelf.span_at(question.asked)
                if len(spans[side]) > 1:
                    raise Lacking(f"{side} Roll")
        except Lacking as lacking:
            return Ruling(f"lacking {lacking}")
        for side, numbers in spans.items():
            question.shelves[side].lines(numbers[-1])
        for side, numbers in spans.items():
            question.shelves[side].check_heads(numbers)
        evidence = Evidence(*texts_over(question, spans))
        return Ruling(evidence.verdict(text, self.skew, self.transit), volumes_word(spans))

    def near_an_end(self, certificate, text):
        """The first ruling that accepts it over spans of the first moment, then of the last; None where none does."""
        for moment in (certificate.start, certificate.end - 1):
            if moment >= 0 and (found := self.widest(certificate, text, moment)):
                return found
        return None

    def between(self, certificate, text):
        """The ruling that accepts it over the volumes from the first moment's to the last's; None where these don't."""
        if certificate.end == 0:
            return None
        question = self.question(certificate, certificate.end - 1)
        try:
            spans = first_to_last(question, certificate.start)
            if not are_asked(question, spans):
                return None
            for side, numbers in spans.items():
                question.shelves[side].check_heads(numbers)
            evidence = Evidence(*texts_over(question, spans))
        except (Lacking, Stopped, Fault):
            return None
        is_accepted = evidence.verdict(text, self.skew, self.transit) == ACCEPTED
        return Ruling(ACCEPTED, volumes_word(spans)) if is_accepted else None

    def widest(self, certificate, text, moment):
        """The first ruling that accepts it over the spans that `who` takes at a moment; None where none does."""
        question = self.question(certificate, moment)
        try:
            spans = question.moment()
            while spans is not None:
                for side, numbers in spans.items():
                    question.shelves[side].check_heads(numbers)
                evidence = Evidence(*texts_over(question, spans))
                if evidence.refusal(self.skew):
                    return None
                if evidence.verdict(text, self.skew, self.transit) == ACCEPTED:
                    return Ruling(ACCEPTED, volumes_word(spans))
                spans = wider(question, spans, evidence)
        except (Lacking, Stopped, Fault):
            return None
        return None


def first_to_last(question, start):
    """Of each side the numbers from the first volume that shows a moment to the last that shows the question's."""
    first = question.asked._replace(moment=start)
    spans = {side: (shelf.span_at(first), shelf.span_at(question.asked)) for side, shelf in question.shelves.items()}
    return {side: range(begun[0], ended[-1] + 1) for side, (begun, ended) in spans.items()}


def are_asked(question, spans):
    """Whether volumes up to the question's moment are asked: several of a side, all there, and within reach."""
    if not all(spans.values()) or all(len(numbers) == 1 for numbers in spans.values()):
        return False
    if any(number not in question.shelves[side].ends for side, numbers in spans.items() for number in numbers):
        return False
    return all(len(numbers) == 1 or is_within_reach(question, side, numbers) for side, numbers in spans.items())


def is_within_reach(question, side, numbers):
    """Whether the question's moment is near enough to the beginning of the second of these volumes."""
    shown_by = {each: shelf.span_at(question.asked) for each, shelf in question.shelves.items()}
    return question.asked.moment < question.shelves[side].ends[numbers[1]].opened + question.reach(shown_by)


def texts_over(question, spans):
    """The two journals that these volumes show."""
    return shown([question.shelves[side].journal(numbers) for side, numbers in spans.items()])


def wider(question, spans, evidence):
    """The spans with a volume more in front, where a lease of the prefix is carried, and may have begun there; None else."""
    if not any(lease.state["is"] == "carried" for lease in Leases(evidence.pair, question.asked).all):
        return None
    taken = {side: question.may_begin_before(side, numbers, spans) for side, numbers in spans.items()}
    if not any(taken.values()):
        return None
    return {side: range(numbers[0] - taken[side], numbers[-1] + 1) for side, numbers in spans.items()}
