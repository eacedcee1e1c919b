"""Answers as the desk does: `audit`, `batch`, `explain`, `timeline`, `clocks` and `join`."""
import sys
from typing import NamedTuple

from . import carried
from .auditing import audit
from .certificates import read_certificate
from .clocks import farthest, least_skew, refusal_of, takes_behind
from .joining import asked_of, joined
from .journals import MOST_TRANSIT, read_journal
from .merging import Pair, merged
from .report_text import report_text
from .reports import explanation, spelled
from .rules import MOST_SKEW, book_of
from .settings import warnings_of
from .words import Malformed, Refused, number_of

MOST_WORKERS = 64
# What each command is told, with the least and the greatest value, and whether it must be.
OPTIONS = {
    "--skew-ms": (0, MOST_SKEW, True),
    "--transit-ms": (0, MOST_TRANSIT, False),
    "--workers": (1, MOST_WORKERS, True),
}
# Options without a value.
FLAGS = ("--json",)
COMMANDS = {
    "audit": ("--skew-ms", "--transit-ms"),
    "explain": ("--skew-ms", "--transit-ms", "--json"),
    "batch": ("--skew-ms", "--transit-ms", "--workers"),
    "timeline": (),
    "clocks": (),
}


class Usage(Exception):
    """Command words that say nothing."""


class Answer(NamedTuple):
    """What the program writes to standard output and to standard error, and its status."""

    written: str
    warned: str
    status: int


def end_of_text(text):
    """How many octets a text has up to and with its first line that begins with `end`."""
    start = 0
    while not text.startswith(b"end", start):
        feed = text.find(b"\n", start)
        if feed < 0:
            return len(text)
        start = feed + 1
    feed = text.find(b"\n", start)
    return len(text) if feed < 0 else feed + 1


def cut(text):
    """A text up to its end line, and the rest."""
    size = end_of_text(text)
    return text[:size], text[size:]


class Evidence:
    """Two journal texts, read once for any number of certificates."""

    def __init__(self, first, second):
        self.pair = self.carried = None
        self.behind = []
        # The refusal of the texts themselves comes before a certificate's, that of what they say after its form's.
        self.before = self.after = None
        try:
            journals = read_journal(first, "A"), read_journal(second, "B")
        except Refused as refused:
            self.before = refused
            return
        self.pair = Pair(*journals)
        try:
            for journal in journals:
                book_of(journal)
            merged(self.pair)
        except Refused as refused:
            self.after = refused
            return
        self.behind = list(takes_behind(self.pair))
        self.carried = carried.refusal_of(self.pair)

    def refusal(self, skew):
        """What is refused of the two journals, whatever the certificate, None where nothing is."""
        return self.before or self.after or refusal_of(self.behind, skew) or self.carried

    def warned(self, skew, transit):
        """The lines of warning, where both texts are journals."""
        warnings = warnings_of(self.pair.journals.values(), skew, transit) if self.pair else ()
        return "".join(f"{line}\n" for line in warnings)

    def verdict(self, text, skew, transit):
        """The verdict line of a certificate's text, without its line feed."""
        try:
            if self.before:
                raise self.before
            certificate = read_certificate(text)
            if refusal := self.refusal(skew):
                raise refusal
            audit(self.pair, certificate, skew, transit)
        except Refused as refused:
            return f"refused {refused}"
        return "accepted"


def parted(text):
    """Two journals, read, and the certificate behind them."""
    first, rest = cut(text)
    second, certificate = cut(rest)
    return Evidence(first, second), certificate


def audited(text, skew, transit):
    evidence, certificate = parted(text)
    return evidence.verdict(certificate, skew, transit) + "\n", evidence.warned(skew, transit)


def explained(text, skew, transit, as_json):
    """Why a certificate is accepted or refused, as one JSON object or as text."""
    evidence, certificate = parted(text)
    said = explanation(evidence, certificate, skew, transit)
    status = int(said["verdict"] != "accepted")
    return Answer(spelled(said) if as_json else report_text(said), evidence.warned(skew, transit), status)


def batched(text, skew, transit):
    first, rest = cut(text)
    second, rest = cut(rest)
    evidence = Evidence(first, second)
    answers = []
    while rest:
        certificate, rest = cut(rest)
        answers.append(evidence.verdict(certificate, skew, transit) + "\n")
    return "".join(answers), evidence.warned(skew, transit)


def timeline(text):
    """All lines in one order, or the refusal of journals that have none."""
    first, second = cut(text)
    try:
        pair = Pair(read_journal(first, "A"), read_journal(second, "B"))
        order = merged(pair)
    except Refused as refused:
        return f"refused {refused}\n"
    lines = ((reference, pair.line(reference)) for reference in order)
    return "".join(f"{reference} {line.reading} {line.words.decode()}\n" for reference, line in lines)


def clocks(text):
    """The least skew that two journals fit, and the take and its send that need it."""
    evidence = Evidence(*cut(text))
    if evidence.before or evidence.after:
        return f"refused {evidence.before or evidence.after}\n"
    needing = farthest(evidence.behind)
    return f"least-skew {least_skew(evidence.behind)}\n" + (f"{needing}\n" if needing else "")


def options_of(words, names):
    """What command words give for these options."""
    values = {}
    words = list(words)
    while words:
        name, equals, value = words.pop(0).partition("=")
        if name not in names or name in values:
            raise Usage
        if name in FLAGS and not equals:
            values[name] = True
            continue
        if name in FLAGS or not (equals or words):
            raise Usage
        value = value if equals else words.pop(0)
        least, most, _ = OPTIONS[name]
        try:
            values[name] = number_of(value.encode(), most)
        except Malformed:
            raise Usage from None
        if values[name] < least:
            raise Usage
    if any(name in OPTIONS and OPTIONS[name][2] and name not in values for name in names):
        raise Usage
    return values


def answer(words, text):
    """What the program answers to these command words and this input."""
    if not words or words[0] not in COMMANDS:
        raise Usage
    values = options_of(words[1:], COMMANDS[words[0]])
    skew, transit = values.get("--skew-ms"), values.get("--transit-ms", 0)
    warned = ""
    if words[0] == "audit":
        written, warned = audited(text, skew, transit)
    elif words[0] == "batch":
        written, warned = batched(text, skew, transit)
    elif words[0] == "explain":
        return explained(text, skew, transit, "--json" in values)
    elif words[0] == "timeline":
        written = timeline(text)
    else:
        written = clocks(text)
    return Answer(written, warned, int("refused" in written))


def answer_of_files(words):
    """What the program answers to `join`, which takes nothing from standard input."""
    asked = asked_of(words)
    if asked is None:
        raise Usage
    return Answer(*joined(asked))


def main():
    try:
        if sys.argv[1:2] == ["join"]:
            given = answer_of_files(sys.argv[2:])
        else:
            given = answer(sys.argv[1:], sys.stdin.buffer.read())
    except Usage:
        sys.stderr.write("fault Usage\n")
        return 2
    sys.stderr.write(given.warned)
    sys.stdout.write(given.written)
    return given.status
