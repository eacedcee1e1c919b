"""Certificates: from text to values, and the refusals C1 to C3."""
from typing import NamedTuple

from .words import MOST_READING, Malformed, Prefix, Reference, Refused, client_of, number_of, prefix_of, reference_of

HEAD = b"pd-certificate 1"
MOST_LINES = 65_536
# The most octets of a line, its line feed included.
MOST_LINE_OCTETS = 32_768
MOST_REFERENCES = 1_024


class ByChain(NamedTuple):
    """One chain leads from the first line to the second."""

    chain: list


class ByClock(NamedTuple):
    """A chain from the first line and a chain to the second, whose readings lie far enough apart."""

    first: list
    second: list


class Before(NamedTuple):
    order: object


class After(NamedTuple):
    chain: list


class Clear(NamedTuple):
    release: Reference
    why: object


class Piece(NamedTuple):
    grant: Reference
    start: int
    end: int
    latest: list
    earliest: list
    clear: list


class Early(NamedTuple):
    chain: list


class Late(NamedTuple):
    chain: list


class Released(NamedTuple):
    release: Reference
    order: object
    latest: list


class Foreign(NamedTuple):
    grant: Reference
    reason: object


class Certificate(NamedTuple):
    holder: bytes
    prefix: Prefix
    start: int
    end: int
    pieces: list
    foreign: list


def moment_of(word):
    return number_of(word, MOST_READING)


def chain_of(word):
    words = word.split(b">")
    if len(words) > MOST_REFERENCES:
        raise Malformed
    return [reference_of(part) for part in words]


def order_of(words):
    if len(words) == 2 and words[0] == b"chain":
        return ByChain(chain_of(words[1]))
    if len(words) == 3 and words[0] == b"clock":
        return ByClock(chain_of(words[1]), chain_of(words[2]))
    raise Malformed


def want(condition):
    if not condition:
        raise Malformed


def piece_of(words):
    want(len(words) == 8 and words[4] == b"latest" and words[6] == b"earliest")
    grant, start, end = reference_of(words[1]), moment_of(words[2]), moment_of(words[3])
    return Piece(grant, start, end, chain_of(words[5]), chain_of(words[7]), [])


def clear_of(words):
    want(len(words) >= 4)
    release = reference_of(words[1])
    if words[2] == b"before":
        return Clear(release, Before(order_of(words[3:])))
    want(len(words) == 4 and words[2] == b"after")
    return Clear(release, After(chain_of(words[3])))


def foreign_of(words):
    want(len(words) >= 4)
    grant = reference_of(words[1])
    if words[2] == b"released":
        want(len(words) >= 6 and words[-2] == b"latest")
        reason = Released(reference_of(words[3]), order_of(words[4:-2]), chain_of(words[-1]))
        return Foreign(grant, reason)
    want(len(words) == 4 and words[2] in (b"early", b"late"))
    kind = Early if words[2] == b"early" else Late
    return Foreign(grant, kind(chain_of(words[3])))


def add_entry(words, pieces, foreign):
    """Adds what a line after the interval says; pieces with their clear lines stand before foreign lines."""
    if words[0] == b"piece" and not foreign:
        pieces.append(piece_of(words))
    elif words[0] == b"clear" and pieces and not foreign:
        pieces[-1].clear.append(clear_of(words))
    elif words[0] == b"foreign":
        foreign.append(foreign_of(words))
    else:
        raise Malformed


class Reading:
    """What the lines of a certificate so far have said."""

    def __init__(self):
        self.fields = []
        self.pieces = []
        self.foreign = []

    def add(self, content):
        """Takes a line after the first one; gives whether it is the end line."""
        words = content.split(b" ")
        if len(self.fields) == 4:
            if words == [b"end"]:
                return True
            add_entry(words, self.pieces, self.foreign)
        elif not self.fields:
            want(len(words) == 2 and words[0] == b"holder")
            self.fields.append(client_of(words[1]))
        elif len(self.fields) == 1:
            want(len(words) == 2 and words[0] == b"prefix")
            self.fields.append(prefix_of(words[1]))
        else:
            want(len(words) == 3 and words[0] == b"interval")
            self.fields += [moment_of(words[1]), moment_of(words[2])]
        return False


def read_certificate(text):
    """The certificate that a text spells, or its first fault."""
    *contents, rest = text.split(b"\n")
    if not contents or contents[0] != HEAD:
        raise Refused("C1 Head")
    reading = Reading()
    for number, content in enumerate(contents[1:], start=2):
        try:
            want(number <= MOST_LINES and len(content) < MOST_LINE_OCTETS)
            ended = reading.add(content)
        except Malformed:
            raise Refused(f"C2 Form {number}") from None
        if ended:
            if number < len(contents) or rest:
                raise Refused("C3 End")
            return Certificate(*reading.fields, reading.pieces, reading.foreign)
    if rest:
        raise Refused(f"C2 Form {len(contents) + 1}")
    raise Refused("C3 End")
