"""Files of access records: beside a volume, by which relay port each of its grants was asked for."""
import re
from typing import NamedTuple

from .words import MOST_OF_32_BITS, Malformed, number_of

NOTHING = b"-"
ADDRESS = re.compile(rb"[0-9a-f]{4}(:[0-9a-f]{4}){7}")
NAME = re.compile(r"([AB])-(\d{7})\.journal")
IDENTIFIER = re.compile(rb"-|empty|([0-9a-f]{2})+")


class Record(NamedTuple):
    number: int
    words: bytes


def record_of(row):
    """The record that a row spells: its number, and the words of the relay's link address and identifiers."""
    words = row.split(b" ")
    if len(words) != 5:
        raise Malformed
    number, link, interface, remote, source = words
    if not all(IDENTIFIER.fullmatch(word) for word in (interface, remote)):
        raise Malformed
    if not all(word == NOTHING or ADDRESS.fullmatch(word) for word in (link, source)):
        raise Malformed
    if link == NOTHING and (interface, remote) != (NOTHING, NOTHING):
        raise Malformed
    return Record(number_of(number, MOST_OF_32_BITS), b" ".join((link, interface, remote)))


def records_of(octets, side, volume):
    """The words of each number; nothing where the text is another, or is of another volume."""
    rows = octets[: octets.rfind(b"\n") + 1].split(b"\n")[:-1]
    if rows[:1] != [b"pd-access 1 %s %d" % (side.encode(), volume)]:
        return {}
    try:
        return dict(record_of(row) for row in rows[1:])
    except Malformed:
        return {}


def access_lines(certificate, journals, files):
    """The lines behind a certificate that is of the journals of these names; `files` has the octets of each file."""
    known = {}
    for name in journals:
        side, volume = NAME.fullmatch(name).groups()
        known[side] = records_of(files.get(name.removesuffix("journal") + "access", b""), side, int(volume))
    found = []
    for row in certificate:
        if row.startswith("piece "):
            reference = row.split(" ")[1]
            words = known[reference[0]].get(int(reference[1:]))
            found += [f"access {reference} {words.decode()}"] if words else []
    return found
