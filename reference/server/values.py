"""Values that the journal, the book and the link share: prefixes, settings, lines and the text of each."""

import ipaddress
from dataclasses import dataclass

READING_LIMIT = 1 << 48
NUMBER_LIMIT = 1 << 49
MOST_LINES = 1 << 20
NOBODY = b""


@dataclass
class Settings:
    """What a server is told: pools are pairs of a prefix and a unit length."""

    role: str
    own: bytes
    skew: int
    mclt: int
    life: int
    pools: list
    transit: int = 0


@dataclass
class Line:
    number: int
    reading: int
    event: tuple


def prefix_of(text):
    """The prefix that a text such as 2001:db8::/48 spells."""
    network = ipaddress.IPv6Network(text)
    return (int(network.network_address), network.prefixlen)


def prefix_text(prefix):
    address, length = prefix
    digits = f"{address:032x}"
    return ":".join(digits[place:place + 4] for place in range(0, 32, 4)) + f"/{length}"


def canonical_prefix(word):
    """The prefix that a word of the journal spells."""
    prefix = prefix_of(word)
    if prefix_text(prefix) != word:
        raise ValueError(word)
    return prefix


def is_prefix(prefix):
    address, length = prefix
    return length <= 128 and address & ((1 << (128 - length)) - 1) == 0


def units_of(pools):
    """All units of the pools, by address."""
    units = []
    for (first, pool_length), length in pools:
        for index in range(1 << (length - pool_length)):
            units.append((first + (index << (128 - length)), length))
    return sorted(units)


def overlap(first, second):
    shorter = min(first[1], second[1])
    return first[0] >> (128 - shorter) == second[0] >> (128 - shorter)
