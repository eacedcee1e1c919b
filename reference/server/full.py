"""A journal that gets full: sixteen lines a datagram, until there is room for the close line alone."""

from . import serving
from .book import FULL, Book
from .draws import LARGEST_BY_IPV4, Draws
from .messages import CLIENT_IDENTIFIER, IA_PD, MOST_IAS, RENEW, REQUEST, SERVER_IDENTIFIER, SOLICIT, option
from .program import Node


def message(kind, transaction, own, count):
    """A message of one client with so many IA_PDs."""
    octets = bytes([kind]) + transaction + option(CLIENT_IDENTIFIER, b"one client")
    if kind != SOLICIT:
        octets += option(SERVER_IDENTIFIER, own)
    return octets + b"".join(option(IA_PD, place.to_bytes(4, "big") + bytes(8)) for place in range(count))


def datagrams(draws, lines):
    """Requests up to the last line that has room, one that goes past it, and messages that get no answer."""
    rounds = (FULL - lines) // MOST_IAS + 1
    for place in range(rounds):
        yield message(REQUEST if place % 2 == 0 else RENEW, draws.transaction(), draws.own, MOST_IAS)
    for kind in (SOLICIT, REQUEST, RENEW, REQUEST):
        yield message(kind, draws.transaction(), draws.own, 1)


def serve_full(program, tally):
    """One run of the program up to a full journal."""
    settings = serving.plain_settings()
    book = Book.open(0, settings)
    draws = Draws(serving.random.Random(1), settings.own, book, LARGEST_BY_IPV4, 1, 2)
    count = (FULL - len(book.lines)) // MOST_IAS + 5
    with Node(program, settings, count) as node:
        serving.Session(node, draws, book, tally).run(count, datagrams(draws, len(book.lines)))
    tally["runs"] += 1
