"""A node that takes its partner for down: it takes over units as time goes by, so the journal is asked afterwards."""

import random
import time

from . import answers, journal, matching, messages
from .draws import LARGEST_BY_IPV4, Draws
from .program import Difference, Node, now
from .values import Settings, prefix_of

PAUSES = (0, 0, 0, 0.01, 0.02, 0.05, 0.1)


def drawn_settings(source):
    """Short lifetimes and few units, so that units are taken over again and again."""
    pools = [(prefix_of("2001:db8::/56"), 56 + source.randrange(4))]
    if source.random() < 0.5:
        pools.append((prefix_of("2001:db7::/60"), 60 + source.randrange(3)))
    return Settings(source.choice("AB"), bytes.fromhex("00030001020000000009"), source.choice((0, 5, 60)), 1,
                    source.choice((1, 1, 2)), pools, source.choice((0, 0, 40)))


def wants_answer(octets, own):
    try:
        return bool(messages.decode(octets, own).associations)
    except messages.Refused:
        return False


def exchange(node, octets, wanted):
    """Sends a datagram, and receives its answer where one is due."""
    before = now()
    node.send(octets)
    answer = node.receive() if wanted else None
    if wanted and answer is None:
        raise Difference(f"no answer to {octets.hex()}")
    return matching.Sent(octets, answer, before, now())


def note(book, sent, own):
    """Keeps what the answer gave in a book that is asked for hints alone."""
    message = messages.decode(sent.octets, own)
    if message.kind in (messages.SOLICIT, messages.RELEASE):
        return
    for order, part in zip(answers.orders_of(message), matching.answer_parts(message, sent.answer)):
        unit = book.table.get(part[1]) if part[0] == "given" else None
        if unit is not None:
            book.table.change(unit, "active", order[1], order[2])


def judge(settings, text, exchanges, tally):
    """Asks the printed journal for each datagram's answer."""
    role, lines = journal.read(text)
    book = matching.opened(settings, lines)
    matcher = matching.Matcher(book, lines, settings.own)
    if role != settings.role or matcher.next_line().event != ("state", "down"):
        matcher.fault("awaited the partner's being down")
    matcher.append()
    for sent in exchanges:
        matcher.datagram(sent)
    matcher.close()
    tally["journal lines"] += len(lines)
    tally["units taken over"] += sum(line.event[0] == "seize" for line in lines)


def serve_down_once(program, seed, count, tally):
    """One run with the partner down."""
    source = random.Random(seed)
    settings = drawn_settings(source)
    scratch = matching.Book.open(0, settings)
    draws = Draws(source, settings.own, scratch, LARGEST_BY_IPV4, source.choice((5, 10, 20)), 2, 0.05)
    exchanges = []
    with Node(program, settings, count, partner_down=True) as node:
        while len(exchanges) < count:
            octets, name = draws.datagram()
            wanted = wants_answer(octets, settings.own)
            sent = exchange(node, octets, wanted)
            if wanted:
                note(scratch, sent, settings.own)
            exchanges.append(sent)
            tally[name + ", partner down"] += 1
            tally["answered"] += wanted
            time.sleep(source.choice(PAUSES))
        judge(settings, node.journal(), exchanges, tally)
        node.silent()
    tally["runs"] += 1
