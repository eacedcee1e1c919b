"""One run of a node with a partner of ours: settings are drawn, frames and datagrams exchanged, the journal judged."""

import pathlib
import random
import socket

from . import journal
from .book import Book
from .draws import LARGEST_BY_IPV4, Draws
from .drawing import Hostile
from .honest import Honest, judge_safety
from .judge import judge
from .linkend import LinkEnd
from .program import Difference, Node, address_text, free_port, now
from .values import Settings, prefix_of

OWN = bytes.fromhex("00030001020000000009")
HOST = "127.0.0.1"


def drawn_settings(source, role):
    """Few units, so that both servers want the same ones; short lifetimes, so that they end."""
    pools = [(prefix_of("2001:db8::/48"), source.choice((49, 51, 53, 54)))]
    if source.random() < 0.3:
        pools.append((prefix_of("2001:db7::/60"), 62))
    mclt, life = source.choice(((1, 1), (1, 2), (1, 5), (5, 1), (2, 3600), (3600, 3600), (3600, 7200)))
    return Settings(role, OWN, source.choice((0, 0, 3, 100)), mclt, life, pools, source.choice((0, 0, 7)))


def judge_honest(partner, lines):
    """Our book, closed, and the node's keep the promise of the pair together."""
    partner.book.apply(now(), ("close",))
    judge_safety(lines, partner.book.lines)


def keep_text(keep, text):
    """Keeps the journal for whoever looks into a difference."""
    if keep is not None:
        pathlib.Path(keep).write_text(text, encoding="utf-8")


def pair_once(program, seed, count, role, honest, tally, keep=None):
    """One run of so many datagrams; `keep` names a file for the journal."""
    source = random.Random(seed)
    settings = drawn_settings(source, role)
    address = (HOST, free_port(HOST, socket.SOCK_STREAM))
    view = Book.open(0, settings)
    draws = Draws(source, OWN, view, LARGEST_BY_IPV4, source.choice((3, 8, 20)), source.choice((1, 2)), 0.05)
    link = LinkEnd(role, address, source)
    try:
        with Node(program, settings, count, HOST, address_text(*address)) as node:
            partner = (Honest if honest else Hostile)(node, link, draws, source, tally)
            text = partner.run()
            keep_text(keep, text)
            found, lines = journal.read(text)
            if found != role:
                raise Difference(f"a journal of side {found}")
            judge(settings, lines, partner, tally)
            if honest:
                judge_honest(partner, lines)
    except Difference as difference:
        raise Difference(f"{difference}\n{node.said()}") from difference
    finally:
        link.end()
    tally["runs"] += 1
