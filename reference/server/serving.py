"""Drawn datagrams to a node without a partner, each answer compared with the one computed here.

The program is asked by `run`, which knows nothing beside prefixes, and by `serve`, whose manner is drawn.
"""

import random
from dataclasses import replace

from . import answers, journal, messages
from .beginning import first_events
from .book import Book
from .draws import LARGEST_BY_IPV4, LARGEST_BY_IPV6, Draws
from .linkend import partner_of
from .manner import handed_out, settings_rows
from .manner_draws import drawn_manner
from .program import LEAST_TRANSIT, Daemon, Difference, Node, now, settings_line
from .rules import TRANSIT_LIMIT
from .units import FREE
from .values import Line, Settings, overlap, prefix_of

MOST_SILENT = 12
MOST_SILENT_OCTETS = 60_000
LONGEST_LIFE = 600_000
POOLS = ("2001:db8::/48", "2001:db8:1::/48", "fd00::/8", "2001:db8:2::/56", "::/0", "fe80::/10", "2001:db8:3:4::/64",
         "2001:db8:ffff:ffff:ffff:ffff:ffff:fff0/124", "ffff:ffff:ffff:ffff:ffff:ffff:ffff:ffff/128", "::/128")


def drawn_pools(source):
    """One to sixteen pools without a common address, with 0 to 16 bits of units each, 65,536 units at most."""
    if source.random() < 0.7:
        return [(prefix_of("2001:db8::/48"), source.choice((48, 51, 53, 55, 56, 56, 56, 57, 60)))]
    pools, room = [], source.choice((4, 40, 300, 65_536))
    for text in source.sample(POOLS, source.randrange(1, len(POOLS) + 1)):
        prefix = prefix_of(text)
        bits = min(source.choice((0, 0, 1, 2, 3, 6, 8, 16)), 128 - prefix[1])
        if 1 << bits > room or any(overlap(prefix, other) for other, _ in pools):
            continue
        room -= 1 << bits
        pools.append((prefix, prefix[1] + bits))
    return pools or [(prefix_of("2001:db8::/48"), 50)]


def drawn_settings(source):
    """Settings with which no answer of a node without a partner depends on the clock."""
    lifetimes = (1, 2, 9, 50, 3600, 7200, 31_536_000)
    own = source.choice((bytes.fromhex("00030001020000000009"), source.randbytes(3), source.randbytes(130)))
    return Settings("B" if source.random() < 0.05 else "A", own, source.choice((0, 2000, 86_400_000)),
                    source.choice(lifetimes), source.choice(lifetimes), drawn_pools(source),
                    source.choice((0, 0, 1, 500, 3_600_000)))


def drawn_daemon_settings(source):
    """The same for `serve`, which ends leases by its clock, none in a life of these, and wants a transit."""
    while True:
        settings = drawn_settings(source)
        settings.transit = source.choice((LEAST_TRANSIT, TRANSIT_LIMIT))
        if 1000 * min(settings.mclt, settings.life) + 2 * settings.skew + settings.transit >= LONGEST_LIFE:
            return settings


class Session:
    """One run: each datagram goes to the program and to the model."""

    def __init__(self, node, draws, book, tally, manner=answers.PLAIN):
        self.node = node
        self.draws = draws
        self.book = book
        self.manner = manner
        self.began = min([node.began, *(line.reading for line in book.lines if line.reading != 0)])
        self.tally = tally
        self.silent = []
        self.groups = []
        self.sent = 0

    def describe(self, octets, read):
        return f"{read if isinstance(read, str) else 'read'} {octets.hex()}"

    def difference(self, wanted, got):
        since = "\n".join("  " + self.describe(*one) for one in self.silent)
        told = "\n".join((settings_line(self.node.settings), *settings_rows(self.manner)))
        raise Difference(f"{told}\nafter {self.sent} datagrams, {len(self.book.lines)} lines; datagrams since the last "
                         f"answer:\n{since}\nawaited {wanted.hex()}\n"
                         f"received {got.hex() if got is not None else 'nothing'}")

    def put(self, octets, name):
        """Sends one datagram, and compares the answer where one is due."""
        first, before = len(self.book.lines), now()
        answer, read = answers.serve_datagram(self.book, self.node.settings.own, octets, 0, self.manner)
        self.silent.append((octets, read))
        self.node.send(octets)
        self.sent += 1
        self.tally[name] += 1
        if answer is not None and len(answer) > self.draws.largest:
            self.tally["answers too large for the path"] += 1
            answer = None
        if answer is not None:
            got = self.node.receive()
            if got != answer:
                self.difference(answer, got)
            self.silent = []
            self.tally["answered"] += 1
        self.count(read, answer, len(self.book.lines) - first)
        self.groups.append((first, len(self.book.lines), before))

    def count(self, read, answer, lines):
        """Keeps how the datagram was read, and what its answer had beside prefixes."""
        self.tally["read: " + (read if isinstance(read, str) else messages.KIND_NAMES[read.kind])] += 1
        if answer is None:
            is_left = not isinstance(read, str) and read.kind == messages.REBIND and read.associations
            self.tally["REBINDs left to the partner"] += bool(is_left)
            return
        for code, _ in handed_out(self.manner, read):
            self.tally[f"option {code} handed out"] += 1
        if answers.refused_addresses(self.manner, read):
            self.tally["IA_NAs refused"] += 1
        if read.kind == messages.RELEASE and any(len(association.prefixes) > 1 for association in read.associations):
            self.tally[f"RELEASEs of several prefixes, {lines if lines < 2 else 'several'} given back"] += 1

    def wants_sentinel(self):
        octets = sum(len(octets) for octets, _ in self.silent)
        return len(self.silent) >= MOST_SILENT or octets > MOST_SILENT_OCTETS

    def run(self, count, given=()):
        for octets in given:
            self.put(octets, "captured")
        while self.sent < count:
            if self.wants_sentinel():
                self.put(self.draws.sentinel(), "sentinel")
            else:
                self.put(*self.draws.datagram())
        text = self.node.journal()
        self.node.silent()
        self.compare_journals(text)

    def compare_journals(self, text):
        """The printed journal is the book's, readings apart; those don't fall, and a message has one."""
        self.book.apply(0, ("close",))
        role, lines = journal.read(text)
        mine = [(line.number, line.event) for line in self.book.lines]
        for wanted, found in zip(mine, lines):
            if wanted != (found.number, found.event):
                raise Difference(f"journal: awaited {wanted!r}, found {found!r}")
        readings = [line.reading for line in lines]
        if role != self.book.role or len(mine) != len(lines) or readings != sorted(readings):
            raise Difference(f"journal: {len(mine)} lines awaited, {len(lines)} found, or its readings fall")
        if not self.began <= readings[0] <= readings[-1] <= now():
            raise Difference("journal: readings that aren't of this run")
        for first, end, sent in self.groups:
            if len(set(readings[first:end])) > 1 or any(reading < sent for reading in readings[first:end]):
                raise Difference(f"journal: lines {first + 1} to {end} of one message sent at {sent}: "
                                 f"{readings[first:end]}")
        self.tally["journal lines"] += len(lines)


def drawn_run(source, settings, reading=0):
    """What a run draws beside its settings: the host, the book, and the datagrams."""
    host = source.choice(("127.0.0.1", "::1"))
    largest = LARGEST_BY_IPV4 if host == "127.0.0.1" else LARGEST_BY_IPV6
    book = Book.open(reading, settings)
    draws = Draws(source, settings.own, book, largest, source.choice((3, 20, 60)), source.choice((1, 3, 6)),
                  source.choice((0.05, 0.2, 0.4, 1.0)))
    return host, book, draws


def serve_once(program, seed, count, tally, settings=None, given=()):
    """One run of the program under drawn settings."""
    source = random.Random(seed)
    settings = settings or drawn_settings(source)
    host, book, draws = drawn_run(source, settings)
    with Node(program, settings, count, host) as node:
        Session(node, draws, book, tally).run(count, given)
    tally["runs"] += 1


def drawn_past(source, book, draws):
    """Adds the grants of a life before: some identity associations have several prefixes. Where there are none there is
    nothing to go on with."""
    free = [unit.prefix for unit in book.table.ordered if unit.status == FREE]
    for _ in range(min(len(free) // 2, source.randrange(1, 60))):
        prefix = free.pop(source.randrange(len(free)))
        client, identifier = source.choice(draws.clients[:5]), source.choice(draws.identifiers)
        valid = min(book.mclt, book.life)
        book.append(Line(len(book.lines) + 1, book.lines[-1].reading, ("grant", client, identifier, prefix, valid)))
    return any(line.event[0] == "grant" for line in book.lines)


def serve_daemon_once(program, seed, count, tally, settings=None, manner=None, given=()):
    """One life of the daemon under drawn settings and a drawn manner; some name a partner, which answers it and leaves,
    as it has to wait."""
    source = random.Random(seed)
    settings = settings or drawn_daemon_settings(source)
    manner = replace(manner or drawn_manner(source), releases_each=True)
    host, book, draws = drawn_run(source, settings, now())
    has_link = source.random() < 0.2
    has_past = settings.role == "A" and not has_link and source.random() < 0.5 and drawn_past(source, book, draws)
    past = book.lines if has_past else []
    with partner_of(settings) as link, \
            Daemon(program, settings, manner, host, has_link, past, link=link if has_link else None) as daemon:
        for event in first_events(book, has_link):
            book.add(now(), event)
            for told in link.answer_and_leave(book):
                book.add(now(), told)
            tally["first volumes that were answered"] += 1
        Session(daemon, draws, book, tally, manner).run(count, given)
    daemon.count(tally, "lives of the daemon")


def plain_settings():
    """The settings under which the real clients' datagrams were captured, with a transit."""
    pools = [(prefix_of("2001:db8::/48"), 56)]
    return Settings("A", bytes.fromhex("00030001020000000009"), 2000, 3600, 3600, pools, LEAST_TRANSIT)
