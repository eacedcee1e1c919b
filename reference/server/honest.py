"""A partner that keeps a book of its own by the rules, serves clients of its own, and tells what it did."""

from . import frames, rules
from .book import Book, BookRefusal
from .frames import Frame
from .judge import choose
from .linkend import OTHER
from .partner import Partner
from .program import Difference, now
from .takes import REJECT
from .units import BACKUP
from .values import Settings


def other_settings(settings):
    return Settings(OTHER[settings.role], settings.own, settings.skew, settings.mclt, settings.life, settings.pools,
                    settings.transit)


class Honest(Partner):
    """The other server of the pair."""

    def __init__(self, node, link, draws, source, tally):
        super().__init__(node, link, draws, source, tally)
        self.book = Book.open(now(), other_settings(node.settings))
        self.taken = 0
        self.keys = set()

    def told(self):
        return self.taken

    def took(self, frame):
        if frame.serial <= self.taken:
            return
        self.taken = frame.serial
        unit = self.book.table.get(frame.body[2]) if frame.body[0] == "reply" else None
        rejected = (unit is not None and frame.body[1] == REJECT and unit.due == BACKUP
                    and frame.body[3] == unit.mine)
        self.book.apply(now(), ("take", frame.term, frame.serial, frame.body))
        if rejected:
            self.book.apply(now(), ("reclaim", unit.prefix))

    def say(self, *order):
        """Sends what an order has to send, under the book's serial."""
        _, serial, body = self.book.apply(now(), order)
        frame = self.number(body, self.book.term)
        if frame.serial != serial:
            raise Difference(f"our serials are {serial} and {frame.serial}")
        self.foresee(frame)
        if self.joined:
            self.send(frame)

    def speak(self):
        """Sends each pending reply and each due update that wasn't sent."""
        for unit in self.book.table.ordered:
            if unit.pending is not None:
                self.say("send reply", unit.prefix)
        for unit in self.book.table.ordered:
            body = unit.update()
            if body is not None and (body[1], body[2], body[3]) not in self.keys:
                self.keys.add((body[1], body[2], body[3]))
                self.say("send update", unit.prefix)

    def tell_again(self):
        """Tells what is due once more."""
        self.keys.clear()
        self.speak()

    def own_client(self):
        """A client asks us."""
        kind = self.draws.pick(5, "request", 3, "renew", 2, "release")
        client, identifier = self.random.choice(self.draws.clients), self.random.choice(self.draws.identifiers)
        held = self.book.table.lowest_held(client, identifier)
        try:
            self.book.apply(now(), (kind, client, identifier, held.prefix if held else None))
            self.tally[f"our clients: {kind}"] += 1
        except BookRefusal as refusal:
            self.tally[f"our clients: {refusal.name}"] += 1

    def expire(self):
        unit = next((unit for unit in self.book.table.ordered if rules.may_expire(unit, now())), None)
        if unit is not None:
            self.book.apply(now(), ("expire", unit.prefix))
            self.tally["our units expired"] += 1

    def answer_pool(self):
        """The secondary wants units."""
        for _ in self.questions:
            moved = choose(self.book)
            for prefix in moved:
                self.book.apply(now(), ("backup", prefix))
            self.send(Frame(frames.POOL_RESPONSE, 0, 0, (len(moved),)))
        self.questions = []

    def step(self):
        steps = [30, self.datagram, 15, self.own_client, 10, self.expire, 0.5, self.settle, 0.15, self.lose,
                 0.2, self.idle, 10, self.answer_pool, 20, self.speak]
        if self.node.settings.role == "A":
            steps += [1, self.ask_pool]
        self.draws.pick(*steps)()


def holdings(lines):
    """What the grants of a journal held: by prefix, the client with the moments from and up to which it held it."""
    grants, releases = [], []
    for line in lines:
        if line.event[0] == "grant":
            _, client, identifier, prefix, valid = line.event
            grants.append((client, identifier, prefix, line.reading, line.reading + 1000 * valid))
        elif line.event[0] == "release":
            releases.append((*line.event[1:], line.reading))
    return grants, releases


def judge_safety(first, second):
    """No prefix is held by two clients at a moment; both journals have readings of one clock."""
    sides = [holdings(first), holdings(second)]
    releases = {}
    for _, ended in sides:
        for client, identifier, prefix, reading in ended:
            releases.setdefault((client, identifier, prefix), []).append(reading)
    held = {}
    for grants, _ in sides:
        for client, identifier, prefix, start, end in grants:
            later = [reading for reading in releases.get((client, identifier, prefix), []) if reading >= start]
            held.setdefault(prefix, []).append((start, min([end] + later), client))
    for prefix, spans in held.items():
        latest = {}
        for start, end, client in sorted(spans):
            others = [until for other, until in latest.items() if other != client]
            if max(others, default=0) > start:
                raise Difference(f"two clients hold {prefix} at {start}")
            latest[client] = max(end, latest.get(client, 0))
