"""Judges a journal of a node that had a partner: each of its lines, and what went over the link."""

from . import frames, matching, rules, takes
from .partner import Mark
from .program import Difference
from .units import BACKUP, FREE


def choose(book):
    """The units that the primary moves: the highest free ones, so many that both have the same number."""
    free = [unit.prefix for unit in book.table.ordered if unit.status == FREE]
    backup = sum(unit.status == BACKUP for unit in book.table.ordered)
    count = (len(free) + backup) // 2 - backup
    return list(reversed(free))[:max(count, 0)]


def expected_takes(connections):
    """The frames that the node has to have taken: in each connection the numbered ones above its last taken serial,
    up to the one that it tells at the next connection's start. With each the number of its connection."""
    found, last = [], 0
    for place, connection in enumerate(connections):
        if connection.told_by_node != last:
            told = connection.told_by_node
            raise Difference(f"connection {place + 1}: the node tells that it took {told}, not {last}")
        following = connections[place + 1].told_by_node if place + 1 < len(connections) else None
        for index, frame in enumerate(connection.sent):
            if frame.kind not in frames.NUMBERED or frame.serial <= last:
                continue
            if index >= connection.reached and last == following:
                break
            found.append((frame, place + 1))
            last = frame.serial
    return found


class Judge:
    """Follows the lines that no client made."""

    def __init__(self, partner, tally):
        self.takes = expected_takes(partner.link.connections)
        self.received = partner.received
        self.tally = tally
        self.taken = 0
        self.keys = set()
        self.again = None
        self.backups = []
        self.reclaims = []
        self.contacts = []
        self.asking = None
        self.kind = None

    def __call__(self, matcher, line):
        method = getattr(self, "_" + line.event[0], None)
        if method is None:
            matcher.fault("a line that neither a client nor the link makes")
        method(matcher, line)

    def _take(self, matcher, line):
        if self.taken == len(self.takes):
            matcher.fault("nothing more was sent")
        frame, connection = self.takes[self.taken]
        if line.event != ("take", frame.term, frame.serial, frame.body):
            matcher.fault(f"awaited the take of {frame}")
        self.taken += 1
        body = frame.body
        unit = matcher.book.table.get(body[2]) if body[0] != "contact" else None
        status = "no unit" if unit is None else unit.status
        if self.rejects_backup(body, unit):
            self.reclaims.append(unit.prefix)
        verdict = matcher.append()
        if body[0] == "contact" and body[1] != 0 and verdict == takes.ACCEPT:
            self.asking = connection
        name = body[0] if unit is None else f"{body[0]} {body[1]}"
        self.tally[f"take of {name} at {status}: {verdict}"] += 1

    def rejects_backup(self, body, unit):
        """Whether the primary takes back the unit: a move that is still due was rejected, under whatever term."""
        return (unit is not None and body[:2] == ("reply", takes.REJECT) and unit.due == BACKUP
                and body[3] == unit.mine)

    def _send(self, matcher, line):
        _, term, serial, body = line.event
        frame = self.received.get(serial)
        if frame is not None and frame != frames.message_frame(term, serial, body):
            matcher.fault(f"what came over the link is {frame}")
        if body[0] == "update":
            self.update_sent(matcher, (body[2], body[1], body[3]))
        elif body[0] == "contact":
            self.contact_sent(matcher, serial)
        matcher.append()

    def update_sent(self, matcher, key):
        if key in self.keys:
            if self.again is None or key in self.again:
                matcher.fault("an update that was sent and isn't asked for again")
            self.again.add(key)
        self.keys.add(key)

    def contact_sent(self, matcher, serial):
        """A contact answers one that asked, or a server that waits."""
        if self.asking is None and self.kind != "all":
            matcher.fault("nobody asked")
        self.contacts.append(serial)
        self.asking = None

    def _expire(self, matcher, line):
        units = matcher.book.table.ordered
        lowest = next((unit for unit in units if rules.may_expire(unit, line.reading)), None)
        if lowest is None or lowest.prefix != line.event[1]:
            matcher.fault("not the lowest unit that may expire")
        self.tally["units expired"] += 1
        matcher.append()

    def _backup(self, matcher, line):
        if not self.backups or self.backups.pop(0) != line.event[1]:
            matcher.fault("not the unit to move next")
        self.tally["units moved"] += 1
        matcher.append()

    def _reclaim(self, matcher, line):
        if line.event[1] not in self.reclaims:
            matcher.fault("no rejected move")
        self.reclaims.remove(line.event[1])
        self.tally["units reclaimed"] += 1
        matcher.append()

    def due(self, book):
        bodies = (unit.update() for unit in book.table.ordered)
        return [(body[2], body[1], body[3]) for body in bodies if body is not None]

    def mark(self, matcher, mark):
        matcher.drain(mark.before)
        book = matcher.book
        self.contacts = []
        if mark.kind == "pool":
            self.backups = choose(book)
            if mark.count != len(self.backups):
                matcher.fault(f"{mark.count} units moved, awaited {len(self.backups)}")
        else:
            self.again = set()
        sent = self.keys.intersection(self.due(book))
        self.kind = mark.kind
        matcher.drain(mark.after)
        self.kind = None
        self.judge_mark(matcher, mark, sent)
        self.again = None

    def judge_mark(self, matcher, mark, sent):
        if mark.kind == "pool":
            if self.backups:
                matcher.fault(f"units that weren't moved: {self.backups}")
            return
        for key in self.due(matcher.book):
            if key in sent and key not in self.again:
                matcher.fault(f"asked for again, and not sent: {key}")
        if mark.kind == "quiet":
            self.judge_quiet(matcher, mark)
        if mark.kind == "all" and len(self.contacts) != 1:
            matcher.fault(f"{len(self.contacts)} contacts for a server that waits")

    def judge_quiet(self, matcher, mark):
        """Nothing that the node has to send is left."""
        for unit in matcher.book.table.ordered:
            if unit.pending is not None:
                matcher.fault(f"a reply that isn't sent: {unit.pending}")
        for key in self.due(matcher.book):
            if key not in self.keys:
                matcher.fault(f"an update that isn't sent: {key}")
        if self.reclaims:
            matcher.fault(f"units that aren't reclaimed: {self.reclaims}")
        if self.asking == mark.connection:
            matcher.fault("a contact that asked and wasn't answered")

    def end(self, matcher, finished):
        matcher.close()
        if self.taken != len(self.takes):
            matcher.fault(f"frames that weren't taken: {self.takes[self.taken:][:3]}")
        sent = sum(line.event[0] == "send" for line in matcher.lines)
        if finished and sent != max(self.received, default=0):
            matcher.fault(f"{sent} messages sent, {max(self.received, default=0)} received")


def judge(settings, lines, partner, tally):
    """The printed journal against the datagrams, the marks and the frames of one run."""
    book = matching.opened(settings, lines)
    following = Judge(partner, tally)
    matcher = matching.Matcher(book, lines, settings.own, following)
    for event in partner.events:
        if isinstance(event, Mark):
            following.mark(matcher, event)
        else:
            matcher.datagram(event)
    following.end(matcher, partner.finished)
    tally["journal lines"] += len(lines)
