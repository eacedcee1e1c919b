"""A partner that sends whatever comes to its mind: frames near what the node's book would take, and far from it."""

import time

from . import frames, program
from .frames import Frame
from .partner import Partner
from .values import NOBODY

LIMIT = 1 << 49


class Hostile(Partner):
    """Draws each message."""

    def __init__(self, node, link, draws, source, tally):
        super().__init__(node, link, draws, source, tally)
        self.answered = set()

    def told(self):
        """A serial that we may have taken last: none above the last sent, none below one that we acknowledged."""
        if self.random.random() < 0.5:
            return self.last
        floor = 0
        for old in self.received.values():
            if old.body[0] == "update" and (old.body[2], old.body[3]) in self.answered:
                floor = max(floor, old.serial)
        return self.random.randrange(floor, self.last + 1)

    def foresee(self, frame):
        """Also keeps what of the node's a reply may have acknowledged."""
        if frame.body[0] == "reply":
            self.answered.add((frame.body[2], frame.body[3]))
        super().foresee(frame)

    def near(self, value, *steps):
        """A number near the value."""
        if self.random.random() < 0.01:
            return self.random.choice((0, LIMIT, self.random.randrange(LIMIT)))
        return min(LIMIT, max(0, value + self.random.choice(steps)))

    def unit(self):
        """A unit, mostly one of those that are in use."""
        table = self.view.table
        used = [place for places in table.held.values() for place in places]
        if used and self.random.random() < 0.5:
            return table.ordered[self.random.choice(sorted(used))]
        return self.random.choice(table.ordered)

    def prefix(self, unit):
        if self.random.random() < 0.97:
            return unit.prefix
        return self.random.choice((self.view.pools[0][0], (unit.prefix[0], 128), (0, 0), (1, 128)))

    def end_told(self, status):
        if status != "active":
            return 0
        now = program.now()
        return self.draws.pick(4, 0, 6, now + self.random.randrange(-2000, 4000), 3, now + 2000 * self.view.life,
                               0.05, LIMIT)

    def client(self, unit):
        if unit.client != NOBODY and self.random.random() < 0.75:
            return unit.identifier, unit.client
        return self.random.choice(self.draws.identifiers), self.random.choice(self.draws.clients)

    def update(self):
        unit = self.unit()
        status = self.draws.pick(10, "active", 4, "expired", 6, "released", 5, "backup", 3, "free", 0.5, "seized")
        identifier, client = self.client(unit)
        if status in frames.WITHOUT_CLIENT:
            identifier, client = 0, NOBODY
        mine = self.near(unit.seen, 1, 1, 1, 1, 2, 3, 0, -1)
        seen = self.near(unit.mine, 0, 0, 0, 0, 1, -1)
        return ("update", status, self.prefix(unit), mine, seen, self.end_told(status), identifier, client)

    def reply(self):
        unit = self.unit()
        verdict = self.draws.pick(8, "accept", 2, "reject")
        return ("reply", verdict, self.prefix(unit), self.near(unit.mine, 0, 0, 0, 0, 0, 0, 1, -1),
                self.near(unit.seen, 1, 1, 1, 1, 1, 2, 0), self.near(unit.seen, 0, 1))

    def contact(self):
        return ("contact", self.near(0, 0, 1, 2, 7), self.near(0, 0, 0, 1))

    def go_on(self):
        """Nothing unread may have been answered by chance, so updates alone come before a loss."""
        self.settle()
        if self.random.random() < 0.5:
            self.messages(replies=0)

    def messages(self, replies=5):
        """One to twenty messages, at times under another term, some said twice."""
        found = []
        for _ in range(self.draws.pick(4, 1, 4, 3, 2, 8, 1, 20)):
            body = self.draws.pick(6, self.update(), replies, self.reply(), 0.3, self.contact())
            term = 0 if self.random.random() < 0.97 else self.random.choice((1, 0xFFFFFFFF))
            frame = self.number(body, term)
            found.append(frame)
            self.foresee(frame)
            if self.random.random() < 0.06:
                found.append(self.repeated(body))
        self.send(*found)

    def repeated(self, body):
        """A frame of a serial that was sent before, the same or with another body."""
        old = self.sent[self.random.choice(sorted(self.sent)[-10:])]
        return old if self.random.random() < 0.7 else Frame(old.kind if body[0] == old.body[0] else
                                                            frames.KIND_OF_BODY[body[0]], 0, old.serial, body)

    def without_effect(self):
        """Frames that change nothing."""
        kind, body = self.random.choice(((frames.UPDATE_DONE, ()), (frames.STATE, (1,)), (frames.STATE, (2,)),
                                         (frames.STATE, (3,)), (frames.POOL_RESPONSE, (self.random.getrandbits(32),))))
        self.send(Frame(kind, self.draws.pick(9, 0, 1, 5), 0, body))

    def spoiled(self):
        """The octets of a frame with a fault."""
        octets = frames.encode(frames.message_frame(0, self.serial + 1, self.update()))
        for _ in range(200):
            found = bytearray(octets)
            for _ in range(self.random.choice((1, 1, 2))):
                found[self.random.choice((0, 1, 2, 3, 3, 4, 4, 9, 17, 18, self.random.randrange(len(found))))] = \
                    self.random.choice((0, 1, 12, 13, 14, 129, 255, self.random.randrange(256)))
            fault = self.fault_of(bytes(found))
            if fault is not None:
                self.tally[f"frames with a fault, {fault}"] += 1
                return bytes(found)
        return bytes(4)

    def fault_of(self, octets):
        try:
            frames.Feed().feed(octets)
        except frames.LinkFault as fault:
            return fault.name
        return None

    def fault(self):
        """A frame with a fault ends the connection."""
        self.put_off(self.spoiled(), "a frame with a fault")

    def jump(self):
        """A message whose serial isn't the next ends the connection, and isn't taken."""
        serial = min(LIMIT, self.serial + 2 + self.draws.pick(3, 0, 1, self.random.randrange(1 << 20), 1, LIMIT))
        self.put_off(frames.encode(frames.message_frame(0, serial, self.update())), "a serial that jumps")
        self.tally["serials that jumped"] += 1

    def put_off(self, octets, what):
        """Sends what ends the connection."""
        self.settle()
        self.link.write(octets)
        if not self.link.ended():
            raise program.Difference(f"{what} doesn't end the connection")
        self.poll()
        self.open()
        self.resend()

    def lie(self):
        """Tells a role or a last serial that can't be: the node refuses such a partner."""
        self.settle()
        self.link.close()
        time.sleep(0.2)
        last, role = self.random.choice(((self.last + 1, None), (LIMIT, None), (self.last, self.link.role)))
        if self.link.open(last, role) and not self.link.ended():
            raise program.Difference(f"the node isn't put off by last {last}, role {role}")
        self.tally["lies that were refused"] += 1
        self.open()
        self.resend()

    def second(self):
        """A second connection while one stands."""
        if not self.link.second():
            raise program.Difference("a second connection stands")
        self.tally["second connections"] += 1

    def answer_pool(self):
        """Says yes or no to a secondary that asks for units; moves come from the messages drawn."""
        if self.questions:
            self.questions = []
            moves = []
            for unit in self.random.sample(self.view.table.ordered, min(4, len(self.view.table.ordered))):
                body = ("update", "backup", unit.prefix, min(LIMIT, unit.seen + 1), unit.mine, 0, 0, NOBODY)
                moves.append(self.number(body))
                self.foresee(moves[-1])
            self.send(Frame(frames.POOL_RESPONSE, 0, 0, (len(moves),)), *moves)

    def step(self):
        steps = [30, self.datagram, 40, self.messages, 4, self.without_effect, 4, self.settle, 1, self.ask_all,
                 0.15, self.idle, 6, self.answer_pool]
        if self.node.settings.role == "A":
            steps += [3, self.ask_pool, 0.1, self.lose, 0.1, self.fault, 0.05, self.lie, 0.1, self.jump]
        else:
            steps += [0.5, self.lose, 0.5, self.fault, 0.3, self.lie, 0.3, self.second, 0.5, self.jump]
        self.draws.pick(*steps)()
