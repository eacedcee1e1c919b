"""What both kinds of partner do: connections, clients' datagrams, requests that show how far the node has come."""

import time

from . import frames
from .book import BookRefusal
from .down import exchange, note, wants_answer
from .frames import Frame
from .messages import RELEASE
from .program import Difference, now
from .units import ACTIVE, BACKUP, EXPIRED, RELEASED

STATUS_OF_UPDATE = {"active": ACTIVE, "expired": EXPIRED, "released": RELEASED, "backup": BACKUP, "free": BACKUP}
A_MOMENT = 0.002


class Mark:
    """Something that the partner asked for, and the moments before and after which all other things happened."""

    def __init__(self, kind, before, after, connection, count=0):
        self.kind = kind
        self.before = before
        self.after = after
        self.connection = connection
        self.count = count


class Partner:
    """The partner of one node; `view` is what it knows of the node's book, and `events` what the judge is told."""

    def __init__(self, node, link, draws, source, tally):
        self.node = node
        self.link = link
        self.draws = draws
        self.random = source
        self.tally = tally
        self.view = draws.book
        self.events = []
        self.serial = 0
        self.sent = {}
        self.received = {}
        self.last = 0
        self.datagrams = 0
        self.joined = False
        self.finished = False
        self.is_first_told = False
        self.withheld = None
        self.questions = []

    def told(self):
        """The last serial that we say we took."""
        return self.last

    def open(self):
        """Begins a connection; a secondary may not have seen yet that the one before is over."""
        for _ in range(100):
            self.joined = self.link.open(self.told())
            if self.joined:
                break
            time.sleep(0.05)
        else:
            raise Difference("the node closes each connection at its start")
        self.next_resent = self.link.connection.told_by_us + 1
        self.is_first_told = False
        self.withheld = self.draws.pick(3, 0, 2, self.random.randrange(60))
        self.tally["connections"] += 1

    def tell_again(self):
        """Tells what is due once more: a partner without a book has nothing."""

    def say_done(self):
        """Says that all is told that was due as the two joined: else the node ends no lease."""
        self.withheld = None
        self.send(Frame(frames.UPDATE_DONE))

    def say_done_in_time(self):
        """Says so at once mostly, and at times some steps later."""
        if self.withheld == 0:
            self.say_done()
        elif self.withheld is not None:
            self.withheld -= 1

    def resend(self):
        """Sends again what the node hasn't taken."""
        told = self.link.connection.told_by_node
        again = [self.sent[serial] for serial in sorted(self.sent) if serial > told]
        if again:
            self.link.send(*again)
            self.tally["frames sent again"] += len(again)

    def release_of_told(self):
        """A RELEASE of a unit of which we told an end, None mostly: to `run` it is never early."""
        told = [unit for unit in self.view.table.ordered if unit.status == ACTIVE and unit.told > 0]
        if not told or not self.draws.chance(0.05):
            return None
        unit = self.random.choice(told)
        self.tally["RELEASEs of what we told of"] += 1
        return self.draws.message(RELEASE, unit.client, [(unit.identifier, unit.prefix)])

    def datagram(self):
        octets = self.release_of_told() or self.draws.datagram()[0]
        wanted = wants_answer(octets, self.node.settings.own)
        sent = exchange(self.node, octets, wanted)
        if wanted:
            note(self.view, sent, self.node.settings.own)
        self.events.append(sent)
        self.datagrams += 1
        self.tally["datagrams"] += 1

    def number(self, body, term=0):
        """A frame of our next serial."""
        self.serial += 1
        frame = frames.message_frame(term, self.serial, body)
        self.sent[self.serial] = frame
        return frame

    def send(self, *sent):
        for frame in sent:
            self.tally[f"frames sent, kind {frame.kind}"] += 1
        self.link.send(*sent)

    def absorb(self, frame):
        """Takes note of a frame of the node."""
        self.link.connection.received.append(frame)
        self.tally[f"frames received, kind {frame.kind}"] += 1
        if frame.kind not in frames.NUMBERED:
            self.unnumbered(frame)
            return
        if frame.serial != self.next_resent:
            raise Difference(f"serial {self.next_resent} awaited: {frame}")
        self.next_resent += 1
        if self.received.setdefault(frame.serial, frame) != frame:
            raise Difference(f"sent again otherwise: {frame}, at first {self.received[frame.serial]}")
        self.last = max(self.last, frame.serial)
        self.learn(frame.body)
        self.took(frame)

    def took(self, frame):
        """A message of the node's book has come."""

    def unnumbered(self, frame):
        """Another frame of the node has come."""
        if frame.kind == frames.DISCONNECT:
            self.finished = True
        elif frame.kind == frames.UPDATE_DONE:
            self.is_first_told = True
        elif frame.kind == frames.UPDATE_REQUEST:
            self.tell_again()
            self.say_done()
        elif frame.kind == frames.POOL_REQUEST:
            self.questions.append(frame)

    def learn(self, body):
        """Keeps what a message tells of the node's unit in the view."""
        if body[0] == "contact":
            return
        unit = self.view.table.get(body[2])
        if body[0] == "reply":
            unit.mine, unit.seen = body[4:6]
            return
        _, status, _, unit.mine, unit.seen, unit.out_end, identifier, client = body
        unit.due = status
        self.view.table.change(unit, STATUS_OF_UPDATE[status], client, identifier)

    def foresee(self, frame):
        """Keeps what a message of ours will do to the node's unit in the view."""
        try:
            self.view.apply(now(), ("take", frame.term, frame.serial, frame.body))
        except BookRefusal:
            self.tally["messages that the view can't take"] += 1

    def poll(self, patience=0.0):
        """Reads what has come; a connection that has ended is joined no more."""
        frame = self.link.next_frame(patience)
        while frame is not None:
            self.absorb(frame)
            frame = self.link.next_frame(0.0)

    def wait_for(self, kind):
        """Reads frames up to the next of the kind, and gives it."""
        while True:
            frame = self.link.next_frame()
            if frame is None:
                raise Difference(f"no frame of kind {kind} after {self.link.connection.sent[-3:]}")
            self.absorb(frame)
            if frame.kind == kind:
                return frame

    def ask(self, kind, frame, answer):
        """Sends a request and waits for its answer, with nothing else going on."""
        before = now()
        time.sleep(A_MOMENT)
        self.send(frame)
        found = self.wait_for(answer)
        connection = self.link.connection
        connection.reached = len(connection.sent)
        count = found.body[0] if found.body else 0
        self.events.append(Mark(kind, before, now(), len(self.link.connections), count))
        time.sleep(A_MOMENT)

    def settle(self):
        """After this the node has taken all frames sent so far, and sent what these made due."""
        self.ask("again", Frame(frames.UPDATE_REQUEST), frames.UPDATE_DONE)
        self.ask("quiet", Frame(frames.UPDATE_REQUEST), frames.UPDATE_DONE)

    def ask_all(self):
        """The request of a server that waits."""
        self.settle()
        self.ask("all", Frame(frames.UPDATE_REQUEST_ALL), frames.UPDATE_DONE)
        self.ask("again", Frame(frames.UPDATE_REQUEST), frames.UPDATE_DONE)

    def ask_pool(self):
        """The secondary's request for units."""
        self.settle()
        self.ask("pool", Frame(frames.POOL_REQUEST), frames.POOL_RESPONSE)

    def lose(self):
        """Ends the connection without a word or with half a frame, and begins another."""
        self.go_on()
        if self.random.random() < 0.3:
            self.link.write(frames.encode(Frame(frames.DISCONNECT))[:self.random.randrange(1, 17)])
        self.link.close()
        self.joined = False
        for _ in range(self.random.choice((0, 0, 3))):
            self.datagram_if_left()
        self.open()
        self.resend()

    def go_on(self):
        """What comes right before a loss."""
        if self.random.random() < 0.5:
            self.settle()

    def datagram_if_left(self):
        if self.datagrams < self.node.count - 1:
            self.datagram()

    def say_goodbye(self):
        """Says DISCONNECT: there is no other connection, and the node goes on serving clients."""
        self.send(Frame(frames.DISCONNECT))
        if not self.link.ended():
            raise Difference("DISCONNECT doesn't end the connection")
        self.poll()
        self.joined = False
        connection = self.link.connection
        connection.reached = len(connection.sent)
        if self.node.settings.role == "A" and self.link.comes_again():
            raise Difference("the primary connects again after DISCONNECT")

    def idle(self):
        """Leaves the node alone for more than a turn."""
        until = time.monotonic() + 1.2
        while time.monotonic() < until:
            self.poll(0.1)

    def finish(self):
        """The last datagrams; the node then says DISCONNECT and ends."""
        while self.datagrams < self.node.count - 1:
            self.datagram()
            self.poll()
        self.settle()
        if self.random.random() < 0.3:
            self.say_goodbye()
        self.datagram()
        if self.joined:
            self.wait_for(frames.DISCONNECT)
            connection = self.link.connection
            connection.reached = len(connection.sent)
        text = self.node.journal()
        self.link.end()
        return text

    def run(self):
        self.open()
        while self.datagrams < self.node.count - 1:
            self.say_done_in_time()
            self.step()
            self.poll()
        return self.finish()

    def step(self):
        raise NotImplementedError
