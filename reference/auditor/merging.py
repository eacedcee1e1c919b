"""Two journals side by side: what was sent and taken, the refusals X1 to X3, and one order of all lines."""
from .journals import Base, Carry, Close, Grant, Release, Send, Take
from .words import SIDES, Reference, Refused, other_side


class Pair:
    """The journals of both sides, and what is asked of them again and again."""

    def __init__(self, first, second):
        self.journals = {"A": first, "B": second}
        self.lines = {side: journal.lines for side, journal in self.journals.items()}
        self.sends = {side: first_sends(self.lines[side]) for side in SIDES}
        self.earlier = {side: serial_before(self.lines[side]) for side in SIDES}
        self.held = [entry for side in SIDES for entry in self.of_clients(side)]

    def of_clients(self, side):
        """The grant, carry and release lines of a side, in their order."""
        for line in self.lines[side]:
            if isinstance(line.event, (Grant, Carry, Release)):
                yield Reference(side, line.number), line

    def line(self, reference):
        """The line that a reference names, None where there is none."""
        lines = self.lines[reference.side]
        return lines[reference.number - 1] if reference.number <= len(lines) else None

    def volume(self, side):
        return self.journals[side].volume

    def open_reading(self, side):
        return self.lines[side][0].reading

    def close_reading(self, side):
        last = self.lines[side][-1]
        assert isinstance(last.event, Close)
        return last.reading

    def takes(self, side):
        """The takes of a side whose sends must stand in the other journal."""
        for line in self.lines[side]:
            if isinstance(line.event, Take) and not self.sent_earlier(side, line.event):
                yield line

    def sent_earlier(self, side, take):
        """Whether a take of this side has its send in an earlier volume of the other side."""
        serial = self.earlier[other_side(side)]
        return serial is not None and take.serial <= serial

    def send_of(self, side, take):
        """The other side's first send of the serial of this side's take, None where there is none."""
        return self.sends[other_side(side)].get(take.serial)


def first_sends(lines):
    sends = {}
    for line in lines:
        if isinstance(line.event, Send):
            sends.setdefault(line.event.serial, line)
    return sends


def serial_before(lines):
    """The last serial that a journal's earlier volumes sent, None where it names none."""
    for line in lines:
        if isinstance(line.event, Base):
            return line.event.serial
    return None


def check_takes(pair):
    """X1 and X2."""
    for side in SIDES:
        for line in pair.takes(side):
            if pair.send_of(side, line.event) is None:
                raise Refused(f"X1 Unsent {side}{line.number}")
    for side in SIDES:
        for line in pair.takes(side):
            sent = pair.send_of(side, line.event).event
            if (sent.term, sent.body) != (line.event.term, line.event.body):
                raise Refused(f"X2 Differs {side}{line.number}")


def merged(pair):
    """The references of all lines in one order, each take after its send."""
    check_takes(pair)
    placed = {"A": 0, "B": 0}
    order = []
    while True:
        ready = [side for side in SIDES if is_ready(pair, side, placed)]
        if not ready:
            break
        side = min(ready, key=lambda name: pair.lines[name][placed[name]].reading)
        placed[side] += 1
        order.append(Reference(side, placed[side]))
    if any(placed[side] < len(pair.lines[side]) for side in SIDES):
        raise Refused("X3 Circular")
    return order


def is_ready(pair, side, placed):
    """Whether the next line of a side may stand next."""
    if placed[side] == len(pair.lines[side]):
        return False
    event = pair.lines[side][placed[side]].event
    if not isinstance(event, Take) or pair.sent_earlier(side, event):
        return True
    return pair.send_of(side, event).number <= placed[other_side(side)]
