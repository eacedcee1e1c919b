"""Finds in a printed journal the lines of each datagram in turn, between lines that the link or the clock made.

Where time or a partner decides, an answer can't be computed before the journal is known. Here the journal is
replayed line by line in a book, and each datagram has to be answered as the book answers it at a place of the
journal that comes after the places of the datagrams before it.
"""

from . import answers, messages, rules
from .book import Book, BookRefusal
from .journal import event_text
from .program import Difference

CLIENT_EVENTS = ("grant", "release", "seize")


class Sent:
    """A datagram, its answer (None where there was none), and the moments round the two."""

    def __init__(self, octets, answer, before, after):
        self.octets = octets
        self.answer = answer
        self.before = before
        self.after = after


def answer_parts(message, answer):
    """The IA_PDs of an answer, each as the answers of `messages.encode`."""
    octets = answer
    for _ in message.relays:
        octets = next(data for code, data in messages.options(octets, 34) if code == messages.RELAY_MESSAGE)
    parts = []
    for code, data in messages.options(octets, 4):
        if code == messages.IA_PD:
            parts.append(answer_part(data))
    return parts


def answer_part(data):
    code, inner = next(messages.options(data, 12))
    if code == messages.IA_PREFIX:
        prefix = (int.from_bytes(inner[9:25], "big"), inner[8])
        return ("given", prefix, int.from_bytes(inner[4:8], "big"))
    return ("no prefix",) if inner[:2] == b"\0\6" else ("no binding",)


class Matcher:
    """Walks a journal from the opening lines on; `linked` is told of each line that no client made."""

    def __init__(self, book, lines, own, linked=None):
        self.book = book
        self.lines = lines
        self.own = own
        self.linked = linked

    def next_line(self):
        return self.lines[len(self.book.lines)] if len(self.book.lines) < len(self.lines) else None

    def at_client_line(self):
        line = self.next_line()
        return line is None or line.event[0] in CLIENT_EVENTS or line.event[0] == "close"

    def fault(self, words):
        line = self.next_line()
        told = "the end" if line is None else f"{line.number} {line.reading} {event_text(line.event)}"
        raise Difference(f"at line {told}: {words}")

    def append(self):
        try:
            return self.book.append(self.next_line())
        except BookRefusal as refusal:
            return self.fault(f"the book refuses it: {refusal}")

    def advance(self):
        """Replays one line that no client made."""
        if self.linked is not None:
            self.linked(self, self.next_line())
        else:
            self.fault("no datagram and no partner made this line")

    def drain(self, reading=None):
        """Replays the lines that no client made, up to the next that one did, or up to a reading."""
        while not self.at_client_line() and (reading is None or self.next_line().reading <= reading):
            self.advance()

    def datagram(self, sent):
        try:
            message = messages.decode(sent.octets, self.own)
        except messages.Refused as refusal:
            self.expect(sent, None, refusal.name)
            return
        if not message.associations:
            self.expect(sent, None, "no IA_PD")
            return
        if sent.answer is None:
            self.fault(f"no answer to {sent.octets.hex()}")
        found = self.found_answers(message, sent)
        self.expect(sent, messages.encode(message, self.own, found), "its orders")

    def expect(self, sent, wanted, reason):
        if sent.answer != wanted:
            told = [None if octets is None else octets.hex() for octets in (wanted, sent.answer)]
            self.fault(f"datagram {sent.octets.hex()} ({reason}): awaited {told[0]}, received {told[1]}")

    def found_answers(self, message, sent):
        parts = answer_parts(message, sent.answer)
        found = []
        for place, order in enumerate(answers.orders_of(message)):
            if message.kind == messages.RELEASE:
                found.append(self.release(order, sent))
                continue
            if place >= len(parts):
                self.fault(f"too few IA_PDs in {sent.answer.hex()}")
            if message.kind == messages.SOLICIT:
                found.append(self.offer(order, sent, parts[place]))
            elif parts[place][0] == "given":
                found.append(self.grant(order, sent))
            else:
                found.append(self.refused(order, sent, parts[place]))
        return found

    def moments(self, sent):
        """The least and the greatest reading that a line of this datagram could have now."""
        last = self.book.lines[-1].reading
        return max(last, sent.before), max(last, sent.after)

    def somewhere(self, holds, words):
        """Goes on to the first place before the next client's line at which `holds` answers something."""
        while True:
            found = holds()
            if found is not None:
                return found
            if self.at_client_line():
                self.fault(words)
            self.advance()

    def asked(self, order, reading):
        try:
            self.book.check_serving(order)
            unit, valid = self.book.given(reading, order)
            return ("given", unit.prefix, valid)
        except BookRefusal as refusal:
            return answers.ANSWER_OF_REFUSAL.get(refusal.name, (refusal.name,))

    def take_over(self, order, sent):
        """Where an order finds no prefix, the line by which the lowest unit that may be seized is."""
        line = self.next_line()
        if line is not None and line.event[0] == "seize" and self.asked(order, line.reading) == ("no prefix",):
            unit = self.seizable(line.reading)
            if unit is None:
                self.fault("no unit may be seized")
            self.made(("seize", unit.prefix), sent)

    def offer(self, order, sent, part):
        """An offer as the book makes it at one of the readings that it can have been made at; like a request, a
        solicitation that finds no prefix has a unit taken over."""
        def holds():
            early, late = (self.asked(order, reading) for reading in self.moments(sent))
            if part[0] != "given" or early[0] != "given":
                return part if part == early and self.seizable(self.moments(sent)[0]) is None else None
            return part if part[1] == early[1] and early[2] >= part[2] >= late[2] else None
        if part[0] == "given":
            self.take_over(order, sent)
        return self.somewhere(holds, f"offer {part} to {order}: {self.asked(order, sent.after)}")

    def refused(self, order, sent, part):
        """A request or a renewal that leaves no line; where the partner is down no unit may have been seizable."""
        def holds():
            least = self.moments(sent)[0]
            if self.asked(order, least) != part:
                return None
            return part if part[0] != "no prefix" or self.seizable(least) is None else None
        return self.somewhere(holds, f"{part} to {order}: {self.asked(order, sent.after)}")

    def seizable(self, reading):
        """The lowest unit that may be seized, None where none may."""
        if self.book.down is None:
            return None
        return next((unit for unit in self.book.table.ordered if rules.may_seize(self.book, unit, reading)), None)

    def made(self, event, sent):
        """Replays the line of an order, which has to be this event at a reading of its datagram."""
        line = self.next_line()
        least, most = self.moments(sent)
        if line is None or line.event != event:
            self.fault(f"awaited {event_text(event)}")
        if not least <= line.reading <= most:
            self.fault(f"its reading isn't from {least} to {most}")
        self.append()

    def grant(self, order, sent):
        self.drain()
        self.take_over(order, sent)
        line = self.next_line()
        answer = self.asked(order, line.reading if line is not None else sent.before)
        if answer[0] != "given":
            self.fault(f"{answer} to {order}, which was given a prefix")
        self.made(("grant", order[1], order[2], answer[1], answer[2]), sent)
        return answer

    def release(self, order, sent):
        """A release leaves its line, or finds no binding at some place before the next client's line."""
        def nothing():
            try:
                self.book.released(order)
                return None
            except BookRefusal:
                return ("no binding",)
        event = ("release", *order[1:])
        coming = next((line for line in self.lines[len(self.book.lines):] if line.event[0] in CLIENT_EVENTS), None)
        if coming is not None and coming.event == event:
            self.drain()
            self.made(event, sent)
            return ("released",)
        return self.somewhere(nothing, f"no release for {order}")

    def close(self):
        """The rest of the journal: lines that no client made, then the close line."""
        self.drain()
        line = self.next_line()
        if line is None or line.event != ("close",) or len(self.book.lines) != len(self.lines) - 1:
            self.fault("no datagram made this line")
        self.append()


def opened(settings, lines):
    """The book after the opening lines, which have to be those of the settings."""
    wanted = Book.open(lines[0].reading, settings)
    if lines[:len(wanted.lines)] != wanted.lines:
        raise Difference(f"the opening is {lines[:len(wanted.lines)]}")
    return wanted
