"""Lives of the daemon whose answers hang on its clock: behind each datagram the lines that it left are looked at.

The clock is the daemon's own. A line shows its reading; a message that leaves none was served at some reading between
its sending and its answer, and whatever any of these gives is taken.
"""

import copy
import time
from collections import Counter

from . import access, again, answers, journal, matching, messages, rolling
from .beginning import first_events
from .book import BookRefusal
from .ends import Ends
from .life_ports import port_of
from .limiting import Hearing, Policy, named
from .manner import settings_rows
from .program import PATIENCE, Difference, now, settings_line
from .units import ACTIVE
from .ways import ways_of


# How long a server is without its partner, in milliseconds, before it answers what that may know; and how much later or
# earlier than our clock says it may find so.
APART, SLACK = 60_000, 100


class Tail:
    """A file that is written: the whole rows that stand behind those that were read."""

    def __init__(self, path):
        self.path = path
        self.place = 0

    def rows(self):
        if not self.path.exists():
            return []
        with open(self.path, "rb") as file:
            file.seek(self.place)
            octets = file.read()
        whole = octets[:octets.rfind(b"\n") + 1]
        self.place += len(whole)
        return whole.decode().split("\n")[:-1]

    def ends_with(self, row):
        """Whether the row is the last that is there by now."""
        return self.path.exists() and self.path.read_bytes().endswith((row + "\n").encode())


class Exchange:
    """A datagram, its answer (None where there was none), the moments round it, and the lines that it left."""

    def __init__(self, octets, answer, before, after, lines):
        self.octets = octets
        self.answer = answer
        self.before = before
        self.after = after
        self.lines = lines

    def __str__(self):
        answer = "nothing" if self.answer is None else self.answer.hex()
        lines = "".join(f"\n    {journal.line_text(line)}" for line in self.lines)
        return f"  {self.before} {self.octets.hex()}\n  {self.after} {answer}{lines}"


class Life:
    """One life: each datagram goes to the daemon, and what became of it is held against the book."""

    # The lines that no client asked for.
    UNASKED = ("expire",)

    def __init__(self, daemon, draws, book, limits, tally, manner):
        self.daemon = daemon
        self.draws = draws
        self.book = book
        self.told = limits
        self.limits = limits.in_force(book.life)
        self.tally = tally
        self.manner = manner
        self.policy = Policy(self.limits)
        self.hearing = Hearing(self.limits.client_rate)
        self.own = daemon.settings.own
        self.ends = Ends(daemon.has_link)
        self.exchanges = []
        self.noted = []
        self.parted = (daemon.began, now())
        self.tail, self.records = Tail(daemon.volume), Tail(daemon.records)
        self.ask()
        self.look_at_opening(self.tail.rows())
        self.past_records(daemon.past_records)

    def look_at_opening(self, rows):
        """The volume has the lines that it goes on with, or an opening of the daemon's own reading."""
        lines = [journal.spelled_line_of(row) for row in rows[1:]]
        opened = self.book if self.daemon.past else matching.opened(self.daemon.settings, lines)
        self.draws.book = self.book = opened
        for event in first_events(opened, self.daemon.has_link):
            line = lines[len(opened.lines)] if len(opened.lines) < len(lines) else None
            if line is None or line.event != event:
                self.fault(f"awaited {event}, found {line}")
            self.look_at_restart(line.reading)
            opened.append(line)
        if self.daemon.past:
            self.take_unasked(lines[len(opened.lines):])
        if rows != journal.write_open(opened.role, opened.lines).splitlines():
            self.fault("the volume doesn't begin as awaited")
        if not self.daemon.past and not self.daemon.began <= lines[0].reading <= now():
            self.fault("the opening isn't of this life")

    def look_at_restart(self, reading):
        """A restart's reading was taken in this life; one that falls behind the journal's last is written as that last
        one."""
        last = self.book.lines[-1].reading
        if not max(last, self.daemon.began) <= reading <= max(last, now()):
            self.fault(f"the restart's reading {reading} isn't of this life")

    def new_lines(self):
        """The lines that were written since."""
        return [journal.spelled_line_of(row) for row in self.tail.rows()]

    def take_unasked(self, lines):
        """Takes over lines that no client asked for: those by which leases end, each of which has to be due."""
        for line in lines:
            if line.event[0] not in self.UNASKED:
                self.fault(f"a line that nobody asked for: {journal.line_text(line)}")
            if line.event[0] == "expire":
                self.look_at_end(line)
            try:
                self.book.append(line)
            except BookRefusal as refusal:
                self.fault(f"{journal.line_text(line)}: {refusal}")

    def look_at_end(self, line):
        unit = self.book.table.get(line.event[1])
        if unit is None or not self.ends.is_due(self.book, unit, line.reading):
            self.fault(f"a lease ends that the partner may have renewed, or that isn't over: {journal.line_text(line)}")
        self.tally["leases that ended"] += 1
        self.tally["leases that ended with a partner"] += self.ends.has_partner

    def be_answered(self, link):
        """Our end of the link joins a server that waits, answers it and leaves, so that it serves."""
        before = now()
        events = link.answer_and_leave(self.book)
        self.parted = (before, now())
        self.ask()
        lines = self.new_lines()
        if [line.event for line in lines] != events:
            self.fault(f"a server is answered by {lines}, awaited {events}")
        for line in lines:
            self.book.append(line)
        self.tally["first volumes that were answered"] += 1

    def past_records(self, wanted):
        """The file of records has what it goes on with."""
        if self.records.rows() != wanted:
            self.fault("the access records of the past are others")

    def take_records(self, records):
        """What a start takes of a volume's records, in their order: those of units' last grants."""
        self.noted = list(records)
        given = [(access.unit_of(line.event), line.number) for line in self.book.lines]
        last = {prefix: number for prefix, number in given if prefix is not None}
        for number, port in records:
            prefix = access.unit_of(self.book.lines[number - 1].event)
            if last[prefix] == number:
                self.policy.granted(prefix, port)

    def begin_again(self):
        """Has the daemon stop and begin again, by its volume and records alone; one with a partner waits for it."""
        self.start_again()
        self.ask()
        self.look_at_start(self.new_lines())
        self.tally["begun again"] += 1

    def begin_next(self):
        """Has the daemon stop with its volume closed, and begin the next one, which has to say what this one left; its
        records do so before anybody asks."""
        before = now()
        self.start_again("--close")
        self.closed(before)
        self.take_records(self.noted)
        lines = self.enter_next()
        records = self.records_of_units()
        self.await_records(records)
        self.look_at_records(records)
        self.ask()
        self.look_at_start(lines + self.new_lines())
        self.tally["volumes that a start began"] += 1

    def await_records(self, wanted):
        """Waits until a start has written these records, of which nobody asked."""
        until = time.monotonic() + PATIENCE
        while wanted and not self.records.ends_with(wanted[-1]) and time.monotonic() < until:
            time.sleep(0.01)

    def start_again(self, *words):
        """Stops the daemon by these words, and starts it once more."""
        before = now()
        self.daemon.begin_again(*words)
        self.parted = (before, now())
        self.policy, self.hearing = Policy(self.limits), Hearing(self.limits.client_rate)

    def look_at_start(self, lines):
        """What a start writes stands in these lines; it takes the records of its volume."""
        for event in first_events(self.book, self.daemon.has_link):
            restart = next((line for line in lines if line.event == event), None)
            if restart is None:
                self.fault("a server that begins again says so")
            self.take_unasked(lines[:lines.index(restart)])
            self.book.append(restart)
            lines = lines[lines.index(restart) + 1:]
        self.take_unasked(lines)
        self.take_records(self.noted)

    def look_at_records(self, wanted):
        """The records that were written since are these; the first of a volume stands behind the head."""
        is_first = bool(wanted) and self.records.place == 0
        found = self.records.rows()
        if found != [access.head_of(self.book.role, self.book.volume)] * is_first + wanted:
            self.fault(f"access records {found}, awaited {wanted}")
        self.tally["access records"] += len(found)

    def fault(self, words):
        told = (settings_line(self.daemon.settings), *settings_rows(self.manner), *self.told.rows())
        rows = [journal.line_text(line) for line in self.book.lines[-40:]]
        last = [str(exchange) for exchange in self.exchanges[-3:]]
        raise Difference("\n".join((*told, f"after {len(self.exchanges)} datagrams:", *rows, *last, words)))

    def sentinel(self):
        """A message that is always answered and changes nothing, and its answer: a stranger gives back what it
        hasn't."""
        transaction = self.draws.transaction()
        client = b"sentinel" + transaction
        octets = bytes([messages.RELEASE]) + transaction + messages.option(messages.CLIENT_IDENTIFIER, client)
        octets += messages.option(messages.SERVER_IDENTIFIER, self.own) + messages.option(messages.IA_PD, bytes(12))
        message = messages.decode(octets, self.own)
        return octets, answers.octets_of(self.own, message, [answers.NO_BINDING], self.manner)

    def receive(self, last):
        """The answers that come before the last, and when the first of all came."""
        found = []
        came = None
        while True:
            octets = self.daemon.receive()
            came = came or now()
            if octets is None:
                self.fault("no answer to a sentinel")
            if octets == last:
                return found, came
            found.append(octets)

    def ask(self, *datagrams):
        """Sends datagrams and a sentinel, behind whose answer all lines that are due are on the disk."""
        sentinel, last = self.sentinel()
        for octets in (*datagrams, sentinel):
            self.daemon.send(octets)
        return self.receive(last)

    def exchange(self, octets):
        before = now()
        found, came = self.ask(octets)
        lines = self.new_lines()
        exchange = Exchange(octets, found[0] if found else None, before, came, lines)
        self.exchanges.append(exchange)
        if len(found) > 1:
            self.fault(f"{len(found)} answers to one datagram")
        return exchange

    def among_unasked(self, exchange):
        """Takes the lines that no client asked for out of an exchange's, those in front of the message's own over at
        once. Those behind them, or all where the message has none, are left."""
        own = [place for place, line in enumerate(exchange.lines) if line.event[0] not in self.UNASKED]
        first, end = (own[0], own[-1] + 1) if own else (0, 0)
        self.take_unasked(exchange.lines[:first])
        left, exchange.lines = exchange.lines[end:], exchange.lines[first:end]
        return left

    def readings(self, exchange):
        """What the clock can have shown as a message was served; a line of it has no reading below the last."""
        last = self.book.lines[-1].reading
        if not exchange.lines:
            return range(exchange.before, exchange.after + 1)
        reading = exchange.lines[0].reading
        if reading > last:
            if not exchange.before <= reading <= exchange.after:
                self.fault("a line's reading isn't of its message")
            return range(reading, reading + 1)
        return range(exchange.before, min(exchange.after, reading) + 1)

    def put(self, octets, name):
        """Sends one datagram, and judges what became of it."""
        exchange = self.exchange(octets)
        self.tally[name + ", by the clock"] += 1
        self.tally["answered"] += exchange.answer is not None
        left = self.among_unasked(exchange)
        try:
            message = messages.decode(octets, self.own, self.manner.informs)
        except messages.Refused as refusal:
            self.expect(exchange, None, refusal.name)
        else:
            while left and not self.fits(exchange, message):
                self.take_unasked([left.pop(0)])
            self.judge_if_heard(exchange, message, ways_of(self, exchange, message))
        self.take_unasked(left)
        self.expect_ended()

    def expect_ended(self):
        """No lease is left that has to have ended."""
        self.ends.note(self.book)
        moment = self.ends.owed(self.daemon.began, self.exchanges)
        left = None if moment is None else self.ends.left(self.book, moment)
        if left is not None:
            self.fault(f"a lease that is over since {left.own_end}: {left.prefix}")

    def fits(self, exchange, message):
        """Whether what became of a message without lines may be so before the next line that no client asked for."""
        return bool(exchange.lines) or any(self.is_so(exchange.answer, message, way)
                                           for way in ways_of(self, exchange, message))

    def is_so(self, answer, message, way):
        """Whether a message that left no line may have been answered so."""
        if way.is_early:
            return answer is None
        if way.told is not None:
            return answer == self.small(way.told)
        if again.leaves_lines(self.book, message, self.manner, way.permit):
            return False
        return answer == self.small(answers.serve(self.book, self.own, message, way.at, self.manner, way.permit))

    def count_release(self, message, ways, is_early):
        """Counts a RELEASE of a unit of which the partner told, and how near to its bound it came."""
        bound = max((again.early_until(self.book, self.limits.renew_floor, unit)
                     for unit in again.named_units(self.book, message, ways[0].permit)), default=0)
        near = {way.at - bound for way in ways}
        self.tally["RELEASEs that are early"] += is_early
        self.tally["RELEASEs that are early by the clock alone"] += is_early and bound <= self.book.lines[-1].reading
        self.tally["RELEASEs that were early once"] += bound > 0 and not is_early
        self.tally["RELEASEs a millisecond before their bound"] += bound > 0 and near == {-1}
        self.tally["RELEASEs at their bound"] += bound > 0 and near == {0}

    def judge_if_heard(self, exchange, message, ways):
        is_counted = self.limits.client_rate != 0 and message.kind != messages.INFORMATION_REQUEST
        if not is_counted or self.is_heard(exchange, message, ways):
            self.judge(exchange, message, ways)

    def is_heard(self, exchange, message, possible):
        """Whether a message is heard; where that can't be told, since it has no answer either way, it isn't judged."""
        key = (message.client, named(port_of(message)))
        ways = self.hearing.ways(key, {way.at // 1000 for way in possible})
        heard = {way for way in ways if way[2]}
        has_answer = exchange.answer is not None or exchange.lines
        is_silent = any(self.is_silent(message, way) for way in possible)
        if not has_answer and not is_silent:
            self.hearing.note(key, ways - heard or heard)
        else:
            self.hearing.note(key, heard if has_answer else ways)
        if has_answer and not heard:
            self.fault("awaited that it isn't heard")
        self.tally["messages that aren't heard"] += not has_answer and not is_silent and ways != heard
        return has_answer or ways == heard

    def is_silent(self, message, way):
        """Whether a message has no answer though it is heard."""
        if way.is_early or not message.associations or (self.book.waiting and message.kind != messages.RELEASE):
            return True
        left = message.kind == messages.REBIND and self.manner.is_silent
        held = self.book.table.held
        return message.kind in (messages.RENEW, messages.REBIND) and all(
            way.permit.of(place) == answers.NOTHING or (left and not held.get((message.client, one.identifier)))
            for place, one in enumerate(message.associations))

    def apart(self, exchange):
        """Whether the server may take itself for long without its partner, as it does alone, or may not."""
        if not self.daemon.has_link or self.book.down is not None:
            return (True,)
        if self.parted is None:
            return (False,)
        least, most = exchange.before - self.parted[1] - SLACK, exchange.after - self.parted[0] + SLACK
        return tuple(sorted({least > APART, most > APART}))

    def told_again(self, message, reading, permit):
        """The answer that tells again what the client has; None where the message is ordered."""
        at = self.book.reading_after(reading)
        parts = again.all_told_again(self.book, self.limits.renew_floor, message, at, permit)
        return None if parts is None else answers.octets_of(self.own, message, parts, self.manner)

    def judge(self, exchange, message, ways):
        """Holds what became of a message that was heard against the book."""
        is_early = exchange.answer is None and not exchange.lines and any(way.is_early for way in ways)
        if message.kind == messages.RELEASE:
            self.count_release(message, ways, is_early)
        if is_early:
            return
        ways = [way for way in ways if not way.is_early]
        if not ways:
            self.fault("awaited that nothing is done of an early RELEASE")
        self.count_permit(message, ways[0].permit)
        if not exchange.lines and exchange.answer in [self.small(way.told) for way in ways if way.told is not None]:
            self.tally["messages told again"] += 1
            self.tally["told again, of grants that share a reading"] += self.shares_reading(message)
            self.tally["told again, of what the partner told"] += any(unit.told for unit in self.asked_units(message))
            return
        ordered = [way for way in ways if way.told is None]
        if not ordered:
            self.fault(f"awaited what remains: {ways[-1].told.hex()}")
        self.tally["ordered, the partner's acknowledgement being due"] += message.kind in again.KINDS and any(
            unit.standing and not again.is_settled(unit) for unit in self.asked_units(message))
        way, count = self.fitting(exchange, message, ordered), len(self.book.lines)
        answer = answers.serve(self.book, self.own, message, way.at, self.manner, way.permit)
        self.expect(exchange, self.small(answer), "its orders", self.book.lines[count:])
        self.note_grants(self.book.lines[count:], port_of(message))

    def fitting(self, exchange, message, ways):
        """Of ways that let differ what may be ordered the first by which answer and lines are as they were."""
        different, count = [], len(self.book.lines)
        for way in ways:
            if all(way.permit != other.permit for other in different):
                different.append(way)
        for way in different if len(different) > 1 else ():
            book = copy.deepcopy(self.book)
            answer = answers.serve(book, self.own, message, way.at, self.manner, way.permit)
            if (self.small(answer), book.lines[count:]) == (exchange.answer, exchange.lines):
                self.tally["messages whose moment said what is ordered"] += 1
                return way
        return ways[0]

    def count_permit(self, message, permit):
        """Counts what isn't ordered, and what is ordered since it is unknown."""
        self.tally["IA_PDs denied"] += permit.count(answers.NO_PREFIX)
        self.tally["IA_PDs of RELEASEs from another port"] += permit.count(answers.NO_BINDING)
        kind = "RELEASEs" if message.kind == messages.RELEASE else "renewals"
        self.tally[f"IA_PDs of {kind} left to the partner"] += permit.count(answers.NOTHING)
        self.tally["IA_PDs of renewals of what is unknown, ordered"] += len(permit.anew)

    def asked_units(self, message):
        """The units that a message's client has and asks for."""
        units = [self.book.bound(*order[1:]) for order in answers.orders_of(message)]
        return [unit for unit in units if unit is not None]

    def shares_reading(self, message):
        """Whether a unit that a message asks for has other grants at the reading of its standing one."""
        lines = [unit.standing for unit in self.asked_units(message) if unit.standing is not None]
        grants = Counter((line.reading, line.event[3]) for line in self.book.lines if line.event[0] == "grant")
        return any(grants[line.reading, line.event[3]] > 1 for line in lines)

    def note_grants(self, lines, port):
        """Each grant has a record of the port, which is there before its answer leaves."""
        grants = [line for line in lines if line.event[0] == "grant"]
        source = access.source_of(self.daemon.address[0])
        self.look_at_records([access.record(line.number, port, source) for line in grants])
        self.noted += [(line.number, port) for line in grants]
        for line in grants:
            self.policy.granted(line.event[3], port)

    def small(self, answer):
        """The answer, None where it is too large for the path."""
        return None if answer is not None and len(answer) > self.draws.largest else answer

    def expect(self, exchange, answer, why, lines=()):
        if exchange.answer != answer:
            self.fault(f"({why}): awaited {'nothing' if answer is None else answer.hex()}")
        if exchange.lines != list(lines):
            self.fault(f"({why}): awaited {[journal.line_text(line) for line in lines]}")

    def roll(self):
        """Has the daemon begin its next volume, which has to say what this one left."""
        before = now()
        self.daemon.told("roll")
        self.closed(before)
        lines = self.enter_next()
        self.look_at_records(self.records_of_units())
        self.take_unasked(lines)
        self.tally["rolls"] += 1

    def enter_next(self):
        """Goes over to the next volume, whose head has to say what this one left; the lines behind that."""
        lines, more = rolling.split([journal.spelled_line_of(row) for row in self.next_volume()])
        following = rolling.follow(self.book, lines)
        if isinstance(following, str):
            self.fault(following)
        if not self.book.lines[-1].reading <= lines[0].reading == lines[-1].reading <= max(now(), lines[0].reading):
            self.fault("the next volume's head isn't of this moment")
        self.draws.book = self.book = following
        return more

    def records_of_units(self):
        """What the records of a next volume begin with: those of units that somebody has by a grant with a record."""
        units = [line for line in self.book.lines if line.event[0] == "unit" and line.event[2] == ACTIVE]
        self.noted = [(line.number, self.policy.records[line.event[1]]) for line in units
                      if self.policy.is_recorded(self.book.table.get(line.event[1]))]
        return [access.record(number, port, None) for number, port in self.noted]

    def next_volume(self):
        self.daemon.follow()
        self.tail, self.records = Tail(self.daemon.volume), Tail(self.daemon.records)
        head, *rows = self.tail.rows()
        if head != f"pd-journal 2 {self.book.role} {self.book.volume + 1}":
            self.fault(f"the next volume is {head}")
        return rows

    def finish(self):
        """What is done before the last volume is closed."""

    def closed(self, before):
        """The volume has a close line and the end behind what was looked at, and behind lines that no client asked
        for."""
        *rows, end = self.tail.rows()
        *lines, closing = [journal.spelled_line_of(row) for row in rows]
        self.take_unasked(lines)
        if closing.event != ("close",) or end != f"end {closing.number}":
            self.fault(f"the volume ends with {rows[-1:]}, {end}")
        last = self.book.lines[-1].reading
        if not max(last, before) <= closing.reading <= max(last, now()):
            self.fault(f"the volume is closed at {closing.reading}")
        self.book.append(closing)
        self.tally["journal lines"] += len(self.book.lines)

    def run(self, count):
        rolls = self.draws.pick(6, [], 3, [count // 2], 1, [count // 3, count // 3 + 1, count // 2])
        again_at = self.draws.random.randrange(4 * max(1, count))
        for place in range(count):
            for _ in range(rolls.count(place)):
                self.roll()
            # A volume of which nobody was told is begun anew, and isn't gone on with.
            if place == again_at and rolling.split(self.book.lines)[1]:
                self.draws.pick(1, self.begin_again, 1, self.begin_next)()
            self.put(*self.draws.datagram())
            time.sleep(self.draws.random.choice(self.draws.pauses))
        self.finish()
        before = now()
        self.daemon.journal()
        self.daemon.silent()
        self.closed(before)
