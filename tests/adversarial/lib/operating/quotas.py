"""Quotas that refuse: a server counts each IA_PD, and names each relay port once an hour.

It would find that the port of the message before or after is named; that a port is told again within the hour, as
where an hour begins twice in one turn, or no more when that is over; that more than 64 are told, or others than the
rest counted; that what has no port is passed over, or each of it is told; that a message is counted once, whatever it
asks for, or a renewal too; and that a form of the status counts otherwise than another.
"""
import itertools
import time

from jumping.servers import OUTLASTS
from server.messages import RENEW, REQUEST, SOLICIT

from .ports import NOTHING, Port, Question, in_one_turn, standing

# Leases that outlast four hours, whose answers may leave late.
KIND = {**OUTLASTS, "transit": 120_000, "pools": [("2001:db8::/51", 60)]}
IAS_PER_MESSAGE, UNITS_PER_CLIENT, UNITS_PER_PORT = 4, 5, 2
LIMITS = f"""ias_per_message = {IAS_PER_MESSAGE}
units_per_client = {UNITS_PER_CLIENT}
units_per_port = {UNITS_PER_PORT}
"""
SAID = "<4>node: a quota refused a prefix that was asked for by "
# How many ports are told in an hour, how many octets of one's words, and how many ports ask beside the first ones.
MOST_TOLD, MOST_OF_PORT, FURTHER = 64, 256, 66
# How far the clocks are moved on, in seconds: within the first hour, and after one, two and three.
WITHIN, AFTER_ONE, AFTER_TWO, AFTER_THREE = 3000, 3700, 7400, 11_100
# How soon a server sees that an hour is over, in seconds.
SEES = 30


def name_of(port):
    """What names a port; None where it has no name."""
    return None if port.words.endswith(f" {NOTHING} {NOTHING}") else port.words


class Quotas:
    """What the quotas have to refuse, and what the server has to say of it since its start."""

    def __init__(self, held=None):
        # Of each client's associations that have a prefix, the port by its name.
        self.held = held or {}
        self.lines, self.seen, self.refused = [], set(), 0

    def is_full(self, mine, name, place):
        """Whether a client that has so much gets no more, behind the port of this name, at a place of a message."""
        used = sum(each == name for every in self.held.values() for each in every.values())
        used += sum(each == name for number, each in mine.items())
        return (place >= IAS_PER_MESSAGE or len(mine) >= UNITS_PER_CLIENT
                or name is not None and used >= UNITS_PER_PORT)

    def take(self, question):
        """A message: how many of its associations have a prefix after it."""
        name, mine = name_of(question.port), self.held.pop(question.duid, {})
        found, refused = dict(mine), 0
        for place, number in enumerate(range(question.first, question.first + question.count)):
            if number in found:
                continue
            if self.is_full(found, name, place):
                refused += 1
            else:
                found[number] = name
        self.held[question.duid] = mine if question.kind == SOLICIT else found
        if refused:
            self.refused += refused
            self.see(name)
        return question.count - refused

    def see(self, name):
        """A quota refused something behind this port."""
        if name in self.seen:
            return
        self.seen.add(name)
        if len(self.seen) <= MOST_TOLD:
            port = "no relay port that has a name" if name is None else f"relay port {name[:MOST_OF_PORT]}"
            self.lines.append(SAID + port)

    def end_hour(self):
        """An hour is over."""
        if (more := len(self.seen) - MOST_TOLD) > 0:
            self.lines.append(f"{SAID}the relay ports that were told, and {more} more ports")
        self.seen = set()


def is_told(play, quotas, what, seconds=0):
    """Standard error has these lines of quotas and no other."""
    one, until = play.one, time.monotonic() + seconds
    while (found := [row for row in one.said().splitlines() if " quota " in row]) != quotas.lines:
        if time.monotonic() > until:
            break
        time.sleep(0.1)
    pairs = enumerate(itertools.zip_longest(found, quotas.lines, fillvalue="nothing"), 1)
    number, had, wanted = next(((place, *pair) for place, pair in pairs if pair[0] != pair[1]), (0, "", ""))
    play.see(had == wanted, f"{what}: {one.side}'s line {number} of a quota is {had!r}, wants {wanted!r}; it says "
             f"{len(found)}, wants {len(quotas.lines)}")


def is_counted(play, quotas, what):
    """Each form of its status counts what was refused."""
    one, wanted = play.one, quotas.refused
    rows = one.status()
    keys = [row.partition(": ")[0] for row in rows]
    place = keys.index("answers") + 1 if "answers" in keys else 0
    line, name = f"over_quota: {wanted}", "fengtuyas_quota_refusals_total"
    play.see(rows[place:place + 1] == [line], f"{what}: behind answers: comes {rows[place:place + 1]}, wants {line!r}")
    had = one.data().get("over_quota", "nothing")
    play.see(had == wanted, f"{what}: {one.side}'s status as an object has over_quota {had}, wants {wanted}")
    found = [row for row in one.told("status", "--metrics")[1].splitlines() if row.startswith(f"{name} ")]
    play.see(found == [f"{name} {wanted}"], f"{what}: {one.side}'s metrics have {found}, wants {name} {wanted}")


def asks(play, quotas, questions, what, meanwhile=lambda: None):
    """These ask in one turn: each has what the quotas let, and the server says and counts the rest."""
    given = in_one_turn(play, play.one, questions, what, meanwhile)
    for question in questions:
        wanted, had = quotas.take(question), given.get(question.duid, ())
        play.see(len(had) == wanted, f"{what}: of {question.count} prefixes {play.one.side} gives a client behind "
                 f"{question.port.words} {len(had)}, wants {wanted}")
    is_told(play, quotas, what)
    is_counted(play, quotas, what)
    return given


def move(play, seconds):
    """Both clocks of the server, which stands, are so far."""
    play.one.delays.shift(1000 * seconds)
    play.one.delays.shift_steady(1000 * seconds)


def shift(play, seconds):
    """Both clocks of the server are so far at once."""
    with standing(play.one):
        move(play, seconds)


def first_ones(server, duids):
    """Behind three ports one prefix more is asked for than each may have: by one client at once, by three clients, and
    by one that has none and solicits."""
    one, two, three = Port(server, 1, b"eth0", b"near"), Port(server, 1, b"eth1", b"near"), Port(server, 2, b"", b"far")
    asked = ((REQUEST, one, 3), (REQUEST, two, 1), (REQUEST, three, 2), (REQUEST, two, 1), (REQUEST, two, 1),
             (SOLICIT, three, 1))
    return [Question(kind, next(duids), port, count) for kind, port, count in asked]


def nameless(play, quotas, duids):
    """On the link, and behind a relay without identifiers: clients who ask for more than one message and one client may
    have."""
    link, bare = Port(play.one), Port(play.one, 3)
    turn = [Question(REQUEST, next(duids), link, 6), Question(REQUEST, next(duids), bare, 4)]
    asks(play, quotas, turn, "by no port")
    again = Question(REQUEST, turn[1].duid, bare, 2, first=5)
    asks(play, quotas, [again], "by no port once more")
    return [turn[0], again]


def further_ones(server, duids):
    """More ports, each asked for one prefix more than it may have; some have one identifier, an empty one, or another
    relay behind them."""
    names = {0: (b"only", None), 1: (None, b"only"), 2: (b"", None), 3: (None, b""), 4: (b"n" * 200, b"r" * 200)}
    ports = [Port(server, 100 + place, *names.get(place, (f"eth{place}".encode(), b"far")), is_nested=place == 5)
             for place in range(FURTHER)]
    return [Question(REQUEST, next(duids), port, UNITS_PER_PORT + 1) for port in ports]


def begins(play):
    """Starts the server with its quotas."""
    path = play.one.folder / "settings.toml"
    path.write_text(path.read_text().replace("units_per_port = 0\n", LIMITS))
    play.start(play.one)


def fills(play, quotas, duids):
    """Behind three ports, none and many more prefixes are asked for, and refused, and again: who asked, and renewals by
    those of the many."""
    first = first_ones(play.one, duids)
    given = asks(play, quotas, first, "behind three ports")
    asks(play, quotas, [renewal(first[0], given), *first[1:]], "behind three ports again")
    none = nameless(play, quotas, duids)
    further = further_ones(play.one, duids)
    given = asks(play, quotas, further, f"behind {FURTHER} more ports")
    every = [*first, *none, *further]
    asks(play, quotas, every[::-1], "all again")
    return every, [renewal(question, given) for question in further]


def renewal(question, given):
    had = given.get(question.duid, ())
    return Question(RENEW, question.duid, question.port, len(had), had)


def hours(play):
    """Refused behind 69 ports and none, again within the hour, and in the next ones; then after a start."""
    quotas, duids = Quotas(), (bytes.fromhex(f"00030001cc{number:010x}") for number in itertools.count(1))
    begins(play)
    every, renewals = fills(play, quotas, duids)
    shift(play, WITHIN)
    asks(play, quotas, every, "all again within the hour")
    shift(play, AFTER_ONE)
    quotas.end_hour()
    is_told(play, quotas, "the hour is over", SEES)
    some = [every[-1], every[6], every[0]]
    for what in ("in the next hour", "in the next hour again"):
        asks(play, quotas, some, what)
    shift(play, AFTER_TWO)
    quotas.end_hour()
    # (two heartbeats: nothing is to be told)
    time.sleep(2)
    asks(play, quotas, every, "all in the third hour")
    begins_in_a_turn(play, quotas, some, renewals)
    anew(play, quotas, some)


def begins_in_a_turn(play, quotas, some, renewals):
    """An hour begins by a turn in which many renew, and others are refused after them."""
    quotas.end_hour()
    asks(play, quotas, renewals[:-1] + some, "an hour begins by a turn", lambda: move(play, AFTER_THREE))
    asks(play, quotas, some, "an hour begins by a turn, and again")


def anew(play, quotas, questions):
    """A server that begins again begins its count, and what it told, anew."""
    play.stop(play.one)
    play.start(play.one)
    quotas = Quotas(quotas.held)
    is_told(play, quotas, "started again")
    is_counted(play, quotas, "started again")
    asks(play, quotas, questions, "asked after a start")


PLAYS = {"quota": (hours, "1", KIND)}
