"""Scripts of who is believed with `bind_to_port`: strangers give back and renew what is known to be another port's, and
what the partner granted last; also behind a roll, a restart and a close, without the partner, and once it is taken for
down."""

import random
import threading
import time
from collections import Counter
from dataclasses import replace

from . import access, answers
from .life_draws import drawn_life, end_bound
from .life_partner import DOWN, NORMAL
from .linkend import partner_of
from .lives import APART, Life
from .limits import Limits
from .messages import REBIND, RELEASE, RENEW, REQUEST, SOLICIT
from .program import Daemon, Difference, now
from .release_runs import AWAY, FLOOR, HOME, ScriptedLife
from .serving import plain_settings
from .stories import Story, StoryDraws, partners_update
from .units import ACTIVE

DAEMONS = replace(answers.PLAIN, releases_each=True)
BARE = (bytes(15) + b"\1", None, None)
PORTS = (AWAY, None, BARE, HOME)
BOUND = Limits(FLOOR, bind_to_port=True)
# How long before and behind the minute a script asks, in seconds.
NEAR = 2
# How many leases of a past end, the first in so many milliseconds, and each as many behind the one before.
MANY, SOON, STEP = 24, 500, 25


class PortLife(ScriptedLife):
    """A life whose partner may be gone."""

    def tells_end(self, unit, later):
        """The partner tells an end so many milliseconds later than this server told it, and takes note of that."""
        self.partner.say(partners_update(unit, "active", unit.out_end + later, (unit.client, unit.identifier)))
        self.hear()
        self.acknowledges(unit)

    def late(self, client, identifier=1, port=HOME):
        """What a client is given here, and by the partner a moment later: so it is unknown here."""
        unit = self.given(client, identifier, port)
        self.tells_end(unit, 1)
        return unit

    def everywhere(self, kinds, client, *wanted, ports=PORTS):
        for kind in kinds:
            for port in ports:
                self.asks(kind, client, *wanted, port=port)


def known(life):
    """What is known to be another port's isn't given back, nor renewed, whatever is asked beside it."""
    one, other = life.given(b"one", port=HOME), life.given(b"one", 2, AWAY)
    life.everywhere((RENEW, REBIND, REQUEST, SOLICIT), b"one", (1, one.prefix))
    for wanted in ([(1,)], [(1, one.prefix), (2, one.prefix)], [(3, one.prefix)], [(1, other.prefix)], [(3,), (1,)]):
        life.everywhere((RELEASE,), b"one", *wanted, ports=PORTS[:3])
    life.everywhere((RELEASE,), b"one", (1, one.prefix), ports=PORTS[:3])
    life.everywhere((RELEASE, RENEW), b"another", (1, one.prefix))
    unnamed = [life.given(b"unnamed" + bytes([place]), port=port) for place, port in enumerate((None, BARE))]
    life.roll()
    one, other, *unnamed = (life.book.table.get(unit.prefix) for unit in (one, other, *unnamed))
    for port in (AWAY, None):
        life.asks(RELEASE, b"one", (1, one.prefix), port=port)
    life.asks(RELEASE, unnamed[0].client, (1, unnamed[0].prefix), port=AWAY)
    life.begin_again()
    life.asks(RENEW, unnamed[1].client, (1, unnamed[1].prefix), port=AWAY)
    life.asks(RELEASE, unnamed[1].client, (1, unnamed[1].prefix), port=HOME)
    life.begin_next()
    one, other = (life.book.table.get(unit.prefix) for unit in (one, other))
    for port in (AWAY, None):
        life.asks(RELEASE, b"one", (1, one.prefix), port=port)
    life.begin_again()
    life.asks(RELEASE, b"one", (1, one.prefix, other.prefix), (2, other.prefix), port=BARE)
    life.asks(RELEASE, b"one", (1, one.prefix), (2, other.prefix), port=HOME)
    life.asks(RELEASE, b"one", (1, one.prefix), (2, other.prefix), port=AWAY)


def unknown(life):
    """What the partner granted last is left to it: a RELEASE is told Success and nothing else, and a RENEW or REBIND
    nothing."""
    one, two = life.late(b"one"), life.given(b"one", 2, HOME)
    both = [(1, one.prefix), (2, two.prefix)]
    life.everywhere((RELEASE, RENEW, REBIND), b"one", both[0])
    for kind in (RENEW, REBIND, SOLICIT):
        for wanted in (both, [*both, (3,)], [(3,), both[0]], [both[0], both[0]], [(1,), (2,)]):
            life.asks(kind, b"one", *wanted, port=HOME)
    life.asks(RELEASE, b"one", both[0], (3,), port=AWAY)
    life.asks(RELEASE, b"one", (1, two.prefix, one.prefix), (2, one.prefix), port=HOME)
    life.asks(RELEASE, b"one", *both, port=AWAY)
    life.asks(RELEASE, b"one", *both, port=HOME)
    equal, before = life.given(b"two", port=HOME), life.given(b"three", port=HOME)
    life.tells_end(equal, 0)
    life.tells_end(before, -1)
    for unit in (equal, before):
        life.everywhere((RENEW, RELEASE), unit.client, (1, unit.prefix))
    life.roll()
    life.everywhere((RELEASE, RENEW), b"one", both[0], ports=PORTS[:1])
    life.given(b"four")
    life.begin_next()
    life.everywhere((RELEASE, RENEW), b"one", both[0], ports=PORTS[:1])
    life.begin_again()
    life.everywhere((RELEASE, REBIND), b"one", both[0], ports=PORTS[2:])
    life.asks(REQUEST, b"one", both[0], port=AWAY)
    life.everywhere((RENEW, RELEASE), b"one", both[0], ports=(HOME, None, AWAY))


def early(life):
    """A RELEASE of what is unknown, or known to be another port's, is never early; one that is counts for the rate."""
    one, two = life.given(b"one", port=HOME), life.given(b"one", 2, AWAY)
    life.tells_end(one, -1)
    later = life.late(b"one", 3)
    for wanted in ([(1, one.prefix)], [(1, one.prefix), (3, later.prefix)], [(3, later.prefix), (2, two.prefix)]):
        life.everywhere((RELEASE,), b"one", *wanted, ports=PORTS[:3])
    life.asks(RELEASE, b"one", (3, later.prefix, one.prefix), (1, later.prefix, one.prefix), port=HOME)


def alone(life):
    """Without its partner the server leaves what is unknown to it, until it is taken for down: then it has a line each
    time, and is known."""
    units = [life.late(b"one", identifier) for identifier in (1, 2, 3)]
    given = [(unit.identifier, unit.prefix) for unit in units]
    life.part()
    life.everywhere((RENEW, REBIND, RELEASE), b"one", given[0], ports=(HOME, AWAY))
    life.takes(DOWN, "down")
    life.asks(RELEASE, b"one", given[0], port=HOME)
    for kind, port in ((RENEW, HOME), (RENEW, HOME), (RENEW, AWAY), (RELEASE, AWAY)):
        life.asks(kind, b"one", given[0], port=port)
    life.asks(REBIND, b"one", given[1], given[0], port=AWAY)
    life.asks(RENEW, b"one", given[1], given[2], (7,), port=HOME)
    life.asks(RENEW, b"one", given[1], port=AWAY)
    life.asks(RELEASE, b"one", given[0], given[2], port=HOME)
    life.takes(NORMAL, "normal")
    life.asks(RENEW, b"one", given[1], port=HOME)


def minute(life):
    """A minute behind its partner's leaving the server answers what that may know, but not what it knows to be another
    port's."""
    units = [life.late(b"one", identifier) for identifier in (1, 2, 3)]
    given = [(unit.identifier, unit.prefix) for unit in units]
    other = life.given(b"one", 4, HOME)
    life.part()
    time.sleep(APART / 1000 - NEAR)
    life.asks(RENEW, b"one", given[0], port=HOME)
    time.sleep(2 * NEAR)
    for kind in (RENEW, RENEW):
        life.asks(kind, b"one", given[0], port=HOME)
    life.asks(REBIND, b"one", given[1], given[0], (4, other.prefix), port=AWAY)
    life.asks(RELEASE, b"one", given[2], given[0], port=AWAY)
    life.daemon.leave()
    life.meet()
    life.asks(RENEW, b"one", given[2], port=HOME)
    life.asks(RENEW, b"one", given[2], given[0], port=HOME)


def counted(life):
    """What the partner granted counts for its client, and for no port."""
    for wanted in ([(2,)], [(1,), (2,)], [(2,), (1,)]):
        for kind in (SOLICIT, REQUEST):
            life.asks(kind, b"theirs", *wanted, port=HOME)
    life.asks(REQUEST, b"mine", (1,), (2,), port=HOME)
    life.asks(REQUEST, b"another", (1,), port=HOME)


def lapse(life):
    """At the moment at which its lease ends a client asks for more, for it again, or for both."""
    units = [unit for unit in life.book.table.ordered if unit.status == ACTIVE]
    for place, unit in enumerate(units):
        mine, more = (unit.identifier, unit.prefix), (unit.identifier + 1,)
        wanted = ([more], [mine, more], [more, mine])[place % 3]
        while time.time_ns() < 1_000_000 * unit.own_end - (place % 4) * 200_000:
            pass
        life.asks(REQUEST, unit.client, *wanted, port=HOME)
    for unit in units[:3]:
        life.asks(REQUEST, unit.client, (1,), (2,), (3,), port=HOME)


# Each with its limits.
SCRIPTS = ((known, BOUND), (unknown, BOUND), (unknown, replace(BOUND, renew_floor=0)), (early, BOUND),
           (early, replace(BOUND, client_rate=3)), (alone, BOUND),
           (counted, Limits(units_per_client=1, units_per_port=1)))
LAPSES = (Limits(units_per_client=1), Limits(units_per_port=MANY), Limits(units_per_client=1, units_per_port=MANY))


def serve_script(program, tally, script, limits):
    """A life of a server with a partner, which goes on with a grant that has no record, and one of the partner's."""
    settings = plain_settings()
    host, book, draws = drawn_life(random.Random(1), settings, now(), kind=StoryDraws)
    Story(draws, book, book.table.ordered[0], now(), (b"first", 1)).go(["given"])
    Story(draws, book, book.table.ordered[1], now(), (b"theirs", 1)).go(["moved", "given_by_partner"])
    with partner_of(settings) as link, \
            Daemon(program, settings, DAEMONS, host, True, list(book.lines), limits, link=link) as daemon:
        life = PortLife(daemon, draws, book, limits, tally, DAEMONS, often=0)
        life.everywhere((RELEASE, RENEW), b"first", (1,), (1, book.table.ordered[0].prefix))
        script(life)
        life.run(0)
    daemon.count(tally, "lives by scripts of ports")


def serve_lapses(program, tally, limits):
    """A life of a server that is alone, whose past has leases that end soon, of clients behind one port."""
    settings = plain_settings()
    begun = now() + SOON - end_bound(settings)
    host, book, draws = drawn_life(random.Random(1), settings, begun, kind=StoryDraws)
    for place, unit in enumerate(book.table.ordered[:MANY]):
        Story(draws, book, unit, begun + STEP * place, (b"client" + bytes([place]), 1)).go(["given"])
    records = [(line.number, HOME) for line in book.lines if line.event[0] == "grant"]
    past, text = list(book.lines), access.text(book, records)
    with Daemon(program, settings, DAEMONS, host, False, past, limits, text) as daemon:
        life = LoneLife(daemon, draws, book, limits, tally, DAEMONS)
        life.take_records(records)
        lapse(life)
        life.run(0)
    daemon.count(tally, "lives by scripts of ports")


class LoneLife(Life):
    """A life without a partner whose clients ask what they are told to."""

    asks = ScriptedLife.asks


class Minute:
    """The script that waits for a minute, beside whatever else is asked meanwhile; behind that it says where it
    differs."""

    def __init__(self, program, tally):
        self.wanted, self.tally, self.difference = tally, Counter(), None
        self.thread = threading.Thread(target=self.run, args=(program,))

    def run(self, program):
        try:
            serve_script(program, self.tally, minute, BOUND)
        except Difference as difference:
            self.difference = difference

    def __enter__(self):
        self.thread.start()

    def __exit__(self, kind, *_):
        self.thread.join()
        self.wanted.update(self.tally)
        if kind is None and self.difference is not None:
            raise self.difference


def serve_port_scripts(program, tally):
    for script, limits in SCRIPTS:
        serve_script(program, tally, script, limits)
    for limits in LAPSES:
        serve_lapses(program, tally, limits)
