"""Scripts of the two rules that keep one server from telling again what was given back at the other: RELEASEs on either
side of the moment from which on they aren't early, and requests before and behind the partner's acknowledgement."""

import random
import time

from . import answers
from .life_draws import drawn_life
from .life_partner import LATE, LinkedLife
from .life_ports import behind
from .linkend import partner_of
from .lives import Life
from .limits import Limits
from .messages import REBIND, RELEASE, RENEW, REQUEST, SOLICIT
from .program import Daemon, now
from .serving import plain_settings
from .stories import Story, StoryDraws

FLOOR = 600
ROUNDS = 3
HOME, AWAY = ((bytes(16), name, None) for name in (b"home", b"away"))


class ScriptedLife(LinkedLife):
    """A life whose partner says what it is told to."""

    def asks(self, kind, client, *wanted, port=None):
        """A client's message with these IA_PDs, each an identifier and the prefixes that it names."""
        octets = self.draws.message(kind, client, wanted)
        self.put(octets if port is None else behind(port, 0, bytes(16), octets, [], self.draws.random), "scripted")

    def given(self, client, identifier=1, port=None):
        """The unit that a client asks for and is given."""
        self.asks(REQUEST, client, (identifier,), port=port)
        return self.book.bound(client, identifier, None)

    def tells(self, unit, ago=0):
        """The partner tells of a grant to whoever has the unit, of so many milliseconds ago."""
        self.partner.tell_grant(unit, (unit.client, unit.identifier), self.book.lines[-1].reading - ago)
        self.hear()

    def tells_bound(self, unit, bound):
        """The partner tells of a grant to whoever has the unit, whose RELEASE is early until the clock shows that."""
        self.partner.tell_bound(unit, (unit.client, unit.identifier), bound)
        self.hear()

    def acknowledges(self, unit):
        """The partner acknowledges what is due of the unit."""
        self.partner.known(unit)
        self.hear()

    def wait(self):
        """The server begins again, and isn't answered yet."""
        self.hear()
        Life.begin_again(self)


def give_back_near_bounds(life):
    """Clients give back a little before they may, and behind it; who came too early does it once more."""
    for place, late in enumerate(ROUNDS * LATE):
        client = b"client" + bytes([place])
        unit = life.given(client)
        life.release_near_bound(unit, late)
        time.sleep(0.005)
        life.asks(RELEASE, client, (1, unit.prefix))
        life.acknowledges(unit)


def give_back_while_behind(life):
    """The clock is behind the last reading: what clients give back is early up to a bound in between, whatever reading
    its line would have. Once the clock has gone by they give it back."""
    last = life.book.lines[-1].reading
    units = []
    for place, bound in enumerate((last, last + 1, last - 1, last - 500, (now() + last) // 2)):
        units.append(life.given(b"client" + bytes([place])))
        life.tells_bound(units[-1], bound)
        life.asks(RELEASE, units[-1].client, (1, units[-1].prefix))
    at_once = life.given(b"at once")
    life.tells_bound(at_once, now())
    life.asks(RELEASE, b"at once", (1, at_once.prefix))
    for unit in units:
        life.asks(RELEASE, unit.client, (1, unit.prefix))
    time.sleep(max(0, last + 2 - now()) / 1000)
    for unit in units:
        life.asks(RELEASE, unit.client, (1, unit.prefix))


def give_back_several(life):
    """A client has two prefixes, and the partner told of one: in whatever company that is named, none is given back."""
    one, two = life.given(b"one client"), life.given(b"one client", 2)
    life.tells(one)
    for wanted in ([(1, one.prefix)], [(2, two.prefix), (1, one.prefix)], [(1, one.prefix), (2, two.prefix)],
                   [(1, two.prefix, one.prefix)], [(2, two.prefix, one.prefix)], [(2, one.prefix)], [(1,), (2,)]):
        life.asks(RELEASE, b"one client", *wanted)
        life.asks(RELEASE, b"another", *wanted)
    life.roll()
    life.asks(RELEASE, b"one client", (1, one.prefix))
    two = life.given(b"one client", 2)
    life.wait()
    life.asks(RELEASE, b"one client", (2, two.prefix), (1, one.prefix))
    life.asks(RELEASE, b"one client", (2, two.prefix))
    life.meet()
    window, last = life.partner.window(), life.book.lines[-1].reading
    for place, ago in enumerate((0, window // 2, window, last + window + 60_000)):
        other = life.given(b"late" + bytes([place]), 9)
        life.tells(other, ago)
        life.asks(RELEASE, other.client, (9, other.prefix))
    life.partner.given_back_at_partner(life.book.table.get(one.prefix))
    life.hear()
    one = life.given(b"one client")
    life.asks(RELEASE, b"one client", (1, one.prefix))


def give_back_beside_limits(life):
    """An early RELEASE counts for the rate, and one that is denied isn't early."""
    unit = life.given(b"elsewhere", port=HOME)
    life.tells(unit)
    for port in (AWAY, None, HOME):
        life.asks(RELEASE, b"elsewhere", (1, unit.prefix), port=port)
    other = life.given(b"at once", port=HOME)
    life.tells(other, life.partner.window())
    for port in (AWAY, HOME):
        life.asks(RELEASE, b"at once", (1, other.prefix), port=port)
    third = life.given(b"in time")
    life.tells(third)
    time.sleep((1000 - now() % 1000) / 1000)
    for kind in (RENEW, RELEASE, RELEASE, RELEASE, RENEW, RELEASE, RENEW):
        life.asks(kind, b"in time", (1, third.prefix))


def ask_before_acknowledgement(life):
    """What the partner told of is told again where the partner has acknowledged the last change, and else given anew,
    with whatever is asked for beside it."""
    units = [life.given(b"one client", identifier) for identifier in (1, 2)]
    wanted = [(unit.identifier, unit.prefix) for unit in units]

    def asked():
        for kind, those in ((RENEW, wanted[1:]), (RENEW, wanted[:1]), (SOLICIT, wanted), (REBIND, wanted)):
            life.asks(kind, b"one client", *those)
    asked()
    life.tells(units[0])
    for _ in range(ROUNDS):
        asked()
        life.acknowledges(units[0])
        asked()
        life.asks(REQUEST, b"one client", *wanted, (3 + len(life.exchanges),))
    life.acknowledges(units[1])
    life.tells(units[1], life.partner.window())
    asked()
    life.roll()
    units = [life.book.table.get(prefix) for _, prefix in wanted]
    for _ in range(ROUNDS):
        asked()
        life.acknowledges(units[0])
    life.wait()
    life.meet()
    asked()


# Each with its limits, and by how many milliseconds the clock of the past was ahead.
SCRIPTS = ((give_back_near_bounds, Limits(FLOOR), 0), (give_back_near_bounds, Limits(1), 0),
           (give_back_near_bounds, Limits(FLOOR), 4000), (give_back_while_behind, Limits(FLOOR), 4000),
           (give_back_several, Limits(FLOOR), 0), (give_back_several, Limits(), 0),
           (ask_before_acknowledgement, Limits(FLOOR), 0),
           (give_back_beside_limits, Limits(FLOOR, client_rate=2, bind_to_port=True), 0))


def serve_release_scripts(program, tally):
    """A life for each script, which goes on with one grant."""
    settings = plain_settings()
    for script, limits, ahead in SCRIPTS:
        host, book, draws = drawn_life(random.Random(1), settings, now(), kind=StoryDraws)
        Story(draws, book, book.table.ordered[0], now() + ahead, (b"first", 1)).go(["given"])
        with partner_of(settings) as link, \
                Daemon(program, settings, answers.PLAIN, host, True, list(book.lines), limits, link=link) as daemon:
            life = ScriptedLife(daemon, draws, book, limits, tally, answers.PLAIN, often=0)
            script(life)
            life.run(0)
        daemon.count(tally, "lives by scripts of the partner")
