"""With `bind_to_port`: somebody behind another relay port who sends a client's messages, while the two are joined and
later."""
import time

from living.customers import Grant
from operating.downs import book_lines
from operating.ports import Port, Question
from operating.stage import LONG
from server.messages import (
    IA_PD, IA_PREFIX, NO_BINDING, NO_PREFIX_AVAILABLE, REBIND, RELEASE, RENEW, REPLY, REQUEST, STATUS_CODE, SUCCESS,
    options,
)

KIND = {**LONG, "more": "bind_to_port = true\n"}
# How long who asks waits for an answer, in seconds, and how often he asks: who may have none, and who has one.
PATIENCE, TRIES, PATIENT = 1.0, 3, 12
NOTHING, SILENCE = "nothing of it", "no answer"
# What he sends, and by which port.
KINDS = {RELEASE: "RELEASE", REBIND: "REBIND", RENEW: "RENEW"}
STRANGE = (0x999, b"eth9", b"stranger")


def told(answer):
    """What an answer says of the first association: its prefix and lifetime, a status, that it says nothing of it, or
    that there is none."""
    if answer is None:
        return SILENCE
    association = dict(options(answer, 4)).get(IA_PD)
    if association is None:
        return NOTHING
    given = dict(options(association, 12))
    if IA_PREFIX in given:
        octets = given[IA_PREFIX]
        return (int.from_bytes(octets[9:25], "big"), octets[8]), int.from_bytes(octets[4:8], "big")
    return int.from_bytes(given[STATUS_CODE][:2], "big")


def status_of(answer):
    """The status of the answer itself: none is Success."""
    found = dict(options(answer, 4)).get(STATUS_CODE) if answer else None
    return SUCCESS if found is None else int.from_bytes(found[:2], "big")


def ask(server, kind, duid, port, prefix=None, tries=PATIENT):
    """What a server answers to a question by a port."""
    port = Port(server, *port)
    question = Question(kind, duid, port, prefixes=(prefix,) if prefix else ())
    answer = None
    for _ in range(tries):
        port.send(question.message(server))
        answer = port.heard(PATIENCE)
        if answer is not None:
            break
    port.stream.close()
    return answer


class Victim:
    """A client with a lease of a server, and its relay port; and which message of its somebody else sends."""

    def __init__(self, play, server, kind, number):
        self.play, self.server, self.kind = play, server, kind
        self.duid, self.port = bytes.fromhex(f"00030001cc{number:010x}"), (number, b"eth0", b"own")
        self.prefix = None
        self.ask(server, REQUEST)

    def ask(self, server, kind):
        """It asks by its own port: what it is told. A grant is one that customers saw."""
        answer = ask(server, kind, self.duid, self.port, self.prefix, PATIENT)
        found = told(answer)
        if answer is not None and answer[0] == REPLY and isinstance(found, tuple):
            self.prefix, moment = found[0], time.monotonic()
            grant = Grant(self.prefix, self.duid.hex(), server.side, moment, moment + found[1])
            self.play.customers.grants.append(grant)
        return found


def stranger_at(play, victim, server):
    """He sends a message of the victim's to a server, by his own port: what he is told, and whether as wanted."""
    is_known, kind = server is victim.server, victim.kind
    # By whom the port is known, the lease isn't his; who knows none leaves it to its partner, and frees nothing.
    if is_known:
        wanted = NO_BINDING if kind == RELEASE else NO_PREFIX_AVAILABLE
    else:
        wanted = NOTHING if kind == RELEASE else SILENCE
    answer = ask(server, kind, victim.duid, STRANGE, victim.prefix, TRIES if wanted == SILENCE else PATIENT)
    had, what = told(answer), f"a stranger's {KINDS[kind]} at {server.side}, of a lease that {victim.server.side} gave"
    play.see(had == wanted, f"{what}: told {had}, wants {wanted}")
    if wanted == NOTHING:
        play.see(status_of(answer) == SUCCESS, f"{what}: status {status_of(answer)}, wants Success")


def changes_nothing(play, victim):
    """A stranger sends a message of the victim's to both: neither journal has a line of it, and the victim has what it
    had."""
    before = {side: book_lines(server) for side, server in play.sides.items()}
    for server in (play.other, play.one):
        stranger_at(play, victim, server)
    time.sleep(0.5)
    what = f"a stranger's {KINDS[victim.kind]}, of a lease that {victim.server.side} gave"
    for side, server in play.sides.items():
        more = book_lines(server)[len(before[side]):]
        play.see(not more, f"{what}: {side} writes {len(more)} lines: {more[:1]}")
    for server in (play.one, play.other):
        # (who gives the lowest first gives at once what was freed)
        play.lease(server, 2)
    had, found = victim.prefix, victim.ask(victim.server, RENEW)
    is_so = isinstance(found, tuple) and found[0] == had
    play.see(is_so, f"{what}: its client renews at {victim.server.side}, and is told {found}")
    play.told(play.one, play.other)
    play.told(play.other, play.one)
    play.has_no_due(10)


def joined(play):
    """While the two are joined a stranger changes nothing at either; nobody else is given the prefix."""
    play.begin()
    play.joined("at first")
    pairs = [(server, kind) for server in (play.one, play.other) for kind in KINDS]
    victims = [Victim(play, server, kind, 1 + place) for place, (server, kind) in enumerate(pairs)]
    for victim in victims:
        play.see(victim.prefix is not None, f"{victim.server.side} gives its client nothing")
    play.told(play.one, play.other)
    play.told(play.other, play.one)
    play.has_no_due(10)
    for victim in victims:
        changes_nothing(play, victim)
    return victims


def taken_for_down(play):
    """Once its server is taken for down a client is renewed by the partner, behind its own port; then that is known."""
    victims = joined(play)
    mine = victims[-1]
    play.down()
    had, found = mine.prefix, mine.ask(play.one, REBIND)
    is_so = isinstance(found, tuple) and found[0] == had
    play.see(is_so, f"{play.one.side}'s partner is down: the client of that rebinds, and is told {found}")
    before = book_lines(play.one)
    answer = ask(play.one, REBIND, mine.duid, STRANGE, had)
    play.see(told(answer) == NO_PREFIX_AVAILABLE, f"then a stranger rebinds it, and is told {told(answer)}")
    answer = ask(play.one, RELEASE, mine.duid, STRANGE, had)
    play.see(told(answer) == NO_BINDING, f"then a stranger gives it back, and is told {told(answer)}")
    more = book_lines(play.one)[len(before):]
    play.see(not more, f"then a stranger has {play.one.side} write {more[:2]}")


PLAYS = {"strangers": (taken_for_down, "AB", KIND)}
