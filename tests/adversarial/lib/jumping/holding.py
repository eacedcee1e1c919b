"""Processes that are stopped for a while, as both of their clocks go on; and machines that are, as one stands."""
import signal
import time

from living.play import Broken
from server.messages import ADVERTISE, REBIND, RENEW, REPLY, REQUEST, SOLICIT

from .play import AGAIN, IS_SET, SEES
from .running import leased
from .servers import ENDS, OUTLASTS

# For how long a process is stopped, and a machine, in seconds.
HELD, SUSPENDED = 20, 8
# How long a sync of a line takes whose answer is held up, and how long behind its request the process is stopped.
SYNC, UNTIL_HELD = 3.0, 1.5
# Within what time an answer leaves behind its line's reading, and how much later it may be seen, in seconds.
LEAVES, SEEN = ENDS["transit"] / 2000, 1.0


def hold(play, is_held):
    play.one.process.send_signal(signal.SIGSTOP if is_held else signal.SIGCONT)


def requests(play):
    """A new client requests what it was offered while the sync of its line takes long: it, its prefix and the
    transaction."""
    one, client = play.one, play.customers.new(1)[0]
    offer = play.customers.exchange(one, {client: (SOLICIT, None)}, 5).get(client)
    if not offer or offer[0] != ADVERTISE or offer[1] is None:
        raise Broken(f"{one.side} offers nothing: {offer}")
    one.delays.slow_syncs(1000 * SYNC)
    return client, offer[1], play.customers.send(one, REQUEST, client, offer[1])


def late(server):
    return server.data().get("late", 0)


def lines_of(server, client):
    """The readings of the lines by which a client was given something, in seconds."""
    rows = [row.split() for row in server.text().splitlines()]
    return [int(row[1]) / 1000 for row in rows if row[2:3] == ["grant"] and client.duid.hex() in row]


def answers_in_time(play, sent, until):
    """Each answer to what was asked while the process was stopped leaves within half of the transit of its line."""
    while time.monotonic() < until:
        answer = play.customers.heard(0.2)
        moment = time.time()
        if answer and answer[0] in sent and answer[1] == REPLY and answer[2]:
            read = max(lines_of(play.one, answer[0]), default=0)
            is_so = moment - read < LEAVES + SEEN
            play.see(is_so, f"{play.one.side} answers {moment - read:.1f} s behind its line's reading")


def held(play):
    """The process is stopped for a while: nothing is held to be set, and no answer leaves late."""
    mine, theirs = leased(play)
    one, other = play.one, play.other
    before = late(one)
    client, prefix, transaction = requests(play)
    time.sleep(UNTIL_HELD)
    hold(play, True)
    begun = time.monotonic()
    one.delays.slow_syncs(0)
    play.serves(other, theirs, "the partner of one that is stopped")
    sent = set(mine)
    while time.monotonic() < begun + HELD:
        for each in mine:
            play.customers.send(one, RENEW, each, play.customers.has(each))
        play.customers.answered(other, theirs[:1], 0)
        time.sleep(2)
    play.see(transaction not in play.customers.answers, f"{one.side} answers before it is stopped")
    hold(play, False)
    answers_in_time(play, sent, time.monotonic() + 3)
    play.see(transaction not in play.customers.answers, f"{one.side} answers {HELD} s late")
    play.until(f"{one.side} counts more late answers than {before}", lambda: late(one) > before, SEES)
    again = play.customers.exchange(one, {client: (REQUEST, prefix)}, 5).get(client)
    play.see(again == (REPLY, prefix), f"{one.side} answers {again} to who asks again")
    play.both_serve(mine, theirs, "behind a stop")
    for server in (one, other):
        play.see("its clock was set" not in server.said(), f"{server.side} says that its clock was set")
        play.see("fell behind" not in server.said(), f"{server.side} says that its clock fell behind")
        play.see(server.value("clock").startswith("right"), f"{server.side}'s clock is {server.value('clock')}")
    play.readings_are_right()


def suspend(play):
    """The machine stands for a while, and so does the steady clock: only the clock of the time goes on."""
    begun = time.monotonic()
    hold(play, True)
    time.sleep(SUSPENDED)
    passed = time.monotonic() - begun
    play.one.delays.shift_steady(-1000 * passed)
    hold(play, False)
    return passed


def suspended(play):
    """The machine is suspended, which is as if the clock were set: its partner agrees, and it serves again."""
    mine, theirs = leased(play)
    one = play.one
    passed = suspend(play)
    said = play.words_of_set(one, False)
    if play.see(said is not None, f"{one.side} doesn't say that its clock was set: {one.said()[-300:]!r}"):
        play.times_are_right(one, passed, "a machine that was suspended", said)
    play.until(f"{one.side} says that it serves again", lambda: AGAIN in one.said(), 25)
    play.both_serve(mine, theirs, "behind a suspension")
    play.readings_are_right()


def suspended_lone(play):
    """The machine of a lone server is suspended: a person has to say that its clock is right."""
    one = play.one
    play.start(one)
    mine = play.lease(one, 6)
    passed = suspend(play)
    play.was_set(one, passed, "a machine that was suspended")
    play.refuses(one, IS_SET, "a machine that was suspended")
    play.idle(one, mine, "a machine that was suspended", 3)
    play.is_told_right(one, "a machine that was suspended")
    play.until(f"{one.side} serves, as it was told", lambda: one.serving() == "yes", 10)
    play.serves(one, mine, "a clock that was accepted")
    play.see(play.customers.renew(one, mine, REBIND).keys() == set(mine), f"{one.side} doesn't rebind what it gave")
    play.readings_are_right()


PLAYS = {
    "held": (held, "AB", ENDS),
    "suspended": (suspended, "AB", ENDS),
    "suspended-lone": (suspended_lone, "1", OUTLASTS),
}
