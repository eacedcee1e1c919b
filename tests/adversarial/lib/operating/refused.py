"""A partner that lost its journal: that it was refused stays in the status until the two are together for a while."""
import re
import time

from .downs import leased
from .stage import LONG

MOMENT = re.compile(r"20\d\d-\d\d-\d\dT\d\d:\d\d:\d\d[.]\d\d\dZ, (.+)\Z")
FRAME = "what it sent may not come there, or one of the two has lost its journal"
OLDER = "this journal is older than what it took"
CONNECTED = "<6>node: is connected with its partner\n"
# How long two are together until a refusal is forgotten, in seconds.
A_WHILE = 10


def tells(play, server, words, why, what):
    """Its status says in each form that it refused its partner, and why."""
    def told():
        found = MOMENT.match(server.value("refusal"))
        return found is not None and found[1] == words
    if not play.until(f"{what}: {server.side}'s status has a refusal, {words}", told):
        return
    had = server.data().get("partner", {}).get("refusal") or {}
    play.see(had.get("why") == why, f"{what}: {server.side}'s status as an object has the refusal {had}, wants {why}")
    rows = server.told("status", "--metrics")[1].splitlines()
    play.see("fengtuyas_partner_refused 1" in rows, f"{what}: {server.side}'s metrics don't say that it refused")


def refused(play):
    """One comes back with no volume: both refuse. Then with its own: both forget it, once they have been together."""
    one, other = play.one, play.other
    mine, theirs = leased(play)
    # (the lack of a first volume's messages is seen by who lacks them alone)
    for server in (one, other):
        play.heard(server, ("roll",), "at first")
        play.until(f"{server.side} begins volume 2", lambda each=server: len(each.volumes()) == 2)
    play.together("behind the rolls")
    mine += play.lease(one, 1)
    theirs += play.lease(other, 1)
    play.told(one, other)
    play.told(other, one)
    for server in (one, other):
        play.see(server.value("refusal") == "none", f"at first: {server.side}'s refusal is {server.value('refusal')}")
    play.stop(one)
    copy, what = one.copied(), "its volume is away"
    one.put_back()
    play.start(one)
    tells(play, other, FRAME, "frame", what)
    tells(play, one, OLDER, "journal_older", what)
    count = other.said().count(CONNECTED)
    time.sleep(5)
    tells(play, other, FRAME, "frame", f"{what} for a while")
    play.see(other.said().count(CONNECTED) == count, f"{what}: {other.side} says that it is connected")
    one.kill()
    one.put_back(copy)
    begun = time.monotonic()
    play.start(one)
    what = "its volume is back"
    for server in (one, other):
        play.until(f"{what}: {server.side} serves", lambda each=server: each.serving() == "yes")
    play.until(f"{what}: {other.side} says that it is connected", lambda: other.said().count(CONNECTED) == count + 1)
    play.see(time.monotonic() - begun > A_WHILE - 1, f"{what}: {other.side} says at once that it is connected")
    play.has(other, what, refusal="none")
    play.both_serve(mine, theirs, what)


PLAYS = {"refused": (refused, "AB", LONG)}
