"""What an operator says of a partner: `partner-down` where it is refused, and what `partner-normal` ends."""
import time

from living.play import WAITS
from living.servers import SHORT

from .stage import DOWN, LONG, NORMAL, is_contact, ran

# Why it is refused while the two are connected; and without its words.
RUNS = "there is a connection with the partner: it runs"
WAITS_ITSELF = "refused: this server waits for its partner's answer, since it doesn't know what its partner did"
NOT_DOWN = "refused: the partner isn't taken for down"
WRONG_WORDS = 'partner-down wants the words "the partner is stopped"'


def leased(play, count=4):
    """A pair with leases, of which each has told the other: the clients of both."""
    one, other = play.one, play.other
    play.begin()
    mine, theirs = play.lease(one, count), play.lease(other, count)
    play.told(one, other)
    play.told(other, one)
    return mine, theirs


def book_lines(server):
    """What its journal has but for the lines that say that the two live."""
    return [event for event in server.events() if not is_contact(event)]


def states(server):
    return [event for event in server.events() if event.startswith("state ") and event != "state interrupted"]


def connected(play):
    """`partner-down` and `partner-normal` while the two are connected: refused at either, and nothing changes."""
    mine, theirs = leased(play)
    servers, what = (play.one, play.other), "partner-down while connected"
    for server in servers:
        play.until(f"{server.side} has nothing due", lambda each=server: each.value("due") == "0")
    play.told(play.one, play.other)
    play.told(play.other, play.one)
    before = {server.side: (book_lines(server), server.value("link")) for server in servers}
    for server in servers:
        for _ in range(2):
            play.refused(server, DOWN, f"refused: {RUNS}", what)
            play.refused(server, NORMAL, NOT_DOWN, "partner-normal while nothing is to be ended")
        status, _, said = ran(server, DOWN[0], "the partner is stopping")
        play.see(status == 2 and WRONG_WORDS in said, f"{what}, in other words: status {status}, {said!r}")
        status, _, said = ran(server, DOWN[0])
        play.see(status == 2, f"{what}, without words: status {status}, {said!r}")
    time.sleep(1.5)
    for server in servers:
        lines, link = before[server.side]
        more = book_lines(server)[len(lines):]
        play.see(not more, f"{what}: {server.side} writes {more[:3]}")
        play.see(server.value("link") == link, f"{what}: {server.side}'s link was {link}, is {server.value('link')}")
        play.has(server, what, partner="normal")
        play.is_set(server, "partner", "normal", what)
    play.both_serve(mine, theirs, what)
    messages = [event for server in servers for event in server.events() if event.startswith(("send ", "take "))]
    terms = {event.split()[1] for event in messages}
    play.see(terms == {"0"}, f"{what}: messages are of the terms {terms}")


def waits(play):
    """`partner-down` to a server that waits for its partner: refused, since it doesn't know what that did."""
    one, other = play.one, play.other
    mine, theirs = leased(play)
    other.kill()
    one.kill()
    play.begins(one)
    play.says(one, WAITS, "it waits")
    play.refused(one, DOWN, WAITS_ITSELF, "it waits")
    play.refused(one, NORMAL, NOT_DOWN, "it waits")
    play.says(one, WAITS, "it waits, and was told that its partner is down")
    play.silent(one, mine, "it waits", 2)
    play.see("state down" not in one.events(), f"{one.side} writes 'state down' while it waits")
    play.start(other)
    play.both_serve(mine, theirs, "it waited")


def normal(play):
    """`partner-normal` while the partner is taken for down, and what is known from then on; the partner is away yet."""
    one, other = play.one, play.other
    mine, theirs = leased(play)
    play.down()
    mine += play.lease(one, 2)
    play.see(one.value("partner").startswith("down since "), f"{one.side}'s partner is {one.value('partner')}")
    play.is_set(one, "partner", "down", "taken for down")
    what = "taken for up again"
    play.heard(one, NORMAL, what)
    play.has(one, what, partner="normal", link="apart")
    play.is_set(one, "partner", "normal", what)
    standing = {key: one.data().get("partner", {}).get(key, "nothing") for key in ("standing", "standing_since_ms")}
    wanted = {"standing": "normal", "standing_since_ms": None}
    play.see(standing == wanted, f"{what}: {one.side}'s status as an object has {standing}")
    play.refused(one, NORMAL, NOT_DOWN, f"{what}, and told so once more")
    play.see(states(one)[-2:] == ["state down", "state normal"], f"{what}: {one.side} writes {states(one)}")
    play.serves(one, mine, what)
    play.rebinds(one, theirs, what)
    volumes = len(one.volumes())
    play.heard(one, ("roll",), what)
    play.until(f"{what}: {one.side} begins a volume", lambda: len(one.volumes()) == volumes + 1)
    play.stop(one)
    play.begins(one)
    play.says(one, WAITS, f"{what}, and started again")
    play.silent(one, mine, f"{what}, and started again", 2)
    play.start(other)
    play.both_serve(mine, theirs, f"{what}, and its partner is back")
    for server in (one, other):
        play.has(server, f"{what}, and its partner is back", partner="normal", marked="0")


def seized(server):
    return [event for event in server.events() if event.startswith("seize ")]


def asks_until_seized(play):
    """New clients ask a survivor until it takes units over: those that have them."""
    one, holders = play.one, []
    for _ in range(40):
        holders += play.customers.lease(one, play.customers.new(2), 1.5)
        if seized(one):
            return holders
        time.sleep(0.3)
    raise AssertionError(f"{one.side} takes nothing over: {one.status()}")


def no_takeover(play):
    """Behind `partner-normal` no unit is taken over any more, though one could have been before."""
    one, other = play.one, play.other
    play.begin()
    play.down()
    asks_until_seized(play)
    what = "taken for up again"
    play.heard(one, NORMAL, what)
    count = len(seized(one))
    for _ in range(4):
        given = play.customers.lease(one, play.customers.new(6), 1.5)
        play.see(not given, f"{what}: {one.side} gives {len(given)} clients what it had taken over, or takes over")
        time.sleep(0.7)
    play.see(len(seized(one)) == count, f"{what}: {one.side} seizes {seized(one)[count:][:3]}")
    play.has(one, what, partner="normal")
    play.start(other)
    for server in (one, other):
        play.has(server, f"{what}, and its partner is back", partner="normal", marked="0")
        play.until(f"{what}, and its partner is back: {server.side} serves",
                   lambda each=server: each.serving() == "yes" and play.customers.answered(each) > 0)


PLAYS = {
    "down-connected": (connected, "AB", LONG),
    "down-waits": (waits, "AB", LONG),
    "normal": (normal, "AB", LONG),
    "normal-no-takeover": (no_takeover, "AB", SHORT),
}
