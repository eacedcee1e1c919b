"""Partners whose settings differ in a key: which of them join, and what each says of it."""
from living.play import ASKS, WAITS, Broken

from . import form
from .differing import APART
from .servers import ENDS, POOL

FURTHER, OTHERS = ("2001:db8:1::/52", 59), ("2001:db8:2::/52", 59)
# Of each key what the server has that the play is about, and what its partner; and whether they may join.
KEYS = {
    "mclt": ({"mclt": 900}, {"mclt": 600}, False),
    "pools": ({"pools": [OTHERS]}, {"pools": [POOL]}, False),
    "pool_order": ({"pools": [FURTHER, POOL]}, {"pools": [POOL, FURTHER]}, False),
    "further": ({"pools": [POOL, FURTHER]}, {"pools": [POOL]}, True),
    "skew_ms": ({"skew": 1200}, {"skew": 1000}, True),
    "transit_ms": ({"transit": 12_000}, {"transit": 10_000}, True),
    "life": ({"life": 1500}, {"life": 1200}, True),
}
SAID = "its partner's settings differ in "
STAY = ": they stay apart until the two agree"


def words(key, here, there):
    """How the difference is told at a server."""
    if key in ("pools", "pool_order"):
        return key
    name = key.removesuffix("_ms")
    return f"{key}: {here[name]} here, {there[name]} there"


def kinds(key):
    here, there, _ = KEYS[key]
    return ENDS | here, ENDS | there


def said_once(play, server, line, what):
    """A server said this of its partner's settings, once, and nothing else."""
    found = [each for each in server.said().splitlines() if SAID in each]
    play.see(found == [line], f"{what}: {server.side} says {found} of its partner's settings, wants {[line]}")


def texts(play, key):
    """Each server, and how it tells the difference."""
    for server, partner in ((play.one, play.other), (play.other, play.one)):
        yield server, words(key, server.kind, partner.kind)


def stay_apart(play, key):
    """They don't join: both wait, and say why, once an hour."""
    one, other, what = play.one, play.other, f"another {key}"
    for server in (other, one):
        play.start(server)
    for server, text in texts(play, key):
        wanted = f"differ in {text}"
        play.until(f"{server.side}'s status has settings: {wanted}", lambda each=server: is_told(each, wanted), APART)
    while max(one.age(), other.age()) < APART:
        for server in (one, other):
            play.silent(server, [], what, 0)
            if server.serving() == "yes":
                raise Broken(f"{what}: {server.side} serves, and is connected: {server.link_is_up()}")
    for server, text in texts(play, key):
        # (where the connection is ended before the clocks are known it asks on)
        play.is_one_of(server, (WAITS, ASKS), what)
        said_once(play, server, f"<3>node: {SAID}{text}{STAY}", what)
        sent = sum(event.startswith(("send ", "take ")) for event in server.events())
        play.see(sent == 0, f"{what}: {server.side} has sent or taken {sent} messages")


def is_told(server, wanted):
    """Whether a status says so of the settings; or has nothing to say of them."""
    return server.value("settings") in (wanted, "nothing")


def join(play, key):
    """They join, and say in what they differ."""
    one, other, what = play.one, play.other, f"another {key}"
    play.begin()
    for server, text in texts(play, key):
        play.says_of_partner(server, {"notices": form.UNDERSTOOD, "settings": f"differ in {text}"})
        said_once(play, server, f"<4>node: {SAID}{text}", what)
        names = server.data().get("partner", {}).get("settings")
        play.see(names == [key], f"{what}: {server.side}'s status as an object has the settings {names}")
    mine, theirs = play.lease(one, 5), play.lease(other, 5)
    play.both_serve(mine, theirs, what)


def differ(play, key):
    _, _, may_join = KEYS[key]
    if may_join:
        join(play, key)
    else:
        stay_apart(play, key)


def further(play):
    """One has a pool more than the other, behind those that both have: they join, and that is no difference. Of the
    pool that is one's alone the other takes no unit."""
    for server in (play.other, play.one):
        play.start(server)
    play.joined("a pool more")
    for server in (play.one, play.other):
        play.until(f"a pool more: {server.side} serves", lambda each=server: each.serving() == "yes")
        play.new(server)
        play.see(SAID not in server.said(), f"a pool more: {server.side} says something of its partner's settings")
    primary, secondary = play.sides["A"], play.sides["B"]
    clients = play.lease(primary, 5)
    play.told(primary, secondary)
    play.rebinds(secondary, clients, "a pool more")


PLAYS = {f"settings-{key.removesuffix('_ms').replace('_', '-')}":
         ((lambda play, each=key: differ(play, each)), "AB", kinds(key)) for key in KEYS if key != "further"}
PLAYS["settings-further"] = (further, "AB", kinds("further"))
