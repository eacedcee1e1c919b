"""Volumes that are due to be followed while the partner is taken for down, or units of it aren't acknowledged."""
from living.servers import SHORT

from .downs import asks_until_seized, leased
from .stage import LONG, NORMAL, rows_of

# So many lines behind a volume's head are due to be followed.
LINES = 60
FEW = {**LONG, "pool": "2001:db8::/60", "unit": 64, "more": f"volume_lines = {LINES}\n"}
FEW_SHORT = {**SHORT, "more": f"volume_lines = {LINES}\n"}
# Why no volume may follow, where it is told to begin one; and what is said once one is due.
DOWN_STILL = "no volume may follow while the partner is taken for down"
MARKED_STILL = "no volume may follow before the partner has acknowledged the units that were seized from it"
DUE = "<4>node: its volume is due to be followed, and can't be: "
HEAD = ("open ", "pool ", "transit ", "base ", "carry ", "unit ")


def behind_head(server):
    """How many lines its last volume has behind those of its head."""
    rows = rows_of(server.volumes()[-1])[1:]
    return sum(not row.split(" ", 2)[2].startswith(HEAD) for row in rows)


def writes_until_due(play, holders):
    """Clients renew until the last volume has as many lines as are due to be followed, and ten more."""
    one = play.one
    for _ in range(40 * LINES):
        if behind_head(one) >= LINES + 10:
            return holders
        if not play.customers.renew(one, holders, patience=2):
            holders = play.customers.lease(one, play.customers.new(2), 2) or holders
    raise AssertionError(f"{one.side} writes {behind_head(one)} lines behind its head: {one.status()}")


def is_not_followed(play, volumes, reason, refusal):
    """A volume is due, and isn't followed, for a reason; nor where a person says so."""
    one, what = play.one, f"due, {reason}"
    play.has(one, what, roll=reason)
    play.is_set(one, "roll", reason, what)
    had = one.data().get("volume", {}).get("roll")
    play.see(had == reason, f"{what}: {one.side}'s status as an object has roll {had}")
    play.refused(one, ("roll",), refusal, what)
    play.see(one.volumes() == volumes, f"{what}: {one.side} has {len(one.volumes())} volumes, wants {len(volumes)}")
    play.see("close" not in one.events()[-20:], f"{what}: {one.side} closes its volume")


def has_next(server, volumes):
    """Whether there is a volume behind these, with a line."""
    found = server.volumes()
    return len(found) > len(volumes) and rows_of(found[len(volumes)]) != []


def is_followed(play, volumes, what):
    """The volume is followed: it has ended, and the next one's head has the next number."""
    one = play.one
    if not play.until(f"{what}: {one.side} begins the next volume", lambda: has_next(one, volumes)):
        return
    ended, head = rows_of(volumes[-1])[-2:], rows_of(one.volumes()[len(volumes)])[0]
    count = len(rows_of(volumes[-1])) - 2
    is_ended = ended[0].endswith(" close") and ended[1] == f"end {count}"
    play.see(is_ended, f"{what}: {volumes[-1].name} ends by {ended}, wants close and end {count}")
    wanted = f"pd-journal 2 {one.side} {len(volumes) + 1}"
    play.see(head == wanted, f"{what}: the next volume begins {head!r}, wants {wanted!r}")


def down(play):
    """It falls due while the partner is taken for down: it is followed once that is back."""
    one, other = play.one, play.other
    mine, theirs = leased(play)
    play.down()
    volumes = one.volumes()
    writes_until_due(play, mine)
    is_not_followed(play, volumes, "partner_down", DOWN_STILL)
    play.until(f"{one.side} says that its volume is due", lambda: DUE in one.said())
    writes_until_due(play, mine)
    play.serves(one, mine, "due, partner_down")
    play.see(one.volumes() == volumes, f"{one.side} has {len(one.volumes())} volumes, though its partner is down")
    play.start(other)
    is_followed(play, volumes, "its partner is back")
    play.has(one, "its partner is back", partner="normal")
    play.both_serve(mine, theirs, "its partner is back")


def marked(play):
    """It falls due while units are marked too: it is followed once the partner has acknowledged them."""
    one, other = play.one, play.other
    play.begin()
    play.down()
    volumes, holders = one.volumes(), asks_until_seized(play)
    play.see(one.value("marked") != "0", f"{one.side} has seized units, and {one.value('marked')} marked")
    writes_until_due(play, holders)
    is_not_followed(play, volumes, "partner_down", DOWN_STILL)
    play.heard(one, NORMAL, "due, partner_down")
    is_not_followed(play, volumes, "unit_marked", MARKED_STILL)
    play.start(other)
    is_followed(play, volumes, "its partner is back")
    for server in (one, other):
        play.has(server, "its partner is back", partner="normal", marked="0")


PLAYS = {
    "roll-down": (down, "AB", FEW),
    "roll-marked": (marked, "AB", FEW_SHORT),
}
