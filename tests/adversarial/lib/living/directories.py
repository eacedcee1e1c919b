"""Another directory in the place of a server's: an empty one, and copies of earlier moments; the partner is up."""
import time

from .play import OLDER, SAID
from .servers import LONG


def empty(play):
    """An empty directory in the place of one with twenty live leases."""
    one, other = play.one, play.other
    play.begin()
    live = play.lease(one, 20)
    play.lease(other, 3)
    play.told(one, other)
    play.told(other, one)
    one.kill()
    one.put_back()
    play.start(one)
    play.refused_for_good(live, "an empty directory", 8)
    play.stop(one)
    play.start(one)
    play.refused_for_good(live, "an empty directory, started again", 4)


def old_copy(play):
    """A copy without forty live leases that the partner took; also as many heartbeats later as it lacks messages."""
    one, other = play.one, play.other
    play.begin()
    early = play.lease(one, 3)
    play.told(one, other)
    copy = one.copied()
    sent = one.last_sent()
    live = play.lease(one, 40)
    play.told(one, other)
    play.told(other, one)
    one.kill()
    lacks = one.last_sent() - sent
    one.put_back(copy)
    play.start(one)
    play.refused_for_good(early + live, "an old copy", 3)
    play.stop(one)
    play.start(one)
    play.refused_for_good(early + live, f"an old copy, started again and {lacks} heartbeats later", lacks + 5)
    play.see(one.last_sent() <= sent, f"an old copy: {one.side} sends {one.last_sent() - sent} more messages")


def whole_copy(play):
    """A copy that lacks nothing, and one that lacks lines, but no message that the partner took: both serve."""
    one, other = play.one, play.other
    play.begin()
    mine, theirs = play.lease(one, 8), play.lease(other, 4)
    play.told(one, other)
    play.told(other, one)
    play.stop(one)
    copy = one.copied()
    theirs += play.lease(other, 3)
    one.put_back(copy)
    play.start(one)
    joins(play, mine, theirs, "a whole copy")
    play.stop(other)
    copy = one.copied()
    sent = one.last_sent()
    # (without its partner it writes that it lives, and nothing that anybody takes)
    time.sleep(2.5)
    one.kill()
    play.see(one.last_sent() == sent, f"{one.side} sends {one.last_sent() - sent} messages though its partner is away")
    one.put_back(copy)
    for server in (one, other):
        play.start(server)
    joins(play, mine, theirs, "a copy that lacks no message")


def joins(play, mine, theirs, what):
    one, other = play.one, play.other
    play.until(f"{what}: {one.side} serves", lambda: play.customers.answered(one) > 0)
    play.serves(one, mine, what)
    play.see(one.value("journal") == "whole", f"{what}: {one.side}'s journal is {one.value('journal')!r} by its status")
    play.until(f"{what}: {other.side} serves", lambda: play.customers.answered(other) > 0)
    play.serves(other, theirs, what)


def copy_of_survivor(play):
    """A copy of the time when the partner was taken for down, put back when the two had joined again."""
    one, other = play.one, play.other
    play.begin()
    early, theirs = play.lease(one, 3), play.lease(other, 3)
    play.told(one, other)
    play.told(other, one)
    play.down()
    early += play.lease(one, 2)
    copy = one.copied()
    play.start(other)
    play.until("the partner serves again", lambda: play.customers.answered(other) > 0)
    sent = one.last_sent()
    live = play.lease(one, 12)
    play.serves(other, theirs, "behind its return")
    play.told(one, other)
    one.kill()
    one.put_back(copy)
    lacks = max(sent, other.last_taken()) - one.last_sent()
    play.start(one)
    play.refused_for_good(early + live, f"a copy of a survivor, {lacks} heartbeats later", lacks + 5)


def pad(path, serial):
    """Writes heartbeats behind a copied volume, as a program did that sent them without a partner, up to a serial."""
    text = path.read_text()
    rows = [row.split(" ") for row in text[: text.rindex("\n") + 1].splitlines()]
    last = [row for row in rows if row[2:3] == ["send"]][-1]
    # A contact answers what the partner asked last.
    asked = [row[6] for row in rows if row[2:3] == ["take"] and row[5] == "contact" and row[6] != "0"]
    contact = f"contact 0 {asked[-1] if asked else 0}"
    number, reading = int(rows[-1][0]), rows[-1][1]
    for place, each in enumerate(range(int(last[4]) + 1, serial + 1), start=number + 1):
        rows.append([str(place), reading, "send", last[3], str(each), contact])
    path.write_text("".join(" ".join(row) + "\n" for row in rows))


def used_up(play):
    """A copy that lacks messages whose serials an older program used up without a partner: the partner tells of a unit
    what this journal never said of it."""
    one, other = play.one, play.other
    play.begin()
    early, what = play.lease(one, 3), "a copy whose serials are used up"
    play.told(one, other)
    copy = one.copied()
    live = play.lease(one, 8)
    play.told(one, other)
    play.told(other, one)
    one.kill()
    sent = one.last_sent()
    play.rebinds(other, live[:4], "while the partner is away")
    one.put_back(copy)
    pad(one.volumes()[-1], sent + 2)
    play.start(one)
    play.until(f"{what}: {one.side}'s status says that its journal is too old", lambda: one.serving() == OLDER, 12)
    said = one.value("journal")
    play.see(said.startswith(OLDER.removeprefix("journal ")), f"{what}: its journal is {said!r} by its status")
    play.see(SAID in one.said(), f"{what}: {one.side} says nothing of its journal at level 3")
    taken = [event for event in one.events() if event.startswith("take ") and " update active " in event]
    play.see(not taken, f"{what}: {one.side} takes {len(taken)} updates of what it never gave")
    text = one.text()
    play.silent(one, early + live, what, 3)
    play.customers.lease(one, play.customers.new(len(live) + 5), 2)
    play.see(one.text() == text, f"{what}: {one.side} writes {one.text()[len(text):].count(chr(10))} lines more")


SCENARIOS = {
    "empty": (empty, "AB", LONG),
    "old-copy": (old_copy, "AB", LONG),
    "used-up": (used_up, "AB", LONG),
    "whole-copy": (whole_copy, "AB", LONG),
    "copy-of-survivor": (copy_of_survivor, "AB", LONG),
}
