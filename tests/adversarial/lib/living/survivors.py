"""Servers that take their partners for down, are restarted before or after these come back, or told to close."""
import time

from .play import DOWN, restarts
from .servers import LONG, SHORT

# How long a survivor serves nobody behind its start, in seconds, and when it serves at the latest.
HOLD_OFF, AT_LAST = 30, 37
CLOSED = "no volume may follow"
GOES_ON = "the next start would be refused (stop without --close goes on)"
REFUSAL = f"refused: {CLOSED} while the partner is taken for down: {GOES_ON}"


def survived(play, count=6):
    """A pair, one of which is killed and taken for down by the other: the clients of both."""
    one, other = play.one, play.other
    play.begin()
    mine, theirs = play.lease(one, count), play.lease(other, count)
    play.told(one, other)
    play.told(other, one)
    play.down()
    return mine + play.lease(one, 2), theirs


def no_restart(play, before, what):
    """A server whose book isn't calm writes no restart."""
    more = restarts(play.one)[len(before):]
    play.see(not more, f"{what}: {play.one.side} writes {['restart %d' % number for number in more]}")


def both_serve(play, mine, theirs, what):
    """The partner is back: both serve, and each renews what the other gave."""
    one, other = play.one, play.other
    for server in (one, other):
        play.until(f"{what}: {server.side} serves", lambda each=server: play.customers.answered(each) > 0)
    play.serves(one, mine, what)
    play.serves(other, theirs, what)


def alone(play):
    """It is restarted, twice, while its partner is away: it goes on behind the hold-off."""
    one, other = play.one, play.other
    mine, theirs = survived(play)
    before = restarts(one)
    count = len(one.events())
    time.sleep(3)
    play.see(len(one.events()) == count, f"{one.side} writes {one.events()[count:][:3]} while its partner is down")
    one.kill()
    play.begins(one)
    play.holds_off("a survivor that was killed", mine)
    status, said = one.told("partner-down", DOWN)
    play.see(status == 1 and "refused" in said, f"partner-down in the hold-off: status {status}, {said!r}")
    play.stop(one)
    play.begins(one)
    play.holds_off("a survivor that was stopped in its hold-off", mine)
    while one.age() < HOLD_OFF - 4:
        time.sleep(2)
        play.see(play.customers.answered(one, mine[:1]) == 0, f"{one.side} answers within its hold-off")
    while play.customers.answered(one, mine[:1], 0) == 0 and one.age() < AT_LAST:
        pass
    play.holds.append(one.age())
    is_in_time = HOLD_OFF - 0.5 < one.age() < AT_LAST
    play.see(is_in_time, f"{one.side} serves when it has run for {one.age():.1f} s, or not at all")
    play.serves(one, mine, "behind its hold-off")
    no_restart(play, before, "a survivor that begins again")
    play.start(other)
    both_serve(play, mine, theirs, "a survivor whose partner came back")


def met(play):
    """Its partner comes back within the hold-off: it serves at once."""
    one = play.one
    mine, theirs = survived(play)
    before = restarts(one)
    play.stop(one)
    play.begins(one)
    play.holds_off("a survivor that is restarted", mine)
    play.start(play.other)
    play.until(f"{one.side} serves once its partner is back", lambda: play.customers.answered(one, mine[:1], 0) > 0)
    age = one.age()
    play.see(age < HOLD_OFF - 2, f"{one.side} serves {age:.0f} s behind its start, though its partner is back")
    both_serve(play, mine, theirs, "a survivor that was met in its hold-off")
    no_restart(play, before, "a survivor that begins again, and is met")


def calm(play):
    """Its partner has come back: the two are a pair, and it writes a restart as ever."""
    one, other = play.one, play.other
    mine, theirs = survived(play)
    play.start(other)
    both_serve(play, mine, theirs, "the partner came back")
    play.until(f"{one.side}'s partner is normal", lambda: one.value("partner") == "normal")
    before = restarts(one)
    play.stop(one)
    play.start(one)
    both_serve(play, mine, theirs, "a calm server that is restarted")
    more = restarts(one)[len(before):]
    play.see(len(more) == 1, f"{one.side} writes the restarts {more}, wants one")


def told_normal(play):
    """In the hold-off it is told that its partner is up, which comes then."""
    one, other = play.one, play.other
    mine, theirs = survived(play)
    one.kill()
    play.begins(one)
    play.holds_off("a survivor that is told", mine)
    status, said = one.told("partner-normal")
    play.see(status == 0, f"partner-normal in the hold-off: status {status}, {said!r}")
    play.silent(one, mine, "a survivor that was told that its partner is up")
    play.start(other)
    both_serve(play, mine, theirs, "a survivor that was told")


def refuses_to_close(play, known, what, text=REFUSAL):
    """Stop with --close is refused, and the server goes on as it was."""
    one = play.one
    said, status = one.stop("--close")
    if status is not None or not one.is_up():
        play.see(False, f"{what}: {one.side} stops with its volume closed, and says {said!r}")
        one.start()
        status = one.process.returncode
        play.see(one.is_up(), f"{what}: the next start ends with status {status}: {one.said()[-200:]!r}")
        return False
    play.see(text in said and GOES_ON in said, f"{what}: stop --close says {said!r}")
    play.see("close" not in one.events()[-3:], f"{what}: {one.side} closes its volume, though it says {said!r}")
    if known:
        play.serves(one, known, f"{what}, stop --close was refused")
    return True


def close_down(play):
    """While the partner is taken for down no volume is closed."""
    one = play.one
    mine, _ = survived(play)
    if not refuses_to_close(play, mine, "partner down"):
        return
    play.stop(one)
    play.begins(one)
    play.holds_off("a survivor that wasn't closed", mine)
    if refuses_to_close(play, [], "in the hold-off"):
        play.holds_off("stop --close was refused", mine)
        play.stop(one)


def close_marked(play):
    """While a unit that was seized isn't acknowledged, neither; and such a server holds off too."""
    one, other = play.one, play.other
    play.begin()
    play.down()
    for _ in range(12):
        play.customers.lease(one, play.customers.new(2), 1.5)
        if one.value("marked") != "0":
            break
        time.sleep(0.7)
    play.see(one.value("marked") != "0", f"{one.side} seizes nothing: {one.status()}")
    play.see(one.told("partner-normal")[0] == 0, "partner-normal is refused")
    before = restarts(one)
    if not refuses_to_close(play, [], "a unit is marked", CLOSED):
        return
    play.stop(one)
    play.begins(one)
    play.holds_off("a server with a marked unit", [])
    no_restart(play, before, "a server with a marked unit")
    play.start(other)
    for server in (one, other):
        play.until(f"behind the marks: {server.side} serves", lambda each=server: play.customers.answered(each) > 0)


def close_calm(play):
    """The volume of a calm pair's server is closed, and so is that of one that waits."""
    one, other = play.one, play.other
    play.begin()
    mine, theirs = play.lease(one, 3), play.lease(other, 3)
    for number, is_other_up in ((2, True), (3, False)):
        if not is_other_up:
            play.stop(other)
            play.stop(one)
            play.begins(one)
            play.silent(one, mine, "a server that waits")
        play.stop(one, "--close")
        play.see(one.volumes()[-1].read_text().splitlines()[-1].startswith("end "), f"{one.side}'s volume has no end")
        play.start(one)
        if not is_other_up:
            play.start(other)
        play.until(f"{one.side} has {number} volumes", lambda wanted=number: len(one.volumes()) == wanted)
        both_serve(play, mine, theirs, f"behind the close of volume {number - 1}")


def close_lone(play):
    """A lone server's volume is closed, and the next start is told; while it takes its partner for down, none is."""
    one = play.one
    play.start(one)
    mine = play.lease(one, 3)
    for number in (2, 3):
        said = play.stop(one, "--close")
        wanted = f"closed: the next start begins volume {number}"
        play.see(wanted in said, f"stop --close of a lone server says {said!r}, wants {wanted!r}")
        play.start(one)
        play.see(len(one.volumes()) == number, f"{one.side} has {len(one.volumes())} volumes, wants {number}")
        play.serves(one, mine, f"a lone server's volume {number}")
    if one.told("partner-down", DOWN)[0] == 0 and refuses_to_close(play, mine, "a lone server, partner down"):
        play.stop(one)
        play.start(one)
        play.until(f"{one.side} serves", lambda: play.customers.answered(one) > 0, AT_LAST)
        play.serves(one, mine, "a lone server, partner down")


SCENARIOS = {
    "survivor-alone": (alone, "AB", LONG),
    "survivor-met": (met, "AB", LONG),
    "survivor-calm": (calm, "AB", LONG),
    "survivor-told": (told_normal, "AB", LONG),
    "close-down": (close_down, "AB", LONG),
    "close-marked": (close_marked, "AB", SHORT),
    "close-calm": (close_calm, "AB", LONG),
    "close-lone": (close_lone, "1", LONG),
}
