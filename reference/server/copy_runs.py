"""Scripts of journals that are an old copy, or seem to be: what the partner says of them, and servers that begin again
while they take their partner for down."""

import contextlib
import time

from . import frames, stories
from .beginning import DOESNT_WAIT, HOLD_OFF, NO_CLOSE, NO_CLOSE_MARKED, held_off_until, lacks, older, shows_more
from .book import Book
from .frames import Frame
from .program import now
from .scenes import HEARTBEAT, QUIET, lived, scene_of, settings_of
from .values import NOBODY

HELD_OFF = "no, goes on after its restart in "
OLDER = "older than what its partner took"
# How near to the end of that time a server is asked, in seconds.
MARGIN = 2
# So many seconds behind its start a partner comes that comes late.
LATE = HOLD_OFF - 2 * MARGIN
# A unit of no pool.
ELSEWHERE = (1 << 100, 56)


def lacks_messages(scene, told):
    """The partner names a serial above the last that was sent, which is found at once and for good."""
    if not lacks(scene.book, told):
        scene.fault(f"the second itself misses nothing by {told}")
    scene.greets(told)
    scene.is_older(older(scene.book, told))


def greetings(program, role):
    """The partner names the last serial, fewer than it answered, and one more, to a server that waits and to one that
    serves."""
    book = lived(role)
    with scene_of(program, settings_of(role), book) as scene:
        lacks_messages(scene, scene.book.serial + 1)
        scene.begins_again()
        scene.greets(scene.book.serial)
        scene.answers()
        scene.serves(is_joined=True)
        unit = scene.book.table.lowest_held(b"one client", 0)
        scene.expect(*scene.says(stories.acknowledgement(unit)))
        scene.link.close()
        scene.greets(scene.book.serial - 1)
        scene.is_ended()
        scene.serves()
        lacks_messages(scene, scene.book.serial + 1)
        scene.begins_again()
        lacks_messages(scene, 1 << 49)
        scene.daemon.stop()
        scene.still()


def writes_nothing(program, role):
    """Who lacks messages doesn't even say that it lives."""
    with scene_of(program, settings_of(role), lived(role), heartbeat=HEARTBEAT) as scene:
        lacks_messages(scene, scene.book.serial + 1)
        scene.still(HEARTBEAT + QUIET)


def shown_by(program, role, message, taken):
    """A partner's messages that show nothing are taken, and an update that has seen the last change; then one has seen
    what the book doesn't have, and isn't taken."""
    book = lived(role)
    with scene_of(program, settings_of(role), book) as scene:
        scene.greets(book.serial)
        scene.answers()
        unit = scene.book.table.lowest_held(b"a client", 1)
        for body, term in taken(unit):
            if shows_more(scene.book, body):
                scene.fault(f"the second itself misses something by {body}")
            scene.expect(*scene.says(body, term=term))
        scene.told(stories.partners_update(unit, "active", now(), (unit.client, unit.identifier)))
        body = message(unit, scene.book.table.ordered[5])
        if not shows_more(scene.book, body):
            scene.fault(f"the second itself misses nothing by {body}")
        scene.says(body)
        scene.serial -= 1
        scene.is_older(OLDER)
        scene.begins_again()
        scene.waits()


def update(unit, prefix, more):
    """The partner's next update of a client's unit, or of another prefix, that has seen so many changes more."""
    return ("update", "active", prefix, unit.seen + 1, unit.mine + more, now(), unit.identifier, unit.client)


def reply(unit, prefix, more, verdict="accept"):
    """The partner's reply, to so many changes more."""
    return ("reply", verdict, prefix, unit.mine + more, unit.seen + 1, unit.seen)


def seen_over(program, role):
    """An update names more changes of a unit than there were, or one of a unit of which there was none."""
    for message in (lambda unit, _: update(unit, unit.prefix, 1),
                    lambda _, fresh: ("update", "free", fresh.prefix, 1, 1, 0, 0, NOBODY)):
        shown_by(program, role, message,
                 lambda unit: [(update(unit, unit.prefix, 0), 1), (update(unit, ELSEWHERE, 9), 0)])


def answered_over(program, role):
    """A reply answers a change that there wasn't, be it accepted or rejected."""
    for verdict in ("accept", "reject"):
        shown_by(program, role, lambda unit, _, verdict=verdict: reply(unit, unit.prefix, 1, verdict),
                 lambda unit: [(reply(unit, unit.prefix, 0), 7), (reply(unit, ELSEWHERE, 9), 0),
                               (reply(unit, unit.prefix, 0), 0)])


def survivor(role):
    """The same, which takes its partner for down."""
    book = lived(role)
    book.apply(book.lines[-1].reading, ("state", "down"))
    return book


def is_held_off(scene):
    """A server whose book isn't calm began again: it wrote nothing, serves nobody yet, and says for how long."""
    scene.passes_over()
    scene.status(HELD_OFF)
    left = scene.daemon.told("status").splitlines()[0].removeprefix(f"serving: {HELD_OFF}")
    if left not in [f"{seconds} s" for seconds in range(HOLD_OFF + 1)]:
        scene.fault(f"the status says that it goes on in {left}")
    scene.refuses("refused: ", "partner-down", "the partner is stopped")
    scene.refuses(NO_CLOSE, "stop", "--close")


def is_asked(scene):
    """The partner waits: it is served at once."""
    scene.asks(frames.UPDATE_REQUEST_ALL)
    scene.expect(("state", "normal"), scene.sent(("contact", 0, 0)))
    scene.hears(Frame(frames.UPDATE_DONE))
    scene.serves(is_joined=True)
    scene.status("yes")
    scene.expect(*scene.says(("contact", 1, 0)), scene.sent(("contact", 0, 1)))


def survivor_is_asked(program, role):
    """The partner of a survivor comes, sends an old message again, which shows nothing, and waits."""
    book = survivor(role)
    with scene_of(program, settings_of(role), book) as scene:
        is_held_off(scene)
        scene.greets(book.serial)
        scene.passes_over()
        scene.expect(*scene.says(("contact", 0, 0), term=0))
        scene.passes_over()
        scene.status(HELD_OFF)
        is_asked(scene)


def survivor_lacks_messages(program, role):
    """The partner of a survivor names more than was sent: that needs no half minute."""
    book = survivor(role)
    with scene_of(program, settings_of(role), book) as scene:
        scene.passes_over()
        lacks_messages(scene, book.serial + 1)
        scene.daemon.stop()
        scene.still()


def wait_until(moment):
    time.sleep(max(0, moment - time.monotonic()))


class Survivor:
    """A survivor that began again, and the first and last moments at which it can have begun, and been joined."""

    def __init__(self, scene, before):
        self.scene = scene
        self.began = before, time.monotonic()
        self.joined = None, None

    def is_joined(self):
        """The partner comes; a primary may have called it since its start."""
        before = self.began[0] if self.scene.book.role == "A" else time.monotonic()
        self.scene.greets(self.scene.book.serial)
        self.joined = before, time.monotonic()

    def is_left(self):
        self.scene.leaves()
        self.scene.link.end()
        self.joined = None, None

    def ends(self):
        """Between which moments its time is over."""
        return tuple(map(held_off_until, self.began, self.joined))

    def holds_off(self):
        """Until shortly before its time is over it serves nobody, and stays joined."""
        wait_until(self.ends()[0] - MARGIN)
        self.scene.passes_over()
        if self.joined[0] is not None and self.scene.link.ended(QUIET):
            self.scene.fault("the node ends the connection before its partner's time is over")

    def is_older(self):
        """Then its journal is an old copy."""
        is_ended = self.scene.link.ended()
        late = time.monotonic() - self.ends()[1]
        if not is_ended or late > MARGIN:
            self.scene.fault(f"its partner's time is over since {late:.1f} s")
        self.scene.is_older(DOESNT_WAIT)
        self.scene.daemon.stop()
        self.scene.still()

    def goes_on(self):
        """Then it serves alone, and not before."""
        self.holds_off()
        wait_until(self.ends()[1] + MARGIN)
        self.scene.serves()
        self.scene.status("yes")


@contextlib.contextmanager
def survivor_of(program, role):
    before = time.monotonic()
    with scene_of(program, settings_of(role), survivor(role)) as scene:
        yield Survivor(scene, before)


def survivor_hears_contact(program, role):
    """The partner of a survivor comes and sends a contact that asks nothing: it is taken, and shows nothing at once."""
    with survivor_of(program, role) as one:
        one.is_joined()
        one.scene.expect(*one.scene.says(("contact", 0, 0)))
        one.scene.passes_over()
        one.scene.status(HELD_OFF)
        one.holds_off()
        one.is_older()


def survivor_hears_request(program, role):
    """The partner of a survivor comes and asks for what is due, which is answered, and shows nothing at once."""
    with survivor_of(program, role) as one:
        one.is_joined()
        one.scene.asks(frames.UPDATE_REQUEST)
        one.scene.hears(Frame(frames.UPDATE_DONE))
        one.scene.passes_over()
        one.scene.status(HELD_OFF)
        one.holds_off()
        one.is_older()


def survivor_hears_nothing(program, role):
    """The partner of a survivor comes late and is silent: it has ten seconds all the same."""
    with survivor_of(program, role) as one:
        wait_until(one.began[0] + LATE)
        one.is_joined()
        one.holds_off()
        one.is_older()


def survivor_is_asked_late(program, role):
    """The partner of a survivor comes late, and waits once the half minute is over: it is served."""
    with survivor_of(program, role) as one:
        wait_until(one.began[0] + LATE)
        one.is_joined()
        wait_until(one.ends()[0] - 2 * MARGIN)
        one.scene.passes_over()
        is_asked(one.scene)


def survivor_is_left(program, role):
    """The partner of a survivor comes, doesn't wait, and leaves."""
    with survivor_of(program, role) as one:
        one.is_joined()
        one.scene.expect(*one.scene.says(("contact", 0, 0)))
        one.is_left()
        one.goes_on()


def survivor_is_left_alone(program, role):
    """Nobody comes."""
    with survivor_of(program, role) as one:
        one.scene.link.end()
        is_held_off(one.scene)
        one.goes_on()


def marked():
    """The book of a secondary that seized a unit, and doesn't take its partner for down any more: nobody acknowledged
    it."""
    settings = settings_of("B")
    reading = now() - 2 * (1000 * settings.mclt + settings.transit)
    book = Book.open(reading, settings)
    book.apply(reading, ("state", "down"))
    later = reading + 1000 * settings.mclt + 2 * settings.skew + settings.transit
    book.apply(later, ("seize", book.table.ordered[0].prefix))
    book.apply(later, ("state", "normal"))
    return book


def survivor_has_mark(program, role):
    """A server with a mark begins again: the partner asks, is told of it, and acknowledges it."""
    book = marked()
    with scene_of(program, settings_of(role), book) as scene:
        scene.passes_over()
        scene.refuses(NO_CLOSE_MARKED, "stop", "--close")
        scene.greets(book.serial)
        unit = scene.book.table.ordered[0]
        told = unit.update()
        scene.may_say(told, QUIET)
        scene.asks(frames.UPDATE_REQUEST_ALL)
        scene.expect(scene.sent(("contact", 0, 0)), ("send", scene.book.term, scene.book.serial + 2, told))
        scene.hears_none(Frame(frames.UPDATE_DONE))
        scene.expect(*scene.says(("reply", "accept", unit.prefix, unit.mine, unit.seen + 1, unit.mine)))
        scene.hears(Frame(frames.UPDATE_DONE))
        scene.serves(is_joined=True)
        scene.status("yes")
        scene.expect(*scene.says(("contact", 1, 0)), scene.sent(("contact", 0, 1)))
        scene.closes("")


def survivor_is_told(program, role):
    """A survivor begins again, and once more; told meanwhile that its partner is up it is calm, and waits from its next
    start on."""
    with scene_of(program, settings_of(role), survivor(role)) as scene:
        is_held_off(scene)
        scene.begins_again()
        is_held_off(scene)
        scene.daemon.told("partner-normal")
        scene.expect(("state", "normal"))
        scene.begins_again()
        scene.waits()
        scene.status("no, ")


# With the roles of each. The first take half a minute or more; a partner that comes late is the primary, which calls.
LONG = ((survivor_is_left_alone, "A"), (survivor_is_left, "B"), (survivor_hears_contact, "A"),
        (survivor_hears_request, "B"), (survivor_hears_nothing, "B"), (survivor_is_asked_late, "B"))
SCRIPTS = ((greetings, "AB"), (writes_nothing, "AB"), (seen_over, "AB"), (answered_over, "AB"),
           (survivor_is_asked, "AB"), (survivor_lacks_messages, "AB"), (survivor_has_mark, "B"),
           (survivor_is_told, "AB"))
