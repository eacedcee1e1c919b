"""Scripts of what comes to rest: renewals that crossed, more tellings than are let go at once, contacts of two servers
to which nothing else happens; and of words about a partner that are refused."""

from dataclasses import replace

from . import frames, stories
from .book import Book
from .frames import Frame
from .program import now
from .scenes import HEARTBEAT, SLACK, STOPPED, lived, scene_of, settings_of
from .values import NOBODY

# How much is due: 256 tellings are under way at once.
MANY = 300


def renewed(scene, unit, seen):
    """The partner tells that it renewed what a client has, and had seen so many changes of it."""
    body = ("update", "active", unit.prefix, unit.seen + 1, seen, now(), unit.identifier, unit.client)
    for event in scene.says(body):
        scene.follow(event)


def told(scene, unit):
    return scene.sent(unit.update())


def renewed_at_once(scene, unit):
    """The partner hadn't seen the last change: behind the reply the primary tells its own, the secondary nothing."""
    renewed(scene, unit, unit.mine - 1)
    scene.follow(scene.sent(unit.pending))
    if scene.book.role == "A":
        scene.follow(told(scene, unit))
    scene.still()


def renewed_behind(scene, unit):
    """The partner has seen what a take made of the unit: the server tells its own first, and replies then."""
    renewed(scene, unit, unit.mine)
    scene.follow(told(scene, unit))
    scene.expect(scene.sent(unit.pending))
    scene.still()


def crossed(program, role):
    """Both servers renew, and tell each other of it at once: the primary tells what is due again, the secondary on its
    next connection. To a partner that has seen what a take made of it each tells its own first."""
    with scene_of(program, settings_of(role), lived(role)) as scene:
        scene.greets(scene.book.serial)
        scene.answers()
        scene.serves(is_joined=True)
        unit = scene.book.table.lowest_held(b"one client", 0)
        for _ in range(2):
            renewed_at_once(scene, unit)
            renewed_behind(scene, unit)
        renewed_at_once(scene, unit)
        scene.leaves()
        scene.greets(scene.book.serial)
        if role == "B":
            scene.follow(told(scene, unit))
        scene.hears(Frame(frames.UPDATE_DONE))
        scene.still()
        scene.expect(*scene.says(stories.acknowledgement(unit)))
        scene.serves(is_joined=True)


def many(program, role):
    """More is due than may be under way at once, and nothing is replied: all is told, each once, and then UPDDONE."""
    settings = settings_of(role)
    settings = replace(settings, pools=[(settings.pools[0][0], settings.pools[0][1] + 2)])
    book = Book.open(now() - 60_000, settings)
    for unit in book.table.ordered[:MANY]:
        reading = book.lines[-1].reading
        if role == "B":
            update = stories.partners_update(unit, "backup", 0, (NOBODY, 0))
            book.add(reading, ("take", 0, stories.last_taken(book) + 1, update))
            book.apply(reading, ("send reply", unit.prefix))
        book.apply(reading, ("request", b"client" + unit.place.to_bytes(2, "big"), 1, None))
    with scene_of(program, settings, book) as scene:
        scene.greets(scene.book.serial)
        due = [unit for unit in scene.book.table.ordered if unit.due is not None]
        for unit in due:
            scene.follow(told(scene, unit))
        if Frame(frames.UPDATE_DONE) in scene.others:
            scene.fault("all is said to be told before it is")
        scene.still()


def contacts(program, role):
    """The contacts of a partner keep none of the server's back."""
    with scene_of(program, settings_of(role), heartbeat=HEARTBEAT) as scene:
        scene.greets(0)
        scene.answers()
        for _ in range(2):
            before = scene.beat()
            mine = scene.sent(("contact", 0, 0))
            for _ in range(8 * HEARTBEAT):
                event, = scene.says(("contact", 0, 0))
                scene.follow_behind(("contact", 0, 0), event)
                if mine in [line.event for line in scene.book.lines[-2:]]:
                    break
                scene.may_say(("contact", 0, 0), 0.25)
            sent = [line.reading - before for line in scene.book.lines if line.event == mine]
            if not sent or sent[0] < 1000 * HEARTBEAT - SLACK:
                scene.fault(f"contacts behind {sent} milliseconds, of a server whose heartbeat is {HEARTBEAT} s")


def refused(program, role):
    """A partner isn't taken for up that isn't down, nor for down by a server that waits for it; nothing is written."""
    with scene_of(program, settings_of(role), lived(role)) as scene:
        for words in (STOPPED, ("partner-normal",)):
            scene.refuses("refused: ", *words)
        scene.waits()
        scene.greets(scene.book.serial)
        for words in (STOPPED, ("partner-normal",)):
            scene.refuses("refused: ", *words)
        scene.answers()
        for words in (STOPPED, ("partner-normal",)):
            scene.refuses("refused: ", *words)
        scene.serves(is_joined=True)
        scene.leaves()
        scene.link.end()
        scene.refuses("refused: ", "partner-normal")
        scene.daemon.told(*STOPPED)
        scene.expect(("state", "down"))
        scene.refuses("refused: ", *STOPPED)
        scene.daemon.told("partner-normal")
        scene.expect(("state", "normal"))
        scene.refuses("refused: ", "partner-normal")
        scene.serves()


SCRIPTS = ((crossed, "AB"), (many, "AB"), (contacts, "AB"), (refused, "AB"))
