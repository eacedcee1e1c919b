"""Scripts of when a server of a pair ends leases: together with a partner that has told all that was due, and once it
takes it for down. Until then the partner may have renewed them."""

import time
from dataclasses import replace

from . import frames, stories
from .book import Book
from .frames import Frame
from .life_draws import end_bound
from .program import now
from .rules import takeover
from .scenes import HEARTBEAT, STOPPED, scene_of, settings_of
from .values import NOBODY

# How many milliseconds behind the start the leases of a script end, the first of which has ended.
AWAY, LATER = 3000, 6000
# Behind how many seconds a server asks for what is due, where nobody said that all is told; and how much sooner or
# later it may find so.
ASKS, NEARLY = 10, 2
# How many milliseconds a lease is ended late at most.
LATE = 3000
# Of a survivor's script how long grants last, and how much later the partner told of an end, in seconds.
SHORT, MORE = 3, 2


def leased(settings, ends):
    """A book whose clients' leases end at these moments; of each its partner knows."""
    readings = [end - end_bound(settings) for end in ends]
    book = Book.open(readings[0], settings)
    for unit in book.table.ordered[-len(ends):] if settings.role == "B" else ():
        update = stories.partners_update(unit, "backup", 0, (NOBODY, 0))
        book.add(readings[0], ("take", 0, stories.last_taken(book) + 1, update))
        book.apply(readings[0], ("send reply", unit.prefix))
    for place, reading in enumerate(readings):
        client = b"client" + bytes([place])
        book.apply(reading, ("request", client, 1, None))
        unit = book.table.lowest_held(client, 1)
        book.apply(reading, ("send update", unit.prefix))
        book.add(reading, ("take", 0, stories.last_taken(book) + 1, stories.acknowledgement(unit)))
    return book


def held(scene, place):
    return scene.book.table.lowest_held(b"client" + bytes([place]), 1)


def ends(scene, unit):
    """The lease ends now, and the partner is told, which takes note of it."""
    scene.follow(("expire", unit.prefix))
    scene.expect(scene.sent(unit.update()))
    scene.expect(*scene.says(stories.acknowledgement(unit)))


def joins(scene):
    """The two join again, and the server says once that it told all that was due."""
    scene.greets(scene.book.serial)
    scene.hears(Frame(frames.UPDATE_DONE))
    scene.hears_none(Frame(frames.UPDATE_DONE))
    scene.still()


def wait_for(reading):
    time.sleep(max(0, reading + 1 - now()) / 1000)


def together(program, role):
    """Leases that are over end once the server is answered, and was told all that was due over this connection: not
    while it waits, is joined by a partner that hasn't said so, or is alone."""
    begun = now()
    with scene_of(program, settings_of(role), leased(settings_of(role), [begun, begun + AWAY, begun + LATER])) as scene:
        first, second, third = (held(scene, place) for place in range(3))
        scene.still()
        scene.greets(scene.book.serial)
        scene.hears(Frame(frames.UPDATE_REQUEST_ALL))
        scene.expect(*scene.says(("contact", 0, 0)), scene.sent(("contact", scene.book.restart, 0)))
        scene.asks(frames.UPDATE_DONE)
        scene.still()
        scene.follow(*scene.says(("contact", 0, scene.book.restart)))
        ends(scene, first)
        scene.leaves()
        wait_for(second.own_end)
        scene.still()
        joins(scene)
        scene.asks(frames.UPDATE_DONE)
        ends(scene, second)
        scene.link.close()
        wait_for(third.own_end)
        joined = time.monotonic()
        joins(scene)
        scene.hears(Frame(frames.UPDATE_REQUEST))
        if not ASKS - NEARLY < time.monotonic() - joined < ASKS + NEARLY:
            scene.fault(f"it asks for what is due behind {time.monotonic() - joined:.1f} s")
        scene.still()
        scene.asks(frames.UPDATE_DONE)
        ends(scene, third)


def silent(program, role):
    """A lease that is over isn't ended while nothing was heard for two heartbeats; then it is."""
    book = leased(settings_of(role), [now() + 6000 * HEARTBEAT])
    with scene_of(program, settings_of(role), book, heartbeat=HEARTBEAT) as scene:
        unit = held(scene, 0)
        scene.greets(scene.book.serial)
        scene.answers()
        scene.may_say(("contact", 0, 0), (unit.own_end - now()) / 1000 + HEARTBEAT)
        scene.still(0)
        event, = scene.says(("contact", 0, 0))
        scene.follow_behind(("contact", 0, 0), event)
        scene.follow(("expire", unit.prefix))


def survived(program, role):
    """Once the partner is taken for down a lease ends behind all that it may have renewed."""
    settings = replace(settings_of(role), skew=5, mclt=SHORT, life=SHORT, transit=0)
    begun = now()
    book = leased(settings, [begun + end_bound(settings)] * 2)
    unit = book.table.lowest_held(b"client\1", 1)
    update = stories.partners_update(unit, "active", begun + 1000 * (SHORT + MORE), (unit.client, unit.identifier))
    book.add(begun, ("take", 0, stories.last_taken(book) + 1, update))
    book.apply(begun, ("send reply", unit.prefix))
    with scene_of(program, settings, book) as scene:
        scene.greets(scene.book.serial)
        scene.answers()
        scene.leaves()
        scene.daemon.told(*STOPPED)
        scene.expect(("state", "down"))
        for unit in (held(scene, 0), held(scene, 1)):
            moment = takeover(scene.book, unit)
            scene.follow(("expire", unit.prefix))
            reading = scene.book.lines[-1].reading
            if not max(moment, unit.own_end) <= reading <= moment + LATE:
                scene.fault(f"a lease is ended at {reading}, awaited {moment}")
        scene.still()


SCRIPTS = ((together, "AB"), (silent, "AB"), (survived, "AB"))
