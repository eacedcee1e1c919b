"""Scripts of a pair's beginning: first volumes that wait, what a server writes that nothing happens to, lone servers
over books that wait, and volumes that may not be closed."""

import contextlib
import pathlib
import subprocess
import tempfile
import time
from concurrent.futures import ThreadPoolExecutor

from . import answers, copy_runs, end_runs, frames, journal, matching, rest_runs, stories
from .beginning import NEVER_ANSWERED, NO_CLOSE, NOT_ANSWERED, lone_refusal, quiet_event
from .book import Book
from .linkend import partner_of
from .program import PATIENCE, Daemon, Difference, address_text, free_port, now, serve_settings_text
from .scenes import HEARTBEAT, QUIET, SLACK, STOPPED, Scene, lived, scene_of, settings_of
from .values import NOBODY

HOST = "127.0.0.1"


def first_of_both(program, role):
    """Two new servers ask each other, and answer each other."""
    with scene_of(program, settings_of(role)) as scene:
        scene.status("no, ")
        scene.waits()
        scene.greets(0)
        scene.hears(frames.Frame(frames.UPDATE_REQUEST_ALL))
        scene.asks(frames.UPDATE_REQUEST_ALL)
        scene.expect(scene.sent(("contact", 1, 0)))
        scene.hears(frames.Frame(frames.UPDATE_DONE))
        scene.waits()
        scene.expect(*scene.says(("contact", 1, 0)), scene.sent(("contact", 1, 1)))
        scene.waits()
        scene.expect(*scene.says(("contact", 1, 1)), scene.sent(("contact", 0, 1)))
        if role == "B":
            unit = scene.book.table.ordered[-1]
            scene.told(stories.partners_update(unit, "backup", 0, (NOBODY, 0)))
        scene.serves(is_joined=True)
        scene.status("yes")
        scene.closes("")


def both_are_new(program, _):
    """Two new servers of the program serve, once each has answered the other; neither needs more than that."""
    settings = [settings_of(role) for role in "BA"]
    with partner_of(settings[0]) as link, contextlib.ExitStack() as stack:
        pair = [stack.enter_context(Daemon(program, one, answers.PLAIN, has_link=True, link=link)) for one in settings]
        until = time.monotonic() + PATIENCE
        for daemon in pair:
            while not daemon.told("status").startswith("serving: yes\n"):
                if time.monotonic() > until:
                    raise Difference(f"two new servers don't serve: {daemon.said()}{daemon.told('status')}")
                time.sleep(0.1)
        for daemon in pair:
            daemon.stop()
            lines = [journal.spelled_line_of(row) for row in daemon.volume.read_text().splitlines()[1:]]
            first = matching.opened(daemon.settings, lines)
            found = [line.event for line in lines if line.event[0] == "restart"]
            if lines[len(first.lines)].event != ("restart", 1) or found != [("restart", 1)]:
                raise Difference(f"a new server begins by {lines}")


def first_is_begun_anew(program, role):
    """A first volume of which only the head came to the disk is begun anew, and waits all the same."""
    with scene_of(program, settings_of(role), Book.open(now() - 60_000, settings_of(role))) as scene:
        scene.waits()
        scene.greets(0)
        scene.answers()
        scene.serves(is_joined=True)


def begun_alone(program, _):
    """A lone server begins and serves; with a partner from then on, it waits for that."""
    with alone(program) as scene:
        scene.serves()
        scene.daemon.stop()
        scene.still(0)
        book = scene.book
    with scene_of(program, settings_of("A"), book) as scene:
        scene.waits()
        scene.greets(0)
        scene.answers(scene.book.table.lowest_held(b"one client", 0).update())
        scene.serves(is_joined=True)
        scene.status("yes")


def first_is_begun_again(program, role):
    """A first volume that nobody answered is gone on with by the next restart, whose answer alone counts."""
    with scene_of(program, settings_of(role)) as scene:
        scene.begins_again()
        scene.greets(0)
        scene.hears(frames.Frame(frames.UPDATE_REQUEST_ALL))
        scene.expect(*scene.says(("contact", 0, 1)), scene.sent(("contact", 2, 0)))
        scene.waits()
        scene.expect(*scene.says(("contact", 0, 2)))
        scene.serves(is_joined=True)
        scene.leaves()
        scene.serves()
        scene.begins_again()
        scene.waits()
        scene.status("no, ")


def quiet(scene, is_joined=False):
    """Nothing happens to a server for `heartbeat` seconds: what it then writes."""
    before = scene.beat()
    scene.expect(quiet_event(scene.book, is_joined))
    passed = scene.book.lines[-1].reading - before
    if passed < 1000 * HEARTBEAT - SLACK:
        scene.fault(f"a line behind {passed} milliseconds, of a server whose heartbeat is {HEARTBEAT} s")


def heartbeats(program, role):
    """A server to which nothing happens, before the two have joined, joined, and behind that; while it takes its
    partner for down, and behind that."""
    with scene_of(program, settings_of(role), heartbeat=HEARTBEAT) as scene:
        quiet(scene)
        scene.greets(0)
        scene.answers()
        quiet(scene, is_joined=True)
        scene.leaves()
        quiet(scene)
        scene.link.end()
        quiet(scene)
        scene.daemon.told(*STOPPED)
        scene.expect(("state", "down"))
        scene.still(HEARTBEAT + QUIET)
        scene.daemon.told("partner-normal")
        scene.expect(("state", "normal"))
        quiet(scene)


def waiting_books():
    """Books that wait, as lists of the books of their volumes, and which refusal of a lone server each has."""
    reading = now() - 60_000
    never = Book.open(reading, settings_of("A"))
    never.apply(reading, ("restart",))
    closed = Book.replay("A", never.lines)
    closed.apply(reading, ("close",))
    given, given_back = lived("A"), lived("A")
    given.apply(reading, ("restart",))
    unit = given_back.table.lowest_held(b"a client", 1)
    given_back.apply(reading, ("release", b"a client", 1, unit.prefix))
    given_back.apply(reading, ("restart",))
    moved = Book.open(reading, settings_of("A"))
    moved.apply(reading, ("backup", moved.table.ordered[-1].prefix))
    moved.apply(reading, ("restart",))
    again = Book.replay("A", never.lines)
    return [([never], NEVER_ANSWERED), ([closed], NEVER_ANSWERED), (followed(again), NEVER_ANSWERED),
            ([given], NOT_ANSWERED), ([given_back], NOT_ANSWERED), ([told_of_lease()], NOT_ANSWERED),
            (followed(given), NOT_ANSWERED), (followed(moved), NOT_ANSWERED)]


def told_of_lease():
    """The book of a first volume that waits and has no grant: the partner told of a lease of its own."""
    reading = now() - 60_000
    book = Book.open(reading, settings_of("A"))
    unit = book.table.ordered[-1]
    book.apply(reading, ("backup", unit.prefix))
    end = reading + 2000 * book.life
    book.add(reading, ("take", 0, 1, stories.partners_update(unit, "active", end, (b"a client", 1))))
    book.apply(reading, ("send reply", unit.prefix))
    book.apply(reading, ("restart",))
    return book


def followed(book):
    """A book that closes, and that of the volume behind it, in which nothing is written yet."""
    reading = book.lines[-1].reading
    opening = [line.event for line in book.lines if line.event[0] in ("open", "pool", "transit")]
    following = Book(book.role, 2)
    for event in opening:
        following.add(reading, event)
    following.add(reading, ("base", book.term, book.serial, book.restart, int(book.waiting), book.asked))
    for unit in book.table.ordered:
        if unit.status == "active":
            line = unit.standing
            end = line.reading + 1000 * line.event[4]
            following.add(reading, ("carry", unit.client, unit.identifier, unit.prefix, end))
    for unit in book.table.ordered:
        if unit.mine > 0:
            numbers = (unit.mine, unit.seen, unit.own_end, unit.out_end, unit.acked, unit.told)
            following.add(reading, ("unit", unit.prefix, unit.status, unit.client, unit.identifier, *numbers, unit.due,
                                    unit.pending))
    book.apply(reading, ("close",))
    return [book, following]


def texts_of(books):
    """The files of a directory with these volumes."""
    return {f"{book.role}-{book.volume:07}.journal":
            (journal.write if book.closed else journal.write_open)(book.role, book.lines, book.volume)
            for book in books}


def refuses_alone(program, books, wanted):
    """A server without partner refuses to go on with these volumes, and writes nothing."""
    texts = texts_of(books)
    rows = serve_settings_text(settings_of("A"), address_text(HOST, free_port(HOST)), ["alone = true"])
    texts["settings.toml"] = rows
    with tempfile.TemporaryDirectory() as folder:
        place = pathlib.Path(folder)
        for name, text in texts.items():
            (place / name).write_text(text, encoding="utf-8")
        words = [program, "serve", "--dir", folder]
        try:
            said = subprocess.run(words, stdin=subprocess.DEVNULL, capture_output=True, text=True, timeout=PATIENCE,
                                  check=False)
        except subprocess.TimeoutExpired as late:
            raise Difference(f"{texts}\na lone server begins, awaited {wanted}") from late
        found = {path.name: path.read_text(encoding="utf-8") for path in place.iterdir()}
    if said.returncode != 1 or f"<3>node: {wanted}\n" not in said.stderr or found != texts:
        raise Difference(f"{texts}\nawaited {wanted}\nfound status {said.returncode}, {said.stderr}\n{found}")


def lone_starts(program, _):
    """Lone servers over books that wait, each of which refuses; and over one that was answered, which waits: its partner
    may have taken it for down."""
    for books, wanted in waiting_books():
        if lone_refusal(books[-1]) != wanted:
            raise Difference(f"the second itself refuses by {lone_refusal(books[-1])}, awaited {wanted}")
        refuses_alone(program, books, wanted)
    book = lived("A")
    with alone(program, book) as scene:
        scene.waits()
        scene.status("no, waits for its partner's answer")


@contextlib.contextmanager
def alone(program, book=None):
    """A server without partner, which goes on with a book where there is one."""
    past = book.lines if book else []
    with Daemon(program, settings_of("A"), answers.PLAIN, past=past) as daemon:
        yield Scene(daemon)


def closes_with_partner(program, role):
    """The partner is taken for down: the volume isn't closed, and the server goes on."""
    book = lived(role)
    with scene_of(program, settings_of(role), book) as scene:
        scene.greets(book.serial)
        scene.answers()
        scene.leaves()
        scene.daemon.told(*STOPPED)
        scene.expect(("state", "down"))
        scene.refuses(NO_CLOSE, "stop", "--close")
        scene.serves()
        scene.status("yes")
        scene.daemon.told("partner-normal")
        scene.expect(("state", "normal"))
        scene.serves()
        scene.closes("")


def closes_alone(program, _):
    """A lone server that is told to stop and close says which volume begins next; it refuses as one of a pair does."""
    with alone(program) as scene:
        scene.serves()
        scene.daemon.told(*STOPPED)
        scene.expect(("state", "down"))
        scene.refuses(NO_CLOSE, "stop", "--close")
        scene.serves()
        scene.daemon.told("partner-normal")
        scene.expect(("state", "normal"))
        scene.closes("closed: the next start begins volume 2")


# With the roles of each; those that wait longest first.
SCRIPTS = (*copy_runs.LONG, *end_runs.SCRIPTS, (heartbeats, "AB"), *copy_runs.SCRIPTS, (first_of_both, "AB"), (first_is_begun_again, "AB"),
           (first_is_begun_anew, "AB"), (begun_alone, "A"), (both_are_new, "B"), (lone_starts, "A"),
           (closes_with_partner, "AB"), (closes_alone, "A"), *rest_runs.SCRIPTS)
# Those that wait for long take no other's place.
SIDE_BY_SIDE = 7 + sum(len(roles) for _, roles in (*copy_runs.LONG, *end_runs.SCRIPTS))


def play(script, program, role):
    """A script; a difference says in which it was."""
    try:
        script(program, role)
    except Difference as difference:
        raise Difference(f"{script.__name__}, side {role}:\n{difference}") from difference


def serve_starts(program, tally):
    """Each script for each role, side by side: most of their time they wait."""
    with ThreadPoolExecutor(SIDE_BY_SIDE) as pool:
        ways = [pool.submit(play, script, program, role) for script, roles in SCRIPTS for role in roles]
        for way in ways:
            way.result()
            tally["scripts of starts and old copies"] += 1
