"""Changes of the journals of an honest run, most of which leave well-formed journals that are nearly legal."""
from .carried import MOST_AHEAD
from .changing import near, prefix_near
from .journals import MOST_VOLUME, Base, Carry, Close, Open, Pending, Pool, Send, Take, Transit, UnitLine, line_of
from .running import CLIENTS, DAY, HOUR, KINDS, Entry, Server
from .words import MOST_COUNTER, SIDES, Malformed, Prefix, other_side
from .writing import event_words, journal_text

NAMES = {
    "status": ("free", "backup", "active", "expired", "released", "seized"),
    "due": ("none", "active", "expired", "released", "backup", "free"),
    "verdict": ("accept", "reject"),
    "name": ("normal", "interrupted", "down"),
}
# Kinds of which the last is likely to break a rule after the others.
SEQUENCES = (("restart", "grant"), ("restart", "state"), ("state", "state"), ("grant", "expire"), ("state", "seize"), ("down", "down"))
PROPOSED = [kind for kind in KINDS if kind not in ("roll", "exchange", "outage")]


class Texts:
    """The journals of a run as entries, to be changed and written."""

    def __init__(self, run):
        self.run = run
        self.volumes = {side: server.book.volume for side, server in run.servers.items()}
        self.entries = {side: list(server.entries) for side, server in run.servers.items()}

    def write(self):
        return [journal_text(side, self.volumes[side], self.entries[side]) for side in "AB"]


def changed_field(rng, run, name, value):
    """Another value for a field of an event."""
    if name == "client":
        return rng.choice(CLIENTS)
    if isinstance(value, Prefix):
        return rng.choice(run.units) if rng.random() < 0.7 else prefix_near(rng, value)
    if isinstance(value, bool):
        return not value
    if name in NAMES:
        return rng.choice(NAMES[name])
    if name == "pending":
        return Pending(rng.choice(NAMES["verdict"]), 1, 1, 1) if value is None else rng.choice((None, changed_event(rng, run, value)))
    if isinstance(value, int):
        return near(rng, value)
    return changed_event(rng, run, value)


def changed_event(rng, run, event):
    """An event with one field changed."""
    if not event._fields:
        return event
    name = rng.choice(event._fields)
    if name == "body" or (hasattr(event, "body") and rng.random() < 0.5):
        return event._replace(body=changed_event(rng, run, event.body))
    return event._replace(**{name: changed_field(rng, run, name, getattr(event, name))})


def is_legal(server, reading, event):
    """Whether an event can be written, and breaks no rule as a server's next one."""
    try:
        line_of(f"1 {reading} {event_words(event)}".encode())
    except Malformed:
        return False
    return server.would_break(reading, event) is None


def server_at(run, side, volume, entries):
    """A server whose book has come as far as these entries, None where they break a rule."""
    server = Server(side)
    server.book.volume = volume
    for reading, event in entries:
        if not is_legal(server, reading, event):
            return None
        server.write(reading, event)
    server.taken = run.servers[side].taken
    return server


def head_event(rng, run, server):
    """A line that stands at the beginning of a journal alone."""
    prefix = rng.choice(run.units)
    unit = server.book.unit(prefix)
    fields = [unit.status, unit.client, unit.association, unit.mine, unit.seen, unit.own_end, unit.out_end]
    return rng.choice(
        (
            server.book.settings,
            Pool(prefix_near(rng, prefix), prefix.length),
            Pool(Prefix(0xFE << 120, 8), rng.choice((8, 9, 23, 24, 25))),
            Transit(rng.choice((1, 500))),
            Base(server.book.term, server.book.serial, 0, False, 0),
            Carry(rng.choice(CLIENTS), 1, prefix, server.reading() + 1000),
            UnitLine(prefix, *fields, unit.acked, unit.told, unit.due, unit.pending),
            Close(),
        )
    )


def inserted(rng, texts, side):
    """A line or two more, as its server might have written them there, or with a field changed."""
    entries = texts.entries[side]
    place = rng.randrange(1, len(entries))
    server = server_at(texts.run, side, texts.volumes[side], entries[:place])
    if server is None:
        return
    for kind in rng.choice(SEQUENCES) if rng.random() < 0.4 else [rng.choice(PROPOSED)]:
        event = head_event(rng, texts.run, server) if rng.random() < 0.2 else texts.run.propose(server, kind, server.reading())
        if event is None:
            continue
        if rng.random() < 0.4:
            event = changed_event(rng, texts.run, event)
        entries.insert(place, Entry(server.reading(), event))
        place += 1
        if not is_legal(server, server.reading(), event):
            return
        server.write(server.reading(), event)


def with_other_field(rng, texts, side):
    entries = texts.entries[side]
    place = rng.randrange(len(entries))
    reading, event = entries[place]
    entries[place] = Entry(reading, changed_event(rng, texts.run, event))


def with_other_reading(rng, texts, side):
    """One reading moved, or all from one on."""
    entries = texts.entries[side]
    place = rng.randrange(len(entries))
    moved = rng.choice((-1, 1, 1, texts.run.settings.skew, -texts.run.settings.skew, 1000 * texts.run.settings.life))
    last = len(entries) if rng.random() < 0.6 else place + 1
    for where in range(place, last):
        entries[where] = Entry(max(0, entries[where].reading + moved), entries[where].event)


def with_other_setting(rng, texts, side):
    """A field of one of the lines that tell a server's settings."""
    entries = texts.entries[side]
    places = [place for place, (_, event) in enumerate(entries) if isinstance(event, (Open, Pool, Transit))]
    if places:
        place = rng.choice(places)
        entries[place] = Entry(entries[place].reading, changed_event(rng, texts.run, entries[place].event))


def without_line(rng, texts, side):
    entries = texts.entries[side]
    del entries[rng.randrange(len(entries))]


def with_line_twice(rng, texts, side):
    entries = texts.entries[side]
    place = rng.randrange(len(entries))
    entries.insert(rng.choice((place, place, min(len(entries), place + 3))), entries[place])


def with_lines_swapped(rng, texts, side):
    """Two neighbours, or any two lines, with their events exchanged."""
    entries = texts.entries[side]
    first = rng.randrange(len(entries) - 1)
    second = first + 1 if rng.random() < 0.7 else rng.randrange(len(entries))
    before, after = entries[first], entries[second]
    entries[first], entries[second] = Entry(before.reading, after.event), Entry(after.reading, before.event)


def of_other_volume(rng, texts, side):
    texts.volumes[side] = rng.choice((1, 2, 3, MOST_VOLUME, MOST_VOLUME + 1))


def shifted(rng, texts, side):
    """All readings of a side moved: its clock is wrong."""
    moved = rng.choice((1, 1000, texts.run.settings.skew, 3 * texts.run.settings.skew, HOUR, DAY))
    texts.entries[side] = [Entry(reading + moved, event) for reading, event in texts.entries[side]]


def with_take_at_bound(rng, texts, side):
    """A side's readings moved from a send on, so that its take reads twice the skew behind it, or a millisecond more."""
    entries, others = texts.entries[side], texts.entries[other_side(side)]
    sends = {event.serial: place for place, (_, event) in enumerate(entries) if isinstance(event, Send)}
    takes = [entry for entry in others if isinstance(entry.event, Take) and entry.event.serial in sends]
    if not takes:
        return
    reading, take = rng.choice(takes)
    place = sends[take.serial]
    moved = reading + 2 * texts.run.settings.skew + rng.choice((0, 1)) - entries[place].reading
    least = entries[place - 1].reading
    entries[place:] = [Entry(max(least, at + moved), event) for at, event in entries[place:]]


def with_far_ends(rng, texts, side):
    """What later volumes of a side or of both carry lasts as long as it may, a millisecond longer, or far longer."""
    for each in rng.choice(((side,), (side,), (other_side(side),), SIDES)):
        entries = texts.entries[each]
        places = [at for at, (_, event) in enumerate(entries) if isinstance(event, (Carry, UnitLine))]
        most = min(entries[0].reading + MOST_AHEAD, MOST_COUNTER)
        ends = (most - 1, most, most, most + 1, most + 1, most + DAY, 2 * most, MOST_COUNTER)
        for place in rng.sample(places, min(len(places), rng.choice((1, 1, 2, 3)))):
            entries[place] = with_end(entries[place], min(rng.choice(ends), MOST_COUNTER))


def with_end(entry, end):
    """A carry or unit line of another end."""
    name = "end" if isinstance(entry.event, Carry) else "own_end"
    return Entry(entry.reading, entry.event._replace(**{name: end}))


WAYS = {
    inserted: 10,
    with_other_field: 6,
    with_other_reading: 3,
    with_other_setting: 0.7,
    without_line: 2,
    with_line_twice: 1,
    with_lines_swapped: 2,
    of_other_volume: 0.5,
    shifted: 1,
    with_take_at_bound: 1.5,
    with_far_ends: 1.5,
}


def disturbed(rng, run):
    """The two journal texts of a run, changed in one place, now and then in more."""
    texts = Texts(run)
    for _ in range(rng.choice((1, 1, 1, 2))):
        way = rng.choices(list(WAYS), list(WAYS.values()))[0]
        if len(texts.entries["A"]) > 2 and len(texts.entries["B"]) > 2:
            way(rng, texts, rng.choice("AB"))
    return texts.write()
