"""Inputs at the limits of the formats and of the rules, and one past them."""
from .certificates import Certificate, Early, Foreign, Late, Piece
from .journals import Base, Carry, Close, Contact, Grant, Open, Pending, Pool, Restart, Send, State, Take, Transit, UnitLine
from .running import CLIENTS, Entry
from .words import MOST_COUNTER, MOST_OF_32_BITS, MOST_READING, Prefix, Reference
from .writing import certificate_text, journal_text

POOL = Prefix(0x20010DB8 << 96, 48)
FIRST, SECOND = (Prefix(POOL.address + (place << 72), 56) for place in (0, 1))
HOLDER, STRANGER = CLIENTS[:2]
HOUR = 3600
OPEN = Open(2000, HOUR, HOUR)
HEAD = [OPEN, Pool(POOL, 56)]
END = 3_700_000


def entries(events, opened=9000):
    return [Entry(opened, event) for event in events] + [Entry(max(END, opened), Close())]


def text_of(side, events, volume=1, opened=9000):
    return journal_text(side, volume, entries(events, opened))


def whole_hour(chain=None, foreign=(), end=3_608_000):
    """The certificate of a grant in A's third line."""
    chain = chain or [Reference("A", 3)]
    piece = Piece(Reference("A", 3), 12_000, end, chain, [Reference("A", 3)], [])
    return certificate_text(Certificate(HOLDER, FIRST, 12_000, end, [piece], list(foreign)))


GRANT = Grant(HOLDER, 1, FIRST, HOUR)
# A journal of A with a grant to the holder and a later one, of another prefix, to a stranger.
GRANTS = journal_text("A", 1, [*entries([*HEAD, GRANT])[:-1], Entry(20_000, Grant(STRANGER, 1, SECOND, HOUR)), Entry(END, Close())])
SECOND_SIDE = text_of("B", HEAD)


def journals_of_a():
    """Journals of side A, each to be audited with a plain journal of B."""
    for skew, mclt, life in ((86_400_000, 1, 1), (86_400_001, 1, 1), (0, 0, 1), (0, 1, 0), (0, 31_536_000, 1)):
        yield text_of("A", [Open(skew, mclt, life), Pool(POOL, 56)])
    for skew, mclt, life in ((0, 31_536_001, 1), (0, 1, 31_536_000), (0, 1, 31_536_001), (0, MOST_OF_32_BITS, 1)):
        yield text_of("A", [Open(skew, mclt, life), Pool(POOL, 56)])
    for count in (16, 17):
        yield text_of("A", [OPEN, *[Pool(Prefix((place + 1) << 120, 8), 8 + place % 3) for place in range(count)]])
    yield text_of("A", [OPEN, Pool(Prefix(0, 0), 16)])
    yield text_of("A", [OPEN, Pool(Prefix(0, 0), 17)])
    yield text_of("A", [OPEN, Pool(Prefix(0, 112), 128)])
    yield text_of("A", [OPEN, Pool(Prefix(0, 112), 128), Pool(Prefix(1 << 127, 128), 128)])
    yield text_of("A", [OPEN, Pool(Prefix(0, 113), 128), Pool(Prefix(1 << 127, 113), 128)])
    yield text_of("A", [OPEN, Pool(Prefix(0, 0), 128)])
    yield text_of("A", [OPEN, Pool(POOL, 47)])
    yield text_of("A", HEAD, opened=MOST_READING)
    yield text_of("A", HEAD, opened=MOST_READING + 1)
    yield text_of("A", [*HEAD, Restart(MOST_COUNTER)])
    yield text_of("A", [*HEAD, Take(MOST_OF_32_BITS, 1, Contact(0, 0))])
    yield text_of("A", [*HEAD, Take(MOST_OF_32_BITS + 1, 1, Contact(0, 0))])
    for milliseconds in (0, 1, 3_600_000, 3_600_001):
        yield text_of("A", [*HEAD, Transit(milliseconds)])


def later_journals_of_a():
    """Second volumes of side A."""
    carried, counter = 2**48, MOST_COUNTER
    base = Base(0, 0, 0, False, 0)
    unit = UnitLine(FIRST, "active", HOLDER, 1, 1, 0, 0, 0, 0, 0, "none", None)
    for changed in (
        base._replace(term=MOST_OF_32_BITS),
        base._replace(serial=carried),
        base._replace(serial=carried + 1),
        base._replace(restart=carried),
        base._replace(restart=carried + 1),
        base._replace(asked=counter),
        base._replace(asked=counter + 1),
    ):
        yield [*HEAD, changed]
    yield [*HEAD, base._replace(term=MOST_OF_32_BITS - 1), State("down"), State("normal"), State("down")]
    yield [*HEAD, base._replace(term=MOST_OF_32_BITS - 2), State("down"), State("normal"), State("down")]
    for mine in (carried, carried + 1):
        yield [*HEAD, base, unit._replace(mine=mine)]
        yield [*HEAD, base, unit._replace(pending=Pending("accept", mine, mine, mine))]
    for name in ("seen", "own_end", "out_end", "acked", "told"):
        yield [*HEAD, base, unit._replace(**{name: counter})]
        yield [*HEAD, base, unit._replace(**{name: counter + 1})]
    for end in (0, 4999, 5000, 5001, counter, counter + 1):
        yield [*HEAD, base, Carry(HOLDER, 1, FIRST, end)]
    for end in (4997, 4998, 4999):
        yield [*HEAD, Transit(3), base, Carry(HOLDER, 1, FIRST, end)]
    yield [*HEAD, Transit(3), Transit(3), base]
    yield [*HEAD, Take(0, 1, Contact(0, 0)), base]
    yield [*HEAD, base, Take(0, 1, Contact(0, 0)), Carry(HOLDER, 1, FIRST, 10_000)]
    yield [*HEAD, base, Send(0, 1, Contact(0, 0)), base]


def contacts():
    """Takes of B of a serial that A's earlier volume may have sent."""
    for serial in (4, 5, 6):
        yield text_of("A", [*HEAD, Base(0, 5, 0, False, 0)], 2), text_of("B", [*HEAD, Take(0, serial, Contact(0, 0))])


def long_lines():
    """The longest line of a journal, and the same with more digits in its number: 512 and 513 octets."""
    counter = MOST_COUNTER
    pending = Pending("accept", counter, counter, counter)
    unit = UnitLine(FIRST, "released", b"\xfe" * 130, 1, counter, counter, counter, counter, counter, counter, "released", pending)
    text = text_of("A", [*HEAD, Base(0, 0, 0, False, 0), unit], 2, MOST_READING)
    for number in (b"4", b"1048576", b"10485760", b"104857600", b"18446744073709551615"):
        yield text.replace(b"\n4 ", b"\n" + number + b" ")


def certificates():
    """Certificates of A's third line, at the limits of lines and chains."""
    last = Reference("A", 4)
    late = Foreign(last, Late([last]))
    for count in (65_536 - 6, 65_536 - 5):
        yield whole_hour(foreign=[late] * count, end=12_001)
    for count in (1023, 1024, 1025):
        yield whole_hour(chain=[Reference("A", 3)] * count)
    text = whole_hour()
    for size in (32_768, 32_769):
        line = b"x" * (size - 1) + b"\n"
        yield text.replace(b"end\n", line + b"end\n")
    for number in (1_048_576, 1_048_577, 0):
        yield text.replace(b"latest A3", b"latest A%d" % number)
    for moment in (2**48, 2**48 + 1):
        yield text.replace(b"3608000", b"%d" % moment)
        yield text.replace(b"A3 12000 3608000", b"A3 12000 %d" % moment)


def endless():
    """Certificates without an end line, of as many lines as there may be and of one more."""
    last = Reference("A", 4)
    for count in (65_536 - 5, 65_536 - 4):
        yield whole_hour(foreign=[Foreign(last, Early([last]))] * count).removesuffix(b"end\n")


def inputs():
    """Two journals and a list of certificates each."""
    plain = [whole_hour()]
    first = text_of("A", [*HEAD, GRANT])
    yield [GRANTS, SECOND_SIDE], list(certificates())
    for text in endless():
        yield [GRANTS, SECOND_SIDE], [text]
    for text in journals_of_a():
        yield [text, SECOND_SIDE], plain
        yield [first, text.replace(b"pd-journal 1 A", b"pd-journal 1 B")], plain
    for events in later_journals_of_a():
        yield [text_of("A", events, 2), SECOND_SIDE], plain
        yield [first, text_of("B", events, 2)], plain
    for journals in contacts():
        yield list(journals), plain
    for text in long_lines():
        yield [text, SECOND_SIDE], plain
    for volume in (0, 1, 2, 2**20, 2**20 + 1):
        head = b"pd-journal 2 A %d\n" % volume
        yield [head + text_of("A", [*HEAD, Base(0, 0, 0, False, 0)], 2).partition(b"\n")[2], SECOND_SIDE], plain
