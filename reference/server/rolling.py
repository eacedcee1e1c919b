"""A roll: what the next volume of a book begins with."""

from .book import Book, BookRefusal

KEPT_OF_A_UNIT = ("status", "client", "identifier", "mine", "seen", "own_end", "out_end", "acked", "told", "due",
                  "pending", "mark")
KEPT_OF_A_BOOK = ("term", "serial", "restart", "waiting", "asked", "skew", "mclt", "life", "transit", "pools")


HEAD = ("open", "pool", "transit", "base", "carry", "unit")


def split(lines):
    """The head of a volume, and what stands behind it."""
    count = next((place for place, line in enumerate(lines) if line.event[0] not in HEAD), len(lines))
    return lines[:count], lines[count:]


def kept(book):
    """What a book says, its lines apart."""
    units = [[getattr(unit, name) for name in KEPT_OF_A_UNIT] for unit in book.table.ordered]
    return [getattr(book, name) for name in KEPT_OF_A_BOOK], units


def carried(book, reading):
    """The carry lines behind a closed book: of each client, IAID and prefix that wasn't given back the last
    end, where that may last still."""
    ends = {}
    for line in book.lines:
        kind, *words = line.event
        if kind == "grant":
            ends[tuple(words[:3])] = max(ends.get(tuple(words[:3]), 0), line.reading + 1000 * words[3])
        elif kind == "release":
            ends.pop(tuple(words), None)
        elif kind == "carry":
            ends[tuple(words[:3])] = max(ends.get(tuple(words[:3]), 0), words[3])
    late = 2 * book.skew + book.transit
    return {("carry", *key, end) for key, end in ends.items() if end + late > reading}


def follow(book, lines):
    """The book of the next volume, whose head lines these are; what is wrong with them where they aren't its head."""
    try:
        found = Book.replay(book.role, lines, book.volume + 1)
    except BookRefusal as refusal:
        return f"the next volume's head: {refusal}"
    if kept(found) != kept(book):
        return "the next volume's book is another"
    if {line.event for line in lines if line.event[0] == "carry"} != carried(book, lines[0].reading):
        return f"the next volume carries {lines}, awaited {carried(book, lines[0].reading)}"
    return found
