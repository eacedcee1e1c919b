"""The twenty rules of a journal: the least that each line breaks, and the refusal L1."""
from .journals import (
    Backup,
    Base,
    Carry,
    Close,
    Contact,
    Expire,
    Grant,
    Open,
    Pool,
    Reclaim,
    Release,
    Reply,
    Restart,
    Seize,
    Send,
    State,
    Take,
    Transit,
    UnitLine,
    Update,
)
from .books import Book
from .words import ADDRESS_BITS, MOST_LINES, MOST_OF_32_BITS, MOST_READING, Refused

MOST_SKEW = 86_400_000
MOST_SECONDS = 31_536_000
MOST_POOLS = 16
MOST_UNITS = 65_536
# The greatest counter that a volume may begin with.
MOST_CARRIED = 2**48


def rule_1(_, line):
    """Numbers and readings: the text's own refusals come first."""
    return line.number <= MOST_LINES and line.reading <= MOST_READING


def rule_2(_, line):
    event = line.event
    if line.number != 1:
        return not isinstance(event, Open)
    if not isinstance(event, Open):
        return False
    return event.skew <= MOST_SKEW and 1 <= event.mclt <= MOST_SECONDS and 1 <= event.life <= MOST_SECONDS


def rule_3(book, line):
    event = line.event
    if not isinstance(event, Pool):
        return line.number != 2
    if not isinstance(book.last_event, (Open, Pool)) or len(book.pools) == MOST_POOLS:
        return False
    if event.unit_length < event.prefix.length or any(pool.overlaps(event.prefix) for pool, _ in book.pools):
        return False
    pools = [*book.pools, (event.prefix, event.unit_length)]
    return sum(1 << (length - pool.length) for pool, length in pools) <= MOST_UNITS


def rule_4(book, line):
    event = line.event
    if isinstance(event, Send):
        return isinstance(event.body, Contact) or book.has_unit(event.body.prefix)
    return book.has_unit(event.prefix)


def rule_5(book, _):
    return not book.waiting


def rule_6(book, line):
    unit = book.unit(line.event.prefix)
    if unit.status == "active":
        return unit.is_of(line.event.client, line.event.association)
    return unit.status == book.own_status()


def rule_7(book, line):
    return line.event.valid == book.valid_of(book.unit(line.event.prefix), line.reading)


def rule_8(book, line):
    unit = book.unit(line.event.prefix)
    return unit.status == "active" and unit.is_of(line.event.client, line.event.association)


def rule_9(book, line):
    unit = book.unit(line.event.prefix)
    return unit.status == "active" and line.reading >= max(unit.own_end, unit.told)


def rule_10(book, line):
    return book.side == "A" and book.unit(line.event.prefix).status == "free"


def rule_11(book, line):
    return book.side == "A" and book.unit(line.event.prefix).status == "backup"


def rule_12(book, line):
    return line.event.serial == book.serial + 1 and line.event.term == book.term


def update_of(prefix, unit):
    """The one update that may be sent of a unit, None where there is none."""
    if unit.marked:
        return Update("seized", prefix, unit.mine, unit.seen, 0, 0, None)
    if unit.due == "none":
        return None
    end = unit.out_end if unit.due == "active" else 0
    return Update(unit.due, prefix, unit.mine, unit.seen, end, unit.association, unit.client)


def rule_13(book, line):
    body = line.event.body
    return not isinstance(body, Update) or body == update_of(body.prefix, book.unit(body.prefix))


def reply_of(prefix, unit):
    """The one reply that may be sent of a unit, None where there is none."""
    if unit.pending is None:
        return None
    verdict, of, mine, seen = unit.pending
    return Reply(verdict, prefix, of, mine, seen)


def rule_14(book, line):
    body = line.event.body
    return not isinstance(body, Reply) or body == reply_of(body.prefix, book.unit(body.prefix))


def contact_of(book):
    """The one contact that may be sent."""
    ask = book.restart if book.waiting else 0
    answer = 0 if book.down is not None or book.marks > 0 else book.asked
    return Contact(ask, answer)


def rule_15(book, line):
    body = line.event.body
    return not isinstance(body, Contact) or body == contact_of(book)


def rule_16(book, line):
    if line.event.name != "down":
        return True
    return not book.waiting and book.down is None and book.term < MOST_OF_32_BITS


def rule_17(book, line):
    return line.event.number == book.restart + 1


def rule_18(book, line):
    """The lines that a later volume begins with stand in their place, and no other before them."""
    event = line.event
    if isinstance(event, Base):
        return book.volume > 1 and not book.based and max(event.serial, event.restart) <= MOST_CARRIED
    if isinstance(event, Carry):
        return isinstance(book.last_event, (Base, Carry)) and carry_stands(book, event)
    if isinstance(event, UnitLine):
        return isinstance(book.last_event, (Base, Carry, UnitLine)) and unit_line_stands(book, event)
    return book.volume == 1 or book.based or isinstance(event, (Open, Pool, Transit))


def carry_stands(book, event):
    """A carry line is of a unit, may still be valid, and comes after the one before it."""
    before = book.last_event
    sorted_so_far = not isinstance(before, Carry) or place_of_carry(before) < place_of_carry(event)
    return sorted_so_far and book.has_unit(event.prefix) and event.end + book.margin() > book.opened


def place_of_carry(event):
    return event.prefix, event.client, event.association


def unit_line_stands(book, event):
    before = book.last_event
    sorted_so_far = not isinstance(before, UnitLine) or before.prefix < event.prefix
    return sorted_so_far and book.has_unit(event.prefix) and event.mine <= MOST_CARRIED


def rule_19(book, _):
    return isinstance(book.last_event, Pool)


def rule_20(book, line):
    prefix = line.event.prefix
    if book.down is None or not book.has_unit(prefix):
        return False
    unit = book.unit(prefix)
    return unit.status != book.own_status() and line.reading >= max(unit.own_end, book.takeover(unit))


EVERYWHERE = ((1, rule_1), (2, rule_2), (3, rule_3))
IN_PLACE = ((18, rule_18),)
UNIT = ((4, rule_4),)
RULES_OF = {
    Open: (),
    Pool: (),
    Transit: ((19, rule_19),),
    Base: (),
    Carry: (),
    UnitLine: (),
    Grant: (*UNIT, (5, rule_5), (6, rule_6), (7, rule_7)),
    Release: (*UNIT, (8, rule_8)),
    Expire: (*UNIT, (9, rule_9)),
    Backup: (*UNIT, (10, rule_10)),
    Reclaim: (*UNIT, (11, rule_11)),
    Send: (*UNIT, (12, rule_12), (13, rule_13), (14, rule_14), (15, rule_15)),
    Take: (),
    State: ((16, rule_16),),
    Restart: ((17, rule_17),),
    Seize: ((20, rule_20),),
    Close: (),
}
# For each kind of event, the rules that speak of it, the least first.
RULES = {kind: sorted(EVERYWHERE + own + IN_PLACE, key=lambda rule: rule[0]) for kind, own in RULES_OF.items()}


def broken_rule(book, line):
    """The least rule that a line breaks as the next one of a book, None where it is legal."""
    for number, holds in RULES[type(line.event)]:
        if not holds(book, line):
            return number
    return None


def book_of(journal):
    """The book that a journal leads to, or its first line that breaks a rule."""
    book = Book(journal.side, journal.volume)
    for line in journal.lines:
        number = broken_rule(book, line)
        if number is not None:
            raise Refused(f"L1 Rule {journal.side}{line.number} {number}")
        book.add(line)
    return book
