"""What a client is told again without a line: what remains of what it was given not long ago. And which RELEASE is
early: the partner may still tell again what it gives back."""

from . import answers, messages
from .book import BookRefusal
from .permit import ALL

KINDS = (messages.REQUEST, messages.RENEW, messages.REBIND)


def standing_line(unit, client, identifier):
    """The line by which the client is told again that it has the unit: the unit's last grant line of this volume, where
    that grants it this binding and no later line ended the lease; else None."""
    line = unit.standing
    if line is None or not unit.holds(client, identifier):
        return None
    return line if line.event[:4] == ("grant", client, identifier, unit.prefix) else None


def is_settled(unit):
    """Whether the partner told no end of the unit, or has acknowledged the unit's last change."""
    return unit.told == 0 or unit.due is None


def remaining(book, unit, line, reading):
    """The seconds that may be told again: those that are left to the end of the line, or to the unit's own where that
    is earlier, less four times the skew and twice the transit."""
    end = min(line.reading + 1000 * line.event[4] + 2 * book.skew + book.transit, unit.own_end)
    return (end - reading - 4 * book.skew - 2 * book.transit) // 1000


def told_without_line(book, floor, order, reading):
    """What an order is told without a line: what remains of what its client has, or that there is nothing; None where
    a line is due."""
    try:
        unit, valid = book.given(reading, order)
    except BookRefusal as refusal:
        return answers.ANSWER_OF_REFUSAL[refusal.name]
    line = standing_line(unit, *order[1:3])
    if line is None or not is_settled(unit) or reading - line.reading >= 1000 * floor:
        return None
    left = remaining(book, unit, line, reading)
    return ("given", unit.prefix, left) if left > 0 and 2 * left >= valid else None


def all_told_again(book, floor, message, reading, permit=ALL):
    """The answers to a message all of which is told again; None where a line is due for one of its IA_PDs. Those that
    may not be ordered have none, and keep no other from being told again."""
    if message.kind not in KINDS or book.waiting or not message.associations or permit.anew:
        return None
    found = [permit.of(place) or told_without_line(book, floor, order, reading)
             for place, order in enumerate(answers.orders_of(message))]
    return None if None in found else found


def early_until(book, floor, unit):
    """What the clock has to show for a RELEASE of the unit not to be early, by the partner's last grant of which this
    server knows; 0 where it knows of none, or nothing is told again."""
    granted = unit.told - 2000 * book.life
    return granted + 1000 * floor + 2 * book.skew if granted >= 0 and floor != 0 else 0


def named_units(book, message, permit=ALL):
    """The units that a message names, may order, and that are its client's own, each under the IAID by which it names
    it."""
    named = [(book.table.get(prefix), association.identifier) for place, association in enumerate(message.associations)
             for number, prefix in enumerate(association.prefixes) if permit.of(place, number) is None]
    return [unit for unit, identifier in named if unit is not None and unit.holds(message.client, identifier)]


def is_early(book, floor, message, clock, permit=ALL):
    """Whether nothing is done of a message, a RELEASE that is early for one of the prefixes that it names and may give
    back. What the clock itself shows is compared, though the journal's last reading be greater."""
    return message.kind == messages.RELEASE and any(clock < early_until(book, floor, unit)
                                                    for unit in named_units(book, message, permit))


def leaves_lines(book, message, manner, permit=ALL):
    """Whether a message that is ordered leaves a line."""
    orders = answers.orders_by_association(message, manner)
    return any(leaves_line(book, message, order) for place, those in enumerate(orders)
               for number, order in enumerate(those) if permit.of(place, number) is None)


def leaves_line(book, message, order):
    if message.kind == messages.SOLICIT:
        return False
    try:
        book.check_serving(order)
        book.event_of(0, order)
    except BookRefusal:
        return False
    return True
