"""What a book makes of its partner's messages: updates, replies and contacts."""

from .units import ACTIVE, BACKUP, EXPIRED, FREE, RELEASED

ACCEPT, REJECT, DROP = "accept", "reject", "drop"


def partner_pool(role):
    """The status of the units that the partner may give."""
    return BACKUP if role == "A" else FREE


def frees(book, unit, reading, update):
    """Whether an expired or released update of the partner ends the unit's delegation here."""
    _, status, _, _, seen, _, identifier, client = update
    if unit.holds(client, identifier):
        return reading >= unit.own_end or (status == RELEASED and seen == unit.mine)
    return unit.status in (EXPIRED, RELEASED, partner_pool(book.role))


def accepts(book, unit, reading, update):
    _, status, _, _, seen, _, identifier, client = update
    if unit.mark:
        return False
    if status == "seized":
        return book.waiting
    if status == ACTIVE:
        return unit.status == partner_pool(book.role) or unit.holds(client, identifier)
    if status in (EXPIRED, RELEASED):
        return frees(book, unit, reading, update)
    if book.role == "A":
        return False
    if status == BACKUP:
        return unit.status == FREE and seen == unit.mine
    return unit.status in (FREE, BACKUP)


def become(book, unit, update):
    """The change of an accepted update, counters apart."""
    _, status, _, _, _, end, identifier, client = update
    if status == ACTIVE:
        book.table.change(unit, ACTIVE, client, identifier)
        unit.told = max(unit.told, end)
        if unit.due != ACTIVE:
            unit.due = None
    elif status == BACKUP:
        book.table.change(unit, BACKUP)
    elif status == "seized":
        book.table.free(unit, partner_pool(book.role))
    else:
        book.table.free(unit, FREE)


def take_update(book, reading, term, update):
    prefix, mine = update[2], update[3]
    unit = book.table.get(prefix)
    if term != book.term or unit is None or mine <= unit.seen:
        return DROP
    if not accepts(book, unit, reading, update):
        unit.pending = ("reply", REJECT, prefix, mine, unit.mine, unit.seen)
        return REJECT
    become(book, unit, update)
    unit.seen = mine
    unit.raise_mine(by_take=True)
    unit.pending = ("reply", ACCEPT, prefix, mine, unit.mine, unit.seen)
    return ACCEPT


def goes_first(unit, body):
    """Whether a server that takes this message tells its own change of the unit before it replies: so renewals that
    crossed come to rest."""
    return body[:2] == ("update", ACTIVE) and unit.due == ACTIVE and unit.by_take and body[4] == unit.mine


def is_held_back(role, unit):
    """Whether a server of the role doesn't tell what is due of a unit before its next connection."""
    return role == "B" and unit.due == ACTIVE and unit.by_take and not unit.mark


def acknowledged(book, unit):
    """The partner knows the due change: it is due no more."""
    if unit.mark:
        unit.mark = False
        if unit.due is not None:
            unit.raise_mine(by_take=True)
        return
    change, unit.due = unit.due, None
    if change == ACTIVE:
        unit.acked = max(unit.acked, unit.out_end)
    elif change != BACKUP:
        book.table.free(unit, FREE)


def take_reply(book, term, reply):
    _, verdict, prefix, answered, mine, _ = reply
    unit = book.table.get(prefix)
    if term != book.term or unit is None or verdict != ACCEPT:
        return DROP
    if unit.update() is None or answered != unit.mine or mine <= unit.seen:
        return DROP
    unit.seen = mine
    acknowledged(book, unit)
    return ACCEPT


def take_contact(book, term, contact):
    _, ask, answer = contact
    if term > book.term and book.waiting:
        book.term = term
        book.asked = ask or book.asked
        return ACCEPT
    if term != book.term:
        return DROP
    book.asked = ask or book.asked
    if answer == book.restart and answer != 0:
        book.waiting = False
    return ACCEPT


def take(book, reading, term, body):
    """The verdict on one message of the partner; the book is changed where it says Accept or Reject."""
    if body[0] == "update":
        return take_update(book, reading, term, body)
    if body[0] == "reply":
        return take_reply(book, term, body)
    return take_contact(book, term, body)
