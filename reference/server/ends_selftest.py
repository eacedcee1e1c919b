"""Worked examples of when leases may end, and of renewals that cross; selftest.py runs them."""

from . import rules, takes
from .again_selftest import CLIENT, GRANTED, LOWEST, TOLD, book_after, equal
from .ends import Ends
from .stories import partners_update


def ends_at(book, readings, **how):
    """At which of the readings the lease of the lowest unit ends."""
    known = Ends(has_partner=True)
    for name, value in how.items():
        setattr(known, name, value)
    return [reading for reading in readings if known.is_due(book, book.table.get(LOWEST), reading)]


def end_leases():
    """A lone server ends a lease at its end, one of a pair behind UPDDONE, or where rule 20 has it seize the unit."""
    book = book_after("given")
    end = book.table.get(LOWEST).own_end
    readings = [end - 1, end, end + 1, TOLD + 10_000_000]
    equal(ends_at(book, readings, has_partner=False), readings[1:])
    equal(ends_at(book, readings), [])
    equal(ends_at(book, readings, is_done=True), readings[1:])
    told = book_after("given", "given_by_partner")
    equal(ends_at(told, [end, TOLD - 1, TOLD], is_done=True), [TOLD])
    book.add(GRANTED + 1000, ("state", "down"))
    taken_over = rules.takeover(book, book.table.get(LOWEST))
    equal(ends_at(book, [end, taken_over - 1, taken_over], is_done=True), [taken_over])
    book.add(GRANTED, ("state", "normal"))
    book.add(GRANTED, ("restart", book.restart + 1))
    equal(ends_at(book, readings, is_done=True), [])


def owe_leases():
    """What a server doesn't do as it did two datagrams ago isn't owed."""
    book, known = book_after("given"), Ends(has_partner=True)
    owed = []
    for is_done in (True, True, True, False, False, False):
        known.is_done = is_done
        known.note(book)
        owed.append(known.count > 1)
    equal(owed, [False, False, True, False, False, True])


def cross_renewals():
    """What a grant raised is told at once, by who hasn't been seen behind its reply; what a take raised by a secondary
    on its next connection, or first, to who has seen it."""
    def taken(book, seen):
        unit = book.table.get(LOWEST)
        update = partners_update(unit, "active", TOLD, (CLIENT, 1))
        update = (*update[:4], seen, *update[5:])
        first = takes.goes_first(unit, update)
        book.add(GRANTED, ("take", book.term, 1 + len(book.lines), update))
        return first, unit.mine, [takes.is_held_back(role, unit) for role in "AB"]
    book = book_after("given")
    equal([takes.is_held_back(role, book.table.get(LOWEST)) for role in "AB"], [False, False])
    equal([taken(book, seen) for seen in (1, 1, 3, 3, 5)],
          [(False, 2, [False, True]), (False, 3, [False, True]), (True, 4, [False, True]), (False, 5, [False, True]),
           (True, 6, [False, True])])
    book.apply(GRANTED, ("renew", CLIENT, 1, LOWEST))
    equal(taken(book, 7), (False, 8, [False, True]))


EXAMPLES = (end_leases, owe_leases, cross_renewals)
