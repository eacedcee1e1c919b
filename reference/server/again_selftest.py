"""Worked examples of what a client is told again, and of early RELEASEs, by the words of the rules; selftest.py runs
them."""

from .again import is_early, told_without_line
from .book import Book
from .messages import RELEASE, RENEW, Association, ClientMessage
from .stories import Story, partners_update
from .values import Line, Settings, prefix_of, units_of

OWN, CLIENT, OTHER = (bytes.fromhex(f"0003000102000000000{digit}") for digit in "918")
POOL = (prefix_of("2001:db8::/48"), 56)
LOWEST, SECOND, *_ = units_of([POOL])
GRANTED = 10_000
SHORT, LONG = 596, 3596
# What becomes of the unit, all at one reading, and the seconds that its client is told then; None: a new line.
STORIES = ((("given",), SHORT), (("given", "known"), None), (("given", "known", "given"), LONG),
           (("given", "known", "given", "given_back", "known", "given"), SHORT),
           (("given", "known", "given", "given_back_at_partner", "given"), SHORT),
           (("given", "given_by_partner"), None), (("given", "taken_over", "given_by_partner"), None),
           (("given", "given_back_at_partner", "moved", "given_by_partner"), None),
           (("given", "given_back", "known", "moved", "given_by_partner"), None),
           (("given", "given_back", "expired_at_partner", "moved", "given_by_partner"), None),
           (("moved", "given_by_partner"), None), (("moved", "given_by_partner", "given"), None),
           (("moved", "given_by_partner", "given", "known", "given"), None),
           (("moved", "given_by_partner", "given", "known", "given", "known"), LONG),
           (("given", "known", "given", "given_by_partner"), None),
           (("given", "known", "given", "given_by_partner", "known"), LONG),
           (("given", "known", "given", "known", "given_by_partner"), LONG),
           (("given", "known", "given", "known", "given_by_partner", "given"), None),
           (("given", "known", "given", "known", "given_by_partner", "given", "known"), LONG),
           (("given", "given_by_partner", "given_back_at_partner", "given"), SHORT))
# The end that the partner tells of a grant at that reading, twice the desired lifetime later.
TOLD = 7_210_000
# Of a book: the end that its partner told of the unit, the floor, and the clock from which on a RELEASE isn't early.
BOUNDS = ((TOLD, 360, 374_000), (TOLD, 1, 15_000), (TOLD, 3600, 3_614_000), (TOLD + 777, 360, 374_777),
          (TOLD - 10_000, 3600, 3_604_000), (TOLD - 9_999, 3600, 3_604_001))


def equal(found, wanted):
    if found != wanted:
        raise AssertionError(f"found {found!r}, wanted {wanted!r}")


def book_after(*steps, transit=0, client=CLIENT):
    book = Book.open(9000, Settings("A", OWN, 2000, 600, 3600, [POOL], transit))
    Story(None, book, book.table.get(LOWEST), GRANTED, (client, 1)).go(steps)
    return book


def told(book, age=0, floor=3600, client=CLIENT):
    """The seconds that a client is told without a line; None where there is a new line, or it has nothing."""
    answer = told_without_line(book, floor, ("renew", client, 1, LOWEST), GRANTED + age)
    return answer[2] if answer is not None and answer[0] == "given" else answer


def tell_stories():
    for steps, wanted in STORIES:
        equal(told(book_after(*steps)), wanted)
    equal(told(book_after("given"), client=OTHER), ("no binding",))
    equal(told(book_after("given", "given_back")), ("no binding",))
    given = book_after("given", "given_back_at_partner")
    Story(None, given, given.table.get(LOWEST), GRANTED, (OTHER, 1)).go(["given"])
    equal((told(given), told(given, client=OTHER)), (("no binding",), SHORT))


def keep_bounds():
    book, late = book_after("given"), book_after("given", transit=500)
    for floor, age, wanted in ((100, 99_999, 496), (100, 100_000, None), (1, 999, 595), (1, 1000, None), (0, 0, None),
                               (3600, 296_000, 300), (3600, 296_001, None), (3600, 600_000, None)):
        equal(told(book, age, floor), wanted)
    equal([told(late, age) for age in (0, 500, 501, 295_500, 295_501)], [595, 595, 594, 300, None])
    book.table.get(LOWEST).own_end -= 1000
    equal(told(book), SHORT - 1)


def forget_volumes():
    events = (("open", 2000, 600, 3600), ("pool", *POOL), ("base", 0, 0, 0, 0, 0),
              ("carry", CLIENT, 1, LOWEST, 610_000),
              ("unit", LOWEST, "active", CLIENT, 1, 1, 0, 614_000, 7_210_000, 0, 0, "active", None))
    book = Book.replay("A", [Line(number, GRANTED, event) for number, event in enumerate(events, 1)], 2)
    equal(told(book), None)
    book.apply(GRANTED, ("renew", CLIENT, 1, LOWEST))
    equal(told(book), SHORT)


def release(*named, client=CLIENT, kind=RELEASE):
    """A RELEASE of IA_PDs, each an identifier and the prefixes that it names."""
    associations = [Association(identifier, list(prefixes)) for identifier, *prefixes in named]
    return ClientMessage(kind, bytes(3), client=client, associations=associations)


MINE = release((1, LOWEST))


def book_told(end, role="A"):
    """A book whose partner gave the unit and told this end of it."""
    book = Book.open(9000, Settings(role, OWN, 2000, 600, 3600, [POOL]))
    unit = book.table.get(LOWEST)
    if role == "A":
        book.add(GRANTED, ("backup", LOWEST))
    book.add(GRANTED, ("take", 0, 1, partners_update(unit, "active", end, (CLIENT, 1))))
    return book


def release_at_bounds():
    for end, floor, bound in BOUNDS:
        for role in "AB":
            book = book_told(end, role)
            equal([is_early(book, floor, MINE, at) for at in (GRANTED, bound - 1, bound)], [True, True, False])
            equal(is_early(book, 0, MINE, GRANTED), False)
    for end in (0, 1, TOLD - 10_001):
        equal(is_early(book_told(end), 3600, MINE, GRANTED), False)


def release_by_clock():
    """The journal's last reading may be ahead of the clock, and of the bound: it is never what is compared."""
    for last in (373_999, 374_000, 374_001, 500_000):
        book = book_told(TOLD)
        Story(None, book, book.table.get(SECOND), last, (CLIENT, 2)).go(["given"])
        for both in (MINE, release((2, SECOND), (1, LOWEST))):
            found = [is_early(book, 360, both, clock) for clock in (0, 373_998, 373_999, 374_000, 374_001)]
            equal(found, [True, True, True, False, False])


def release_what_stands():
    stories = ((("given",), False), (("given", "given_by_partner"), True),
               (("given", "known", "given_by_partner"), True), (("moved", "given_by_partner"), True),
               (("moved", "given_by_partner", "given", "known"), True),
               (("given", "given_by_partner", "given_back"), False),
               (("given", "given_by_partner", "given_back_at_partner", "given"), False),
               (("given", "given_by_partner", "taken_over", "given_by_partner"), True))
    for steps, wanted in stories:
        book = book_after(*steps)
        equal([is_early(book, 360, MINE, at) for at in (373_999, 374_000)], [wanted, False])
    events = (("open", 2000, 600, 3600), ("pool", *POOL), ("base", 0, 0, 0, 0, 0),
              ("unit", LOWEST, "active", CLIENT, 1, 1, 1, 0, 0, 0, TOLD, None, None))
    book = Book.replay("A", [Line(number, GRANTED, event) for number, event in enumerate(events, 1)], 2)
    equal([is_early(book, 360, MINE, at) for at in (373_999, 374_000)], [True, False])


def release_what_is_named():
    book = book_told(TOLD)
    Story(None, book, book.table.get(SECOND), GRANTED, (CLIENT, 2)).go(["given"])
    for message, wanted in ((release((2, SECOND)), False), (release((1,), (2, SECOND)), False), (release(), False),
                            (release((2, SECOND), (1, LOWEST)), True), (release((1, LOWEST), (2, SECOND)), True),
                            (release((1, SECOND, LOWEST)), True), (release((1, POOL[0], LOWEST)), True),
                            (release((2, LOWEST)), False), (release((2, SECOND, LOWEST), (1, SECOND)), False),
                            (release((1, LOWEST), client=OTHER), False), (release((1, LOWEST), kind=RENEW), False)):
        equal(is_early(book, 360, message, GRANTED), wanted)


EXAMPLES = (tell_stories, keep_bounds, forget_volumes, release_at_bounds, release_by_clock, release_what_stands,
            release_what_is_named)
