"""Worked examples of quotas and of whose releases and renewals are believed, by the words of the rules; selftest.py
runs them."""

from . import answers, messages
from .again import all_told_again, is_early
from .again_selftest import CLIENT, GRANTED, LOWEST, OTHER, OWN, POOL, SECOND, TOLD, book_after, equal, release
from .answers import NO_BINDING, NO_PREFIX, NOTHING
from .book import Book
from .limiting import Asking, Policy
from .limits import Limits
from .manner import Manner
from .messages import REBIND, RELEASE, RENEW, REQUEST, SOLICIT
from .stories import Story, partners_update
from .values import Line, Settings, units_of

HERE, THERE = (bytes(16), b"here", None), (bytes(16), b"there", None)
BARE = (bytes(15) + b"\1", None, None)
DAEMONS = Manner(releases_each=True)
# Units of another client, of the first client under another IAID, and of nobody; and a prefix of no unit.
THIRD, FOURTH, FIFTH = units_of([POOL])[2:5]
FOREIGN = (THIRD, FOURTH, FIFTH, POOL[0])
# When a first lease is over by any clock, and when one of the partner's that it told of.
OWN_END = GRANTED + 604_000


def policy_of(ports=(), **limits):
    """The limits, and the port by which each unit was given."""
    policy = Policy(Limits(**limits))
    for prefix, port in ports:
        policy.granted(prefix, port)
    return policy


def permit(policy, book, message, port=HERE, at=GRANTED, is_apart=True):
    return policy.permit(book, Asking(message, answers.orders_by_association(message, DAEMONS), port, at, is_apart))


def denied(policy, book, *named, kind=REQUEST, client=CLIENT, at=GRANTED, port=HERE):
    """The places that may not be ordered."""
    message = release(*named, kind=kind, client=client)
    return [place for place, _ in sorted(permit(policy, book, message, port, at).told)]


def count_what_lasts():
    """A lease counts until it is over by its own end and by what the partner told; then it is one more."""
    for limits in ({"units_per_client": 1}, {"units_per_port": 1}):
        policy = policy_of([(LOWEST, HERE)], **limits)
        for kind in (SOLICIT, REQUEST):
            book = book_after("given")
            for at, alone, behind, before in ((OWN_END - 1, [0], [1], [0]), (OWN_END, [], [1], [1])):
                equal(denied(policy, book, (2,), kind=kind, at=at), alone)
                equal(denied(policy, book, (1, LOWEST), (2,), kind=kind, at=at), behind)
                equal(denied(policy, book, (2,), (1, LOWEST), kind=kind, at=at), before)
            told = book_after("given", "given_by_partner")
            equal([denied(policy, told, (2,), kind=kind, at=at) for at in (OWN_END, TOLD - 1, TOLD)], [[0], [0], []])
    partners = book_after("moved", "given_by_partner")
    for limits, wanted in (({"units_per_client": 1}, [[0], []]), ({"units_per_port": 1}, [[], []])):
        policy = policy_of(**limits)
        equal([denied(policy, partners, (2,), at=at) for at in (TOLD - 1, TOLD)], wanted)
    equal(denied(policy_of(units_per_client=1), partners, (1,), at=TOLD - 1), [])


def believe_by_port():
    """What is known to be another port's isn't renewed or given back; what nothing names is."""
    book = book_after("given", "known")
    asked = [((1, LOWEST),), ((1,),), ((2,), (1, SECOND))]
    for port in (THERE, BARE, None):
        policy = policy_of([(LOWEST, HERE)], bind_to_port=True)
        for named in asked:
            for kind in (SOLICIT, REQUEST, RENEW, REBIND, RELEASE):
                wanted = {(len(named) - 1, 0): NO_BINDING if kind == RELEASE else NO_PREFIX}
                equal(permit(policy, book, release(*named, kind=kind), port).told, wanted)
                equal(permit(policy, book, release(*named, kind=kind), HERE).told, {})
                equal(permit(policy_of([(LOWEST, HERE)]), book, release(*named, kind=kind), port).told, {})
        unnamed = policy_of([(LOWEST, port)], bind_to_port=True)
        for kind in (REQUEST, RENEW, REBIND, RELEASE):
            found = permit(unnamed, book, release((1, LOWEST), kind=kind), HERE)
            equal(list(found.told), [(0, 0)] if port == THERE else [])
    equal(permit(policy, book, release((1, LOWEST), client=OTHER), THERE).told, {})


def leave_what_is_unknown():
    """What has no record, or what the partner granted later, is left to it, or ordered anew without it."""
    for ago, is_known in ((0, True), (1, True), (-1, False)):
        book = book_after("given", "known")
        unit = book.table.get(LOWEST)
        book.add(GRANTED, ("take", 0, 2, partners_update(unit, "active", unit.out_end - ago, (CLIENT, 1))))
        for ports, wanted in (([(LOWEST, HERE)], is_known), ([(SECOND, HERE)], False), ([], False)):
            policy = policy_of(ports, bind_to_port=True)
            for port in (HERE, *([] if wanted else [THERE, None])):
                look_at_unit(policy, book, port, wanted)


def look_at_unit(policy, book, port, is_known):
    """A unit that is known to be that port's, or that is unknown."""
    for kind in (SOLICIT, REQUEST):
        equal(permit(policy, book, release((1, LOWEST), kind=kind), port).told, {})
    found = permit(policy, book, release((1, LOWEST, SECOND), (2, LOWEST)), port)
    equal(found.told, {} if is_known else {(0, 0): NOTHING})
    equal(is_early(book, 360, release((1, LOWEST)), GRANTED, found), is_known)
    for kind in (RENEW, REBIND):
        message = release((2,), (1,), kind=kind)
        found = [permit(policy, book, message, port, is_apart=apart) for apart in (False, True)]
        equal([each.told for each in found], [{} if is_known else {(1, 0): NOTHING}, {}])
        equal([each.anew for each in found], [set(), set() if is_known else {1}])


def answers_of(book, message, allowed):
    """The answer to a message, as its status and what it says of IA_PDs; None where there is none."""
    octets = answers.serve(book, OWN, message, GRANTED, DAEMONS, allowed)
    if octets is None:
        return None
    codes = [code for code, _ in messages.options(octets, 4)]
    return codes.count(messages.STATUS_CODE), codes.count(messages.IA_PD)


def answer_what_is_left():
    """A RELEASE of what is left is told Success alone; a RENEW of it has no answer, unless it asks for more."""
    for kind, named, wanted in ((RELEASE, [(1, LOWEST)], (1, 0)), (RELEASE, [(1, LOWEST), (2,)], (1, 1)),
                                (RENEW, [(1, LOWEST)], None), (REBIND, [(1,), (1,)], None),
                                (RENEW, [(1,), (2,)], (0, 1)), (REBIND, [(1,), (2,)], (0, 1))):
        book = book_after("given")
        count, message = len(book.lines), release(*named, kind=kind)
        allowed = permit(policy_of(bind_to_port=True), book, message, is_apart=False)
        equal((answers_of(book, message, allowed), len(book.lines) - count), (wanted, 0))
    book = book_after("given")
    message = release((1, LOWEST), kind=RENEW)
    equal(all_told_again(book, 3600, message, GRANTED) is None, False)
    allowed = permit(policy_of(bind_to_port=True), book, message)
    equal(all_told_again(book, 3600, message, GRANTED, allowed), None)
    equal(answers_of(book, message, allowed), (0, 1))
    equal(book.lines[-1], Line(len(book.lines), GRANTED, ("grant", CLIENT, 1, LOWEST, 600)))


def forget_other_leases():
    """A record says nothing of a lease that came behind the one that it is of."""
    book = book_after("given", "given_back", "known", "moved", "given_by_partner")
    policy = policy_of([(LOWEST, HERE)], bind_to_port=True, units_per_port=1)
    equal(policy.is_recorded(book.table.get(LOWEST)), False)
    equal(permit(policy, book, release((1, LOWEST)), THERE).told, {(0, 0): NOTHING})
    equal(denied(policy, book, (2,), port=HERE), [])
    Story(None, book, book.table.get(LOWEST), GRANTED, (CLIENT, 1)).go(["given"])
    equal(policy.is_known(book.table.get(LOWEST)), True)


def with_two(own, partners):
    """A book in which a client has units under one association, some of this server's grant and some of the partner's,
    beside one of another client and one under another IAID; and the policy."""
    book = Book.open(9000, Settings("A", OWN, 2000, 600, 3600, [POOL], 0))
    mine = [(prefix, (CLIENT, 1)) for prefix in own] + [(THIRD, (OTHER, 1)), (FOURTH, (CLIENT, 2))]
    for prefix, holder in mine:
        Story(None, book, book.table.get(prefix), GRANTED, holder).go(["given", "known"])
    for prefix in partners:
        Story(None, book, book.table.get(prefix), GRANTED, (CLIENT, 1)).go(["moved", "given_by_partner"])
    return book, policy_of([(prefix, HERE) for prefix, _ in mine], bind_to_port=True)


def know_one_of_two():
    """Of two units of an association one is known, be it the lower or not: the one that is named says which it is. What
    names none of them is about none where it gives back, and is known where it renews."""
    for known, unknown in ((LOWEST, SECOND), (SECOND, LOWEST)):
        book, policy = with_two([known], [unknown])
        for kind in (RENEW, REBIND, RELEASE):
            for named in ((known,), (), *((prefix,) for prefix in FOREIGN)):
                look_at_named(policy, book, kind, named, False)
            look_at_named(policy, book, kind, (unknown,), True)
        both = permit(policy, book, release((1, known, unknown, THIRD), (1, unknown, known)))
        equal(both.told, {(0, 1): NOTHING, (1, 0): NOTHING})
        answer_of_two(policy, known, unknown)


def know_none_of_two():
    """Of two units of an association neither is known: what renews is left to the partner whatever it names, and what
    gives back where it names one of them."""
    book, policy = with_two([], [LOWEST, SECOND])
    for port in (HERE, THERE, None):
        for named in ((LOWEST,), (SECOND,), (), *((prefix,) for prefix in FOREIGN)):
            for kind in (RENEW, REBIND):
                look_at_named(policy, book, kind, named, True, port)
            look_at_named(policy, book, RELEASE, named, named in ((LOWEST,), (SECOND,)), port)
    equal(permit(policy, book, release((3,), (3, LOWEST), kind=RENEW), is_apart=False).told, {})


def know_both_of_two():
    """Where both units of an association are known nothing is left."""
    book, policy = with_two([LOWEST, SECOND], [])
    for kind in (RENEW, REBIND, RELEASE):
        for named in ((LOWEST,), (SECOND,), (), *((prefix,) for prefix in FOREIGN)):
            look_at_named(policy, book, kind, named, False)


def look_at_named(policy, book, kind, named, is_left, port=HERE):
    """An IA_PD that names that is left to the partner, or isn't: with it, and apart from it. One that asks never is,
    and behind another port than the one that is known all is denied."""
    message = release((7,), (1, *named), kind=kind)
    found = [permit(policy, book, message, port, is_apart=apart) for apart in (False, True)]
    left = {(1, 0): NOTHING} if is_left else {}
    equal([each.told for each in found], [left, left if kind == RELEASE else {}])
    equal([each.anew for each in found], [set(), {1} if is_left and kind != RELEASE else set()])
    for asks in (SOLICIT, REQUEST):
        equal(permit(policy, book, release((1, *named), kind=asks), port).told, {})
    if any(policy.is_known(book.table.get(prefix)) for prefix in (LOWEST, SECOND)):
        wanted = {(1, 0): NO_BINDING if kind == RELEASE else NO_PREFIX}
        equal([permit(policy, book, message, THERE, is_apart=apart).told for apart in (False, True)], [wanted] * 2)


def answer_of_two(policy, known, unknown):
    """The answer where one of two is known, and whether there is a line: what is known, or names nothing that its
    client has, goes to the book."""
    for kind, named, wanted in ((RENEW, (known,), ((0, 1), 1)), (RENEW, (unknown,), (None, 0)),
                                (RENEW, (), ((0, 1), 1)), (RENEW, (THIRD,), ((0, 1), 1)),
                                (RELEASE, (known,), ((1, 0), 1)), (RELEASE, (unknown,), ((1, 0), 0)),
                                (RELEASE, (), ((1, 1), 0)), (RELEASE, (THIRD,), ((1, 1), 0))):
        book, _ = with_two([known], [unknown])
        count, message = len(book.lines), release((1, *named), kind=kind)
        allowed = permit(policy, book, message, is_apart=False)
        equal((answers_of(book, message, allowed), len(book.lines) - count), wanted)


EXAMPLES = (count_what_lasts, believe_by_port, leave_what_is_unknown, answer_what_is_left, forget_other_leases,
            know_one_of_two, know_none_of_two, know_both_of_two)
