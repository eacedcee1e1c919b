"""Worked examples of what is handed out beside prefixes, as octets of RFC 8415, 3646, 4075 and 1035.

selftest.py runs them.
"""

from . import answers, messages
from .book import Book
from .manner import KEYS, Manner, is_fit, settings_rows
from .messages import option
from .values import Line, Settings, prefix_of, units_of

OWN, CLIENT, OTHER = (bytes.fromhex(f"0003000102000000000{digit}") for digit in "918")
POOL = (prefix_of("2001:db8::/48"), 56)
LOWEST, SECOND, *_, HIGHEST = units_of([POOL])
FULL = Manner(["2001:db8::53", "2001:db8::54"], ["Home.example.org", "a"], ["2001:db8::7b"], 86_400, 255,
              "2001:db8::547", "silent", True)
PREFERENCE, UNICAST = "00070001ff", "000c0010" "20010db8000000000000000000000547"
DNS = "00170020" "20010db8000000000000000000000053" "20010db8000000000000000000000054"
SEARCH = "00180015" "04486f6d65076578616d706c65036f726700" "016100"
SNTP, REFRESH = "001f0010" "20010db800000000000000000000007b", "0020000400015180"
NO_ADDRESS = "000300120000000700000000" "00000000000d00020002"
GIVEN = "001900290000000100000708" "00000b40001a001900000e1000000e103820010db8000000000000000000000000"
NO_BINDING = "00190012000000010000000000000000000d00020003"


def equal(found, wanted):
    if found != wanted:
        raise AssertionError(f"found {found!r}, wanted {wanted!r}")


def message(kind, *parts):
    return bytes([kind]) + bytes.fromhex("0a0b0c") + b"".join(parts)


def asks(*codes):
    return option(6, b"".join(code.to_bytes(2, "big") for code in codes))


def association(*prefixes, identifier=1):
    return option(25, identifier.to_bytes(4, "big") + bytes(8) + b"".join(prefixes))


def prefix_option(prefix, length=None):
    return messages.prefix_option((prefix[0], prefix[1] if length is None else length), 0, 0)


def book_of(*events):
    book = Book.open(9000, Settings("A", OWN, 2000, 3600, 3600, [POOL]))
    for event in events:
        book.append(Line(len(book.lines) + 1, 9000, event))
    return book


def answered(book, octets, manner):
    """The answer's options behind the identifiers."""
    answer = answers.serve_datagram(book, OWN, octets, 10_000, manner)[0]
    if answer is None:
        return None
    head = bytes.fromhex("0a0b0c") + option(1, CLIENT) + option(2, OWN)
    equal(answer[1:1 + len(head)], head)
    return answer[1 + len(head):].hex()


WANTS, ADDRESS = asks(82, 32, 31, 24, 23, 24, 7, 12), option(3, b"\0\0\0\7" + bytes(8))
MINE, NAME = option(1, CLIENT), option(2, OWN)


def hand_out():
    book = book_of()
    solicit = message(1, MINE, WANTS, ADDRESS, association())
    equal(answered(book, solicit, FULL), PREFERENCE + UNICAST + DNS + SEARCH + SNTP + NO_ADDRESS + GIVEN)
    equal(answered(book, solicit, Manner()), GIVEN)
    equal(answered(book, message(1, MINE, asks(23), association()), FULL), PREFERENCE + UNICAST + DNS + GIVEN)
    equal(answered(book, message(3, MINE, NAME, WANTS, association()), FULL), UNICAST + DNS + SEARCH + SNTP + GIVEN)
    temporary, short = option(4, bytes(4)), option(3, bytes(11))
    equal(answered(book, message(5, MINE, NAME, temporary, short, association()), FULL), UNICAST + GIVEN)
    release = message(8, MINE, NAME, ADDRESS, association(prefix_option(LOWEST)))
    equal(answered(book, release, FULL), UNICAST + "000d00020000")
    equal(answered(book, message(1, MINE, WANTS, ADDRESS), FULL), None)


def ask_for_options_alone():
    book = book_of()
    for codes, wanted in (((32, 31, 24, 23), DNS + SEARCH + SNTP + REFRESH), ((24, 24), SEARCH), ((), "")):
        equal(answered(book, message(11, MINE, asks(*codes)), FULL), wanted)
    equal(answered(book, message(11, MINE, NAME), FULL), "")
    anonymous = answers.serve_datagram(book, OWN, message(11, asks(32)), 10_000, FULL)[0]
    equal(anonymous.hex(), "070a0b0c" + NAME.hex() + REFRESH)
    for parts in ((association(),), (ADDRESS,), (option(4, bytes(4)),), (option(2, OTHER),), (WANTS, WANTS),
                  (option(6, b"\0"),)):
        equal(answered(book, message(11, MINE, *parts), FULL), None)
    octets = message(11, MINE)
    for depth in range(1, 34):
        octets = bytes([12]) + bytes(33) + option(9, octets)
        equal(answers.serve_datagram(book, OWN, octets, 10_000, FULL)[0] is None, depth == 33)
    equal(answered(book, message(11, MINE, asks(23)), Manner()), None)
    equal(len(book.lines), 2)


def rebind():
    book = book_of(("grant", CLIENT, 1, LOWEST, 3600))
    unknown = association(prefix_option(SECOND), identifier=2)
    equal(answered(book, message(6, MINE, unknown, ADDRESS), FULL), None)
    equal(answered(book, message(6, MINE, unknown, association(), unknown), FULL), UNICAST + GIVEN)
    equal(answered(book, message(6, MINE, unknown), Manner()), NO_BINDING.replace("00000001", "00000002"))
    equal(answered(book, message(5, MINE, NAME, unknown), FULL), UNICAST + NO_BINDING.replace("00000001", "00000002"))
    equal(len(book.lines), 4)


def release_several():
    daemon, short, long = Manner(releases_each=True), option(26, bytes(24)), prefix_option(LOWEST, 129)
    first, second, other = (prefix_option(prefix) for prefix in (LOWEST, SECOND, HIGHEST))
    # The prefixes, how many of them `serve` gives back, and how many `run`.
    cases = (((first,), 1, 1), ((other, first), 1, 0), ((first, other), 1, 1), ((first, second), 2, 1),
             ((second, other, first, second), 2, 1), ((other, other), 0, 0), ((), 0, 0), ((first, short, second), 2, 1),
             ((other, long, second), 1, 0), ((first, first), 1, 1))
    for prefixes, by_daemon, by_run in cases:
        octets = message(8, MINE, NAME, association(*prefixes))
        for manner, count in ((daemon, by_daemon), (Manner(), by_run)):
            book = book_of(("grant", CLIENT, 1, LOWEST, 3600), ("grant", CLIENT, 1, SECOND, 3600))
            equal(answered(book, octets, manner), "000d00020000" + ("" if count else NO_BINDING))
            equal(len(book.lines), 4 + count)
    for prefixes, wanted in (((short, first), "OptionLength"), ((long, first), "BadPrefixLength")):
        octets = message(8, MINE, NAME, association(*prefixes))
        equal(answers.serve_datagram(book_of(), OWN, octets, 10_000, daemon), (None, wanted))


def judge_settings():
    name = ".".join(["a" * 63] * 3 + ["b" * 61])
    fit = ((["::1"] * 16, [name] * 16, [], 600, 0, "::", "silent", "refuse"),
           (["1:2:3:4:5:6:7::"], ["_a-.B"], ["::"], 4294967295, 255, "ff02::1", "no-binding", "refuse"))
    unfit = ((["::1"] * 17, [name + "b"], ["::1.2.3.4"], 599, 256, "::/0", "", "ignore"),
             ("::1", ["a."], ["::1%0"], 4294967296, -1, ["::"], True, True),
             ([1], ["a" * 64], [""], "600", True, "", "Silent", ""), ([""], [""], ["1"], 600.0, "0", 1, 0, ["refuse"]))
    for wanted, rows in ((True, fit), (False, unfit)):
        for row in rows:
            equal([is_fit(key, value) for key, value in zip(KEYS, row, strict=True)], [wanted] * 8)
    equal(settings_rows(Manner(rebind_unknown="silent", sntp=["::1"])), ['sntp = ["::1"]', 'rebind_unknown = "silent"'])
    equal(settings_rows(Manner(rebind_unknown="silent"), "silent"), [])


EXAMPLES = (hand_out, ask_for_options_alone, rebind, release_several, judge_settings)
