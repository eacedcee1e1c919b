"""Certificates of small journals whose every reason holds, fails at its bound, or is no chain: all are explained."""
from . import edges
from .values import PAST_YEARS
from .words import MOST_READING

PREFIX = "2001:0db8:0000:0000:0000:0000:0000:0000/56"
OTHER_PREFIX = "2001:0db8:0000:0100:0000:0000:0000:0000/56"
FIRST, SECOND, THIRD = (f"0003000102000000000{digit}" for digit in "123")
UPDATE = f"update active {PREFIX} 1 0 7210000 00000001 {SECOND}"
RELEASED = f"update released {PREFIX} 2 1 0 00000001 {SECOND}"
HEAD = ("9000 open 2000 3600 3600", "9000 pool 2001:0db8:0000:0000:0000:0000:0000:0000/48 56")
# A grants to the second client and hears of the release that B was told; it grants to the first, who gives it back to A.
LINES_OF_A = (
    *HEAD,
    f"10000 grant {SECOND} 00000001 {PREFIX} 3600",
    f"10000 send 0 1 {UPDATE}",
    f"10100 take 0 1 {RELEASED}",
    f"10200 grant {FIRST} 00000001 {PREFIX} 3600",
    f"60000 release {FIRST} 00000001 {PREFIX}",
    f"61000 grant {THIRD} 00000001 {OTHER_PREFIX} 3600",
    "9000000 close",
)
LINES_OF_B = (
    *HEAD,
    f"9500 take 0 1 {UPDATE}",
    f"9600 release {SECOND} 00000001 {PREFIX}",
    f"9600 send 0 1 {RELEASED}",
    "9100000 close",
)
LINES_OF_LATER_A = (
    *HEAD,
    "9000 base 0 0 0 0 0",
    f"9000 carry {SECOND} 00000001 {PREFIX} 20000",
    f"10000 grant {FIRST} 00000001 {PREFIX} 3600",
    "9000000 close",
)
CARRY_REASONS = (
    "early A4",
    "early A4>A5",
    "early A5",
    "late A4",
    "late A5",
    "late A3>A4",
    "released A6 chain A4>A6 latest A6",
)
AFTER = "clear A7 after A7"
RELEASE = "foreign A3 released B4 chain A3>A4>B3>B4 latest B4"
# Reasons of the second client's grant, and of other lines.
REASONS = (
    RELEASE,
    "foreign A3 released B4 chain A3>A4>B3>B4 latest B4>B5>A5",
    "foreign A3 released B4 chain A3>A4>B3>B4 latest B4>A5",
    "foreign A3 released B4 chain A3>A4>B3>B4 latest B4>B6",
    "foreign A3 released B4 chain A4>B3>B4 latest B4",
    "foreign A3 released B4 chain A3>A5>B4 latest B4>B6",
    "foreign A3 released B4 chain B4 latest B4",
    "foreign A3 released B4 clock A3 B4 latest B4",
    "foreign A3 released B4 clock A3>A4>B3 B3>B4 latest B4",
    "foreign A3 released B4 clock B3 A3 latest B4",
    "foreign A3 released A7 chain A3>A7 latest A7",
    "foreign A3 released A7 clock A3 A5>A7 latest A7",
    "foreign A3 released B9 chain A3>B9 latest B9",
    "foreign A3 early A3>A4>B3",
    "foreign A3 early A4",
    "foreign A3 late A2>A3",
    "foreign A3 late A3>A4",
    "foreign B4 early B4",
    "foreign A99 late A99",
    f"{RELEASE}\nforeign A8 late A7>A8\nforeign A6 early A6",
    f"{RELEASE}\nforeign A3 early A3\nforeign A3 late A3",
)
# What the release of the piece is cleared by.
DISCHARGES = (
    "",
    "clear A7 after A6>A7",
    "clear A7 after A7>A9",
    "clear A7 before chain A7>A6",
    "clear A7 before chain A6>A7",
    "clear A7 before clock A7>A9 A2>A6",
    "clear A7 before clock A6 A7",
    f"clear A7 before chain A7>A6\n{AFTER}",
    f"{AFTER}\nclear A7 before chain A7>A6\nclear B5 after B1>B5",
    "clear A99 after A99",
)
# Chains from the piece's grant and to it, and some that aren't.
CHAINS = (
    "latest A6>A7 earliest A2>A6",
    "latest A6>A9 earliest A6",
    "latest A5>A6 earliest A6",
    "latest A6 earliest B5>A5>A6",
)
INTERVALS = ((12_201, 58_000), (12_200, 58_000), (12_199, 58_000), (12_201, 58_001))


def certificate(piece, interval=INTERVALS[0], prefix=PREFIX, holder=FIRST):
    start, end = interval
    lines = ["pd-certificate 1", f"holder {holder}", f"prefix {prefix}", f"interval {start} {end}", *piece, "end"]
    return "\n".join(line for line in lines if line) + "\n"


def piece_of(interval, chains="latest A6 earliest A6"):
    return f"piece A6 {interval[0]} {interval[1]} {chains}"


def certificates():
    usual = piece_of(INTERVALS[0])
    for interval in INTERVALS:
        yield certificate([piece_of(interval), AFTER, RELEASE], interval)
    for reason in REASONS:
        yield certificate([usual, AFTER, reason])
    for discharge in DISCHARGES:
        yield certificate([usual, discharge, RELEASE])
    for chains in CHAINS:
        yield certificate([piece_of(INTERVALS[0], chains), AFTER, RELEASE])
    yield from whole_leases()
    yield from of_other_leases()


def whole_leases():
    """Pieces as long as the lease, where its end counts."""
    for end in (3_608_200, 3_608_201):
        for chains in ("latest A6 earliest A6", "latest A6 earliest A5>A6", "latest A6 earliest A7"):
            interval = (12_201, end)
            yield certificate([piece_of(interval, chains), "clear A7 after A7", RELEASE], interval)


def of_other_leases():
    """Pieces of other grants, of none, end to end or not, and intervals out of bounds."""
    for line in ("A3", "A8", "A5", "A99", "B4"):
        yield certificate([f"piece {line} 70000 80000 latest {line} earliest {line}"], (70_000, 80_000))
        yield certificate([f"piece {line} 70000 80000 latest {line} earliest {line}"], (70_000, 80_000), OTHER_PREFIX, THIRD)
    first = [piece_of((12_201, 20_000)), AFTER]
    yield certificate([*first, piece_of((20_000, 58_000), "latest A6>A7 earliest A6"), AFTER, RELEASE])
    for begin in (20_001, 19_999):
        yield certificate([*first, piece_of((begin, 58_000)), AFTER])
    yield certificate(first)
    yield certificate([piece_of((12_201, 12_201)), AFTER])
    for interval in ((5, 5), (6, 5), (5, 8_998_000), (5, 8_998_001), (PAST_YEARS - 1, PAST_YEARS), (5, MOST_READING)):
        yield certificate([], interval)


def of_carry_lines():
    """Certificates over a later volume of A, with every reason of its carry line."""
    for why in CARRY_REASONS:
        for start in (22_000, 22_001):
            piece = f"piece A5 {start} 30000 latest A5 earliest A5"
            yield certificate([piece, f"foreign A4 {why}"], (start, 30_000))


def journal(head, lines):
    spelled = (f"{number} {line}" for number, line in enumerate(lines, start=1))
    return "\n".join([head, *spelled, f"end {len(lines)}", ""])


def texts():
    """Two journals and a certificate, in one text."""
    second = journal("pd-journal 1 B", LINES_OF_B)
    first = journal("pd-journal 1 A", LINES_OF_A)
    yield from (first + second + text for text in certificates())
    later = journal("pd-journal 2 A 2", LINES_OF_LATER_A)
    yield from (later + journal("pd-journal 1 B", [*HEAD, LINES_OF_B[-1]]) + text for text in of_carry_lines())


def inputs():
    """The words and the input of each explanation."""
    for text in texts():
        for transit in ("0", "1"):
            yield ["explain", "--skew-ms", "2000", "--transit-ms", transit, "--json"], text.encode()
    for journals, others in [*edges.openings(), *edges.foreigners(), *edges.releases()]:
        for text in others:
            yield ["explain", "--skew-ms", "2000", "--transit-ms", "3", "--json"], b"".join([*journals, text])
