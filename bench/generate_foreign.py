#!/usr/bin/env python3
"""generate_foreign.py COUNT in-order|reversed: an input whose certificate names COUNT leases of other clients.

The primary granted one unit to COUNT clients, one after another, each for an hour. Each lease expired, which the partner was told
of and agreed to, so that the unit was free again. Then the holder had it for an hour. The foreign lines stand in the order of
their grants, or in the reverse order.
"""
import sys

POOL = "2001:0db8:0000:0000:0000:0000:0000:0000/48 56"
UNIT = "2001:0db8:0000:0000:0000:0000:0000:0000/56"
HOUR = 3600000
SKEW = 2000
# From a grant to the next: the lease, twice the skew, and the partner's answer.
TURN = HOUR + 2 * SKEW + 1000


class Journal:
    def __init__(self, side):
        self.side, self.lines = side, []
        self.write(9000, "open 2000 3600 3600")
        self.write(9000, f"pool {POOL}")

    def write(self, reading, event):
        """The line's number."""
        self.lines.append(f"{len(self.lines) + 1} {reading} {event}\n")
        return len(self.lines)

    def text(self):
        return f"pd-journal 1 {self.side}\n{''.join(self.lines)}end {len(self.lines)}\n"


def main():
    count, order = int(sys.argv[1]), sys.argv[2]
    primary, secondary, foreign = Journal("A"), Journal("B"), []
    for turn in range(count):
        granted, other = 10000 + TURN * turn, f"0003000102{turn + 1:010x}"
        number = primary.write(granted, f"grant {other} 00000001 {UNIT} 3600")
        foreign.append(f"foreign A{number} early A{number}\n")
        expired, mine = granted + HOUR + 2 * SKEW, 2 * turn + 2
        primary.write(expired, f"expire {UNIT}")
        update = f"0 {turn + 1} update expired {UNIT} {mine} {turn} 0 00000001 {other}"
        reply = f"0 {turn + 1} reply accept {UNIT} {mine} {turn + 1} {mine}"
        primary.write(expired, f"send {update}")
        secondary.write(expired, f"take {update}")
        secondary.write(expired, f"send {reply}")
        primary.write(expired, f"take {reply}")
    granted = 10000 + TURN * count
    grant = f"A{primary.write(granted, f'grant 00030001020000000000 00000001 {UNIT} 3600')}"
    for journal in primary, secondary:
        journal.write(granted + 4000000, "close")
    begin, end = granted + SKEW, granted - SKEW + HOUR
    sys.stdout.write(primary.text())
    sys.stdout.write(secondary.text())
    sys.stdout.write(
        "pd-certificate 1\n"
        "holder 00030001020000000000\n"
        f"prefix {UNIT}\n"
        f"interval {begin} {end}\n"
        f"piece {grant} {begin} {end} latest {grant} earliest {grant}\n"
    )
    sys.stdout.write("".join(foreign if order == "in-order" else foreign[::-1]) + "end\n")


main()
