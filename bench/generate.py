#!/usr/bin/env python3
"""generate.py LINES: two journals of LINES lines each and a certificate that they bear out, on standard output.

The pool is 2001:db8::/40 in /56 units (65,536 of them). The primary grants one unit, which stays granted and which the
certificate asks of. Then, over and over, it grants a unit, tells its partner, and takes the release of it; it moves another
unit to the partner, which grants it, tells, and releases it. Every update is answered. So lines of most kinds are mixed, and the
journals are those of a pair that keeps the rules.
"""
import sys

HEAD = "open 2000 3600 3600", "pool 2001:0db8:0000:0000:0000:0000:0000:0000/40 56"
UNITS = 65536
LIFE = 3600


def prefix(unit):
    return f"2001:0db8:{unit >> 8:04x}:{(unit & 255) << 8:04x}:0000:0000:0000:0000/56"


def client(unit):
    return f"0003000102{unit:010x} 00000001"


class Server:
    """One side: its lines, the last serial, and the counters of each unit."""

    def __init__(self, side, limit):
        self.side, self.limit, self.lines, self.serial = side, limit, [], 0
        self.mine, self.seen = [0] * UNITS, [0] * UNITS
        for event in HEAD:
            self.write(9000, event)

    def write(self, reading, event):
        self.lines.append(f"{len(self.lines) + 1} {reading} {event}\n")

    def send(self, reading, body):
        self.serial += 1
        letter = f"0 {self.serial} {body}"
        self.write(reading, "send " + letter)
        return letter

    def has_room(self, lines):
        return len(self.lines) + lines < self.limit

    def text(self):
        while self.has_room(1):
            self.write(3700000, "state normal")
        self.write(3700000, "close")
        return f"pd-journal 1 {self.side}\n{''.join(self.lines)}end {len(self.lines)}\n"


def tell(sender, taker, reading, unit, status):
    """An update, and its reply."""
    end = reading + 2000 * LIFE if status == "active" else 0
    who = "00000000 -" if status == "backup" else " ".join(reversed(client(unit).split()))
    letter = sender.send(reading, f"update {status} {prefix(unit)} {sender.mine[unit]} {sender.seen[unit]} {end} {who}")
    taker.write(reading, "take " + letter)
    taker.seen[unit] = sender.mine[unit]
    taker.mine[unit] += 1
    reply = f"reply accept {prefix(unit)} {sender.mine[unit]} {taker.mine[unit]} {taker.seen[unit]}"
    sender.write(reading, "take " + taker.send(reading, reply))
    sender.seen[unit] = taker.mine[unit]


def change(server, reading, unit, event):
    server.write(reading, event)
    server.mine[unit] += 1


def lease(server, partner, reading, unit):
    """A grant and its release, each told to the partner."""
    change(server, reading, unit, f"grant {client(unit)} {prefix(unit)} {LIFE}")
    tell(server, partner, reading, unit, "active")
    change(server, reading, unit, f"release {client(unit)} {prefix(unit)}")
    tell(server, partner, reading, unit, "released")


def main():
    lines = int(sys.argv[1])
    primary, secondary = Server("A", lines), Server("B", lines)
    change(primary, 10000, 0, f"grant {client(0)} {prefix(0)} {LIFE}")
    turn = 0
    while primary.has_room(13) and secondary.has_room(12):
        reading = 10000 + turn // 10
        own, moved = 1 + turn % 32767, 32768 + turn % 32768
        lease(primary, secondary, reading, own)
        change(primary, reading, moved, f"backup {prefix(moved)}")
        tell(primary, secondary, reading, moved, "backup")
        lease(secondary, primary, reading, moved)
        turn += 1
    sys.stdout.write(primary.text())
    sys.stdout.write(secondary.text())
    sys.stdout.write(
        "pd-certificate 1\n"
        "holder 00030001020000000000\n"
        f"prefix {prefix(0)}\n"
        "interval 12000 3608000\n"
        "piece A3 12000 3608000 latest A3 earliest A3\n"
        "end\n"
    )


main()
