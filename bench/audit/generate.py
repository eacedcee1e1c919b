#!/usr/bin/env python3
"""generate.py FOLDER KIND SIZE: journals a and b and certificates in a folder, for run.py. No server of the pair wrote them: the
audit over an index asks of the lines what they say, and not whether they keep the rules.

many PIECES: one unit, PIECES pieces of the holder, 10 releases that each of them clears, and 30 leases of other clients for each
piece, on both sides. Certificates: natural, reversed (the clear lines of each piece and the foreign lines) and shuffled.
unit LINES: each side grants one unit to one of 1000 clients and takes it back, over and over: LINES lines in all on each side.
alike LINES: the same, but that the releases differ in the client and the identity association and have one mark in the index.
"""
import pathlib
import random
import sys

UNIT = "2001:0db8:0000:0000:0000:0000:0000:0000/56"
HOLDER = "00030001020000000001"


def journal(side, events, close):
    lines = [(0, "open 2000 3600 3600"), (0, "pool 2001:0db8:0000:0000:0000:0000:0000:0000/48 56")] + events + [(close, "close")]
    rows = "".join(f"{number} {reading} {event}\n" for number, (reading, event) in enumerate(lines, 1))
    return f"pd-journal 1 {side}\n{rows}end {len(lines)}\n"


def client(n):
    return f"0003000102{n:010x}"


def certificate(begin, end, body):
    return f"pd-certificate 1\nholder {HOLDER}\nprefix {UNIT}\ninterval {begin} {end}\n{body}end\n"


def many(folder, pieces):
    begin, step = 1000000, 5000
    end = begin + step * pieces
    sides = {"A": [], "B": []}
    foreign, releases, grants = [], [], []
    for n in range(30 * pieces):
        side = "AB"[n % 2]
        sides[side].append((10000, f"grant {client(n + 2)} 00000001 {UNIT} 1"))
        place = f"{side}{len(sides[side]) + 2}"
        foreign.append((side, len(sides[side]) + 2, f"foreign {place} early {place}\n"))
    for n in range(10):
        sides["A"].append((20000, f"release {HOLDER} 00000001 {UNIT}"))
        releases.append(len(sides["A"]) + 2)
    for n in range(pieces):
        sides["A"].append((begin + step * n - 2000, f"grant {HOLDER} 00000001 {UNIT} 20"))
        grants.append(len(sides["A"]) + 2)
    (folder / "a").write_text(journal("A", sides["A"], end + 10000))
    (folder / "b").write_text(journal("B", sides["B"], end + 10000))
    for name in ["natural", "reversed", "shuffled"]:
        order = {"natural": sorted, "reversed": lambda xs: sorted(xs, reverse=True), "shuffled": lambda xs: random.Random(1).sample(xs, len(xs))}[name]
        body = ""
        for n, grant in enumerate(grants):
            body += f"piece A{grant} {begin + step * n} {begin + step * (n + 1)} latest A{grant} earliest A{grant}\n"
            body += "".join(f"clear A{release} before chain A{release}>A{grant}\n" for release in order(releases))
        body += "".join(line for _, _, line in order(foreign))
        (folder / name).write_text(certificate(begin, end, body))


def unit(folder, count, alike):
    for name, side in [("a", "A"), ("b", "B")]:
        events = []
        for n in range(count - 3):
            turn = n // 2
            if n == 0:
                who, iaid = HOLDER, 1
            elif alike:
                who, iaid = f"000300{turn % 250:02x}", 250 - turn % 250
            else:
                who, iaid = client(turn % 1000 + 2), 1
            reading = 10000 + 2 * n
            events.append((reading, f"grant {who} {iaid:08x} {UNIT} 3600" if n % 2 == 0 else f"release {who} {iaid:08x} {UNIT}"))
        (folder / name).write_text(journal(side, events, 10000000000))
    (folder / "natural").write_text(certificate(12000, 13000, "piece A3 12000 13000 latest A3 earliest A3\n"))


def main():
    folder, kind, size = pathlib.Path(sys.argv[1]), sys.argv[2], int(sys.argv[3])
    folder.mkdir(parents=True, exist_ok=True)
    if kind == "many":
        many(folder, size)
    else:
        unit(folder, size, kind == "alike")


main()
