#!/usr/bin/env python3
"""bench/rebind/run.py NODE [--clients N] [--rate N] [--way MS] [--later MS]: REBINDs that reach both servers of a pair.

N clients have a lease each, half of them of either server; then the REBIND of each reaches both, so many clients a
second, the second server `--later` milliseconds after the first; what one server tells the other takes `--way`
milliseconds. Prints how many lines of both journals came of it, for each client, the memory of each server, and how
soon both have come to rest.
"""
import argparse
import collections
import pathlib
import sys
import tempfile
import time

HERE = pathlib.Path(__file__).resolve().parent
ROOT = HERE.parent.parent
sys.path += [str(ROOT / "tests/adversarial/lib"), str(ROOT / "reference")]
from living.trial import Places  # noqa: E402
from rejoining.stage import Play  # noqa: E402
from server.messages import REBIND  # noqa: E402

KIND = {"skew": 500, "mclt": 600, "life": 1200, "transit": 10_000, "pool": "2001:db8::/41", "unit": 56}
# The events that a lease leaves; the lines of a volume's head are none.
EVENTS = (b"grant", b"send", b"take", b"expire", b"release")
# How many clients ask for their lease at once.
TOGETHER = 250
# For how long nothing is written once all is at rest, in seconds.
QUIET = 2


def lines_of(server):
    """How many lines of leases its volumes have: contacts are none."""
    lines = (line for path in server.folder.glob("*.journal") for line in path.read_bytes().splitlines())
    return sum(b" 2001:" in line and line.split(b" ")[2] in EVENTS for line in lines)


def memory_of(server):
    """The most memory that its process had, in mebibytes."""
    rows = pathlib.Path(f"/proc/{server.process.pid}/status").read_text().splitlines()
    return next(int(row.split()[1]) for row in rows if row.startswith("VmHWM:")) / 1024


def rest(play):
    """Waits until neither journal grows: how many lines both have then."""
    count = -1
    while (now := sum(map(lines_of, play.sides.values()))) != count:
        count = now
        time.sleep(QUIET)
    return count


def hear(play, until):
    """Hears answers until then: how many came."""
    count = 0
    while (left := until - time.monotonic()) > 0:
        count += play.customers.heard(left) is not None
    return count


def storm(play, held, rate, later):
    """Each REBIND reaches the one, and then the other: how many answers came."""
    begun, count, due = time.monotonic(), 0, collections.deque()
    for number, (client, prefix) in enumerate(held.items()):
        due.append((begun + number / rate, play.one, client, prefix))
        due.append((begun + number / rate + later, play.other, client, prefix))
    for moment, server, client, prefix in sorted(due, key=lambda each: each[0]):
        count += hear(play, moment)
        play.customers.send(server, REBIND, client, prefix)
    return count + hear(play, time.monotonic() + 3)


def main():
    parser = argparse.ArgumentParser(description=__doc__.splitlines()[0])
    parser.add_argument("node")
    parser.add_argument("--clients", type=int, default=20_000)
    parser.add_argument("--rate", type=int, default=1_000)
    parser.add_argument("--way", type=float, default=5)
    parser.add_argument("--later", type=float, default=0)
    words = parser.parse_args()
    places = Places(1)
    with tempfile.TemporaryDirectory() as folder:
        node = str(pathlib.Path(words.node).resolve())
        play = Play(node, pathlib.Path(folder) / "pair", next(iter(places.held)), "A", KIND)
        try:
            play.begin()
            held = {}
            while len(held) < words.clients:
                server = play.one if len(held) < words.clients // 2 else play.other
                held |= play.customers.lease(server, play.customers.new(min(TOGETHER, words.clients - len(held))))
            before = rest(play)
            play.way.delay = words.way / 1000
            begun = time.monotonic()
            answers = storm(play, held, words.rate, words.later / 1000)
            asked = time.monotonic()
            lines = rest(play) - before
            memory = ", ".join(f"{side} {memory_of(server):.0f} MiB" for side, server in play.sides.items())
            print(f"{words.clients} clients, {answers} answers in {asked - begun:.0f} s; {lines} lines of both "
                  f"journals, {lines / words.clients:.2f} for each client; {memory}; at rest within "
                  f"{time.monotonic() - asked - QUIET:.0f} s; due {play.due()}; "
                  f"{len(play.customers.second_holders())} prefixes of two clients")
        finally:
            play.end()
    places.end()


main()
