#!/usr/bin/env python3
"""run.py [FOLDER]: the worst inputs known for an audit, a search and a datagram, and the seconds that each takes.

The desk must have been proved and built (./desk --prove); the program that answers datagrams is ../dhcp6's. An audit may take a
minute, and a datagram a millisecond; ends with status 1 where one took more.
"""
import importlib.util
import pathlib
import random
import subprocess
import sys
import tempfile
import time

HERE = pathlib.Path(__file__).resolve().parent
DESK = HERE.parent.parent / "crates" / "desk_cli" / "out" / "desk_cli"
UNIT = "2001:0db8:0000:0000:0000:0000:0000:0000/56"
POOL = "2001:0db8:0000:0000:0000:0000:0000:0000/48 56"
HOLDER = "00030001020000000001"
MOST_LINES = 1 << 20
HOUR = 3_600_000


def of_dhcp6():
    spec = importlib.util.spec_from_file_location("dhcp6_run", HERE.parent / "dhcp6" / "run.py")
    module = importlib.util.module_from_spec(spec)
    spec.loader.exec_module(module)
    return module


class Journal:
    """A server's lines as they come."""

    def __init__(self, side, opened="open 2000 3600 3600"):
        self.side, self.lines = side, []
        self.write(9000, opened)
        self.write(9000, f"pool {POOL}")

    def write(self, reading, event):
        """The line's reference."""
        self.lines.append(f"{len(self.lines) + 1} {reading} {event}\n")
        return f"{self.side}{len(self.lines)}"

    def text(self):
        return f"pd-journal 1 {self.side}\n{''.join(self.lines)}end {len(self.lines)}\n"


def closed(primary, secondary, reading):
    for each in primary, secondary:
        each.write(reading, "close")
    return primary.text() + secondary.text()


def certificate(begin, end, body):
    return f"pd-certificate 1\nholder {HOLDER}\nprefix {UNIT}\ninterval {begin} {end}\n{body}end\n"


def event(name, client=HOLDER, lasts=" 3600"):
    return f"{name} {client} 00000001 {UNIT}{lasts}"


def renewals():
    """A unit granted once and renewed each second till the journal is full."""
    primary, secondary = Journal("A"), Journal("B")
    primary.write(10_000, event("grant"))
    for n in range(1, MOST_LINES - 3):
        primary.write(10_000 + 1000 * n, event("grant"))
    close = 10_000 + 1000 * MOST_LINES
    text = certificate(12_000, 12_001, "piece A3 12000 12001 latest A3 earliest A3\n")
    return closed(primary, secondary, close), text, (12_000, close - 10_000)


def brief():
    """A unit renewed every five seconds for ten, till the journal is full: asked of all of that time."""
    primary, secondary = Journal("A", "open 0 10 10"), Journal("B", "open 0 10 10")
    for n in range(MOST_LINES - 3):
        primary.write(10_000 + 5000 * n, event("grant", lasts=" 10"))
    close = 10_000 + 5000 * MOST_LINES
    text = certificate(12_000, 12_001, "piece A3 12000 12001 latest A3 earliest A3\n")
    return closed(primary, secondary, close), text, (12_000, close - 20_000)


def pieces(count, grants):
    """So many pieces over so many grants, drawn in turn."""
    primary, secondary = Journal("A"), Journal("B")
    names = [primary.write(10_000, event("grant")) for n in range(grants)]
    lines = []
    for n in range(count):
        name = names[n * 7 % grants]
        lines.append(f"piece {name} {12_000 + n} {12_001 + n} latest {name} earliest {name}\n")
    return closed(primary, secondary, 10 * HOUR), certificate(12_000, 12_000 + count, "".join(lines)), None


def turns(count, client_of):
    """The unit granted and given back so many times, each time acknowledged, and then the holder's."""
    primary, secondary, given, returned = Journal("A"), Journal("B"), [], []
    for turn in range(count):
        reading, client = 10_000 + 5 * turn, client_of(turn)
        given.append(primary.write(reading, event("grant", client)))
        returned.append(primary.write(reading + 1, event("release", client, "")))
        update = f"0 {turn + 1} update released {UNIT} {2 * turn + 2} {turn} 0 00000001 {client}"
        reply = f"0 {turn + 1} reply accept {UNIT} {2 * turn + 2} {turn + 1} {2 * turn + 2}"
        primary.write(reading + 2, f"send {update}")
        secondary.write(reading + 3, f"take {update}")
        secondary.write(reading + 3, f"send {reply}")
        primary.write(reading + 4, f"take {reply}")
    begin = 10_000 + 5 * count + 10_000
    last = primary.write(begin, event("grant"))
    piece = f"piece {last} {begin + 2000} {begin + 2001} latest {last} earliest {last}\n"
    return closed(primary, secondary, begin + HOUR), given, returned, last, piece, begin + 2000


def foreign(count):
    """So many leases of others that were given back, named in no order."""
    journals, given, returned, last, piece, begin = turns(count, lambda turn: f"0003000102{turn + 2:010x}")
    lines = []
    for grant, release in zip(given, returned):
        lines.append(f"foreign {grant} released {release} chain {grant}>{release} latest {release}\n")
    random.Random(1).shuffle(lines)
    return journals, certificate(begin, begin + 1, piece + "".join(lines)), None


def clears(count):
    """So many releases before a grant, cleared from the last to the first."""
    journals, _, returned, last, piece, begin = turns(count, lambda turn: HOLDER)
    lines = [f"clear {release} before chain {release}>{last}\n" for release in reversed(returned)]
    return journals, certificate(begin, begin + 1, piece + "".join(lines)), None


def took(words, given):
    begun = time.perf_counter()
    done = subprocess.run([DESK, *words], input=given.encode(), stdout=subprocess.PIPE, check=False)
    return time.perf_counter() - begun, done.stdout.split(b"\n")[0].decode()


def relays(count, ias):
    """As many relays round as many identity associations."""
    asked = b"".join(bytes([0, 25, 0, 12]) + number.to_bytes(4, "big") + bytes(8) for number in range(ias))
    held = bytes.fromhex("010a0b0c0001000a00030001020000000001") + asked
    for hops in range(count):
        held = bytes([12, hops]) + bytes(range(32)) + bytes([0, 9]) + len(held).to_bytes(2, "big") + held
    return held


def empty_options():
    """As many empty options as a datagram has room for."""
    held = bytes.fromhex("010a0b0c0001000a0003000102000000000100190000000000000000000000000c000000010000000000000000")[:18]
    held += bytes.fromhex("0019000c000000010000000000000000")
    return held + bytes([0, 99, 0, 0]) * ((65_535 - len(held)) // 4)


def datagrams(folder):
    dhcp6 = of_dhcp6()
    program, _ = dhcp6.workspace(folder)
    for name, datagram in [("32 relays round 16 IA_PDs", relays(32, 16)), ("16,000 empty options", empty_options())]:
        empty, _ = dhcp6.seconds(program, 0, datagram)
        full, _ = dhcp6.seconds(program, 2000, datagram)
        yield f"a datagram of {name}", (full - empty) / 2000, 0.001


def audits():
    cases = {
        "2^20 renewals of one unit": renewals(),
        "2^20 renewals for ten seconds each": brief(),
        "1,000 pieces over 1,000 grants": pieces(1000, 1000),
        "65,000 pieces over 300 grants": pieces(65_000, 300),
        "30,000 leases of others, shuffled": foreign(30_000),
        "32,767 clear entries, from the last to the first": clears(32_767),
    }
    for name, (journals, text, asked) in cases.items():
        seconds, answer = took(["audit", "--skew-ms", "2000"], journals + text)
        yield f"an audit of {name}: {answer}", seconds, 60
        begin, end = asked or [int(word) for word in text.splitlines()[3].split()[1:]]
        words = ["find", "--skew-ms", "2000", "--holder", HOLDER, "--prefix", UNIT, "--from", str(begin), "--to", str(end)]
        seconds, answer = took(words, journals)
        yield f"a search over {name}: {answer}", seconds, 60
        seconds, answer = took(["who", "--skew-ms", "2000", "--prefix", UNIT, "--at", str(begin)], journals)
        yield f"who over {name}: {answer}", seconds, 60


def main():
    folder = pathlib.Path(sys.argv[1] if len(sys.argv) > 1 else tempfile.mkdtemp())
    slow = False
    for part in [audits(), datagrams(folder)]:
        for name, seconds, most in part:
            slow = slow or seconds > most
            print(f"{seconds:10.6f} s  {name}", flush=True)
    return int(slow)


sys.exit(main())
