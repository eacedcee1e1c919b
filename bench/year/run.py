#!/usr/bin/env python3
"""run.py DESK NODE: a year of a provider, played by two daemons under clocks that the driver sets; then the desk is asked.

Each server's clock_gettime is answered by a preloaded shim (shim.c) out of memory that the driver writes, and its rests last until
something comes or the driver ticks: so a day takes seconds, and time stands still while either has something to do. All else is the
program's own: files, sockets, the link with its key. Customers' routers come and go, renew, rebind, move and give back; links, relays,
servers and clocks fail as a year has it, all drawn by a seed. What each router was told is noted by the driver. Then so many questions
are drawn, and each of the desk's answers is held against that: right, nobody named, or wrong. Ends with status 1 where an answer is
wrong, a prefix was two clients', or a server ended by itself.
"""
import argparse
import pathlib
import pickle
import random
import signal
import sys
import tempfile
import time

from provider.asking import Desk, ask_all, drawn, tables
from provider.measuring import table
from provider.pair import Pair
from provider.year import Run

BEGINS = 1_800_000_000_000
SKEW, TRANSIT = 2000, 1000


def pool_of(customers):
    """A pool of /56 units with room for more than half as many customers again."""
    bits = max(8, (customers * 8 // 5 - 1).bit_length())
    if bits > 16:
        raise SystemExit("a pair has 65,536 units at most")
    return f"2001:db8::/{56 - bits}"


def played(words, folder):
    """Plays the days; gives the run."""
    settings = {"skew": SKEW, "mclt": words.mclt, "life": words.life, "transit": TRANSIT, "volume_hours": words.volume_hours,
                "volume_lines": 1_000_000, "heartbeat": words.heartbeat, "pool": pool_of(words.customers), "unit": 56}
    pair = Pair(folder, pathlib.Path(words.node).resolve(), settings, BEGINS)
    try:
        for side in (1, 0):
            pair.start(side)
        run = Run(pair, words.customers, words.days, words.window, words.restless, words.keepers, random.Random(words.seed))
        run.live(lambda day, took: tell(words, folder, run, day, took))
        for server in pair.servers:
            if server.process is None:
                pair.start(server.side)
        run.memory = [peak(server.process.pid) for server in pair.servers]
        run.status = [server.told("status")[1] for server in pair.servers]
        for server in pair.servers:
            pair.stop(server.side, "--close")
    finally:
        pair.end()
    return run


def tell(words, folder, run, day, took):
    """How far it has come; what was told so far is kept, since the servers' directories stay."""
    if day % max(1, words.days // 20) == 0:
        print(f"day {day}: {took:.0f} s, of which the servers took {run.pair.waited:.0f} s", flush=True)
        keep(folder, run)


def keep(folder, run):
    with open(folder / "ledger", "wb") as file:
        pickle.dump((run.ledger, run.weather.windows, run.begins, run.pair.now), file)


def peak(process):
    """The most memory that a process had, in MiB."""
    rows = dict(row.split(":", 1) for row in pathlib.Path(f"/proc/{process}/status").read_text().splitlines())
    return int(rows["VmHWM"].split()[0]) // 1024


def summary(run, took):
    """What happened, in lines."""
    messages = sum(run.counts[kind] for kind in ("SOLICIT", "REQUEST", "RENEW", "REBIND", "RELEASE"))
    starts = sorted(run.starts)
    yield f"{took:.0f} s, of which the servers took {run.pair.waited:.0f} s; {messages:,} messages asked; {dict(run.counts)}"
    yield f"what befell: {dict(run.seen)}"
    yield f"told: {dict(run.ledger.counts)}, tellings {run.ledger.tellings:,}; prefixes told to two at once: {len(run.ledger.two)} {run.ledger.two[:3]}"
    yield f"most memory, MiB: {run.memory}; starts again: {[round(start, 2) for start in starts]} s"
    yield f"the operator said: {run.said}"
    for status in run.status:
        yield "; ".join(line for line in status.splitlines() if line.split(":")[0] in ("role", "partner", "link", "units", "due", "marked"))
    yield from run.pair.faults[:5]


def main():
    parser = argparse.ArgumentParser(description=__doc__.splitlines()[0])
    parser.add_argument("desk")
    parser.add_argument("node")
    parser.add_argument("--customers", type=int, default=20_000)
    parser.add_argument("--days", type=int, default=365)
    parser.add_argument("--seed", type=int, default=1)
    parser.add_argument("--life", type=int, default=604_800, help="the lifetime that is aimed at, in seconds")
    parser.add_argument("--mclt", type=int, default=86_400)
    parser.add_argument("--heartbeat", type=int, default=600)
    parser.add_argument("--volume-hours", type=int, default=24)
    parser.add_argument("--restless", type=float, default=1.0, help="how often routers do something of their own, beside a year as most are")
    parser.add_argument("--keepers", type=float, default=0.02, help="the share of routers that ask both servers after a restart, by REBIND")
    parser.add_argument("--window", type=int, default=60_000, help="within how many milliseconds questions go out together")
    parser.add_argument("--questions", type=int, default=10_000)
    parser.add_argument("--jobs", type=int, default=2, help="how many desks are asked at a time")
    parser.add_argument("--keep", help="a new folder in which the servers' directories stay")
    words = parser.parse_args()
    # told to end it leaves no server behind
    signal.signal(signal.SIGTERM, lambda *_: sys.exit(1))
    with tempfile.TemporaryDirectory() as temporary:
        folder = pathlib.Path(words.keep or temporary).resolve()
        folder.mkdir(parents=True, exist_ok=True)
        begun = time.monotonic()
        run = played(words, folder)
        keep(folder, run)
        for line in summary(run, time.monotonic() - begun):
            print(line)
        folders = [folder / "A", folder / "B"]
        print(table(folders, words.days), flush=True)
        answers = asked(words, folder, folders)
        print(tables(answers))
        wrong = [answer for answer in answers if answer.verdict in ("WRONG", "FAULT")]
        for answer in wrong[:20]:
            print(f"failed: {answer}")
    return int(bool(wrong or run.pair.faults or run.ledger.two))


def asked(words, folder, folders):
    """The answers to drawn questions, over what was kept."""
    with open(folder / "ledger", "rb") as file:
        ledger, windows, begins, ends = pickle.load(file)
    holders = ledger.by_prefix()
    questions = drawn(random.Random(words.seed + 1), holders, ledger, windows, begins, ends, words.questions)
    return ask_all(Desk(words.desk, folders, SKEW, TRANSIT), questions, holders, words.jobs)


if __name__ == "__main__":
    sys.exit(main())
