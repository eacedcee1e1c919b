#!/usr/bin/env python3
"""joined.py DESK FOLDER: the questions of a year that run.py kept (--keep FOLDER), over volumes that are joined.

At drawn moments of the year the volumes of so many days up to then are put together, of each server as one journal (`desk join`), and
questions of the last day's moments are asked over these two journals, and over the directories as they are. Each answer is held against
what clients were told, as in run.py. With --by reference/desk another program joins. Ends with status 1 where an answer is wrong.
"""
import argparse
import pathlib
import pickle
import random
import subprocess
import sys
import tempfile
import time

from provider.asking import DAY, Desk, ask_all, drawn, tables
from run import SKEW, TRANSIT

SIDES = "AB"


def openings(folder, side):
    """The reading of each volume's first line, by its number."""
    found = {}
    for path in sorted((folder / side).glob(f"{side}-*.journal")):
        with open(path, "rb") as file:
            file.readline()
            found[int(path.stem[2:])] = int(file.readline().split()[1])
    return found


def bounds(found, first, last):
    """The numbers of the volumes that have these moments."""
    before = [number for number, opened in found.items() if opened <= first - SKEW]
    return max(before, default=min(found)), max(number for number, opened in found.items() if opened <= last - SKEW)


def joined(words, folder, side, numbers):
    """The path of the journal that these volumes are together, and how long it took to join them."""
    out = pathlib.Path(words.out) / f"{side}.joined"
    begun = time.perf_counter()
    with open(out, "wb") as file:
        given = [words.by or words.desk, "join", "--journals", folder / side, "--side", side, "--from", str(numbers[0]), "--to", str(numbers[1])]
        done = subprocess.run(given, stdout=file, stderr=subprocess.PIPE, stdin=subprocess.DEVNULL, check=False)
    if done.returncode != 0:
        raise SystemExit(f"join of {side} {numbers}: {out.read_bytes()[:200]!r} {done.stderr[-300:]!r}")
    return out, time.perf_counter() - begun


def main():
    parser = argparse.ArgumentParser(description=__doc__.splitlines()[0])
    parser.add_argument("desk")
    parser.add_argument("folder")
    parser.add_argument("--by", help="the program that joins, DESK if not said")
    parser.add_argument("--days", type=float, default=8, help="how many days are joined")
    parser.add_argument("--windows", type=int, default=20, help="at how many moments of the year")
    parser.add_argument("--questions", type=int, default=50, help="of each window")
    parser.add_argument("--seed", type=int, default=1)
    parser.add_argument("--jobs", type=int, default=2)
    words = parser.parse_args()
    folder = pathlib.Path(words.folder).resolve()
    with open(folder / "ledger", "rb") as file:
        ledger, windows, begins, ends = pickle.load(file)
    holders, dice = ledger.by_prefix(), random.Random(words.seed)
    opened = {side: openings(folder, side) for side in SIDES}
    answers, apart, lines, times = [], [], [], []
    with tempfile.TemporaryDirectory() as words.out:
        for _ in range(words.windows):
            last = dice.randrange(begins + int(words.days * DAY), ends - DAY // 4)
            questions = drawn(dice, holders, ledger, windows, last - DAY, last, words.questions)
            files = []
            for side in SIDES:
                path, took = joined(words, folder, side, bounds(opened[side], last - words.days * DAY, last))
                times.append(took)
                files.append(path)
                lines.append(sum(1 for _ in open(path, "rb")))
            answers += ask_all(Desk(words.desk, files, SKEW, TRANSIT), questions, holders, words.jobs)
            apart += ask_all(Desk(words.desk, [folder / side for side in SIDES], SKEW, TRANSIT), questions, holders, words.jobs)
            print(f"up to day {(last - begins) / DAY:.1f}: {len(answers)} asked, named {named(answers)} joined, {named(apart)} apart", flush=True)
    print(f"joins of {words.days} days: {min(times):.2f} to {max(times):.2f} s, {min(lines):,} to {max(lines):,} lines")
    for name, found in (("joined", answers), ("over the volumes as they are", apart)):
        print(f"\n{name}\n{tables(found)}")
    wrong = [answer for answer in answers + apart if answer.verdict in ("WRONG", "FAULT")]
    for answer in wrong[:20]:
        print(f"failed: {answer}")
    return int(bool(wrong))


def named(answers):
    return sum(not answer.verdict.startswith("none") for answer in answers)


if __name__ == "__main__":
    sys.exit(main())
