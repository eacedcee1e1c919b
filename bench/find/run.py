#!/usr/bin/env python3
"""run.py [PAIRS [EVENTS [FOLDER]]]: searches PAIRS random pairs of journals (1,000 if not said), each of EVENTS random events (200), and
has the desk audit what the search found, as text.

The journals are those of walks of the pair's world by chance (../pair). Of each it asks who held each unit at moments drawn from its
lines: for the client of a line, from the moment to some milliseconds after. The desk must have been proved and built (./desk
--prove). Prints how many questions were answered, and ends with status 1 where an answer wasn't accepted, or a search ended in a fault.
"""
import collections
import pathlib
import random
import re
import subprocess
import sys
import tempfile

sys.dont_write_bytecode = True
HERE = pathlib.Path(__file__).resolve().parent
sys.path.insert(0, str(HERE.parent / "pair"))

import run as pair  # noqa: E402

DESK = HERE.parent.parent / "crates" / "desk_cli" / "out" / "desk_cli"
SKEW = ["--skew-ms", "2000"]
# Questions of each pair.
QUESTIONS = 6


def driver(folder):
    pair.NEEDS += " journal_text"
    pair.FILES = ["chance.rt", "dice.rt", "worlds.rt"]
    program = pair.workspace(folder)
    (program / "src" / "main.rt").write_text((HERE / "driver.txt").read_text())
    return program


def journals(folder, pairs, events):
    """Both journals' texts of each seed."""
    program, cases = driver(folder), folder / "cases"
    cases.mkdir(exist_ok=True)
    for seed in range(pairs):
        (cases / f"seed{seed:05d}").write_text("")
        (cases / f"seed{seed:05d}.args").write_text(f"{seed}\n{events}\n")
    done = subprocess.run(["rt", "try", "--cases", str(cases)], cwd=program, stdin=subprocess.DEVNULL, stdout=subprocess.PIPE, text=True, check=False)
    for block in re.split(r"^== ", done.stdout, flags=re.M)[1:]:
        name, *lines = block.splitlines()
        lines = [line for line in lines if line.startswith(("pd-journal", "end ")) or line[:1].isdigit()]
        yield int(name.split()[0].removeprefix("seed")), "\n".join(lines) + "\n"


def desk(words, given):
    done = subprocess.run([DESK, *words], input=given.encode(), capture_output=True, check=False)
    return done.returncode, done.stdout.decode(), done.stderr.decode()


def questions(text, dice):
    """Clients, prefixes and moments of some lines."""
    lines = [line.split() for line in text.splitlines() if re.match(r"\d+ \d+ (grant|renew|release) ", line)]
    for words in dice.sample(lines, min(QUESTIONS, len(lines))):
        begin = int(words[1]) + dice.choice([-1, 0, 1999, 2000, 2001, 60_000, 3_000_000])
        yield words[3], words[5], max(begin, 0), max(begin, 0) + dice.choice([1, 1000, 600_000])


def main():
    pairs = int(sys.argv[1]) if len(sys.argv) > 1 else 1000
    events = int(sys.argv[2]) if len(sys.argv) > 2 else 200
    folder = pathlib.Path(sys.argv[3] if len(sys.argv) > 3 else tempfile.mkdtemp())
    seen, wrong = collections.Counter(), []
    for seed, text in journals(folder, pairs, events):
        seen["pairs"] += 1
        for client, prefix, begin, end in questions(text, random.Random(seed)):
            asked = ["--holder", client, "--prefix", prefix, "--from", str(begin), "--to", str(end)]
            status, found, complaint = desk(["find", *SKEW, *asked], text)
            seen["none" if found == "none\n" else "found" if status == 0 else f"{found}{complaint}"] += 1
            if status == 0 and desk(["audit", *SKEW], text + found) != (0, "accepted\n", ""):
                wrong.append((seed, asked))
            if status > 1 or (status == 1 and found != "none\n"):
                wrong.append((seed, asked))
    print(", ".join(f"{count} {name.strip()}" for name, count in sorted(seen.items())))
    for seed, asked in wrong[:5]:
        print(f"wrong at seed {seed}: {' '.join(asked)}")
    sys.exit(int(bool(wrong) or not seen["found"]))


main()
