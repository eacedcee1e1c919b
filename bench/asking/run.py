#!/usr/bin/env python3
"""run.py [FOLDER]: times a search for a certificate, and one for a holder, over the index of two journals, in microseconds.

Makes a workspace in FOLDER (a temporary one if not said) of the crates that evidence_search and line_index stand on and a program,
driver.txt. Proves and builds it there, the first time in some twenty minutes. The journals are those of ../generate.py, whose first
lease lasts an hour, and the same with the secondary's clock 1.5 seconds late: then an interval that begins early is shown by chains
alone. Prints the best of five runs for each size.
"""
import pathlib
import re
import shutil
import subprocess
import sys
import tempfile

HERE = pathlib.Path(__file__).resolve().parent
ROOT = HERE.parent.parent
NEEDS = "evidence_search line_index journal_merge journal_text journal_lines client_id prefix_range lead_time anyhow"
LATE = 1500
HOLDER = "00030001020000000000"
PREFIX = "2001:0db8:0000:0000:0000:0000:0000:0000/56"
# What is asked, the secondary's journal, the interval, and how often.
QUESTIONS = [("single lines", "b", (12_000, 3_608_000), 1000), ("chains alone", "late", (10_600, 13_000), 5)]


def rows():
    """Each row of crates.txt, by its crate's name."""
    lines = [line for line in (ROOT / "crates.txt").read_text().splitlines() if line and not line.startswith("#")]
    return {line.split(":")[0].split()[0]: line for line in lines}


def needed(names, known):
    for name in names:
        if name in known:
            yield from needed(known[name].partition(":")[2].split(), known)
            yield name


def program(folder):
    known = rows()
    crates = list(dict.fromkeys(needed(NEEDS.split(), known)))
    folder.mkdir(parents=True, exist_ok=True)
    (folder / "crates.txt").write_text("\n".join([known[name] for name in crates] + [f"driver: {NEEDS}"]) + "\n")
    shutil.copy(ROOT / "HANDLES", folder / "HANDLES")
    for name in crates:
        shutil.copytree(ROOT / "crates" / name, folder / "crates" / name, ignore=shutil.ignore_patterns("out"), dirs_exist_ok=True)
    driver = folder / "crates" / "driver"
    for part in ["src", "specs", "proofs"]:
        (driver / part).mkdir(parents=True, exist_ok=True)
    shutil.copy(HERE / "driver.txt", driver / "src" / "main.rt")
    (driver / "specs" / "Lib.antt").write_text("")
    subprocess.run(["rt", "run"], cwd=driver, stdout=subprocess.DEVNULL, check=True)
    return driver / "out" / "driver"


def late(line):
    words = line.split(" ", 2)
    return f"{words[0]} {int(words[1]) - LATE} {words[2]}" if words[0].isdigit() else line


def journals(folder, lines):
    folder.mkdir(parents=True, exist_ok=True)
    text = subprocess.run([sys.executable, ROOT / "bench" / "generate.py", str(lines)], stdout=subprocess.PIPE, check=True, text=True).stdout
    second, third = text.index("pd-journal 1 B"), text.index("pd-certificate 1")
    (folder / "a").write_text(text[:second])
    (folder / "b").write_text(text[second:third])
    (folder / "late").write_text("".join(late(line) for line in text[second:third].splitlines(keepends=True)))


def figures(driver, folder, name, interval, count):
    """The best of five runs, in microseconds a question."""
    best = None
    for _ in range(5):
        words = [driver, folder / "a", folder / name, HOLDER, PREFIX, *map(str, interval), str(count)]
        told = subprocess.run(words, stdout=subprocess.PIPE, check=True, text=True).stdout
        finding, found, naming, named = map(int, re.findall(r"\d+", told))
        if (found, named) != (count, count):
            sys.exit(f"not all were found: {told}")
        best = [min(pair) for pair in zip(best or (finding, naming), (finding, naming))]
    return [each / count for each in best]


def main():
    folder = pathlib.Path(sys.argv[1] if len(sys.argv) > 1 else tempfile.mkdtemp())
    driver = program(folder)
    for lines in [10_000, 100_000, 1_000_000]:
        journals(folder / str(lines), lines)
        for title, name, interval, count in QUESTIONS:
            finding, naming = figures(driver, folder / str(lines), name, interval, count)
            print(f"2 x {lines} lines, {title}: find {finding:.1f}, who {naming:.1f}", flush=True)


main()
