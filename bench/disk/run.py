#!/usr/bin/env python3
"""run.py [FOLDER [JOURNALS]]: times the commits of lines of 110 octets to a real file, in batches of 1, 8 and 64 a sync, against the
same in C (plain.c, cc -O2); the opening of a file of 2^20 lines; and a server's start over a volume of 200,000 lines, and of 2^20:
the file is read, its whole lines parsed, and the book replayed by the rules.

Makes a workspace in FOLDER (a temporary one if not said) of the crates that the programs driver.txt and start.txt stand on, and proves
and builds them there, the first time in many minutes. The journals lie in JOURNALS (a folder beside the workspace if not said), so
that another disk can be asked. Each program that commits begins with a new file, five runs in turn, and the best of each counts, less
what it takes for no lines.
"""
import pathlib
import resource
import shutil
import subprocess
import sys
import tempfile
import time

HERE = pathlib.Path(__file__).resolve().parent
ROOT = HERE.parent.parent
PROGRAMS = {
    "driver": "disk_model disk_files anyhow",
    "start": "volume_store disk_files disk_model order_book binding_rules anyhow",
}
BATCHES = {1: 10_000, 8: 8_000, 64: 4_000}
LINES = 2**20
STARTS = [200_000, 2**20]


def rows():
    """The line of each crate that a program stands on, lower ones first."""
    listed = [row for row in (ROOT / "crates.txt").read_text().splitlines() if ":" in row and not row.startswith("#")]
    wanted = set(" ".join(PROGRAMS.values()).split())
    for row in reversed(listed):
        name, below = row.split(":")
        if name in wanted:
            wanted.update(below.split())
    return [row for row in listed if row.split(":")[0] in wanted]


def program(folder, name):
    crate = folder / "crates" / name
    for part in ["src", "specs", "proofs"]:
        (crate / part).mkdir(parents=True, exist_ok=True)
    shutil.copy(HERE / f"{name}.txt", crate / "src" / "main.rt")
    for part in ["specs", "proofs"]:
        (crate / part / "Lib.antt").write_text("")
    return crate


def workspace(folder):
    folder.mkdir(parents=True, exist_ok=True)
    lines = rows()
    (folder / "crates.txt").write_text("\n".join(lines + [f"{name}: {below}" for name, below in PROGRAMS.items()]) + "\n")
    shutil.copy(ROOT / "HANDLES", folder / "HANDLES")
    for name in (row.split(":")[0] for row in lines):
        shutil.copytree(ROOT / "crates" / name, folder / "crates" / name, ignore=shutil.ignore_patterns("out"), dirs_exist_ok=True)
    driver, start = program(folder, "driver"), program(folder, "start")
    (driver / "proofs" / "put_all").mkdir(exist_ok=True)
    shutil.copy(HERE / "loops.txt", driver / "proofs" / "put_all" / "Invariants.antt")
    shutil.copy(ROOT / "crates/disk_tests/proofs/WholeTexts.antt", driver / "proofs")
    (driver / "proofs" / "Lib.antt").write_text("mod WholeTexts\n")
    anew(folder / "first")
    subprocess.run(["rt", "run", "--", folder / "first", "1", "1"], cwd=driver, stdin=subprocess.DEVNULL, check=True)
    write_volume(folder / "first", 1000)
    subprocess.run(["rt", "run", "--", folder / "first"], cwd=start, stdin=subprocess.DEVNULL, check=True)
    subprocess.run(["cc", "-O2", "-o", folder / "plain", HERE / "plain.c"], check=True)
    return driver / "out" / "driver", start / "out" / "start", folder / "plain"


def seconds(program, words, wanted):
    begun = time.perf_counter()
    done = subprocess.run([program, *map(str, words)], stdout=subprocess.PIPE, check=True, text=True)
    taken = time.perf_counter() - begun
    assert done.stdout == f"{wanted}\n", done.stdout
    return taken


def anew(journals):
    shutil.rmtree(journals, ignore_errors=True)
    journals.mkdir(parents=True)


def measure_commits(programs, journals, batch, batches):
    """The least seconds of each program, five runs in turn."""
    least = [1e9] * len(programs)
    for _ in range(5):
        for place, program in enumerate(programs):
            taken = []
            for count in [0, batches]:
                anew(journals)
                taken.append(seconds(program, [journals, batch, count], f"0 {batch * count}"))
            least[place] = min(least[place], taken[1] - taken[0])
    return least


def measure_opening(programs, journals):
    anew(journals)
    (journals / "journal").write_bytes((b"x" * 109 + b"\n") * LINES)
    return [min(seconds(program, [journals, 1, 0], f"{LINES} 0") for _ in range(5)) for program in programs]


def write_volume(journals, lines):
    """A first volume of the primary's that goes on: so many lines of most kinds, of two servers that exchange all."""
    anew(journals)
    text = subprocess.run([sys.executable, ROOT / "bench" / "generate.py", str(lines + 1)], stdout=subprocess.PIPE, check=True).stdout
    closed = text[: text.index(b"pd-journal", 1)].splitlines(keepends=True)
    assert closed[-1] == b"end %d\n" % (lines + 1), closed[-1]
    (journals / "A-0000001.journal").write_bytes(b"".join(closed[:-2]))


def spent():
    """The processor seconds of all programs so far."""
    children = resource.getrusage(resource.RUSAGE_CHILDREN)
    return children.ru_utime + children.ru_stime


def measure_start(program, journals, lines):
    """The least seconds of five starts, and the least processor seconds."""
    write_volume(journals, lines)
    taken, worked = [], []
    for _ in range(5):
        before = spent()
        taken.append(seconds(program, [journals], f"1 {lines}"))
        worked.append(spent() - before)
    return min(taken), min(worked)


def main():
    folder = pathlib.Path(sys.argv[1] if len(sys.argv) > 1 else tempfile.mkdtemp()).resolve()
    journals = pathlib.Path(sys.argv[2]).resolve() / "bench" if len(sys.argv) > 2 else folder / "journals"
    driver, start, plain = workspace(folder)
    for batch, batches in BATCHES.items():
        ours, theirs = measure_commits([driver, plain], journals, batch, batches)
        lines = batch * batches
        print(f"batches of {batch}: {lines / ours:,.0f} lines a second, C {lines / theirs:,.0f}; ours : C (time) {ours / theirs:.2f}")
    ours, theirs = measure_opening([driver, plain], journals)
    print(f"opening of 2^20 lines: {ours:.2f} s, C {theirs:.2f} s; ours : C {ours / theirs:.2f}")
    for lines in STARTS:
        taken, worked = measure_start(start, journals, lines)
        octets = (journals / "A-0000001.journal").stat().st_size
        print(f"start over {lines:,} lines ({octets / 1e6:.0f} MB): {taken:.2f} s, of which {worked:.2f} s a processor's")
    shutil.rmtree(journals, ignore_errors=True)


if __name__ == "__main__":
    main()
