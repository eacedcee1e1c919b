#!/usr/bin/env python3
"""run.py [FOLDER]: times the index of two journals and audits over it, in microseconds.

Makes a workspace in FOLDER (a temporary one if not said) of the crates that line_index stands on and a program, driver.txt. Proves
and builds it there, the first time in some ten minutes. Then makes inputs (../generate.py and generate.py), runs the program five
times over each, and prints the best of each figure: reading both journals, merging them, building the index, reading the
certificate, and one audit, of 1,000 in a row and, where it says so, the first alone.
"""
import pathlib
import re
import shutil
import subprocess
import sys
import tempfile

HERE = pathlib.Path(__file__).resolve().parent
ROOT = HERE.parent.parent
CRATES = """text_fields prefix_range client_id lead_time line_words binding_rules journal_lines book_state book_rules
causal_order journal_merge journal_text certificate attribution auditor line_index""".split()


def program(folder):
    rows = [row for row in (ROOT / "crates.txt").read_text().splitlines() if row.split(":")[0] in CRATES]
    row = "driver: line_index auditor attribution journal_merge journal_text certificate lead_time claims anyhow"
    (folder / "crates.txt").write_text("\n".join(rows + [row]) + "\n")
    shutil.copy(ROOT / "HANDLES", folder / "HANDLES")
    for name in CRATES:
        shutil.copytree(ROOT / "crates" / name, folder / "crates" / name, ignore=shutil.ignore_patterns("out"), dirs_exist_ok=True)
    driver = folder / "crates" / "driver"
    for part in ["src", "specs", "proofs"]:
        (driver / part).mkdir(parents=True, exist_ok=True)
    shutil.copy(HERE / "driver.txt", driver / "src" / "main.rt")
    (driver / "specs" / "Lib.antt").write_text("")
    subprocess.run(["rt", "run"], cwd=driver, check=True)
    return driver / "out" / "driver"


def mixed(folder, lines):
    folder.mkdir(parents=True, exist_ok=True)
    text = subprocess.run([sys.executable, ROOT / "bench" / "generate.py", str(lines)], stdout=subprocess.PIPE, check=True, text=True).stdout
    second, third = text.index("pd-journal 1 B"), text.index("pd-certificate 1")
    for name, part in [("a", text[:second]), ("b", text[second:third]), ("natural", text[third:])]:
        (folder / name).write_text(part)


def figures(driver, folder, name, count):
    """The best of five runs, and the verdict."""
    best, verdict = None, ""
    for _ in range(5):
        told = subprocess.run([driver, folder / "a", folder / "b", folder / name, str(count)], stdout=subprocess.PIPE, check=True, text=True).stdout
        numbers = [int(number) for number in re.findall(r"(?:read|merge|build|claim|audit) (\d+)", told)]
        numbers[4] /= count
        best = [min(pair) for pair in zip(best or numbers, numbers)]
        verdict = told.split(f"audit {round(numbers[4] * count)} ")[1].strip()
    return best, verdict


def main():
    folder = pathlib.Path(sys.argv[1] if len(sys.argv) > 1 else tempfile.mkdtemp())
    folder.mkdir(parents=True, exist_ok=True)
    driver = program(folder)
    inputs = []
    for lines in [10_000, 100_000, 1_000_000]:
        mixed(folder / f"mixed{lines}", lines)
        inputs += [(f"2 x {lines} mixed lines", f"mixed{lines}", "natural", 1000), ("the first audit alone", f"mixed{lines}", "natural", 1)]
    for kind, size in [("many", 1000), ("unit", 1_000_000), ("alike", 1_000_000)]:
        subprocess.run([sys.executable, HERE / "generate.py", folder / kind, kind, str(size)], check=True)
    inputs += [(f"1,000 pieces, {order}", "many", order, 10) for order in ["natural", "reversed", "shuffled"]]
    inputs += [("2 x 1000000 lines of one unit", "unit", "natural", 10), ("the same, marks alike", "alike", "natural", 10)]
    print("input: reading, merging, building, reading the certificate, an audit")
    for title, kind, name, count in inputs:
        best, verdict = figures(driver, folder / kind, name, count)
        print(f"{title}: {best[0]:.0f}, {best[1]:.0f}, {best[2]:.0f}, {best[3]:.0f}, {best[4]:.2f} ({verdict})", flush=True)


main()
