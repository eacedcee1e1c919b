#!/usr/bin/env python3
"""run.py [LINES [DESK]]: times the desk's batch over two journals of LINES mixed lines each (1,000,000 if not said) by 1, 2 and 4
workers, and over one unit's renewals.

Certificates a second are from the times of 200,000 and of 20,000 copies of one certificate, so what reading the journals costs is
left out; three runs of each in turn, the best counts. Then 10,000 certificates in one batch are set against as many runs of audit,
extrapolated from ten. At last, 1,000 certificates of one prefix and one holder over 100,000 renewals of it, by one worker, less
what the journals and one certificate cost. DESK is the desk that `./desk --prove` builds if not said.
"""
import os
import pathlib
import subprocess
import sys
import tempfile
import time

HERE = pathlib.Path(__file__).resolve().parent
ROOT = HERE.parent.parent
DESK = sys.argv[2] if len(sys.argv) > 2 else ROOT / "crates" / "desk_cli" / "out" / "desk_cli"
MANY, FEW, BATCH = 200_000, 20_000, 10_000


def seconds(words, path, count):
    with open(path, "rb") as given:
        begun = time.perf_counter()
        done = subprocess.run([DESK, *words], stdin=given, stdout=subprocess.PIPE, check=True)
        took = time.perf_counter() - begun
    assert done.stdout == b"accepted\n" * count, done.stdout[:200]
    return took


def batch(workers):
    return ["batch", "--skew-ms", "2000", "--workers", str(workers)]


def inputs(folder, lines):
    """The paths of two journals with so many copies of their certificate, by their number."""
    text = subprocess.run([sys.executable, ROOT / "bench" / "generate.py", lines], stdout=subprocess.PIPE, check=True, text=True).stdout
    start = text.index("pd-certificate 1")
    paths = {}
    for count in [MANY, FEW, BATCH, 1]:
        paths[count] = folder / str(count)
        paths[count].write_text(text[:start] + text[start:] * count)
    return paths


UNIT = "2001:0db8:0000:0000:0000:0000:0000:0000/56"
HOLDER = "00030001020000000001"


def renewals(count, certificates):
    """A unit granted each second, and as many certificates of a second of it."""
    heads = ["9000 open 2000 3600 3600", f"9000 pool {UNIT.replace('/56', '/48')} 56"]
    grants = [f"{10_000 + 1000 * n} grant {HOLDER} 00000001 {UNIT} 3600" for n in range(count)]
    text = ""
    for side, lines in [("A", heads + grants), ("B", list(heads))]:
        lines.append(f"{11_000 + 1000 * count} close")
        numbered = "".join(f"{number} {line}\n" for number, line in enumerate(lines, 1))
        text += f"pd-journal 1 {side}\n{numbered}end {len(lines)}\n"
    for n in range(certificates):
        place = n * 97 % count
        at, name = f"{12_000 + 1000 * place} {13_000 + 1000 * place}", f"A{place + 3}"
        text += f"pd-certificate 1\nholder {HOLDER}\nprefix {UNIT}\ninterval {at}\npiece {name} {at} latest {name} earliest {name}\nend\n"
    return text


def measure_renewals(folder):
    paths = {count: folder / f"renewals{count}" for count in [1, 1000]}
    for count, path in paths.items():
        path.write_text(renewals(100_000, count))
    took = {count: min(seconds(batch(1), path, count) for _ in range(3)) for count, path in paths.items()}
    print(f"a certificate over 100,000 renewals of its prefix: {(took[1000] - took[1]) / 999 * 1e6:.0f} us")


def main():
    lines = sys.argv[1] if len(sys.argv) > 1 else "1000000"
    with tempfile.TemporaryDirectory() as name:
        paths = inputs(pathlib.Path(name), lines)
        rates = {}
        for workers in [count for count in [1, 2, 4] if count <= os.cpu_count()]:
            many = min(seconds(batch(workers), paths[MANY], MANY) for _ in range(3))
            few = min(seconds(batch(workers), paths[FEW], FEW) for _ in range(3))
            rates[workers] = (MANY - FEW) / (many - few)
            print(f"{workers} workers: {rates[workers]:.0f} certificates a second, {rates[workers] / rates[1]:.2f} times those of one")
        one = min(seconds(batch(1), paths[BATCH], BATCH) for _ in range(3))
        runs = sum(seconds(["audit", "--skew-ms", "2000"], paths[1], 1) for _ in range(10)) / 10 * BATCH
        print(f"{BATCH} certificates: as runs of audit : in one batch {runs / one:.0f} (time)")
        measure_renewals(pathlib.Path(name))


main()
