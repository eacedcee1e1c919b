#!/usr/bin/env python3
"""run.py [LINES [COUNT]]: times the desk, each figure from runs of one process after another on the same machine.

1. On two journals of LINES mixed lines each (1,000,000 if not said), against awk over the same octets, on 1, 2 and 4 processors
   (taskset), which is how many threads read. awk does a plain field match: it prints the grants of the prefix asked of. Five times
   each in turn, and the best of each counts.
2. On a certificate that names COUNT leases of other clients (1,000 if not said), its foreign lines in the order of their grants,
   against the same with the foreign lines in the reverse order.
"""
import os
import pathlib
import subprocess
import sys
import tempfile
import time

HERE = pathlib.Path(__file__).resolve().parent
DESK = HERE.parent / "crates" / "desk_cli" / "out" / "desk_cli"


def run(words, path):
    """Seconds, peak memory in octets, and what was written."""
    with open(path, "rb") as given, tempfile.TemporaryFile() as taken:
        begun = time.perf_counter()
        child = subprocess.Popen(words, stdin=given, stdout=taken)
        _, status, used = os.wait4(child.pid, 0)
        seconds = time.perf_counter() - begun
        taken.seek(0)
        return seconds, used.ru_maxrss * 1024, taken.read()


AUDIT = [DESK, "audit", "--skew-ms", "2000"]
MATCH = ["awk", '$3 == "grant" && $6 == "2001:0db8:0000:0000:0000:0000:0000:0000/56"']


def generated(script, *words):
    file = tempfile.NamedTemporaryFile()
    subprocess.run([sys.executable, HERE / script, *words], stdout=file, check=True)
    file.flush()
    return file


def best(words, path, times=5):
    runs = [run(words, path) for _ in range(times)]
    if DESK in words:
        assert all(answer == b"accepted\n" for _, _, answer in runs), runs[0]
    return min(runs)


def on(processors, words):
    return ["taskset", "-c", f"0-{processors - 1}", *words]


def measure_reading(lines):
    with generated("generate.py", lines) as file:
        size = os.path.getsize(file.name)
        threads = [count for count in [1, 2, 4] if count <= os.cpu_count()]
        desk, match = {count: [] for count in threads}, []
        for _ in range(5):
            for count in threads:
                desk[count].append(best(on(count, AUDIT), file.name, 1))
            match.append(best(MATCH, file.name, 1))
        match = min(match)
        print(f"input                    {size / 1e6:.1f} MB, 2 x {lines} mixed lines")
        print(f"awk field match          {size / 1e6 / match[0]:.0f} MB/s")
        for count in threads:
            seconds, peak, _ = min(desk[count])
            print(f"desk by {count} threads        {size / 1e6 / seconds:.0f} MB/s")
            print(f"desk : awk               {seconds / match[0]:.2f} (time)")
            print(f"peak memory : input      {peak / size:.2f}")
            print(f"peak memory : lines      {peak / (2 * int(lines)):.0f} octets")


def measure_foreign(count):
    with generated("generate_foreign.py", count, "in-order") as straight, generated("generate_foreign.py", count, "reversed") as turned:
        print(f"{count} foreign lines")
        print(f"reversed : in order      {best(AUDIT, turned.name)[0] / best(AUDIT, straight.name)[0]:.2f} (time)")


def main():
    measure_reading(sys.argv[1] if len(sys.argv) > 1 else "1000000")
    measure_foreign(sys.argv[2] if len(sys.argv) > 2 else "1000")


if __name__ == "__main__":
    main()
