#!/usr/bin/env python3
"""run.py [FOLDER]: times Requests to a shared book with 1, 2 and 4 workers, against Book::apply without a lock and against plain Rust
(plain.rs, rustc -O: a hash map and a vector of lines behind a Mutex), and the closing of 2^20 lines.

Makes a workspace in FOLDER (a temporary one if not said) of the crates that locked_book stands on and a program, driver.txt. Proves
and builds it there, the first time in some minutes. Each worker's 32 clients ask in turn; all programs of one figure have equally
many Requests in all, run five times in turn, and the best of each counts.
"""
import pathlib
import shutil
import subprocess
import sys
import tempfile

HERE = pathlib.Path(__file__).resolve().parent
ROOT = HERE.parent.parent
CRATES = ["text_fields", "prefix_range", "client_id", "lead_time", "binding_rules", "journal_lines", "book_state",
          "book_rules", "dhcp6_pd", "unit_index", "server_settings", "order_book", "server_book", "locked_book"]
REQUESTS = 400_000
MOST_LINES = 2**20 - 1


def workspace(folder):
    rows = [row for row in (ROOT / "crates.txt").read_text().splitlines() if row.split(":")[0] in CRATES]
    rows.append("driver: locked_book server_book client_id lead_time anyhow")
    folder.mkdir(parents=True, exist_ok=True)
    (folder / "crates.txt").write_text("\n".join(rows) + "\n")
    shutil.copy(ROOT / "HANDLES", folder / "HANDLES")
    for name in CRATES:
        shutil.copytree(ROOT / "crates" / name, folder / "crates" / name, ignore=shutil.ignore_patterns("out"), dirs_exist_ok=True)
    driver = folder / "crates" / "driver"
    for part in ["src", "specs", "proofs/main"]:
        (driver / part).mkdir(parents=True, exist_ok=True)
    shutil.copy(HERE / "driver.txt", driver / "src" / "main.rt")
    shutil.copy(HERE / "picks.txt", driver / "proofs" / "main" / "Invariants.antt")
    (driver / "specs" / "Lib.antt").write_text("")
    subprocess.run(["rt", "run", "--", "1", "1"], cwd=driver, stdin=subprocess.DEVNULL, check=True)
    subprocess.run(["rustc", "--edition", "2021", "-O", "-o", folder / "plain", HERE / "plain.rs"], check=True)
    return driver / "out" / "driver", folder / "plain"


def figures(program, workers, count):
    """The microseconds of serving and of closing."""
    done = subprocess.run([program, str(workers), str(count)], stdout=subprocess.PIPE, check=True, text=True)
    serving, closing, lines, well = done.stdout.split()
    assert well == "true" and int(lines) == max(workers, 1) * count + 2, done.stdout
    return int(serving), int(closing)


def best(runs):
    """The least serving of five runs of each, in turn."""
    least = [1e18] * len(runs)
    for _ in range(5):
        least = [min(one, figures(*run)[0]) for one, run in zip(least, runs)]
    return least


def main():
    ours, plain = workspace(pathlib.Path(sys.argv[1] if len(sys.argv) > 1 else tempfile.mkdtemp()))
    for workers in [1, 2, 4]:
        count = REQUESTS // workers
        served, applied, locked = best([(ours, workers, count), (ours, 0, REQUESTS), (plain, workers, count)])
        print(f"{workers} workers: served {served / REQUESTS:.3f}, applied without a lock {applied / REQUESTS:.3f}, plain Rust "
              f"{locked / REQUESTS:.3f} microseconds a Request; served : applied {served / applied:.2f}, served : plain {served / locked:.2f}")
    closing = min(figures(ours, 1, MOST_LINES - 2)[1] for _ in range(3))
    print(f"closing of 2^20 - 1 lines: {closing / 1e6:.3f} seconds")


main()
