#!/usr/bin/env python3
"""run.py [FOLDER]: times orders and replays of a server's book at 256 and at 65,536 units and clients, on one core, against the same
in plain Rust (plain.rs, rustc -O).

Makes a workspace in FOLDER (a temporary one if not said) of the crates that server_book stands on and a program, driver.txt. Proves
and builds it there, the first time in some minutes. Each client in turn: Renew, SendUpdate, Take of its acknowledgement, Release,
SendUpdate, Take, Request. Each program runs five times in turn, and the best of each counts, less what it takes for no rounds (for
the opening and the first leases). Prints microseconds an order and a replayed line, the ratio of times to 256 units, and to plain Rust.
"""
import pathlib
import shutil
import subprocess
import sys
import tempfile
import time

HERE = pathlib.Path(__file__).resolve().parent
ROOT = HERE.parent.parent
CRATES = ["text_fields", "prefix_range", "client_id", "lead_time", "binding_rules", "journal_lines", "book_state",
          "book_rules", "dhcp6_pd", "unit_index", "server_settings", "order_book", "server_book"]
COUNTS = {"orders": 60_000, "replay": 12}
ORDERS_A_ROUND = 7


def workspace(folder):
    rows = [row for row in (ROOT / "crates.txt").read_text().splitlines() if row.split(":")[0] in CRATES]
    rows.append("driver: server_book binding_rules client_id lead_time prefix_range anyhow")
    folder.mkdir(parents=True, exist_ok=True)
    (folder / "crates.txt").write_text("\n".join(rows) + "\n")
    shutil.copy(ROOT / "HANDLES", folder / "HANDLES")
    for name in CRATES:
        shutil.copytree(ROOT / "crates" / name, folder / "crates" / name, ignore=shutil.ignore_patterns("out"), dirs_exist_ok=True)
    driver = folder / "crates" / "driver"
    for part in ["src", "specs", "proofs"]:
        (driver / part).mkdir(parents=True, exist_ok=True)
    shutil.copy(HERE / "driver.txt", driver / "src" / "main.rt")
    (driver / "specs" / "Lib.antt").write_text("")
    subprocess.run(["rt", "run", "--", "orders", "256", "1"], cwd=driver, stdin=subprocess.DEVNULL, check=True)
    subprocess.run(["rustc", "--edition", "2021", "-O", "-o", folder / "plain", HERE / "plain.rs"], check=True)
    return driver / "out" / "driver", folder / "plain"


def seconds(program, work, units, count):
    begun = time.perf_counter()
    done = subprocess.run([program, work, str(units), str(count)], stdout=subprocess.PIPE, check=True)
    return time.perf_counter() - begun, done.stdout


def main():
    ours, plain = workspace(pathlib.Path(sys.argv[1] if len(sys.argv) > 1 else tempfile.mkdtemp()))
    for work, count in COUNTS.items():
        each = {}
        for units in [256, 65_536]:
            best = {}
            for _ in range(5):
                for program in [ours, plain]:
                    empty, _ = seconds(program, work, units, 0)
                    full, told = seconds(program, work, units, count)
                    best[program] = min(best.get(program, (1e9, b"")), (full - empty, told))
            assert best[ours][1] == best[plain][1], best
            done = count * ORDERS_A_ROUND if work == "orders" else int(best[ours][1])
            each[units] = best[ours][0] / done
            print(f"{work} at {units} units: server_book {each[units] * 1e6:.2f}, plain Rust {best[plain][0] / done * 1e6:.2f} "
                  f"microseconds; server_book : plain {best[ours][0] / best[plain][0]:.2f} (time)")
        print(f"{work}: 65,536 : 256 units {each[65_536] / each[256]:.2f} (time)")


main()
