#!/usr/bin/env python3
"""run.py [FOLDER]: times decode and encode of dhcp6_pd against the same walk in plain Rust (plain.rs, rustc -O), on one core.

Makes a workspace in FOLDER (a temporary one if not said) of the crates that dhcp6_pd stands on and a program, driver.txt, that
reads a datagram and answers it as often as it is told. Proves and builds it there, the first time in some minutes. Each program
runs five times in turn over the same datagram, and the best of each counts, less what it takes for no datagram. Prints messages
read and answered per second, and the ratio of times.
"""
import pathlib
import shutil
import subprocess
import sys
import tempfile
import time

HERE = pathlib.Path(__file__).resolve().parent
ROOT = HERE.parent.parent
CRATES = ["text_fields", "prefix_range", "client_id", "router_options", "dhcp6_pd"]
COUNT = 2_000_000
SOLICIT = bytes.fromhex("010a0b0c0001000a000300010200000000010019000c000000010000000000000000")


def by_relay(held):
    option = bytes([0, 18, 0, 4, 1, 0, 0, 0, 0, 9]) + len(held).to_bytes(2, "big") + held
    return bytes([12, 0]) + bytes(range(32)) + option


def workspace(folder):
    rows = [row for row in (ROOT / "crates.txt").read_text().splitlines() if row.split(":")[0] in CRATES]
    folder.mkdir(parents=True, exist_ok=True)
    (folder / "crates.txt").write_text("\n".join(rows + ["driver: dhcp6_pd router_options client_id prefix_range anyhow"]) + "\n")
    shutil.copy(ROOT / "HANDLES", folder / "HANDLES")
    for name in CRATES:
        shutil.copytree(ROOT / "crates" / name, folder / "crates" / name, ignore=shutil.ignore_patterns("out"), dirs_exist_ok=True)
    driver = folder / "crates" / "driver"
    for part in ["src", "specs", "proofs"]:
        (driver / part).mkdir(parents=True, exist_ok=True)
    shutil.copy(HERE / "driver.txt", driver / "src" / "main.rt")
    (driver / "specs" / "Lib.antt").write_text("")
    subprocess.run(["rt", "run", "--", "1"], cwd=driver, input=SOLICIT, check=True)
    subprocess.run(["rustc", "--edition", "2021", "-O", "-o", folder / "plain", HERE / "plain.rs"], check=True)
    return driver / "out" / "driver", folder / "plain"


def seconds(program, count, datagram):
    begun = time.perf_counter()
    done = subprocess.run([program, str(count)], input=datagram, stdout=subprocess.PIPE, check=True)
    return time.perf_counter() - begun, done.stdout


def main():
    ours, plain = workspace(pathlib.Path(sys.argv[1] if len(sys.argv) > 1 else tempfile.mkdtemp()))
    for name, datagram in [("SOLICIT", SOLICIT), ("SOLICIT in two relays", by_relay(by_relay(SOLICIT)))]:
        best = {}
        for _ in range(5):
            for program in [ours, plain]:
                empty, _ = seconds(program, 0, datagram)
                full, told = seconds(program, COUNT, datagram)
                best[program] = min(best.get(program, (1e9, b"")), (full - empty, told))
        assert best[ours][1] == best[plain][1], best
        rates = [COUNT / best[program][0] / 1e6 for program in [ours, plain]]
        print(f"{name}: dhcp6_pd {rates[0]:.2f}, plain Rust {rates[1]:.2f} million a second; dhcp6_pd : plain {best[ours][0] / best[plain][0]:.2f} (time)")


if __name__ == "__main__":
    main()
