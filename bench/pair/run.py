#!/usr/bin/env python3
"""run.py [EVENTS [LENGTH [FOLDER]]]: lets EVENTS random events (1,000,000 if not said) happen in worlds of LENGTH events each (500 if
not said), by the generator of pair_tests, over a pool of four units and three clients.

Behind each event that is done no unit may be held by two clients; at the end of each world both journals, closed, must keep the
rules, and the auditor must find an order of both. Makes a workspace in FOLDER (a temporary one if not said) of the crates and a
program of driver.txt and the generator's files, and runs it by rt try: compiled with all checks, unproved. Ends with status 1 where a
walk went wrong.
"""
import pathlib
import shutil
import subprocess
import sys
import tempfile

HERE = pathlib.Path(__file__).resolve().parent
ROOT = HERE.parent.parent
NEEDS = "pair_world server_book auditor journal_lines binding_rules client_id lead_time prefix_range"
FILES = ["chance.rt", "dice.rt", "walks.rt", "worlds.rt"]
SECONDS = 7200


def rows():
    """Each row of crates.txt, by its crate's name."""
    lines = [line for line in (ROOT / "crates.txt").read_text().splitlines() if line and not line.startswith("#")]
    return {line.split(":")[0].split()[0]: line for line in lines}


def needed(names, known):
    for name in names:
        if name in known:
            yield from needed(known[name].partition(":")[2].split(), known)
            yield name


def workspace(folder):
    """Lays out the crates and the program, and tells the program's folder."""
    known = rows()
    crates = list(dict.fromkeys(needed(NEEDS.split(), known)))
    folder.mkdir(parents=True, exist_ok=True)
    (folder / "crates.txt").write_text("\n".join([known[name] for name in crates] + [f"driver: {NEEDS}"]) + "\n")
    shutil.copy(ROOT / "HANDLES", folder / "HANDLES")
    for name in crates:
        shutil.copytree(ROOT / "crates" / name, folder / "crates" / name, ignore=shutil.ignore_patterns("out"), dirs_exist_ok=True)
    driver = folder / "crates" / "driver"
    for part in ["src", "specs", "proofs"]:
        (driver / part).mkdir(parents=True, exist_ok=True)
    shutil.copy(HERE / "driver.txt", driver / "src" / "main.rt")
    for name in FILES:
        shutil.copy(ROOT / "crates" / "pair_tests" / "src" / name, driver / "src" / name)
    (driver / "specs" / "Lib.antt").write_text("")
    return driver


def main():
    events = int(sys.argv[1]) if len(sys.argv) > 1 else 1_000_000
    length = int(sys.argv[2]) if len(sys.argv) > 2 else 500
    driver = workspace(pathlib.Path(sys.argv[3] if len(sys.argv) > 3 else tempfile.mkdtemp()))
    words = ["rt", "try", "--seconds", str(SECONDS), "--", str(events // length), str(length)]
    done = subprocess.run(words, cwd=driver, stdin=subprocess.DEVNULL, stdout=subprocess.PIPE, text=True, check=False)
    print(done.stdout, end="")
    sys.exit(0 if done.stdout.startswith("nothing wrong\n") else 1)


if __name__ == "__main__":
    main()
