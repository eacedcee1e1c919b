#!/usr/bin/env python3
"""run.py DESK: what `who` over a directory of 1,000 volumes of 100 MB in all takes, beside `grep` for the prefix over the same files.

DESK is a built desk. The volumes are of two servers that tell each other how they are, 500 of each side; in each the primary delegates the
one unit to a client of its own. Says for a moment of the first volumes, of those in the middle and of the last the time as a ratio to
grep's, best of five, and how many of the octets were read, as a ratio to what the two volumes that answer have. Ends with status 1 where
another client is named, or where more than MOST_READ times those octets were read.
"""
import os
import pathlib
import subprocess
import sys
import tempfile
import time

VOLUMES, OCTETS = 500, 106_000
POOL = "2001:0db8:0000:0000:0000:0000:0000:0000/56"
SKEW, LIFE = 500, 3600
# A volume lasts so long, in milliseconds.
LASTS = 20_000_000
TRIES = 5
# Of each file a page or two of its edges, of the chosen ones all.
MOST_READ = 40


def opened(number):
    return number * LASTS


def head(side, number, serial):
    words = [f"open {SKEW} {LIFE} {LIFE}", f"pool {POOL} 56"] + ([] if number == 1 else [f"base 0 {serial} 0 0 0"])
    return [f"pd-journal 1 {side}" if number == 1 else f"pd-journal 2 {side} {numbered(number)}"], words


def numbered(number):
    """The number of a volume: each second, since these begin with a free unit, which none that lies beside would have named."""
    return 2 * number - 1


def volume_pair(number, serial):
    """The texts of both servers' volumes of a number, and the serial that they leave."""
    texts = {}
    lines = {side: [(opened(number), words) for words in head(side, number, serial)[1]] for side in "AB"}
    lines["A"].append((opened(number) + 10_000, f"grant {client(number)} 00000001 {POOL} {LIFE}"))
    reading, size = opened(number) + 20_000, 0
    while size < OCTETS:
        serial += 1
        for teller, hearer in ("AB", "BA"):
            words = f"0 {serial} contact 0 0"
            lines[teller].append((reading, f"send {words}"))
            lines[hearer].append((reading + 1, f"take {words}"))
            reading += 2
            size += len(words) + 24
        reading += 5_000
    for side in "AB":
        rows = [f"{place} {at} {words}" for place, (at, words) in enumerate(lines[side], start=1)]
        rows += [f"{len(rows) + 1} {opened(number + 1) - 1000} close", f"end {len(rows) + 1}", ""]
        texts[side] = "\n".join(head(side, number, 0)[0] + rows).encode()
    return texts, serial


def client(number):
    return f"0003000102{number:010x}"


def make(folder):
    serial = 0
    for number in range(1, VOLUMES + 1):
        texts, serial = volume_pair(number, serial)
        for side, text in texts.items():
            (folder / f"{side}-{numbered(number):07}.journal").write_bytes(text)


def timed(words):
    """The least time of a few runs, what the last wrote, and how many octets it read."""
    times = []
    for _ in range(TRIES):
        begun = time.monotonic()
        with subprocess.Popen(words, stdout=subprocess.PIPE, stderr=subprocess.PIPE) as run:
            out = run.stdout.read()
            os.waitid(os.P_PID, run.pid, os.WEXITED | os.WNOWAIT)
            times.append(time.monotonic() - begun)
            fields = dict(row.split(": ") for row in pathlib.Path(f"/proc/{run.pid}/io").read_text().splitlines())
    return min(times), out, int(fields["rchar"])


def main():
    desk = str(pathlib.Path(sys.argv[1]).resolve())
    wrong = False
    with tempfile.TemporaryDirectory() as name:
        folder = pathlib.Path(name)
        make(folder)
        files = sorted(folder.iterdir())
        whole = sum(file.stat().st_size for file in files)
        grep, _, _ = timed(["grep", "-c", POOL, *map(str, files)])
        print(f"{len(files)} volumes, {whole / 1e6:.1f} MB; grep over all of them: {whole / 1e6 / grep:.0f} MB/s")
        for what, number in (("first", 1), ("middle", VOLUMES // 2), ("last", VOLUMES)):
            moment = opened(number) + 100_000
            words = ["who", "--skew-ms", str(SKEW), "--prefix", POOL, "--at", f"{moment}ms", "--journals", str(folder)]
            lasted, out, read = timed([desk, *words])
            chosen = sum((folder / f"{side}-{numbered(number):07}.journal").stat().st_size for side in "AB")
            named = out.startswith(f"holder {client(number)}\n".encode())
            wrong |= not named or read > MOST_READ * chosen
            print(f"{what}: who : grep (time) {lasted / grep:.2f}; read : the two volumes (octets) {read / chosen:.1f}, "
                  f"read : all {read / whole:.3f}{'' if named else '; ' + repr(out[:100])}")
    return int(wrong)


sys.exit(main())
