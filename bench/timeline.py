#!/usr/bin/env python3
"""timeline.py [LINES]: times `desk timeline` and `desk audit` on two journals of LINES mixed lines each (1,000,000 if not
said), of which two in three are messages, against awk printing the timeline's octets and `sort -m` merging its two halves
by their readings. Five times each in turn, and the best of each counts.

timeline.py contacts COUNT [DESK]: the same of the timeline alone, where each server tells the other COUNT contacts. DESK is the desk
that `./desk --prove` builds if not said.
"""
import os
import pathlib
import subprocess
import sys
import tempfile

from run import AUDIT, DESK, generated, run


def halves(path):
    """The timeline's lines of each side, in files of their own."""
    files = {side: tempfile.NamedTemporaryFile() for side in (b"A", b"B")}
    with open(path, "rb") as lines:
        for line in lines:
            files[line[:1]].write(line)
    for file in files.values():
        file.flush()
    return [file for file in files.values()]


def contacts(count):
    """Two journals in which each side sends so many contacts and takes those of the other."""
    heads = ["9000 open 2000 3600 3600", "9000 pool 2001:0db8:0000:0000:0000:0000:0000:0000/40 56"]
    lines = {"A": list(heads), "B": list(heads)}
    for serial in range(1, count + 1):
        for offset, sender, taker in [(0, "A", "B"), (2, "B", "A")]:
            reading = 10_000 + 10 * serial + offset
            letter = f"0 {serial} contact {reading} 0"
            lines[sender].append(f"{reading} send {letter}")
            lines[taker].append(f"{reading + 1} take {letter}")
    text = ""
    for side, events in lines.items():
        events.append(f"{10_100 + 10 * count} close")
        numbered = "".join(f"{number} {event}\n" for number, event in enumerate(events, 1))
        text += f"pd-journal 1 {side}\n{numbered}end {len(events)}\n"
    return text.encode()


def measure_contacts(count, desk):
    with tempfile.NamedTemporaryFile() as pair, tempfile.NamedTemporaryFile() as told:
        pair.write(contacts(count))
        pair.flush()
        timeline = [desk, "timeline"]
        subprocess.run(timeline, stdin=open(pair.name, "rb"), stdout=told, check=True)
        told.flush()
        a, b = halves(told.name)
        merge = ["sort", "-m", "-k2,2n", a.name, b.name]
        found = [(run(timeline, pair.name), run(merge, os.devnull)) for _ in range(5)]
        best, memory = min(desk for desk, _ in found)[:2]
        size = os.path.getsize(pair.name)
        print(f"input             {size / 1e6:.1f} MB, {count} contacts each way")
        print(f"timeline          {best:.2f} s")
        print(f"timeline : sort   {best / min(sort[0] for _, sort in found):.2f} (time)")
        print(f"peak memory       {memory / size:.2f} times the input")


def main():
    if sys.argv[1:2] == ["contacts"]:
        measure_contacts(int(sys.argv[2]), sys.argv[3] if len(sys.argv) > 3 else DESK)
        return
    count = sys.argv[1] if len(sys.argv) > 1 else "1000000"
    with generated("generate.py", count) as given, tempfile.NamedTemporaryFile() as pair, tempfile.NamedTemporaryFile() as told:
        text = pathlib.Path(given.name).read_bytes()
        pair.write(text[: text.index(b"pd-certificate")])
        pair.flush()
        timeline = [DESK, "timeline"]
        subprocess.run(timeline, stdin=open(pair.name, "rb"), stdout=told, check=True)
        told.flush()
        a, b = halves(told.name)
        merge = ["sort", "-m", "-k2,2n", a.name, b.name]
        times = {"timeline": [], "audit": [], "awk": [], "sort": []}
        for _ in range(5):
            times["timeline"].append(run(timeline, pair.name))
            times["audit"].append(run(AUDIT, given.name))
            times["awk"].append(run(["awk", "{ print }"], told.name))
            times["sort"].append(run(merge, os.devnull))
        best = {name: min(found) for name, found in times.items()}
        size = os.path.getsize(pair.name)
        print(f"input             {size / 1e6:.1f} MB, 2 x {count} mixed lines")
        print(f"timeline          {size / 1e6 / best['timeline'][0]:.0f} MB/s")
        print(f"audit             {size / 1e6 / best['audit'][0]:.0f} MB/s")
        print(f"timeline : awk    {best['timeline'][0] / best['awk'][0]:.2f} (time)")
        print(f"timeline : sort   {best['timeline'][0] / best['sort'][0]:.2f} (time)")
        print(f"audit : awk       {best['audit'][0] / best['awk'][0]:.2f} (time)")
        print(f"peak memory       {best['timeline'][1] / (2 * int(count)):.0f} octets a line, of the audit {best['audit'][1] / (2 * int(count)):.0f}")


if __name__ == "__main__":
    main()
