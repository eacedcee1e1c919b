#!/usr/bin/env python3
"""run.py [MEGABYTES]: times the link's feed on a stream of binding updates, replies and contacts (16 MB if not said), cut into
pieces of 1, 64 and 65,536 octets, against a plain Rust loop (plain.rs, built by `rustc -O`) over the same pieces in the same run.

Each program reads the stream once and feeds it so many times; the time of a run that feeds nothing is taken off. Both run five
times in turn, and the best of each counts. Prints MB/s of each and the ratio of their times.
"""
import pathlib
import shutil
import subprocess
import sys
import tempfile
import time

HERE = pathlib.Path(__file__).resolve().parent
ROOT = HERE.parent.parent


def number(value, octets):
    return value.to_bytes(octets, "big")


def frame(kind, serial, body):
    content = number(kind, 1) + number(0, 4) + number(serial, 8) + body
    return number(len(content), 4) + content


def stream(size):
    """An update of a client's, its reply and a contact in turn."""
    out, serial = bytearray(), 1
    while len(out) < size:
        prefix = number(56, 1) + number(0x20010DB8 << 96 | serial % 65536 << 72, 16)
        client = bytes.fromhex("0001000102030405060708090a0b")
        counters = number(serial, 8) + number(serial - 1, 8)
        out += frame(1, serial, b"\x01" + prefix + counters + number(7210000, 8) + number(1, 4) + number(len(client), 1) + client)
        out += frame(2, serial, b"\x01" + prefix + number(serial, 8) + counters)
        out += frame(12, serial, number(0, 16))
        serial += 1
    return bytes(out)


def build(folder):
    """The feeding program, proved and built beside copies of the crates, and the plain one."""
    shutil.copytree(ROOT / "crates", folder / "crates", ignore=shutil.ignore_patterns("must-fail"))
    program = folder / "crates" / "link_feeding"
    (program / "src").mkdir(parents=True)
    shutil.copy(HERE / "feeding.txt", program / "src" / "main.rt")
    rows = (ROOT / "crates.txt").read_text() + "\nlink_feeding: failover_message anyhow\n"
    (folder / "crates.txt").write_text(rows)
    (program / "args").write_text("1\n0\n")
    (program / "stdout").write_text("0\n")
    subprocess.run(["rt", "run", "--", "1", "0"], cwd=program, stdin=subprocess.DEVNULL, stdout=subprocess.DEVNULL, check=True)
    subprocess.run(["rustc", "--edition", "2021", "-O", "-C", "target-cpu=x86-64-v2", "-o", folder / "plain", HERE / "plain.rs"], check=True)
    return program / "out" / "link_feeding", folder / "plain"


def run(program, length, rounds, path):
    with open(path, "rb") as given:
        begun = time.perf_counter()
        answer = subprocess.run([program, str(length), str(rounds)], stdin=given, stdout=subprocess.PIPE, check=True).stdout
        return time.perf_counter() - begun, answer


def main():
    size = int(sys.argv[1]) * 1_000_000 if len(sys.argv) > 1 else 16_000_000
    with tempfile.TemporaryDirectory() as name:
        folder = pathlib.Path(name)
        ours, plain = build(folder)
        path = folder / "stream"
        path.write_bytes(stream(size))
        size = path.stat().st_size
        print(f"stream of {size / 1e6:.1f} MB")
        for length, rounds in [(1, 2), (64, 8), (65536, 16)]:
            times = {ours: [], plain: []}
            idle = {ours: [], plain: []}
            for _ in range(5):
                answers = set()
                for program in (ours, plain):
                    idle[program].append(run(program, length, 0, path)[0])
                    seconds, answer = run(program, length, rounds, path)
                    times[program].append(seconds)
                    answers.add(answer)
                assert len(answers) == 1, answers
            taken = {program: (min(times[program]) - min(idle[program])) / rounds for program in (ours, plain)}
            speeds = [size / 1e6 / taken[program] for program in (ours, plain)]
            print(f"pieces of {length:6}: feed {speeds[0]:6.0f} MB/s, plain {speeds[1]:6.0f} MB/s, feed : plain {taken[ours] / taken[plain]:.2f} (time)")


main()
