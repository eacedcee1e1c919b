#!/usr/bin/env python3
"""run.py [NODE]: times exchanges of clients with a node over the loopback address, against the least that a server does (plain.rs).

An exchange is a SOLICIT, its ADVERTISE, a REQUEST and its REPLY, each through one relay; 10,000 clients have one each, 16 at a time
(asker.rs). NODE is the node's program, crates/node_cli/out/node_cli if not said. With 1 and 2 workers, five runs of each program in
turn, and the best of each counts. A server's processor time is that of its whole run without that of a run of a single exchange.
"""
import os
import pathlib
import subprocess
import sys
import tempfile

HERE = pathlib.Path(__file__).resolve().parent
NODE = HERE.parent.parent / "crates" / "node_cli" / "out" / "node_cli"
CLIENTS = 10_000
PORT = 5479
SETTINGS = """role = "primary"
duid = "00030001020000000009"
skew_ms = 2000
mclt = 3600
life = 3600
listen = "127.0.0.1:{port}"
workers = {workers}
[[pool]]
prefix = "2001:db8::/40"
unit = 56
"""


def built(name, folder):
    program = pathlib.Path(folder) / name
    subprocess.run(["rustc", "--edition", "2021", "-O", "-o", program, HERE / f"{name}.rs"], check=True)
    return program


def lived(asker, words, settings, clients):
    """Seconds of all exchanges, and the server's processor seconds. Each answer has 143 octets, and a node's journal each grant."""
    with tempfile.TemporaryFile() as given, tempfile.TemporaryFile() as taken:
        given.write(settings.encode())
        given.seek(0)
        child = subprocess.Popen(words, stdin=given, stdout=taken, stderr=subprocess.PIPE)
        assert b"listens" in child.stderr.readline()
        done = subprocess.run([asker, str(PORT), str(clients)], stdout=subprocess.PIPE, check=True)
        _, status, used = os.wait4(child.pid, 0)
        microseconds, octets = map(int, done.stdout.split())
        taken.seek(0)
        journal = taken.read()
        assert status == 0 and octets == 2 * clients * 143, (status, octets)
        assert not journal or journal.count(b" grant ") == clients
        return microseconds / 1e6, used.ru_utime + used.ru_stime


def main():
    node = sys.argv[1] if len(sys.argv) > 1 else NODE
    with tempfile.TemporaryDirectory() as folder:
        asker, plain = built("asker", folder), built("plain", folder)
        for workers in [1, 2]:
            settings = SETTINGS.format(port=PORT, workers=workers)
            least = {}
            for _ in range(5):
                for name, words in [("node", lambda n: [node, "run", "--count", str(2 * n)]),
                                    ("plain", lambda n: [plain, str(PORT), str(2 * n), str(workers)])]:
                    seconds, processor = lived(asker, words(CLIENTS), settings, CLIENTS)
                    alone = lived(asker, words(1), settings, 1)[1]
                    least.setdefault(name, []).append((seconds, processor - alone))
            best = {name: [min(part) / CLIENTS * 1e6 for part in zip(*runs)] for name, runs in least.items()}
            for name, (elapsed, processor) in best.items():
                print(f"{workers} workers, {name}: {1e6 / elapsed:.0f} exchanges a second, {processor:.1f} processor microseconds each")
            print(f"{workers} workers, node : plain {best['node'][0] / best['plain'][0]:.2f} (time), "
                  f"{best['node'][1] / best['plain'][1]:.2f} (processor)")


main()
