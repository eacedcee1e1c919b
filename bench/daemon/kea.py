#!/usr/bin/env python3
"""kea.py [NODE] [--clients N] [--window N] [--runs N]: what an exchange costs `node serve`, and what it costs Kea, side by side.

As root, with Debian's kea-dhcp6-server and iproute2. In two network namespaces of its own, which it takes away again, clients behind one
relay (relayed.rs) ask a server over a link: a SOLICIT, its ADVERTISE, a REQUEST and its REPLY, then two rounds of a RENEW and its REPLY
each, so many clients at a time. The servers are asked in turn, each new: `serve` alone, with its limits of a customer and without; Kea by
its defaults with a memfile, with its log of each lease as Debian's configuration has it, and with warnings alone. The figures are
processor time of all threads of the server, by /proc, and time by the clock; the best of the runs of each. NODE is
crates/node_cli/out/node_cli if not said.
"""
import argparse
import contextlib
import json
import os
import pathlib
import re
import shutil
import signal
import subprocess
import tempfile
import time

HERE = pathlib.Path(__file__).resolve().parent
NODE = HERE.parent.parent / "crates" / "node_cli" / "out" / "node_cli"
SERVER_SPACE, RELAY_SPACE = "fengtuyas-kea-s", "fengtuyas-kea-r"
SERVER, RELAY, PORT = "fd65::1", "fd65::2", 547
LIFE = 3600
UNLIMITED = "ias_per_message = 0\nunits_per_client = 0\nunits_per_port = 0\nclient_rate = 0\n"
SETTINGS = f"""role = "primary"
duid = "00030001020000000009"
skew_ms = 2000
mclt = {LIFE}
life = {LIFE}
transit_ms = 2000
listen = "[{SERVER}]:{PORT}"
alone = true
workers = 1
volume_lines = 1000000
renew_floor = 0
"""
POOL = """[[pool]]
prefix = "2001:db8::/40"
unit = 56
"""
ROUNDS = ("lease", "renewal", "renewal")


def run(*words):
    subprocess.run([str(word) for word in words], check=True, stdout=subprocess.DEVNULL)


def inside(name, *words):
    return ["ip", "netns", "exec", name, *[str(word) for word in words]]


def lay():
    for name in (SERVER_SPACE, RELAY_SPACE):
        run("ip", "netns", "add", name)
        run(*inside(name, "ip", "link", "set", "lo", "up"))
    run("ip", "-n", SERVER_SPACE, "link", "add", "k0", "type", "veth", "peer", "name", "k1", "netns", RELAY_SPACE)
    for name, card, address in ((SERVER_SPACE, "k0", SERVER), (RELAY_SPACE, "k1", RELAY)):
        run("ip", "-n", name, "address", "add", f"{address}/64", "dev", card, "nodad")
        run("ip", "-n", name, "link", "set", card, "up")
    # the cards' own addresses are tried for two seconds
    time.sleep(3)


def take_away():
    for name in (SERVER_SPACE, RELAY_SPACE):
        subprocess.run(["ip", "netns", "delete", name], stderr=subprocess.DEVNULL, check=False)


def processor(process):
    """Processor seconds of all threads of a process so far."""
    threads = pathlib.Path(f"/proc/{process}/task").glob("*/schedstat")
    return sum(int(thread.read_text().split()[0]) for thread in threads) / 1e9


class Server:
    """A server in its namespace, over a new folder."""

    def __init__(self, folder):
        self.folder = folder
        shutil.rmtree(folder, ignore_errors=True)
        folder.mkdir(parents=True)
        self.child = None

    def started(self, words, says, **options):
        notes = self.folder / "notes"
        with open(notes, "wb") as file:
            self.child = subprocess.Popen(inside(SERVER_SPACE, *words), stdin=subprocess.DEVNULL, stdout=file, stderr=file, **options)
        until = time.monotonic() + 20
        while not re.search(says, self.said()):
            assert self.child.poll() is None and time.monotonic() < until, self.said()
            time.sleep(0.02)
        return self

    def said(self):
        return b"".join(path.read_bytes() for path in (self.folder / "notes", self.folder / "log") if path.exists()).decode(errors="replace")

    def end(self):
        if self.child.poll() is None:
            self.child.send_signal(signal.SIGTERM)
            self.child.wait()


class Node(Server):
    def start(self, node, limits):
        (self.folder / "settings.toml").write_text(SETTINGS + limits + POOL)
        return self.started([node, "serve", "--dir", self.folder], "begins volume")

    def lines(self):
        return self.folder.joinpath("A-0000001.journal").read_bytes().count(b" grant ")


class Kea(Server):
    def start(self, severity):
        log = {"name": "kea-dhcp6", "severity": severity, "output_options": [{"output": str(self.folder / "log"), "maxsize": 0}]}
        settings = {
            "interfaces-config": {"interfaces": [f"k0/{SERVER}"]},
            "data-directory": str(self.folder),
            "lease-database": {"type": "memfile", "name": str(self.folder / "leases.csv"), "lfc-interval": 3600},
            "valid-lifetime": LIFE, "preferred-lifetime": LIFE, "renew-timer": LIFE // 2, "rebind-timer": LIFE * 4 // 5,
            "subnet6": [{"subnet": "2001:db8:ffff::/64", "id": 1,
                         "pd-pools": [{"prefix": "2001:db8::", "prefix-len": 40, "delegated-len": 56}]}],
            "loggers": [log],
        }
        (self.folder / "kea.conf").write_text(json.dumps({"Dhcp6": settings}, indent=1))
        environment = {**os.environ, "KEA_PIDFILE_DIR": str(self.folder), "KEA_LOCKFILE_DIR": str(self.folder)}
        self.started(["kea-dhcp6", "-c", self.folder / "kea.conf"], "", env=environment)
        until = time.monotonic() + 20
        while not self.listens():
            assert self.child.poll() is None and time.monotonic() < until, self.said()
            time.sleep(0.02)
        return self

    def listens(self):
        found = subprocess.run(inside(SERVER_SPACE, "cat", "/proc/net/udp6"), capture_output=True, text=True, check=True).stdout
        return f":{PORT:04X} " in found

    def lines(self):
        return (self.folder / "leases.csv").read_bytes().count(b"\n") - 1


def asked(asker, server, clients, window):
    """Of each round the seconds, the processor seconds of the server, and how many datagrams had to be sent again."""
    words = [asker, f"[{RELAY}]:{PORT}", f"[{SERVER}]:{PORT}", clients, window, len(ROUNDS) - 1]
    with subprocess.Popen(inside(RELAY_SPACE, *words), stdin=subprocess.PIPE, stdout=subprocess.PIPE) as child:
        for _ in ROUNDS:
            before = processor(server.child.pid)
            child.stdin.write(b"\n")
            child.stdin.flush()
            line = child.stdout.readline()
            assert line, "the asker ended"
            took, again = map(int, line.split())
            yield took / 1e6, processor(server.child.pid) - before, again
    assert child.returncode == 0
    assert server.lines() == clients * len(ROUNDS), server.lines()


def main():
    parser = argparse.ArgumentParser(description=__doc__.splitlines()[0])
    parser.add_argument("node", nargs="?", default=NODE)
    parser.add_argument("--clients", type=int, default=10_000)
    parser.add_argument("--window", type=int, default=16)
    parser.add_argument("--runs", type=int, default=3)
    words = parser.parse_args()
    node = pathlib.Path(words.node).resolve()
    ways = {
        "serve": lambda folder: Node(folder).start(node, UNLIMITED),
        "serve, with its limits": lambda folder: Node(folder).start(node, "client_rate = 0\n"),
        "Kea": lambda folder: Kea(folder).start("INFO"),
        "Kea, warnings alone": lambda folder: Kea(folder).start("WARN"),
    }
    found = {name: {"lease": [], "renewal": []} for name in ways}
    take_away()
    with tempfile.TemporaryDirectory(dir=os.environ.get("TMPDIR")) as temporary:
        asker = pathlib.Path(temporary) / "relayed"
        subprocess.run(["rustc", "--edition", "2021", "-O", "-o", asker, HERE / "relayed.rs"], check=True)
        try:
            lay()
            for _ in range(words.runs):
                for name, way in ways.items():
                    server = way(pathlib.Path(temporary) / "server")
                    try:
                        for kind, figures in zip(ROUNDS, asked(asker, server, words.clients, words.window)):
                            found[name][kind].append(figures)
                    finally:
                        server.end()
        finally:
            take_away()
    tell(found, words.clients)


def tell(found, clients):
    best = {}
    for name, kinds in found.items():
        for kind, figures in kinds.items():
            seconds, used, again = zip(*figures)
            best[name, kind] = min(used) / clients
            spread = ", ".join(f"{1e6 * each / clients:.1f}" for each in sorted(used))
            print(f"{name}, a {kind}: {clients / min(used):,.0f} a processor second, {1e6 * min(used) / clients:.1f} microseconds each "
                  f"(of {spread}); {clients / min(seconds):,.0f} a second; {sum(again)} sent again")
    for kind in ("lease", "renewal"):
        for own in ("serve", "serve, with its limits"):
            for other in ("Kea", "Kea, warnings alone"):
                print(f"{own} : {other}, a {kind}: {best[other, kind] / best[own, kind]:.2f} times as many a processor second")


if __name__ == "__main__":
    main()
