#!/usr/bin/env python3
"""run.py [NODE]: whether real DHCPv6 clients keep their prefixes over a server's crash.

As root, with Debian's dhcpcd-base, isc-dhcp-client, isc-dhcp-relay, wide-dhcpv6-client, dibbler-client and iproute2.
In network namespaces of its own, which it takes away again: a server (`node serve`, alone), a relay (dhcrelay), and
behind it a client of each kind on one link. Each is given a prefix; the server is killed (SIGKILL) and started again;
each client renews at half its lease, by itself. In the end the server closes its volume. It prints a row for each
client: its prefix, how many `grant` lines it has from behind the crash, and whether that prefix was its own, and no
other's, all the time. Status 1 where it wasn't. NODE is crates/node_cli/out/node_cli if not said.
"""
import os
import pathlib
import re
import shutil
import signal
import subprocess
import sys
import tempfile
import time

HERE = pathlib.Path(__file__).resolve().parent
NODE = HERE.parent.parent / "crates" / "node_cli" / "out" / "node_cli"
LIFE = 40
SERVER, RELAY = "fengtuyas-server", "fengtuyas-relay"
SETTINGS = f"""role = "primary"
duid = "00030001020000000009"
skew_ms = 2000
mclt = {LIFE}
life = {LIFE}
transit_ms = 2000
listen = "[2001:db8:ffff::1]:547"
alone = true
workers = 1
[[pool]]
prefix = "2001:db8::/40"
unit = 56
"""


def run(*words):
    subprocess.run([str(word) for word in words], check=True, stdout=subprocess.DEVNULL)


def inside(name, *words):
    return ["ip", "netns", "exec", name, *[str(word) for word in words]]


class Kind:
    """A kind of client: how it is started in its namespace, with a folder of its own."""

    def __init__(self, name, program, files, words):
        self.name, self.program, self.files, self.words = name, program, files, words
        self.space = f"fengtuyas-{name}"

    def start(self, folder):
        own = folder / self.name
        own.mkdir()
        for file, text in self.files.items():
            (own / file).write_text(text)
        words = [word.replace("OWN", str(own)) for word in self.words]
        log = open(own / "log", "w", encoding="utf-8")
        return subprocess.Popen(inside(self.space, *words), cwd=own, stdout=log, stderr=log)


DHCPCD = "duid\nnoipv6rs\nipv6only\nscript /bin/true\ninterface eth0\n  ia_pd 1\n"
DHCP6C = "interface eth0 {\n  send ia-pd 0;\n};\nid-assoc pd 0 {\n};\n"
DIBBLER = 'log-level 7\nlog-mode full\nscript "/bin/true"\niface eth0 {\n  pd\n}\n'


def shell(line):
    """A client that keeps what it knows in a folder of the trial's own."""
    return ["sh", "-c", f"mkdir OWN/db && {line}"]


KINDS = [
    Kind("dhclient", "dhclient", {}, shell(
        "exec dhclient -6 -P -d -v -cf /dev/null -sf /bin/true -lf OWN/leases -pf OWN/pid eth0")),
    Kind("dhcpcd", "dhcpcd", {"conf": DHCPCD}, shell(
        "mount --bind OWN/db /var/lib/dhcpcd && exec dhcpcd -6 -B -d -f OWN/conf eth0")),
    Kind("dhcp6c", "dhcp6c", {"conf": DHCP6C}, shell(
        "mount --bind OWN/db /var/lib/dhcpv6 && exec dhcp6c -f -D -c OWN/conf -p OWN/pid eth0")),
    Kind("dibbler", "dibbler-client", {"client.conf": DIBBLER}, shell(
        "mount --bind OWN /etc/dibbler && mount --bind OWN/db /var/lib/dibbler && exec dibbler-client run")),
]


def lay():
    """The namespaces and their links: server, relay, and a bridge with a port for each client."""
    for name in [SERVER, RELAY, *[kind.space for kind in KINDS]]:
        run("ip", "netns", "add", name)
        run(*inside(name, "ip", "link", "set", "lo", "up"))
    run("ip", "-n", SERVER, "link", "add", "up0", "type", "veth", "peer", "name", "up0", "netns", RELAY)
    run("ip", "-n", RELAY, "link", "add", "br0", "type", "bridge")
    run("ip", "-n", RELAY, "link", "set", "br0", "type", "bridge", "mcast_snooping", "0")
    for number, kind in enumerate(KINDS):
        port = f"c{number}"
        ends = ["type", "veth", "peer", "name", "eth0", "netns", kind.space]
        run("ip", "-n", RELAY, "link", "add", port, *ends)
        run("ip", "-n", RELAY, "link", "set", port, "master", "br0", "up")
        run("ip", "-n", kind.space, "link", "set", "eth0", "up")
    addresses = [(SERVER, "up0", "2001:db8:ffff::1"), (RELAY, "up0", "2001:db8:ffff::2"), (RELAY, "br0", "2001:db8:fffe::1")]
    for name, device, address in addresses:
        run("ip", "-n", name, "link", "set", device, "up")
        run("ip", "-n", name, "address", "add", f"{address}/64", "dev", device, "nodad")


def kill_all(name):
    found = subprocess.run(["ip", "netns", "pids", name], capture_output=True, text=True, check=False)
    for process in found.stdout.split():
        os.kill(int(process), signal.SIGKILL)


def take_away():
    for name in [SERVER, RELAY, *[kind.space for kind in KINDS]]:
        kill_all(name)
        subprocess.run(["ip", "netns", "delete", name], stderr=subprocess.DEVNULL, check=False)


def serve(node, folder):
    log = open(folder / "server.log", "a", encoding="utf-8")
    return subprocess.Popen(inside(SERVER, node, "serve", "--dir", folder / "server"), stdout=log, stderr=log)


def lines(folder):
    """The lines of events, each as its words without its number."""
    texts = [path.read_text() for path in sorted((folder / "server").glob("A-*.journal"))]
    return [line.split()[1:] for text in texts for line in text.splitlines() if re.match(r"\d+ \d+ ", line)]


def first_of_another(folder, known):
    """The first `grant` line of a client that isn't known yet, within fifteen seconds; None where there is none."""
    end = time.time() + 15
    while time.time() < end:
        found = [words for words in lines(folder) if words[1] == "grant" and words[2] not in known]
        if found:
            return found[0]
        time.sleep(0.2)
    return None


def trial(node, folder):
    (folder / "server").mkdir()
    (folder / "server" / "settings.toml").write_text(SETTINGS)
    server = serve(node, folder)
    time.sleep(3)
    relay_log = open(folder / "relay.log", "w", encoding="utf-8")
    relay = inside(RELAY, "dhcrelay", "-6", "-d", "-l", "br0", "-u", "2001:db8:ffff::1%up0")
    subprocess.Popen(relay, stdout=relay_log, stderr=relay_log)
    time.sleep(1)
    order = {}
    for kind in KINDS:
        known = [words[2] for words in lines(folder) if words[1] == "grant"]
        kind.start(folder)
        order[kind.name] = first_of_another(folder, known)
    kill_all(SERVER)
    server.wait()
    crashed = int(time.time() * 1000)
    time.sleep(2)
    serve(node, folder)
    time.sleep(LIFE * 1.6)
    run(*inside(SERVER, node, "stop", "--dir", folder / "server", "--close"))
    return order, crashed


def report(folder, order, crashed):
    """A row for each client; whether each kept its prefix, and renewed it behind the crash."""
    grants = [words for words in lines(folder) if words[1] == "grant"]
    print("| client | prefix | lines behind the crash | |\n|---|---|---|---|")
    are_well = True
    for kind in KINDS:
        first = order.get(kind.name)
        own = [words for words in grants if first and words[2:4] == first[2:4]]
        others = [words for words in grants if first and words[4] == first[4] and words not in own]
        renewed = [words for words in own if int(words[0]) > crashed]
        is_well = len(renewed) >= 2 and not others and all(words[4] == first[4] for words in own)
        are_well = are_well and is_well
        print(f"| {kind.name} | {first[4] if first else 'none'} | {len(renewed)} | {'kept' if is_well else 'LOST'} |")
    return are_well


def main():
    node = pathlib.Path(sys.argv[1] if len(sys.argv) > 1 else NODE).resolve()
    missing = [kind.program for kind in KINDS if not shutil.which(kind.program)]
    if missing:
        sys.exit(f"not installed: {' '.join(missing)}")
    folder = pathlib.Path(tempfile.mkdtemp())
    take_away()
    try:
        lay()
        order, crashed = trial(node, folder)
        are_well = report(folder, order, crashed)
    finally:
        take_away()
        shutil.rmtree(folder)
    sys.exit(0 if are_well else 1)


main()
