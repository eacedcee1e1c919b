"""The network namespaces of a live trial, their links, and what is started in them over files of its own."""

import contextlib
import os
import pathlib
import re
import shutil
import signal
import subprocess

from clients import KINDS, RELAYS, SERVER

FILTER = pathlib.Path(__file__).resolve().parents[2] / "packaging" / "nftables" / "multicast.nft"
SERVER_SPACE, SERVER_FOR_RELAYS = "fengtuyas-server", "2001:db8:fffd::1"
# Of these folders under /var/lib, and of /etc, each client has its own.
KEPT = ("dhcp", "dhcpcd", "dhcpv6", "dibbler")
NO_CONCERN = shutil.ignore_patterns("*shadow*", "ssh", "ssl", "sudoers*")


def run(*words, **options):
    return subprocess.run([str(word) for word in words], check=True, capture_output=True, text=True, **options).stdout


def inside(name, *words):
    return ["ip", "netns", "exec", name, *[str(word) for word in words]]


def relay_space(relay):
    return f"fengtuyas-r-{relay}"


def link_address(relay):
    """The relay's address on its client's link."""
    return f"2001:db8:fff{1 + list(RELAYS).index(relay)}::1"


def up_address(relay):
    """The relay's address on the server's link."""
    return f"2001:db8:fffd::1{1 + list(RELAYS).index(relay)}"


def spaces():
    return [SERVER_SPACE, *map(relay_space, RELAYS), *(kind.space for kind in KINDS)]


def join(one, device, other, its, bridge=None):
    """A link between two namespaces, one end perhaps in a bridge."""
    run("ip", "-n", one, "link", "add", device, "type", "veth", "peer", "name", its, "netns", other)
    run("ip", "-n", one, "link", "set", device, *(["master", bridge] if bridge else []), "up")
    run("ip", "-n", other, "link", "set", its, "up")


def number_card(name, device, address):
    run("ip", "-n", name, "address", "add", f"{address}/64", "dev", device, "nodad")


def lay_server():
    """A bridge for clients, where the filter hands the server what comes to ff02::1:2, and one for relays."""
    for bridge, address in (("br0", SERVER), ("br1", SERVER_FOR_RELAYS)):
        run("ip", "-n", SERVER_SPACE, "link", "add", bridge, "type", "bridge", "mcast_snooping", "0")
        run("ip", "-n", SERVER_SPACE, "link", "set", bridge, "up")
        number_card(SERVER_SPACE, bridge, address)
    rules = FILTER.read_text()
    for name, value in (("clients", '"br0"'), ("server", SERVER)):
        rules = re.sub(f"(?m)^define {name} = .*$", f"define {name} = {value}", rules)
    run(*inside(SERVER_SPACE, "nft", "-f", "-"), input=rules)


def lay_relay(number, relay):
    space, address = relay_space(relay), up_address(relay)
    join(SERVER_SPACE, f"r{number}", space, "up0", "br1")
    number_card(space, "up0", address)
    run("ip", "-n", space, "route", "add", f"{SERVER}/128", "via", SERVER_FOR_RELAYS)
    run("ip", "-n", SERVER_SPACE, "route", "add", f"{link_address(relay)}/64", "via", address)


def lay_client(number, kind):
    """A client's card, and a second one for its own network."""
    if kind.relay is None:
        join(SERVER_SPACE, f"c{number}", kind.space, "eth0", "br0")
    else:
        join(relay_space(kind.relay), "down0", kind.space, "eth0")
        number_card(relay_space(kind.relay), "down0", link_address(kind.relay))
    join(kind.space, "lan0", kind.space, "lan1")


def lay():
    for name in spaces():
        run("ip", "netns", "add", name)
        run(*inside(name, "ip", "link", "set", "lo", "up"))
    lay_server()
    for number, relay in enumerate(RELAYS, 1):
        lay_relay(number, relay)
    for number, kind in enumerate(KINDS):
        lay_client(number, kind)


def processes(name):
    found = subprocess.run(["ip", "netns", "pids", name], capture_output=True, text=True, check=False)
    return [int(process) for process in found.stdout.split()]


def kill_all(name, *spared):
    """Kills what runs in a namespace, but for these processes."""
    for process in processes(name):
        if process not in spared:
            with contextlib.suppress(ProcessLookupError):
                os.kill(process, signal.SIGKILL)


def take_away():
    for name in spaces():
        kill_all(name)
        subprocess.run(["ip", "netns", "delete", name], stderr=subprocess.DEVNULL, check=False)


def room(folder, name, files):
    """A folder with a copy of /etc, whose resolv.conf names nobody, and empty folders for what is kept."""
    own = folder / name
    shutil.copytree("/etc", own / "etc", symlinks=True, ignore=NO_CONCERN)
    (own / "etc" / "resolv.conf").unlink()
    (own / "etc" / "resolv.conf").write_text("# nobody\n")
    for file, text in files.items():
        (own / "etc" / file).parent.mkdir(parents=True, exist_ok=True)
        (own / "etc" / file).write_text(text)
    for kept in KEPT:
        (own / kept).mkdir()
    return own


def shell(own, line):
    """The line as a command over the copies."""
    binds = [f"mount --bind {own}/etc /etc", "mount -t tmpfs none /run"]
    binds += [f"mkdir -p /var/lib/{kept} && mount --bind {own}/{kept} /var/lib/{kept}" for kept in KEPT]
    return ["sh", "-c", " && ".join([*binds, line.replace("OWN", str(own))])]


def start(space, own, line):
    log = open(own / "log", "a", encoding="utf-8")
    streams = {"stdin": subprocess.DEVNULL, "stdout": log, "stderr": log}
    return subprocess.Popen(inside(space, *shell(own, line)), cwd=own, **streams)


def start_relay(folder, relay):
    _, files, line = RELAYS[relay]
    own = room(folder, f"relay-{relay}", files)
    start(relay_space(relay), own, line.replace("LINK", link_address(relay)).replace("UP", up_address(relay)))


def capture(kind):
    """Keeps what comes and goes at a client's card."""
    words = ["dumpcap", "-q", "-i", "eth0", "-f", "udp port 546 or udp port 547", "-w", kind.own / "pcap"]
    return subprocess.Popen(inside(kind.space, *words), stdout=subprocess.DEVNULL, stderr=subprocess.DEVNULL)
