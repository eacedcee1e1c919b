#!/usr/bin/env python3
"""run.py [NODE [FOLDER]]: what a daemon takes that tells nothing before it is on the disk, over the loopback address.

NODE is the node's program, crates/node_cli/out/node_cli if not said; the volumes lie in FOLDER (a temporary one if not said), so that
another disk can be asked. The daemon is alone (`alone = true`). In this order: exchanges of bench/node's asker (a SOLICIT, its ADVERTISE,
a REQUEST and its REPLY, 16 at a time) with `serve`, with `run`, which keeps its journal in memory, and with a program that has no book
and syncs each answer by itself (plain.rs), runs of each in turn and the best of each; the time from a datagram to its answer, one client
after another with 3 to 43 ms between; and over a volume of 200,000 lines that a kill left: the start, and the memory; and over one in
which each of 65,536 units is delegated: the start, and the roll, beside a client that asks all the time. Then the exchanges with the
primary of a pair, both servers on this machine, beside those with a server that is alone; and a start over three volumes of 200,000
lines each whose partner has answered none.
"""
import os
import pathlib
import random
import re
import shutil
import signal
import socket
import statistics
import subprocess
import sys
import tempfile
import time

HERE = pathlib.Path(__file__).resolve().parent
NODE = HERE.parent.parent / "crates" / "node_cli" / "out" / "node_cli"
CLIENTS, RUNS, SINGLE, LINES, UNITS = 4_000, 5, 400, 200_000, 65_536
PORT, LINK, TRANSIT = 5479, 5481, 2000
# How many lines a first volume begins with, before its first grant.
HEAD = 3
SERVER, SECOND = "00030001020000000009", "0003000102000000000a"
# No quota and no rate: a few clients ask as fast as they can.
UNLIMITED = "ias_per_message = 0\nunits_per_client = 0\nunits_per_port = 0\nclient_rate = 0\n"
SETTINGS = f"""role = "primary"
duid = "{SERVER}"
skew_ms = 2000
mclt = 3600
life = 3600
transit_ms = {TRANSIT}
listen = "127.0.0.1:{PORT}"
workers = 1
[[pool]]
prefix = "2001:db8::/40"
unit = 56
"""
SOLICIT, REQUEST, RENEW = 1, 3, 5


def built(source, folder):
    program = pathlib.Path(folder) / source.parent.name / source.stem
    program.parent.mkdir(exist_ok=True)
    subprocess.run(["rustc", "--edition", "2021", "-O", "-o", program, source], check=True)
    return program


def directory(folder):
    """A new directory of a server that is alone."""
    shutil.rmtree(folder, ignore_errors=True)
    folder.mkdir(parents=True)
    (folder / "settings.toml").write_text("alone = true\nvolume_lines = 1000000\nrenew_floor = 0\n" + UNLIMITED + SETTINGS)
    return folder


class Served:
    """A daemon of a directory: since it said with what it serves, and until it is told to stop."""

    # All that were started, so that none is left behind.
    children = []

    def __init__(self, node, folder):
        self.node, self.folder = node, folder
        self.notes = open(folder / "notes", "w+b")
        begun = time.perf_counter()
        streams = {"stdin": subprocess.DEVNULL, "stdout": subprocess.DEVNULL, "stderr": self.notes}
        self.child = subprocess.Popen([node, "serve", "--dir", folder], **streams)
        self.children.append(self.child)
        while not re.search(b"(goes on with|begins) volume", (folder / "notes").read_bytes()):
            assert self.child.poll() is None, (folder / "notes").read_text()
            time.sleep(0.001)
        self.start = time.perf_counter() - begun

    def memory(self, name):
        """Octets, by the kernel's count of that name."""
        rows = pathlib.Path(f"/proc/{self.child.pid}/status").read_text().splitlines()
        return next(int(row.split()[1]) for row in rows if row.startswith(name)) * 1024

    def tell(self, *words):
        """How long it took to do what it was told."""
        begun = time.perf_counter()
        subprocess.run([self.node, *words, "--dir", self.folder], check=True, stdout=subprocess.DEVNULL)
        return time.perf_counter() - begun

    def stop(self):
        """The processor seconds of its whole run."""
        self.tell("stop")
        _, status, used = os.wait4(self.child.pid, 0)
        assert status == 0, status
        return used.ru_utime + used.ru_stime

    def kill(self):
        self.child.send_signal(signal.SIGKILL)
        self.child.wait()


def asked(asker, clients):
    """Seconds of all exchanges; each answer has 143 octets."""
    done = subprocess.run([asker, str(PORT), str(clients)], stdout=subprocess.PIPE, check=True)
    microseconds, octets = map(int, done.stdout.split())
    assert octets == 2 * clients * 143, octets
    return microseconds / 1e6


def by_serve(node, folder, asker, clients):
    served = Served(node, directory(folder))
    seconds = asked(asker, clients)
    processor = served.stop()
    assert (folder / "A-0000001.journal").read_bytes().count(b" grant ") == clients
    return seconds, processor


def by_child(words, asker, clients):
    """The same of a program that ends by itself behind two datagrams of each client."""
    with tempfile.TemporaryFile() as given, tempfile.TemporaryFile() as taken:
        given.write(SETTINGS.encode())
        given.seek(0)
        child = subprocess.Popen([*words], stdin=given, stdout=taken, stderr=subprocess.PIPE)
        Served.children.append(child)
        assert b"listens" in child.stderr.readline()
        seconds = asked(asker, clients)
        _, status, used = os.wait4(child.pid, 0)
        assert status == 0, status
        return seconds, used.ru_utime + used.ru_stime


def measure_exchanges(node, folder, asker, plain):
    """Prints exchanges a second, and the processor time of one without that of a run of a single one."""
    ways = {
        "serve": lambda count: by_serve(node, folder, asker, count),
        "run": lambda count: by_child([node, "run", "--count", str(2 * count)], asker, count),
        "plain": lambda count: by_child([plain, str(PORT), str(2 * count), folder / "plain"], asker, count),
    }
    least = {name: [] for name in ways}
    for _ in range(RUNS):
        for name, way in ways.items():
            directory(folder)
            alone = way(1)[1]
            seconds, processor = way(CLIENTS)
            least[name].append((seconds, processor - alone))
    best = {name: [min(part) / CLIENTS * 1e6 for part in zip(*runs)] for name, runs in least.items()}
    for name, (elapsed, processor) in best.items():
        print(f"{name}: {1e6 / elapsed:,.0f} exchanges a second, {processor:.1f} processor microseconds each")
    for other in ["run", "plain"]:
        ratios = [ours / theirs for ours, theirs in zip(best["serve"], best[other])]
        print(f"serve : {other} {ratios[0]:.2f} (time), {ratios[1]:.2f} (processor)", flush=True)


def pair(folder):
    """The folders of a primary and a secondary that are new."""
    both = []
    for role, listen, address, number in [("primary", PORT, LINK, SERVER), ("secondary", PORT + 1, LINK, SECOND)]:
        own = folder / role
        directory(own)
        settings = SETTINGS.replace('role = "primary"', f'role = "{role}"').replace(str(PORT), str(listen)).replace(SERVER, number)
        (own / "settings.toml").write_text(f'link = "127.0.0.1:{address}"\nlink_key = "none"\nvolume_lines = 1000000\n' + UNLIMITED + settings)
        both.append(own)
    return both


def processor(served):
    """Processor seconds of a server's one thread so far."""
    return int(pathlib.Path(f"/proc/{served.child.pid}/schedstat").read_text().split()[0]) / 1e9


def rests(folder):
    """Waits until a volume grows no more: half of the units have gone to the secondary."""
    volume, before = folder / "A-0000001.journal", -1
    while volume.stat().st_size != before:
        before = volume.stat().st_size
        time.sleep(1.5)


def by_servers(asker, servers):
    """Seconds of so many exchanges with the first of these servers, and the processor seconds of each."""
    before = [processor(served) for served in servers]
    seconds = asked(asker, CLIENTS)
    time.sleep(0.5)
    return [seconds, *(processor(served) - earlier for served, earlier in zip(servers, before))]


def by_pair(node, folder, asker):
    first, second = pair(folder)
    secondary, primary = Served(node, second), Served(node, first)
    while not re.search(b"is connected with its partner", (first / "notes").read_bytes()):
        time.sleep(0.01)
    rests(first)
    found = by_servers(asker, [primary, secondary])
    secondary.stop()
    primary.stop()
    return found


def by_one(node, folder, asker):
    served = Served(node, directory(folder))
    found = by_servers(asker, [served])
    served.stop()
    return found


def measure_pair(node, folder, asker):
    """Prints exchanges with the primary of a pair, once half of the units are the secondary's, beside those with a server that is alone."""
    found = {"alone": [], "pair": []}
    for _ in range(RUNS):
        for name, way in {"alone": by_one, "pair": by_pair}.items():
            found[name].append(way(node, folder, asker))
    best = {name: [min(part) / CLIENTS * 1e6 for part in zip(*runs)] for name, runs in found.items()}
    print(f"pair: {1e6 / best['pair'][0]:,.0f} exchanges a second, {best['pair'][1]:.1f} processor microseconds each at the primary, "
          f"{best['pair'][2]:.1f} at the secondary")
    print(f"alone: {1e6 / best['alone'][0]:,.0f} exchanges a second, {best['alone'][1]:.1f} processor microseconds each")
    print(f"pair : alone {best['pair'][0] / best['alone'][0]:.2f} (time), {best['pair'][1] / best['alone'][1]:.2f} (processor)", flush=True)


def option(code, body):
    return code.to_bytes(2, "big") + len(body).to_bytes(2, "big") + body


def message(kind, number):
    """A client's message as the asker's, in a RELAY-FORW; of a RENEW with the prefix that the client has in a written volume."""
    lease = option(26, bytes(8) + bytes([56]) + prefix_of(number)) if kind == RENEW else b""
    content = option(1, bytes.fromhex(duid(number))) + (b"" if kind == SOLICIT else option(2, bytes.fromhex(SERVER)))
    inner = bytes([kind]) + number.to_bytes(4, "big")[1:] + content + option(8, bytes(2)) + option(25, bytes([0, 0, 0, 1]) + bytes(8) + lease)
    return bytes([12, 0]) + bytes(31) + b"\1" + option(18, b"GigabitEthernet0/0/1.100") + option(9, inner)


def duid(number):
    return f"000300010201{number:08x}"


def prefix_of(number):
    return bytes.fromhex("20010db8") + bytes([0, number >> 8, number & 255]) + bytes(9)


def waited(stream, datagram):
    """Seconds until the answer."""
    begun = time.perf_counter()
    stream.send(datagram)
    stream.recv(65535)
    return time.perf_counter() - begun


def client_socket():
    stream = socket.socket(socket.AF_INET, socket.SOCK_DGRAM)
    stream.connect(("127.0.0.1", PORT))
    stream.settimeout(10)
    return stream


def times_of(dice):
    """How long each of a few clients waits for its offer, and for its lease."""
    found = {SOLICIT: [], REQUEST: []}
    with client_socket() as stream:
        for number in range(SINGLE):
            for kind, times in found.items():
                time.sleep(dice.uniform(0.003, 0.043))
                times.append(waited(stream, message(kind, number)))
    return found


def said(times):
    ordered = sorted(1e3 * each for each in times)
    return f"{statistics.median(ordered):.2f} ms, {ordered[len(ordered) * 99 // 100]:.2f} ms for 99 %"


def measure_waiting(node, folder, plain):
    """Prints the time from a datagram to its answer where little is asked."""
    dice = random.Random(1)
    served = Served(node, directory(folder))
    ours = times_of(dice)
    served.stop()
    child = subprocess.Popen([plain, str(PORT), str(2 * SINGLE), folder / "plain"], stderr=subprocess.PIPE)
    child.stderr.readline()
    theirs = times_of(dice)
    child.wait()
    for name, found in [("serve", ours), ("plain", theirs)]:
        print(f"{name}: an offer within {said(found[SOLICIT])}; a lease within {said(found[REQUEST])}")
    ratio = statistics.median(ours[REQUEST]) / statistics.median(theirs[REQUEST])
    print(f"serve : plain {ratio:.2f} (time of a lease, median)", flush=True)


def write_volume(folder, lines, clients):
    """A first volume that goes on: so many lines, each client's first grant and then its renewals in turn, up to some minutes ago."""
    begun = time.time_ns() // 1_000_000 - 600_000
    rows = [f"1 {begun} open 2000 3600 3600", f"2 {begun} pool 2001:0db8:0000:0000:0000:0000:0000:0000/40 56"]
    rows.append(f"{HEAD} {begun} transit {TRANSIT}")
    for number in range(HEAD + 1, lines + 1):
        place = (number - HEAD - 1) % clients
        digits = prefix_of(place).hex()
        unit = ":".join(digits[at : at + 4] for at in range(0, 32, 4))
        rows.append(f"{number} {begun + number // 1000} grant {duid(place)} 00000001 {unit}/56 3600")
    (folder / "A-0000001.journal").write_text("\n".join(["pd-journal 1 A", *rows, ""]))


def measure_start(node, folder, lines, clients):
    """Prints the start over a volume that goes on, the best of a few, each behind a kill; gives the last one, which runs."""
    write_volume(directory(folder), lines, clients)
    starts = []
    for turn in range(RUNS):
        served = Served(node, folder)
        starts.append(served.start)
        with client_socket() as stream:
            first = waited(stream, message(RENEW, 1))
        if turn + 1 < RUNS:
            served.kill()
    octets = (folder / "A-0000001.journal").stat().st_size
    print(f"start over {lines:,} lines of {clients:,} units ({octets / 1e6:.0f} MB): {min(starts):.2f} s, the first answer {1e3 * first:.1f} ms "
          f"later; memory {served.memory('VmRSS') >> 20} MiB, {served.memory('VmHWM') >> 20} MiB at the peak", flush=True)
    return served


def add_lines(path, lines, clients):
    """Lets a volume that goes on have so many lines: the leases of its head are renewed in turn."""
    last = path.read_text().splitlines()[-1].split()
    number, reading = int(last[0]), int(last[1])
    rows = []
    while number < lines:
        number += 1
        place = number % clients
        digits = prefix_of(place).hex()
        unit = ":".join(digits[at : at + 4] for at in range(0, 32, 4))
        rows.append(f"{number} {reading} grant {duid(place)} 00000001 {unit}/56 3600")
    with open(path, "a") as volume:
        volume.write("".join(row + "\n" for row in rows))


def measure_older(node, folder, lines, clients):
    """Prints the start over three volumes, none of which the partner has answered: it reads them all."""
    own = pair(folder)[0]
    settings = (own / "settings.toml").read_text()
    write_volume(directory(own), lines, clients)
    # A server that is alone waits for nobody.
    for volume in [2, 3]:
        served = Served(node, own)
        served.tell("roll")
        served.stop()
        add_lines(own / f"A-{volume:07}.journal", lines, clients)
    (own / "settings.toml").write_text(settings)
    starts = []
    for _ in range(RUNS):
        served = Served(node, own)
        starts.append(served.start)
        peak = served.memory("VmHWM")
        served.kill()
    octets = sum(path.stat().st_size for path in own.glob("*.journal"))
    print(f"start over three volumes of {lines:,} lines each ({octets / 1e6:.0f} MB): {min(starts):.2f} s; memory {peak >> 20} MiB at the peak",
          flush=True)


def measure_roll(node, folder, served):
    """Prints how long a roll takes at so many units, and the longest that a client waits meanwhile, who asks all the time."""
    teller = subprocess.Popen([node, "roll", "--dir", folder], stdout=subprocess.DEVNULL)
    begun, took, longest = time.perf_counter(), None, 0.0
    with client_socket() as stream:
        while took is None or time.perf_counter() < begun + took + 0.2:
            longest = max(longest, waited(stream, message(RENEW, 1)))
            if took is None and teller.poll() is not None:
                took = time.perf_counter() - begun
    assert teller.returncode == 0, teller.returncode
    head = (folder / "A-0000002.journal").stat().st_size
    print(f"roll at {UNITS:,} units: {took:.2f} s until it is said, {longest:.2f} s the longest wait for an answer; the next volume begins "
          f"with {head / 1e6:.0f} MB; memory {served.memory('VmRSS') >> 20} MiB, {served.memory('VmHWM') >> 20} MiB at the peak", flush=True)


def main():
    node = pathlib.Path(sys.argv[1] if len(sys.argv) > 1 else NODE).resolve()
    with tempfile.TemporaryDirectory() as temporary:
        folder = pathlib.Path(sys.argv[2] if len(sys.argv) > 2 else temporary).resolve() / "served"
        asker, plain = built(HERE.parent / "node" / "asker.rs", temporary), built(HERE / "plain.rs", temporary)
        try:
            measure_exchanges(node, folder, asker, plain)
            measure_waiting(node, folder, plain)
            measure_start(node, folder, LINES, 10_000).stop()
            served = measure_start(node, folder, UNITS + HEAD, UNITS)
            measure_roll(node, folder, served)
            served.stop()
            measure_pair(node, folder, asker)
            measure_older(node, folder, LINES, 10_000)
        finally:
            for child in Served.children:
                if child.returncode is None and child.poll() is None:
                    child.kill()
                    child.wait()
            shutil.rmtree(folder, ignore_errors=True)


if __name__ == "__main__":
    main()
