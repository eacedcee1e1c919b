#!/usr/bin/env python3
"""run.py [NODE [CAPTURES]]: what a client's router is told, read by tshark (apt-get install tshark).

NODE is the node's program, crates/node_cli/out/node_cli if not said. A daemon that is alone is given each of the settings beside prefixes;
it is asked by a SOLICIT, a REQUEST, a RENEW, a REBIND, a RELEASE and an INFORMATION-REQUEST, on the link and by a relay, and, where
CAPTURES is a folder of datagrams that genuine clients sent (NAME.hex), by each of these. What it answers goes through tshark, which has to
find nothing malformed in it, and is compared with what the settings say. Then the same with none of these settings: an INFORMATION-REQUEST
has no answer, and an answer has no other options than its identifiers, its status and its IA_PDs.
"""
import pathlib
import re
import socket
import struct
import subprocess
import sys
import tempfile
import time

HERE = pathlib.Path(__file__).resolve().parent
NODE = HERE.parent.parent / "crates" / "node_cli" / "out" / "node_cli"
PORT = 5491
SERVER = bytes.fromhex("00030001020000000009")
CLIENT = bytes.fromhex("00030001020000000001")
PLAIN = f"""role = "primary"
duid = "{SERVER.hex()}"
skew_ms = 2000
mclt = 3600
life = 3600
transit_ms = 2000
listen = "[::1]:{PORT}"
workers = 1
alone = true
client_rate = 0
[[pool]]
prefix = "2001:db8::/40"
unit = 56
"""
KEYS = """dns = ["2001:db8::53", "2001:db8::54"]
search = ["home.example.org", "example.org"]
sntp = ["2001:db8::123"]
information_refresh = 86400
preference = 255
unicast = "2001:db8::547"
rebind_unknown = "silent"
ia_na = "refuse"
"""
SOLICIT, ADVERTISE, REQUEST, RENEW, REBIND, REPLY, RELEASE, INFORMATION, RELAY = 1, 2, 3, 5, 6, 7, 8, 11, 12


def option(code, octets):
    return struct.pack(">HH", code, len(octets)) + octets


def asks(*codes):
    return option(6, b"".join(struct.pack(">H", code) for code in codes))


def ia_pd(iaid, prefix=b""):
    return option(25, struct.pack(">III", iaid, 0, 0) + prefix)


def message(kind, *options):
    return bytes([kind]) + b"\x0a\x0b\x0c" + b"".join(options)


def relayed(inner):
    return bytes([RELAY, 0]) + bytes(16) + socket.inet_pton(socket.AF_INET6, "fe80::1") + option(18, b"eth0") + option(9, inner)


def options_of(octets):
    """The options of a message or an IA_PD, in their order."""
    found = []
    while octets:
        code, length = struct.unpack_from(">HH", octets)
        found.append((code, octets[4:4 + length]))
        octets = octets[4 + length:]
    return found


def inside(octets):
    """The innermost message of an answer."""
    while octets[0] == 13:
        octets = dict(options_of(octets[34:]))[9]
    return octets


class Daemon:
    def __init__(self, node, folder, settings):
        self.folder = pathlib.Path(folder)
        self.folder.mkdir()
        (self.folder / "settings.toml").write_text(settings)
        self.notes = open(self.folder / "notes", "w+b")
        self.child = subprocess.Popen([node, "serve", "--dir", self.folder], stdin=subprocess.DEVNULL,
                                      stdout=subprocess.DEVNULL, stderr=self.notes)
        while not re.search(b"begins volume", (self.folder / "notes").read_bytes()):
            assert self.child.poll() is None, (self.folder / "notes").read_text()
            time.sleep(0.01)
        self.socket = socket.socket(socket.AF_INET6, socket.SOCK_DGRAM)
        self.socket.settimeout(1.0)
        self.answers = []

    def ask(self, octets):
        """The answer to a datagram, or None."""
        self.socket.sendto(octets, ("::1", PORT))
        try:
            answer = self.socket.recv(65_535)
        except TimeoutError:
            return None
        self.answers.append(answer)
        return answer

    def stop(self):
        self.child.terminate()
        self.child.wait()


def checksum(octets):
    octets += b"\0" * (len(octets) % 2)
    total = sum(struct.unpack(f">{len(octets) // 2}H", octets))
    while total >> 16:
        total = (total & 0xffff) + (total >> 16)
    return ~total & 0xffff or 0xffff


def dissected(answers, folder):
    """What tshark says of answers, as UDP over IPv6."""
    ours, theirs = (socket.inet_pton(socket.AF_INET6, address) for address in ("fe80::9", "fe80::1"))
    pcap = struct.pack("<IHHiIII", 0xa1b2c3d4, 2, 4, 0, 0, 65_535, 101)
    for answer in answers:
        to = 547 if answer[0] == 13 else 546
        udp = struct.pack(">HHHH", 547, to, 8 + len(answer), 0) + answer
        udp = udp[:6] + struct.pack(">H", checksum(ours + theirs + struct.pack(">II", len(udp), 17) + udp)) + udp[8:]
        packet = struct.pack(">IHBB", 6 << 28, len(udp), 17, 64) + ours + theirs + udp
        pcap += struct.pack("<IIII", 0, 0, len(packet), len(packet)) + packet
    path = pathlib.Path(folder) / "answers.pcap"
    path.write_bytes(pcap)
    return subprocess.run(["tshark", "-r", path, "-V"], check=True, capture_output=True, text=True).stdout


def given(octets):
    """The options of an answer that are no identifiers, no status and no IA_PD."""
    return [code for code, _ in options_of(inside(octets)[4:]) if code not in (1, 2, 13, 25)]


def main():
    node = pathlib.Path(sys.argv[1]) if len(sys.argv) > 1 else NODE
    captures = sorted(pathlib.Path(sys.argv[2]).glob("*.hex")) if len(sys.argv) > 2 else []
    client = option(1, CLIENT)
    server = option(2, SERVER)
    wants = asks(23, 24, 31, 32, 56, 82, 83)
    address = option(3, struct.pack(">III", 7, 0, 0))
    with tempfile.TemporaryDirectory() as folder:
        daemon = Daemon(node, f"{folder}/all", KEYS + PLAIN)
        try:
            advertised = daemon.ask(message(SOLICIT, client, wants, address, ia_pd(1)))
            assert given(advertised) == [7, 12, 23, 24, 31, 3], given(advertised)
            replied = daemon.ask(relayed(message(REQUEST, client, server, asks(24), ia_pd(1))))
            assert given(replied) == [12, 24], given(replied)
            prefix = option(26, dict(options_of(dict(options_of(inside(replied)[4:]))[25][12:]))[26])
            assert given(daemon.ask(message(RENEW, client, server, wants, ia_pd(1, prefix)))) == [12, 23, 24, 31]
            assert given(daemon.ask(message(REBIND, client, wants, ia_pd(1, prefix)))) == [12, 23, 24, 31]
            stranger = option(1, CLIENT[:-1] + b"\x77")
            assert daemon.ask(message(REBIND, stranger, wants, ia_pd(1, prefix))) is None
            renewed = daemon.ask(message(RENEW, stranger, server, ia_pd(1, prefix)))
            assert dict(options_of(dict(options_of(renewed[4:]))[25][12:]))[13] == b"\0\x03"
            informed = daemon.ask(message(INFORMATION, client, wants))
            assert given(informed) == [23, 24, 31, 32] and informed[0] == REPLY
            assert given(daemon.ask(relayed(message(INFORMATION, wants)))) == [23, 24, 31, 32]
            assert daemon.ask(message(INFORMATION, client, option(2, SERVER[:-1] + b"\x08"), wants)) is None
            assert daemon.ask(message(INFORMATION, client, wants, ia_pd(1))) is None
            assert given(daemon.ask(message(RELEASE, client, server, ia_pd(1, prefix)))) == [12]
            for capture in captures:
                lines = capture.read_text().splitlines()
                asked = bytes.fromhex("".join(line for line in lines if not line.startswith("#")))
                answer = daemon.ask(asked)
                kind = inside(answer)[0] if answer else None
                print(f"{capture.stem}: {kind} {given(answer) if answer else ''}")
            text = dissected(daemon.answers, folder)
            count = len(daemon.answers)
        finally:
            daemon.stop()
        bad = [line for line in text.splitlines() if re.search("[Mm]alformed|Expert Info", line)]
        assert not bad, bad
        for word in ("2001:db8::54", "home.example.org", "2001:db8::123", "86400", "NoAddrAvail", "2001:db8::547"):
            assert word in text, word
        plain = Daemon(node, f"{folder}/plain", PLAIN)
        try:
            assert given(plain.ask(message(SOLICIT, client, wants, address, ia_pd(1)))) == []
            assert plain.ask(message(INFORMATION, client, wants)) is None
            rebound = plain.ask(message(REBIND, client, wants, ia_pd(1, prefix)))
            assert dict(options_of(dict(options_of(rebound[4:]))[25][12:]))[13] == b"\0\x03"
        finally:
            plain.stop()
    print(f"{count} answers with all settings, each read by tshark; none malformed")


if __name__ == "__main__":
    main()
