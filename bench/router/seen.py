"""What came and went at a client's card, as tshark reads it."""

from run import INFORMATION, REPLY, RELEASE, RENEW, options_of
from spaces import run

NAMES = {1: "SOLICIT", 2: "ADVERTISE", 3: "REQUEST", 4: "CONFIRM", 5: "RENEW", 6: "REBIND", 7: "REPLY", 8: "RELEASE",
         9: "DECLINE", 11: "INFORMATION-REQUEST"}
CLIENT, IDENTIFIERS, ASSOCIATIONS, OPTION_REQUEST, STATUS, IA_PD, IA_PREFIX = 1, (1, 2), (3, 4, 25), 6, 13, 25, 26
NO_BINDING = 3
FIELDS = ("frame.time_epoch", "udp.dstport", "udp.payload", "_ws.malformed", "_ws.expert.message")


class Packet:
    """A DHCPv6 message at a client's card, and what tshark says against it."""

    def __init__(self, line):
        moment, port, octets, *complaints = line.split("\t")
        self.moment, self.is_answer = float(moment), port == "546"
        octets = bytes.fromhex(octets)
        self.kind, self.transaction, self.options = octets[0], octets[1:4], options_of(octets[4:])
        self.complaints = " ".join(complaints).strip()

    def inner(self, wanted):
        """What its IA_PDs have of an option."""
        return [data for code, octets in self.options if code == IA_PD
                for within, data in options_of(octets[12:]) if within == wanted]

    def asked_codes(self):
        data = dict(self.options).get(OPTION_REQUEST, b"")
        return [int.from_bytes(data[place:place + 2], "big") for place in range(0, len(data), 2)]


def packets(kind):
    fields = [word for name in FIELDS for word in ("-e", name)]
    lines = run("tshark", "-r", kind.own / "pcap", "-Y", "dhcpv6", "-T", "fields", *fields).splitlines()
    return [Packet(line) for line in lines]


def exchange(questions, answers):
    """Messages of one transaction in words: `REBIND x3, no answer`, `REQUEST: REPLY`."""
    name = NAMES[questions[0].kind] + (f" x{len(questions)}" if len(questions) > 1 else "")
    if not answers:
        return f"{name}, no answer"
    refused = any(int.from_bytes(data[:2], "big") == NO_BINDING for packet in answers for data in packet.inner(STATUS))
    return f"{name}: {NAMES[answers[0].kind]}" + (" NoBinding" if refused else "")


def exchanges(found):
    words = []
    for transaction in dict.fromkeys(packet.transaction for packet in found if not packet.is_answer):
        own = [packet for packet in found if packet.transaction == transaction]
        words.append(exchange([packet for packet in own if not packet.is_answer],
                              [packet for packet in own if packet.is_answer]))
    return "; ".join(words) or "-"


def told(codes):
    return " ".join(map(str, sorted(set(codes)))) or "-"


class Seen:
    """What was seen of a client."""

    def __init__(self, kind):
        self.kind = kind
        self.packets = packets(kind)
        self.questions = [packet for packet in self.packets if not packet.is_answer]
        self.answers = [packet for packet in self.packets if packet.is_answer]
        self.complaints = [packet.complaints for packet in self.answers if packet.complaints]

    def answers_to(self, kind):
        """How many messages of a kind had a REPLY."""
        asked = {packet.transaction for packet in self.questions if packet.kind == kind}
        return len({packet.transaction for packet in self.answers if packet.kind == REPLY} & asked)

    def is_well(self):
        """Whether tshark reads all that it got, and it got what it wanted."""
        if self.kind.wants == "options":
            return not self.complaints and self.answers_to(INFORMATION) > 0
        return not self.complaints and any(packet.kind == REPLY and packet.inner(IA_PREFIX) for packet in self.answers)

    def row(self):
        sent = dict.fromkeys(NAMES[packet.kind] for packet in self.questions)
        associations = [code for packet in self.questions for code, _ in packet.options if code in ASSOCIATIONS]
        asked = [code for packet in self.questions for code in packet.asked_codes()]
        got = [code for packet in self.answers for code, _ in packet.options if code not in IDENTIFIERS]
        return [self.kind.name, ", ".join(sent), told(associations), told(asked), told(got),
                ", ".join(self.kind.installed) or "nothing", str(self.answers_to(RENEW)), str(self.answers_to(RELEASE))]

    def has_given_back(self, journal):
        """Whether a journal has a line by which it gave a prefix back."""
        names = {dict(packet.options)[CLIENT].hex() for packet in self.questions}
        return any(f" release {name} " in journal for name in names)

    def starts(self, moments, journal):
        """What it did at each start but the first two, and whether the last server's journal knows of it."""
        ends = [*moments[1:], self.packets[-1].moment + 1]
        words = [exchanges([packet for packet in self.packets if begin <= packet.moment < end and packet.kind != RENEW])
                 for begin, end in zip(moments, ends)]
        return [self.kind.name, *words, "yes" if self.has_given_back(journal) else "no"]
