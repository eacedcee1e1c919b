"""Datagrams drawn at random: what clients and relays send, and what nobody should."""

from . import messages
from .messages import option

SHORT_TIMES = (0, 1, 2, 7, 3600, 0xFFFFFFFF)
EDGE_LENGTHS = (0, 1, 2, 3, 4, 129, 130, 131, 200)
FOREIGN_CODES = (3, 4, 5, 7, 8, 14, 15, 16, 17, 20, 23, 37, 38, 39, 82, 83, 0, 255, 65_535)
WISHED_CODES = (messages.DNS_SERVERS, messages.SEARCH_LIST, messages.SNTP_SERVERS, messages.REFRESH_TIME)
OTHER_CODES = (0, 1, 3, 7, 12, 13, 21, 25, 39, 56, 82, 83, 6144, 65_535)
LARGEST_BY_IPV4 = 65_507
LARGEST_BY_IPV6 = 65_527


class Draws:
    """Draws datagrams for one server; `book` is a book from which held units are picked as hints."""

    def __init__(self, random, own, book, largest, clients=40, identifiers=4, faults=0.3):
        self.random = random
        self.own = own
        self.book = book
        self.largest = largest
        self.faults = faults
        self.count = 0
        self.clients = [self.octets(random.choice((3, 4, 10, 10, 14, 14, 18, 130))) for _ in range(clients)]
        self.releases = random.choice((1, 5, 20))
        self.identifiers = [random.getrandbits(32) for _ in range(identifiers - 1)] + [0xFFFFFFFF]

    def octets(self, length):
        return self.random.randbytes(length)

    def chance(self, part):
        return self.random.random() < part

    def amiss(self, part):
        """Whether to do something wrong or rare here."""
        return self.random.random() < part * self.faults

    def pick(self, *weighted):
        """One of the values, each preceded by its weight."""
        return self.random.choices(weighted[1::2], weighted[0::2])[0]

    def transaction(self):
        self.count += 1
        return (self.count & 0xFFFFFF).to_bytes(3, "big")

    def kind(self):
        if self.amiss(0.1):
            return self.random.randrange(256)
        return self.pick(30, messages.SOLICIT, 30, messages.REQUEST, 18, messages.RENEW, 14, messages.REBIND,
                         self.releases, messages.RELEASE, 12, messages.INFORMATION_REQUEST)

    def hint(self, client, identifier):
        """A prefix that the client might name: its own, another's, any unit, or none of these."""
        table = self.book.table
        held = table.held.get((client, identifier))
        if held and self.chance(0.75):
            return table.ordered[self.random.choice(sorted(held))].prefix
        way = self.pick(4, "unit", 2, "pool", 1, "any", 2, "inside")
        if way == "any":
            return (int.from_bytes(self.octets(16), "big"), self.random.randrange(160))
        if way == "pool":
            return self.random.choice(self.book.pools)[0]
        address, length = self.random.choice(table.ordered).prefix
        if way == "inside":
            address |= self.random.getrandbits(128) & ((1 << (128 - length)) - 1)
            length = self.pick(2, length, 1, 128, 1, self.random.randrange(129))
        return (address, length)

    def prefix_option(self, client, identifier):
        address, length = self.hint(client, identifier)
        data = b"".join(self.random.choice(SHORT_TIMES).to_bytes(4, "big") for _ in range(2))
        data += bytes([length]) + address.to_bytes(16, "big")
        if self.amiss(0.1):
            data = data[:self.random.randrange(26)]
        if self.chance(0.1):
            data += self.octets(self.random.randrange(8))
        return option(messages.IA_PREFIX, data)

    def foreign_option(self):
        """An option that the server passes over."""
        if self.amiss(0.05):
            return self.octets(self.random.randrange(1, 6))
        code = self.random.choice(FOREIGN_CODES)
        length = self.pick(8, self.random.randrange(12), 1, self.random.randrange(300))
        return option(code, self.octets(length))

    def association(self, client, kind):
        identifier = self.random.choice(self.identifiers)
        count = self.pick(2, 0, 4, 1, 5, 2, 3, 3, 1, 7) if kind == messages.RELEASE else self.pick(3, 0, 8, 1, 1, 2)
        parts = [self.prefix_option(client, identifier) for _ in range(count)]
        if self.chance(0.1):
            parts.append(self.foreign_option())
        if self.amiss(0.1):
            parts += [option(self.random.choice((1, 2, 9, 18, 25, 37)), self.octets(2))] * 2
        self.random.shuffle(parts)
        data = identifier.to_bytes(4, "big") + self.random.choice(SHORT_TIMES).to_bytes(4, "big") * 2
        data += b"".join(parts)
        if self.amiss(0.1):
            data = data[:self.random.randrange(len(data) + 1)]
        return option(messages.IA_PD, data)

    def associations(self, client, kind):
        count = self.pick(70, 1, 12, 2, 6, 3, 2, 5, 2, 16)
        if self.amiss(0.2):
            count = self.random.choice((0, 0, 15, 16, 17, 17, 18, 30))
        if kind == messages.INFORMATION_REQUEST:
            count = 1 if self.amiss(0.2) else 0
        return [self.association(client, kind) for _ in range(count)]

    def address_association(self):
        """An IA_NA, or an IA_TA, of which nothing behind the identifier matters; at times one that is too short."""
        code = self.pick(4, messages.IA_NA, 1, messages.IA_TA)
        data = self.random.choice(self.identifiers).to_bytes(4, "big") + self.octets(self.pick(6, 8, 1, 0, 2, 40))
        return option(code, data[:self.random.randrange(13)] if self.amiss(0.3) else data)

    def address_associations(self, kind):
        """None mostly; an INFORMATION-REQUEST may have none. At times so many that an answer hasn't room for all."""
        if self.amiss(0.01):
            return [option(messages.IA_NA, bytes(12))] * self.random.choice((2900, 2970, 3400))
        often = 0.1 * self.faults if kind == messages.INFORMATION_REQUEST else 0.25
        return [self.address_association() for _ in range(self.pick(6, 1, 2, 2, 1, 20))] if self.chance(often) else []

    def wishes(self):
        """The codes of an option request: those that may be handed out, others, some twice."""
        found = self.random.sample(WISHED_CODES, self.random.randrange(len(WISHED_CODES) + 1))
        found += self.random.choices(OTHER_CODES, k=self.pick(4, 0, 3, 2, 1, 9))
        if self.chance(0.2):
            found += self.random.choices(found or OTHER_CODES, k=self.pick(5, 2, 1, 300))
        self.random.shuffle(found)
        return b"".join(code.to_bytes(2, "big") for code in found)

    def option_requests(self):
        """What a client asks for: mostly one option request, at times of odd length or twice."""
        if self.chance(0.2):
            return []
        data = self.wishes()
        if self.amiss(0.05):
            data = (data + b"\0") if self.chance(0.5) else data[:-1]
        found = [option(messages.OPTION_REQUEST, data)]
        if self.amiss(0.05):
            found.append(self.random.choice((found[0], option(messages.OPTION_REQUEST, self.wishes()))))
        return found

    def identifier_options(self, kind, client):
        """The client's and the server's identifier, at times wrong, missing or twice."""
        found = [option(messages.CLIENT_IDENTIFIER, client)]
        if kind == messages.INFORMATION_REQUEST:
            return self.information_identifiers(found)
        if kind not in messages.KINDS_WITHOUT_SERVER or self.amiss(0.08):
            name = self.own
            if self.amiss(0.1):
                name = self.random.choice((name[:-1], name + b"\0", self.octets(10), self.octets(131)))
            found.append(option(messages.SERVER_IDENTIFIER, name))
        if self.amiss(0.1):
            del found[self.random.randrange(len(found))]
        if found and self.amiss(0.1):
            found.append(self.random.choice(found))
        return found

    def information_identifiers(self, found):
        """Both may be missing; the server's is at times another's."""
        if self.chance(0.3):
            found = []
        if self.chance(0.3):
            found.append(option(messages.SERVER_IDENTIFIER, self.octets(10) if self.amiss(0.5) else self.own))
        return found + found[:1] * self.amiss(0.1)

    def client(self):
        """A client's identifier, at times one that none should have, or the server's own."""
        if self.amiss(0.06):
            return self.octets(self.random.choice(EDGE_LENGTHS))
        if self.amiss(0.06):
            return self.own
        return self.random.choice(self.clients)

    def client_message(self):
        kind, client = self.kind(), self.client()
        parts = self.identifier_options(kind, client) + self.associations(client, kind)
        parts += self.address_associations(kind) + self.option_requests()
        parts += [self.foreign_option() for _ in range(self.pick(5, 0, 3, 1, 1, 3))]
        if self.amiss(0.06):
            parts += [option(self.random.choice((9, 18)), self.octets(3))] * self.random.choice((1, 1, 2))
        if self.chance(0.06):
            parts += [self.remote_option() for _ in range(self.random.choice((1, 1, 2)))]
        if self.chance(0.4):
            self.random.shuffle(parts)
        return bytes([kind]) + self.transaction() + b"".join(parts)

    def remote_option(self):
        """A remote identifier: mostly an enterprise's number and some octets, at times fewer or none."""
        length = self.pick(10, 4 + self.random.randrange(20), 3, 0, 2, self.random.randrange(5), 1, 300)
        return option(messages.REMOTE_IDENTIFIER, self.octets(length))

    def relay_options(self, inner):
        parts = [option(messages.RELAY_MESSAGE, inner)]
        if self.chance(0.5):
            length = self.pick(10, 4, 4, self.random.randrange(20), 1, 300)
            parts.append(option(messages.INTERFACE_IDENTIFIER, self.octets(length)))
        if self.chance(0.4):
            parts.append(self.remote_option())
        if self.amiss(0.06):
            parts += [self.remote_option()] * self.random.choice((1, 2))
        if self.chance(0.2):
            code = self.random.choice((1, 2, 25, 26, 38, 79))
            parts.append(option(code, self.octets(self.random.choice(EDGE_LENGTHS))))
        if self.amiss(0.08):
            parts.append(self.random.choice(parts))
        if self.amiss(0.04):
            del parts[self.random.randrange(len(parts))]
        if self.amiss(0.04):
            parts.append(self.foreign_option())
        self.random.shuffle(parts)
        return b"".join(parts)

    def relayed(self, inner):
        if self.amiss(0.02):
            inner = b""
        head = bytes([messages.RELAY_FORWARD, self.random.randrange(256)]) + self.octets(32)
        if self.amiss(0.03):
            return head[:self.random.randrange(1, 35)]
        return head + self.relay_options(inner)

    def message(self, kind, client, wanted):
        """A client's message with these IA_PDs: each an identifier and the prefixes that it names, or None for one."""
        parts = [option(messages.CLIENT_IDENTIFIER, client)]
        for identifier, *prefixes in wanted:
            data = identifier.to_bytes(4, "big") + bytes(8) + b"".join(map(prefix_named, prefixes))
            parts.append(option(messages.IA_PD, data))
        if kind != messages.REBIND:
            parts.append(option(messages.SERVER_IDENTIFIER, self.own))
        return bytes([kind]) + self.transaction() + b"".join(parts)

    def depth(self):
        if self.amiss(0.1):
            return self.random.choice((31, 32, 33, 33, 34, 40))
        return self.pick(60, 0, 22, 1, 10, 2, 4, 3, 2, self.random.randrange(33), 1, 32)

    def mutated(self, octets):
        """The octets with one part changed, taken out, put in or repeated."""
        octets = bytearray(octets)
        place = self.random.randrange(len(octets) + 1)
        end = min(len(octets), place + self.random.choice((1, 1, 1, 2, 4, 16)))
        way = self.random.randrange(7)
        if way == 0 and place < len(octets):
            octets[place] ^= 1 << self.random.randrange(8)
        elif way == 1 and place < len(octets):
            octets[place] = (octets[place] + self.random.choice((1, 255))) % 256
        elif way == 2:
            del octets[place:end]
        elif way == 3:
            octets[place:place] = self.octets(end - place)
        elif way == 4:
            octets[place:place] = octets[place:end]
        elif way == 5:
            del octets[place:]
        else:
            octets += self.octets(self.random.randrange(1, 6))
        return bytes(octets)

    def large(self):
        """A datagram of a size at the edge of what a datagram can be."""
        size = self.largest - self.random.choice((0, 0, 1, 4, 70, 100, 130, 200, 1000))
        inner = self.client_message()
        if self.chance(0.5):
            head = bytes([messages.RELAY_FORWARD, 0]) + self.octets(32) + option(messages.RELAY_MESSAGE, inner)
            code = self.random.choice((messages.INTERFACE_IDENTIFIER, messages.INTERFACE_IDENTIFIER,
                                       messages.REMOTE_IDENTIFIER))
        else:
            head, code = inner, self.random.choice((16, messages.OPTION_REQUEST))
        length = size - len(head) - 4
        return head + option(code, self.octets(length)) if length >= 0 else head

    def datagram(self):
        """One datagram, with a word on how it was made."""
        if self.amiss(0.01):
            return b"", "empty"
        if self.amiss(0.01):
            return self.octets(self.random.randrange(1, 80)), "noise"
        if self.amiss(0.01):
            return self.large()[:self.largest], "large"
        octets, name = self.client_message(), "direct"
        for _ in range(self.depth()):
            if len(octets) < 60_000:
                octets, name = self.relayed(octets), "relayed"
        if self.amiss(0.4):
            for _ in range(self.random.choice((1, 1, 1, 2, 3))):
                octets = self.mutated(octets)
            name = "mutated"
        return octets[:self.largest], name

    def sentinel(self):
        """A message that is always answered."""
        octets = bytes([messages.SOLICIT]) + self.transaction() + option(messages.CLIENT_IDENTIFIER, b"sentinel")
        return octets + option(messages.IA_PD, bytes(12))


def prefix_named(prefix):
    """The option by which a client names a prefix; nothing where it names none."""
    if prefix is None:
        return b""
    address, length = prefix
    return option(messages.IA_PREFIX, bytes(8) + bytes([length]) + address.to_bytes(16, "big"))
