"""DHCPv6 messages for prefix delegation: octets of clients and relays to values, answers to octets (RFC 8415)."""

from dataclasses import dataclass, field

SOLICIT, ADVERTISE, REQUEST, RENEW, REBIND, REPLY, RELEASE = 1, 2, 3, 5, 6, 7, 8
INFORMATION_REQUEST, RELAY_FORWARD, RELAY_REPLY = 11, 12, 13
CLIENT_KINDS = (SOLICIT, REQUEST, RENEW, REBIND, RELEASE)
KIND_NAMES = {SOLICIT: "SOLICIT", REQUEST: "REQUEST", RENEW: "RENEW", REBIND: "REBIND", RELEASE: "RELEASE",
              INFORMATION_REQUEST: "INFORMATION-REQUEST"}
KINDS_WITHOUT_SERVER = (SOLICIT, REBIND)

CLIENT_IDENTIFIER, SERVER_IDENTIFIER, IA_NA, IA_TA, OPTION_REQUEST, PREFERENCE, RELAY_MESSAGE = 1, 2, 3, 4, 6, 7, 9
SERVER_UNICAST, STATUS_CODE, INTERFACE_IDENTIFIER, DNS_SERVERS, SEARCH_LIST = 12, 13, 18, 23, 24
IA_PD, IA_PREFIX, SNTP_SERVERS, REFRESH_TIME, REMOTE_IDENTIFIER = 25, 26, 31, 32, 37
COUNTED_CODES = (CLIENT_IDENTIFIER, SERVER_IDENTIFIER, RELAY_MESSAGE, INTERFACE_IDENTIFIER)
COUNTED_CODES_OF_A_RELAY = COUNTED_CODES + (REMOTE_IDENTIFIER,)

LEAST_ADDRESS_LENGTHS = {IA_NA: 12, IA_TA: 4}

SUCCESS, NO_ADDRESSES_AVAILABLE, NO_BINDING, NO_PREFIX_AVAILABLE = 0, 2, 3, 6

MOST_RELAYS = 32
MOST_IAS = 16
LONGEST_ANSWER = 65_535


class Refused(Exception):
    """A message that isn't read; `name` says why."""

    def __init__(self, name):
        super().__init__(name)
        self.name = name


@dataclass
class Relay:
    hops: int
    link: bytes
    peer: bytes
    interface: bytes | None = None
    remote: bytes | None = None


@dataclass
class Association:
    """One IA_PD of a client: its identifier, and the prefixes (address, length) that it names and that can be read."""

    identifier: int
    prefixes: list = field(default_factory=list)

    @property
    def hint(self):
        """The first, which is the one that the client would like."""
        return self.prefixes[0] if self.prefixes else None


@dataclass
class ClientMessage:
    kind: int
    transaction: bytes
    relays: list = field(default_factory=list)
    client: bytes | None = None
    server: bytes | None = None
    associations: list = field(default_factory=list)
    addresses: list = field(default_factory=list)
    temporary: list = field(default_factory=list)
    wishes: frozenset = frozenset()


def options(octets, start):
    """The options from `start` on, each as code and data; a fault comes where the reading meets it."""
    place = start
    while place < len(octets):
        if len(octets) - place < 4:
            raise Refused("Short")
        code = int.from_bytes(octets[place:place + 2], "big")
        length = int.from_bytes(octets[place + 2:place + 4], "big")
        place += 4
        if len(octets) - place < length:
            raise Refused("OptionLength")
        yield code, octets[place:place + length]
        place += length


def count_once(code, met, counted):
    if code in counted:
        if code in met:
            raise Refused("DuplicateId")
        met.add(code)


def identifier_of(data):
    if not 3 <= len(data) <= 130:
        raise Refused("OptionLength")
    return data


def cleared(address, length):
    """The prefix of that length; the bits past it are cleared."""
    return (address >> (128 - length) << (128 - length), length)


def read_prefix(data):
    if len(data) < 25:
        raise Refused("OptionLength")
    if data[8] > 128:
        raise Refused("BadPrefixLength")
    return cleared(int.from_bytes(data[9:25], "big"), data[8])


def read_association(data):
    """An IA_PD: its first prefix has to be one; of those behind it what can't be read is passed over."""
    if len(data) < 12:
        raise Refused("OptionLength")
    association = Association(int.from_bytes(data[:4], "big"))
    for code, inner in options(data, 12):
        if code != IA_PREFIX:
            continue
        try:
            association.prefixes.append(read_prefix(inner))
        except Refused:
            if not association.prefixes:
                raise
    return association


def read_wishes(octets):
    """The codes of the option request, which is whole and one at most: asked behind the faults of all other options."""
    requests = [data for code, data in options(octets, 4) if code == OPTION_REQUEST]
    for number, data in enumerate(requests):
        if number > 0:
            raise Refused("DuplicateId")
        if len(data) % 2 != 0:
            raise Refused("OptionLength")
    data = requests[0] if requests else b""
    return frozenset(int.from_bytes(data[place:place + 2], "big") for place in range(0, len(data), 2))


def read_addresses(message, code, data):
    """An IA_NA or IA_TA by its identifier; one that is too short for its fixed part is passed over."""
    if len(data) >= LEAST_ADDRESS_LENGTHS[code]:
        found = message.addresses if code == IA_NA else message.temporary
        found.append(int.from_bytes(data[:4], "big"))


def read_client_message(octets):
    if len(octets) < 4:
        raise Refused("Short")
    message = ClientMessage(octets[0], octets[1:4])
    met = set()
    for code, data in options(octets, 4):
        count_once(code, met, COUNTED_CODES)
        if code == CLIENT_IDENTIFIER:
            message.client = identifier_of(data)
        elif code == SERVER_IDENTIFIER:
            message.server = identifier_of(data)
        elif code == IA_PD:
            if len(message.associations) == MOST_IAS:
                raise Refused("TooManyIas")
            message.associations.append(read_association(data))
        elif code in LEAST_ADDRESS_LENGTHS:
            read_addresses(message, code, data)
    message.wishes = read_wishes(octets)
    return message


def read_relay(octets, relays, kinds):
    if len(relays) == MOST_RELAYS:
        raise Refused("TooDeep")
    if len(octets) < 34:
        raise Refused("Short")
    relay = Relay(octets[1], octets[2:18], octets[18:34])
    relays.append(relay)
    message = None
    met = set()
    for code, data in options(octets, 34):
        count_once(code, met, COUNTED_CODES_OF_A_RELAY)
        if code == INTERFACE_IDENTIFIER:
            relay.interface = data
        elif code == REMOTE_IDENTIFIER:
            relay.remote = data
        elif code == RELAY_MESSAGE:
            message = read_level(data, relays, kinds)
    if message is None:
        raise Refused("Short")
    return message


def read_level(octets, relays, kinds):
    if not octets:
        raise Refused("Short")
    if octets[0] == RELAY_FORWARD:
        return read_relay(octets, relays, kinds)
    if octets[0] not in kinds:
        raise Refused("Ignored")
    return read_client_message(octets)


def judge_identifiers(message, own):
    if message.client is None:
        raise Refused("NoClientId")
    if message.kind in KINDS_WITHOUT_SERVER:
        if message.server is not None:
            raise Refused("ServerIdPresent")
        return
    if message.server is None:
        raise Refused("ServerIdMissing")
    if message.server != own:
        raise Refused("NotOurs")


def judge_information(message, own):
    """RFC 8415, section 16.12: it asks for options alone; whose it is it needn't say."""
    if message.associations or message.addresses or message.temporary:
        raise Refused("Ignored")
    if message.server not in (None, own):
        raise Refused("NotOurs")


def decode(octets, own, informs=False):
    """The client's message in a datagram, its relays outermost first; `own` is the server's identifier, and `informs`
    whether INFORMATION-REQUESTs are heard."""
    relays = []
    message = read_level(octets, relays, CLIENT_KINDS + ((INFORMATION_REQUEST,) if informs else ()))
    judge = judge_information if message.kind == INFORMATION_REQUEST else judge_identifiers
    judge(message, own)
    message.relays = relays
    return message


def option(code, data):
    return code.to_bytes(2, "big") + len(data).to_bytes(2, "big") + data


def status_option(code):
    return option(STATUS_CODE, code.to_bytes(2, "big"))


def prefix_option(prefix, preferred, valid):
    address, length = prefix
    return option(IA_PREFIX, preferred.to_bytes(4, "big") + valid.to_bytes(4, "big")
                  + bytes([length]) + address.to_bytes(16, "big"))


def association_option(identifier, answer):
    """The IA_PD of an answer: `("given", prefix, valid)`, `("no prefix",)` or `("no binding",)`."""
    head = identifier.to_bytes(4, "big")
    if answer[0] == "given":
        _, prefix, valid = answer
        times = (valid // 2).to_bytes(4, "big") + (4 * valid // 5).to_bytes(4, "big")
        return option(IA_PD, head + times + prefix_option(prefix, valid, valid))
    code = NO_PREFIX_AVAILABLE if answer[0] == "no prefix" else NO_BINDING
    return option(IA_PD, head + bytes(8) + status_option(code))


def refused_addresses(identifier):
    """The IA_NA of an answer that has no address (RFC 8415, section 18.3.2)."""
    return option(IA_NA, identifier.to_bytes(4, "big") + bytes(8) + status_option(NO_ADDRESSES_AVAILABLE))


def wrapped(answer, relay):
    """The answer inside a relay's reply; None where its length has no field to stand in."""
    if len(answer) > LONGEST_ANSWER:
        return None
    head = bytes([RELAY_REPLY, relay.hops]) + relay.link + relay.peer
    if relay.interface is not None:
        head += option(INTERFACE_IDENTIFIER, relay.interface)
    return head + option(RELAY_MESSAGE, answer)


def encode(message, own, answers, handed=(), refused=()):
    """The octets of the answer to `message`; None where they are too many.

    Of `answers` there is one per IA_PD, of which `("released",)` and `("nothing",)` aren't spoken of; `handed` are
    options beside prefixes, and `refused` the identifiers of IA_NAs.
    """
    octets = bytes([ADVERTISE if message.kind == SOLICIT else REPLY]) + message.transaction
    if message.client is not None:
        octets += option(CLIENT_IDENTIFIER, message.client)
    octets += option(SERVER_IDENTIFIER, own) + b"".join(option(code, data) for code, data in handed)
    if message.kind == RELEASE:
        octets += status_option(SUCCESS)
    octets += b"".join(refused_addresses(identifier) for identifier in refused)
    for association, answer in zip(message.associations, answers, strict=True):
        if answer[0] not in ("released", "nothing"):
            octets += association_option(association.identifier, answer)
    for relay in reversed(message.relays):
        octets = wrapped(octets, relay)
        if octets is None:
            return None
    return octets if len(octets) <= LONGEST_ANSWER else None
