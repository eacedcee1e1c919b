"""Frames of the link between two servers: values to octets, and pieces of a stream to values."""

from dataclasses import dataclass

from .values import NOBODY, NUMBER_LIMIT, is_prefix

UPDATE, REPLY, POOL_REQUEST, POOL_RESPONSE, UPDATE_REQUEST, UPDATE_REQUEST_ALL, UPDATE_DONE = range(1, 8)
CONNECT, CONNECT_REPLY, DISCONNECT, STATE, CONTACT = range(8, 13)
NUMBERED = (UPDATE, REPLY, CONTACT)
EMPTY = (POOL_REQUEST, UPDATE_REQUEST, UPDATE_REQUEST_ALL, UPDATE_DONE, DISCONNECT)

STATUSES = {"active": 1, "expired": 2, "released": 3, "backup": 4, "free": 5, "seized": 6}
VERDICTS = {"accept": 1, "reject": 2}
STATUS_NAMES = {code: name for name, code in STATUSES.items()}
VERDICT_NAMES = {code: name for name, code in VERDICTS.items()}
WITHOUT_CLIENT = ("backup", "free", "seized")
SHORTEST, LONGEST = 13, 512


class LinkFault(Exception):
    """Octets that are no frame: Length, Kind or Field."""

    def __init__(self, name):
        super().__init__(name)
        self.name = name


@dataclass(frozen=True)
class Frame:
    """One frame. Its body is that of the journal for numbered kinds, a tuple of numbers for the others."""

    kind: int
    term: int = 0
    serial: int = 0
    body: tuple = ()


KIND_OF_BODY = {"update": UPDATE, "reply": REPLY, "contact": CONTACT}


def message_frame(term, serial, body):
    """The frame that carries a journal's message."""
    return Frame(KIND_OF_BODY[body[0]], term, serial, body)


def prefix_octets(prefix):
    return bytes([prefix[1]]) + prefix[0].to_bytes(16, "big")


def numbers(*values):
    return b"".join(value.to_bytes(8, "big") for value in values)


def body_octets(frame):
    if frame.kind == UPDATE:
        _, status, prefix, mine, seen, end, identifier, client = frame.body
        head = bytes([STATUSES[status]]) + prefix_octets(prefix) + numbers(mine, seen, end)
        return head + identifier.to_bytes(4, "big") + bytes([len(client)]) + client
    if frame.kind == REPLY:
        _, verdict, prefix, answered, mine, seen = frame.body
        return bytes([VERDICTS[verdict]]) + prefix_octets(prefix) + numbers(answered, mine, seen)
    if frame.kind == CONTACT:
        return numbers(*frame.body[1:])
    if frame.kind == POOL_RESPONSE:
        return frame.body[0].to_bytes(4, "big")
    if frame.kind in (CONNECT, CONNECT_REPLY):
        return bytes([frame.body[0]]) + numbers(frame.body[1])
    return bytes(frame.body)


def encode(frame):
    rest = bytes([frame.kind]) + frame.term.to_bytes(4, "big") + frame.serial.to_bytes(8, "big") + body_octets(frame)
    return len(rest).to_bytes(4, "big") + rest


def number(octets):
    value = int.from_bytes(octets, "big")
    if len(octets) != 8 or value > NUMBER_LIMIT:
        raise LinkFault("Field")
    return value


def code(octet, values):
    if octet not in values:
        raise LinkFault("Field")
    return octet


def prefix_at(octets):
    prefix = (int.from_bytes(octets[1:17], "big"), octets[0])
    if not is_prefix(prefix):
        raise LinkFault("Field")
    return prefix


def sized(octets, length):
    if len(octets) != length:
        raise LinkFault("Field")
    return octets


def update_of(octets):
    if len(octets) < 47:
        raise LinkFault("Field")
    status = STATUS_NAMES[code(octets[0], STATUS_NAMES)]
    prefix = prefix_at(octets[1:18])
    mine, seen, end = number(octets[18:26]), number(octets[26:34]), number(octets[34:42])
    identifier, client = int.from_bytes(octets[42:46], "big"), octets[47:]
    if len(client) != octets[46] or (end != 0 and status != "active"):
        raise LinkFault("Field")
    if status in WITHOUT_CLIENT:
        if identifier != 0 or client != NOBODY:
            raise LinkFault("Field")
    elif not 3 <= len(client) <= 130:
        raise LinkFault("Field")
    return ("update", status, prefix, mine, seen, end, identifier, client)


def reply_of(octets):
    sized(octets, 42)
    verdict = VERDICT_NAMES[code(octets[0], VERDICT_NAMES)]
    return ("reply", verdict, prefix_at(octets[1:18]), number(octets[18:26]), number(octets[26:34]),
            number(octets[34:42]))


def body_of(kind, octets):
    if kind == UPDATE:
        return update_of(octets)
    if kind == REPLY:
        return reply_of(octets)
    if kind == CONTACT:
        sized(octets, 16)
        return ("contact", number(octets[:8]), number(octets[8:]))
    if kind == POOL_RESPONSE:
        return (int.from_bytes(sized(octets, 4), "big"),)
    if kind in (CONNECT, CONNECT_REPLY):
        sized(octets, 9)
        return (code(octets[0], (1, 2)), number(octets[1:]))
    if kind == STATE:
        return (code(sized(octets, 1)[0], (1, 2, 3)),)
    sized(octets, 0)
    return ()


def length_of(octets):
    length = int.from_bytes(octets[:4], "big")
    if len(octets) < 4 or not SHORTEST <= length <= LONGEST:
        raise LinkFault("Length")
    return length


def decode(octets):
    """One whole frame."""
    if len(octets) != 4 + length_of(octets):
        raise LinkFault("Length")
    kind = octets[4]
    if not UPDATE <= kind <= CONTACT:
        raise LinkFault("Kind")
    serial = int.from_bytes(octets[9:17], "big")
    body = body_of(kind, octets[17:])
    if not (1 <= serial <= NUMBER_LIMIT if kind in NUMBERED else serial == 0):
        raise LinkFault("Field")
    return Frame(kind, int.from_bytes(octets[5:9], "big"), serial, body)


class Feed:
    """Puts the pieces of a stream together; a fault leaves it as it was before the piece."""

    def __init__(self):
        self.rest = b""

    def feed(self, piece):
        octets = self.rest + piece
        found = []
        while len(octets) >= 4:
            end = 4 + length_of(octets)
            if len(octets) < end:
                break
            found.append(decode(octets[:end]))
            octets = octets[end:]
        self.rest = octets
        return found
