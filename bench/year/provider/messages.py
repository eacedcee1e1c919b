"""What routers say and are told, in octets (RFC 8415), each behind one relay with an interface and a remote identifier."""
import struct

SOLICIT, ADVERTISE, REQUEST, RENEW, REBIND, REPLY, RELEASE = 1, 2, 3, 5, 6, 7, 8
CLIENT_ID, SERVER_ID, RELAY_MESSAGE, STATUS, INTERFACE_ID, IA_PD, IA_PREFIX, REMOTE_ID = 1, 2, 9, 13, 18, 25, 26, 37
RELAY_FORWARD, RELAY_REPLY = 12, 13
ENTERPRISE = 9
HEADER = struct.Struct(">HH")


def option(code, data):
    return HEADER.pack(code, len(data)) + data


def envelope(link, port):
    """What stands around each message from a relay's port: the octets up to the relay message's length."""
    relayed = bytes([RELAY_FORWARD, 0]) + link + bytes.fromhex("fe80000000000000") + bytes(7) + b"\1"
    interface, remote = b"ge-%d" % port, ENTERPRISE.to_bytes(4, "big") + b"line %d" % port
    return relayed + option(INTERFACE_ID, interface) + option(REMOTE_ID, remote) + RELAY_MESSAGE.to_bytes(2, "big")


def message(kind, transaction, client, association, server=None, prefix=None):
    """A client's message with one IA_PD; a prefix is its sixteen octets and its length."""
    inner = b"" if prefix is None else option(IA_PREFIX, bytes(8) + bytes([prefix[1]]) + prefix[0])
    content = option(CLIENT_ID, client) + (b"" if server is None else option(SERVER_ID, server))
    content += option(IA_PD, association + bytes(8) + inner)
    return bytes([kind]) + transaction.to_bytes(3, "big") + content


def wrapped(around, inner):
    return around + len(inner).to_bytes(2, "big") + inner


def answered(octets):
    """An answer's kind, transaction, prefix (octets, length), lifetime in seconds and status; None where it has none of these."""
    place = 34
    while True:
        code, length = HEADER.unpack_from(octets, place)
        place += 4
        if code == RELAY_MESSAGE:
            break
        place += length
    kind, transaction, end = octets[place], int.from_bytes(octets[place + 1:place + 4], "big"), place + length
    prefix = valid = status = None
    place += 4
    while place < end:
        code, length = HEADER.unpack_from(octets, place)
        place += 4
        if code == IA_PD:
            inner = place + 12
            while inner < place + length:
                code, size = HEADER.unpack_from(octets, inner)
                inner += 4
                if code == IA_PREFIX:
                    valid = int.from_bytes(octets[inner + 4:inner + 8], "big")
                    prefix = octets[inner + 9:inner + 25], octets[inner + 8]
                elif code == STATUS:
                    status = int.from_bytes(octets[inner:inner + 2], "big")
                inner += size
        place += length
    return kind, transaction, prefix, valid, status
