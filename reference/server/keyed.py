"""A link with a key: two nonces, a proof of each end over both, and then records, each with a code.

docs/formats/link.md has their layout. This was written before that, from what two servers say whose key was known.
"""

import hashlib
import hmac
import secrets

NONCE, PROOF, CODE = 32, 32, 16
SIDES = {"A": b"\1", "B": b"\2"}
PROVES, RECORDS = b"fengtuyas link: proof", b"fengtuyas link: records"


def hashed(key, octets):
    return hmac.new(key, octets, hashlib.sha256).digest()


def nonce(end=b""):
    """A drawn nonce; one that ends so."""
    return secrets.token_bytes(NONCE - len(end)) + end


class Channel:
    """What a side that has the key says once it has both nonces, its own and the other's."""

    def __init__(self, key, side, own, other):
        self.proof = hashed(key, PROVES + SIDES[side] + own + other)
        self.key = hashed(key, RECORDS + SIDES[side] + own + other)
        self.count = 0

    def code(self, head, octets):
        self.count += 1
        return hashed(self.key, (self.count - 1).to_bytes(8, "big") + head + octets)[:CODE]

    def record(self, octets):
        head = len(octets).to_bytes(2, "big")
        return head + octets + self.code(head, octets)


class Records:
    """What the other side says, out of pieces of the stream."""

    def __init__(self, channel):
        self.channel = channel
        self.rest = b""

    def feed(self, piece):
        """The octets of the records that are whole; ValueError where a code isn't the other side's."""
        octets, found = self.rest + piece, b""
        while len(octets) >= 2:
            end = 2 + int.from_bytes(octets[:2], "big")
            if len(octets) < end + CODE:
                break
            if octets[end:end + CODE] != self.channel.code(octets[:2], octets[2:end]):
                raise ValueError("a record whose code is another's")
            found += octets[2:end]
            octets = octets[end + CODE:]
        self.rest = octets
        return found
