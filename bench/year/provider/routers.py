"""Customers' routers: what each knows, and what it asks next (RFC 8415, sections 18.2.1 to 18.2.7)."""
from .messages import REBIND, RELEASE, RENEW, REQUEST, SOLICIT, envelope, message, wrapped

SECOND, HOUR, DAY = 1000, 3_600_000, 86_400_000
PORTS_OF_A_RELAY = 512


class Router:
    """One router behind one port of a relay. A clone has another's identifier and association, and a port of its own."""

    __slots__ = ("index", "client", "duid", "association", "port", "relay", "around", "side", "prefix", "until", "told", "tries", "next",
                 "turn", "is_on", "is_clone", "keeps", "renewal")

    def __init__(self, index, duid, port):
        self.index, self.duid, self.client, self.association = index, duid, duid.hex(), b"\0\0\0\1"
        self.side = self.prefix = self.renewal = None
        self.until = self.told = self.tries = self.turn = 0
        # what it asks next
        self.next, self.is_on, self.is_clone, self.keeps = SOLICIT, False, False, False
        self.move(port)

    def move(self, port):
        self.port, self.relay = port, port // PORTS_OF_A_RELAY
        link = bytes.fromhex("20010db800ff") + self.relay.to_bytes(2, "big") + bytes(7) + b"\1"
        self.around, self.renewal = envelope(link, port % PORTS_OF_A_RELAY), None

    def datagram(self, kind, duids):
        """What it says by a message of this kind."""
        if kind == RENEW:
            if self.renewal is None:
                self.renewal = self.made(RENEW, duids[self.side], self.prefix)
            return self.renewal
        server = duids[self.side] if kind in (REQUEST, RELEASE) else None
        return self.made(kind, server, self.prefix)

    def made(self, kind, server, prefix):
        return wrapped(self.around, message(kind, self.index, self.duid, self.association, server, prefix))

    def to(self, kind):
        """To which servers it goes: a relay hands each message to both, and the one that isn't meant passes it over, so that isn't played."""
        return (self.side,) if kind in (REQUEST, RENEW, RELEASE) else (0, 1)

    def bound(self, side, prefix, valid, now, dice):
        """It was told that it has the prefix; gives the moment at which it renews that."""
        if side != self.side or prefix != self.prefix:
            self.renewal = None
        self.side, self.prefix, self.tries = side, prefix, 0
        self.told, self.until, self.next = now, now + valid * SECOND, RENEW
        return now + valid * 500 + int(dice.random() * min(valid * 20, 60_000))

    def begin_again(self, now):
        """It starts anew: one that keeps what it was told asks both servers whether it may have that still."""
        if self.keeps and self.prefix and self.until > now:
            self.next, self.tries = REBIND, 0
        else:
            self.forget()

    def forget(self):
        """It starts without what it was told."""
        self.side = self.prefix = self.renewal = None
        self.tries, self.next = 0, SOLICIT

    def unanswered(self, kind, now, dice):
        """Nobody answered; gives the moment at which it asks again, and None where it doesn't."""
        self.tries += 1
        waits = {SOLICIT: 120, REQUEST: 30, RENEW: 600, REBIND: 600, RELEASE: 8}[kind]
        first = 1 if kind in (SOLICIT, REQUEST, RELEASE) else 10
        again = now + int(SECOND * min(waits, first << min(self.tries, 12)) * dice.uniform(0.9, 1.1))
        if kind == REQUEST and self.tries >= 10:
            self.forget()
        elif kind == RELEASE and self.tries >= 4:
            return None
        elif kind == RENEW and again >= self.told + (self.until - self.told) * 4 // 5:
            self.next, self.tries = REBIND, 0
        elif kind == REBIND and again >= self.until:
            self.forget()
        return again
