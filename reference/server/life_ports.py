"""Relay ports: a link address, an interface identifier and a remote identifier, each of which tells two ports apart."""

from . import messages
from .messages import INTERFACE_IDENTIFIER, RELAY_FORWARD, RELAY_MESSAGE, REMOTE_IDENTIFIER, option


def drawn_identifier(source):
    """An identifier's octets, at times none, or no identifier."""
    return source.choice((None, b"", source.randbytes(1), source.randbytes(4), source.randbytes(4),
                          source.randbytes(source.choice((16, 100)))))


def other_absence(identifier):
    """An identifier of no octet for none, and none for one of no octet."""
    return {None: b"", b"": None}.get(identifier, identifier)


def drawn_ports(source, count):
    """Ports that differ in one part each from one that was drawn before; one may be given twice."""
    ports = [(source.randbytes(16), drawn_identifier(source), drawn_identifier(source))]
    while len(ports) < count:
        link, interface, remote = source.choice(ports)
        ports.append(source.choice((
            (source.choice((bytes(16), source.randbytes(16))), interface, remote),
            (link, drawn_identifier(source), remote), (link, interface, drawn_identifier(source)),
            (link, remote, interface), (source.randbytes(16), None, None), (link, None, b""),
            (link, other_absence(interface), other_absence(remote)))))
    return ports


def behind(port, hops, peer, inner, more, source):
    """A client's message as the relay of that port sends it on."""
    link, interface, remote = port
    parts = [option(RELAY_MESSAGE, inner), *more]
    if interface is not None:
        parts.append(option(INTERFACE_IDENTIFIER, interface))
    if remote is not None:
        parts.append(option(REMOTE_IDENTIFIER, remote))
    source.shuffle(parts)
    return bytes([RELAY_FORWARD, hops]) + link + peer + b"".join(parts)


def port_of(message: messages.ClientMessage):
    """The port that a message came from, that of the relay nearest to its client; None where there was no relay."""
    if not message.relays:
        return None
    relay = message.relays[-1]
    return relay.link, relay.interface, relay.remote
