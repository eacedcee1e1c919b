"""Access records: beside a volume, by which relay port each grant's client asked."""

import ipaddress

NOTHING, EMPTY = "-", "empty"


def head_of(role, volume):
    return f"pd-access 1 {role} {volume}"


def address_word(address):
    digits = address.hex()
    return ":".join(digits[place:place + 4] for place in range(0, 32, 4))


def source_of(host):
    """The address that a datagram of this host comes from, as records have it; one of IPv4 isn't told."""
    return ipaddress.IPv6Address(host).packed if ":" in host else None


def identifier_word(octets):
    if octets is None:
        return NOTHING
    return octets.hex() or EMPTY


def port_words(port):
    """The words of a relay port; three of nothing where no relay was between."""
    if port is None:
        return " ".join([NOTHING] * 3)
    link, interface, remote = port
    return f"{address_word(link)} {identifier_word(interface)} {identifier_word(remote)}"


def unit_of(event):
    """The unit of a line that a record may be of: one that grants it, or carries it into a volume; else None."""
    return {"grant": event[3:4], "unit": event[1:2]}.get(event[0], (None,))[0]


def record(number, port, source):
    """The record of the line of that number; `source` is None where it isn't known."""
    return f"{number} {port_words(port)} {NOTHING if source is None else address_word(source)}"


def text(book, records):
    """The file of records, which are pairs of a number and a port, of a volume; none where there are no records."""
    rows = [head_of(book.role, book.volume), *(record(number, port, None) for number, port in records)]
    return "".join(row + "\n" for row in rows) if records else ""
