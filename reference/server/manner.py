"""What a server hands out beside prefixes, what its settings say of it, and which of it an answer gets."""

import ipaddress
import json
import string
from dataclasses import dataclass, field

from .messages import (DNS_SERVERS, INFORMATION_REQUEST, PREFERENCE, REFRESH_TIME, SEARCH_LIST, SERVER_UNICAST,
                       SNTP_SERVERS, SOLICIT)

MOST_ENTRIES = 16
LONGEST_NAME = 253
LONGEST_LABEL = 63
LEAST_REFRESH, MOST_REFRESH = 600, 0xFFFFFFFF
MOST_PREFERENCE = 255
NAME_LETTERS = frozenset(string.ascii_letters + string.digits + "-_")
KEYS = ("dns", "search", "sntp", "information_refresh", "preference", "unicast", "rebind_unknown", "ia_na")


@dataclass
class Manner:
    """The settings beside prefixes, as texts and numbers; and whether each prefix of a RELEASE is an order."""

    dns: list = field(default_factory=list)
    search: list = field(default_factory=list)
    sntp: list = field(default_factory=list)
    information_refresh: int | None = None
    preference: int | None = None
    unicast: str | None = None
    rebind_unknown: str = "no-binding"
    refuses_addresses: bool = False
    releases_each: bool = False

    @property
    def informs(self):
        """Whether it hands out anything: only then an INFORMATION-REQUEST is heard."""
        given = (self.information_refresh, self.preference, self.unicast)
        return bool(self.dns or self.search or self.sntp) or any(value is not None for value in given)

    @property
    def is_silent(self):
        """Whether it says nothing of what a REBIND asks for and it has no binding of."""
        return self.rebind_unknown == "silent"


def address_octets(text):
    return ipaddress.IPv6Address(text).packed


def name_octets(name):
    """A domain name without compression (RFC 1035, section 3.1): each label behind its length, and the root's."""
    labels = (label.encode() for label in name.split("."))
    return b"".join(bytes([len(label)]) + label for label in labels) + b"\0"


def asked_for(manner, message):
    """The options that are handed out to a client that asks for them."""
    lists = {DNS_SERVERS: map(address_octets, manner.dns), SEARCH_LIST: map(name_octets, manner.search),
             SNTP_SERVERS: map(address_octets, manner.sntp)}
    found = {code: b"".join(parts) for code, parts in lists.items()}
    found = {code: data for code, data in found.items() if data}
    if message.kind == INFORMATION_REQUEST and manner.information_refresh is not None:
        found[REFRESH_TIME] = manner.information_refresh.to_bytes(4, "big")
    return {code: data for code, data in found.items() if code in message.wishes}


def handed_out(manner, message):
    """What the answer to a message has beside prefixes: codes and data, in ascending order of the codes."""
    found = asked_for(manner, message)
    if message.kind == SOLICIT and manner.preference is not None:
        found[PREFERENCE] = bytes([manner.preference])
    if message.kind != INFORMATION_REQUEST and manner.unicast is not None:
        found[SERVER_UNICAST] = address_octets(manner.unicast)
    return sorted(found.items())


def is_address(text):
    """An address in form 1 or 2 of RFC 4291: without an IPv4 address in it, and without a zone."""
    try:
        ipaddress.IPv6Address(text)
    except ValueError:
        return False
    return "." not in text and "%" not in text


def is_label(text):
    return 1 <= len(text) <= LONGEST_LABEL and set(text) <= NAME_LETTERS


def is_name(text):
    return len(text) <= LONGEST_NAME and all(map(is_label, text.split(".")))


def is_list(value, is_entry):
    if not isinstance(value, list) or len(value) > MOST_ENTRIES:
        return False
    return all(isinstance(entry, str) and is_entry(entry) for entry in value)


def is_number(value, least, most):
    return type(value) is int and least <= value <= most


def is_fit(key, value):
    """Whether a key of the settings may have the value."""
    if key in ("dns", "sntp"):
        return is_list(value, is_address)
    if key == "search":
        return is_list(value, is_name)
    if key == "information_refresh":
        return is_number(value, LEAST_REFRESH, MOST_REFRESH)
    if key == "preference":
        return is_number(value, 0, MOST_PREFERENCE)
    if key == "unicast":
        return isinstance(value, str) and is_address(value)
    return value in (("silent", "no-binding") if key == "rebind_unknown" else ("refuse",))


def settings_row(key, value):
    """A key and its value in the words of TOML."""
    return f"{key} = {json.dumps(value, ensure_ascii=False)}"


def settings_rows(manner, default="no-binding"):
    """The rows of a manner; `default` is what is told to a REBIND where nothing is said."""
    given = [("dns", manner.dns), ("search", manner.search), ("sntp", manner.sntp), ("unicast", manner.unicast),
             ("information_refresh", manner.information_refresh), ("preference", manner.preference)]
    rows = [settings_row(key, value) for key, value in given if value not in ([], None)]
    if manner.rebind_unknown != default:
        rows.append(settings_row("rebind_unknown", manner.rebind_unknown))
    if manner.refuses_addresses:
        rows.append(settings_row("ia_na", "refuse"))
    return rows
