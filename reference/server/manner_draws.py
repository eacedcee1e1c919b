"""Manners drawn at random, and values of single keys on both sides of their limits."""

import ipaddress

from .manner import (LEAST_REFRESH, LONGEST_LABEL, LONGEST_NAME, MOST_ENTRIES, MOST_PREFERENCE, MOST_REFRESH,
                     NAME_LETTERS, Manner)

LETTERS = sorted(NAME_LETTERS)
ADDRESSES = ("::", "::1", "ff02::1", "2001:DB8::a", "1:2:3:4:5:6:7::", "0001:2:3:4:5:6:7:8",
             "ffff:ffff:ffff:ffff:ffff:ffff:ffff:ffff")
NO_ADDRESSES = ("", "1", "::1 ", "1.2.3.4", "::1.2.3.4", "::1%lo", "2001:db8::/64", "1:2:3:4:5:6:7:8:9",
                "1:2:3:4:5:6:7:8::", "::1::", "00001::", "g::", ":::", "1:2:3:4:5:6:7", ":1", "[::1]")
NO_NAMES = ("", ".", "a.", ".a", "a..b", "a b", "ä", "a/b", "a" * (LONGEST_LABEL + 1), "a\0")


def drawn_address(source):
    if source.random() < 0.2:
        return source.choice(ADDRESSES)
    return str(ipaddress.IPv6Address(source.getrandbits(128)))


def drawn_label(source, length):
    return "".join(source.choices(LETTERS, k=length))


def name_of_length(source, length):
    """A domain name of so many characters."""
    labels = []
    while length > LONGEST_LABEL:
        most = min(LONGEST_LABEL, length - 2)
        labels.append(drawn_label(source, source.choice((most, source.randint(1, most)))))
        length -= len(labels[-1]) + 1
    return ".".join(labels + [drawn_label(source, length)])


def drawn_name(source):
    return name_of_length(source, source.choice((1, 2, 9, 16, 16, 30, 63, 64, 65, 200, LONGEST_NAME - 1, LONGEST_NAME)))


def drawn_list(source, draw):
    return [draw(source) for _ in range(source.choice((0, 1, 1, 2, 3, MOST_ENTRIES)))]


def drawn_manner(source):
    """Each setting is left out at times; once in eight runs all are."""
    if source.random() < 0.125:
        return Manner()

    def maybe(value):
        return value if source.random() < 0.6 else None
    refresh, preference = (LEAST_REFRESH, 86_400, MOST_REFRESH), (0, 1, MOST_PREFERENCE)
    return Manner(
        dns=maybe(drawn_list(source, drawn_address)) or [], search=maybe(drawn_list(source, drawn_name)) or [],
        sntp=maybe(drawn_list(source, drawn_address)) or [], information_refresh=maybe(source.choice(refresh)),
        preference=maybe(source.choice(preference)), unicast=maybe(drawn_address(source)),
        rebind_unknown=source.choice(("silent", "no-binding")), refuses_addresses=source.random() < 0.6)


# Manners of one setting each: whether an INFORMATION-REQUEST is heard hangs on each by itself.
SPARSE = (Manner(dns=["::1"]), Manner(search=["a"]), Manner(sntp=["::1"]), Manner(information_refresh=600),
          Manner(preference=0), Manner(unicast="::"), Manner(rebind_unknown="silent"), Manner(refuses_addresses=True))
LABEL, NAME = "a" * 63, ".".join(["a" * 63] * 3 + ["b" * 61])
# Values at the limits of each key, whatever is drawn.
EDGES = (("dns", ["::1"] * 16), ("dns", ["::1"] * 17), ("dns", []), ("sntp", ["::1"] * 16), ("sntp", ["::1"] * 17),
         ("search", [NAME] * 16), ("search", ["a"] * 17), ("search", [NAME + "b"]), ("search", [LABEL]),
         ("search", [LABEL + "a"]), ("search", [""]), ("search", ["a."]), ("search", ["a..b"]), ("unicast", "::"),
         ("unicast", "::1.2.3.4"), ("information_refresh", 599), ("information_refresh", 600),
         ("information_refresh", 4294967295), ("information_refresh", 4294967296), ("preference", -1),
         ("preference", 0), ("preference", 255), ("preference", 256), ("rebind_unknown", "silent"),
         ("rebind_unknown", "no-binding"), ("ia_na", "refuse"), ("ia_na", "silent"))


def drawn_number(source, least, most):
    fit = (least, most, source.randint(least, most))
    return source.choice(fit + (least - 1, most + 1, str(least), float(least), True, [least]))


def drawn_entry(source, good, bad):
    return source.choice(bad) if source.random() < 0.2 else good(source)


def drawn_entries(source, draw):
    """A list, mostly, at times one entry too long or with one that is none."""
    entries = [draw(source) for _ in range(source.choice((0, 1, 2, 3, MOST_ENTRIES, MOST_ENTRIES + 1)))]
    if entries and source.random() < 0.1:
        entries[source.randrange(len(entries))] = source.choice((7, True, [entries[0]]))
    return source.choice(entries or [""]) if source.random() < 0.1 else entries


def drawn_value(source, key):
    """A value of a key, fit or not."""
    if key in ("dns", "sntp"):
        return drawn_entries(source, lambda source: drawn_entry(source, drawn_address, NO_ADDRESSES))
    if key == "search":
        too_long = (name_of_length(source, LONGEST_NAME + 1), name_of_length(source, LONGEST_NAME + 9))
        return drawn_entries(source, lambda source: drawn_entry(source, drawn_name, NO_NAMES + too_long))
    if key == "unicast":
        return source.choice((drawn_address(source), source.choice(NO_ADDRESSES), [drawn_address(source)], 1))
    if key == "information_refresh":
        return drawn_number(source, LEAST_REFRESH, MOST_REFRESH)
    if key == "preference":
        return drawn_number(source, 0, MOST_PREFERENCE)
    return source.choice(("silent", "no-binding", "refuse", "Refuse", "", 1, True, ["refuse"]))
