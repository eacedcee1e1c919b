"""The worked examples of the requirements, asked of this implementation. Run: python3 -m server.selftest FOLDER,
where FOLDER (optional) holds real clients' datagrams and what each says."""

import pathlib
import sys

from . import (again_selftest, answers, ends_selftest, frames, journal, limiting_selftest, manner_selftest, messages,
               notice_selftest)
from .book import Book, BookRefusal
from .values import Line, Settings, prefix_of, prefix_text, units_of

OWN = bytes.fromhex("00030001020000000009")
FIRST, SECOND, THIRD = (bytes.fromhex(f"0003000102000000000{digit}") for digit in "123")
POOL = (prefix_of("2001:db8::/48"), 56)
UNITS = units_of([POOL])
LOWEST, HIGHEST = UNITS[0], UNITS[255]


def settings(role="A", mclt=3600, pool=POOL, transit=0):
    return Settings(role, OWN, 2000, mclt, 3600, [pool], transit)


def refusal_of(call, *words):
    try:
        call(*words)
    except (BookRefusal, messages.Refused, frames.LinkFault) as refusal:
        return refusal.name, getattr(refusal, "rule", None)
    return None


def equal(found, wanted):
    if found != wanted:
        raise AssertionError(f"found {found!r}, wanted {wanted!r}")


def request(client, kind="request", hint=None):
    return (kind, client, 1, hint)


def send(book, reading, *order):
    """What a book sends by an order, as the take of the other book."""
    reply = book.apply(reading, order)
    return ("take", book.term, reply[1], reply[2])


def identifiers():
    return "0001000a" + FIRST.hex() + "0002000a" + OWN.hex()


def read_messages():
    def name_of(text):
        return refusal_of(messages.decode, bytes.fromhex(text), OWN)[0]
    client = "010a0b0c0001000a" + FIRST.hex()
    equal(name_of("010a0b0c"), "NoClientId")
    equal(name_of("010a0b0c0001ffff"), "OptionLength")
    equal(name_of("010a0b"), "Short")
    equal(name_of("040a0b0c"), "Ignored")
    equal(name_of("03" + client[2:]), "ServerIdMissing")
    equal(name_of(client + "0002000a" + OWN.hex()), "ServerIdPresent")
    equal(name_of("03" + client[2:] + "0002000a" + OWN.hex()[:-1] + "8"), "NotOurs")
    equal(name_of(client + "0019000b" + "00" * 11), "OptionLength")
    equal(name_of("010a0b0c00010083" + "00" * 131), "OptionLength")
    equal(messages.decode(bytes.fromhex(client + "000600020017"), OWN).client, FIRST)
    equal(name_of(client + "000600030017" + "00"), "OptionLength")
    equal(name_of(client + "000600020017" * 2), "DuplicateId")
    equal(name_of(client + "0006000100" + "0019000b" + "00" * 11), "OptionLength")
    equal(messages.decode(bytes.fromhex("010a0b0c00010082" + "00" * 130), OWN).client, bytes(130))
    for count, wanted in ((32, None), (33, ("TooDeep", None))):
        octets = bytes.fromhex(client)
        for _ in range(count):
            octets = bytes([12]) + bytes(33) + messages.option(9, octets)
        equal(refusal_of(messages.decode, octets, OWN), wanted)


def read_remote_identifiers():
    client = bytes.fromhex("010a0b0c0001000a" + FIRST.hex())
    inner, remote, empty = messages.option(9, client), messages.option(37, bytes.fromhex("0000000961")), messages.option(37, b"")

    def relayed(*parts):
        return bytes([12]) + bytes(33) + b"".join(parts)

    def remotes_of(octets):
        return [relay.remote for relay in messages.decode(octets, OWN).relays]
    for parts, wanted in (((inner,), None), ((inner, remote), remote[4:]), ((remote, inner), remote[4:]), ((empty, inner), b"")):
        equal(remotes_of(relayed(*parts)), [wanted])
    equal(remotes_of(relayed(empty, messages.option(9, relayed(inner, remote)))), [b"", remote[4:]])
    equal(remotes_of(relayed(messages.option(9, client + remote + empty))), [None])
    equal(remotes_of(client + remote + remote), [])
    faulty, short = messages.option(9, client + messages.option(25, bytes(11))), bytes.fromhex("00250001")
    for parts, wanted in (((inner, remote, empty), "DuplicateId"), ((empty, inner, empty), "DuplicateId"),
                          ((remote, remote), "DuplicateId"), ((remote,), "Short"), ((remote, remote, faulty), "DuplicateId"),
                          ((remote, faulty, remote), "OptionLength"), ((inner, remote, short), "OptionLength"),
                          ((remote, remote, inner, inner[:5]), "DuplicateId")):
        equal(refusal_of(messages.decode, relayed(*parts), OWN), (wanted, None))


def answer_messages():
    solicit = bytes.fromhex("010a0b0c0001000a000300010200000000010019000c000000010000000000000000")
    start = "020a0b0c" + identifiers()
    given = ("0019002900000001000007" "0800000b40001a001900000e1000000e103820010db8000000000000000000000000")
    book = Book.open(9000, settings())
    equal(answers.serve_datagram(book, OWN, solicit, 10000)[0].hex(), start + given)
    full = Book.open(9000, settings(pool=(LOWEST, 56)))
    full.apply(9500, request(SECOND))
    equal(answers.serve_datagram(full, OWN, solicit, 10000)[0].hex(),
          start + "00190012000000010000000000000000000d00020006")
    equal(len(full.lines), 3)
    release = bytes.fromhex("080a0b0c" + identifiers() + "0019000c000000010000000000000000")
    equal(answers.serve_datagram(book, OWN, release, 10000)[0].hex(),
          "070a0b0c" + identifiers() + "000d00020000" + "00190012000000010000000000000000000d00020003")
    named = bytes([12]) + bytes(33) + messages.option(37, b"far") + messages.option(9, release) + messages.option(18, b"near")
    answer = answers.serve_datagram(book, OWN, release, 10000)[0]
    equal(answers.serve_datagram(book, OWN, named, 10000)[0],
          bytes([13]) + bytes(33) + messages.option(18, b"near") + messages.option(9, answer))
    wide = bytes([12]) + bytes(33) + messages.option(18, bytes(65_535)) + messages.option(9, solicit)
    equal(answers.serve_datagram(book, OWN, wide, 10000)[0], None)


def keep_a_book():
    book = Book.open(9000, settings())
    equal(book.apply(10000, request(FIRST)), ("granted", LOWEST, 3600))
    other = Book.replay("A", book.lines)
    equal(refusal_of(book.apply, 3613999, ("expire", LOWEST)), ("Rule", 9))
    equal(book.apply(3614000, ("expire", LOWEST)), ("done",))
    other.apply(3700000, ("close",))
    equal(journal.write("A", other.lines).splitlines()[3:],
          [f"3 10000 grant {FIRST.hex()} 00000001 {prefix_text(LOWEST)} 3600", "4 3700000 close", "end 4"])
    equal(journal.read(journal.write("A", other.lines)), ("A", other.lines))
    equal(refusal_of(other.apply, 3700000, request(FIRST)), ("NotServing", None))
    wrong = Line(3, 10000, ("grant", FIRST, 1, LOWEST, 3601))
    equal(refusal_of(Book.replay, "A", other.lines[:2] + [wrong]), ("Rule", 7))
    wrong = Line(4, 10000, ("grant", SECOND, 1, LOWEST, 3600))
    equal(refusal_of(Book.replay, "A", other.lines[:3] + [wrong]), ("Rule", 6))
    late = Book.open(9000, settings(transit=500))
    late.apply(10000, request(FIRST))
    equal(refusal_of(late.apply, 3614499, ("expire", LOWEST)), ("Rule", 9))
    equal(late.apply(3614500, ("expire", LOWEST)), ("done",))


def lead_times():
    for acknowledged, wanted in ((False, 600), (True, 3600)):
        first, other = (Book.open(9000, settings(role, mclt=600)) for role in "AB")
        equal(first.apply(10000, request(FIRST))[2], 600)
        message = send(first, 10000, "send update", LOWEST)
        equal(message[3][5], 7210000)
        equal(other.apply(10000, message), ("taken", "accept"))
        if acknowledged:
            first.apply(20000, send(other, 10000, "send reply", LOWEST))
        equal(first.apply(310000, request(FIRST, "renew"))[2], wanted)


def exchange(first, other, prefix):
    """One update and its reply; the counters of both sides afterwards."""
    update = send(first, 10000, "send update", prefix)
    verdict = other.apply(10000, update)[1]
    if verdict == "accept":
        first.apply(10000, send(other, 10000, "send reply", prefix))
    units = [book.table.get(prefix) for book in (first, other)]
    return update, verdict, [(unit.status, unit.mine, unit.seen) for unit in units]


def move_a_unit():
    first, other = (Book.open(9000, settings(role)) for role in "AB")
    first.apply(10000, ("backup", HIGHEST))
    moved, *rest = exchange(first, other, HIGHEST)
    equal(rest, ["accept", [("backup", 1, 1), ("backup", 1, 1)]])
    other.apply(10000, request(FIRST))
    equal(exchange(other, first, HIGHEST)[1:], ("accept", [("active", 2, 2), ("active", 2, 2)]))
    other.apply(10000, request(FIRST, "release", HIGHEST))
    equal(exchange(other, first, HIGHEST)[1:], ("accept", [("free", 3, 3), ("free", 3, 3)]))
    equal(other.apply(10000, moved), ("taken", "drop"))
    restarted = Book.open(9000, settings())
    restarted.apply(20000, ("restart",))
    equal(restarted.apply(20000, ("send contact",))[2], ("contact", 1, 0))
    for answer, waits in ((2, True), (1, False)):
        restarted.apply(20000, ("take", 0, 1, ("contact", 0, answer)))
        equal(restarted.waiting, waits)


def partner_down():
    first, other = (Book.open(9000, settings(role, pool=(LOWEST, 56))) for role in "AB")
    first.apply(10000, ("backup", LOWEST))
    exchange(first, other, LOWEST)
    other.apply(10000, request(FIRST))
    first.apply(10000, ("state", "down"))
    equal(refusal_of(first.apply, 3613999, ("seize", LOWEST)), ("Rule", 20))
    first.apply(3614000, ("seize", LOWEST))
    equal(first.apply(3614000, request(SECOND)), ("granted", LOWEST, 3600))
    other.apply(3614000, ("restart",))
    equal(refusal_of(other.apply, 3614000, request(FIRST, "renew")), ("NotServing", None))
    equal(refusal_of(other.apply, 3614000, ("state", "down")), ("Rule", 16))
    first.apply(3614000, ("state", "normal"))
    equal(other.apply(3614000, send(first, 3614000, "send contact")), ("taken", "accept"))
    equal(other.term, 1)
    equal(first.apply(3614000, send(other, 3614000, "send update", LOWEST)), ("taken", "reject"))
    equal(exchange(first, other, LOWEST)[1:], ("accept", [("active", 4, 3), ("free", 3, 3)]))
    equal(first.apply(3614000, send(other, 3614000, "send contact")), ("taken", "accept"))
    equal(other.apply(3614000, send(first, 3614000, "send contact")), ("taken", "accept"))
    equal(refusal_of(other.apply, 3614000, request(THIRD)), ("NoPrefix", None))


def link_frames():
    contact = bytes.fromhex("0000001d0c000000000000000000000001" + "00" * 16)
    frame = frames.Frame(frames.CONTACT, 0, 1, ("contact", 0, 0))
    equal(frames.encode(frame), contact)
    feed = frames.Feed()
    equal([feed.feed(contact[place:place + 1]) for place in range(33)], [[]] * 32 + [[frame]])
    equal(refusal_of(feed.feed, bytes.fromhex("0000000c")), ("Length", None))
    equal(refusal_of(feed.feed, bytes.fromhex("00000201")), ("Length", None))
    equal(refusal_of(feed.feed, contact[:4] + b"\x0d" + contact[5:]), ("Kind", None))
    equal(refusal_of(feed.feed, contact[:16] + b"\x00" + contact[17:]), ("Field", None))
    equal(frames.encode(frames.Frame(frames.CONNECT_REPLY, 0, 0, (2, 0))).hex(),
          "0000001609000000000000000000000000020000000000000000")


def told(message):
    """A message in the words of the captures' table."""
    words = ["ok", messages.KIND_NAMES[message.kind], message.transaction.hex(), message.client.hex()]
    for relay in message.relays:
        interface = "-" if relay.interface is None else "x" + relay.interface.hex()
        words.append(f"relay({relay.hops},{relay.link.hex()},{relay.peer.hex()},{interface})")
    for association in message.associations:
        hint = "-" if association.hint is None else prefix_text(association.hint)
        words.append(f"ia({association.identifier:08x},{hint})")
    return " ".join(words)


def captures(folder):
    for row in (folder / "expected.tsv").read_text().splitlines():
        name, wanted = row.split("\t")
        octets = (folder / (name + ".hex")).read_text().splitlines()[-1]
        equal(told(messages.decode(bytes.fromhex(octets), OWN)), wanted)


def main():
    for test in (read_messages, read_remote_identifiers, answer_messages, keep_a_book, lead_times, move_a_unit,
                 partner_down, link_frames, *manner_selftest.EXAMPLES, *again_selftest.EXAMPLES,
                 *limiting_selftest.EXAMPLES, *ends_selftest.EXAMPLES, *notice_selftest.EXAMPLES):
        test()
    for folder in sys.argv[1:]:
        captures(pathlib.Path(folder))
    print("ok")


if __name__ == "__main__":
    main()
