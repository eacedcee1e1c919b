"""Changes of texts and certificates: most leave something that is nearly right."""
from .certificates import After, Before, ByChain, ByClock, Clear, Early, Foreign, Late, Released
from .words import MOST_LINES, MOST_READING, Prefix, Reference

# Numbers at the limits of the formats and next to them.
LIMITS = [0, 1, 2, 16, 17, 64, 65, 128, 129, 1000, 3_600_000, 31_536_000, 86_400_000]
LIMITS += [2**20, 2**31, 2**32 - 1, 2**32, 2**48, 2**49, 2**63, 2**64 - 1, 2**64, 10**19, 10**20]
WORDS = b"""A B A1 B2 A1048576 B1048577 A0 a1 A01 open pool transit base carry unit grant release expire backup reclaim
seize send take state restart close end update reply contact accept reject active expired released free none seized normal interrupted
down - holder prefix interval piece clear foreign latest earliest before after chain clock early late pd-journal pd-certificate
00 01 -1 +1 1.0 0x10 A1>A2 A1>A1 A1>B1 A2>A1 > A1> 00000000 00000001 ffffffff 0000000 FFFFFFFF 000300 0003 0003f 000300FF
accept,1,1,1 reject,0,0,0 accept,1,1 , ::/0 0000:0000:0000:0000:0000:0000:0000:0000/0 0000:0000:0000:0000:0000:0000:0000:0000/00
2001:0db8:0000:0000:0000:0000:0000:0000/56 2001:0DB8:0000:0000:0000:0000:0000:0000/56 2001:0db8:0000:0000:0000:0000:0000:0001/56
2001:0db8:0000:0000:0000:0000:0000:0000/129""".split()


def near(rng, number):
    """A number next to another, or at a limit."""
    draw = rng.random()
    if draw < 0.6:
        return max(0, number + rng.choice((-1, 1)))
    if draw < 0.8:
        return max(0, rng.choice(LIMITS) + rng.choice((-1, 0, 0, 1)))
    return max(0, number + rng.choice((-1000, 1000, -4000, 4000, number)))


def is_number(word):
    return word.isdigit() and len(word) <= 20


def changed_word(rng, word):
    """Another word in the place of one."""
    draw = rng.random()
    if is_number(word) and draw < 0.7:
        return str(near(rng, int(word))).encode()
    if draw < 0.75:
        return changed_octet(rng, word)
    if draw < 0.8:
        return word * 2
    return rng.choice(WORDS)


def changed_octet(rng, text):
    """A text with one octet changed, added or taken away."""
    place = rng.randrange(len(text) + 1)
    octet = rng.choice((rng.randrange(256), rng.choice(b"0123456789abcdefABF \n\r\t\0>/:,-")))
    size = rng.choice((0, 1, 1))
    return text[:place] + (bytes([octet]) if rng.random() < 0.7 else b"") + text[place + size :]


def changed_text(rng, text):
    """A text with octets changed, or cut, or with a part written twice."""
    draw = rng.random()
    if draw < 0.15:
        return text[: rng.randrange(len(text) + 1)]
    if draw < 0.2:
        return text + rng.choice((b"\n", b"end\n", b"x", text))
    for _ in range(rng.choice((1, 1, 1, 2, 3))):
        text = changed_octet(rng, text)
    return text


def changed_lines(rng, text, some_words=False):
    """A text with a line dropped, doubled, moved or changed in one word."""
    lines = text.split(b"\n")[:-1]
    place = rng.randrange(len(lines))
    draw = rng.random()
    if some_words or draw < 0.5:
        words = lines[place].split(b" ")
        where = rng.randrange(len(words))
        words[where] = changed_word(rng, words[where])
        lines[place] = b" ".join(words)
    elif draw < 0.65:
        del lines[place]
    elif draw < 0.8:
        lines.insert(place, lines[place])
    else:
        other = rng.randrange(len(lines))
        lines[place], lines[other] = lines[other], lines[place]
    return b"\n".join([*lines, b""])


def changed_words(rng, text):
    return changed_lines(rng, text, some_words=True)


def reference_near(rng, reference):
    draw = rng.random()
    if draw < 0.3:
        return Reference("B" if reference.side == "A" else "A", reference.number)
    if draw < 0.9:
        return Reference(reference.side, max(1, reference.number + rng.choice((-2, -1, 1, 2))))
    return Reference(reference.side, rng.choice((1, MOST_LINES, reference.number + 100)))


def changed_chain(rng, chain):
    """A chain lengthened, cut, turned, or with another reference in it."""
    draw = rng.random()
    place = rng.randrange(len(chain))
    if draw < 0.2:
        return chain[:place] + [reference_near(rng, chain[place])] + chain[place:]
    if draw < 0.4:
        return chain[:place] + chain[place + 1 :] or chain
    if draw < 0.5:
        return chain[::-1]
    if draw < 0.6:
        return chain[:place] + [chain[place]] + chain[place:]
    if draw < 0.9:
        return chain[:place] + [reference_near(rng, chain[place])] + chain[place + 1 :]
    return chain * rng.choice((2, 1 + 1023 // len(chain)))


def changed_order(rng, order):
    draw = rng.random()
    if isinstance(order, ByChain):
        if draw < 0.7:
            return ByChain(changed_chain(rng, order.chain))
        return ByClock(order.chain[:1], order.chain[-1:])
    if draw < 0.35:
        return ByClock(changed_chain(rng, order.first), order.second)
    if draw < 0.7:
        return ByClock(order.first, changed_chain(rng, order.second))
    return ByChain(order.first + order.second)


def changed_clear(rng, entry):
    draw = rng.random()
    if draw < 0.2:
        return Clear(reference_near(rng, entry.release), entry.why)
    if isinstance(entry.why, Before):
        if draw < 0.8:
            return Clear(entry.release, Before(changed_order(rng, entry.why.order)))
        return Clear(entry.release, After([entry.release]))
    if draw < 0.8:
        return Clear(entry.release, After(changed_chain(rng, entry.why.chain)))
    return Clear(entry.release, Before(ByClock([entry.release], entry.why.chain)))


def changed_foreign(rng, entry):
    draw = rng.random()
    reason = entry.reason
    if draw < 0.1:
        return Foreign(reference_near(rng, entry.grant), reason)
    if isinstance(reason, Released):
        if draw < 0.3:
            return Foreign(entry.grant, reason._replace(release=reference_near(rng, reason.release)))
        if draw < 0.6:
            return Foreign(entry.grant, reason._replace(order=changed_order(rng, reason.order)))
        if draw < 0.9:
            return Foreign(entry.grant, reason._replace(latest=changed_chain(rng, reason.latest)))
        return Foreign(entry.grant, Early([entry.grant]))
    if draw < 0.6:
        return Foreign(entry.grant, type(reason)(changed_chain(rng, reason.chain)))
    if draw < 0.9:
        return Foreign(entry.grant, rng.choice((Early, Late))([entry.grant]))
    last = reference_near(rng, entry.grant)
    return Foreign(entry.grant, Released(last, ByChain([entry.grant, last]), [last]))


def changed_list(rng, items, change):
    """A list with an item dropped, doubled, moved or changed."""
    if not items:
        return items
    place = rng.randrange(len(items))
    draw = rng.random()
    if draw < 0.15:
        return items[:place] + items[place + 1 :]
    if draw < 0.25:
        return items[: place + 1] + items[place:]
    if draw < 0.35:
        return rng.sample(items, len(items))
    return items[:place] + [change(rng, items[place])] + items[place + 1 :]


def changed_piece(rng, piece):
    draw = rng.random()
    if piece.clear and rng.random() < 0.5:
        return piece._replace(clear=changed_list(rng, piece.clear, changed_clear))
    if draw < 0.15:
        return piece._replace(grant=reference_near(rng, piece.grant))
    if draw < 0.3:
        return piece._replace(start=moment_near(rng, piece.start))
    if draw < 0.45:
        return piece._replace(end=moment_near(rng, piece.end))
    if draw < 0.6:
        return piece._replace(latest=changed_chain(rng, piece.latest))
    return piece._replace(earliest=changed_chain(rng, piece.earliest))


def moment_near(rng, moment):
    return min(near(rng, moment), MOST_READING) if rng.random() < 0.2 else max(0, moment + rng.choice((-1, 1)))


def moved_bounds(rng, certificate):
    """The interval, and the pieces at its ends, begun or ended one off or elsewhere."""
    pieces = list(certificate.pieces)
    if rng.random() < 0.5:
        start = moment_near(rng, certificate.start)
        if pieces:
            pieces[0] = pieces[0]._replace(start=start)
        return certificate._replace(start=start, pieces=pieces)
    end = moment_near(rng, certificate.end)
    if pieces:
        pieces[-1] = pieces[-1]._replace(end=end)
    return certificate._replace(end=end, pieces=pieces)


def moved_seam(rng, certificate):
    """The moment at which one piece ends and the next begins, one off in both."""
    pieces = list(certificate.pieces)
    if len(pieces) < 2:
        return moved_bounds(rng, certificate)
    place = rng.randrange(len(pieces) - 1)
    moment = pieces[place].end + rng.choice((-1, 1))
    pieces[place], pieces[place + 1] = pieces[place]._replace(end=moment), pieces[place + 1]._replace(start=moment)
    return certificate._replace(pieces=pieces)


def prefix_near(rng, prefix):
    """A prefix that is next to another, holds it, or lies in it."""
    draw = rng.random()
    length = prefix.length
    if draw < 0.35 and length > 0:
        length -= 1
    elif draw < 0.7 and length < 128:
        length += 1
    size = 1 << (128 - length)
    address = prefix.address // size * size
    return Prefix(address ^ (size & ((1 << 128) - 1)) if rng.random() < 0.5 else address, length)


def other_holder(rng, certificate, clients):
    return certificate._replace(holder=rng.choice(clients))


def changed_certificate(rng, certificate, clients):
    """A certificate changed in one place."""
    draw = rng.random()
    if draw < 0.2:
        return moved_bounds(rng, certificate)
    if draw < 0.25:
        return moved_seam(rng, certificate)
    if draw < 0.32:
        return certificate._replace(prefix=prefix_near(rng, certificate.prefix))
    if draw < 0.35:
        return other_holder(rng, certificate, clients)
    if draw < 0.36:
        return certificate._replace(start=certificate.end, end=certificate.start)
    if draw < 0.38:
        return certificate._replace(end=min(certificate.end * 2 + 1, MOST_READING))
    if draw < 0.65 or not certificate.foreign:
        return certificate._replace(pieces=changed_list(rng, certificate.pieces, changed_piece))
    return certificate._replace(foreign=changed_list(rng, certificate.foreign, changed_foreign))
