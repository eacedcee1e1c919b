"""What the desk finds: certificates that the second auditor must accept."""
from .certificates import Before, ByChain, ByClock, Early, Late, read_certificate
from .words import client_word, prefix_word


def words_of_query(certificate, skew, transit):
    """Command words that ask for a certificate of this one's holder, prefix and interval."""
    words = ["find", "--skew-ms", str(skew), "--holder", client_word(certificate.holder)]
    words += ["--prefix", prefix_word(certificate.prefix), "--from", str(certificate.start), "--to", str(certificate.end)]
    return words + (["--transit-ms", str(transit)] if transit else [])


def chains_of(certificate):
    """The chains of a certificate that a plain one has of one line, and those of an order that lead from line to line."""
    for piece in certificate.pieces:
        yield from ((piece.latest, False), (piece.earliest, False))
        for entry in piece.clear:
            yield from chains_of_order(entry.why.order) if isinstance(entry.why, Before) else [(entry.why.chain, False)]
    for entry in certificate.foreign:
        if isinstance(entry.reason, (Early, Late)):
            yield entry.reason.chain, False
        else:
            yield entry.reason.latest, False
            yield from chains_of_order(entry.reason.order)


def chains_of_order(order):
    if isinstance(order, ByChain):
        yield order.chain, True
    elif isinstance(order, ByClock):
        yield from ((order.first, False), (order.second, False))


def is_plain(certificate):
    """Whether a certificate needs no message: the desk promises to find one where such a one exists."""
    return all(
        len({reference.side for reference in chain}) == 1 and len(chain) == (2 if leads else 1)
        for chain, leads in chains_of(certificate)
    )


def judged(evidence, question, written, skew, transit):
    """What kind of answer a query of two journals got, and what is wrong with it, if anything."""
    refusal = evidence.refusal(skew)
    if refusal:
        return "find refused", "" if written == f"refused {refusal}\n" else f"refused {refusal}"
    if written == "none\n":
        if question.known is None:
            return "find none", ""
        return "find none, though there is one", "a plain certificate exists" if is_plain(question.known) else ""
    verdict = evidence.verdict(written.encode(), skew, transit)
    if verdict != "accepted":
        return "find", f"a certificate that is {verdict}"
    return "find", "" if is_asked(read_certificate(written.encode()), question.words) else "a certificate of another query"


def is_asked(certificate, words):
    return words_of_query(certificate, 0, 0)[3:11] == words[3:11]
