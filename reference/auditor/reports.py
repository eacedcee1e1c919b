"""What `desk explain` tells of a certificate: the report, and what a refusal compared, of the kinds that JSON has."""
import json

from .auditing import Audit, ends
from .certificates import Before, ByChain, Early, Late, read_certificate
from .failures import CONDITIONS, Failures
from .journals import Carry, Grant
from .values import FORMAT, delegation_of, time_of, words_of_chain
from .words import SIDES, client_word, prefix_word


class Report:
    """The report on one certificate over two journals that may be asked."""

    def __init__(self, audit):
        self.audit = audit
        self.pair = audit.pair
        self.certificate = audit.certificate

    def whole(self):
        certificate = self.certificate
        return {
            "question": {
                "holder": client_word(certificate.holder),
                "prefix": prefix_word(certificate.prefix),
                "from": time_of(certificate.start),
                "to": time_of(certificate.end),
            },
            "skew_ms": self.audit.skew,
            "transit_ms": self.audit.transit,
            **{f"journal_{side.lower()}": self.journal(side) for side in SIDES},
            "pieces": [self.piece(piece) for piece in certificate.pieces],
            "foreign": [self.foreign(entry) for entry in certificate.foreign],
            "lines": [self.cited(reference) for reference in self.cited_lines()],
        }

    def journal(self, side):
        opened, closed = self.pair.open_reading(side), self.pair.close_reading(side)
        return {"volume": self.pair.volume(side), "opened": time_of(opened), "closed": time_of(closed)}

    def mark(self, reference):
        return {"line": str(reference), "reading": time_of(self.pair.line(reference).reading)}

    def mark_by(self, reference, chain):
        """The line that bounds another from above: the last of a chain that begins with it."""
        return None if self.audit.latest(reference, chain) is None else self.mark(chain[-1])

    def mark_from(self, reference, chain):
        """The line that bounds another from below: the first of a chain that ends with it."""
        return None if self.audit.earliest(reference, chain) is None else self.mark(chain[0])

    def event(self, reference):
        """The event of a line, None where there is no such line."""
        line = self.pair.line(reference)
        return line and line.event

    def piece(self, piece):
        return {
            "from": time_of(piece.start),
            "to": time_of(piece.end),
            "grant": str(piece.grant),
            "granted": self.granted(piece.grant),
            "chain_from_grant": words_of_chain(piece.latest),
            "granted_by": self.mark_by(piece.grant, piece.latest),
            "chain_to_grant": words_of_chain(piece.earliest),
            "granted_from": self.mark_from(piece.grant, piece.earliest),
            "releases": [self.release(reference, piece) for reference in self.releases_of(piece)],
        }

    def granted(self, reference):
        event = self.event(reference)
        if not isinstance(event, Grant):
            return None
        given = delegation_of(event)
        del given["until"]
        return {"reading": time_of(self.pair.line(reference).reading), **given}

    def releases_of(self, piece):
        """The lines that give back what a piece's grant gave, in their order."""
        event = self.event(piece.grant)
        if not isinstance(event, Grant):
            return []
        return [reference for reference, line in self.pair.held if ends(line.event, event)]

    def release(self, reference, piece):
        entries = [entry for entry in piece.clear if entry.release == reference]
        holding = [entry for entry in entries if self.audit.clears(entry, piece)]
        first = next(iter(holding or entries), None)
        return {
            **self.mark(reference),
            "discharged": bool(holding),
            "cleared": None if first is None else self.cleared(first, piece),
        }

    def cleared(self, entry, piece):
        if isinstance(entry.why, Before):
            return {"why": "before_grant", "order": self.order(entry.release, piece.grant, entry.why.order)}
        chain = entry.why.chain
        written_from = self.mark_from(entry.release, chain)
        return {"why": "after_piece", "chain": words_of_chain(chain), "written_from": written_from}

    def order(self, first, second, order):
        """Why one line came before another."""
        if isinstance(order, ByChain):
            leads = self.audit.precedes(first, second, order)
            return {"by": "chain", "chain": words_of_chain(order.chain), "leads": leads}
        return {
            "by": "clocks",
            "from_first": words_of_chain(order.first),
            "first_by": self.mark_by(first, order.first),
            "to_second": words_of_chain(order.second),
            "second_from": self.mark_from(second, order.second),
        }

    def foreign(self, entry):
        event = self.event(entry.grant)
        told = None
        if isinstance(event, (Grant, Carry)):
            told = {"reading": time_of(self.pair.line(entry.grant).reading), "delegation": delegation_of(event)}
        return {"line": str(entry.grant), "told": told, "outside": self.outside(entry, event)}

    def outside(self, entry, event):
        """Why another client's delegation doesn't touch the interval, as the entry has it."""
        reason = entry.reason
        if isinstance(reason, Early):
            written_by = self.mark_by(entry.grant, reason.chain)
            return {"why": "early", "chain": words_of_chain(reason.chain), "written_by": written_by}
        if isinstance(reason, Late):
            written_from = self.mark_from(entry.grant, reason.chain)
            return {"why": "late", "chain": words_of_chain(reason.chain), "written_from": written_from}
        told = isinstance(event, (Grant, Carry))
        return {
            "why": "released",
            "release": str(reason.release),
            "gives_back": told and ends(self.event(reason.release), event),
            "order": self.order(entry.grant, reason.release, reason.order),
            "chain": words_of_chain(reason.latest),
            "written_by": self.mark_by(reason.release, reason.latest),
        }

    def cited_lines(self):
        """The lines that the certificate names or that give back what a piece's grant gave, each once."""
        named = set()
        for piece in self.certificate.pieces:
            named.update([piece.grant, *piece.latest, *piece.earliest, *self.releases_of(piece)])
            for entry in piece.clear:
                named.update([entry.release, *named_by(entry.why)])
        for entry in self.certificate.foreign:
            named.update([entry.grant, *named_by(entry.reason)])
        return sorted(reference for reference in named if self.pair.line(reference) is not None)

    def cited(self, reference):
        line = self.pair.line(reference)
        return {**self.mark(reference), "text": f"{line.reading} {line.words.decode()}"}


def named_by(why):
    """The lines that a reason, a discharge or an order names."""
    if isinstance(why, Before):
        return named_by(why.order)
    if hasattr(why, "release"):
        return [why.release, *named_by(why.order), *why.latest]
    return why.chain if hasattr(why, "chain") else [*why.first, *why.second]


def explanation(evidence, text, skew, transit, volumes=None):
    """What `explain --json` tells of two journals and a certificate's text; over volumes that are more than one of each side."""
    verdict = evidence.verdict(text, skew, transit)
    failure = report = None
    if is_of_condition(verdict):
        audit = Audit(evidence.pair, read_certificate(text), skew, transit)
        failure = Failures(audit).of(verdict)
        report = Report(audit).whole()
    return {"format": FORMAT, "verdict": verdict, "failure": failure, "certificate": decoded(text), "report": report, "volumes": volumes}


def decoded(text):
    """A text as JSON has it, None where its octets aren't UTF-8."""
    try:
        return text.decode()
    except UnicodeDecodeError:
        return None


def is_of_condition(verdict):
    """Whether a verdict is about what a certificate says, and not about the texts, a rule, messages or clocks."""
    return verdict == "accepted" or verdict.split(" ")[1] in CONDITIONS


def spelled(said):
    return json.dumps(said) + "\n"
