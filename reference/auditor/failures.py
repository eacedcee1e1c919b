"""Why a condition isn't met: what was compared, with both sides."""
from .auditing import INFINITE, ends
from .certificates import Early, Late
from .journals import Carry, Grant
from .values import delegation_of, time_of
from .words import SIDES, Reference, client_word, prefix_word


class Failures:
    """What the refusals of one certificate compared."""

    def __init__(self, audit):
        self.audit = audit
        self.pair = audit.pair
        self.certificate = audit.certificate
        self.skew = audit.skew
        self.transit = audit.transit

    def of(self, verdict):
        """What was compared of a verdict line, None of `accepted`."""
        words = verdict.split(" ")
        if words[0] != "refused":
            return None
        return {"condition": words[1], **CONDITIONS[words[1]](self, *words[3:])}

    def empty_interval(self):
        return {"from": time_of(self.certificate.start), "to": time_of(self.certificate.end)}

    def past_end(self, side):
        needed = self.certificate.end + self.skew
        return {"side": side, "needed": time_of(needed), "closed": time_of(self.pair.close_reading(side))}

    def gap(self, word):
        number = int(word)
        pieces = self.certificate.pieces
        must_begin = pieces[number - 2].end if number > 1 else self.certificate.start
        begins = ends_at = None
        if number <= len(pieces):
            begins, ends_at = time_of(pieces[number - 1].start), time_of(pieces[number - 1].end)
        return {"piece": number, "must_begin": time_of(must_begin), "begins": begins, "ends": ends_at}

    def grant(self, word):
        piece = self.certificate.pieces[int(word) - 1]
        return {"piece": int(word), **self.fault_of_grant(piece)}

    def fault_of_grant(self, piece):
        line = self.pair.line(piece.grant)
        if line is None or not isinstance(line.event, Grant):
            return {"fault": "no_grant"}
        event = line.event
        if event.client != self.certificate.holder:
            return {"fault": "other_client", "client": client_word(event.client)}
        if not event.prefix.contains(self.certificate.prefix):
            return {"fault": "other_prefix", "prefix": prefix_word(event.prefix)}
        return self.fault_of_bounds(piece, event)

    def fault_of_bounds(self, piece, event):
        if self.audit.latest(piece.grant, piece.latest) is None:
            return {"fault": "no_chain_from"}
        begun = self.pair.line(piece.latest[-1]).reading + self.skew + self.transit
        if begun > piece.start:
            return {"fault": "begun_late", "begun": time_of(begun), "from": time_of(piece.start)}
        if self.audit.earliest(piece.grant, piece.earliest) is None:
            return {"fault": "no_chain_to"}
        needed = piece.end + self.skew
        shown = self.pair.line(piece.earliest[0]).reading + 1000 * event.valid
        return {"fault": "ends_early", "needed": time_of(needed), "shown": time_of(shown)}

    def before_open(self):
        """The first side whose earlier volumes may touch the interval."""
        for side in SIDES:
            if self.pair.volume(side) == 1:
                continue
            opened = self.pair.open_reading(side) + self.skew
            if self.certificate.start < opened + self.transit:
                return {"side": side, "needed": time_of(opened + self.transit), "from": time_of(self.certificate.start)}
            for number, piece in enumerate(self.certificate.pieces, start=1):
                if not self.audit.follows_open(piece, side, opened):
                    return {"side": side, "piece": number}
        raise AssertionError("no side is a later volume that refuses")

    def release(self, word, line):
        return {"piece": int(word), "line": line}

    def uncovered(self, word):
        return {"line": word, "delegation": delegation_of(self.pair.line(reference_of(word)).event)}

    def reason(self, word):
        failing = (entry for entry in self.certificate.foreign if not self.audit.reason_holds(entry))
        return {"line": word, **self.fault_of_reason(next(failing))}

    def fault_of_reason(self, entry):
        line = self.pair.line(entry.grant)
        if line is None or not isinstance(line.event, (Grant, Carry)):
            return {"fault": "no_delegation"}
        if isinstance(entry.reason, Early):
            return self.fault_of_early(entry.grant, line.event, entry.reason.chain)
        if isinstance(entry.reason, Late):
            return self.fault_of_late(entry.grant, line.event, entry.reason.chain)
        return self.fault_of_released(entry.grant, line.event, entry.reason)

    def fault_of_early(self, reference, event, chain):
        if self.audit.latest(reference, chain) is None:
            return {"fault": "no_chain"}
        if isinstance(event, Carry):
            ended = event.end + self.skew + self.transit
        elif event.valid == INFINITE:
            return {"fault": "endless"}
        else:
            ended = self.pair.line(chain[-1]).reading + self.skew + self.transit + 1000 * event.valid
        return {"fault": "ends_late", "later": time_of(ended), "earlier": time_of(self.certificate.start)}

    def fault_of_late(self, reference, event, chain):
        if self.audit.earliest(reference, chain) is None:
            return {"fault": "no_chain"}
        if isinstance(event, Carry):
            return {"fault": "carried"}
        later = self.certificate.end + self.skew
        return {"fault": "begins_early", "later": time_of(later), "earlier": time_of(self.pair.line(chain[0]).reading)}

    def fault_of_released(self, reference, event, reason):
        if self.audit.latest(reason.release, reason.latest) is None:
            return {"fault": "no_chain"}
        if not ends(self.pair.line(reason.release).event, event):
            return {"fault": "not_given_back"}
        if not self.audit.precedes(reference, reason.release, reason.order):
            return {"fault": "not_behind"}
        later = self.pair.line(reason.latest[-1]).reading + self.skew
        return {"fault": "given_back_late", "later": time_of(later), "earlier": time_of(self.certificate.start)}


def reference_of(word):
    return Reference(word[0], int(word[1:]))


# What each condition compares, told the words behind the refusal's name.
CONDITIONS = {
    "C4": Failures.empty_interval,
    "C5": Failures.past_end,
    "C6": Failures.gap,
    "C7": Failures.grant,
    "C11": Failures.before_open,
    "C8": Failures.release,
    "C9": Failures.uncovered,
    "C10": Failures.reason,
}
