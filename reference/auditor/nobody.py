"""Why `desk who` names nobody: the object that it prints with `--explain --json`, where its status is 1."""
from .journals import Pool
from .leases import Leases
from .settings import PAIR, SKEW, warnings_of
from .values import FORMAT, time_of
from .words import SIDES, prefix_word

# What `who` refuses where the other questions warn.
REFUSED_OF = {PAIR: "refused K2 Pair", SKEW: "refused K3 Skew"}


class Why:
    """Why nobody is named of a prefix at a moment, over two journals, of which those of some sides are still being written."""

    def __init__(self, leases, written=()):
        self.leases, self.written = leases, written
        self.pair = leases.pair
        self.asked = leases.asked
        lines = [line for side in SIDES for line in self.pair.lines[side]]
        pools = [line.event for line in lines if isinstance(line.event, Pool)]
        self.pools = [pool for pool in pools if pool.prefix.overlaps(self.asked.prefix)]
        self.possible = [lease for lease in leases.all if lease.may_have_been()]

    def told(self):
        """The first reason that holds, with its values."""
        for name, values_of in REASONS.items():
            values = values_of(self)
            if values is not None:
                return {"reason": name, **values}
        return {"reason": "nobody"}

    def outside_pools(self):
        return None if self.pools else {}

    def before_first_volume(self):
        """Both sides' first lines are later than the moment, and no volumes came before."""
        opened = {side: self.pair.open_reading(side) for side in SIDES}
        later = all(self.asked.moment + self.asked.skew < reading for reading in opened.values())
        if not later or any(self.pair.volume(side) > 1 for side in SIDES):
            return None
        return {f"journal_{side.lower()}": time_of(opened[side]) for side in SIDES}

    def before_open(self):
        for side in SIDES:
            needed = self.pair.open_reading(side) + self.asked.skew + self.asked.transit
            if self.pair.volume(side) > 1 and self.asked.moment < needed:
                return {"side": side, "needed": time_of(needed)}
        return None

    def after_last_line(self):
        """The first side that still writes its volume and shows too little of it yet."""
        return next((self.ending(side, "last") for side in self.leases.ends_too_soon() if side in self.written), None)

    def past_end(self):
        return next((self.ending(side, "closed") for side in self.leases.ends_too_soon() if side not in self.written), None)

    def ending(self, side, name):
        return {"side": side, "needed": time_of(self.leases.needed()), name: time_of(self.pair.close_reading(side))}

    def unit_lengths(self):
        """How long the units are of pools in which the prefix may be several customers'."""
        return [pool.unit_length for pool in self.pools if pool.unit_length > self.asked.prefix.length]

    def several_customers(self):
        lengths = self.unit_lengths()
        return {"unit_length": lengths[0]} if lengths else None

    def several(self):
        """The first delegation, and the first one of another client."""
        for lease in self.possible:
            if lease.line.event.client != self.possible[0].line.event.client:
                return {"lines": [str(self.possible[0].reference), str(lease.reference)]}
        return None

    def carried(self):
        lines = [str(lease.reference) for lease in self.possible if lease.state["is"] == "carried"]
        return {"line": lines[0]} if lines else None

    def not_shown(self):
        return {} if self.possible else None


# Each reason with what gives its values, or None where it doesn't hold.
REASONS = {
    "outside_pools": Why.outside_pools,
    "before_first_volume": Why.before_first_volume,
    "before_open": Why.before_open,
    "after_last_line": Why.after_last_line,
    "past_end": Why.past_end,
    "several_customers": Why.several_customers,
    "several": Why.several,
    "carried": Why.carried,
    "not_shown": Why.not_shown,
}


def refusal_of(evidence, asked, settings_differ):
    """The line by which `who` refuses two journals, None where it refuses nothing."""
    refused = evidence.refusal(asked.skew)
    if refused:
        return f"refused {refused}"
    if settings_differ:
        return None
    warnings = warnings_of(evidence.pair.journals.values(), asked.skew, asked.transit)
    return next((REFUSED_OF[warning] for warning in warnings), None)


def nobody_over(answer, asked):
    """The object of an answer that says nothing of leases: `refused V1 ..` or the like, or what is lacking; over no volumes, or one of each side."""
    return {
        "format": FORMAT,
        "answer": answer,
        "prefix": prefix_word(asked.prefix),
        "at": time_of(asked.moment),
        "skew_ms": asked.skew,
        "transit_ms": asked.transit,
        "why": None,
        "leases": None,
        "volumes": None,
    }


def nobody_named(evidence, asked, settings_differ, written=()):
    """The object, and the unit lengths of which it may say any; over journals of which some sides' are still being written."""
    refused = refusal_of(evidence, asked, settings_differ)
    if refused:
        return nobody_over(refused, asked), []
    leases = Leases(evidence.pair, asked)
    why = Why(leases, written)
    return {**nobody_over("none", asked), "why": why.told(), "leases": leases.told()}, why.unit_lengths()
