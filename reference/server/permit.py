"""Which orders of a client's message may be done, by what stands outside the book."""

from dataclasses import dataclass, field


@dataclass
class Permit:
    """What is told of each order that isn't done, by the place of its IA_PD and its number there; and the places of the
    IA_PDs that are never told again."""

    told: dict = field(default_factory=dict)
    anew: set = field(default_factory=set)

    def of(self, place, number=0):
        """What is told in the place of an order; None where it may be done."""
        return self.told.get((place, number))

    def count(self, answer):
        return list(self.told.values()).count(answer)


ALL = Permit()
