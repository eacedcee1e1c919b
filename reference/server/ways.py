"""What may become of a message that a daemon hears: one way for each moment at which it may have looked at it."""

from dataclasses import dataclass

from . import again, answers
from .life_ports import port_of
from .limiting import Asking
from .permit import Permit


@dataclass
class Way:
    """What becomes of a message by what the clock shows: what may be ordered, whether it is a RELEASE of which nothing
    is done, and the answer that tells again what the client has, if that is its answer."""

    at: int
    permit: Permit
    is_early: bool
    told: bytes | None


def ways_of(life, exchange, message):
    """All that may become of it, by each reading, and by how long the server may be without its partner."""
    orders = answers.orders_by_association(message, life.manner)
    found = []
    for is_apart in life.apart(exchange):
        for at in life.readings(exchange):
            asking = Asking(message, orders, port_of(message), at, is_apart)
            permit = life.policy.permit(life.book, asking)
            is_early = again.is_early(life.book, life.limits.renew_floor, message, at, permit)
            found.append(Way(at, permit, is_early, life.told_again(message, at, permit)))
    return found
