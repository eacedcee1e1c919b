"""Later volumes that begin with any state at all, such as no honest server reaches."""
from .journals import MOST_TRANSIT, WITH_CLIENT, Base, Carry, Open, Pending, Pool, Transit, UnitLine

STATUSES = ("free", "backup", *WITH_CLIENT)
# A change that is due of a unit without a client is none of those that name one.
DUE_WITHOUT_CLIENT = ("none", "backup", "free")


def drawn_head(rng, settings, units, clients, term, reading):
    """The events of a head: legal, but of any numbers."""
    events = [Open(settings.skew, settings.mclt, settings.life), *[Pool(*pool) for pool in settings.pools]]
    if settings.transit:
        events.append(Transit(min(settings.transit, MOST_TRANSIT)))
    waiting = rng.random() < 0.3
    events.append(Base(term, rng.choice((0, 0, 3, 2**48)), rng.choice((0, 0, 1, 5)), waiting, rng.choice((0, 0, 1, 9))))
    units = sorted(units)
    for prefix in units:
        if rng.random() < 0.2:
            end = reading - 2 * settings.skew - settings.transit + rng.choice((1, 1000 * settings.life))
            events.append(Carry(rng.choice(clients), 1, prefix, max(0, end)))
    events += [drawn_unit(rng, settings, prefix, clients, reading) for prefix in units if rng.random() < 0.8]
    return events


def drawn_unit(rng, settings, prefix, clients, reading):
    status = rng.choice(STATUSES)
    client, association = (rng.choice(clients), rng.choice((0, 1))) if status in WITH_CLIENT else (None, 0)
    life = 1000 * settings.life
    ends = [max(0, reading + rng.choice((-life, 0, 1, life // 2, life, 2 * life, 3 * life))) * (rng.random() < 0.8) for _ in range(4)]
    mine, seen = rng.randint(0, 3), rng.randint(0, 3)
    pending = Pending(rng.choice(("accept", "reject")), rng.randint(0, 3), mine, seen) if rng.random() < 0.3 else None
    due = rng.choice(DUE_WITHOUT_CLIENT if client is None else ("none", *WITH_CLIENT))
    return UnitLine(prefix, status, client, association, mine, seen, *ends, due, pending)
