"""Lives of a server that tells again, has a partner, and whose clock stepped back: many lines of a unit share a
reading."""

import random
from dataclasses import replace

from . import access, answers
from .life_draws import (WAITS, bounds_of, drawn_ages, drawn_floor, drawn_life, drawn_records, drawn_times,
                         half_of_units)
from .life_partner import LinkedLife
from .limits import Limits
from .linkend import partner_of
from .manner_draws import drawn_manner
from .messages import RENEW
from .program import Daemon, now
from .serving import plain_settings
from .stories import WAYS, Story, StoryDraws, write_stories


def drawn_settings(source):
    """Settings with which a grant is mostly longer once the partner has acknowledged one."""
    settings = drawn_times(source, has_past=True)
    mclt, life = settings.mclt, settings.life
    if source.random() < 0.7:
        mclt, life = min(mclt, life), max(mclt, life)
    return replace(settings, role=source.choice("AAB"), skew=source.choice((settings.skew, 250, 2000, 5000, 5000)), mclt=mclt, life=life)


def drawn_readings(source, settings, floor, begun):
    """Readings of a past, many of which are the last: that of a clock up to twice the skew ahead of ours."""
    ahead = min(10_000, 2 * settings.skew)
    ages = drawn_ages(source, settings, floor, source.choice((0, 3, 20)), source.choice((0, ahead)))
    ages += [-source.choice((0, ahead // 8, ahead, ahead))] * source.choice((1, 3, 20))
    early = 1000 * floor + 2 * settings.skew
    if early < 2000 * settings.life:
        ages += [early - source.randrange(*WAITS) for _ in range(source.choice((0, 3, 10)))]
    return sorted(begun - age for age in ages)


def drawn_limits(source, settings):
    """Limits of a server that tells again; in some lives it believes nobody but who sits where a prefix was given."""
    told = Limits(renew_floor=drawn_floor(source, settings) or None, client_rate=source.choice((0, 0, 0, 3)))
    told.bind_to_port = source.random() < 0.4
    if source.random() < 0.3:
        told.units_per_client, told.units_per_port = source.choice((0, 1, 2, 4)), source.choice((0, 1, 3, 6))
    return told


def serve_stories_once(program, seed, count, tally):
    """One life whose past, clients and partner are drawn."""
    source = random.Random(seed)
    settings = drawn_settings(source)
    told = drawn_limits(source, settings)
    floor = told.in_force(settings.life).renew_floor
    manner = replace(drawn_manner(source), releases_each=True)
    readings = drawn_readings(source, settings, floor, now())
    host, book, draws = drawn_life(source, settings, readings[0], kind=StoryDraws)
    write_stories(book, draws, readings, half_of_units(settings))
    draws.await_bounds(bounds_of(settings, floor))
    draws.await_releases(floor)
    draws.claim_of_bound(told)
    records = drawn_records(source, book, draws)
    past, text = list(book.lines), access.text(book, records)
    with partner_of(settings) as link, \
            Daemon(program, settings, manner, host, True, past, told, text, link=link) as daemon:
        life = LinkedLife(daemon, draws, book, told, tally, manner)
        life.take_records(records)
        life.run(count)
    daemon.count(tally, "lives of shared readings")


def serve_script(program, tally):
    """A life in which each way of a unit is gone in one reading, ahead of the clock, by a client whose grant the
    partner had acknowledged before; then each client asks twice for what it has, and twice in the next volume."""
    settings, told = replace(plain_settings(), mclt=600), Limits(renew_floor=3600)
    begun = now()
    host, book, draws = drawn_life(random.Random(1), settings, begun, kind=StoryDraws)
    holders = [(b"client" + bytes([place]), 1) for place in range(len(WAYS))]
    for reading, steps in ((begun, [("given", "known")] * len(WAYS)), (begun + 2 * settings.skew, WAYS)):
        for unit, holder, way in zip(book.table.ordered, holders, steps):
            Story(draws, book, unit, reading, holder).go(way)
    with partner_of(settings) as link, \
            Daemon(program, settings, answers.PLAIN, host, True, list(book.lines), told, link=link) as daemon:
        life = LinkedLife(daemon, draws, book, told, tally, answers.PLAIN, often=0)
        for place, (client, identifier) in enumerate(4 * holders):
            if place == 2 * len(holders):
                life.roll()
            life.put(draws.message(RENEW, client, [(identifier, None)]), "scripted")
        life.run(0)
    daemon.count(tally, "lives of shared readings")
