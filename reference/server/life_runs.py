"""Single lives under drawn settings, and the scripts: what is told again, limits, and leases that end."""

import random
import time
from dataclasses import replace

from . import access, answers
from .life_draws import (WAITS, LifeDraws, bounds_of, drawn_ages, drawn_ahead, drawn_floor, drawn_life, drawn_limits,
                         drawn_records, drawn_short_times, drawn_tail, drawn_times, end_bound, half_of_units,
                         write_past)
from .life_partner import LinkedLife
from .limits import NOT_SAID, Limits
from .linkend import partner_of
from .lives import Life
from .manner_draws import drawn_manner
from .program import Daemon, now
from .serving import plain_settings
from .stories import StoryDraws

# Of a life whose leases end: how often a partner that is there says something in front of a datagram, and leaves.
OFTEN, LEAVES = 0.3, 0.03
# Whether it has a partner, and whether that is there: else it waits all its life.
PARTNERS = (*[(False, False)] * 5, (True, False), *[(True, True)] * 3)


def serve_floor_once(program, seed, count, tally):
    """One life of a server that tells again what it gave not long ago."""
    source = random.Random(seed)
    count_of_past = source.choice((0, 3, 20, 60))
    settings = drawn_times(source, has_past=count_of_past > 0)
    told = Limits(renew_floor=drawn_floor(source, settings))
    floor = told.in_force(settings.life).renew_floor
    manner = replace(drawn_manner(source), releases_each=True)
    begun, ahead = now(), drawn_ahead(source, settings)
    ages = drawn_ages(source, settings, floor, count_of_past, ahead)
    readings = [begun - age for age in ages[-half_of_units(settings):]]
    host, book, draws = drawn_life(source, settings, readings[0] if readings else begun)
    write_past(source, book, draws, readings)
    draws.await_bounds(bounds_of(settings, floor))
    has_link = source.random() < 0.2
    past = list(book.lines) if readings else []
    is_answered = has_link and not past
    with partner_of(settings) as link, \
            Daemon(program, settings, manner, host, has_link, past, told, link=link if is_answered else None) as daemon:
        life = Life(daemon, draws, book, told, tally, manner)
        if is_answered:
            life.be_answered(link)
        life.run(count)
    daemon.count(tally, "lives by the clock")


def serve_ends_once(program, seed, count, tally):
    """One life of a server whose leases end meanwhile: those of a past that are nearly over, or short ones. Some have a
    partner; without it none ends."""
    source = random.Random(seed)
    is_short = source.random() < 0.2
    settings = drawn_short_times(source) if is_short else drawn_times(source, has_past=True)
    told = Limits(renew_floor=source.choice((0, 1, 31_536_000)), units_per_client=source.choice((0, 0, 1, 2, 3)),
                  units_per_port=source.choice((0, 1, 3)), bind_to_port=source.random() < 0.3)
    manner = replace(drawn_manner(source), releases_each=True)
    bound = end_bound(settings)
    readings = sorted(now() - bound + source.randrange(-100, WAITS[1]) for _ in range(source.choice((3, 20, 60))))
    readings = readings[:half_of_units(settings)]
    has_link, is_joined = source.choice(PARTNERS)
    host, book, draws = drawn_life(source, settings, readings[0], kind=StoryDraws if is_joined else LifeDraws)
    write_past(source, book, draws, readings)
    draws.await_bounds([bound - 1, bound, bound + 1])
    draws.claim_of_bound(told)
    draws.pauses = (0, 0, 0.01, 0.03) if is_short else (0,)
    records = drawn_records(source, book, draws)
    past, text = list(book.lines), access.text(book, records)
    with partner_of(settings) as link, \
            Daemon(program, settings, manner, host, has_link, past, told, text, link if is_joined else None) as daemon:
        words = daemon, draws, book, told, tally, manner
        life = LinkedLife(*words, often=OFTEN, leaves=LEAVES) if is_joined else Life(*words)
        life.take_records(records)
        life.run(count)
    daemon.count(tally, "lives whose leases end" + ", with a partner" * is_joined)


def drawn_quota_life(source, settings, told):
    """A life with a past whose grants have records, some of them."""
    begun = now()
    host, book, draws = drawn_life(source, settings, begun, (2, 5, 12, 30), (1, 2, 4, 12))
    draws.heaps = False
    draws.claim_of_bound(told)
    count = min(half_of_units(settings), source.choice((0, 3, 10, 20)))
    write_past(source, book, draws, [begun] * count if count > 1 else [])
    return host, book, draws, drawn_records(source, book, draws)


def serve_limits_once(program, seed, count, tally):
    """One life of a server whose clients and ports may take little."""
    source = random.Random(seed)
    settings = drawn_times(source)
    told = drawn_limits(source)
    manner = replace(drawn_manner(source), releases_each=True)
    host, book, draws, records = drawn_quota_life(source, settings, told)
    past = list(book.lines) if book.lines[-1].event[0] == "grant" else []
    text = access.text(book, records)
    text += drawn_tail(source, text)
    with Daemon(program, settings, manner, host, False, past, told, text) as daemon:
        wait_for_second(told, source)
        life = Life(daemon, draws, book, told, tally, manner)
        life.take_records(records)
        life.run(count)
    daemon.count(tally, "lives with limits")


def serve_scripts(program, tally):
    """Lives whose datagrams are given: one of a server whose settings name no limit, whose clients ask for what they
    may have and more; and two of clients that move from one relay port to another, in one of which the server has a
    partner."""
    for told, script, has_link in ((NOT_SAID, LifeDraws.up_to_usual_limits, False),
                                   (Limits(units_per_port=1), LifeDraws.moving, False),
                                   (Limits(units_per_port=1), LifeDraws.moving, True)):
        host, book, draws = drawn_life(random.Random(1), plain_settings(), now())
        with partner_of(plain_settings()) as link, \
                Daemon(program, plain_settings(), answers.PLAIN, host, has_link, [], told, link=link) as daemon:
            life = Life(daemon, draws, book, told, tally, answers.PLAIN)
            if has_link:
                life.be_answered(link)
            for octets in script(draws):
                life.put(octets, "scripted")
            life.run(0)
        daemon.count(tally, "lives with limits")


def wait_for_second(limits, source):
    """Waits until a second ends soon, where messages of a second are counted."""
    left = 1000 - now() % 1000
    wait = left - source.randrange(20, 200)
    if limits.client_rate != 0 and wait > 0:
        time.sleep(wait / 1000)
