"""Moments, chains and delegations, of the kinds that JSON has."""
import datetime

from .journals import Carry, Grant
from .words import association_word, client_word, prefix_word

# The edition of the objects that are printed.
FORMAT = 1
EPOCH = datetime.datetime(1970, 1, 1)
# The first moment behind the year 9999.
PAST_YEARS = 253_402_300_800_000


def utc_of(milliseconds):
    if milliseconds >= PAST_YEARS:
        return str(milliseconds)
    return (EPOCH + datetime.timedelta(milliseconds=milliseconds)).isoformat(timespec="milliseconds") + "Z"


def time_of(milliseconds):
    return {"ms": milliseconds, "utc": utc_of(milliseconds)}


def words_of_chain(chain):
    return [str(reference) for reference in chain]


def delegation_of(event):
    """What a grant or carry line tells of."""
    return {
        "client": client_word(event.client),
        "iaid": association_word(event.association),
        "prefix": prefix_word(event.prefix),
        "valid_s": event.valid if isinstance(event, Grant) else None,
        "until": time_of(event.end) if isinstance(event, Carry) else None,
    }
