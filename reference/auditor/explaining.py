"""Holds what `desk explain --json` says of drawn inputs against the second auditor's own report."""
import collections
import itertools
import json

from .desk import parted
from .reports import explanation

# The most inputs of one verdict that a draw offers.
MOST_OFFERED = 2
# Longer inputs aren't explained.
MOST_OCTETS = 200_000


def offered(rng, audits, most=MOST_OFFERED):
    """Of audits with their verdicts' kinds some of each: the kind of the explanation, command words and input."""
    by_kind = collections.defaultdict(list)
    for kind, (_, *options), text in audits:
        if len(text) <= MOST_OCTETS:
            by_kind[kind].append((options, text))
    for kind, inputs in by_kind.items():
        for options, text in rng.sample(inputs, min(most, len(inputs))):
            yield kind_of_explanation(kind, options, text), ["explain", *options, "--json"], text


def kind_of_explanation(kind, options, text):
    """A verdict's kind, with what was compared, or with the reasons that an accepted certificate gives."""
    said = explanation(*parted(text), *margins_of(options))
    if said["report"] is None:
        # All rules together count as one verdict.
        return kind.partition(" ")[0]
    if kind == "accepted":
        return " ".join([kind, *sorted(set(reasons_of(said["report"])))])
    told = said["failure"]
    return " ".join([kind, told.get("fault", "needed" if "needed" in told else "")]).rstrip()


def reasons_of(report):
    """The reasons that a report has, with the ways in which lines come before others."""
    for piece in report["pieces"]:
        for release in piece["releases"]:
            yield from reason_of(release["cleared"])
    for entry in report["foreign"]:
        yield from reason_of(entry["outside"])


def reason_of(why):
    yield "-".join([why["why"], why["order"]["by"]] if "order" in why else [why["why"]])


def margins_of(options):
    """The skew and the transit that options say."""
    values = dict(zip(options[::2], options[1::2]))
    return int(values["--skew-ms"]), int(values.get("--transit-ms", 0))


def evenly(offers, most):
    """Of what was offered so many, one of each kind in turn."""
    by_kind = collections.defaultdict(list)
    for kind, *question in offers:
        by_kind[kind].append((kind, *question))
    rounds = itertools.zip_longest(*[by_kind[kind] for kind in sorted(by_kind)])
    return list(itertools.islice((offer for turn in rounds for offer in turn if offer), most))


def without_repeats(members):
    """An object's members; a name that stands twice is no object of ours."""
    names = [name for name, _ in members]
    assert len(set(names)) == len(names), names
    return dict(members)


def object_of(text):
    """The one line of JSON that a text is, None where it is none."""
    try:
        assert text.count("\n") == 1 and text.endswith("\n")
        return json.loads(text, object_pairs_hook=without_repeats)
    except (ValueError, AssertionError):
        return None


def canonical(value):
    return json.dumps(value, sort_keys=True)


def first_difference(second, desk, place=""):
    """Where two objects differ first, and what stands there."""
    if isinstance(second, dict) and isinstance(desk, dict) and second.keys() == desk.keys():
        parts = ((f"{place}.{name}", second[name], desk[name]) for name in second)
    elif isinstance(second, list) and isinstance(desk, list) and len(second) == len(desk):
        parts = ((f"{place}[{at}]", *both) for at, both in enumerate(zip(second, desk)))
    else:
        return place, second, desk
    at, mine, its = next(part for part in parts if canonical(part[1]) != canonical(part[2]))
    return first_difference(mine, its, at)


def difference_of(second, desk):
    """Where two answers of `explain --json` differ, as two texts; None where they say the same."""
    mine, its = object_of(second.written), object_of(desk[0])
    if (second.warned, second.status) != desk[1:]:
        return f"{second.warned}status {second.status}", f"{desk[1]}status {desk[2]}"
    if its is None:
        return second.written, desk[0]
    if canonical(mine) == canonical(its):
        return None
    place, ours, theirs = first_difference(mine, its)
    return f"{place} {canonical(ours)}", f"{place} {canonical(theirs)}"
