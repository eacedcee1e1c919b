"""What was true in an honest run: whether an accepted certificate may be believed, and two of them together."""
import itertools

from .journals import Close, Grant, Release


def spans(run, transit):
    """Each grant of a run with the moments between which it surely, and those between which it possibly, was valid."""
    for place, (moment, event) in enumerate(run.history):
        if isinstance(event, Grant):
            end = released(run.history[place + 1 :], event)
            lasts = moment + 1000 * event.valid
            yield event, (moment + transit, min(lasts, end)), (moment, min(lasts + transit, end))


def released(later, grant):
    """The moment of the first later release of a grant's client, association and prefix."""
    asked = (grant.client, grant.association, grant.prefix)
    ends = (moment for moment, event in later if isinstance(event, Release) and tuple(event) == asked)
    return next(ends, 2**64)


def untrue(run, certificate, transit):
    """What an accepted certificate says that wasn't so in the run, if anything."""
    last_closes = [moment for moment, event in run.history if isinstance(event, Close)][-2:]
    if certificate.end > min(last_closes):
        return "the interval ends after a close line"
    sure = []
    for grant, surely, possibly in spans(run, transit):
        if grant.client == certificate.holder and grant.prefix.contains(certificate.prefix):
            sure.append(surely)
        elif grant.client != certificate.holder and grant.prefix.overlaps(certificate.prefix):
            if max(possibly[0], certificate.start) < min(possibly[1], certificate.end):
                return f"{grant} may have been valid"
    reached = certificate.start
    for start, end in sorted(sure):
        if start <= reached:
            reached = max(reached, end)
    return "" if reached >= certificate.end else f"the holder had nothing at {reached}"


def two_holders(certificates):
    """The first two certificates that name two clients for one address at one moment, None where none do."""
    return next((pair for pair in itertools.combinations(certificates, 2) if contradict(*pair)), None)


def contradict(first, second):
    together = max(first.start, second.start) < min(first.end, second.end)
    return together and first.holder != second.holder and first.prefix.overlaps(second.prefix)
