"""A report as text: the verdict's line, and behind it plain sentences with the numbers of the report and their sums."""
from .auditing import INFINITE


def report_text(said):
    """The text of what `explanation` tells."""
    return "".join(f"{sentence}\n" for sentence in sentences_of(said))


def sentences_of(said):
    yield said["verdict"]
    if said["failure"]:
        yield from failure_sentences(said["failure"])
    report = said["report"]
    if report is None:
        return
    yield from question_sentences(report)
    for number, piece in enumerate(report["pieces"], start=1):
        yield from piece_sentences(report, number, piece)
    for entry in report["foreign"]:
        yield from foreign_sentences(report, entry)
    yield from ("", "The lines that count:")
    yield from (f"    {line['line']} {line['text']}" for line in report["lines"])


def at(time):
    """A moment, with its milliseconds."""
    return f"{time['utc']} [{time['ms']}]"


def said_of(value):
    """What stands at a name of a failure: a moment, a delegation or a plain word."""
    if not isinstance(value, dict):
        return "nothing" if value is None else str(value)
    return at(value) if "ms" in value else delegation_words(value)


def failure_sentences(failure):
    """A refusal's condition, and a line for each value that was compared."""
    yield f"Condition {failure['condition']} isn't met. What was compared:"
    yield from (f"- {name}: {said_of(value)}" for name, value in failure.items() if name != "condition")


def question_sentences(report):
    question = report["question"]
    whole = f"client {question['holder']} have all of {question['prefix']}"
    yield from ("", f"Did {whole} from {at(question['from'])} up to {at(question['to'])}?")
    yield f"The skew is {report['skew_ms']} ms, the transit {report['transit_ms']} ms."
    needed = question["to"]["ms"] + report["skew_ms"]
    for side in "ab":
        journal = report[f"journal_{side}"]
        shown = f"from {at(journal['opened'])} to {at(journal['closed'])}"
        yield f"Journal {side.upper()} is volume {journal['volume']}, {shown}; {needed} is needed there."


def piece_sentences(report, number, piece):
    yield from ("", f"Piece {number} from {at(piece['from'])} up to {at(piece['to'])} is carried by {piece['grant']}.")
    granted = piece["granted"]
    if granted is None:
        yield f"{piece['grant']} grants nothing."
        return
    yield f"At {at(granted['reading'])} it grants {delegation_words(granted)}."
    yield begun_sentence(report, piece)
    yield lasting_sentence(report, piece)
    for release in piece["releases"]:
        yield from release_sentences(release)


def begun_sentence(report, piece):
    by, skew, transit = piece["granted_by"], report["skew_ms"], report["transit_ms"]
    if by is None:
        return f"{'>'.join(piece['chain_from_grant'])} is no chain from the grant."
    begun = f"{by['reading']['ms']} + {skew} (skew) + {transit} (transit) = {by['reading']['ms'] + skew + transit}"
    return f"{marked(by)}, so it had begun by {begun}; the piece begins at {piece['from']['ms']}."


def lasting_sentence(report, piece):
    since, skew, valid = piece["granted_from"], report["skew_ms"], piece["granted"]["valid_s"]
    if since is None:
        return f"{'>'.join(piece['chain_to_grant'])} is no chain to the grant."
    if valid == INFINITE:
        return f"{marked(since)}, and it never ends."
    reading, lifetime = since["reading"]["ms"], 1000 * valid
    lasted = f"{reading} - {skew} (skew) + {lifetime} (lifetime) = {reading - skew + lifetime}"
    return f"{marked(since)}, so it lasted to {lasted}; the piece ends at {piece['to']['ms']}."


def marked(mark):
    return f"{mark['line']} was written at {at(mark['reading'])} by its clock"


def release_sentences(release):
    discharged = "doesn't end the piece" if release["discharged"] else "isn't discharged"
    yield f"{release['line']} gives it back at {at(release['reading'])} and {discharged}."
    cleared = release["cleared"]
    if cleared is None:
        yield "- No entry names it."
    elif cleared["why"] == "before_grant":
        yield f"- It came before the grant: {order_words(cleared['order'])}."
    else:
        yield f"- It came behind the piece: {bound_words(cleared['chain'], cleared['written_from'])}."


def order_words(order):
    if order["by"] == "chain":
        leads = "leads" if order["leads"] else "doesn't lead"
        return f"{'>'.join(order['chain'])} {leads} from the one to the other"
    first = bound_words(order["from_first"], order["first_by"])
    return f"by clocks, the one by {first}, the other from {bound_words(order['to_second'], order['second_from'])}"


def bound_words(chain, mark):
    """A chain and the line at its far end."""
    return f"{'>'.join(chain)}, {'which is no such chain' if mark is None else marked(mark)}"


def delegation_words(told):
    lasts = f"until {at(told['until'])}" if told.get("until") else f"for {told['valid_s']} s"
    return f"{told['prefix']} to client {told['client']} as {told['iaid']}, {lasts}"


def foreign_sentences(report, entry):
    yield ""
    told, outside = entry["told"], entry["outside"]
    if told is None:
        yield f"{entry['line']} tells of no delegation."
    else:
        yield f"{entry['line']} tells at {at(told['reading'])} of {delegation_words(told['delegation'])}."
    mark = outside["written_from"] if outside["why"] == "late" else outside["written_by"]
    if outside["why"] == "released":
        back = "gives it back" if outside["gives_back"] else "doesn't give it back"
        yield f"{outside['release']} {back}; behind it: {order_words(outside['order'])}."
    yield f"The reason is {outside['why']}: {bound_words(outside['chain'], mark)}."
    if mark is not None and told is not None and outside.get("gives_back", True):
        yield from sum_sentences(report, told["delegation"], outside["why"], mark["reading"]["ms"])


def sum_sentences(report, delegation, why, reading):
    """The sums that put a delegation outside of the interval."""
    skew, transit, question = report["skew_ms"], report["transit_ms"], report["question"]
    if why == "late" and delegation["until"]:
        yield "A carry line tells of a grant before it, so that is no reason."
    elif why == "late":
        end = question["to"]["ms"]
        yield f"It came no sooner than {reading} - {skew} = {reading - skew}; the interval ends at {end}."
    else:
        yield end_sentence(delegation, why, reading, skew, transit, question["from"]["ms"])


def end_sentence(delegation, why, reading, skew, transit, begin):
    """By when a delegation that is early or given back had ended."""
    if why == "released":
        ended = f"{reading} + {skew} (skew) = {reading + skew}"
    elif delegation["until"]:
        until = delegation["until"]["ms"]
        ended = f"{until} + {skew} (skew) + {transit} (transit) = {until + skew + transit}"
    elif delegation["valid_s"] == INFINITE:
        return "It never ends."
    else:
        lifetime = 1000 * delegation["valid_s"]
        whole = reading + skew + transit + lifetime
        ended = f"{reading} + {skew} (skew) + {transit} (transit) + {lifetime} (lifetime) = {whole}"
    return f"It had ended by {ended}; the interval begins at {begin}."
