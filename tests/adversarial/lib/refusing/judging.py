"""What has to hold behind a story: each answer has its line, nothing that was told is lost, and the volumes keep the rules."""
import collections

from crashing.judging import Volumes, fits, held_by_two, matched, unwritten_releases
from server.values import prefix_text


def lines_without_moments(answers, sides):
    """The same as `matched` of servers whose clock was no clock for a while: each answer has a line of its own, whenever that reads."""
    left = collections.Counter()
    for side, volumes in sides.items():
        for (key, prefix), lines in volumes.grants.items():
            left.update((side, key, prefix, valid) for _, valid in lines)
    for answer in answers:
        place = answer.server, answer.key, prefix_text(answer.prefix), answer.valid
        if not left[place]:
            yield f"no grant line of {answer}"
        left[place] -= 1


def judged(folder, sides, talker, refusal):
    """What is wrong with the volumes of these sides and with what clients were told; and the volumes."""
    volumes = {side: Volumes(folder, side) for side in sides}
    wrong = [fault for each in volumes.values() for fault in each.faults]
    if wrong:
        return wrong, volumes
    if refusal and refusal.is_of_clock():
        wrong += lines_without_moments(talker.answers, volumes)
    else:
        wrong += [words for _, words in matched(talker.answers, volumes)[1]]
        wrong += unwritten_releases(talker.releases, volumes)
    # a clock that is off by more than the skew may give to one what another has
    if not (refusal and refusal.is_far()):
        wrong += held_by_two(talker.answers, talker.given_back)
    return wrong, volumes


def fit(desk, volumes):
    """What the desk says of two servers' volumes that don't fit, as wholes."""
    return fits(desk, b"".join(each.whole for each in volumes.values()))[0]
