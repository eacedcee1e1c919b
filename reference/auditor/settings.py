"""What the open, pool and transit lines of two journals say, whatever rules they break: the warnings K2 and K3."""
from .journals import Open, Pool, Transit

PAIR = "warning K2 Pair: the journals' open, pool or transit lines differ: are they of one pair?"
SKEW = "warning K3 Skew: a journal's own line says a greater skew or transit than is asked with"


def settings_of(journal):
    """A journal's open, pool and transit lines, wherever they stand."""
    return [line for line in journal.lines if isinstance(line.event, (Open, Pool, Transit))]


def says_more(event, skew, transit):
    """Whether a line says a greater skew or transit than these."""
    if isinstance(event, Open):
        return event.skew > skew
    return isinstance(event, Transit) and event.milliseconds > transit


def warnings_of(journals, skew, transit):
    """What should tie two journals and the skew and transit asked with together, and doesn't."""
    first, second = map(settings_of, journals)
    if [line.words for line in first] != [line.words for line in second]:
        yield PAIR
    if any(says_more(line.event, skew, transit) for line in first + second):
        yield SKEW
