"""Draws certificates that only the volumes from the first moment's to the last's accept, asks two programs for their
rulings, and tells where they differ."""
import contextlib
import os
import pathlib
import random
import shutil
import subprocess
import tempfile
from typing import NamedTuple

from .certificates import Certificate
from .desk import Evidence
from .join_draws import TROUBLES
from .joined_draws import PATHS, Difference, Draw, Lasting, Pair
from .joining import Stopped
from .journals import Grant
from .leases import Asked
from .ruling_draws import FILE, compare_one, second_says, words_of
from .rulings import ACCEPTED, Rulings, are_asked, first_to_last, texts_over
from .searching import Search
from .spans import Lacking, Question
from .volumes import Fault, Folder
from .words import MOST_READING
from .writing import certificate_text

# How often volumes are chosen in a draw, how many certificates are searched over them, and how many are asked.
CHOSEN, SEARCHED, ASKED_OF_EACH = 12, 10, 6
# How much oftener clients renew in these runs, and how much more seldom leases end.
OFTENER, MORE_SELDOM = (1, 2, 4), (1, 0.3, 0.1)
# How often a certificate is kept that others accept too, or that the volumes between refuse.
OFTEN_ANY = 0.03
# How often settings are drawn anew where a lease is looked for longer than so many thousandths of its life.
OFTEN_LONG, LONG = 0.9, 2500
# How often a certificate is cut where it is just within reach, or out of it.
OFTEN_AT_REACH = 0.5
# So many directories are drawn until there are such certificates over one.
MOST_DRAWN = 12
# What befalls a volume between.
LOST = [Pair.lost] * 8


def late_of(settings, skew, transit):
    """For how long a lease is looked for that began before a volume."""
    return 1000 * (settings.life + settings.mclt) + 2 * (2 * skew + transit)


class Renewing(Lasting):
    """A run whose clients renew, and have what they have over many volumes."""

    def __init__(self, rng):
        super().__init__(rng)
        self.weights["renew"] *= rng.choice(OFTENER)
        for kind in ("release", "expire"):
            self.weights[kind] *= rng.choice(MORE_SELDOM)
        # (few units are renewed oftener)
        self.units = self.units[: rng.choice((1, 2, 2, 4))]

    def drawn_settings(self, rng):
        """Settings, mostly such that a few lives are longer than a lease is looked for."""
        settings = super().drawn_settings(rng)
        while rng.random() < OFTEN_LONG and late_of(settings, settings.skew, settings.transit) > LONG * settings.life:
            settings = super().drawn_settings(rng)
        return settings

    def propose_renew(self, server, prefix, reading):
        return super().propose_renew(server, self.active(server, prefix), reading)


class Near(Pair):
    """Directories of which some volumes alone are spoiled."""

    # The volumes that may be spoiled, by side and number; None where any may be.
    near = None

    def some(self, is_fit=lambda volume: True):
        is_near = lambda volume: self.near is None or (volume.side, volume.number) in self.near
        return super().some(lambda volume: is_near(volume) and is_fit(volume))


class BetweenDraw(Draw):
    """The directories of one draw, without troubles, and certificates over them."""

    def __init__(self, rng):
        self.rng = rng
        self.directory = Near(rng, Renewing)
        self.settings = self.directory.run.settings
        self.held = self.directory.entries_of((Grant,))

    def moments(self):
        """Two moments, and margins: the first is mostly in a lease, the second as far off as one lasts, or farther."""
        rng, (skew, transit) = self.rng, self.margins()
        late = late_of(self.settings, skew, transit)
        prefix = self.prefix()
        start = self.in_a_lease(prefix, skew, transit) if rng.random() < 0.7 else self.in_a_roll(skew, transit)
        start = min(max(0, start or 0), MOST_READING)
        end = start + rng.choice((rng.randint(1, late), rng.randint(1, late), late, 2 * late, 4 * late))
        last = max(volume.entries[-1].reading for volume in self.directory.volumes)
        return Asked(prefix, start, skew, transit), min(end, max(start + 1, last - skew - 1), MOST_READING)


class Made(NamedTuple):
    """A certificate, with the question of its last moment."""

    asked: Asked
    certificate: Certificate


def cut(certificate, start, end):
    """The part of a certificate from one moment to another; None where nothing is left."""
    start, end = max(start, certificate.start), min(end, certificate.end)
    pieces = [
        piece._replace(start=max(start, piece.start), end=min(end, piece.end))
        for piece in certificate.pieces
        if piece.end > start and piece.start < end
    ]
    return certificate._replace(start=start, end=end, pieces=pieces) if pieces else None


def bounds_of(question, asked):
    """Moments at which another volume shows the first or the last moment."""
    for shelf in question.shelves.values():
        for ends in shelf.ends.values():
            yield from (ends.opened + asked.skew + asked.transit, ends.last - asked.skew)


def bounds_of_reach(draw, question, asked):
    """The ends from which the volumes of a certificate that begins at a moment are out of reach of a side."""
    late = late_of(draw.settings, asked.skew, asked.transit)
    for shelf in question.shelves.values():
        second = shelf.span_at(asked)[0] + 1
        if second in shelf.ends:
            yield shelf.ends[second].opened + late


def part_of(draw, question, asked, certificate):
    """A certificate, or a part that begins or ends where another volume shows it, or just within reach or out of it."""
    rng, start, end = draw.rng, certificate.start, certificate.end
    reaches = [bound for bound in bounds_of_reach(draw, question, asked) if start < bound < end]
    if reaches and rng.random() < OFTEN_AT_REACH:
        return cut(certificate, start, rng.choice(reaches) + rng.choice((0, 0, 1))) or certificate
    inside = [bound for bound in bounds_of(question, asked) if start < bound < end]
    for _ in range(rng.choice((0, 1, 1, 2))):
        bound = rng.randint(start, end)
        if inside and rng.random() < 0.8:
            bound = rng.choice(inside) + rng.choice((-1, 0, 0, 1))
        certificate = cut(certificate, *((bound, end) if rng.random() < 0.3 else (start, bound))) or certificate
        start, end = certificate.start, certificate.end
    return certificate


class Joins:
    """What the volumes from one moment's to another's are together, each of these once."""

    def __init__(self, folder):
        self.folder, self.evidence = folder, {}

    def over(self, question, start):
        """The journals of these volumes; None where they are none."""
        try:
            spans = first_to_last(question, start)
            key = tuple(spans.values())
            if key not in self.evidence:
                self.evidence[key] = Evidence(*texts_over(question, spans)) if all(key) else None
            return self.evidence[key]
        except (Lacking, Stopped, Fault):
            return None

    def are_several(self, made):
        """Whether the volumes from a certificate's first moment's to its last one's are several of a side."""
        _, spans = spans_of(made, self.folder)
        return spans is not None and all(spans.values()) and any(len(numbers) > 1 for numbers in spans.values())

    def accept(self, made):
        """Whether these volumes accept it, be they in reach or not."""
        evidence = self.over(Question(self.folder, made.asked, True), made.certificate.start)
        return evidence is not None and verdict_of(evidence, made) == ACCEPTED


def verdict_of(evidence, made):
    return evidence.verdict(certificate_text(made.certificate), made.asked.skew, made.asked.transit)


def searched(draw, joins):
    """Certificates that hold over all volumes from one drawn moment's to another's, and parts of them."""
    asked, end = draw.moments()
    question = Question(joins.folder, asked._replace(moment=end), True)
    evidence = joins.over(question, asked.moment)
    if evidence is None or evidence.refusal(asked.skew):
        return
    search = Search(evidence.pair, draw.rng, asked.skew, asked.transit)
    for certificate in beginning_at(search, asked):
        part = part_of(draw, question, asked, certificate)
        made = Made(asked._replace(prefix=part.prefix, moment=part.end - 1), part)
        is_wanted = joins.accept(made) or draw.rng.random() < OFTEN_ANY
        if joins.are_several(made) and is_wanted and verdict_of(evidence, made) == ACCEPTED:
            yield made


def beginning_at(search, asked):
    """Certificates that begin at a moment, of whom grants near it name."""
    late, early = asked.moment - asked.skew - asked.transit, asked.moment + asked.skew
    grants = [line for _, line in search.grants if line.reading <= late]
    near = [line.event for line in grants if line.reading + 1000 * line.event.valid > early]
    for _ in range(SEARCHED if near else 0):
        event = search.rng.choice(near)
        certificate = search.from_moment(event.client, search.queried(event.prefix), asked.moment)
        if certificate.pieces:
            yield certificate


def is_between(rulings, made):
    """Whether neither a certificate's own pair nor the spans of its first and its last moment accept it."""
    text = certificate_text(made.certificate)
    return rulings.own(made.certificate, text).line != ACCEPTED and rulings.near_an_end(made.certificate, text) is None


def drawn(draw):
    """Certificates over directories without troubles, most of which neither end's own volumes accept."""
    folder, found = Folder(PATHS), {}
    joins = Joins(folder)
    for _ in range(CHOSEN):
        for made in searched(draw, joins):
            rulings = Rulings(folder, made.asked.skew, made.asked.transit)
            with contextlib.suppress(Stopped, Fault):
                if is_between(rulings, made) or draw.rng.random() < OFTEN_ANY:
                    found.setdefault(certificate_text(made.certificate), made)
    return draw.rng.sample(list(found.values()), min(ASKED_OF_EACH, len(found)))


def spans_of(made, folder):
    """The question of a certificate's last moment, and the volumes from its first one's; None where there are none."""
    question = Question(folder, made.asked, True)
    try:
        return question, first_to_last(question, made.certificate.start)
    except Lacking:
        return question, None


def kind_of(made, was_accepted):
    """What is met by a certificate: which volumes accept it, or why those between don't."""
    folder, text = Folder(PATHS), certificate_text(made.certificate)
    rulings = Rulings(folder, made.asked.skew, made.asked.transit)
    try:
        if folder.refusals():
            return "of all"
        if not is_between(rulings, made):
            return "by others"
        if rulings.between(made.certificate, text):
            return "accepted"
        question, spans = spans_of(made, folder)
        if spans is None:
            return "lacking"
        if any(number not in question.shelves[side].ends for side, numbers in spans.items() for number in numbers):
            return "missing"
        if not all(spans.values()) or all(len(numbers) == 1 for numbers in spans.values()):
            return "not several"
        if not are_asked(question, spans):
            return "out of reach"
    except (Stopped, Fault):
        return "of all"
    return "spoiled" if was_accepted else "refused"


def details_of(made, kind):
    """Of what is accepted, or out of reach, what is said more of it."""
    if kind not in ("accepted", "out of reach"):
        return []
    question, spans = spans_of(made, Folder(PATHS))
    shelves, start = question.shelves, made.asked._replace(moment=made.certificate.start)
    first = {side: shelf.span_at(start) for side, shelf in shelves.items()}
    last = {side: shelf.span_at(made.asked) for side, shelf in shelves.items()}
    rolls = [len(numbers) > 1 for numbers in (*first.values(), *last.values())]
    seconds = [shelves[side].ends[numbers[1]] for side, numbers in spans.items() if len(numbers) > 1]
    bounds = [second.opened + question.reach(last) for second in seconds]
    is_at_bound = made.asked.moment in (min(bounds), min(bounds) - 1)
    is_other = len({numbers[0] for numbers in spans.values()}) > 1
    details = ["in a roll"] * any(rolls) + ["at the bound"] * is_at_bound + ["of other numbers"] * is_other
    are_many = any(len(numbers) > 2 for numbers in spans.values())
    return details + ["of one of a side"] * (len(bounds) == 1) + ["of three or more"] * are_many


def batch_differs(desk, asked, texts, files):
    """Where `batch` says other lines than the second; None where it doesn't, or one line is said of all."""
    may = [second_says(asked, text) for text in texts]
    lines = [said[0][0] for said in may]
    if any(line.startswith("fault ") or line.startswith("refused V") for line in lines):
        return None
    pathlib.Path(FILE).write_bytes(b"".join(texts))
    words = ["batch", *words_of(asked)[1:], "--workers", "2"]
    done = subprocess.run([desk, *words], capture_output=True, stdin=subprocess.DEVNULL, check=False)
    its = [line.partition(": ")[0] for line in done.stdout.decode("utf-8", "replace").splitlines()]
    if its == lines:
        return None
    return Difference(words, {**files, FILE: b"".join(texts)}, str(lines), f"{its}{done.stderr[:600]}")


@contextlib.contextmanager
def in_folder(files):
    """A folder with these files, as the present one."""
    folder, before = pathlib.Path(tempfile.mkdtemp(prefix="between-")), os.getcwd()
    try:
        for path in PATHS:
            (folder / path).mkdir()
        for name, octets in files.items():
            (folder / name).write_bytes(octets)
        os.chdir(folder)
        yield
    finally:
        os.chdir(before)
        shutil.rmtree(folder)


def ask(desk, all_made, files, accepted):
    """What was met, and the differences, in the present folder; `accepted` keeps what the volumes between accept."""
    kinds, differences = [], []
    for made in all_made:
        text = certificate_text(made.certificate)
        kind = kind_of(made, text in accepted)
        met, found = compare_one(desk, made.asked, text, files)
        kinds.append([met, f"between {kind}", *[f"between {kind} {detail}" for detail in details_of(made, kind)]])
        differences += [found] if found else []
        accepted |= {text} if kind == "accepted" else set()
    margins = {(made.asked.skew, made.asked.transit) for made in all_made}
    for each in sorted(margins) if desk else ():
        of_these = [made for made in all_made if (made.asked.skew, made.asked.transit) == each]
        texts = [certificate_text(made.certificate) for made in of_these]
        found = batch_differs(desk, of_these[0].asked, texts, files)
        differences += [found] if found else []
    return kinds, differences


def spoil(draw, all_made, folder):
    """Puts one or two troubles into volumes between a certificate's first ones and its last ones, or into those."""
    rng = draw.rng
    _, spans = spans_of(rng.choice(all_made), folder)
    near = [(side, number) for side, numbers in spans.items() for number in numbers]
    inner = [(side, number) for side, numbers in spans.items() for number in numbers[1:-1]]
    draw.directory.near = inner if inner and rng.random() < 0.6 else near
    for trouble in rng.sample([*TROUBLES, *LOST], rng.choice((1, 1, 2))):
        trouble(draw.directory)


def compare_between(desk, seed, index):
    """What was met, and the differences, of the certificates of one draw: over whole directories, then spoiled ones."""
    rng, accepted, all_made = random.Random(f"between {seed} {index}"), set(), []
    for _ in range(MOST_DRAWN):
        draw = BetweenDraw(rng)
        files = draw.files()
        with in_folder(files):
            all_made = drawn(draw)
            kinds, differences = ask(desk, all_made, files, accepted)
            if all_made:
                spoil(draw, all_made, Folder(PATHS))
                break
    else:
        return [], []
    with in_folder(draw.files()):
        further, others = ask(desk, all_made, draw.files(), accepted)
    return kinds + further, differences + others
