"""Draws directories of both servers' volumes, asks two programs who had a prefix at a moment, and tells where they differ."""
import os
import pathlib
import random
import shutil
import subprocess
import tempfile
from typing import NamedTuple

from .desk import Evidence
from .explaining import canonical, first_difference, object_of
from .join_draws import TROUBLES, Directory, Rolling, renumbered
from .journals import MOST_TRANSIT, Carry, Grant, Release
from .leases import Asked
from .reason_draws import beside, longer, shorter, take_length
from .reports import explanation
from .rules import MOST_SKEW
from .schema import fault_of
from .spans import answers_of, several_of
from .volumes import place_of
from .words import MOST_READING, SIDES, client_word, prefix_word

# So many questions are asked of each directory.
ASKED_OF_EACH = 8
PATHS = list(SIDES)
REFUSED_OF_FILES = tuple(f"refused V{number}" for number in (1, 2, 3, 4))
# How much oftener the servers of these runs roll, and by which part of a life time passes at most.
OFTENER, SLOWER = (1, 2, 4, 8), (2, 4, 16, 64)
# How often a server of which it is said so leaves a roll out.
OFTEN_LEFT_OUT = 0.9


class Lasting(Rolling):
    """A run whose leases last longer than volumes."""

    def __init__(self, rng):
        self.slower, self.seldom = rng.choice(SLOWER), rng.choice(("A", "B", None))
        super().__init__(rng)
        self.weights["roll"] *= rng.choice(OFTENER)

    def roll(self, server):
        """A roll; one of the servers may roll seldom, and its volumes last longer than leases."""
        if server.side != self.seldom or self.rng.random() >= OFTEN_LEFT_OUT:
            super().roll(server)

    def pass_time(self):
        """A step of time: mostly a small part of a life."""
        rng, part = self.rng, 1000 * self.settings.life // self.slower
        steps = (0, 0, 1, rng.randint(0, 3 * self.settings.skew + 2), rng.randint(0, part), rng.randint(0, part))
        if rng.random() < self.haste:
            self.moment = min(self.moment + rng.choice(steps), MOST_READING)


class Pair(Directory):
    """The directories of both servers, and what befalls them beside the troubles of one."""

    def older_copy(self):
        """A side's copy was made at some time in the run: what was written later isn't there."""
        side = self.rng.choice(SIDES)
        made = self.rng.choice([entry for volume in self.volumes if volume.side == side for entry in volume.entries]).reading
        for volume in self.volumes:
            if volume.side == side:
                entries = [entry for entry in volume.entries if entry.reading < made]
                self.files.pop(self.name(volume), None)
                if entries:
                    self.put(volume, renumbered(volume, entries))

    def last_lines_away(self):
        """A copy that ends some lines before the partner's copy does."""
        if volume := self.some(lambda volume: self.is_last(volume) and len(volume.entries) > 4):
            entries = volume.entries[: self.rng.randint(len(volume.entries) // 2, len(volume.entries) - 1)]
            self.put(volume, renumbered(volume, entries))


OFTEN = [Pair.older_copy, Pair.last_lines_away, Pair.older_copy, Pair.last_lines_away, Pair.lost, Pair.lost, Pair.lost]


class Who(NamedTuple):
    """A question over the volumes of two directories."""

    asked: Asked
    settings_differ: bool

    def words(self):
        asked = self.asked
        words = ["who", "--journals", *PATHS, "--skew-ms", str(asked.skew), "--transit-ms", str(asked.transit)]
        words += ["--prefix", prefix_word(asked.prefix), "--at", f"{asked.moment}ms"]
        return [*words, *["--settings-differ"] * self.settings_differ, "--explain", "--json"]


class Draw:
    """The directories of one draw, with none, one or two troubles, and questions over them."""

    def __init__(self, rng):
        self.rng = rng
        self.directory = Pair(rng, Lasting)
        for trouble in rng.sample([*TROUBLES, *OFTEN], rng.choice((0, 0, 0, 1, 1, 2))):
            trouble(self.directory)
        self.settings = self.directory.run.settings
        self.held = self.directory.entries_of((Grant, Carry, Release))

    def files(self):
        """Each file by its path: A's volumes in the first directory, all others in the second."""
        return {f"{name[0] if name[0] in SIDES else 'B'}/{name}": octets for name, octets in self.directory.files.items()}

    def same(self):
        """The paths of copies, with those of the files that they are copies of."""
        return {f"B/{copy}": f"{name[0]}/{name}" for copy, name in self.directory.same.items()}

    def prefix(self):
        rng = self.rng
        prefix = rng.choice(self.held).event.prefix if self.held and rng.random() < 0.95 else rng.choice(self.directory.run.units)
        draw = rng.random()
        if draw < 0.8:
            return prefix
        if draw < 0.9:
            return longer(rng, prefix)
        return shorter(rng, prefix) if draw < 0.97 else beside(rng, rng.choice(self.settings.pools)[0])

    def margins(self):
        """The skew and the transit to ask with: mostly the run's."""
        rng, skew, transit = self.rng, self.settings.skew, self.settings.transit
        draw = rng.random()
        if draw < 0.12:
            # With less than the clocks were off, earlier volumes may be refused that the moment's own aren't.
            skew = rng.choice((0, skew // 4, skew // 2, max(0, skew - 1), skew + 1, 2 * skew, MOST_SKEW))
        elif draw < 0.17:
            transit = rng.choice((0, transit + 1, 1000, MOST_TRANSIT))
        return skew, transit

    def bounds_of_volumes(self, skew, transit):
        """Where another volume begins to show moments, or earlier ones are asked for no longer."""
        longest = 1000 * (self.settings.life + self.settings.mclt)
        for volume in self.directory.volumes:
            opened, last = volume.entries[0].reading, volume.entries[-1].reading
            yield from (opened + skew + transit, last - skew - 1, last - skew, opened, last)
            yield opened + longest + 2 * (2 * skew + transit)

    def bounds_of_lines(self, prefix, skew, transit):
        """Where something of a line begins or ends to hold."""
        for reading, event in self.held:
            if event.prefix.overlaps(prefix):
                yield from (reading - skew, reading + skew, reading + skew + transit)
                if isinstance(event, Grant):
                    yield from (reading + 1000 * event.valid - skew, reading + 1000 * event.valid + skew + transit)
                elif isinstance(event, Carry):
                    yield event.end + skew + transit

    def in_a_roll(self, skew, transit):
        """A moment shortly before or behind a volume's first line."""
        opened = self.rng.choice(self.directory.volumes).entries[0].reading
        return opened + self.rng.randint(-2 * skew - 2, 2 * (skew + transit) + 2)

    def in_a_lease(self, prefix, skew, transit):
        """A moment of which a grant of the prefix may show whose it was, None where nothing grants it."""
        last = max(entry.reading for volume in self.directory.volumes for entry in volume.entries)
        grants = [entry for entry in self.held if isinstance(entry.event, Grant) and entry.event.prefix.overlaps(prefix)]
        if not grants:
            return None
        reading, grant = self.rng.choice(grants)
        begun, ended = reading + skew + transit, min(reading + 1000 * grant.valid, last) - skew
        return self.rng.randint(begun, max(begun, ended))

    def moment(self, prefix, skew, transit):
        rng = self.rng
        lease = self.in_a_lease(prefix, skew, transit)
        if lease is not None and rng.random() < 0.35:
            return lease
        draw = rng.random()
        if draw < 0.25:
            return self.in_a_roll(skew, transit)
        if draw < 0.35:
            readings = [entry.reading for volume in self.directory.volumes for entry in volume.entries]
            return rng.randint(min(readings), max(readings))
        bounds = list(self.bounds_of_lines(prefix, skew, transit)) if draw < 0.7 else []
        return rng.choice(bounds or list(self.bounds_of_volumes(skew, transit))) + rng.choice((-1, 0, 0, 1))

    def ends_of_asking(self, skew, transit):
        """Prefixes, and moments from which a volume asks for none before it, while the other side carries a lease of the prefix."""
        late = 1000 * (self.settings.life + self.settings.mclt) + 2 * (2 * skew + transit)
        volumes = self.directory.volumes
        bounds = [(volume.side, volume.entries[0].reading + late) for volume in volumes if volume.number > 1]
        for volume in volumes:
            carried = [entry.event for entry in volume.entries if isinstance(entry.event, Carry)]
            for side, bound in bounds if carried else ():
                if side != volume.side and volume.entries[0].reading <= bound <= volume.entries[-1].reading:
                    yield from ((carry.prefix, bound) for carry in carried if carry.end + skew + transit > bound)

    def changes(self):
        """The grants of what another client had just before."""
        had = {}
        for entry in sorted(self.held, key=lambda entry: entry.reading):
            event = entry.event
            if isinstance(event, Grant):
                if had.get(event.prefix, event.client) != event.client:
                    yield entry
                had[event.prefix] = event.client

    def question(self):
        prefix, (skew, transit) = self.prefix(), self.margins()
        moment = self.moment(prefix, skew, transit)
        changes = list(self.changes()) if self.rng.random() < 0.25 else []
        if changes:
            entry = self.rng.choice(changes)
            prefix, moment = entry.event.prefix, entry.reading + self.rng.randint(-2 * skew - 2, 2 * (skew + transit) + 2)
        ends = list(self.ends_of_asking(skew, transit))
        if ends and self.rng.random() < 0.5:
            prefix, bound = self.rng.choice(ends)
            moment = bound - self.rng.choice((0, 1))
        moment = min(max(moment, 0), MOST_READING)
        less = skew < self.settings.skew or transit < self.settings.transit
        return Who(Asked(prefix, moment, skew, transit), self.rng.random() < (0.8 if less else 0.05))


class Difference(NamedTuple):
    words: list
    files: dict
    second: str
    desk: str


class Seen(NamedTuple):
    """What a program answered: its object, the volumes that it names, None where it names none, the moment's own, and its status."""

    written: str
    complaint: str
    status: int
    told: object
    volumes: object
    own: tuple


def seen(desk, words):
    done = subprocess.run([desk, *words], capture_output=True, stdin=subprocess.DEVNULL, check=False)
    written, complaint = (text.decode("utf-8", "replace") for text in (done.stdout, done.stderr))
    own = own_volumes(complaint.splitlines())
    return Seen(written, complaint, done.returncode, object_of(written), volumes_of(complaint.splitlines(), own), own)


def own_volumes(rows):
    """The side and the number of the volumes whose files standard error names."""
    files = [file for row in rows if row.startswith("journals ") for file in row.split(" ")[1:]]
    return tuple(place_of(pathlib.Path(file).read_bytes()) for file in files)


def volumes_of(rows, own):
    """The volumes that standard error names: by a line of their own, or by their files where they are one of each side."""
    named = [row for row in rows if row.startswith("volumes ")]
    return named[0] if named else " ".join(["volumes", *[f"{side}{number}" for side, number in own]])


def kinds_of(said):
    """What was met by an answer of the second's, and whether a journal was taken in part."""
    return [*kinds_met(said), *["cut short"] * said.is_cut]


def kinds_met(said):
    """Whom it names or why it names nobody, and over how many volumes."""
    if said.holder:
        return [f"named {width_of(said.volumes)}"]
    if "fault" in said.told:
        return [" ".join(said.told["fault"].split(" ")[:2])]
    answer = said.told["answer"].split(" ")
    if answer[0] == "none":
        reason = said.told["why"]["reason"]
        states = [f"is {lease['at_the_moment']['is']}" for lease in said.told["leases"]]
        return [f"why {reason}", f"{reason} {width_of(said.volumes)}", *states]
    return [f"{answer[0]} {answer[2] if answer[0] == 'lacking' else answer[1]}"]


def width_of(volumes):
    """Whether an answer is over one volume of each side, two of one, or more."""
    counts = []
    for word in volumes.split(" ")[1:]:
        first, _, last = word[1:].partition("-")
        counts.append(int(last or first) - int(first) + 1)
    return {2: "over one", 3: "over two"}.get(sum(counts), "over more")


def difference(said, asked, its):
    """Where an answer of the desk's isn't this one, as two texts; None where it is."""
    if its.told is None:
        return "an object", f"{its.written}{its.complaint}status {its.status}"
    if (fault := fault_of(its.told)) is not None:
        return "an object of the schema", fault
    if said.told and "fault" in said.told:
        return fault_differs(said, its)
    if (fault := said_differs(said, its)) is not None:
        return fault
    if its.status != (0 if said.holder else 1):
        return told_of(said), f"{its.written[:600]}{its.complaint}status {its.status}"
    mine = said.told or report_of(said, asked, its)
    if not said.holder:
        take_length(mine["why"], its.told.get("why"), said.lengths)
    if canonical(mine) == canonical(its.told):
        return None
    place, ours, theirs = first_difference(mine, its.told)
    return f"{place} {canonical(ours)}", f"{place} {canonical(theirs)}"


def said_differs(said, its):
    """The same of what standard error says: the volumes, the files of the moment's own, or what is lacking."""
    own = tuple(zip(SIDES, said.last))
    if said.volumes:
        return None if (said.volumes, own) == (its.volumes, its.own) else (f"{said.volumes} {own}", its.complaint)
    lacking = [row for row in its.complaint.splitlines() if row.startswith("lacking ")]
    answer = said.told["answer"]
    fits = [row.partition(":")[0] for row in lacking] == ([answer] if answer.startswith("lacking ") else [])
    return None if fits else (answer, its.complaint)


def fault_differs(said, its):
    """The same of a fault, whose reason isn't compared."""
    mine, theirs = said.told["fault"], its.told.get("fault", "")
    same = its.status == 2 and mine.partition(": ")[0] == theirs.partition(": ")[0]
    return None if same else (mine, f"{its.written[:600]}{its.complaint}status {its.status}")


def told_of(said):
    return f"named {client_word(said.holder)} {said.volumes}" if said.holder else f"{canonical(said.told)[:600]} {said.volumes}"


def report_of(said, asked, its):
    """The report on the certificate that the desk found, which has to be accepted and to name this client at the moment."""
    text = (its.told.get("certificate") or "").encode()
    report = explanation(Evidence(*said.texts), text, asked.skew, asked.transit, several_of(said.volumes))
    if report["verdict"] != "accepted":
        return report
    question = report["report"]["question"]
    is_asked = question["holder"] == client_word(said.holder) and question["prefix"] == prefix_word(asked.prefix)
    covers = question["from"]["ms"] <= asked.moment < question["to"]["ms"]
    return report if is_asked and covers else {**report, "verdict": f"accepted, but not of {told_of(said)}"}


def by_messages(may, said):
    """Where only messages show who it was over some volumes, whether that was found."""
    if len(may) == 1 or not may[0].holder:
        return []
    return ["by messages alone, not found" if said is may[-1] else "by messages alone"]


def compare_one(desk, who, files):
    """What was met, and the difference, None where there is none."""
    may = answers_of(PATHS, who.asked, who.settings_differ)
    if desk is None:
        return kinds_of(may[-1]), None
    its = seen(desk, who.words())
    told = []
    for said in may:
        found = difference(said, who.asked, its)
        if found is None:
            return [*kinds_of(said), *by_messages(may, said)], None
        told.append(found)
    return kinds_of(may[-1]), Difference(who.words(), files, *told[-1])


def all_refused(kinds):
    """Whether files were refused often enough: they are so at each moment."""
    return len(kinds) == 2 and all(met[0] in REFUSED_OF_FILES for met in kinds)


def compare(desk, seed, index):
    """How often each answer was met, and the differences, of all questions of one draw."""
    draw = Draw(random.Random(f"joined {seed} {index}"))
    files, kinds, differences = draw.files(), [], []
    folder, before = pathlib.Path(tempfile.mkdtemp(prefix="joined-")), os.getcwd()
    try:
        for path in PATHS:
            (folder / path).mkdir()
        for name, octets in files.items():
            (folder / name).write_bytes(octets)
        os.chdir(folder)
        while len(kinds) < ASKED_OF_EACH and not all_refused(kinds):
            met, found = compare_one(desk, draw.question(), files)
            kinds.append(met)
            differences += [found] if found else []
    finally:
        os.chdir(before)
        shutil.rmtree(folder)
    return kinds, differences
