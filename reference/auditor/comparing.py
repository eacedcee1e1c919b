"""Draws inputs, asks the desk and the second auditor, and tells where their answers differ."""
import collections
import random
import subprocess
from typing import NamedTuple

from . import carry_edges, clock_edges, edges, limits, settings_edges
from .desk import Evidence, answer, cut
from .certificates import read_certificate
from .changing import changed_certificate, changed_lines, changed_text, changed_words
from .clocks import least_skew, refusal_of
from .disturbing import disturbed
from .explaining import difference_of, offered
from .finding import judged, words_of_query
from .rules import MOST_SKEW
from .running import CLIENTS, drawn_run
from .searching import Search
from .journals import MOST_TRANSIT
from .truth import two_holders, untrue
from .words import MOST_READING
from .writing import certificate_text, journal_text

# What one draw compares.
CERTIFICATES = 14
CHANGES = 3
DISTURBED = 12
TEXTS = 6
OCTETS = 5
QUERIES = 3


class Question(NamedTuple):
    """Command words and an input; for a query, a certificate of it where one is known."""

    words: list
    text: bytes
    known: object = None


class Difference(NamedTuple):
    words: list
    text: bytes
    second: str
    desk: str


def margins(rng, run, journals):
    """The skew and transit to audit with: mostly the run's, or a skew near the least that the journals fit."""
    skew, transit = run.settings.skew, run.settings.transit
    least = least_skew(Evidence(*journals).behind)
    draw = rng.random()
    if draw < 0.05:
        skew = rng.choice((0, skew + 1, max(0, skew - 1), MOST_SKEW))
    elif draw < 0.1:
        transit = rng.choice((0, transit + 1, max(0, transit - 1), MOST_TRANSIT))
    elif draw < 0.15 or (least > skew and draw < 0.6):
        skew = rng.choice((least, least, max(0, least - 1), min(run.off, MOST_SKEW)))
    return skew, transit


def words_of(command, skew, transit, rng):
    """Command words; a transit of nothing is mostly left out."""
    words = [command, "--skew-ms", str(skew)]
    if transit or rng.random() < 0.2:
        words += ["--transit-ms", str(transit)]
    return words + (["--workers", str(rng.choice((1, 2, 3)))] if command == "batch" else [])


class Draw:
    """The questions of one run."""

    def __init__(self, rng):
        self.rng = rng
        self.run = drawn_run(rng)
        self.journals = [journal_text(side, server.book.volume, server.entries) for side, server in self.run.servers.items()]
        self.skew, self.transit = margins(rng, self.run, self.journals)

    def certificates(self, journals):
        """Certificates that a search draws for two journals, where they are legal."""
        evidence = Evidence(*journals)
        if evidence.before or evidence.after:
            return []
        search = Search(evidence.pair, self.rng, self.skew, self.transit)
        drawn = [search.draw() for _ in range(CERTIFICATES)]
        return [certificate for certificate in drawn if certificate is not None]

    def batch(self, journals, texts):
        return Question(words_of("batch", self.skew, self.transit, self.rng), b"".join([*journals, *texts]))

    def audit(self, text):
        return Question(words_of("audit", self.skew, self.transit, self.rng), text)

    def changes(self, certificate):
        """Texts of a certificate, as it is and changed."""
        yield certificate_text(certificate)
        for _ in range(CHANGES):
            yield certificate_text(changed_certificate(self.rng, certificate, CLIENTS))
        text = certificate_text(certificate)
        yield self.rng.choice((changed_lines, changed_words))(self.rng, text)

    def believe(self, texts):
        """What the second auditor accepts of an honest run must have been so; its clocks and ends aren't refused."""
        if self.skew < self.run.off:
            return
        evidence = Evidence(*self.journals)
        refused = refusal_of(evidence.behind, self.skew) or evidence.carried
        assert refused is None, (refused, self.skew, b"".join(self.journals).decode())
        for text in texts if self.run.honest else []:
            if evidence.verdict(text, self.skew, self.transit) == "accepted":
                fault = untrue(self.run, read_certificate(text), self.transit)
                assert not fault, (fault, self.skew, self.transit, b"".join([*self.journals, text]).decode())

    def questions(self):
        rng = self.rng
        certificates = self.certificates(self.journals)
        texts = [text for certificate in certificates for text in self.changes(certificate)]
        spare = [certificate_text(certificate) for certificate in certificates] or [b"pd-certificate 1\n", b""]
        self.believe(texts)
        yield self.batch(self.journals, texts)
        for _ in range(DISTURBED):
            journals = disturbed(rng, self.run)
            again = [certificate_text(certificate) for certificate in self.certificates(journals)[:4]]
            yield self.batch(journals, [*again, rng.choice(spare), changed_text(rng, rng.choice(spare))])
            if rng.random() < 0.35:
                yield Question([rng.choice(("timeline", "clocks"))], b"".join(journals))
        for _ in range(TEXTS):
            journals = list(self.journals)
            place = rng.randrange(2)
            journals[place] = rng.choice((changed_lines, changed_words, changed_text))(rng, journals[place])
            yield self.audit(b"".join(journals) + rng.choice(spare))
            if rng.random() < 0.35:
                yield Question([rng.choice(("timeline", "clocks"))], b"".join(journals))
        for _ in range(OCTETS):
            yield self.audit(changed_text(rng, b"".join(self.journals) + rng.choice(spare)))
            yield self.audit(b"".join(self.journals) + changed_text(rng, rng.choice(spare)))
        yield Question(["timeline"], b"".join(self.journals))
        yield Question(["clocks"], b"".join(self.journals))
        for certificate in certificates[:QUERIES]:
            yield self.query(self.journals, certificate)
            yield self.query(self.journals, changed_certificate(rng, certificate, CLIENTS))

    def query(self, journals, certificate):
        """A query for a certificate, which is known only where it holds."""
        verdict = Evidence(*journals).verdict(certificate_text(certificate), self.skew, self.transit)
        # A moment past the limit of readings is no word of a query.
        asked = certificate._replace(start=min(certificate.start, MOST_READING), end=min(certificate.end, MOST_READING))
        words = words_of_query(asked, self.skew, self.transit)
        return Question(words, b"".join(journals), certificate if verdict == "accepted" else None)


def desk_answer(desk, question):
    run = subprocess.run([desk, *question.words], input=question.text, capture_output=True, check=False)
    return run.stdout.decode(errors="replace"), run.stderr.decode(errors="replace"), run.returncode


def parts_of(text):
    """The journals of a batch together, and its certificates."""
    first, rest = cut(text)
    second, rest = cut(rest)
    certificates = []
    while rest:
        certificate, rest = cut(rest)
        certificates.append(certificate)
    return first + second, certificates


def compare(desk, question):
    """The verdicts that were met, and the differences."""
    if question.words[0] == "find":
        return compare_query(desk, question)
    written, warned, status = answer(question.words, question.text)
    lines = written.splitlines()
    check_holders(question, lines)
    seen, complaint, ended = desk_answer(desk, question)
    met = kinds_of(question.words[0], lines, status) + kinds_warned(warned)
    if (seen, complaint, ended) == (written, warned, status):
        return met, []
    mine, its = f"{written}{warned}status {status}", f"{seen}{complaint}status {ended}"
    whole = Difference(question.words, question.text, mine, its)
    if question.words[0] != "batch" or len(seen.splitlines()) != len(lines):
        return met, [whole]
    return met, differing(question, lines, seen.splitlines()) or [whole]


def compare_query(desk, question):
    """The same of a query, whose answer need not be the second auditor's own."""
    written, complaint, status = desk_answer(desk, question)
    values = dict(zip(question.words[1::2], question.words[2::2]))
    skew, transit = int(values["--skew-ms"]), int(values.get("--transit-ms", 0))
    evidence = Evidence(*cut(question.text))
    kind, fault = judged(evidence, question, written, skew, transit)
    warned, wanted = evidence.warned(skew, transit), int(written.startswith(("none", "refused")))
    met = [kind, *kinds_warned(warned)]
    if not fault and (complaint, status) == (warned, wanted):
        return met, []
    fault = fault or f"{warned}status {wanted}"
    return met, [Difference(question.words, question.text, fault, f"{written}{complaint}status {status}")]


def check_holders(question, lines):
    """What the second auditor accepts of two journals must name one client for an address at a moment."""
    if lines.count("accepted") > 1:
        _, certificates = parts_of(question.text)
        accepted = [read_certificate(text) for line, text in zip(lines, certificates) if line == "accepted"]
        assert two_holders(accepted) is None, (question.words, question.text.decode())


def differing(question, lines, seen):
    """The differences of a batch, each as an audit of one certificate."""
    audits = zip(lines, seen, audits_of(question))
    return [Difference(words, text, mine, its) for mine, its, (words, text) in audits if mine != its]


def audits_of(question):
    """The command words and the input of each audit that a question asks for."""
    if question.words[0] == "audit":
        yield question.words, question.text
    elif question.words[0] == "batch":
        journals, certificates = parts_of(question.text)
        place = question.words.index("--workers")
        words = ["audit", *question.words[1:place], *question.words[place + 2 :]]
        yield from ((words, journals + certificate) for certificate in certificates)


def kinds_warned(warned):
    """The kinds of these lines of warning."""
    return [line.partition(":")[0] for line in warned.splitlines()]


def kinds_of(command, lines, status):
    """The kind of each verdict; of a timeline or a least skew there is one."""
    if command in ("audit", "batch") or status != 0:
        return [kind_of(line) for line in lines]
    if command == "timeline":
        return [command]
    return ["clocks 0" if lines == ["least-skew 0"] else "clocks"]


def kind_of(line):
    """A verdict's kind: the refusal's code, with the rule for L1."""
    words = line.split(" ")
    if words[0] != "refused":
        return line
    return f"L1 {words[-1]}" if words[1] == "L1" else words[1]


def compare_all(desk, questions, rng):
    """The verdicts that were met, the differences, and inputs that may be explained."""
    met, differences, audits = collections.Counter(), [], []
    for question in questions:
        kinds, found = compare(desk, question)
        met.update(kinds)
        differences += found
        audits += [(kind, *audit) for kind, audit in zip(kinds, audits_of(question))]
    return met, differences, list(offered(rng, audits))


def compare_explanation(desk, words, text):
    """The difference between the desk's explanation and the second's, None where they are equal."""
    question = Question(words, text)
    mine, its = answer(words, text), desk_answer(desk, question)
    told = difference_of(mine, its)
    return told and Difference(words, text, *told)


def at_limits():
    """The questions at limits and bounds."""
    without_transit = [(journals, certificates, (0,)) for journals, certificates in limits.inputs()]
    for journals, certificates, transits in [*without_transit, *edges.inputs()]:
        for transit in transits:
            words = ["batch", "--skew-ms", "2000", "--transit-ms", str(transit), "--workers", "1"]
            yield Question(words, b"".join([*journals, *certificates]))
    for journals, skews in [*clock_edges.inputs(), *carry_edges.inputs()]:
        text = b"".join(journals)
        for skew in skews:
            yield Question(["batch", "--skew-ms", str(skew), "--workers", "1"], text + b"".join(clock_edges.CERTIFICATES))
            yield Question(words_of_query(read_certificate(clock_edges.PLAIN), skew, 0), text)
        yield from (Question([command], text) for command in ("clocks", "timeline"))
    for journals in settings_edges.inputs():
        text = b"".join(journals)
        for skew, transit in settings_edges.ASKED:
            asked = ["--skew-ms", str(skew), "--transit-ms", str(transit)]
            yield Question(["audit", *asked], text)
            for certificates in (b"", settings_edges.CERTIFICATE):
                yield Question(["batch", *asked, "--workers", "1"], text + certificates)
            yield Question(words_of_query(read_certificate(settings_edges.CERTIFICATE), skew, transit), text)
        yield from (Question([command], text) for command in ("clocks", "timeline"))


def compare_limits(desk):
    return compare_all(desk, at_limits(), random.Random("limits"))


def compare_draw(desk, seed, index):
    """All questions of one draw."""
    rng = random.Random(f"{seed} {index}")
    return compare_all(desk, Draw(rng).questions(), rng)
