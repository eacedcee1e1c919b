"""Drawn questions, what the desk answers, and how that is held against what clients were told."""
import collections
import concurrent.futures
import ipaddress
import itertools
import json
import subprocess
import time
from dataclasses import dataclass

SECOND, DAY = 1000, 86_400_000
# Of how many questions one is asked why nobody is named.
EXPLAINED = 5
# How often each kind of question is drawn.
KINDS = {"a held prefix": 5, "behind an answer": 2, "a known prefix": 1, "near an end": 1, "in trouble": 1}


@dataclass(frozen=True)
class Question:
    kind: str
    prefix: bytes
    moment: int
    # an address of the prefix, or the prefix itself
    text: str


@dataclass
class Answered:
    question: Question
    verdict: str
    reason: str
    took: float


def drawn(dice, holders, ledger, windows, begins, ends, count):
    """So many questions, of moments of the run."""
    tenures = [held for found in holders.found.values() for held in found if held.end > held.begin]
    lasts = list(itertools.accumulate(held.end - held.begin for held in tenures))
    prefixes = sorted(holders.found)
    questions = []
    while len(questions) < count:
        kind = dice.choices(list(KINDS), KINDS.values())[0]
        held = dice.choices(tenures, cum_weights=lasts)[0]
        if kind == "a held prefix":
            prefix, moment = held.prefix, dice.randrange(held.begin, held.end)
        elif kind == "behind an answer":
            _, prefix, told, _ = dice.choice(ledger.samples)
            moment = told + dice.randrange(DAY)
        elif kind == "a known prefix":
            prefix, moment = dice.choice(prefixes), dice.randrange(begins, ends)
        elif kind == "near an end":
            held = dice.choice(tenures)
            prefix, moment = held.prefix, dice.choice([held.begin, held.end]) + int(dice.gauss(0, 20 * SECOND))
        else:
            _, first, last = dice.choice(windows)
            moment = dice.randrange(first, last)
            prefix = held_at(dice, tenures, moment, held).prefix
        if begins <= moment < ends:
            questions.append(Question(kind, prefix, moment, asked_text(dice, prefix)))
    return questions


def held_at(dice, tenures, moment, other):
    for _ in range(200):
        held = dice.choice(tenures)
        if held.begin <= moment < held.end:
            return held
    return other


def asked_text(dice, prefix):
    number = int.from_bytes(prefix, "big")
    if dice.random() < 0.5:
        return f"{ipaddress.IPv6Address(number)}/56"
    return str(ipaddress.IPv6Address(number + dice.randrange(1 << 72)))


class Desk:
    """The desk over both servers' directories."""

    def __init__(self, program, folders, skew, transit):
        self.words = [program, "who", "--skew-ms", str(skew), "--transit-ms", str(transit)]
        self.journals = [word for folder in folders for word in ("--journals", folder)]

    def ask(self, question, *more):
        words = [*self.words, "--prefix", question.text, "--at", f"{question.moment}ms", *self.journals, *more]
        begun = time.perf_counter()
        done = subprocess.run(words, capture_output=True, text=True, check=False)
        return done, time.perf_counter() - begun

    def answer(self, question, holders, is_explained):
        """What it answers, held against who had the prefix; why it names nobody is asked of some questions alone, since that is another
        question."""
        done, took = self.ask(question)
        said = done.stdout.split("\n", 1)[0]
        told, unheard = holders.at(question.prefix, question.moment)
        if said.startswith("holder ") and done.returncode == 0:
            client = said.split()[1]
            if client in told:
                verdict = "right" if len(told) == 1 else "right, one of two that were told"
            else:
                verdict = "right, but its client hadn't heard it, or had given it back unheard" if client in unheard else "WRONG"
            return Answered(question, verdict, "" if verdict != "WRONG" else said, took)
        if done.returncode != 1:
            return Answered(question, "FAULT", f"{done.returncode} {said} {done.stderr.strip()[-200:]}", took)
        held = "of a held prefix" if told else "nobody had it" if not unheard else "of one unheard"
        why = self.why(question, said, done.stderr, told) if is_explained else ""
        return Answered(question, "none, " + held, why, took)

    def why(self, question, said, complaint, told):
        """Why nobody was named: the refusal, what is lacking, or the report's reason and how the leases that were held stand."""
        lacking = [line for line in complaint.splitlines() if line.startswith("lacking")]
        if lacking:
            return " ".join(lacking[0].split()[:3]).rstrip(":")
        if said.startswith("refused"):
            return " ".join(said.split()[:3])
        done, _ = self.ask(question, "--explain", "--json")
        try:
            report = json.loads(done.stdout)
        except ValueError:
            return f"no report: {done.stdout[:80]!r} {done.stderr[:80]!r}"
        reason = (report.get("why") or {}).get("reason", "?")
        places = collections.Counter(lease["at_the_moment"]["is"] for lease in report.get("leases") or [] if not told or lease["client"] in told)
        return reason + (": " + ", ".join(sorted(places)) if places else ": no lease near")


def ask_all(desk, questions, holders, jobs):
    with concurrent.futures.ThreadPoolExecutor(jobs) as pool:
        return list(pool.map(lambda place: desk.answer(questions[place], holders, place % EXPLAINED == 0), range(len(questions))))


def tables(answers):
    """The tables of what was answered, as text."""
    rows, total = [], len(answers)
    if not answers:
        return "nothing was asked"
    verdicts = collections.Counter(answer.verdict for answer in answers)
    rows += ["| Answer | Questions | Share |", "|---|---|---|"]
    rows += [f"| {verdict} | {count} | {100 * count / total:.2f} % |" for verdict, count in verdicts.most_common()]
    rows += ["", "| Kind of question | " + " | ".join(KINDS) + " |", "|---|" + "---|" * len(KINDS)]
    for verdict in verdicts:
        counts = [sum(answer.verdict == verdict and answer.question.kind == kind for answer in answers) for kind in KINDS]
        rows.append(f"| {verdict} | " + " | ".join(map(str, counts)) + " |")
    rows += ["", f"| Nobody named, because (of each {EXPLAINED}th question) | Questions | Share |", "|---|---|---|"]
    why = collections.Counter((answer.verdict, answer.reason) for answer in answers if answer.reason and answer.verdict.startswith("none"))
    explained = sum(place % EXPLAINED == 0 for place in range(total))
    rows += [f"| {verdict}: {reason} | {count} | {100 * count / explained:.2f} % |" for (verdict, reason), count in why.most_common()]
    took = sorted(answer.took for answer in answers)
    rows += ["", f"seconds a question: median {took[total // 2]:.3f}, 95 % {took[total * 95 // 100]:.3f}, most {took[-1]:.3f}"]
    return "\n".join(rows)
