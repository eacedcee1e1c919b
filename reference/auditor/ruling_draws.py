"""Draws certificates over directories of both servers' volumes, asks two programs for their rulings, and tells where they differ."""
import os
import pathlib
import random
import shutil
import subprocess
import tempfile

from .changing import changed_certificate
from .desk import Evidence
from .explaining import object_of
from .joined_draws import PATHS, Difference, Draw, own_volumes, volumes_of
from .joining import Stopped
from .rulings import ACCEPTED, Rulings, texts_over, wider
from .running import CLIENTS
from .schema import fault_of
from .searching import Search
from .spans import Lacking, Question, several_of
from .volumes import Fault, Folder
from .writing import certificate_text

FILE = "certificates"
# At how many moments of a draw certificates are searched, how often one is changed, and how many volumes are taken in front at most.
MOMENTS, CHANGED, WIDENED = 4, 0.25, 3


def spans_at(rng, question):
    """Volumes that `who` may take at a moment, with the journals that they show."""
    spans = question.moment()
    evidence = Evidence(*texts_over(question, spans))
    for _ in range(rng.randint(0, WIDENED)):
        further = None if evidence.pair is None else wider(question, spans, evidence)
        if further is None:
            break
        spans, evidence = further, Evidence(*texts_over(question, further))
    return evidence


def drawn(rng, draw):
    """Certificates' texts, most of which hold over some volumes, each with the margins that it is made with."""
    folder = Folder(PATHS)
    for _ in range(MOMENTS):
        asked = draw.question().asked
        try:
            evidence = spans_at(rng, Question(folder, asked, True))
        except (Lacking, Stopped, Fault):
            continue
        if evidence.refusal(asked.skew):
            continue
        certificate = Search(evidence.pair, rng, asked.skew, asked.transit).draw()
        if certificate is not None:
            is_changed = rng.random() < CHANGED
            yield asked, certificate_text(changed_certificate(rng, certificate, CLIENTS) if is_changed else certificate)


def second_says(asked, text):
    """What may be said: lines, each with the volumes that it is over."""
    try:
        folder = Folder(PATHS)
        refusals = folder.refusals()
        return [(refusal, "") for refusal in refusals] or [tuple(Rulings(folder, asked.skew, asked.transit).of(text))]
    except Stopped as stopped:
        return [(stopped.line, "")]
    except Fault as fault:
        return [(f"fault {str(fault).partition(': ')[0]}", "")]


def words_of(asked, volumes=""):
    """The words of `audit`; where volumes are named, over these."""
    words = ["audit", "--journals", *PATHS, "--skew-ms", str(asked.skew), "--transit-ms", str(asked.transit)]
    return [*words, "--certificate", FILE, *(["--volumes", ",".join(volumes.split(" ")[1:])] if volumes else [])]


def desk_says(desk, asked, volumes=""):
    """The line that the desk says, the volumes that it names, and all that it wrote."""
    done = subprocess.run([desk, *words_of(asked, volumes)], capture_output=True, stdin=subprocess.DEVNULL, check=False)
    written, complaint = (octets.decode("utf-8", "replace") for octets in (done.stdout, done.stderr))
    rows = list(dict.fromkeys(complaint.splitlines()))
    line = next((row.partition(": ")[0] for row in rows if row.startswith("fault ")), written.removesuffix("\n"))
    status = 0 if line == ACCEPTED else 2 if line.startswith("fault ") else 1
    own = own_volumes(rows)
    said = line, volumes_of(rows, own) if own else ""
    return said if done.returncode == status else (line, f"status {done.returncode}"), f"{written[:600]}{complaint}status {done.returncode}"


def object_differs(desk, asked, said):
    """Where the objects of `audit` and `explain` have another line or other volumes than was said, None where neither has."""
    for command in ("audit", "explain"):
        words = [command, *words_of(asked)[1:], "--json"]
        done = subprocess.run([desk, *words], capture_output=True, stdin=subprocess.DEVNULL, check=False)
        written = done.stdout.decode("utf-8", "replace")
        told = object_of(written)
        if told is None or (fault := fault_of(told)) is not None:
            return words, "an object of the schema", written[:600] if told is None else fault
        if "fault" in told:
            theirs = told["fault"].partition(": ")[0], None
        else:
            theirs = told["verdict"] if command == "explain" else "\n".join(told["lines"]), told["volumes"]
        if theirs != (said[0], several_of(said[1])):
            return words, str((said[0], several_of(said[1]))), str(theirs)
    return None


def kind_of(said):
    line, volumes = said
    words = line.split(" ")
    if line == ACCEPTED:
        return "audit accepted over several" if "-" in volumes else "audit accepted"
    return f"audit {' '.join(words[:2])}"


def compare_one(desk, asked, text, files):
    """What was met, and the difference, None where there is none."""
    may = second_says(asked, text)
    if desk is None:
        return kind_of(may[0]), None
    pathlib.Path(FILE).write_bytes(text)
    said, whole = desk_says(desk, asked)
    if said not in may:
        return kind_of(may[0]), Difference(words_of(asked), {**files, FILE: text}, str(may), whole)
    # (what is accepted over several volumes is accepted again over those that are named)
    if "-" in said[1] and said[0] == ACCEPTED:
        again, whole = desk_says(desk, asked, said[1])
        if again != said:
            return kind_of(said), Difference(words_of(asked, said[1]), {**files, FILE: text}, str(said), whole)
    if (told := object_differs(desk, asked, said)) is not None:
        words, mine, its = told
        return kind_of(said), Difference(words, {**files, FILE: text}, mine, its)
    return kind_of(said), None


def compare_rulings(desk, seed, index):
    """What was met, and the differences, of the certificates of one draw."""
    rng = random.Random(f"rulings {seed} {index}")
    draw = Draw(rng)
    files, kinds, differences = draw.files(), [], []
    folder, before = pathlib.Path(tempfile.mkdtemp(prefix="rulings-")), os.getcwd()
    try:
        for path in PATHS:
            (folder / path).mkdir()
        for name, octets in files.items():
            (folder / name).write_bytes(octets)
        os.chdir(folder)
        for asked, text in drawn(rng, draw):
            met, found = compare_one(desk, asked, text, files)
            kinds.append([met])
            differences += [found] if found else []
    finally:
        os.chdir(before)
        shutil.rmtree(folder)
    return kinds, differences
