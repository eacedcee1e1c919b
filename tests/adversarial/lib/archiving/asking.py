"""The desk, asked of journals by hand and of directories."""
import subprocess
from pathlib import Path
from typing import NamedTuple

from auditor.words import prefix_word

SECOND = Path(__file__).resolve().parents[4] / "reference" / "desk"
# A question that takes longer is one that hangs, in seconds.
PATIENCE = 60


class Answer(NamedTuple):
    out: bytes
    err: bytes
    status: int

    def holder(self):
        """The first line of an answer that names somebody."""
        return self.out.partition(b"\n")[0]

    def interval(self):
        """From when to when it names somebody."""
        return [int(word) for word in self.out.splitlines()[1].split()[1:]]

    def stretches(self):
        """The certificates of an answer of `find`, each behind the line of its journals."""
        parts = self.out.split(b"journals ")[1:]
        return [part[part.index(b"pd-certificate") : part.index(b"\nend\n") + 5] for part in parts if b"pd-certificate" in part]

    def certificate(self):
        """The certificate in an answer of `who`, None where it names nobody."""
        start = self.out.find(b"pd-certificate")
        return None if start < 0 else self.out[start:]


class Desk:
    """The program, with the settings of the pair."""

    def __init__(self, program, settings):
        self.program = program
        self.margins = ["--skew-ms", str(settings.skew), "--transit-ms", str(settings.transit)]

    def run(self, program, words, given=b""):
        run = subprocess.run([program, *words], input=given, capture_output=True, check=False, timeout=PATIENCE)
        return Answer(run.stdout, run.stderr, run.returncode)

    def who(self, prefix, moment, texts=(), paths=()):
        """Who held a prefix at a moment, by two journals' texts or by what paths name."""
        words = ["who", *self.margins, "--prefix", prefix_word(prefix), "--at", f"{moment}ms"]
        words += [word for path in paths for word in ("--journals", str(path))]
        return self.run(self.program, words, b"".join(texts))

    def over(self, command, words, paths):
        """A command over what paths name."""
        named = [word for path in paths for word in ("--journals", str(path))]
        margins = [] if command == "timeline" else self.margins
        return self.run(self.program, [command, *margins, *words, *named])

    def find(self, holder, prefix, start, end, paths):
        """The evidence that a client held a prefix from one moment to another."""
        words = ["--holder", holder, "--prefix", prefix_word(prefix), "--from", str(start), "--to", str(end)]
        return self.over("find", words, paths)

    def judges(self, command, certificates, file, paths, workers=1):
        """What `audit` or `batch` says of certificates over what paths name."""
        file.write_bytes(b"".join(certificates))
        workers = ["--workers", str(workers)] if command == "batch" else []
        return self.over(command, [*workers, "--certificate", str(file)], paths)

    def batch(self, texts, certificates):
        """What both auditors say of certificates over two journals."""
        words, given = ["batch", *self.margins, "--workers", "1"], b"".join([*texts, *certificates])
        return [self.run(program, words, given) for program in (self.program, str(SECOND))]
