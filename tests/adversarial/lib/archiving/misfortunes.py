"""What befalls directories of journals, and what the desk must say of it: a clear line each, and nothing guessed."""
import itertools
import os
import socket
import threading
import time

from auditor.journals import Base, Carry, Open, Pool, Transit, UnitLine
from auditor.writing import event_words

from .choosing import pair_for
from .drawing import SETTINGS

MANY_FILES = 10_000
MOST_LINES = 1 << 20
# So long the desk may take over many files, and over a volume of so many lines, in seconds.
LONGEST = 20
# How many shorter copies are asked of.
SHORTER = 30
HEAD = (Open, Pool, Transit, Base, Carry, UnitLine)


def row(number, reading, words):
    return b"%d %d %s\n" % (number, reading, words)


def contact(serial):
    return b"send 0 %d contact 0 0" % serial


def head_of(volume):
    """What a server's first volume begins with: its head line, and the words of its open, pool and transit lines."""
    return b"pd-journal 1 %s\n" % volume.side.encode(), [event_words(event).encode() for _, event in volume.entries[:3]]


def answer_once(listener, number, lines):
    """Answers one who asks a server's socket: of the volume of this number so many lines are on the disk."""
    with listener.accept()[0] as asker:
        asker.makefile("rb").readline()
        asker.sendall(b'ok\n{"volume": {"number": %d, "synced": %d}}\n' % (number, lines))


class Misfortunes:
    """Directories that were spoiled in some way, beside the drawn archive; a question that the archive answers with a holder."""

    def __init__(self, desk, archive, folder, question):
        self.desk, self.archive, self.folder = desk, archive, folder
        self.moment, self.prefix = question
        self.right = self.ask(archive.paths)
        self.pair = pair_for(archive.volumes, self.moment, SETTINGS)

    def ask(self, paths):
        return self.desk.who(self.prefix, self.moment, paths=paths)

    def beside(self, name):
        """A further directory beside the archive's two."""
        path = self.folder / name
        path.mkdir()
        return path

    def says(self, what, answer, words, status, out=None):
        """A fault where an answer isn't this, or standard error lacks one of these words."""
        missing = [word for word in words if word.encode() not in answer.err]
        if answer.status != status or missing or (out is not None and answer.out != out):
            yield f"{what}: {answer.out[:200]}, {answer.err[:400]}, status {answer.status}; lacks {missing}"

    def stays_right(self, what, paths, words):
        return self.says(what, self.ask(paths), words, self.right.status, self.right.out)

    def no_such_path(self):
        path = self.folder / "nowhere"
        yield from self.says("a path that isn't there", self.ask([*self.archive.paths, path]), [f"fault Path {path}"], 2, b"")
        if os.geteuid() != 0:
            path = self.beside("closed")
            path.chmod(0)
            yield from self.says("a directory that can't be read", self.ask([*self.archive.paths, path]), [f"fault Path {path}"], 2, b"")

    def strange_files(self):
        """A link that leads nowhere, an empty file, a directory, and files that are no journals or not quite."""
        path = self.beside("strange")
        (path / "dangles").symlink_to(path / "nowhere")
        (path / "empty").touch()
        (path / "deeper").mkdir()
        (path / "deeper" / "A-0000001.journal").write_bytes(b"pd-journal 1 A\n")
        (path / "noise").write_bytes(bytes(range(256)) * 64)
        (path / "begun").write_bytes(b"pd-journal 2 A 77\n1 12")
        (path / "torn").write_bytes(b"pd-journal 2 B 78\nno line\n")
        words = ["passed over 5 files that are no volumes: --verbose says which, and why\n"]
        yield from self.stays_right("strange files", [*self.archive.paths, path], words)

    def many_files(self):
        path = self.beside("many")
        for number in range(MANY_FILES):
            (path / f"{number:05}").write_bytes(b"%d\n" % number)
        begun = time.monotonic()
        yield from self.stays_right("many files", [*self.archive.paths, path], [f"passed over {MANY_FILES} files that are no volumes: --verbose says which, and why\n"])
        if time.monotonic() > begun + LONGEST:
            yield f"{MANY_FILES} files took {time.monotonic() - begun:.0f} s"

    def other_pair(self):
        """A volume of another pair's primary: its number stands twice then, or it comes behind all others; another skew, or a pool less."""
        own, latest = self.archive.volumes[0], max(volume.last() for volume in self.archive.volumes)
        first, words = head_of(own)
        skewed, fewer = [b"open %d %d %d" % (SETTINGS.skew + 1, SETTINGS.mclt, SETTINGS.life), *words[1:]], [words[0], *words[2:]]
        later = b"pd-journal 2 %s 99\n" % own.side.encode()
        stories = [("twice", first, own.opened(), skewed), ("later", later, latest, [*skewed, b"base 0 0 0 0 0"]),
                   ("fewer", later, latest, [*fewer, b"base 0 0 0 0 0"])]
        for name, line, opened, head in stories:
            path = self.beside(name) / "other.journal"
            rows = [row(number, opened, each) for number, each in enumerate([*head, b"close"], start=1)]
            path.write_bytes(line + b"".join(rows) + b"end %d\n" % len(rows))
            for answer in (self.ask([*self.archive.paths, path]), self.desk.over("timeline", [], [path, *self.archive.paths])):
                named = answer.out.startswith(b"refused V4 OtherPair ") and str(path).encode() in answer.out
                if answer.status != 1 or not named or answer.out.count(b"\n") != 1:
                    yield f"a journal of the other pair, {name}: {answer}"

    def other_settings(self):
        """A partner of another skew: `who` names nobody but to one who knows, and who asks for evidence is warned."""
        path = self.beside("settings")
        for volume in self.archive.volumes:
            text = volume.text()
            if volume.side == "B":
                text = text.replace(b" open %d " % SETTINGS.skew, b" open %d " % (SETTINGS.skew - 1), 1)
            (path / f"{volume.side}-{volume.number:07}.journal").write_bytes(text)
        answer = self.ask([path])
        if answer.status != 1 or not answer.out.startswith(b"refused V4 OtherPair "):
            yield f"a partner of another skew: {answer}"
        file = self.folder / "claimed"
        for command in ("audit", "batch"):
            answer = self.desk.judges(command, [self.right.certificate()], file, [path])
            # (by another skew a volume may leave another head than the one that follows)
            if answer.out.startswith(b"refused V7 Head "):
                continue
            if not answer.out.startswith((b"accepted\n", b"refused L1 ")):
                yield f"{command} over a partner of another skew: {answer}"
            if answer.err.count(b"warning K2 Pair: ") != 1 or b"journals " not in answer.err:
                yield f"{command} over a partner of another skew doesn't warn: {answer}"

    def shorter_copies(self):
        """The partner's copy is shorter and shorter: what `find` finds ends where the two bear each other out, and it says so."""
        path, _ = self.copied("shorter")
        chosen = path / f"B-{self.pair['B'].number:07}.journal"
        rows, (start, end) = chosen.read_bytes().splitlines(keepends=True), self.right.interval()
        holder, file = self.right.holder().split()[1].decode(), self.folder / "shorter-claims"
        within = [count for count, (reading, _) in enumerate(self.pair["B"].entries, start=1) if start < reading]
        for count in within[:: max(1, len(within) // SHORTER)]:
            chosen.write_bytes(b"".join(rows[: count + 1]))
            found = self.desk.find(holder, self.prefix, start, end, [path])
            if found.status == 0 and found.stretches() and b"lacking " in found.err or found.status == 1 and b"lacking " not in found.err:
                yield f"a copy of {count} lines: {found}"
            for certificate in found.stretches():
                verdict = self.desk.judges("audit", [certificate], file, [path])
                if verdict.out != b"accepted\n":
                    yield f"a copy of {count} lines: {certificate}: {verdict}"

    def shrinking(self):
        """A chosen file that is cut and made whole again, again and again, while the desk is asked."""
        path, chosen = self.copied("shrinking")
        text, over = chosen.read_bytes(), threading.Event()

        def shrink():
            while not over.is_set():
                os.truncate(chosen, len(text) // 2)
                time.sleep(0.001)
                chosen.write_bytes(text)
                time.sleep(0.001)

        thread = threading.Thread(target=shrink)
        thread.start()
        for _ in range(40):
            answer = self.ask([path])
            # (a shorter volume may show a shorter stretch of the same lease)
            if answer.status != 0 and not answer.err or answer.status == 0 and answer.holder() != self.right.holder():
                yield f"a file that shrinks: {answer}"
        over.set()
        thread.join()

    def copied(self, name):
        """A directory with all volumes, and the path of the primary's that shows the moment."""
        path = self.beside(name)
        for volume in self.archive.volumes:
            (path / f"{volume.side}-{volume.number:07}.journal").write_bytes(volume.text())
        return path, path / f"A-{self.pair['A'].number:07}.journal"

    def on_disk(self):
        """A server over the directory that has all lines on the disk, or the head lines alone, or answers no longer."""
        path, _ = self.copied("running")
        chosen = self.pair["A"]
        whole = len(chosen.entries)
        head = len(list(itertools.takewhile(lambda entry: isinstance(entry.event, HEAD), chosen.entries)))
        with socket.socket(socket.AF_UNIX) as listener:
            listener.bind(str(path / "control"))
            listener.listen()
            for lines in (whole, head):
                thread = threading.Thread(target=answer_once, args=(listener, chosen.number, lines))
                thread.start()
                if lines == whole:
                    yield from self.stays_right("lines on the disk", [path], ["journals "])
                else:
                    yield from self.says("lines that aren't on the disk", self.ask([path]), ["lacking Later"], 1, b"none\n")
                thread.join()
        yield from self.stays_right("a server that answers no longer", [path], [f"warning Control {path}/control: ", "journals "])

    def fault_within(self):
        """A chosen file whose edges are right, and which has a fault between them."""
        path, chosen = self.copied("faulty")
        rows = chosen.read_bytes().split(b"\n")
        rows[len(rows) // 2] = b"no line"
        chosen.write_bytes(b"\n".join(rows))
        answer = self.ask([path])
        if answer.status == 0 or answer.out.startswith((b"holder", b"none")) or str(chosen).encode() not in answer.out + answer.err:
            yield f"a fault between right edges: {answer}"

    def long_beside_growing(self):
        """A volume of as many lines as one may have, beside a live one that grows while the desk is asked."""
        path, firsts = self.beside("long"), [volume for volume in self.archive.volumes if volume.number == 1]
        opened = firsts[0].opened()
        for volume in firsts:
            line, head = head_of(volume)
            rows = [row(number, opened, words) for number, words in enumerate(head, start=1)]
            most = MOST_LINES if volume.side == "A" else len(head) + 1000
            rows += [row(number, opened + number, contact(number - len(head))) for number in range(len(head) + 1, most)]
            (path / f"{volume.side}-0000001.journal").write_bytes(line + b"".join(rows))
        with open(path / "A-0000001.journal", "ab") as file:
            file.write(row(MOST_LINES, opened + MOST_LINES, b"close") + b"end %d\n" % MOST_LINES)
        over = threading.Event()

        def grow():
            with open(path / "B-0000001.journal", "ab", buffering=0) as live:
                for number in range(len(head) + 1000, MOST_LINES):
                    line = row(number, opened + number, contact(number - len(head)))
                    live.write(line[: number % len(line)])
                    live.write(line[number % len(line):])
                    if over.is_set():
                        break

        thread = threading.Thread(target=grow)
        thread.start()
        begun = time.monotonic()
        answer = self.desk.who(self.prefix, opened + 1, paths=[path])
        lasted = time.monotonic() - begun
        over.set()
        thread.join()
        yield from self.says("a long volume beside one that grows", answer, ["journals "], 1, b"none\n")
        if lasted > LONGEST:
            yield f"a volume of {MOST_LINES} lines took {lasted:.0f} s"

    def all(self):
        for story in (self.no_such_path, self.strange_files, self.many_files, self.other_pair, self.other_settings,
                      self.shorter_copies, self.on_disk, self.shrinking, self.fault_within, self.long_beside_growing):
            yield from story()
