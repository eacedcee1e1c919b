"""Directories of volumes with access records, some spoiled, and what a program says of them behind a certificate."""
import os
import pathlib
import random
import shutil
import subprocess
import tempfile
from typing import NamedTuple

from .join_draws import Directory
from .joined_draws import own_volumes, volumes_of
from .journals import Grant, UnitLine
from .leases import Asked
from .records import access_lines
from .spans import answers_of, several_of
from .words import prefix_word

ASKED_OF_EACH = 6
IDENTIFIERS = ("-", "-", "empty", "65746830", "00", "ff" * 40, "00000009" + "6e656172")
# Rows that are no records, of a record's words.
SPOILED = (
    "{0}  {1} {2} {3} {4}", "{0} {1} {2} {3}", "{0} {1} {2} {3} {4} -", "0{0} {1} {2} {3} {4}", "+{0} {1} {2} {3} {4}",
    " {0} {1} {2} {3} {4}", "{0} {1} {2} {3} {4} ", "4294967296 {1} {2} {3} {4}", "{0} {1} abc {3} {4}",
    "{0} {1} {2} AB {4}", "{0} {1}0 {2} {3} {4}", "{0} 0{1} {2} {3} {4}", "{0} ::1 {2} {3} {4}", "{0} - 00 - {4}",
    "{0} - - empty {4}", "{0} {1} {2} {3} ::1", "{0} {1} {2} {3} empty", "", "pd-access 1 A 1", "{0} {1} {2} {3} {4}\r",
    "-1 {1} {2} {3} {4}", "{0} {1} {2} {3} 2001:0DB8:0000:0000:0000:0000:0000:0001", "{0}\t{1} {2} {3} {4}",
    "{0} empty {2} {3} {4}", "{0} {1} Empty {3} {4}", "{0} {1} {2} {3} {4}\0",
)
# Rows that are records, whatever they speak of.
STRANGE = ("4294967295 - - - -", "0 - - - -", "1 {1} empty empty {4}", "2 - - - {4}", "1048577 {1} - {3} -")
HEADS = (
    "pd-access 1 {other} {number}", "pd-access 1 {side} {next}", "pd-access 2 {side} {number}",
    "pd-access 1 {side} 0{number}", "pd-access 1 {side}", "pd-access 1 {side} {number} ", "pd-journal 1 {side}", "",
)
TAILS = ("", "7", "3 0000:0000", "{row}", "\0\0\0")


def address(rng):
    return ":".join(f"{rng.randrange(65_536):04x}" for _ in range(8))


def drawn_row(rng, number):
    source = rng.choice(("-", address(rng)))
    if rng.random() < 0.2:
        return f"{number} - - - {source}"
    return f"{number} {address(rng)} {rng.choice(IDENTIFIERS)} {rng.choice(IDENTIFIERS)} {source}"


def drawn_records(rng, volume):
    """The octets of a file of records: of most grants and units; some are there twice, and some files are spoiled."""
    entries = enumerate(volume.entries, start=1)
    numbers = [number for number, entry in entries if isinstance(entry.event, (Grant, UnitLine))]
    often = rng.choice((1, 1, 0.9, 0.5))
    rows = [drawn_row(rng, number) for number in numbers if rng.random() < often]
    rows += [drawn_row(rng, number) for number in rng.choices(numbers, k=rng.choice((0, 0, 3)))] if numbers else []
    head = f"pd-access 1 {volume.side} {volume.number}"
    trouble = rng.choice((None, None, None, "row", "row", "strange", "head", "order"))
    words = [1, address(rng), "00", "-", "-"]
    if trouble == "row":
        spoiled = rng.choice(SPOILED).format(*(rng.choice(rows).split(" ") if rows else words))
        rows.insert(rng.randint(0, len(rows)), spoiled)
    elif trouble == "strange":
        rows.insert(rng.randint(0, len(rows)), rng.choice(STRANGE).format(*words))
    elif trouble == "head":
        other = "AB".replace(volume.side, "")
        parts = {"side": volume.side, "other": other, "number": volume.number, "next": volume.number + 1}
        head = rng.choice(HEADS).format(**parts)
    elif trouble == "order":
        rng.shuffle(rows)
    tail = rng.choice(TAILS).format(row=rows[-1] if rows else "")
    return "".join(row + "\n" for row in (head, *rows)).encode() + tail.encode()


class Answer(NamedTuple):
    """What the program said of a question, and the access lines that are awaited; None where it names nobody."""

    words: list
    written: str
    found: list
    wanted: list
    # Whether it is over several volumes of a side.
    is_over_several: bool = False


def drawn(seed, index):
    """The files of a draw, and the questions that are asked over them."""
    rng = random.Random(f"records {seed} {index}")
    directory = Directory(rng)
    files = dict(directory.files)
    for volume in directory.volumes:
        if rng.random() < 0.9:
            files[directory.name(volume).removesuffix("journal") + "access"] = drawn_records(rng, volume)
    return files, questions(rng, directory)


def questions(rng, directory):
    """Who had the prefix of a grant, some time behind it."""
    settings = directory.run.settings
    late = settings.skew + settings.transit
    entries = [entry for volume in directory.volumes for entry in volume.entries]
    grants = [entry for entry in entries if isinstance(entry.event, Grant)]
    for entry in rng.sample(grants, min(len(grants), ASKED_OF_EACH)):
        moment = entry.reading + late + rng.randrange(max(1, 1000 * entry.event.valid - 2 * late))
        yield Asked(entry.event.prefix, moment, settings.skew, settings.transit)


def words_of(asked):
    words = ["--skew-ms", str(asked.skew), "--transit-ms", str(asked.transit)]
    return [*words, "--prefix", prefix_word(asked.prefix), "--at", f"{asked.moment}ms"]


def ask(desk, files, asked):
    """Asks who had a prefix over the files of this folder."""
    words = words_of(asked)
    command = [desk, "who", *words, "--journals", "."]
    done = subprocess.run(command, capture_output=True, stdin=subprocess.DEVNULL, check=False, text=True)
    rows, complaint = done.stdout.splitlines(), done.stderr.splitlines()
    if done.returncode != 0 or "end" not in rows:
        return Answer(words, done.stdout, [], None)
    place = rows.index("end")
    found, volumes = rows[place + 1 :], volumes_of(complaint, own_volumes(complaint))
    may = [said.volumes for said in answers_of(["."], asked, False) if said.holder]
    if volumes not in may:
        # Nothing that the second says is over these volumes.
        return Answer(words, done.stdout, [volumes, *found], may)
    if several_of(volumes):
        return Answer(words, done.stdout, found, [], is_over_several=True)
    journals = next(row for row in complaint if row.startswith("journals ")).split(" ")[1:]
    wanted = access_lines(rows[:place], [name.removeprefix("./") for name in journals], files)
    return Answer(words, done.stdout, found, wanted)


def compare(desk, seed, index):
    """The answers over the directory of a draw, and its files."""
    files, asked = drawn(seed, index)
    folder, before = pathlib.Path(tempfile.mkdtemp(prefix="records-")), os.getcwd()
    try:
        for name, octets in files.items():
            (folder / name).write_bytes(octets)
        os.chdir(folder)
        return [ask(desk, files, each) for each in asked], files
    finally:
        os.chdir(before)
        shutil.rmtree(folder)
