#!/usr/bin/env python3
"""reports.py DESK FOLDER: drawn reports of a year that run.py kept (--keep FOLDER), as complainants spell them.

Each report is an address and a time, in one of ten spellings, pasted behind `desk who --journals A B`: nothing is joined, converted
or copied before. The answer is held against what clients were told. It is right where the client named had the prefix; true where
nobody is named and the reason that is given holds of what clients were told; false else. Prints a table of each spelling, and the
most memory that a question took. Ends with status 1 where an answer is false.
"""
import argparse
import collections
import datetime
import email.utils
import ipaddress
import json
import os
import pathlib
import pickle
import random
import subprocess
import sys
import time
import zoneinfo

from provider.asking import drawn

UTC = datetime.timezone.utc
PARIS = zoneinfo.ZoneInfo("Europe/Paris")


def at(moment, zone=UTC):
    return datetime.datetime.fromtimestamp(moment // 1000, zone).replace(microsecond=moment % 1000 * 1000)


def address_of(dice, question):
    """An address of the prefix that is asked of."""
    return ipaddress.IPv6Address(int.from_bytes(question.prefix, "big") + dice.randrange(1 << 72))


def whole(moment):
    """The second that a moment lies in."""
    return moment // 1000 * 1000


# Each spelling: its name, the moment that it can say, and the words.
SPELLINGS = {
    "RFC 3339, UTC": (lambda m: m, lambda a, m: [f"{a}", at(m).isoformat(timespec="milliseconds").replace("+00:00", "Z")]),
    "a space, +0100": (whole, lambda a, m: [f"{a.exploded.upper()}", at(m, datetime.timezone(datetime.timedelta(hours=1))).strftime("%Y-%m-%d %H:%M:%S+0100")]),
    "mail, and a port": (whole, lambda a, m: [f"[{a}]:51820", email.utils.format_datetime(at(m, PARIS))]),
    "mail, GMT": (whole, lambda a, m: [f"{a}", email.utils.format_datetime(at(m), usegmt=True)]),
    "seconds with a fraction, /64": (lambda m: m, lambda a, m: [f"{a}/64", f"{m // 1000}.{m % 1000:03}000"]),
    "seconds": (whole, lambda a, m: [f"{a}", f"{m // 1000}s"]),
    "milliseconds": (lambda m: m, lambda a, m: [f"{a}", f"{m}"]),
    "milliseconds, named": (lambda m: m, lambda a, m: [f"{a}/128", f"{m}ms"]),
    "the prefix": (lambda m: m, lambda a, m: [str(ipaddress.IPv6Network((a, 56), strict=False)), at(m).isoformat(timespec="milliseconds")]),
    "local time": (whole, lambda a, m: ["--zone", "Europe/Paris", f"{a}", at(m, PARIS).strftime("%Y-%m-%d %H:%M:%S")]),
}


def asked(desk, folders, words, *more):
    """What the desk answers, its status, and the most memory that it took, in octets."""
    with subprocess.Popen([desk, "who", "--json", *more, "--journals", *folders, *words], stdout=subprocess.PIPE, stderr=subprocess.PIPE) as running:
        said, complaint = running.stdout.read(), running.stderr.read().decode(errors="replace")
        _, status, used = os.wait4(running.pid, 0)
        running.returncode = os.waitstatus_to_exitcode(status)
    return said, complaint, running.returncode, used.ru_maxrss * 1024


def verdict_of(said, status, told, unheard):
    """What an answer is, held against who was told that he has the prefix."""
    if status == 2:
        return "FAULT"
    holder = json.loads(said)["holder"]
    if holder is None:
        return "not named"
    return "named" if holder in told or holder in unheard else "FALSE: another is named"


def reason_of(said, told):
    """Why nobody is named, held against who was told that he has the prefix."""
    answer = json.loads(said)
    why = (answer.get("why") or {}).get("reason") or " ".join(answer["answer"].split()[:3])
    return "FALSE: nobody had it" if why == "nobody" and told else f"not named: {why}"


def main():
    parser = argparse.ArgumentParser(description=__doc__.splitlines()[0])
    parser.add_argument("desk")
    parser.add_argument("folder")
    parser.add_argument("--reports", type=int, default=300)
    parser.add_argument("--seed", type=int, default=1)
    words = parser.parse_args()
    folder = pathlib.Path(words.folder).resolve()
    folders = [str(folder / side) for side in "AB"]
    with open(folder / "ledger", "rb") as file:
        ledger, windows, begins, ends = pickle.load(file)
    holders, dice = ledger.by_prefix(), random.Random(words.seed)
    table, most, took, bad = collections.defaultdict(collections.Counter), 0, [], []
    for place, question in enumerate(drawn(dice, holders, ledger, windows, begins, ends, words.reports)):
        name = list(SPELLINGS)[place % len(SPELLINGS)]
        moment, spelled = SPELLINGS[name]
        moment = moment(question.moment)
        told, unheard = holders.at(question.prefix, moment)
        given = spelled(address_of(dice, question), moment)
        begun = time.perf_counter()
        said, complaint, status, memory = asked(words.desk, folders, given)
        took.append(time.perf_counter() - begun)
        most = max(most, memory)
        verdict = verdict_of(said, status, told, unheard)
        if verdict == "not named":
            verdict = reason_of(asked(words.desk, folders, given, "--explain")[0], told)
        table[name][verdict] += 1
        if verdict.startswith("FA"):
            bad.append(f"{given}: {verdict}: {complaint.strip()[-200:]}")
    total = sum(table.values(), collections.Counter())
    columns = [verdict for verdict, _ in total.most_common()]
    print("| Spelling | " + " | ".join(columns) + " |\n|---|" + "---|" * len(columns))
    for name, counts in [*table.items(), ("all", total)]:
        print(f"| {name} | " + " | ".join(str(counts[verdict]) for verdict in columns) + " |")
    print(f"\nmost memory {most / 1e6:.0f} MB; seconds a question: median {sorted(took)[len(took) // 2]:.2f}, most {max(took):.2f}")
    for line in bad[:20]:
        print(line)
    return int(bool(bad) or most > 200e6)


if __name__ == "__main__":
    sys.exit(main())
