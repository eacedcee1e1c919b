#!/usr/bin/env python3
"""growths.py [COUNT [EVENTS [FOLDER]]]: refuses each of the first COUNT growths (200 if not said) of a walk of EVENTS random events
(250 if not said) in turn, counts the answers, and tells the last growth that was answered Memory: it is one of the audit, which ends
the walk, so where COUNT is greater each growth of the walk was refused.

A step or a call of holders that answers Memory is asked again, so a walk whose growth is refused there must end as one with ample
memory does; where the opening, the closing or the audit is refused, the program ends in status 1. The program grows so often before
its walk that the growth that rt try refuses is the one meant: one build serves all. Ends with status 1 where a walk ended otherwise.
"""
import collections
import pathlib
import re
import subprocess
import sys
import tempfile

sys.dont_write_bytecode = True

from run import workspace  # noqa: E402

ENDS = {"error: AllocError": "Memory", "error: Memory": "Memory"}


def cases(folder, count, events):
    """A case for each growth."""
    folder.mkdir(parents=True, exist_ok=True)
    for number in range(1, count + 1):
        name = f"growth{number:05d}"
        (folder / name).write_text("")
        (folder / f"{name}.args").write_text(f"1\n{events}\n{count - number}\n")
    return folder


def endings(text):
    """What each case printed, without what rt says of it."""
    for block in re.split(r"^== ", text, flags=re.M)[1:]:
        name, *lines = block.splitlines()
        said = [line for line in lines if line and not line.startswith(("allocations:", "case=", "cases="))]
        yield name, "; ".join(said)


def main():
    count = int(sys.argv[1]) if len(sys.argv) > 1 else 200
    events = int(sys.argv[2]) if len(sys.argv) > 2 else 250
    folder = pathlib.Path(sys.argv[3] if len(sys.argv) > 3 else tempfile.mkdtemp())
    driver = workspace(folder)
    words = ["rt", "try", "--seconds", "60", "--fail-alloc", str(count), "--cases", str(cases(folder / "cases", count, events))]
    done = subprocess.run(words, cwd=driver, stdin=subprocess.DEVNULL, stdout=subprocess.PIPE, stderr=subprocess.STDOUT, text=True, check=False)
    answers = {name: ENDS.get(said, said) for name, said in endings(done.stdout)}
    counts = collections.Counter(answers.values())
    for said, times in counts.items():
        print(f"{times} times: {said}")
    print("last refused:", max((name for name, said in answers.items() if said == "Memory"), default="none"))
    print(done.stdout.rstrip().splitlines()[-1])
    wrong = [said for said in counts if said != "Memory" and not said.startswith("nothing wrong")]
    sys.exit(1 if wrong or len(counts) > 2 or "fault=0 differs=0 no-answer=0" not in done.stdout else 0)


main()
