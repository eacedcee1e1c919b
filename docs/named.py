"""Whether the pages name what is there: each wrong body, each crate, and each line that a running server says."""
import re

from closure import ROOT

PROOFS = ROOT / "docs/proofs"
FOLDERS = ("must-fail", "further")
# What a running server says stands there.
LOG, SPEAKERS = ROOT / "crates/server_log/src", ("event_words.rt", "disconnect_reason.rt", "log.rt")
SAYS = re.compile(r"(?:write!\(|Some\(|&str = )\s*(?:f,\s*)?\"([^\"{\\]*)")


def is_edit(crate, name):
    """Whether a crate has a wrong body: one that the gate tries, or one that is tried when the crate changes."""
    return any((ROOT / "crates" / crate / folder / f"{name}.edit").is_file() for folder in FOLDERS)


def wrong_bodies():
    """A sentence for each edit that a table names and that isn't there; `crate/name`, then names of the same crate."""
    for page in sorted(PROOFS.glob("wrong-bodies*.md")):
        for row in page.read_text().splitlines():
            crate = None
            for path, name in re.findall(r"`(\w+/)?(\w+)`", row.rpartition(" | ")[2] if row.startswith("| ") else ""):
                crate = path or crate
                if crate and not is_edit(crate, name):
                    yield f"{page.name}: there is no edit {crate}{name}"


def lost_text(edit):
    """The first text of a wrong body that doesn't stand once in its file, or None."""
    text, old = "", ""
    for line in edit.read_text().splitlines():
        kind, _, rest = line.partition(":")
        rest = rest.removeprefix(" ")
        if kind == "file":
            text = (edit.parent.parent / rest).read_text()
        elif kind == "old":
            old = rest
            if text.count(old) != 1:
                return old
        elif kind == "new":
            text = text.replace(old, rest)
    return None


def stale_edits():
    """A sentence for each wrong body that changes nothing any more."""
    for folder in FOLDERS:
        for edit in sorted((ROOT / "crates").glob(f"*/{folder}/*.edit")):
            if (lost := lost_text(edit)) is not None:
                yield f"{edit.relative_to(ROOT)}: in its file doesn't stand once: {lost}"


def crates():
    """A sentence for each crate that no table has."""
    tables = "".join(page.read_text() for page in sorted(PROOFS.glob("crates*.md")))
    for crate in re.findall(r"^(\w+):", (ROOT / "crates.txt").read_text(), re.MULTILINE):
        for name, text in (("proofs/crates.md", tables), ("ARCHITECTURE.md", (ROOT / "docs/ARCHITECTURE.md").read_text())):
            if f"`{crate}`" not in text:
                yield f"{name}: {crate} isn't there"


def notices():
    """A sentence for each line of a running server's that the page on it doesn't have."""
    page = (ROOT / "docs/operating/watching.md").read_text()
    for line in SAYS.findall("".join((LOG / name).read_text() for name in SPEAKERS)):
        if (begin := line.partition(":")[0].strip()) and f"`{begin}" not in page:
            yield f"watching.md: {line} isn't there"


def faults():
    return [*wrong_bodies(), *stale_edits(), *crates(), *notices()]
