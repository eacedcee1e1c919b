"""Values of the settings beside prefixes, fit or not: `serve` begins with them, or refuses and names the key. Without a
transit it begins no directory."""

import pathlib
import random
import subprocess
import tempfile
import time
from dataclasses import replace

from .manner import KEYS, is_fit, settings_row
from .manner_draws import EDGES, drawn_value
from .program import PATIENCE, Difference, free_port, serve_settings_text
from .rules import TRANSIT_LIMIT
from .serving import drawn_daemon_settings, plain_settings

BEGINS = "begins volume"
HOST = "127.0.0.1"
WANTED = "transit_ms: wants 1 to 3600000 in a new directory, has 0"
REFUSAL, WARNING = f"<3>node: {WANTED}", f"node: warning: serve refuses {WANTED}"
PARTNERS = (["alone = true"], ['link = "127.0.0.1:1"', 'link_key = "none"'])


def outcome(program, text):
    """The status of `serve` in a new directory with these settings, None where it goes on, what it says, and the names
    of what it made."""
    with tempfile.TemporaryDirectory() as folder:
        place = pathlib.Path(folder)
        (place / "settings.toml").write_text(text, encoding="utf-8")
        notes = place / "notes"
        with open(notes, "wb") as errors:
            streams = {"stdin": subprocess.DEVNULL, "stdout": subprocess.DEVNULL, "stderr": errors}
            child = subprocess.Popen([program, "serve", "--dir", folder], **streams)
        end = time.monotonic() + PATIENCE
        while child.poll() is None and BEGINS not in notes.read_text(encoding="utf-8") and time.monotonic() < end:
            time.sleep(0.002)
        status = child.poll()
        if status is None:
            child.kill()
            child.wait()
        made = {path.name for path in place.iterdir()} - {"settings.toml", "notes"}
        return status, notes.read_text(encoding="utf-8"), made


def refused_keys(said):
    """The keys that a refusal names."""
    return [line.split(": ")[2] for line in said.splitlines() if "node: settings: " in line]


def text_of(settings, rows):
    return serve_settings_text(settings, f"{HOST}:{free_port(HOST)}", rows)


def compare(program, values, tally):
    """Some keys with values; of those that aren't fit the first of KEYS has to be named."""
    unfit = [key for key in KEYS if key in values and not is_fit(key, values[key])]
    wanted = unfit[:1]
    rows = ["alone = true", *(settings_row(key, value) for key, value in values.items())]
    status, said, made = outcome(program, text_of(plain_settings(), rows))
    found = refused_keys(said)
    if found != wanted or (status == 1) != bool(wanted) or not (status is None) == (BEGINS in said) == bool(made):
        raise Difference(f"{values}\nawaited a refusal of {wanted}\nfound status {status}, and {said}")
    for key in values:
        tally[f"settings: {key} {'unfit' if key in unfit else 'fit'}"] += 1


def warnings_of_check(program, text):
    """What `check` says on standard error of settings that are fit."""
    child = subprocess.run([program, "check"], input=text, capture_output=True, encoding="utf-8", check=False)
    if child.returncode != 0 or not child.stdout.startswith("ok "):
        raise Difference(f"{text}\nawaited that they are fit, found status {child.returncode}, and {child.stdout}")
    return child.stderr.splitlines()


def compare_transit(program, settings, rows, tally):
    """Without a transit `serve` refuses a new directory and makes nothing, and `check` warns of it; with one neither
    says a word of it."""
    text = text_of(settings, rows)
    is_refused = settings.transit == 0
    warned = warnings_of_check(program, text).count(WARNING)
    status, said, made = outcome(program, text)
    refusals = [line for line in said.splitlines() if line.startswith("<3>")]
    fit = (warned, status, refusals, BEGINS in said, bool(made))
    if fit != ((1, 1, [REFUSAL], False, False) if is_refused else (0, None, [], True, True)):
        raise Difference(f"{text}\nfound status {status}, {warned} warnings of check, made {made}, and {said}")
    tally[f"settings: transit_ms {'refused' if is_refused else 'fit'} in a new directory"] += 1


def refuse_transits(program, source, count, tally):
    """The least and the largest transit, and some settings without one, whose key has 0 or isn't there."""
    for transit in (1, TRANSIT_LIMIT)[:count]:
        compare_transit(program, replace(plain_settings(), transit=transit), PARTNERS[0], tally)
    for _ in range(0, count, 15):
        rows = source.choice(([], ["transit_ms = 0"])) + source.choice(PARTNERS)
        compare_transit(program, replace(drawn_daemon_settings(source), transit=0), rows, tally)


def refuse(program, seed, count, tally):
    source = random.Random(seed)
    refuse_transits(program, source, count, tally)
    for key, value in EDGES[:count]:
        compare(program, {key: value}, tally)
    for _ in range(count - len(EDGES)):
        keys = source.sample(KEYS, source.choice((1, 1, 1, 2, 3)))
        compare(program, {key: drawn_value(source, key) for key in keys}, tally)
