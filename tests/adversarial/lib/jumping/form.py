"""What a status has to say, in each of its three forms, and how these have to agree."""
import re

REASONS = {
    "journal older than what its partner took": "journal_older", "clock behind": "clock_behind",
    "clock set": "clock_set", "asks its partner's clock": "asks_partner_clock",
    "its partner's clock differs": "partner_clock_differs", "waits for its partner's answer": "waits_for_partner",
    "volume full": "volume_full",
}
HELD_OFF = re.compile(r"goes on after its restart in \d+ s\Z")
UNDERSTOOD, OLDER, NO_KEY, APART = (
    "understood", "none, its partner is of an older version", 'none, link_key is "none"',
    "none, there is no connection")
NOTICES = {UNDERSTOOD: "understood", OLDER: "older_version", NO_KEY: "no_key", APART: "no_connection"}
CLOCK = re.compile(r"(right|set), -?\d+ ms ahead of the last line\Z|behind, .*\Z")
PROGRAM = re.compile(r"fengtuyas \d+\.\d+\.\d+\Z|unknown\Z")
RANGE = re.compile(r"between (\d+) ms (ahead|behind) and (\d+) ms (ahead|behind)\Z")
DIFFERENCE = re.compile(r"(mclt|skew_ms|transit_ms|life): \d+ here, \d+ there\Z|(pools|pool_order)\Z")
VERDICTS = ("unknown", "agrees", "differs", "unclear")
# The lines behind `heard:`.
LINES = ("refusal", "notices", "partner_program", "partner_clock", "settings")


def range_of(text):
    """The range that a line tells, in milliseconds by which the partner's clock is ahead: None where it is unknown or
    isn't spelled so."""
    found = RANGE.match(text)
    if not found:
        return None
    least, first, most, second = found.groups()
    return tuple(int(each) if way == "ahead" else -int(each) for each, way in ((least, first), (most, second)))


def differences(text):
    """The keys that a line names, None where it is unknown."""
    if text in ("agree", "unknown"):
        return [] if text == "agree" else None
    found = [DIFFERENCE.match(each) for each in text.removeprefix("differ in ").split("; ")]
    return [each[1] or each[2] for each in found if each]


def of_lines(rows):
    """What is wrong with the lines of a status."""
    keys = [row.split(": ", 1)[0] for row in rows]
    given = dict(row.split(": ", 1) for row in rows if ": " in row)
    place = keys.index("heard") if "heard" in keys else None
    if place is None or tuple(keys[place + 1:place + 1 + len(LINES)]) != LINES:
        behind = keys[place + 1:place + 1 + len(LINES)] if place is not None else "no line of that name"
        return [f"behind heard: comes {behind}, wants {', '.join(LINES)}"]
    wrong = []
    serving = given["serving"]
    reason = serving.removeprefix("no, ")
    if serving != "yes" and (serving == reason or (reason not in REASONS and not HELD_OFF.match(reason))):
        wrong.append(f"serving: {serving}")
    is_spelled = {
        "clock": CLOCK.match(given["clock"]), "notices": given["notices"] in NOTICES,
        "partner_program": PROGRAM.match(given["partner_program"]),
        "partner_clock": given["partner_clock"] == "unknown" or range_of(given["partner_clock"]),
        "settings": differences(given["settings"]) is None or given["settings"] == "agree"
        or len(differences(given["settings"])) == given["settings"].count(";") + 1,
    }
    wrong += [f"{key}: {given[key]}" for key, holds in is_spelled.items() if not holds]
    told = range_of(given["partner_clock"])
    if told and told[0] > told[1]:
        wrong.append(f"partner_clock: {given['partner_clock']}")
    return wrong


def of_object(rows, data):
    """What of the object doesn't say what the lines say."""
    given = dict(row.split(": ", 1) for row in rows if ": " in row)
    reason = given["serving"].removeprefix("no, ")
    wanted = {"is": True} if reason == "yes" else {"is": False, "why": REASONS.get(reason, "goes_on_after_restart")}
    partner = data.get("partner", {})
    told = range_of(given["partner_clock"])
    program = given["partner_program"]
    pairs = {
        "serving": (data.get("serving"), wanted), "clock": (data.get("clock"), given["clock"].split(",")[0]),
        "partner.notices": (partner.get("notices", "nothing"), NOTICES.get(given["notices"])),
        "partner.program": (partner.get("program", "nothing"), None if program == "unknown" else program),
        "partner.settings": (partner.get("settings", "nothing"), differences(given["settings"])),
        "partner.clock": (partner.get("clock", "nothing") is None, told is None),
    }
    return [f"{key} of the object is {found}, and the lines say {said}"
            for key, (found, said) in pairs.items() if found != said]


def of_metrics(rows, text):
    """What of the metrics doesn't say what the lines say, or isn't there."""
    given = dict(row.split(": ", 1) for row in rows if ": " in row)
    metrics = dict(line.rsplit(" ", 1) for line in text.splitlines() if line and not line.startswith("#"))
    reason = given["serving"].removeprefix("no, ")
    why = None if reason == "yes" else REASONS.get(reason, "goes_on_after_restart")
    clock = given["clock"].split(",")[0]
    wanted = {f'fengtuyas_not_serving{{why="{each}"}}': each == why for each in REASONS.values()}
    wanted |= {f'fengtuyas_clock{{fengtuyas_clock="{each}"}}': each == clock for each in ("right", "behind", "set")}
    name = "fengtuyas_partner_clock"
    verdicts = [metrics.get(f'{name}{{{name}="{each}"}}') for each in VERDICTS]
    wrong = [] if sorted(map(str, verdicts)) == ["0", "0", "0", "1"] else [f"{name} has {verdicts} of {VERDICTS}"]
    if (verdicts[0] == "1") != (given["partner_clock"] == "unknown"):
        wrong.append(f"{name} has {verdicts} of {VERDICTS}, and the lines say {given['partner_clock']}")
    return wrong + [f"{key} is {metrics.get(key)}, wants {int(is_so)}" for key, is_so in wanted.items()
                    if metrics.get(key) != str(int(is_so))]
