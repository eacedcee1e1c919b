"""A status, in its three forms, beside the journal of the same moment, as the reference's book reads that."""
import collections
import datetime
import json
import time

from living.servers import SHORT

from .downs import asks_until_seized, leased
from .stage import DOWN, LONG, NORMAL, asked, book_of

OWN = {"A": ("free", "backup"), "B": ("backup", "free")}
STATES = ("own", "partners", "delegated", "expired", "released")
MESSAGES = {1: "solicit", 3: "request", 5: "renew", 6: "rebind", 8: "release"}


def at_one_moment(server):
    """The three forms of a status and the book of its last volume, between which no line was written or synced."""
    for _ in range(400):
        path = server.volumes()[-1]
        before, early = path.read_bytes(), json.loads(asked(server, "status json")[1])["volume"]
        forms = [asked(server, words)[1] for words in ("status", "status json", "status metrics")]
        is_quiet = server.volumes()[-1] == path and path.read_bytes() == before and before.endswith(b"\n")
        if is_quiet and early["lines"] == early["synced"]:
            return *forms, book_of(path, server.side)
        time.sleep(0.05)
    raise AssertionError(f"{server.side} has no pause in which all of its lines are on the disk: {early}")


def units_of(book):
    """How many units are what, by the journal."""
    counts = collections.Counter(unit.status for unit in book.table.ordered)
    own, partners = OWN[book.role]
    return dict(zip(STATES, (counts[each] for each in (own, partners, "active", "expired", "released"))))


def standing_of(book):
    """What the partner is taken for, and since when, by the journal."""
    if book.down is not None:
        return "down", book.down
    if book.waiting:
        # (in a later volume it waits since the one before)
        restarts = [line.reading for line in book.lines if line.event[0] in ("restart", "base")]
        return "waiting", restarts[-1]
    return "normal", None


def spelled(milliseconds):
    """A moment as a status has it."""
    moment = datetime.datetime.fromtimestamp(milliseconds // 1000, datetime.timezone.utc)
    return f"{moment:%Y-%m-%dT%H:%M:%S}.{milliseconds % 1000:03d}Z"


def wanted_object(book, link):
    standing, since = standing_of(book)
    return {
        "role": {"A": "primary", "B": "secondary"}[book.role], "units": units_of(book),
        "due": sum(unit.due is not None or unit.mark for unit in book.table.ordered),
        "marked": sum(unit.mark for unit in book.table.ordered), "journal": "whole", "clock": "right",
        "volume.number": book.volume, "volume.lines": len(book.lines), "volume.synced": len(book.lines),
        "volume.opened_ms": book.lines[0].reading, "volume.written_ms": book.lines[-1].reading,
        "volume.roll": "not_due", "volume.room": "enough",
        "partner.standing": standing, "partner.standing_since_ms": since, "partner.link": link,
    }


def wanted_lines(book, link):
    standing, since = standing_of(book)
    count, wanted = len(book.lines), wanted_object(book, link)
    return {
        "role": wanted["role"], "volume": book.volume, "lines": f"{count}, {count} on the disk",
        "opened": spelled(book.lines[0].reading), "written": spelled(book.lines[-1].reading), "roll": "not_due",
        "room": "enough", "partner": standing if since is None else f"{standing} since {spelled(since)}",
        "units": ", ".join(f"{count} {state}" for state, count in units_of(book).items()),
        "due": wanted["due"], "marked": wanted["marked"],
    }


def wanted_metrics(book, link):
    wanted, standing = wanted_object(book, link), standing_of(book)[0]
    count = len(book.lines)
    metrics = {
        "volume": book.volume, "volume_lines": count, "volume_synced_lines": count, "due_units": wanted["due"],
        "volume_opened_timestamp_seconds": f"{book.lines[0].reading / 1000:.3f}",
        "volume_written_timestamp_seconds": f"{book.lines[-1].reading / 1000:.3f}", "marked_units": wanted["marked"],
        **{f'units{{state="{state}"}}': found for state, found in units_of(book).items()},
    }
    sets = {"partner": (standing, ("normal", "waiting", "down")), "link": (link, ("alone", "apart", "connected"))}
    for name, (one, every) in sets.items():
        metrics |= {f'{name}{{fengtuyas_{name}="{each}"}}': int(each == one) for each in every}
    return metrics


def found_of(data, key):
    for part in key.split("."):
        data = data.get(part, "nothing") if isinstance(data, dict) else "nothing"
    return data


def is_heard(play, server, what, data, book):
    """While there is a connection the partner was heard when its last message was taken, or later."""
    partner, takes = data.get("partner", {}), [line.reading for line in book.lines if line.event[0] == "take"]
    if partner.get("link") == "connected" and takes:
        heard = partner.get("heard_ms")
        is_so = heard is not None and takes[-1] <= heard <= data["reading_ms"]
        play.see(is_so, f"{what}: {server.side} heard at {heard}, and took at {takes[-1]}")


def compare(play, server, what, link):
    """A status says what the journal says."""
    text, object_text, metrics_text, book = at_one_moment(server)
    data = json.loads(object_text)
    lines = dict(row.split(": ", 1) for row in text.splitlines() if ": " in row)
    metrics = dict(row.removeprefix("fengtuyas_").rsplit(" ", 1) for row in metrics_text.splitlines() if row[:1] != "#")
    forms = [("object", {key: found_of(data, key) for key in wanted_object(book, link)}, wanted_object(book, link))]
    texts = (("lines", lines, wanted_lines(book, link)), ("metrics", metrics, wanted_metrics(book, link)))
    for name, found, wanted in texts:
        had = {key: found.get(key, "nothing") for key in wanted}
        forms.append((name, had, {key: str(each) for key, each in wanted.items()}))
    for name, found, wanted in forms:
        for key, value in wanted.items():
            play.see(found[key] == value, f"{what}: {server.side}'s {name} has {key} {found[key]}, wants {value}")
    is_word = lines.get("link", "nothing").split(" ")[0] == link
    play.see(is_word, f"{what}: {server.side}'s lines have link {lines.get('link')}, wants {link}")
    is_heard(play, server, what, data, book)
    ahead = data.get("reading_ms", 0) - data.get("volume", {}).get("written_ms", 0)
    play.see(data.get("ahead_ms") == ahead, f"{what}: {server.side} is {data.get('ahead_ms')} ahead, wants {ahead}")
    return book


def count_messages(play, sent, server, what):
    """A status counts each message that was sent to the server since its start."""
    def wanted():
        return {name: sent[server.side, kind] for kind, name in MESSAGES.items()}
    play.until(f"{what}: {server.side} counts {wanted()}", lambda: server.data().get("messages") == wanted())


def counts_sent(play):
    """How many messages of a kind clients send to each side from now on."""
    sent, send = collections.Counter(), play.customers.send

    def counted(server, kind, client, prefix=None):
        sent[server.side, kind] += 1
        return send(server, kind, client, prefix)
    play.customers.send = counted
    return sent


def are_settled(play, what):
    """Each has told the other all, and was answered: two changes that cross may be due for long."""
    for server in (play.one, play.other):
        play.until(f"{what}: {server.side} has nothing due", lambda each=server: each.value("due") == "0")
    play.told(play.one, play.other)
    play.told(play.other, play.one)


def joined(play):
    """While the two are joined: with leases, some given back."""
    sent = counts_sent(play)
    mine, theirs = leased(play)
    for server in (play.one, play.other):
        compare(play, server, "with leases", "connected")
    play.customers.release(play.one, mine[:2])
    are_settled(play, "some are given back")
    play.rebinds(play.other, mine[2:], "while the two are joined")
    are_settled(play, "renewed by the partner")
    play.customers.renew(play.one, mine[2:3])
    are_settled(play, "renewed")
    for server in (play.one, play.other):
        count_messages(play, sent, server, "some are given back")
        book = compare(play, server, "some are given back", "connected")
        play.see(units_of(book)["delegated"] == 6, f"{server.side}'s journal has {units_of(book)}, wants 6 delegated")
    return mine[2:], theirs


def alive(play):
    """What befalls a pair, and its statuses meanwhile."""
    one, other = play.one, play.other
    mine, theirs = joined(play)
    other.kill()
    play.until(f"{one.side} has lost its partner", lambda: one.value("link") == "apart")
    heard = one.data().get("partner", {}).get("heard_ms")
    play.see(heard is not None, f"apart: {one.side}'s status says no more when its partner was heard last")
    mine += play.lease(one, 3)
    play.customers.release(one, mine[-1:])
    book = compare(play, one, "apart", "apart")
    play.see(one.data().get("partner", {}).get("heard_ms") == heard, f"apart: {one.side} heard its partner later")
    play.see(units_of(book)["released"] == 1, f"{one.side}'s journal has {units_of(book)}, wants 1 released")
    play.heard(one, DOWN, "apart")
    play.customers.renew(one, mine[:2])
    compare(play, one, "taken for down", "apart")
    play.heard(one, NORMAL, "taken for down")
    play.heard(one, ("roll",), "taken for up again")
    play.until(f"{one.side} begins volume 2", lambda: len(one.volumes()) == 2)
    compare(play, one, "behind a roll", "apart")
    one.kill()
    play.begins(one)
    book = compare(play, one, "started again", "apart")
    play.see(book.waiting, f"{one.side}'s journal doesn't wait behind its start")
    play.start(other)
    for server in (one, other):
        play.until(f"{server.side} serves", lambda each=server: each.serving() == "yes")
    are_settled(play, "joined again")
    for server in (one, other):
        compare(play, server, "joined again", "connected")
    play.both_serve(mine[:-1], theirs, "joined again")


def seizing(play):
    """Short leases that lapse, of a server that takes its partner for down and its units over."""
    one = play.one
    play.begin()
    play.lease(one, 3)
    play.down()
    compare(play, one, "taken for down", "apart")
    holders, count = asks_until_seized(play), 0
    for _ in range(5):
        book = compare(play, one, "units are seized", "apart")
        count = max(count, sum(unit.mark for unit in book.table.ordered))
        holders += play.customers.lease(one, play.customers.new(2), 1.5)
    play.see(count > 0, f"{one.side}'s journal has no marked unit")
    play.start(play.other)
    for server in (one, play.other):
        play.has(server, "joined again", partner="normal", marked="0")
        play.until(f"{server.side} is connected", lambda each=server: each.value("link").startswith("connected"))
        compare(play, server, "joined again", "connected")


PLAYS = {
    "status": (alive, "AB", LONG),
    "status-seizing": (seizing, "AB", SHORT),
}
