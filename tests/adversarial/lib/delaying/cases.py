"""The cases: how late an answer may be, by which clock, and where there is no transit; each gives what is wrong."""
import subprocess
import time

from .servers import SKEW, SlowServer

REFUSAL = "transit_ms: wants 1 to 3600000 in a new directory, has 0"
WARNING = "its volumes have no transit: an answer is assumed to reach its client at once. It can be set only in a new "
WARNING += "directory."
# A first volume of the server of refusing/servers.py, which has no transit and was closed.
OLD_VOLUME = """pd-journal 1 A
1 {reading} open 500 600 1200
2 {reading} pool 2001:0db8:0000:0000:0000:0000:0000:0000/61 64
3 {reading} close
end 3
"""
# What is in a directory before a server is started there, and what may be there beside that: the lock file is no
# matter.
GIVEN, LOCK = {"settings.toml", "link.key"}, {"lock"}
# How long a read of a journal takes, in milliseconds, and how many do at most; and by how much a reading may be less
# than a moment.
SLOW_READ, SLOW_READS, ROUNDING = 250, 6, 5


def slow_disk(trial):
    """An answer leaves within half of the transit, or not at all."""
    with SlowServer(trial, "slow-disk", 2000) as server:
        if not server.start():
            yield f"doesn't start: {server.said()!r}"
            return
        yield from server.wrong_answer(1200, False)
        yield from server.wrong_answer(500, True)


def clock_steps(trial):
    """How late an answer is says the steady clock, whatever the other does within the skew."""
    with SlowServer(trial, "clock-steps", 2000) as server:
        server.delays.shift(SKEW / 2)
        if not server.start():
            yield f"doesn't start: {server.said()!r}"
            return
        # (a step of more than the skew would end its service: by the other clock neither would be as wanted)
        yield from server.wrong_answer(1300, False, step=-SKEW)
        yield from server.wrong_answer(700, True, step=SKEW)


def no_transit(trial):
    """Where the volumes have no transit an answer leaves within a second, and each start warns."""
    with SlowServer(trial, "no-transit", 0) as server:
        reading = time.time_ns() // 1_000_000 - 60_000
        (server.folder / "A-0000001.journal").write_text(OLD_VOLUME.format(reading=reading))
        for sync, is_answered in ((1400, False), (300, True)):
            if not server.start():
                yield f"doesn't start: {server.said()!r}"
                return
            yield from server.wrong_answer(sync, is_answered)
            if server.said().count(WARNING) != 1:
                yield f"start {server.starts} doesn't warn that {WARNING!r}: {server.said()!r}"
            if not server.stop() or server.process.returncode:
                yield f"start {server.starts} doesn't stop well: status {server.process.returncode}, {server.said()!r}"


def is_refusal(line):
    return line.startswith("<3>node: ") and line.endswith(REFUSAL)


def refusals(server):
    """What isn't as wanted where a server is started in a new directory without a transit, and its settings are
    checked."""
    if server.start():
        yield f"serve starts, and says {server.said()!r}; wants {REFUSAL!r}"
        server.kill()
    elif server.process.returncode != 1 or not any(is_refusal(line) for line in server.said().splitlines()):
        yield f"serve: status {server.process.returncode}, {server.said()!r}; wants 1 and {REFUSAL!r}"
    made = {path.name for path in server.folder.iterdir()} - GIVEN - LOCK
    if made:
        yield f"serve made {sorted(made)}"
    settings = (server.folder / "settings.toml").read_text()
    done = subprocess.run([server.node, "check"], input=settings, capture_output=True, text=True, check=False)
    is_warned = f"node: warning: serve refuses {REFUSAL}\n" in done.stderr
    if (done.returncode, done.stdout, is_warned) != (0, "ok 8\n", True):
        said = f"status {done.returncode}, {done.stdout!r}, {done.stderr!r}"
        yield f"check: {said}; wants 0, 'ok 8' and a warning: {REFUSAL!r}"


def new_directory(trial):
    """A new directory wants a transit, of at least a millisecond."""
    for name, is_left_out in (("new-directory", False), ("new-directory-without", True)):
        with SlowServer(trial, name, 0) as server:
            if is_left_out:
                server.leave_out("transit_ms")
            for fault in refusals(server):
                yield f"transit_ms {'left out' if is_left_out else 0}: {fault}"
    with SlowServer(trial, "new-directory-least", 1) as server:
        if not server.start() or not server.volumes():
            yield f"transit_ms 1: doesn't start: {server.said()!r}"


def restart_reading(trial):
    """A restart is read behind the last file: what was read before may be from before the partner's last message."""
    with SlowServer(trial, "restart-reading", 2000, partner=True) as server:
        # (without a key it doesn't ask its partner's clock before it begins)
        server.put("link_key", '"none"')
        # a closed volume, and an open one with a line behind its head
        for words in (["--close"], []):
            if not server.start() or not server.stop(*words):
                yield f"doesn't start, or stop: {server.said()!r}"
                return
        server.delays.slow_reads(SLOW_READ, SLOW_READS)
        # (it says with what it goes on before its line is on the disk: so it is told to stop, and not killed)
        if not server.start() or not server.stop():
            yield f"doesn't start behind slow reads, or stop: {server.said()!r}"
            return
        rows = [row.split() for row in server.last_volume().read_text().splitlines()]
        readings = [int(row[1]) for row in rows if row[2:3] == ["restart"]]
        slowed = SLOW_READS - server.delays.reads_left()
        if len(readings) != 2 or slowed == 0:
            yield f"{len(readings)} lines of a restart, wants 2; {slowed} slow reads"
        elif readings[-1] < server.delays.read_ended() - ROUNDING:
            older = server.delays.read_ended() - readings[-1]
            yield f"the restart's reading is {older:.0f} ms older than the end of the last read"


CASES = [slow_disk, clock_steps, no_transit, new_directory, restart_reading]
