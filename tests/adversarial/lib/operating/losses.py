"""A disk that is full, and a volume that is removed while it is served: what its server says, and that it ends."""
import pathlib
import subprocess
import time

from .stage import LONG

SHIM = pathlib.Path(__file__).with_name("full.c")
FULL = "the disk is full, or its user's quota is used up: make room there, and start the server again"
ROOM = "make room on the disk, or in its user's quota, and start the server again"
REMOVED = ("<3>node: the file of volume {} was removed while it was served, and with it what was granted in it: don't "
           "start this server again, and see \"A lost disk\"\n")
SERVES_NOBODY = "<3>node: serves nobody: its disk failed\n"
# The statuses by which a server ends whose disk failed, whose volume was removed, and that doesn't start.
DISK_FAILED, VOLUME_REMOVED, NOT_STARTED = 3, 4, 1
# A heartbeat, and what a busy machine may add, in seconds.
SEEN = 15


def with_full(play, error):
    """The program with a library by which its disk is full while a file is there: that file."""
    one, full = play.one, play.one.beside / "full"
    library, script = one.beside / "full.so", one.beside / "node-full"
    subprocess.run(["cc", "-O1", "-Wall", "-shared", "-fPIC", "-o", library, SHIM, "-ldl"], check=True)
    text = f'#!/bin/sh\nexport LD_PRELOAD="{library}" FULL="{full}" FULL_AS={error}\nexec "{one.node}" "$@"\n'
    # (a process of its own writes it: what a play beside this one starts would hold a file of this one's open)
    subprocess.run(["tee", script], input=text, text=True, stdout=subprocess.DEVNULL, check=True)
    script.chmod(0o755)
    one.node = str(script)
    return full


def ended(play, server, status, what, seconds=SEEN):
    """A server ends by itself, by this status."""
    if play.until(f"{what}: {server.side} ends", lambda: not server.is_up(), seconds):
        found = server.process.returncode
        play.see(found == status, f"{what}: {server.side} ends by {found}, wants {status}")


def says_so(play, what):
    """For some seconds its status says that it serves nobody, in each form, and it does nothing more."""
    one = play.one
    said = one.status(), one.data(), one.told("status", "--metrics")[1].splitlines(), one.told("roll")
    lines, data, metrics, roll = said
    play.see(lines == ["serving: no, disk failed"], f"{what}: {one.side}'s status is {lines}")
    play.see(data == {"serving": {"is": False, "why": "disk_failed"}}, f"{what}: as an object it is {data}")
    for row in ("fengtuyas_serving 0", 'fengtuyas_not_serving{why="disk_failed"} 1'):
        play.see(row in metrics, f"{what}: {one.side}'s metrics have no row {row}: {metrics[:3]}")
    play.see(roll[0] == 1 and "the disk failed" in roll[1], f"{what}: roll at {one.side} has {roll}")
    play.see(SERVES_NOBODY in one.said(), f"{what}: {one.side} says {one.said()[-300:]!r}, wants {SERVES_NOBODY!r}")


def full(error):
    def act(play):
        """Its disk is full: it says so and ends, doesn't start meanwhile, and goes on once there is room."""
        one, what = play.one, f"the disk is full ({error})"
        file = with_full(play, error)
        play.start(one)
        known = play.lease(one, 3)
        file.touch()
        given = play.customers.lease(one, play.customers.new(1), 1)
        play.see(not given, f"{what}: {one.side} gives a lease all the same")
        says_so(play, what)
        ended(play, one, DISK_FAILED, what)
        play.see(FULL in one.said(), f"{what}: {one.side} says {one.said()[-300:]!r}, wants {FULL!r}")
        one.start()
        ended(play, one, NOT_STARTED, f"{what}, and it is started again")
        play.see(ROOM in one.said(), f"{what}, and it is started again: {one.side} says {one.said()[-300:]!r}")
        file.unlink()
        play.start(one)
        play.serves(one, known, f"{what} no more")
    return act


def removed(play):
    """The file of the volume that it writes is removed: it says so within a heartbeat, and ends."""
    one = play.one
    play.start(one)
    play.lease(one, 3)
    play.heard(one, ("roll",), "at first")
    play.until(f"{one.side} begins volume 2", lambda: len(one.volumes()) == 2)
    play.lease(one, 2)
    one.volumes()[0].rename(one.beside / "older")
    time.sleep(3)
    play.see(one.is_up(), f"an older volume is away: {one.side} ends")
    one.volumes()[-1].unlink()
    ended(play, one, VOLUME_REMOVED, "its volume is removed")
    wanted = REMOVED.format(2)
    play.see(wanted in one.said(), f"its volume is removed: {one.side} says {one.said()[-300:]!r}, wants {wanted!r}")


def replaced(play):
    """Another file is put in the place of the volume that it writes: it is the same."""
    one = play.one
    play.start(one)
    play.lease(one, 3)
    path = one.volumes()[-1]
    copy = one.beside / "copy"
    copy.write_bytes(path.read_bytes())
    copy.rename(path)
    ended(play, one, VOLUME_REMOVED, "its volume is replaced")
    wanted = REMOVED.format(1)
    play.see(wanted in one.said(), f"its volume is replaced: {one.side} says {one.said()[-300:]!r}, wants {wanted!r}")


PLAYS = {
    "full-disk": (full("ENOSPC"), "1", LONG),
    "full-quota": (full("EDQUOT"), "1", LONG),
    "volume-removed": (removed, "1", LONG),
    "volume-replaced": (replaced, "1", LONG),
}
