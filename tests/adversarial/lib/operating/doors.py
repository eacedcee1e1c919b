"""Who may reach the file `control`: its server's user and nobody else, whatever the mask that the server has."""
import ctypes
import os
import stat
import subprocess
import threading

from .stage import DOWN, LONG, NORMAL, asked, ran

# A user that has nothing of the server's; what it says at the file, and what it has the program say.
STRANGER = 65534
LINES = ("status", "stop", "stop close", "roll", " ".join(DOWN), *NORMAL)
COMMANDS = (("status",), ("status", "--json"), ("stop",), ("stop", "--close"), ("roll",), DOWN, NORMAL)


def under_mask(play, mask):
    """The program, by way of a script that gives it this mask."""
    script = play.one.beside / f"node-{mask:03o}"
    text = f'#!/bin/sh\numask {mask:03o}\nexec "{play.one.node}" "$@"\n'
    # (a process of its own writes it: what a play beside this one starts would hold a file of this one's open)
    subprocess.run(["tee", script], input=text, text=True, stdout=subprocess.DEVNULL, check=True)
    script.chmod(0o755)
    return str(script)


def control(play):
    """The file's mode and user, under masks that allow all and less; and that it is gone behind a stop."""
    one, program = play.one, play.one.node
    for mask in (0o000, 0o022, 0o027):
        one.node, what = under_mask(play, mask), f"under the mask {mask:03o}"
        play.start(one)
        play.until(f"{what}: {one.side} can be asked", lambda: (one.folder / "control").exists())
        found = os.stat(one.folder / "control")
        had = stat.S_ISSOCK(found.st_mode), oct(stat.S_IMODE(found.st_mode)), found.st_uid
        wanted = True, oct(0o600), os.geteuid()
        play.see(had == wanted, f"{what}: whether control is a socket, its mode and its user: {had}, wants {wanted}")
        play.see(asked(one, "status")[0] == "ok", f"{what}: {one.side}'s own user isn't heard")
        play.stop(one)
        play.see(not (one.folder / "control").exists(), f"{what}: control is there behind a stop")
        one.node = program


def as_stranger(deed):
    """What a thread finds that has another user's rights at files."""
    found = []

    def act():
        # (of one thread alone, to the end of it)
        ctypes.CDLL(None).setfsuid(STRANGER)
        found.append(deed())
    thread = threading.Thread(target=act)
    thread.start()
    thread.join()
    return found[0]


def answer_to(server, line):
    try:
        return asked(server, line)[0]
    except PermissionError:
        return "no permission"
    except OSError as fault:
        return repr(fault)


def open_way(server):
    """Lets another user look into the directory and run a copy of the program; None where folders above forbid it."""
    for folder in (server.folder, server.beside, server.beside.parent):
        folder.chmod(0o755)
    program = server.beside / "node"
    subprocess.run(["install", "-m", "755", server.node, program], check=True)
    how = {"user": STRANGER, "group": STRANGER, "extra_groups": []}
    looks = ["/bin/sh", "-c", 'test -S "$0/control" && test -x "$1"', server.folder, program]
    can_look = subprocess.run(looks, check=False, **how).returncode == 0
    return (program, how) if can_look else None


def stranger(play):
    """Another user looks into the directory, and says this and that at the file: nothing is heard."""
    one = play.one
    if os.geteuid() != 0:
        print("control-stranger: not tried, since root alone can be another user")
        return
    one.node = under_mask(play, 0)
    play.start(one)
    known = play.lease(one, 3)
    opened = open_way(one)
    if opened is None:
        print(f"control-stranger: not tried, since folders above {one.folder} keep another user out")
        return
    program, how = opened
    before = one.events()
    for line in LINES:
        said = as_stranger(lambda each=line: answer_to(one, each))
        play.see(said == "no permission", f"another user says {line!r} at control, and hears {said!r}")
    own, one.node = one.node, program
    for words in COMMANDS:
        status, out, said = ran(one, *words, **how)
        is_refused = status in (1, 2) and out == ""
        play.see(is_refused, f"another user's {' '.join(words)} has status {status}, {(out + said)[:99]!r}")
    one.node = own
    play.see(one.events() == before, f"another user was there, and {one.side} writes {one.events()[len(before):][:3]}")
    if play.see(one.is_up(), f"another user stops {one.side}"):
        play.serves(one, known, "another user was there")


PLAYS = {
    "control": (control, "1", LONG),
    "control-stranger": (stranger, "1", LONG),
}
