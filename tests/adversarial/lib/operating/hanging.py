"""SIGHUP, to servers that the launchers started: the checkout's own, and what `install` puts."""
import os
import pathlib
import signal
import subprocess

from living.play import Broken

from .stage import LONG

ROOT = pathlib.Path(__file__).resolve().parents[4]
UNIT = "lib/systemd/system/fengtuyas-node@.service"


def installed(folder):
    """What `install` puts below a folder: the command, and the program that its unit starts."""
    done = subprocess.run([ROOT / "install", folder], capture_output=True, text=True, check=False)
    if done.returncode != 0:
        raise Broken(f"install has status {done.returncode}: {done.stderr[-300:]!r}")
    rows = (folder / UNIT).read_text().splitlines()
    starts = [row.removeprefix("ExecStart=").split(" ")[0] for row in rows if row.startswith("ExecStart=")]
    return folder / "bin/fengtuyas-node", *map(pathlib.Path, starts)


def is_program(server):
    """Whether the process that was started is the program by now, and no shell before it."""
    return (pathlib.Path("/proc") / str(server.process.pid) / "exe").resolve().name == "node"


def hang_up(play):
    """A pair by two launchers, each of which gets the signal again and again: both serve on, and stay connected."""
    one, other = play.one, play.other
    command, *starts = installed(one.beside / "installed")
    play.see(starts == [command], f"the unit starts {starts}, and the command is {command}")
    one.node, other.node = str(ROOT / "node"), str(command)
    play.begin()
    mine, theirs = play.lease(one, 3), play.lease(other, 3)
    links = {server.side: server.value("link") for server in (one, other)}
    for server in (one, other):
        play.see(is_program(server), f"{server.side}'s process isn't the program")
        for _ in range(3):
            os.kill(server.process.pid, signal.SIGHUP)
            # (who answers has lived on)
            if not play.customers.lease(server, play.customers.new(1)) or not server.is_up():
                raise Broken(f"SIGHUP: {server.side} answers nobody, status {server.process.poll()}")
    play.both_serve(mine, theirs, "SIGHUP")
    for server in (one, other):
        link = server.value("link")
        play.see(link == links[server.side], f"SIGHUP: {server.side}'s link was {links[server.side]}, is {link}")
    for server in (one, other):
        play.stop(server)


PLAYS = {"hang-up": (hang_up, "AB", LONG)}
