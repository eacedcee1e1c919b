"""A trial: its plays, each of a side, all or so many at once; what of them isn't as wanted; and the line of counts."""
import argparse
import concurrent.futures
import pathlib
import socket
import sys
import tempfile
import time
import traceback

from .play import Broken

# How many lines are printed of a play that isn't as wanted.
MOST_PRINTED = 8
# The places of ports of which no other trial draws one.
PLACES = range(1_060, 1_250)


class Places:
    """So many places of ports that no trial beside this one has: a socket without a file holds each."""

    def __init__(self, count):
        self.held = {}
        for place in PLACES:
            holder = socket.socket(socket.AF_UNIX, socket.SOCK_DGRAM)
            try:
                holder.bind(f"\0fengtuyas-place-{place}")
            except OSError:
                holder.close()
                continue
            self.held[place] = holder
            if len(self.held) == count:
                return
        sys.exit("too many trials have ports beside this one")

    def end(self):
        for holder in self.held.values():
            holder.close()


class Trial:
    """`plays` has of each name what is done, of which sides (`1` is a server that is alone), and the terms of leases.
    `stage` makes what it is done with: of the program, a folder, a place, a side, the terms, whether it is alone."""

    def __init__(self, name, plays, stage):
        self.name, self.plays, self.stage = name, plays, stage

    def names(self, only):
        """The plays, each of a side, of which those are meant that are named with or without it."""
        every = [f"{scene}/{side}" for scene, (_, sides, _) in self.plays.items() for side in sides.replace("1", "A")]
        if only is None:
            return every
        wanted = only.split(",")
        unknown = [name for name in wanted if name not in self.plays and name not in every]
        if unknown:
            sys.exit(f"{self.name}: no play {', '.join(unknown)}; there are {', '.join(self.plays)}, with /A or /B or "
                     "without")
        return [name for name in every if name in wanted or name.split("/")[0] in wanted]

    def played(self, node, folder, place, name):
        """A play of a side, and how long it took, in seconds."""
        scene, side = name.split("/")
        act, sides, kind = self.plays[scene]
        begun = time.monotonic()
        play = self.stage(node, folder / f"{scene}-{side}", place, side, kind, sides == "1")
        try:
            act(play)
        except Broken as broken:
            play.faults.append(f"goes no further: {broken}")
        except Exception:
            play.faults.append(f"the trial broke: {traceback.format_exc()}")
        finally:
            play.end()
        play.judge()
        return play, time.monotonic() - begun

    def counted(self, plays, seconds):
        """The line of counts."""
        wrong = sum(bool(play.faults) for play in plays)
        starts = sum(server.starts for play in plays for server in play.sides.values())
        grants = [grant for play in plays for grant in play.customers.grants]
        prefixes = sum(len({grant.prefix for grant in play.customers.grants}) for play in plays)
        twice = sum(len(play.customers.second_holders()) for play in plays)
        return (f"tests/adversarial/{self.name}: {len(plays)} plays, {wrong} not as wanted; {starts} starts, "
                f"{len(grants)} grants of {prefixes} prefixes seen, {twice} of two clients at once; {seconds:.0f} s")

    def all_played(self, node, folder, chosen, at_once):
        """What was played, and how long each took: at most `at_once` plays are played at the same time."""
        places = Places(len(chosen))
        with concurrent.futures.ThreadPoolExecutor(at_once) as pool:
            runs = {name: pool.submit(self.played, node, folder, place, name)
                    for place, name in zip(places.held, chosen)}
            done = {name: run.result() for name, run in runs.items()}
        places.end()
        return done

    def run(self, words):
        """Plays what the words say, prints what isn't as wanted: the status to end with."""
        begun, chosen = time.monotonic(), self.names(words.only)
        with tempfile.TemporaryDirectory() as temporary:
            folder = pathlib.Path(words.keep or temporary).resolve()
            folder.mkdir(parents=True, exist_ok=True)
            node, at_once = str(pathlib.Path(words.node).resolve()), words.at_once or len(chosen)
            done = self.all_played(node, folder, chosen, at_once)
        for name, (play, seconds) in done.items():
            if words.slow:
                print(f"{name}: {seconds:.0f} s")
            for fault in play.faults[:MOST_PRINTED]:
                print(f"failed: {name}: {fault}")
        plays = [play for play, _ in done.values()]
        print(self.counted(plays, time.monotonic() - begun))
        return int(any(play.faults for play in plays))


def words_of(description):
    """What the trial is told."""
    parser = argparse.ArgumentParser(description=description.splitlines()[0])
    parser.add_argument("node")
    parser.add_argument("--only", help="these plays, with commas between them; each may have a side, as down-waits/A")
    parser.add_argument("--keep", help="a new folder in which the servers' directories stay")
    parser.add_argument("--at-once", type=int, help="how many plays are played at the same time, otherwise all")
    parser.add_argument("--slow", action="store_true", help="says how long each play took")
    return parser.parse_args()
