"""A pair that nobody asks for anything, under clocks that are moved on: neither takes the other for silent."""
import signal
import time

from jumping.servers import ENDS

# How often each writes that it lives, in seconds: the one's contact always comes before the other's is due, if what
# was heard counts as something that was said.
HEARTBEATS = {"one": 50, "other": 60}
SILENT = "heard nothing of its partner for two minutes"
# By how much both clocks are moved on every so often, in seconds; and how long all of it takes by these clocks.
STEP, PAUSE, LONG = 0.3, 0.05, 280
# What each says of its life in that time, at least.
CONTACTS = 3


def settle(play):
    for name, seconds in HEARTBEATS.items():
        path = getattr(play, name).folder / "settings.toml"
        path.write_text(path.read_text().replace("heartbeat = 1\n", f"heartbeat = {seconds}\n"))


def fast(play, seconds, is_over=lambda: False):
    """So much time goes by, or until something holds, by clocks that are moved on again and again; both of both."""
    begun, ahead, looked = time.monotonic(), 0.0, 0.0
    while time.monotonic() - begun + ahead < seconds:
        time.sleep(PAUSE)
        ahead += STEP
        for server in play.sides.values():
            server.delays.shift(1000 * (play.ahead + ahead))
            server.delays.shift_steady(1000 * (play.ahead + ahead))
        if time.monotonic() > looked + 1:
            if is_over():
                break
            looked = time.monotonic()
    play.ahead += ahead


def sent(server):
    return sum(event.startswith("send ") and " contact " in event for event in server.events())


def idle(play):
    """Nobody says that it heard nothing, and each has said that it lives."""
    settle(play)
    play.ahead = 0.0
    play.begin()
    before = {server.side: sent(server) for server in (play.one, play.other)}
    links = {server.side: server.value("link") for server in (play.one, play.other)}
    fast(play, LONG)
    for server in (play.one, play.other):
        play.see(SILENT not in server.said(), f"idle: {server.side} says that it {SILENT}")
        count = sent(server) - before[server.side]
        play.see(count >= CONTACTS, f"idle: {server.side} says {count} times in {LONG} s that it lives")
        link = server.value("link")
        play.see(link == links[server.side], f"idle: {server.side}'s link was {links[server.side]}, is {link}")
        play.serves(server, [], "idle")


def stands(play):
    """A partner whose process stands is silent, and that is said."""
    settle(play)
    play.ahead = 0.0
    play.begin()
    play.other.process.send_signal(signal.SIGSTOP)
    fast(play, LONG, lambda: SILENT in play.one.said())
    play.see(SILENT in play.one.said(), f"its partner stands: {play.one.side} doesn't say that it {SILENT}")
    play.other.process.send_signal(signal.SIGCONT)


PLAYS = {
    "idle": (idle, "AB", ENDS),
    "idle-stands": (stands, "AB", ENDS),
}
