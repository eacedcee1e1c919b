"""The run: time goes from event to event; routers ask, servers answer, and trouble comes."""
import collections
import heapq
import subprocess
import time

from .ledger import Ledger
from .messages import ADVERTISE, REBIND, RELEASE, RENEW, REPLY, REQUEST, SOLICIT, answered
from .pair import STANDS
from .routers import DAY, HOUR, PORTS_OF_A_RELAY, SECOND, Router
from .weather import Weather

NO_BINDING = 3
KINDS = {SOLICIT: "SOLICIT", REQUEST: "REQUEST", RENEW: "RENEW", REBIND: "REBIND", RELEASE: "RELEASE"}
# Time jumps no further than this where nothing happens, in milliseconds.
LONGEST_JUMP = 60_000
# How many routers ask in one step, at most.
MOST_ASKING = 60
# What a router does of its own in a year, and how often.
LIFE = {"restart": 6.0, "move": 0.05, "new router": 0.1, "holiday": 0.4, "customer leaves": 0.1}
YEAR = 365 * DAY
# Of how many datagrams one is lost, either way.
LOST = 2000


class Run:
    def __init__(self, pair, customers, days, window, restless, keepers, dice):
        self.pair, self.dice, self.window, self.keepers = pair, dice, window, keepers
        self.begins, self.ends = pair.now, pair.now + days * DAY
        self.ledger, self.counts, self.seen = Ledger(), collections.Counter(), collections.Counter()
        self.rate = restless * sum(LIFE.values()) / YEAR
        self.duids = [server.duid for server in pair.servers]
        self.heap, self.number, self.routers = [], 0, []
        self.ports, self.away = 0, set()
        relays = customers // PORTS_OF_A_RELAY + 1
        self.weather = Weather(self.begins, days, relays, dice)
        self.cut_soon, self.starts, self.rates = set(), [], []
        # what the operator was answered, and by whom
        self.said = []
        self.arrive(customers, days)
        for trouble in self.weather.troubles:
            self.push(trouble.at, trouble)

    def push(self, at, what):
        self.number += 1
        heapq.heappush(self.heap, (at, self.number, what))

    def ask_at(self, at, router):
        """The router asks next at that moment; what it had planned before is void."""
        router.turn += 1
        self.push(at, (router, router.turn))

    def new_router(self, port, at):
        router = Router(len(self.routers), bytes.fromhex(f"00030001{0x020000000000 + len(self.routers):012x}"), port)
        router.keeps = self.dice.random() < self.keepers
        self.routers.append(router)
        self.switch_on(router, at)
        self.live_on(router, at)
        return router

    def switch_on(self, router, at):
        router.is_on = True
        self.ask_at(at, router)

    def live_on(self, router, now):
        if self.rate:
            self.push(now + int(self.dice.expovariate(self.rate)), router)

    def arrive(self, customers, days):
        """Customers come within the first day; some have cloned routers later."""
        first = min(DAY, days * DAY // 20)
        for port in range(customers):
            self.new_router(port, self.begins + 10 * SECOND + int(self.dice.random() * first))
        self.ports = customers
        for original in self.dice.sample(self.routers, max(1, customers // 1000)):
            at = self.weather.moment(0.15, 0.8)
            clone = Router(len(self.routers), original.duid, self.port())
            clone.is_clone = original.is_clone = True
            self.routers.append(clone)
            self.switch_on(clone, at)

    def port(self):
        self.ports += 1
        return self.dice.randrange(self.ports)

    # What a router does of its own.

    def life(self, router, now):
        kind = self.dice.choices(list(LIFE), LIFE.values())[0]
        self.live_on(router, now)
        if router.is_clone or not router.is_on:
            return
        self.seen[kind] += 1
        if kind == "restart":
            router.begin_again(now)
            self.ask_at(now + self.dice.randrange(30, 180) * SECOND, router)
        elif kind == "move":
            router.move(self.port())
            router.begin_again(now)
            self.ask_at(now + self.dice.randrange(600, 7200) * SECOND, router)
        elif kind == "holiday":
            self.leave(router, now)
            self.push(now + int(self.dice.uniform(0.5, 21) * DAY), ("on", router))
        else:
            self.leave(router, now)
            pause = self.dice.choice([60 * SECOND, HOUR, 3 * DAY])
            self.push(now + int(pause * self.dice.uniform(0.5, 1.5)), ("new", router.port))

    def leave(self, router, now):
        """It goes: half of them give back what they have."""
        router.is_on = False
        router.turn += 1
        if router.prefix and router.until > now and self.dice.random() < 0.5:
            router.next, router.tries = RELEASE, 0
            self.ask_at(now, router)

    # A step.

    def live(self, progress):
        """Until the end of all days."""
        begun, day = time.monotonic(), self.begins
        while self.heap and self.heap[0][0] < self.ends:
            at = self.heap[0][0]
            while at - self.pair.now > LONGEST_JUMP:
                self.step(self.pair.now + LONGEST_JUMP, [])
            self.batch(max(at, self.pair.now))
            if self.pair.now - day >= DAY:
                day += DAY
                progress((day - self.begins) // DAY, time.monotonic() - begun)
            if self.pair.faults:
                break
        while self.pair.now < self.ends and not self.pair.faults:
            self.step(self.pair.now + LONGEST_JUMP, [])

    def batch(self, first):
        """All that happens within a window, in one step; a trouble ends it."""
        asking, now = [], first
        while self.heap and self.heap[0][0] <= first + self.window and len(asking) < MOST_ASKING:
            at, _, what = heapq.heappop(self.heap)
            now = max(now, at)
            if isinstance(what, tuple) and isinstance(what[0], Router):
                router, turn = what
                if turn == router.turn:
                    asking.append(router)
            elif isinstance(what, Router):
                self.life(what, now)
            elif isinstance(what, tuple):
                self.change(what, now)
            else:
                self.step(now, asking)
                self.befall(what, now)
                return
        self.step(now, asking)

    def change(self, what, now):
        name, given = what
        if name == "new":
            self.new_router(given, now)
        else:
            given.begin_again(now)
            self.switch_on(given, now)

    def step(self, now, asking):
        """Time goes on; routers ask, both servers do what there is to do, and the routers hear what they are told."""
        pair, weather = self.pair, self.weather
        pair.offsets[0], pair.offsets[1] = weather.offset(0, now), weather.offset(1, now)
        pair.set_clocks(now)
        pair.tick()
        asked = {}
        for router in asking:
            asked[router.index] = router, router.next, []
            self.ask(router)
        cut = [side for side in self.cut_soon if asking]
        for side in cut:
            self.cut(side)
        pair.settle()
        for server in pair.servers:
            for octets in server.answers():
                answer = answered(octets)
                if answer[1] in asked and is_for(answer[0], asked[answer[1]][1]) and self.dice.randrange(LOST):
                    asked[answer[1]][2].append((server.side, answer))
                else:
                    self.lose(answer, asked, now)
        for router, kind, answers in asked.values():
            self.hear(router, kind, answers, now)

    def ask(self, router):
        kind, pair = router.next, self.pair
        self.counts[KINDS[kind]] += 1
        if kind == RELEASE and router.tries == 0:
            self.ledger.gave_back(router.client, router.prefix[0], pair.now, is_heard=False)
        if router.relay in self.away:
            self.counts["not past a relay"] += 1
            return
        octets = router.datagram(kind, self.duids)
        for side in router.to(kind):
            if pair.servers[side].process is not None and self.dice.randrange(LOST):
                pair.send(side, octets)

    def lose(self, answer, asked, now):
        """An answer is lost on its way, or comes for a question that is over: a router's messages have one transaction here, and on a busy
        machine an offer may come a step late."""
        kind, index, prefix, valid, _ = answer
        self.counts["answers lost"] += 1
        if index in asked and not is_for(kind, asked[index][1]):
            self.counts["late offers"] += 1
        if kind == REPLY and prefix and valid:
            self.ledger.lost(self.routers[index].client, prefix[0], now, now + valid * SECOND)

    def hear(self, router, kind, answers, now):
        """What a router makes of the answers to its message, none perhaps."""
        given = [(side, answer) for side, answer in answers if answer[2] is not None and answer[3]]
        if kind == SOLICIT:
            self.hear_offers(router, given, now)
        elif kind == RELEASE:
            if answers:
                self.ledger.heard(router.client, router.prefix[0])
            self.go_on(router, kind, now, bool(answers))
        elif given:
            for side, answer in given:
                self.ledger.told(router.client, answer[2][0], now, now + answer[3] * SECOND)
                at = router.bound(side, answer[2], answer[3], now, self.dice)
            self.ask_at(at, router)
        elif any(answer[4] is not None for _, answer in answers):
            self.counts["NoBinding" if answers[0][1][4] == NO_BINDING else "NoPrefixAvail"] += 1
            router.forget()
            self.ask_at(now + self.dice.randrange(1, 60) * SECOND, router)
        else:
            self.go_on(router, kind, now, False)

    def hear_offers(self, router, offers, now):
        if not offers:
            self.go_on(router, SOLICIT, now, False)
            return
        side, answer = self.dice.choice(offers)
        router.side, router.prefix, router.next, router.tries = side, answer[2], REQUEST, 0
        self.ask_at(now + self.dice.randrange(100, 1200), router)

    def go_on(self, router, kind, now, is_done):
        """It asks again, unless it is done, or gives up."""
        if is_done:
            router.forget()
            return
        self.counts["unanswered"] += 1
        again = router.unanswered(kind, now, self.dice)
        if again is not None:
            self.ask_at(again, router)
        else:
            router.forget()

    # Trouble.

    def cut(self, side):
        """The power goes in the midst of what the server does."""
        self.cut_soon.discard(side)
        pause = self.dice.random() * 0.0006
        until = time.perf_counter() + pause
        while time.perf_counter() < until:
            pass
        self.pair.kill(side)
        if self.dice.random() < 0.5:
            self.counts["torn ends"] += tear(self.pair.servers[side].last_volume(), self.dice)

    def befall(self, trouble, now):
        self.seen[trouble.name] += 1
        getattr(self, "on_" + trouble.name.replace(" ", "_"))(trouble, now)

    def on_power_cut(self, trouble, _):
        if self.pair.servers[trouble.who].process is not None:
            self.cut_soon.add(trouble.who)

    def on_power_back(self, trouble, now):
        self.cut_soon.discard(trouble.who)
        if self.pair.servers[trouble.who].process is None:
            self.starts.append(self.pair.start(trouble.who))

    def on_restart(self, trouble, now):
        if self.pair.servers[trouble.who].process is not None:
            self.pair.stop(trouble.who)

    def on_machine_away(self, trouble, now):
        if self.pair.servers[trouble.who].process is not None:
            self.pair.kill(trouble.who)

    def on_machine_back(self, trouble, now):
        self.on_power_back(trouble, now)

    def on_say_down(self, trouble, now):
        self.say(trouble, "partner-down", "the partner is stopped")

    def on_say_normal(self, trouble, now):
        self.say(trouble, "partner-normal")

    def say(self, trouble, word, *words):
        """The operator tells a server something, by the node's own command."""
        server = self.pair.servers[trouble.who]
        done, text = (None, "is down") if server.process is None else self.tell(server, word, *words)
        self.said.append((self.pair.now, server.name, word, done, text))

    def tell(self, server, word, *words):
        given = [server.node, word, "--dir", server.folder, *words]
        teller = subprocess.Popen(given, stdout=subprocess.PIPE, stderr=subprocess.STDOUT, text=True)
        while teller.poll() is None:
            self.pair.lib.tick(server.side)
            time.sleep(0.002)
        return teller.returncode, teller.stdout.read().strip()

    def on_link_cut(self, trouble, now):
        self.pair.set_link(trouble.who)

    def on_link_back(self, trouble, now):
        self.pair.set_link(STANDS)

    def on_relay_away(self, trouble, now):
        self.away.add(trouble.who)

    def on_relay_back(self, trouble, now):
        self.away.discard(trouble.who)


def is_for(kind, question):
    """Whether an answer of this kind is one to that question."""
    return (kind == ADVERTISE) == (question == SOLICIT)


def tear(volume, dice):
    """Leaves a piece of a line behind a killed server's last one, as a loss of power may."""
    with open(volume, "rb+") as file:
        file.seek(max(0, file.seek(0, 2) - 600))
        lines = file.read().splitlines(keepends=True)
        if len(lines) < 3 or not lines[-1].endswith(b"\n") or lines[-1].startswith(b"end "):
            return 0
        number, words = lines[-1].split(b" ", 1)
        line = b"%d %s" % (int(number) + 1, words)
        file.seek(0, 2)
        file.write(line[:dice.randrange(1, len(line))])
    return 1
