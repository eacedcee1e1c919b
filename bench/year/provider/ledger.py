"""What clients were told, as the driver saw it: who had which prefix from when to when. Nothing here comes from the servers' journals."""
import bisect
import collections
from dataclasses import dataclass


@dataclass
class Tenure:
    """A client had a prefix from `begin` to `end` without a gap, by what it was told; milliseconds of true time."""

    client: str
    prefix: bytes
    begin: int
    end: int
    # until when it lasts for servers that never heard that it was given back, or whose last answer was lost
    unheard: int = 0


class Ledger:
    def __init__(self):
        self.current, self.closed, self.latest, self.two = {}, [], {}, []
        # each hundredth answer: when, whom, what
        self.samples, self.tellings = [], 0
        self.counts = collections.Counter()

    def told(self, client, prefix, now, until):
        """A client was told that it has the prefix until then."""
        self.tellings += 1
        if self.tellings % 100 == 0:
            self.samples.append((client, prefix, now, until))
        key = client, prefix
        held = self.current.get(key)
        if held is not None and held.end >= now:
            held.end = max(held.end, until)
        else:
            if held is not None:
                self.closed.append(held)
            self.current[key] = held = Tenure(client, prefix, now, until)
            self.counts["tenures"] += 1
        other = self.latest.get(prefix)
        if other is not None and other.client != client and other.end > now:
            self.two.append((now, prefix.hex(), other.client, other.end, client))
        self.latest[prefix] = held

    def lost(self, client, prefix, now, until):
        """An answer that says so was lost on its way."""
        self.closed.append(Tenure(client, prefix, now, now, until))
        self.counts["lost answers with a prefix"] += 1

    def gave_back(self, client, prefix, now, is_heard):
        """A client gave the prefix back: it is none of its any more, whoever heard of it."""
        held = self.current.get((client, prefix))
        if held is not None and held.end > now:
            held.unheard = 0 if is_heard else held.end
            held.end = now
            self.counts["given back"] += 1

    def heard(self, client, prefix):
        """A server has heard that the client gave the prefix back."""
        held = self.current.get((client, prefix))
        if held is not None:
            held.unheard = 0

    def by_prefix(self):
        """All tenures of each prefix, by their beginnings."""
        found = collections.defaultdict(list)
        for held in self.closed + list(self.current.values()):
            found[held.prefix].append(held)
        for tenures in found.values():
            tenures.sort(key=lambda held: held.begin)
        return Holders(found)


class Holders:
    """Who had which prefix when."""

    def __init__(self, found):
        self.found = found
        self.begins = {prefix: [held.begin for held in tenures] for prefix, tenures in found.items()}

    def at(self, prefix, moment):
        """The clients that had the prefix then, and those that servers may have taken for such: of them the last answer was lost, or that
        it was given back."""
        tenures = self.found.get(prefix, [])
        before = tenures[:bisect.bisect_right(self.begins.get(prefix, []), moment)]
        holders = {held.client for held in before if held.end > moment}
        return holders, {held.client for held in before if held.unheard > moment} - holders
