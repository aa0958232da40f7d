"""How long a build has still to go, from what each crate took elsewhere and from the pace of this machine so far."""
import heapq
import os
import re
import time

TIMES = os.path.join(os.path.dirname(os.path.realpath(__file__)), "times")
ROW = re.compile(r"^(\w+) ([0-9.]+) ", re.M)
# What a crate is taken for that the table doesn't have, in seconds.
UNKNOWN = 60.0
# How much of a processor's time a second and further processor saves a crate, which the gate gives to those that no other crate waits for.
GAIN = 0.3


def known_seconds():
    """Seconds of processor time of each crate's proof, from the table in the file `times`."""
    try:
        with open(TIMES, encoding="utf-8") as table:
            return {name: 60 * float(minutes) for name, minutes in ROW.findall(table.read())}
    except OSError:
        return {}


class Schedule:
    """A build under way: when each crate would be proved by the table, and how this machine's pace compares with that."""

    def __init__(self, crates, workers):
        self.crates = crates
        self.workers = workers
        known = known_seconds()
        self.seconds = {name: known.get(name) or UNKNOWN for name in crates}
        self.done = set()
        self.began = time.monotonic()
        self.ends = self.planned()

    def planned(self):
        """When each crate would be proved, in seconds from the beginning, where those with the longest chain behind them are proved first."""
        chain = {}
        for name in reversed(list(self.crates)):
            chain[name] = self.seconds[name] + max((chain[it] for it in chain if name in self.crates[it]), default=0.0)
        ends, running, now = {}, [], 0.0
        while len(ends) < len(self.crates):
            begun = {name for _, name, _ in running}.union(ends)
            ready = [it for it, lower in self.crates.items() if it not in begun and all(low in ends for low in lower)]
            for place, name in enumerate(sorted(ready, key=lambda it: -chain[it])):
                idle = self.workers - sum(jobs for _, _, jobs in running)
                if idle:
                    jobs = max(1, min(4, idle // (len(ready) - place)))
                    heapq.heappush(running, (now + self.seconds[name] / (1 + GAIN * (jobs - 1)), name, jobs))
            now, name, _ = heapq.heappop(running)
            ends[name] = now
        return ends

    def told(self, name, outcome):
        """What is told behind the outcome of a crate, which counts as done where it is proved, or was before."""
        if outcome == "NOT PROVED":
            return ""
        self.done.add(name)
        if outcome == "is kept":
            self.seconds[name] = 0.0
            self.ends = self.planned()
        count = len(self.crates)
        left = f"; {minutes(self.left())} left" if len(self.done) < count else ""
        return f" ({len(self.done)} of {count}){left}"

    def elapsed(self):
        return time.monotonic() - self.began

    def left(self):
        """Seconds until the last crate is proved. The pace is at first that of the table, and what was proved here counts more and more."""
        reached = max((self.ends[name] for name in self.done), default=0.0)
        return (max(self.ends.values()) - reached) * (self.elapsed() + 60) / (reached + 60)


def minutes(seconds):
    """A length of time in words, no finer than it is known."""
    if seconds < 50:
        return "less than a minute"
    whole = round(seconds / 60)
    return f"about {whole} minute{'s' if whole > 1 else ''}"
