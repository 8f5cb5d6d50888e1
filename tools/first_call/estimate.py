"""How long the proof of the program takes: the toolchain's planner on a virtual clock, over seconds that were measured."""
import os
import re

HERE = os.path.dirname(os.path.abspath(__file__))
# The part of the free memory that the toolchain's planner uses, and what each further processor adds to the speed and the memory of
# a proof.
OF_FREE, SPEED, MEMORY = 0.85, 0.7, 0.6
MOST_JOBS = 4
# How much longer a whole run takes than these seconds say: 80 min were measured where 60 were foreseen.
OF_A_RUN = 1.33
# Of a crate that the table does not have.
UNKNOWN = (120, 4.0)


def read_table():
    """The seconds and the GB of each crate."""
    with open(os.path.join(HERE, "seconds.txt"), encoding="utf-8") as it:
        rows = [line.split() for line in it if line.strip() and not line.startswith("#")]
    return {name: (float(seconds), float(memory)) for name, seconds, memory in rows}


def processors():
    return len(os.sched_getaffinity(0))


def free_memory():
    """The free memory in GB; much where the system does not say it."""
    try:
        with open("/proc/meminfo", encoding="utf-8") as it:
            return int(re.search(r"MemAvailable:\s+(\d+)", it.read())[1]) / 1e6
    except (OSError, TypeError):
        return 64.0


class Estimate:
    """The crates by name, each with the names of those that it stands on, on some processors with some GB of memory."""

    def __init__(self, needs, lanes=None, memory=None):
        table = read_table()
        self.needs = needs
        self.lanes = lanes or processors()
        self.memory = OF_FREE * (memory or free_memory())
        self.cost = {name: (OF_A_RUN * seconds, memory) for name, (seconds, memory) in ((it, table.get(it, UNKNOWN)) for it in needs)}
        self.chain = {}
        for name in reversed(list(needs)):
            above = [self.chain[it] for it in needs if name in needs[it] and it in self.chain]
            self.chain[name] = self.cost[name][0] + max(above, default=0)

    def start(self, ready, running, now):
        """Begins what fits, the longest chain first."""
        for at, name in enumerate(sorted(ready, key=lambda it: -self.chain[it])):
            seconds, memory = self.cost[name]
            room = self.memory - sum(it[1] for it in running.values())
            idle = self.lanes - sum(it[2] for it in running.values())
            if idle > 0 and (not running or memory <= room):
                spare = min(MOST_JOBS, idle // (len(ready) - at), 1 + int((room / memory - 1) / MEMORY))
                jobs = max(1, spare)
                running[name] = now + seconds / (1 + SPEED * (jobs - 1)), memory * (1 + MEMORY * (jobs - 1)), jobs

    def ends(self, done=()):
        """The seconds after which one crate after the other is proved, where these are proved already."""
        done, running, now, ends = set(done), {}, 0.0, []
        while len(done) < len(self.needs):
            ready = [it for it in self.needs if it not in done and it not in running and done.issuperset(self.needs[it])]
            self.start(ready, running, now)
            if not running:
                break
            now = min(it[0] for it in running.values())
            ended = [it for it in running if running[it][0] <= now]
            done.update(ended)
            ends += [now] * len(ended)
            for it in ended:
                del running[it]
        return ends

    def rest(self, done=()):
        """The seconds until all is proved, where these crates are."""
        return max(self.ends(done), default=0.0)


def in_words(seconds):
    """A time for people."""
    minutes = round(seconds / 60)
    return "less than a minute" if minutes < 1 else f"about {minutes} min"
