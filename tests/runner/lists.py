"""Lists of calls from a seed. Each next call is chosen by what the oracle's trace says is due."""

import random
from collections import namedtuple

from . import volumes
from .domain import Tracker
from .oracles import turned_down
from .sides import Stopped
from .sizes import Sizes
from .trace import parse

# One script: its lines, the oracle's trace, and what its volume was like.
Script = namedtuple("Script", "lines trace kind")

# Page sizes with their weights: a large page makes long lines. A page has room for four words at least.
PAGE_SIZES = {16: 270, 32: 250, 64: 180, 128: 110, 256: 75, 512: 55, 1024: 30, 2048: 20, 4096: 10}

# Weights of calls when the log is idle, each list of calls with one row of them.
CALLS = ["append", "read", "seek", "sync", "erase", "deferred", "get"]
HABITS = [
    [60, 20, 5, 10, 2, 1, 2],
    [85, 5, 1, 8, 0, 0, 1],
    [30, 50, 15, 3, 1, 1, 1],
    [40, 20, 5, 15, 15, 1, 2],
]


class Writer:
    """Writes one script while the oracle runs it."""

    def __init__(self, rng, oracles, sizes, volume, page, hold):
        self.rng = rng
        self.turns_down = rng.random() < 0.5  # whether the driver may turn an erase down so that the list is for the altered oracle
        self.oracles = oracles
        self.oracle = oracles.altered if self.turns_down else oracles.unchanged
        self.sizes = sizes
        self.P = sizes.page_size
        self.state = Tracker(sizes, volume)
        self.habit = rng.choice(HABITS)
        self.refusals = rng.choice([0, 0.05, 0.3])  # how often the driver refuses
        self.failures = rng.choice([0, 0.1, 0.4])  # how often an operation fails
        self.lines = [sizes.line(), volume_line(volume), f"restart 1 1 {page} {hold}"]
        self.trace = []
        self.send("\n".join(self.lines), self.lines[2])

    def send(self, text, line):
        try:
            trace, = self.oracle.ask(text + "\n")
        except Stopped as stopped:
            raise self.left_domain(stopped)
        if trace.startswith("panic"):
            raise self.left_domain(trace)
        self.trace.append(trace)
        self.state.update(line, parse(trace))
        return trace

    def left_domain(self, what):
        return Stopped(f"the oracle, within what the runner takes for the domain: {what}; the script:\n" + "\n".join(self.lines))

    def add(self, line):
        """Adds a line, if the domain allows it now."""
        if self.state.allows(line):
            self.lines.append(line)
            self.send(line, line)

    def step(self):
        state, rng = self.state, self.rng
        if state.under_way and rng.random() < 0.75:
            self.add(self.completion())
        elif state.deferred and rng.random() < 0.8:
            self.add("deferred")
        else:
            self.add(getattr(self, rng.choices(CALLS, self.habit)[0])())

    def end(self):
        self.add("get")
        self.add("volume")
        assert self.trace[-1] == "volume " + hex_of(self.state.volume), "the runner lost track of the volume"
        if self.turns_down and not turned_down(self.lines):
            self.trace = self.oracles.trace(self.lines)  # the driver might have, and never did
        return self.lines, self.trace

    def word(self, refused=("busy", "fail")):
        """The driver's: at times it refuses, by one of these."""
        return self.rng.choice(refused) if self.rng.random() < self.refusals else "ok"

    def completion(self):
        failed = self.rng.random() < self.failures
        if self.state.under_way.kind == "write":
            return "write_complete fail " + self.rng.choice(["old", "blank", "new"]) if failed else "write_complete ok new"
        how = "fail " + self.rng.choice(["old", "blank"]) if failed else "ok blank"
        word = self.word() if self.turns_down else self.word(["busy"])
        return f"erase_complete {how} {word}"

    def append(self):
        length = self.append_length()
        room = self.rng.choices([0, 1, 5, -1], [40, 4, 2, 1])[0]
        size = min(max(length + room, 0), 2 * self.P)
        return f"append {length} {hex_of(volumes.data(self.rng, self.sizes, size))} {self.word()}"

    def append_length(self):
        """Mostly what is allowed; often a limit or one beside it."""
        rng, sizes, append = self.rng, self.sizes, self.state.A
        if rng.random() < 0.5:
            return rng.randint(1, rng.choice([4, sizes.data_most, sizes.data_most]))
        left = self.P - append % self.P - sizes.width  # fills the page
        if sizes.mode == "plain" and rng.random() < 0.3:
            left = sizes.length - append - sizes.width  # fills the volume
        limit = self.any_length([left, sizes.data_most, 1, 255, 256, self.P, sizes.length_most], [20, 15, 4, 2, 2, 1, 1])
        return self.beside(limit, [0, 0, 0, -1, 1])

    def any_length(self, lengths, weights):
        beyond = self.sizes.beyond_32_bits()
        return self.rng.choices(lengths + beyond, weights + [1] * len(beyond))[0]

    def beside(self, length, steps):
        return min(max(length + self.rng.choice(steps), 0), self.sizes.length_most)

    def read(self):
        """Mostly a whole page of room; else about as much as the entry needs."""
        rng = self.rng
        length = room = self.P
        if rng.random() < 0.4:
            found = self.state.next_entry()[1] if self.state.idle() else None
            found = found if found and found <= self.P else 1
            length = self.any_length([found, 0, rng.randint(0, self.P), self.sizes.length_most], [12, 1, 4, 1])
            length = self.beside(length, [0, 0, -1, 1])
            room = min(max(length + rng.choices([0, 3, -1], [20, 10, 1])[0], 0), 2 * self.P)
        return f"read {length} {hex_of(rng.choice([bytes(room), rng.randbytes(room)]))}"

    def seek(self):
        state = self.state
        known = [state.O, state.A] if self.rng.random() < 0.3 else list(state.handed_out)
        return f"seek {self.rng.choice(known)}"

    def sync(self):
        return "sync " + self.word()

    def erase(self):
        return "erase " + (self.word() if self.turns_down else "ok")

    def deferred(self):
        return "deferred"

    def get(self):
        return "get"


def hex_of(data):
    return data.hex() or "-"


def volume_line(volume):
    if volume.count(volume[0]) == len(volume):
        return f"volume all {volume[0]}"
    return "volume " + hex_of(volume)


def any_sizes(rng, width):
    page_sizes = {size: weight for size, weight in PAGE_SIZES.items() if size >= 4 * width}
    page_size = rng.choices(list(page_sizes), page_sizes.values())[0]
    most = min(64, 65536 // page_size)
    count = rng.choice([1, 2, 3, 4, rng.randint(1, 8), rng.randint(1, most), most])
    first = rng.choice([0, 1, 100, 16777215, rng.randint(0, 16777215)])
    return Sizes(page_size, min(count, most), first, rng.choice(["circular", "circular", "plain"]), width)


def buffer(rng, sizes):
    """A buffer for restart: as it is, or noise."""
    return rng.choice(["=", rng.randbytes(sizes.page_size).hex()])


def steps(rng, sizes):
    return range(rng.randint(10, 400 if sizes.page_size <= 512 else 80))


def write_script(rng, oracles, sizes, kind, volume):
    writer = Writer(rng, oracles, sizes, volume, buffer(rng, sizes), buffer(rng, sizes))
    for _ in steps(rng, sizes):
        writer.step()
    lines, trace = writer.end()
    return Script(lines, trace, kind), bytes(writer.state.volume)


def scripts(seed, oracles, width):
    """The scripts of a seed: one, and often a second on the volume that the first left."""
    rng = random.Random(seed)
    sizes = any_sizes(rng, width)
    kind, volume = volumes.any_volume(rng, sizes)
    script, left = write_script(rng, oracles, sizes, kind, volume)
    yield script
    if rng.random() < 0.3 and volumes.admits_restart(left, sizes):
        yield write_script(rng, oracles, sizes, "left", left)[0]
