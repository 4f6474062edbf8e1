"""Lists with power cuts and restarts, from a seed. Most are such that the page book speaks of them: these end in a restart and reads to the log's end."""

import random

from . import volumes
from .book import applies, clear
from .flash import LEFT, erase_refused
from .lists import CALLS, Script, Writer, any_sizes, buffer, steps
from .sizes import Sizes
from .trace import OK, parse

WITH_BOOK = 0.75  # of the lists


class CutWriter(Writer):
    """Writes one script with cuts and restarts."""

    def __init__(self, rng, oracles, sizes, volume, with_book):
        self.with_book = with_book
        self.during = rng.choice([0.02, 0.1, 0.3])  # how often an operation is cut, or a restart falls in it
        self.between = rng.choice([0, 0.01, 0.05])  # the same where nothing is under way
        super().__init__(rng, oracles, sizes, volume, buffer(rng, sizes), buffer(rng, sizes))

    def step(self):
        if self.state.flash.off:
            self.add(self.without_power())
        elif self.rng.random() < self.chance():
            self.add(self.rng.choice([self.cut, self.restart])())
        elif self.with_book and self.lines[-1].startswith("restart") and self.rng.random() < 0.15:
            self.read_on()
        elif self.flush_failed() and self.rng.random() < 0.3:
            self.add(self.erase())
        else:
            super().step()

    def flush_failed(self):
        """Whether the last line was a write refused by the driver, or its failure. O may have moved on over a page that is still there: an erase that
        is cut leaves a page missing in between then."""
        step = parse(self.trace[-1])
        if step is None:
            return False
        refused = step.answer != OK and step.request.startswith("write")
        return refused or step.report in ("append_done 0 0 1", "sync_done 1")

    def chance(self):
        """Of a cut or restart as the next step: more in an erase, and where the driver has just refused one."""
        operation = self.state.under_way
        if operation:
            return max(self.during, 0.1) if operation.kind == "erase" else self.during
        return max(self.between, 0.2) if erase_refused(self.lines[-1], parse(self.trace[-1])) else self.between

    def without_power(self):
        """Mostly a restart; else what is not delivered."""
        if self.rng.random() < 0.7:
            return self.restart()
        calls = [getattr(self, name) for name in CALLS] + [self.cut, self.completion]
        return self.rng.choice(calls)()

    def completion(self):
        if self.state.under_way:
            return super().completion()
        return self.rng.choice(["write_complete ok new", "write_complete fail blank", "erase_complete ok blank ok", "erase_complete fail old busy"])

    def cut(self):
        return f"cut {self.rng.choice(self.lefts())}"

    def restart(self):
        """Where nothing is under way, what it leaves is often left out."""
        line = f"restart 1 1 {buffer(self.rng, self.sizes)} {buffer(self.rng, self.sizes)}"
        if not self.state.under_way and self.rng.random() < 0.5:
            return line
        return f"{line} {self.admitted_left()}"

    def lefts(self):
        operation = self.state.under_way
        return LEFT[operation.kind if operation else "write"]

    def admitted_left(self):
        """What the operation under way leaves, such that the volume then admits a restart; if nothing does, then anything."""
        lefts = self.rng.sample(self.lefts(), len(self.lefts()))
        return next(filter(self.state.allows_restart, lefts), lefts[0])

    def lost(self):
        """Whether the power is off and stays off: a cut has left a volume outside the domain."""
        return self.state.flash.off and not self.state.allows_restart(None)

    def append_length(self):
        while True:
            length = super().append_length()
            if clear(length) or not self.with_book:
                return length

    def end(self):
        """For the book: a further restart, and reads."""
        if self.with_book:
            assert applies(self.lines), "the runner lost track of what the book speaks of"
            self.must_add(f"restart 1 1 = = {self.admitted_left()}")
            self.read_on()
        return super().end()

    def read_on(self):
        """Reads on from a restart to the first read that is refused: at the log's end."""
        while self.must_add(f"read {self.P} {self.rng.randbytes(self.P).hex()}").answer == OK:
            self.must_add("deferred")

    def must_add(self, line):
        """Adds a line that is in the domain wherever the log keeps to the book; gives its trace."""
        if not self.state.allows(line):
            raise self.left_domain(f"'{line[:40]}' is outside the domain, after what the book speaks of")
        self.add(line)
        return parse(self.trace[-1])


def sizes_for_cuts(rng, width):
    """Any, or often a small circular log, which goes round between the cuts."""
    sizes = any_sizes(rng, width)
    if rng.random() < 0.3:
        return Sizes(rng.choice([4, 8, 16]) * width, rng.randint(3, 6), sizes.first, "circular", width)
    return sizes


def write_script(rng, oracles, sizes, kind, volume, with_book):
    writer = CutWriter(rng, oracles, sizes, volume, with_book)
    for _ in steps(rng, sizes):
        writer.step()
        if writer.lost():
            break
    return Script(*writer.end(), kind)


def script(seed, oracles, width):
    """The script of a seed."""
    rng = random.Random(f"cuts:{seed}")
    sizes = sizes_for_cuts(rng, width)
    with_book = rng.random() < WITH_BOOK
    kind, volume = (volumes.any_headless if with_book else volumes.any_volume)(rng, sizes)
    return write_script(rng, oracles, sizes, kind, volume, with_book)
