"""Document 01's domain of the differential runs: which volumes a restart may meet, and which calls may come next.

What the log did is taken from the oracle's trace. The volume's bytes are looked at for two things alone: whether restart's walk wraps or
leaves the volume, and whether the entry that a read would meet ends within its page.
"""

from .flash import Ended, Flash, after, left_at_restart


def volume_bytes(line, sizes):
    """What a script's volume line says."""
    words = line.split(" ")
    return bytes([int(words[2])]) * sizes.length if words[1] == "all" else bytes.fromhex(words[1])


def has_header(volume, sizes):
    """Whether a slot has a page header that is valid, or would be below the ceiling."""
    return any(sizes.word_at(volume, start) % sizes.length == start for start in range(0, sizes.length, sizes.page_size))


def admits_restart(volume, sizes):
    """Whether restart's walk neither wraps nor leaves the volume, and no page ID reaches the ceiling."""
    page_size, width = sizes.page_size, sizes.width
    newest = None
    for start in range(0, sizes.length, page_size):
        page_id = sizes.word_at(volume, start)
        if page_id % sizes.length == start:
            if page_id >= sizes.ceiling:
                return False
            newest = max(newest or 0, page_id)
    if newest is None:
        return True
    start, at = newest % sizes.length, width
    while at < page_size and volume[start + at] not in (0, 255):
        end = at + width + sizes.word_at(volume, start + at)
        if start + at + width > sizes.length or end >= sizes.wrap:
            return False
        if end > page_size:
            break
        at = end
    return at < page_size or newest + page_size < sizes.ceiling


class Tracker:
    """What is due after the calls made so far."""

    def __init__(self, sizes, volume):
        self.sizes = sizes
        self.page_size = sizes.page_size
        self.volume = bytes(volume)
        assert len(self.volume) == sizes.length
        self.flash = Flash(sizes.first)
        self.deferred = False  # a deferred call is due
        self.handed_out = {}  # the IDs since the last restart or finished erase, as keys, in their order
        self.O = self.R = self.A = 0
        self.page = ""

    def copy(self):
        other = Tracker.__new__(Tracker)
        other.__dict__.update(self.__dict__)
        other.flash = self.flash.copy()
        other.handed_out = dict(self.handed_out)
        return other

    @property
    def under_way(self):
        return self.flash.under_way

    def idle(self):
        return not (self.under_way or self.deferred)

    def allows(self, line):
        """Whether a line of a script may come now. With the power off any may: nothing but a restart is delivered."""
        if line.startswith("restart"):
            return self.allows_restart(left_at_restart(line))
        words = line.split(" ", 2)
        allowed = getattr(self, "allows_" + words[0], None)
        return self.flash.off or allowed is None or allowed(words[1:])

    def allows_restart(self, left):
        if not self.flash.may_leave(left):
            return False
        volume = self.volume_after(Ended(*self.under_way, left)) if self.under_way else self.volume
        return admits_restart(volume, self.sizes)

    def allows_cut(self, words):
        return self.flash.may_leave(words[0])

    def allows_append(self, words):
        length = int(words[0])
        if length > self.sizes.length_most:
            return False
        if not self.idle():
            return True
        offset = self.A % self.page_size
        fits = offset != 0 and length + self.sizes.width <= self.page_size - offset
        return fits or self.A + -self.A % self.page_size < self.sizes.ceiling

    def allows_sync(self, words):
        return self.A < self.sizes.ceiling

    def allows_read(self, words):
        return int(words[0]) <= self.sizes.length_most and (not self.idle() or self.read_stays_in_page())

    def allows_seek(self, words):
        return self.idle() and int(words[0]) in self.handed_out

    def allows_erase(self, words):
        return self.A >= self.page_size

    def allows_deferred(self, words):
        return self.deferred or self.idle()

    def allows_write_complete(self, words):
        return self.under_way is not None and self.under_way.kind == "write"

    def allows_erase_complete(self, words):
        return self.under_way is not None and self.under_way.kind == "erase"

    def byte(self, position):
        """The byte at a position of the log: the page buffer has the page of the last byte appended."""
        offset = position % self.page_size
        if position // self.page_size == (self.A - 1) // self.page_size:
            return int(self.page[2 * offset:2 * offset + 2], 16)
        return self.volume[position % len(self.volume)]

    def next_entry(self):
        """Where the next read looks for an entry, and the length it finds there; None at the log's end, and for the length where its word doesn't lie in the page."""
        at, width = self.R, self.sizes.width
        if at % self.page_size == 0:
            at += width
        elif self.byte(at) == 255:
            at += self.page_size - at % self.page_size + width
        if at >= self.A:
            return None, None
        if at % self.page_size + width > self.page_size:
            return at, None
        return at, sum(self.byte(at + i) << 8 * i for i in range(width))

    def read_stays_in_page(self):
        at, length = self.next_entry()
        if at is None:
            return True
        if length is None:
            return False
        refused = length == 0 or length > self.sizes.data_most
        return refused or at % self.page_size + self.sizes.width + length <= self.page_size

    def update(self, line, step):
        """Takes in a line and its trace (None: no call was delivered)."""
        ended = self.flash.take(line, step)
        if ended:
            self.volume = self.volume_after(ended)
        name = line.split(" ", 1)[0]
        if name in ("cut", "restart"):
            self.deferred = False
        if step is None:
            return
        if name in ("read", "seek") and step.answer == 0:
            self.deferred = True
        if step.report.startswith(("read_done", "seek_done")):
            self.deferred = False
        self.O, self.R, self.A, self.page = step.O, step.R, step.A, step.page
        if name == "restart" or step.report == "erase_done 0":
            self.handed_out = {}
        self.handed_out.update({step.O: None, step.R: None, step.A: None})

    def volume_after(self, ended):
        """The page buffer hasn't changed since a write began."""
        return after(self.volume, self.page_size, bytes.fromhex(self.page), ended)
