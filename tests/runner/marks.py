"""Searches among the marks of a log, as document 02's request L4 has them: scripts made from a seed, searched by the program and here.

The Rust has no such calls. A line `nearest` or `between` is held to the searches written here in Python, and every other line to what the program
writes where the script has no searches: they change nothing. The log that is searched is taken from there too: O, R, A, the state, the kept length
and the page buffer from the trace of the last call, or the first five from a `state` line behind it; the volume from a `volume` line before the search.
"""

import random
from collections import namedtuple

from .compare import compare, drop_lines
from .lists import hex_of, volume_line
from .sizes import Sizes
from .trace import parse

STAMPS = 1 << 32  # how many there are
UNUSED = (1 << 64) - 1  # a word of a slice before the search
MOST = 4096  # words of a slice
MARK = 15  # bytes of a mark's entry
ROUNDS = 16  # times that a search may read the volume in a script here

NAMES = ("nearest", "between")
STATES = ("idle", "read", "seek", "append", "sync", "erase")

# The two sides of a difference, by their names: in a search, and in another line.
RULES, WITHOUT = ("the rules", "the program"), ("no searches", "the program")

# What a long run must meet, or it has tested too little: the answers, and what they came of.
ANSWERS = [f"{name} {answer}" for name in NAMES for answer in ("0", "21", "24", "25", "not delivered")] + ["between 7", "between 26"]
FOUND = [
    "a mark of the stamp itself", "a tie of one stamp", "a tie of a stamp below and one above", "a nearest mark behind another", "marks inside",
    "none inside", "a mark of the first stamp", "a mark of the last stamp", "a slice just long enough", "a longer slice", "a slice of no word",
    "24 behind a mark", *[f"{answer} with the first stamp above the last" for answer in (21, 24, 25)],
]
# The logs that were searched, and how their entries were read.
LOGS = [
    *[f"in {state}" for state in STATES], "R above A", "no read client", "no append client", "an entry close to the ceiling",
    "an entry in the page buffer", "an entry in the volume", "padding passed over", "a blank page passed over",
]
# Why the reading ended; why an entry was no mark; why STATE was the answer.
AT_A, ZERO, TOO_LONG, NO_WORD, NO_DATA = ENDINGS = [
    "an end at A", "an end at a length of 0", "an end at a length that no page has room for", "an end at a word past its page",
    "an end at data past its page",
]
NO_MARKS = [
    "14 bytes", "16 bytes", "another number of bytes", "another version", "a little-endian length field", "another length field", "a turn above 3",
]
MISFITS = [
    "O not behind a header", "A below O", "A above the ceiling", "R above the ceiling", "A in a header", "more kept than an entry has",
    "nothing kept in append",
]
MET = [*ANSWERS, *FOUND, *LOGS, *ENDINGS, *NO_MARKS, *MISFITS]

Entry = namedtuple("Entry", "id data")
Mark = namedtuple("Mark", "id stamp")


class Log:
    """What a search is given, after the lines of a script so far."""

    def __init__(self, sizes):
        self.sizes = sizes
        self.power = False
        self.clients = ["0", "0"]
        self.state, self.O, self.R, self.A, self.kept = "idle", 0, 0, 0, 0
        self.page = b""
        self.volume = None  # its bytes, unless they may be others than the last `volume` line wrote

    def put(self, line):
        """Takes in a `state` line."""
        _, self.state, *numbers = line.split(" ")
        self.O, self.R, self.A, self.kept = map(int, numbers)

    def take(self, line, text):
        """Takes in a line that is no search, and its trace."""
        words = line.split(" ")
        step = parse(text)
        if text.startswith("volume "):
            self.volume = bytes_of(text.split(" ")[1])
        elif words[0] != "get":
            self.volume = None
        if words[0] == "cut":
            self.power = False
        if step is None:
            return
        if words[0] == "restart":
            self.power, self.clients = step.answer == 0, words[1:3]
        self.state, self.O, self.R, self.A, self.kept, self.page = step.state, step.O, step.R, step.A, int(step.kept), bytes_of(step.page)

    def is_long(self):
        """Whether a search would read the volume round and round, as where a header near 0 and one near the ceiling are in it. With words of 8 bytes
        that takes years."""
        return self.power and Search(self).misfit() is None and self.A - self.O > ROUNDS * self.sizes.length


def bytes_of(digits):
    return b"" if digits == "-" else bytes.fromhex(digits)


class Search:
    """A search of a log, by the rules. `met` has what it met."""

    def __init__(self, log):
        self.log, self.sizes = log, log.sizes
        self.width, self.page_size = log.sizes.width, log.sizes.page_size
        self.met = set()

    def trace(self, line):
        """What the trace says of a search."""
        name, *numbers = line.split(" ")
        says = getattr(self, name)(*map(int, numbers)) if self.delivered() else "not delivered"
        self.met.add(f"{name} {says if says == 'not delivered' else says.split(' ')[0]}")
        return f"{name} {says}"

    def delivered(self):
        return self.log.power

    # Answers.

    def nearest(self, stamp):
        return self.refusal() or f"0 {self.nearest_mark(self.marks(), stamp).id}"

    def between(self, first, last, count):
        refusal = self.refusal_between(first, last)
        ids = [] if refusal else self.inside(first, last)
        refusal = refusal or self.refusal_of_slice(ids, count)
        if refusal:
            return with_words(refusal, [], count)
        self.see_range(first, last, len(ids), count)
        return with_words(f"0 {len(ids)}", ids, count)

    def refusal(self):
        """The first of those that both searches have: STATE, an entry that is no mark, no entry."""
        misfit = self.misfit()
        if misfit:
            self.met.add(misfit)
            return "21 -"
        self.see_log()
        self.entries = list(self.read())
        return self.refusal_of_entry() or (None if self.entries else "25 -")

    def refusal_of_entry(self):
        """At the first entry that is no mark."""
        for at, entry in enumerate(self.entries):
            reason = self.no_mark(entry.data)
            if reason:
                self.met |= {reason} if at == 0 else {reason, "24 behind a mark"}
                return f"24 {entry.id}"
        return None

    def refusal_between(self, first, last):
        refusal = self.refusal()
        if last >= first:
            return refusal
        if refusal:
            self.met.add(f"{refusal.split(' ')[0]} with the first stamp above the last")
        return refusal or "26 -"

    def refusal_of_slice(self, ids, count):
        return "7 -" if count < len(ids) else None

    # Marks.

    def no_mark(self, data):
        """Why an entry's bytes are no mark; None of a mark."""
        if len(data) != MARK:
            return f"{len(data)} bytes" if abs(len(data) - MARK) == 1 else "another number of bytes"
        if data[0] != 1:
            return "another version"
        if data[1:3] != b"\0\x0c":
            return "a little-endian length field" if data[1:3] == b"\x0c\0" else "another length field"
        return "a turn above 3" if data[11] > 3 else None

    def stamp(self, data):
        return int.from_bytes(data[7:11], "big")

    def marks(self):
        return [Mark(entry.id, self.stamp(entry.data)) for entry in self.entries]

    def nearest_mark(self, marks, stamp):
        """The earlier in the log on a tie: `min` gives the first."""
        best = min(marks, key=lambda mark: self.difference(mark.stamp, stamp))
        self.see_nearest(marks, best, stamp)
        return best

    def difference(self, one, other):
        return abs(one - other)

    def inside(self, first, last):
        """The IDs of the marks whose stamps lie between two, both included."""
        return [mark.id for mark in self.marks() if first <= mark.stamp <= last]

    # The entries of the log.

    def read(self):
        """The entries from O on."""
        at = self.place(self.first_id())
        while not self.is_end(at) and (length := self.length(at)):
            self.see_entry(at)
            start = at + self.width
            yield Entry(at, self.bytes_at(start, length))
            at = self.place(start + length)
        if self.is_end(at):
            self.met.add(AT_A)

    def first_id(self):
        return self.log.O

    def is_end(self, at):
        return at >= self.log.A

    def place(self, at):
        """Where the length word of the entry at an ID, or past it, would be."""
        offset = at % self.page_size
        if offset == 0:
            return at + self.width
        if self.bytes_at(at, 1) != b"\xff":
            return at
        next_page = at - offset + self.page_size
        if next_page < self.log.A:
            self.met.add("a blank page passed over" if offset == self.width else "padding passed over")
        return next_page + self.width

    def length(self, at):
        """Of the entry whose length word is there; 0 where there is none."""
        room = self.page_size - at % self.page_size - self.width
        length = 0 if room < 0 else int.from_bytes(self.bytes_at(at, self.width), "little")
        for none, ending in ((room < 0, NO_WORD), (length == 0, ZERO), (length > self.page_size - 2 * self.width, TOO_LONG), (length > room, NO_DATA)):
            if none:
                self.met.add(ending)
                return 0
        return length

    def bytes_at(self, at, count):
        """Bytes of one page of the log."""
        if self.in_page_buffer(at):
            start = at % self.page_size
            return self.log.page[start:start + count]
        start = at % self.sizes.length
        return self.log.volume[start:start + count]

    def in_page_buffer(self, at):
        return at // self.page_size == (self.log.A - 1) // self.page_size

    def misfit(self):
        """Why STATE is the answer; None where it isn't."""
        log, page_size, ceiling = self.log, self.page_size, self.sizes.ceiling
        rules = [
            log.O % page_size == self.width, log.O <= log.A, log.A <= ceiling, log.R <= ceiling, log.A % page_size == 0 or log.A % page_size >= self.width,
            log.kept <= page_size - 2 * self.width, log.kept > 0 or log.state != "append",
        ]
        return next((name for name, kept in zip(MISFITS, rules) if not kept), None)

    # What is met.

    def see_log(self):
        log = self.log
        self.met |= {f"in {log.state}"} | {name for name, there in (
            ("R above A", log.R > log.A), ("no read client", log.clients[0] == "0"), ("no append client", log.clients[1] == "0"),
        ) if there}

    def see_entry(self, at):
        self.met.add("an entry in the page buffer" if self.in_page_buffer(at) else "an entry in the volume")
        if at + 2 * self.sizes.length > self.sizes.ceiling:
            self.met.add("an entry close to the ceiling")

    def see_nearest(self, marks, best, stamp):
        least = self.difference(best.stamp, stamp)
        nearest = [mark.stamp for mark in marks if self.difference(mark.stamp, stamp) == least]
        self.met |= {name for name, there in (
            ("a mark of the stamp itself", least == 0), ("a nearest mark behind another", best != marks[0]),
            ("a tie of one stamp", len(nearest) > len(set(nearest))), ("a tie of a stamp below and one above", len(set(nearest)) > 1),
        ) if there}

    def see_range(self, first, last, found, count):
        stamps = [mark.stamp for mark in self.marks()]
        self.met |= {name for name, there in (
            ("marks inside", found), ("none inside", not found), ("a mark of the first stamp", first in stamps), ("a mark of the last stamp", last in stamps),
            ("a slice of no word", count == 0), ("a slice just long enough", 0 < found == count), ("a longer slice", 0 < found < count),
        ) if there}


def with_words(answer, ids, count):
    """An answer, and all words of a slice after it."""
    return " ".join([answer, *map(str, ids + [UNUSED] * (count - len(ids)))])


# Scripts.


def script(seed, width):
    """The lines of a seed's script."""
    rng = random.Random(f"marks:{seed}")
    return Writer(rng, any_sizes(rng, width)).script()


def any_sizes(rng, width):
    page_size = rng.choices([32, 64, 128, 256], [4, 5, 4, 2])[0]
    return Sizes(page_size, rng.randint(1, 5), rng.choice([0, 100]), rng.choice(["circular", "circular", "plain"]), width)


# Weights of what comes next, each script with one row of them.
STEPS = ["append", "sync", "erase", "read", "seek", "cut", "restart", "state", "get"]
HABITS = [
    [60, 5, 1, 4, 2, 2, 2, 0, 1],
    [40, 10, 5, 6, 3, 5, 5, 0, 1],
    [30, 6, 2, 6, 4, 3, 4, 20, 1],
]


class Writer:
    """Writes one script. It sees no trace: where a call isn't due, the log is busy or it isn't delivered, and the searches answer all the same."""

    def __init__(self, rng, sizes):
        self.rng, self.sizes = rng, sizes
        self.stamps = any_stamps(rng)
        self.habit = rng.choice(HABITS)
        self.spoilt = rng.choice([0, 0, 0.02, 0.15])  # how many entries are no marks
        self.failures = rng.choice([0, 0.1])  # how often the driver refuses, or an operation fails
        self.power, self.erasing = True, False  # whether an erase may be under way
        volume = rng.choices([b"\xff" * sizes.length, bytes(sizes.length), self.pages()], [4, 1, 8])[0]
        self.lines = [sizes.line(), volume_line(volume), f"restart {self.clients()} = ="]

    def script(self):
        for _ in range(self.rng.randint(10, 50)):
            if self.power or self.rng.random() < 0.3:
                getattr(self, self.rng.choices(STEPS, self.habit)[0])()
            else:
                self.restart()
            if self.rng.random() < 0.5:
                self.search()
        return self.lines

    # Entries.

    def entry(self):
        return self.no_mark() if self.rng.random() < self.spoilt else self.mark()

    def mark(self):
        rng = self.rng
        return b"\1\0\x0c" + rng.randbytes(4) + rng.choice(self.stamps).to_bytes(4, "big") + bytes([rng.randint(0, 3)]) + rng.randbytes(3)

    def no_mark(self):
        """A mark with one thing wrong, or any entry."""
        rng, mark = self.rng, bytearray(self.mark())
        at, wrong = rng.choice([(0, 0), (0, 2), (1, 12), (2, 0), (2, 13), (2, 15), (11, 4), (11, 255)])
        mark[at] = wrong
        if at == 1:
            mark[2] = rng.choice([0, 12])  # 12 in little-endian, or 12 twice
        most = self.sizes.data_most
        any_entry = rng.randbytes(rng.randint(1, most))
        return rng.choice([bytes(mark), bytes(mark), self.mark()[:-1], (self.mark() + b"\0")[:most], any_entry])

    # Volumes.

    def pages(self):
        """Pages in a row, each in its slot, from any number on; the other slots blank. In some a few spots are spoilt."""
        rng, sizes = self.rng, self.sizes
        count = rng.randint(1, sizes.count)
        oldest = rng.choice([0, rng.randint(0, 3 * sizes.count), sizes.ceiling // sizes.page_size - count - rng.randint(0, sizes.count)])
        volume = bytearray(b"\xff" * sizes.length)
        for number in range(oldest, oldest + count):
            start = number % sizes.count * sizes.page_size
            volume[start:start + sizes.page_size] = self.page(number * sizes.page_size)
        for _ in range(rng.choice([0, 0, 0, 1, 3])):
            rng.choice([self.spoil_length, self.spoil_end, self.spoil_page])(volume, rng.randrange(sizes.count) * sizes.page_size)
        return bytes(volume)

    def page(self, first_id):
        """A page of entries, most full of them, some of none."""
        rng, sizes = self.rng, self.sizes
        page, full = sizes.word(first_id), rng.choice([0, 0.5, 1, 1, 1])
        while rng.random() < full:
            entry = self.entry()
            if len(page) + sizes.width + len(entry) > sizes.page_size:
                break
            page += sizes.word(len(entry)) + entry
        return page + b"\xff" * (sizes.page_size - len(page))

    def spoil_length(self, volume, start):
        """Another word where an entry begins if all before it are marks."""
        rng, sizes = self.rng, self.sizes
        begins = range(start + sizes.width, start + sizes.page_size - sizes.width + 1, sizes.width + MARK)
        at, most = rng.choice(begins), sizes.data_most
        volume[at:at + sizes.width] = sizes.word(rng.choice([0, most, most, most + 1, rng.randint(1, most), sizes.wrap - 2]))

    def spoil_end(self, volume, start):
        """No padding at a page's end."""
        end, count = start + self.sizes.page_size, self.rng.randint(1, 2 * self.sizes.width)
        volume[end - count:end] = self.rng.choice([bytes(count), self.rng.randbytes(count)])

    def spoil_page(self, volume, start):
        volume[start:start + self.sizes.page_size] = self.rng.choice([b"\xff", b"\0"]) * self.sizes.page_size

    # Calls.

    def clients(self):
        return self.rng.choices(["1 1", "0 1", "1 0", "0 0"], [10, 1, 1, 1])[0]

    def word(self):
        return self.rng.choice(["busy", "fail"]) if self.rng.random() < self.failures else "ok"

    def call(self, line, *ends):
        """A call and what ends it, with searches in between at times. Some are never ended."""
        self.lines.append(line)
        for end in ends:
            if self.rng.random() < 0.3:
                self.search()
            if self.rng.random() < 0.05:
                return
            self.lines.append(end)

    def write_end(self):
        return f"write_complete fail {self.rng.choice(['old', 'blank', 'new'])}" if self.rng.random() < self.failures else "write_complete ok new"

    def erase_end(self):
        failed = self.rng.random() < self.failures
        return f"erase_complete {'fail ' + self.rng.choice(['old', 'blank']) if failed else 'ok blank'} {self.word()}"

    def append(self):
        entry = self.entry()
        self.call(f"append {len(entry)} {hex_of(entry)} {self.word()}", self.write_end())

    def sync(self):
        self.call(f"sync {self.word()}", self.write_end())

    def erase(self):
        self.erasing = True
        self.call(f"erase {self.word()}", *[self.erase_end() for _ in range(self.rng.randint(1, self.sizes.count))])

    def read(self):
        self.call(f"read {self.sizes.page_size} {hex_of(bytes(self.sizes.page_size))}", "deferred")

    def seek(self):
        page = self.rng.randint(0, self.sizes.count) * self.sizes.page_size
        self.call(f"seek {page + self.sizes.width + self.rng.choice([0, self.sizes.width + MARK])}", "deferred")

    def get(self):
        self.lines.append("get")

    def left(self):
        """What an operation under way leaves, if there is one."""
        return self.rng.choice(["old", "blank"] if self.erasing else ["old", "blank", "new"])

    def cut(self):
        self.lines.append(f"cut {self.left()}")
        self.power = self.erasing = False

    def restart(self):
        self.lines.append(f"restart {self.clients()} = = {self.left()}")
        self.power, self.erasing = True, False

    def state(self):
        """Another state, where the power is on: one that fits, or with one thing that doesn't."""
        if not self.power:
            return
        rng, ceiling = self.rng, self.sizes.ceiling
        state = rng.choice(STATES)
        oldest = self.oldest()
        append = min(self.append_id(oldest), ceiling)
        read = min(rng.choice([oldest, append, rng.randint(oldest, append), append + rng.randint(1, 99)]), ceiling)
        kept = rng.choice([1, MARK, self.sizes.data_most]) if state == "append" else rng.choice([0, MARK, self.sizes.data_most])
        put = [state, oldest, read, append, kept]
        if rng.random() < 0.4:
            put = self.misfit(*put)
        self.lines.append("state " + " ".join(map(str, put)))

    def oldest(self):
        """Behind a header, in a page that may be there; at times close to the ceiling."""
        number = self.rng.randint(0, self.sizes.count)
        if self.rng.random() < 0.2:
            number = self.sizes.ceiling // self.sizes.page_size - 1 - number
        return number * self.sizes.page_size + self.sizes.width

    def append_id(self, oldest):
        """Such a distance behind O: none, a few marks, a few pages and what is in the last of them; not in a header."""
        rng, page_size, size = self.rng, self.sizes.page_size, self.sizes.width + MARK
        pages = rng.randint(0, self.sizes.count) * page_size
        append = oldest + rng.choice([0, rng.randint(0, 3) * size, pages, pages - self.sizes.width, pages + rng.randint(0, page_size)])
        append = max(append, oldest)
        return append - append % page_size if append % page_size < self.sizes.width else append

    def misfit(self, state, oldest, read, append, kept):
        """With one thing that doesn't fit."""
        rng, width, page_size, ceiling = self.rng, self.sizes.width, self.sizes.page_size, self.sizes.ceiling
        header = append - append % page_size + rng.randint(1, width - 1)
        beyond = ceiling + rng.choice([1, width, page_size, page_size + width])
        return rng.choice([
            (state, rng.choice([0, oldest - 1, oldest + 1, oldest + width]), read, append, kept),
            (state, oldest + rng.randint(1, 3) * page_size, read, oldest, kept),
            (state, oldest, read, rng.choice([beyond, UNUSED]), kept),
            (state, oldest, rng.choice([beyond, UNUSED]), append, kept),
            (state, oldest, read, header + page_size * (header < oldest), kept),
            (state, oldest, read, append, rng.choice([page_size - 2 * width + 1, page_size, UNUSED])),
            ("append", oldest, read, append, 0),
        ])

    # Searches.

    def search(self):
        """The volume's bytes, and a few searches."""
        self.lines.append("volume")
        for _ in range(self.rng.randint(1, 4)):
            self.rng.choice([self.nearest, self.between])()

    def near(self):
        """A stamp near those of the marks, or between two of them; at times any, and the first and the last there is."""
        rng = self.rng
        one, other = rng.choice(self.stamps), rng.choice(self.stamps)
        near = min(max(one + rng.randint(-2, 2), 0), STAMPS - 1)
        return rng.choices([near, (one + other) // 2, rng.randrange(STAMPS), 0, STAMPS - 1], [8, 4, 1, 1, 1])[0]

    def nearest(self):
        self.lines.append(f"nearest {self.near()}")

    def between(self):
        """Over slices of a word more each."""
        rng = self.rng
        first, last = sorted([self.near(), self.near()], reverse=rng.random() < 0.15)
        count = MOST - 1 if rng.random() < 0.005 else rng.choice([0, 0, 1, 2, 3, 5, 8, 13, 21])
        self.lines += [f"between {first} {last} {count + more}" for more in range(rng.randint(1, 2))]


def any_stamps(rng):
    """The stamps of a script's marks: a few, some of them close to each other."""
    base = rng.choice([0, 100, 1 << 31, STAMPS - 1, rng.randrange(STAMPS)])
    width = rng.choice([2, 6, 20, 1000, STAMPS])
    return [min(max(base + rng.randint(-width, width), 0), STAMPS - 1) for _ in range(rng.randint(1, 8))]


# The program, held to the rules.


def whole_trace(lines, calls, search):
    """Each line of a script behind its first two, with the trace that it should have and what a search met. `calls` is the trace of the script without
    its searches. Those that would read the volume round and round are left out."""
    log, rest = Log(Sizes.parse(lines[0])), iter(calls)
    for line in lines[2:]:
        name = line.split(" ")[0]
        if name == "state":
            log.put(line)
            yield line, None, None
        elif name not in NAMES:
            text = next(rest, "(no line)")
            log.take(line, text)
            yield line, text, None
        elif not log.is_long():
            found = search(log)
            yield line, found.trace(line), found.met


def against_rules(program, lines, counts=None, search=Search):
    """Runs the program on a script without its searches, and then on the whole. None if it searches as is done here, and else does as without."""
    calls, _ = program.run("".join(line + "\n" for line in lines if line.split(" ")[0] not in NAMES))
    kept, texts, mets = zip(*whole_trace(lines, calls, search))
    found = compare(program, [*lines[:2], *kept], [text for text in texts if text is not None])
    if counts is not None:
        for met in filter(None, mets):
            counts.take_search(met)
    return found and at_its_line(found)


def at_its_line(found):
    """A difference, by the line of the script: a `state` line has none in the trace."""
    traced = [at for at, line in enumerate(found.lines) if at >= 2 and not line.startswith("state ")]
    at = traced[min(found.at - 2, len(traced) - 1)]
    return found._replace(at=at, names=RULES if found.lines[at].split(" ")[0] in NAMES else WITHOUT)


def sound(lines):
    """Whether a script, of which lines were left out, has no wrong line, and a `volume` line behind the last call before each search."""
    power = shown = erasing = False
    for line in lines[2:]:
        name, *words = line.split(" ")
        if (name == "state" and not power) or (name in NAMES and power and not shown):
            return False
        if name in ("cut", "restart"):
            if erasing and words[-1] == "new":
                return False
            power, erasing = name == "restart", False
        erasing = erasing or name == "erase"
        shown = name == "volume" or (shown and name in ("get", "state", *NAMES))
    return True


def shrink(oracles, program, difference, search=Search):
    """The shortest script found that still shows a difference, by dropping lines."""

    def attempt(lines):
        found = against_rules(program, lines, search=search) if sound(lines) else None
        return found and (found if found.ended else found._replace(lines=found.lines[:found.at + 1]))

    best, before = attempt(difference.lines) or difference, None
    while best is not before:  # without a search the line `volume` before it may go too
        before, best = best, drop_lines(best, attempt)
    return best
