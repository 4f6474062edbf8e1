"""The runner's own check: that it can fail. Only the parts on the oracles and on the page book need an implementation of the log."""

import pathlib
import subprocess
import tempfile
from collections import Counter

from .book import Book, Page, disagreement, done
from .compare import Difference, against_book, drop_lines, plainer
from .counts import BOOK, CUTS, REFUSALS, Counts
from .domain import Tracker, admits_restart
from .kept import TESTS, Kept, unmet
from .marks_selftest import marks_selftest
from .oracles import turned_down
from .sides import Program
from .sizes import WIDTHS, Sizes
from .trace import BUSY, OK, first_difference, parse, same
from .walks_selftest import walks_selftest

BOOK_LISTS = 500  # at most so many lists with cuts for the page book's part

ORACLE = "read 0 - - ? 4 13 41 ? 20000000 ? 0102"
REPLAY = "read 0 - - read 4 13 41 5 20000000 0a0b 0102"
FLUSHED = "append 0 append_done 5 0 0 write 101 ? 36 13 41 ? 20000000 ?"


def check(failures, what, good):
    if not good:
        failures.append(what)


def changed(line, at):
    words = line.split(" ")
    words[at] += "1"
    return " ".join(words)


def check_lines(failures):
    check(failures, "equal lines", same(ORACLE, ORACLE))
    check(failures, "STATE, KEPT and HOLD where the oracle wrote ?", same(ORACLE, REPLAY))
    unseen = {4, 8, 10}
    for at in range(12):
        differs = not same(ORACLE, changed(REPLAY, at))
        check(failures, f"word {at} changed: told apart is {differs}", differs == (at not in unseen))
        check(failures, f"word {at} changed against a full line", not same(REPLAY, changed(REPLAY, at)))
        if at not in unseen:
            words = REPLAY.split(" ")
            words[at] = "?"
            check(failures, f"? in word {at} of the oracle", not same(" ".join(words), REPLAY))
    for at in range(15):
        check(failures, f"word {at} of a line with report and request", same(FLUSHED, changed(FLUSHED, at)) == (at in {8, 12, 14}))
    check(failures, "? on the other side alone", not same(REPLAY, ORACLE))
    check(failures, "a field more", not same(ORACLE, REPLAY + " 00"))
    check(failures, "other forms", not same("get 4 4 4 112", "get 4 4 4 ?") and not same("seek not delivered", "seek 0 not delivered"))


def check_traces(failures):
    check(failures, "equal traces", first_difference([ORACLE, "get 1 2 3 4"], [REPLAY, "get 1 2 3 4"]) is None)
    check(failures, "a line differs", first_difference([ORACLE, "get 1 2 3 4"], [REPLAY, "get 1 2 3 5"]) == 1)
    check(failures, "a line is missing", first_difference([ORACLE, ORACLE], [REPLAY]) == 1)
    check(failures, "a line too many", first_difference([ORACLE], [REPLAY, REPLAY]) == 1)


def check_programs(failures):
    with tempfile.TemporaryDirectory() as folder:
        program = pathlib.Path(folder, "program")
        for text, limit, lines, ended in [
            ("cat", 10, ["a", "b"], None),
            ("cat; exit 3", 10, ["a", "b"], "exit status 3"),
            ("printf 'a\\nb'", 10, ["a", "b (no line end)"], None),
            ("echo x; kill -9 $$", 10, ["x"], "killed by signal 9"),
            ("exec sleep 60", 0.2, [], "no end within 0.2 s"),
        ]:
            program.write_text(f"#!/bin/sh\nPATH=/bin:/usr/bin\n{text}\n")
            program.chmod(0o755)
            found = Program(str(program), limit).run("a\nb\n")
            check(failures, f"'{text}' gives {found}", found == (lines, ended))


# For each width: the largest length that a call may name, and the ceiling.
LIMITS = {4: (4294967291, 1879048192), 8: (18446744073709551607, 8070450532247928832)}


def small(width):
    """P = 32 for words of 4 bytes, 64 for words of 8."""
    return Sizes(8 * width, 4, 100, "circular", width)


def page_of(sizes, *parts):
    """A page in hexadecimal: words, given as numbers, and bytes, given as digits; the last byte fills what is left."""
    content = b"".join(sizes.word(part) if isinstance(part, int) else bytes.fromhex(part) for part in parts[:-1])
    return content.hex() + parts[-1] * (sizes.page_size - len(content))


def page_0(sizes):
    """With one entry, of five words, that leaves a word for padding."""
    return page_of(sizes, 0, 5 * sizes.width, "07" * 5 * sizes.width, "ff")


def check_sizes(failures, width):
    for line in ("sizes 64 4 100 circular", "sizes 4096 16 0 plain"):
        line += " 8" * (width == 8)
        sizes = Sizes.parse(line)
        check(failures, f"'{line}' read as {vars(sizes)}", sizes.line() == line and (sizes.length_most, sizes.ceiling) == LIMITS[width])
    sizes = small(width)
    check(failures, f"sizes at width {width}", (sizes.length, sizes.data_most, sizes.wrap) == (32 * width, 6 * width, 256**width))
    check(failures, f"a word at width {width}", sizes.word(258).hex() == "0201" + "00" * (width - 2) and sizes.word_at(b"\1" + sizes.word(258), 1) == 258)
    check(failures, f"beyond 32 bits at width {width}", sizes.beyond_32_bits() == ([] if width == 4 else [4294967296]))


def check_allowed(failures, state, allowed, *lines):
    """That the domain allows each line now, or doesn't."""
    for line in lines:
        check(failures, f"'{line}' at width {state.sizes.width}: allowed is {not allowed}", state.allows(line) == allowed)


def fresh_tracker(sizes):
    return Tracker(sizes, b"\xff" * sizes.length)


def check_domain(failures, width):
    sizes, most = small(width), LIMITS[width][0]
    state, page = fresh_tracker(sizes), page_0(sizes)
    fresh, end = f"{width} {width} {width}", f"{width} {width} {7 * width}"  # O, R and A

    def step(line, trace):
        state.update(line, parse(trace))

    step("restart 1 1 = =", f"restart 0 - - ? {fresh} ? {page_of(sizes, '00')} ?")
    check_allowed(failures, state, False, "write_complete ok new", "erase_complete ok blank ok", "erase ok", f"seek {width + 1}")
    check_allowed(failures, state, True, f"seek {width}", "read 32 -", "deferred", f"append {most} - ok", f"read {most} -")
    check_allowed(failures, state, False, f"append {most + 1} - ok", f"read {most + 1} -")
    step("append 20 - ok", f"append 0 append_done 20 0 0 - ? {end} ? {page} ?")
    step("sync ok", f"sync 0 - write 100 ? {end} ? {page} ?")
    check_allowed(failures, state, True, "write_complete ok new", "append 1 00 ok")
    check_allowed(failures, state, False, "deferred", f"seek {width}")
    step("write_complete fail new", f"write_complete 0 sync_done 1 - ? {end} ? {page} ?")
    check(failures, "what a write leaves", state.volume.hex() == page + "ff" * 3 * sizes.page_size)
    check_allowed(failures, state, True, f"seek {7 * width}")


def check_ceiling(failures, width):
    sizes, ceiling = small(width), LIMITS[width][1]
    state = fresh_tracker(sizes)
    state.flash.off = False
    state.A = ceiling - 2 * width
    check_allowed(failures, state, True, f"append {width} - ok", "sync ok")
    check_allowed(failures, state, False, f"append {width + 1} - ok")
    state.A = ceiling - sizes.page_size - width
    check_allowed(failures, state, True, "append 1 00 ok")
    state.A = ceiling
    check_allowed(failures, state, False, "append 1 00 ok", "sync ok")


def check_reads(failures, width):
    """Where page 0 has its padding there is a length word: its data isn't in the page, or it is refused as too long."""
    sizes = small(width)
    for length, allowed in ((1, False), (6 * width, False), (6 * width + 1, True)):
        page = page_of(sizes, 0, 5 * width, "07" * 5 * width, length, "")
        state = Tracker(sizes, bytes.fromhex(page) + b"\xff" * 3 * sizes.page_size)
        state.flash.off = False
        state.R, state.A = 7 * width, 10 * width + 1
        check_allowed(failures, state, allowed, "read 32 -")


def check_next_entry(failures, width):
    """Where a read looks for an entry, on page 0 with padding, page 1 all 8s behind its header, and an empty page 3."""
    sizes = small(width)
    page_size = sizes.page_size
    state = Tracker(sizes, bytes.fromhex(page_0(sizes) + page_of(sizes, page_size, 258, "08")) + bytes(2 * page_size))
    state.A, state.page = 3 * page_size + width, page_of(sizes, 3 * page_size, "00")
    eights = int("08" * width, 16)
    for read, at, length in (
        (0, width, 5 * width), (width, width, 5 * width), (7 * width, page_size + width, 258), (2 * page_size - width, 2 * page_size - width, eights),
        (2 * page_size - width + 1, 2 * page_size - width + 1, None), (3 * page_size, None, None), (3 * page_size + width, None, None),
    ):
        state.R = read
        found = state.next_entry()
        check(failures, f"the next entry from {read} at width {width}: {found}", found == (at, length))


def check_walk(failures, width):
    sizes = Sizes(4 * width, 1, 0, "circular", width)
    ceiling = LIMITS[width][1]

    def walk(allowed, *parts):
        page = page_of(sizes, *parts)
        check(failures, f"restart on {page} at width {width}", admits_restart(bytes.fromhex(page), sizes) == allowed)

    walk(True, "ff")
    walk(True, 0, 2 * width, "07")
    walk(True, 0, 256**width - 2 * width - 1, "07")  # far too long: stops
    walk(False, 0, 256**width - width, "07")  # wraps
    walk(False, 0, width + 1, "07" * (width + 1), "01", "00")  # leaves the volume
    walk(False, ceiling, "ff")
    walk(True, ceiling - sizes.page_size, 1, "07")
    walk(True, ceiling - 2 * sizes.page_size, 2 * width, "07")
    walk(False, ceiling - sizes.page_size, 2 * width, "07")  # opens the page at the ceiling


ALTER = TESTS / "oracle/alter"
# What `alter` looks for, in a file of our own.
SOURCE = """\
impl Door {
    fn erase(door: &Door) -> Answer {
        // erase_page asks for one page
        door.knock();
        door.erase_page()
    }

    fn erase_complete(door: &Door) {
        // BUSY, say
        let said = door.erase_page();
        if said == No(Why::BUSY) {
            door.tell(No(Why::BUSY));
        }
    }
}
"""
ALTERED = SOURCE.replace("erase_page()\n    }", "erase_page().inspect_err(|_| _ = self.state.replace(State::Idle))\n    }").replace(
    "said == No(Why::BUSY)", "said.is_err()").replace("tell(No(Why::BUSY))", "tell(said)")


def check_alter(failures):
    """That it alters two places, and neither where one of them is missing, there twice or of another form."""
    with tempfile.TemporaryDirectory() as folder:
        source, altered = pathlib.Path(folder, "source"), pathlib.Path(folder, "altered")

        def alter(text):
            source.write_text(text)
            return subprocess.run([ALTER, source, altered], capture_output=True, text=True)

        for old, new in (
            ("fn erase(", "fn wipe("), ("impl", "fn erase() {\n}\nimpl"), ("        door.erase_page()\n", ""), ("door.knock()", "door.erase_page()"),
            ("door.erase_page()\n", "door.erase_page();\n        door.knock()\n"), ("door.erase_page()\n", "!door.erase_page()\n"),
            ("fn erase_complete(", "fn wiped("), ("impl", "fn erase_complete() {\n}\nimpl"), ("    }\n}", "}"),
            ("said == No(Why::BUSY)", "said.is_err()"), ("said == No(Why::BUSY)", "No(Why::BUSY) == said"), ("tell(No(Why::BUSY))", "tell(said)"),
            ("tell(No(Why::BUSY))", "tell(Why::BUSY)"), ("tell(", "tell(No(Why::BUSY), "),
            ("said = door.erase_page()", "said = door.knock()"), ("let said = door", "let said = door.knock();\n        door"),
        ):
            ended = alter(SOURCE.replace(old, new))
            good = ended.returncode == 1 and ended.stderr.startswith("alter: ") and not altered.exists()
            check(failures, f"alter with {new!r} for {old!r}: status {ended.returncode}, {ended.stderr!r}", good)
        ended = alter(SOURCE)
        check(failures, f"alter: status {ended.returncode}, {ended.stderr!r}", altered.exists() and altered.read_text() == ALTERED)


def check_shrinking(failures):
    def attempt(lines):
        return Difference(lines, 0, "", "", None) if "seek 3" in lines and "seek 8" in lines else None

    lines = ["sizes", "volume", "restart"] + [f"seek {i}" for i in range(12)]
    found = drop_lines(attempt(lines), attempt).lines
    check(failures, f"shrunk to {found}", found == ["sizes", "volume", "restart", "seek 3", "seek 8"])


def check_wants(failures):
    with tempfile.TemporaryDirectory() as folder:
        path = pathlib.Path(folder, "case.script")
        path.write_text("sizes\nvolume\nrestart\n# want: A 4, state idle\nread\n# want: answer 0, A 41\n# rust: panic\n")
        kept = Kept(path)
        trace = ["restart 0 - - ? 4 4 4 ? - ?", ORACLE]
        whole = kept.whole
        check(failures, "wants that are met", unmet(whole.wants, whole.lines, trace, None) == [])
        check(failures, "wants that are not met", len(unmet(whole.wants, whole.lines, trace[:1] * 2, None)) == 1)
        check(failures, "wants on a trace too short", len(unmet(whole.wants, whole.lines, trace[:1], None)) == 2)
        check(failures, "a panic wanted", len(unmet(whole.rust, whole.lines, trace, None)) == 1)
        check(failures, "a panic found", unmet(whole.rust, whole.lines, [trace[0], "panic read"], None) == [])


def check_alone(failures):
    """Of the lines that the Rust doesn't have."""
    for line, says, other in (
        ("walk -", "walk 4 0", "walk 4 1"), ("nearest 9", "nearest 0 4", "nearest 0 42"), ("between 1 2 0", "between 0 0", "between 7 -"),
    ):
        with tempfile.TemporaryDirectory() as folder:
            path = pathlib.Path(folder, "case.script")
            path.write_text(f"sizes\nvolume\nrestart\n{line}\n# want: line {says}\nread\n# want: A 41\n")
            kept = Kept(path)
        check(failures, f"the Rust has no '{line}'", kept.shared.lines == ["sizes", "volume", "restart", "read"])
        whole, trace = kept.whole, ["restart 0 - - ? 4 4 4 ? - ?", says, ORACLE]
        check(failures, f"'{line}' as wanted", unmet(whole.wants, whole.lines, trace, None) == [])
        check(failures, f"'{line}' otherwise", len(unmet(whole.wants, whole.lines, [trace[0], other, ORACLE], None)) == 1)
        shared = kept.shared
        check(failures, f"what follows '{line}'", unmet(shared.wants, shared.lines, [trace[0], ORACLE], None) == [])
        check(failures, f"another line behind '{line}'", len(unmet(shared.wants, shared.lines, trace[:1] * 2, None)) == 1)


def cut_list(sizes, *changes):
    """A list with its trace: a write that is cut, a restart in a write, reads to the end. With changes (line, old text, new text) in its script or
    its trace."""
    width, zeros, page = sizes.width, page_of(sizes, "00"), page_0(sizes)
    entry = "07" * 5 * width
    fresh, end, read = [f"? {width} {r} {a} ?" for r, a in ((width, width), (width, 7 * width), (7 * width, 7 * width))]
    append = f"append {5 * width} {entry} ok", f"append 0 append_done {5 * width} 0 0 - {end} {page} ?"
    sync = "sync ok", f"sync 0 - write 100 {end} {page} ?"
    restart = "restart 1 1 = =", f"restart 0 - - {fresh} {zeros} ?"
    reading = f"read {sizes.page_size} {zeros}"
    lines, trace = [list(part) for part in zip(
        restart, append, sync,
        ("cut blank", "cut"),
        ("get", "get not delivered"),
        restart, append, sync,
        ("restart 1 1 = = new", f"restart 0 - - {end} {page} ?"),
        (reading, f"read 0 - - {read} {page} ? {entry + '00' * 3 * width}"),
        ("deferred", f"deferred 0 read_done {5 * width} 0 - {read} {page} ?"),
        (reading, f"read 1 - - {read} {page} ? {zeros}"),
    )]
    for at, old, new in changes:
        lines[at], trace[at] = lines[at].replace(old, new), trace[at].replace(old, new)
    return [sizes.line(), "volume all 255"] + lines, trace


def check_cuts_in_domain(failures, width):
    sizes = small(width)
    state, page, others = fresh_tracker(sizes), page_0(sizes), "ff" * 3 * sizes.page_size

    def step(line, trace):
        state.update(line, parse(trace))

    lines, trace = cut_list(sizes)
    for line, text in zip(lines[2:5], trace):
        step(line, text)
    check_allowed(failures, state, True, "restart 1 1 = = new", "cut new")
    check_allowed(failures, state, False, "restart 1 1 = =", f"seek {width}")
    blank = state.copy()
    blank.update("cut blank", None)
    state.update("cut new", None)
    check(failures, "what a cut leaves", (state.volume.hex(), blank.volume.hex()) == (page + others, "ff" * sizes.length))
    check_allowed(failures, state, True, "restart 1 1 = =", "restart 1 1 = = old", "cut new", "write_complete ok new", "deferred", "seek 5", "erase ok")
    state.volume = bytes.fromhex(page_of(sizes, 0, 256**width - width, "07") + others)  # the walk wraps
    check_allowed(failures, state, False, "restart 1 1 = =")
    check_allowed(failures, state, True, "get")
    full = f"? {width} {width} {9 * width} ? {page} ?"
    step("restart 1 1 = =", f"restart 0 - - {full}")
    step("erase ok", f"erase 0 - erase 100 {full}")
    check_allowed(failures, state, True, "cut old", "restart 1 1 = = blank")
    check_allowed(failures, state, False, "cut new", "restart 1 1 = = new", "restart 1 1 = = old")


def check_refusals(failures, width):
    """After an erase that the driver refused nothing is under way, so calls may come and no completion. It is counted, and a cut or restart after it."""
    sizes = small(width)
    log = f"? {width} {width} {9 * width} ? {page_0(sizes)} ?"
    lines, trace = zip(
        ("restart 1 1 = =", f"restart 0 - - {log}"),
        ("erase busy", f"erase 2 - erase 100 {log}"),
        ("erase fail", f"erase 1 - erase 100 {log}"),
        ("erase ok", f"erase 0 - erase 100 {log}"),
        ("erase_complete ok blank busy", f"erase_complete 0 erase_done 2 erase 101 {log}"),
        ("restart 1 1 = =", f"restart 0 - - {log}"),
        ("erase ok", f"erase 0 - erase 100 {log}"),
        ("erase_complete ok blank fail", f"erase_complete 0 erase_done 1 erase 101 {log}"),
        ("cut old", "cut"),
    )
    state, counts = fresh_tracker(sizes), Counts()
    for line, text in zip(lines[:-1], trace):
        state.update(line, parse(text))
        check_allowed(failures, state, line == "erase ok", "erase_complete ok blank ok")
        check_allowed(failures, state, line != "erase ok", "deferred", f"seek {width}")
    counts.take([sizes.line(), "volume all 255", *lines], trace, "fresh")
    after = {name: count for name, count in counts.cuts.items() if "refused" in name}
    check(failures, f"refusals counted as {counts.refusals}", dict(counts.refusals) == dict.fromkeys(REFUSALS, 1))
    check(failures, f"after them: {after}", after == {"restart after an erase refused in the middle": 1, "cut after an erase refused in the middle": 1})


def check_cut_counts(failures, width):
    lines, trace = cut_list(small(width))
    counts = Counts()
    counts.take(lines, trace, "fresh")
    found = dict(counts.cuts), counts.undelivered.total(), counts.gets, counts.written
    check(failures, f"cuts counted as {found}", found == ({"cut in write blank": 1, "restart with the power off": 1, "restart in write new": 1}, 1, 0, 1))
    check(failures, "cuts that are missing", len(counts.missing_cuts()) == len(CUTS) - 3 + len(BOOK) + 1)


def check_opening(failures, width):
    """The book opens pages below the ceiling, and of a plain log within the volume."""
    last = LIMITS[width][1] // (8 * width) - 1
    for mode, number, opened in (("circular", last - 1, last), ("circular", last, last), ("circular", 3, 4), ("plain", 2, 3), ("plain", 3, 3)):
        book = Book(Sizes(8 * width, 4, 100, mode, width))
        book.open = Page(number, ())
        book.open_next()
        check(failures, f"the book at width {width}, {mode}: page {book.open.number} after {number}", book.open.number == opened)


def check_witness(failures, width):
    """The book against one list and small changes of it."""
    sizes = small(width)
    fresh, end = f"? {width} {width} {width} ?", f"? {width} {width} {7 * width} ?"

    def wants(what, at, *changes):
        found = against_book(*cut_list(sizes, *changes), Counter())
        check(failures, f"the book at width {width}, {what}: {found}", (found and found.at - 2) == at)

    wants("a good list", None)
    wants("another O", 5, (5, fresh, f"? {9 * width} {width} {width} ?"))
    wants("another A", 8, (8, end, fresh))
    wants("another entry", 9, (9, "0707070000", "0706070000"))
    wants("another length", 10, (10, "read_done ", "read_done 1"))
    wants("an entry too few", 9, (9, "read 0", "read 1"))
    wants("an entry too many", 11, (11, "read 1", "read 0"))
    wants("another end", 11, (11, "read 1", "read 7"))
    wants("a cut that left the page", 5, (3, "blank", "new"))
    wants("a restart that left nothing", 8, (8, "= = new", "= = old"))
    lines, trace = cut_list(sizes)
    found = against_book([sizes.on_the_other_board().line()] + lines[1:], trace, Counter())
    check(failures, f"the book at width {width}, words of the other width: {found}", found and found.at == 2)
    lines, trace = cut_list(sizes, (8, end, fresh))
    check(failures, "a valid header at first", against_book([lines[0], "volume all 0"] + lines[2:], trace, Counter()) is None)
    check(failures, "a length that hides", against_book(lines + ["append 256 - ok"], trace, Counter()) is None)
    check(failures, "plainer restarts", plainer("restart 1 1 00 00 old", 32) == ["restart 1 1 = =", "restart 1 1 = = old"])


class ForgetsBlankWrites(Book):
    def write_left(self, left):
        if left != "blank":
            super().write_left(left)


class ForgetsBlankErases(Book):
    def erase_left(self, slot, left):
        pass


class TakesOldForNew(Book):
    def write_left(self, left):
        super().write_left("new" if left == "old" else left)


class TakesOldForBlank(Book):
    def erase_left(self, slot, left):
        self.empty(slot)


class WritesWhatWaits(Book):
    """The append's entry in the page that its write puts in the flash."""

    def write_ended(self, good, report):
        if done(report, "append_done"):
            self.join(self.waiting)
            self.write_left("new")
            self.open_next()
        else:
            super().write_ended(good, report)


class KeepsTheUnwritten(Book):
    """At a restart, the open page's list where its number stays."""

    def restarted(self):
        before = self.open
        super().restarted()
        if before.number == self.open.number:
            self.open = before


class ForgetsTheSuccessor(Book):
    """At a restart on a full page."""

    def restarted(self):
        self.open = self.newest()


class OpensAtEverySync(Book):
    def write_ended(self, good, report):
        super().write_ended(good, report)
        if done(report, "sync_done") and self.open.entries:
            self.open_next()


class OpensAtNoSync(Book):
    def write_ended(self, good, report):
        if not done(report, "sync_done"):
            super().write_ended(good, report)


class OpensAfterFailure(Book):
    """After a write that failed and left the new page."""

    def write_ended(self, good, report):
        super().write_ended(True, report)


class OpensPastThePlainEnd(Book):
    def open_next(self):
        self.open = Page(self.open.number + 1, ())


class GoesOnAfterErase(Book):
    def erase_ended(self, report):
        pass


class TakesTheLastSlot(Book):
    """For the newest page."""

    def newest(self):
        return self.slots[max(self.slots)] if self.slots else Page(0, ())


class ReadsOverGaps(Book):
    def entries(self):
        return [entry for page in sorted(self.slots.values()) for entry in page.entries]


class TakesTheOtherWidth(Book):
    def __init__(self, sizes):
        super().__init__(sizes.on_the_other_board())


WRONG_BOOKS = [
    ForgetsBlankWrites, ForgetsBlankErases, TakesOldForNew, TakesOldForBlank, WritesWhatWaits, KeepsTheUnwritten, ForgetsTheSuccessor,
    OpensAtEverySync, OpensAtNoSync, OpensAfterFailure, OpensPastThePlainEnd, GoesOnAfterErase, TakesTheLastSlot, ReadsOverGaps,
    TakesTheOtherWidth,
]


def oracle_selftest(oracles, width):
    """That the oracles take scripts of their own width alone, and part on just those that are for the altered one: there the unchanged one stays busy."""
    failures = []
    own = small(width)
    for sizes, begins in ((own, "restart 0"), (own.on_the_other_board(), "line 1: words of")):
        for oracle in (oracles.unchanged, oracles.altered):
            trace, _ = oracle.run(f"{sizes.line()}\nvolume all 255\nrestart 1 1 = =\n")
            check(failures, f"the oracle on '{sizes.line()}': {trace}", "\n".join(trace).startswith(begins))
    fill = f"append {own.data_most} {'07' * own.data_most} ok"
    begin = [own.line(), "volume all 255", "restart 1 1 = =", fill, fill, "write_complete ok new"]
    for calls, altered, report in (
        (["erase busy"], True, "-"), (["erase fail"], True, "-"), (["erase ok", "erase_complete ok blank fail"], True, "erase_done 1"),
        (["erase ok", "erase_complete ok blank busy"], False, "erase_done 2"), (["erase ok", "erase_complete fail old fail"], False, "erase_done 1"),
    ):
        lines = begin + calls + ["append 1 00 ok"]
        traces = [oracle.run("\n".join(lines) + "\n")[0] for oracle in (oracles.unchanged, oracles.altered)]
        found, then = parse(traces[1][-2]).report, [parse(trace[-1]).answer for trace in traces]
        good = turned_down(lines) == altered == (traces[0] != traces[1]) and found == report and then == [BUSY if altered else OK, OK]
        check(failures, f"the oracles at width {width} on {calls}: the altered one reports {found}, and an append then answers {then}", good)
    return failures


def book_selftest(scripts):
    """That each wrong book is caught on some list with cuts, and the right one on none."""
    failures, uncaught = [], set(WRONG_BOOKS)
    for lines, trace, _ in scripts:
        check(failures, f"the book on {lines}", disagreement(lines, trace, Counter()) is None)
        uncaught = {book for book in uncaught if disagreement(lines, trace, Counter(), book) is None}
        if failures or not uncaught:
            break
    return failures + sorted(f"no list catches the book that {book.__name__}" for book in uncaught)


def selftest():
    """What went wrong, in words."""
    failures = []
    for part in (check_lines, check_traces, check_programs, check_alter, check_shrinking, check_wants, check_alone):
        part(failures)
    for part in (
        check_sizes, check_domain, check_ceiling, check_reads, check_next_entry, check_walk, check_cuts_in_domain, check_refusals, check_cut_counts,
        check_opening, check_witness,
    ):
        for width in WIDTHS:
            part(failures, width)
    return failures + [failure for width in WIDTHS for failure in walks_selftest(width) + marks_selftest(width)]
