"""The check of the part `marks`: its searches of logs that are written out; and, where the program is there, generated scripts, on which all that is
counted must be met and wrong searches must be caught."""

import functools
import itertools

from .counts import Counts
from .marks import MET, MISFITS, NAMES, NO_MARKS, ROUNDS, STAMPS, STATES, UNUSED
from .marks import Log, Search, against_rules, script, shrink, sound, whole_trace, with_words
from .sizes import Sizes

SCRIPTS = 300  # on which each wrong search must be caught
SHRUNK = 16  # lines that a script then has at most


# Logs that are written out.


def mark(number, stamp, turn):
    return b"\1\0\x0c" + number.to_bytes(4, "big") + stamp.to_bytes(4, "big") + bytes([turn, 5, 6, 7])


FIRST, SECOND, THIRD, FOURTH = mark(1, 100, 0), mark(2, 110, 1), mark(3, 90, 2), mark(4, 110, 3)


def log_of(width, entries, tail=b"", **changes):
    """Pages of 16 words: page 0 in the flash, with these entries behind its header, then `tail`, then padding; page 1 in the page buffer, with the
    fourth mark, then zeros. Any of the log's numbers may be others."""
    sizes = Sizes(16 * width, 4, 0, "circular", width)
    page_size, log = sizes.page_size, Log(sizes)
    page_0 = sizes.word(0) + b"".join(sizes.word(len(data)) + data for data in entries) + tail
    page_1 = sizes.word(page_size) + sizes.word(len(FOURTH)) + FOURTH
    log.power, log.O, log.R, log.A = True, width, width, page_size + len(page_1)
    log.volume = page_0 + b"\xff" * (sizes.length - len(page_0))
    log.page = page_1 + bytes(page_size - len(page_1))
    for name, value in changes.items():
        setattr(log, name, value)
    return log


def worked_cases(width):
    """Searches of the log with all four marks, and what the trace says of each."""
    one, two, three, four = width, 2 * width + 15, 3 * width + 30, 17 * width
    most, unused = STAMPS - 1, f" {UNUSED}"
    return [
        ("nearest 105", f"nearest 0 {one}"),
        ("nearest 110", f"nearest 0 {two}"),
        ("nearest 95", f"nearest 0 {one}"),
        ("nearest 94", f"nearest 0 {three}"),
        ("nearest 0", f"nearest 0 {three}"),
        (f"nearest {most}", f"nearest 0 {two}"),
        ("between 100 110 3", f"between 0 3 {one} {two} {four}"),
        ("between 100 110 5", f"between 0 3 {one} {two} {four}" + 2 * unused),
        ("between 100 110 2", "between 7 -" + 2 * unused),
        ("between 100 109 1", f"between 0 1 {one}"),
        ("between 101 110 2", f"between 0 2 {two} {four}"),
        (f"between 0 {most} 4", f"between 0 4 {one} {two} {three} {four}"),
        ("between 91 99 0", "between 0 0"),
        ("between 90 90 0", "between 7 -"),
        ("between 5 4 1", "between 26 -" + unused),
    ]


def read_cases(width):
    """Logs that aren't read to the fourth mark in page 1, or by another way."""
    sizes = Sizes(16 * width, 4, 0, "circular", width)
    page_size, ceiling, word = sizes.page_size, sizes.ceiling, sizes.word
    one, two, four = width, 2 * width + 15, 17 * width
    left = page_size - two - width
    full = [FIRST] * ((page_size - width) // (width + 15))
    return [
        # No entry, the power off.
        (log_of(width, [], A=width), "nearest 7", "nearest 25 -"),
        (log_of(width, [], A=width), "between 9 3 1", f"between 25 - {UNUSED}"),
        (log_of(width, [FIRST], power=False), "nearest 7", "nearest not delivered"),
        (log_of(width, [FIRST], power=False), "between 9 3 1", "between not delivered"),
        # The first entry that is no mark.
        (log_of(width, [FIRST, b"\2" + SECOND[1:], b"\7"]), "nearest 100", f"nearest 24 {two}"),
        (log_of(width, [FIRST, b"\1\x0c\0" + SECOND[3:]]), "between 5 4 1", f"between 24 {two} {UNUSED}"),
        (log_of(width, [b"\1\0\x0d" + FIRST[3:]]), "nearest 0", f"nearest 24 {one}"),
        (log_of(width, [mark(1, 100, 4)]), "nearest 0", f"nearest 24 {one}"),
        (log_of(width, [FIRST[:-1]]), "nearest 0", f"nearest 24 {one}"),
        (log_of(width, [FIRST + b"\0"]), "nearest 0", f"nearest 24 {one}"),
        # A blank page, with O in it; a page that ends in padding, of less than a word, too.
        (log_of(width, []), "nearest 0", f"nearest 0 {four}"),
        (log_of(width, [FIRST]), "between 110 110 1", f"between 0 1 {four}"),
        (log_of(width, full), "between 110 110 1", f"between 0 1 {four}"),
        # Ends before the fourth mark: a word past its page, a length of 0, one that no page has room for, one past the page by a byte. To the page's
        # end is an entry.
        (log_of(width, full, b"\7" * (width - 1)), "between 110 110 1", f"between 0 0 {UNUSED}"),
        (log_of(width, [FIRST], word(0)), "between 110 110 1", f"between 0 0 {UNUSED}"),
        (log_of(width, [FIRST], word(page_size - 2 * width + 1)), "between 110 110 1", f"between 0 0 {UNUSED}"),
        (log_of(width, [FIRST], word(left + 1)), "between 110 110 1", f"between 0 0 {UNUSED}"),
        (log_of(width, [FIRST], word(left)), "between 110 110 1", f"between 24 {two} {UNUSED}"),
        # At A; in the page of A - 1 it is the page buffer that is read.
        (log_of(width, [FIRST, SECOND], A=page_size + width), "between 110 110 1", f"between 0 1 {two}"),
        (log_of(width, [FIRST, SECOND], A=two), "between 0 200 1", f"between 0 1 {one}"),
        (log_of(width, [FIRST, SECOND], A=page_size), "between 110 110 1", f"between 0 1 {one}"),
        (log_of(width, [], O=ceiling - page_size + width, A=ceiling), "nearest 0", f"nearest 0 {ceiling - page_size + width}"),
    ]


def state_cases(width):
    """Numbers of the log that don't fit, and some that just fit. No other thing is looked at where they don't."""
    page_size, ceiling = 16 * width, 7 << 8 * width - 4
    most = page_size - 2 * width
    misfits = [
        {"O": 0}, {"O": width + 1}, {"O": 2 * page_size + width}, {"A": ceiling + width}, {"A": page_size + 1}, {"A": page_size + width - 1},
        {"R": ceiling + 1}, {"kept": most + 1}, {"state": "append"},
    ]
    fitting = [{"R": ceiling}, {"R": 0}, {"kept": most}, *[{"state": state, "kept": 1} for state in STATES]]
    return [
        *[(log_of(width, [b"\7"], **changes), line, says) for changes in misfits for line, says in (
            ("nearest 105", "nearest 21 -"), ("between 5 4 1", f"between 21 - {UNUSED}"),
        )],
        *[(log_of(width, [FIRST], **changes), "nearest 105", f"nearest 0 {width}") for changes in fitting],
    ]


def check_cases(width):
    worked = log_of(width, [FIRST, SECOND, THIRD])
    for log, line, wanted in [(worked, line, says) for line, says in worked_cases(width)] + read_cases(width) + state_cases(width):
        found = Search(log).trace(line)
        if found != wanted:
            yield f"'{line}' at width {width}: {found}, and not {wanted}, of {vars(log)}"


def check_left_out(width):
    """A search that would read round and round is left out of a script, and no other."""
    sizes = Sizes(16 * width, 4, 0, "circular", width)
    begin = [sizes.line(), "volume all 255", "restart 1 1 = =", "volume"]
    calls = [f"restart 0 - - idle {width} {width} {width} 0 {'00' * sizes.page_size} -", f"volume {'ff' * sizes.length}"]
    for more, wanted in ((0, 4), (1, 3)):
        far = width + ROUNDS * sizes.length + more * sizes.page_size
        found = [line for line, *_ in whole_trace([*begin, f"state idle {width} {width} {far} 0", "nearest 0"], calls, Search)]
        if len(found) != wanted:
            yield f"of a log of {far} bytes at width {width}: {found}"


def check_sound():
    """Scripts with lines left out, of which those with a wrong line, or a search of bytes that aren't known, are told apart."""
    begin = ["sizes", "volume", "restart 1 1 = ="]
    for lines, wanted in (
        (["volume", "nearest 1", "state idle", "between 1 2 3", "get", "nearest 1"], True), (["nearest 1"], False), (["volume", "sync ok", "nearest 1"], False),
        (["volume", "restart 1 1 = = new", "nearest 1"], False), (["cut new", "nearest 1"], True), (["cut new", "state idle"], False),
        (["cut new", "restart 1 1 = =", "state idle"], True), (["erase ok", "cut new"], False), (["erase ok", "restart 1 1 = = new"], False),
        (["erase ok", "cut old", "restart 1 1 = = new"], True), (["erase ok", "restart 1 1 = = blank", "cut new"], True),
    ):
        if sound(begin + lines) != wanted:
            yield f"{lines}: sound is {not wanted}"


def marks_selftest(width):
    """What went wrong, in words. It needs no implementation of the log."""
    return [*check_cases(width), *check_left_out(width), *check_sound()]


# Wrong searches, in the place of the rules.


class TakesTheLaterOnATie(Search):
    def nearest_mark(self, marks, stamp):
        return super().nearest_mark(marks[::-1], stamp)


class TakesTheStampBelow(Search):
    """Where there is one."""

    def nearest_mark(self, marks, stamp):
        return super().nearest_mark([mark for mark in marks if mark.stamp <= stamp] or marks, stamp)


class GoesRoundTheStamps(Search):
    def difference(self, one, other):
        return min((one - other) % STAMPS, (other - one) % STAMPS)


class LeavesOutTheFirst(Search):
    def inside(self, first, last):
        return super().inside(first + 1, last)


class LeavesOutTheLast(Search):
    def inside(self, first, last):
        return super().inside(first, last - 1)


class SortsByStamp(Search):
    def inside(self, first, last):
        ids = super().inside(first, last)
        return [mark.id for mark in sorted(self.marks(), key=lambda mark: mark.stamp) if mark.id in ids]


class ReadsStampsLittleEndian(Search):
    def stamp(self, data):
        return int.from_bytes(data[7:11], "little")


class PassesOverNoMarks(Search):
    def refusal_of_entry(self):
        self.entries = [entry for entry in self.entries if not self.no_mark(entry.data)]


class NamesTheLast(Search):
    """Of the entries that are no marks."""

    def refusal_of_entry(self):
        self.entries.reverse()
        refusal = super().refusal_of_entry()
        self.entries.reverse()
        return refusal


class NamesThePlaceInTheLog(Search):
    """Of an entry that is no mark."""

    def refusal_of_entry(self):
        return super().refusal_of_entry() and f"24 {next(at for at, entry in enumerate(self.entries) if self.no_mark(entry.data))}"


class LooksAtTheRangeFirst(Search):
    def refusal_between(self, first, last):
        return "26 -" if last < first and not self.misfit() else super().refusal_between(first, last)


class LooksAtTheRangeBeforeTheCount(Search):
    """Of entries: 26 in place of 25."""

    def refusal_between(self, first, last):
        refusal = super().refusal_between(first, last)
        return "26 -" if refusal == "25 -" and last < first else refusal


class WantsAWordMore(Search):
    def refusal_of_slice(self, ids, count):
        return super().refusal_of_slice(ids, count - 1)


class FillsAShortSlice(Search):
    def between(self, first, last, count):
        says = super().between(first, last, count)
        return with_words("7 -", self.inside(first, last)[:count], count) if says.startswith("7 ") else says


class WritesShortWords(Search):
    """Of 32 bits, where no ID stands."""

    def between(self, first, last, count):
        return super().between(first, last, count).replace(str(UNUSED), str(STAMPS - 1))


class BeginsAtR(Search):
    def first_id(self):
        return self.log.R


class TakesAnEntryAtA(Search):
    def is_end(self, at):
        return at > self.log.A


class ReadsTheFlashAlone(Search):
    def in_page_buffer(self, at):
        return False


class TakesThePageOfA(Search):
    """For that in the page buffer."""

    def in_page_buffer(self, at):
        return at // self.page_size == self.log.A // self.page_size


class StopsAtPadding(Search):
    over = "padding passed over"

    def place(self, at):
        """A, where it is such a byte 0xFF."""
        before, self.met = self.met, set()
        place = super().place(at)
        stops = self.over in self.met
        self.met |= before
        return self.log.A if stops else place


class StopsAtABlankPage(StopsAtPadding):
    over = "a blank page passed over"


class ReadsPastThePage(Search):
    """The bytes that an entry has in its page."""

    def length(self, at):
        return super().length(at) or self.length_past(at)

    def length_past(self, at):
        length = int.from_bytes(self.bytes_at(at, self.width), "little")
        return length if length <= self.page_size - 2 * self.width else 0


class TakesTheOtherWidth(Search):
    def __init__(self, log):
        super().__init__(log)
        self.width = self.sizes.on_the_other_board().width


class TakesTheOtherCeiling(Search):
    def __init__(self, log):
        super().__init__(log)
        self.sizes = self.sizes.on_the_other_board()


class WantsClients(Search):
    def refusal(self):
        return super().refusal() if self.log.clients == ["1", "1"] else "5 -"


class WantsIdle(Search):
    def refusal(self):
        return super().refusal() if self.log.state == "idle" else "2 -"


class GoesWithoutPower(Search):
    def delivered(self):
        return self.log.volume is not None


def takes(taken):
    """A search that takes such an entry for a mark."""

    class Takes(Search):
        def no_mark(self, data):
            reason = super().no_mark(data)
            return None if reason == taken else reason

    return taken, Takes


def forgets(rule):
    """A search that doesn't hold the log to one rule of STATE. It gives up after as many entries as the volume has bytes."""

    class Forgets(Search):
        def misfit(self):
            found = super().misfit()
            return None if found == rule else found

        def read(self):
            return itertools.islice(super().read(), self.sizes.length)

    return rule, Forgets


WRONG_SEARCHES = [
    TakesTheLaterOnATie, TakesTheStampBelow, GoesRoundTheStamps, LeavesOutTheFirst, LeavesOutTheLast, SortsByStamp, ReadsStampsLittleEndian,
    PassesOverNoMarks, NamesTheLast, NamesThePlaceInTheLog, LooksAtTheRangeFirst, LooksAtTheRangeBeforeTheCount, WantsAWordMore, FillsAShortSlice,
    WritesShortWords, BeginsAtR, TakesAnEntryAtA, ReadsTheFlashAlone, TakesThePageOfA, StopsAtPadding, StopsAtABlankPage, ReadsPastThePage,
    TakesTheOtherWidth, TakesTheOtherCeiling, WantsClients, WantsIdle, GoesWithoutPower,
]


def wrong_searches():
    """Each with its name."""
    named = {wrong.__name__: wrong for wrong in WRONG_SEARCHES}
    named |= {f"takes {taken}": wrong for taken, wrong in map(takes, NO_MARKS)}
    return named | {f"forgets {rule}": wrong for rule, wrong in map(forgets, MISFITS)}


class Once:
    """A program that runs each script once."""

    def __init__(self, program):
        self.run = functools.cache(program.run)


class ChangesTheLog:
    """A program whose searches change what calls then do."""

    def __init__(self, program):
        self.program = program

    def run(self, text):
        trace, ended = self.program.run(text)
        searched = any(line.startswith(NAMES) for line in trace)
        return [line + "0" * (searched and line.startswith("append ")) for line in trace], ended


def search_selftest(program, width):
    """What went wrong, in words, on scripts that the program runs."""
    program, counts, failures = Once(program), Counts(), []
    scripts = [script(f"selftest:{i}", width) for i in range(SCRIPTS)]
    failures += [f"a script of the seed selftest:{i} is not sound" for i, lines in enumerate(scripts) if not sound(lines)]
    if found := next(filter(None, (against_rules(program, lines, counts) for lines in scripts)), None):
        return failures + [f"the program differs: {found}"]
    failures += [f"never met: {name}" for name in counts.missing_searches()]
    if len(Counts().missing_searches()) != len(MET):
        failures.append("of no searches nothing is missing")
    for name, wrong in wrong_searches().items():
        failures += [f"the search that {name} {what}" for what in caught(program, scripts, wrong)]
    return failures + [f"the program that changes the log {what}" for what in caught(ChangesTheLog(program), scripts, Search)]


def caught(program, scripts, search):
    """What is wrong with how a program that searches otherwise is caught."""
    found = next(filter(None, (against_rules(program, lines, search=search) for lines in scripts)), None)
    if found is None:
        yield "is not caught"
        return
    lines = shrink(None, program, found, search).lines
    if len(lines) > SHRUNK:
        yield f"is shrunk to {lines}"
