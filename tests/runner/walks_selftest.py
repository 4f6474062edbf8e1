"""The check of the part `walks`: its walk over pages that are written out, and wrong walks in the place of the program and of the Rust."""

from .counts import Counts
from .domain import volume_bytes
from .sizes import WIDTHS, Sizes
from .walks import CUT_OFF, END, ENDINGS, PADDING, PAST, ZERO, Walk, against_both, page_of, script, shrink

SCRIPTS = 20  # the pages on which each wrong walk must be caught
SHRUNK = 64  # bytes that a page then has at most


def cases(width):
    """Pages, each with its walk's length, words and ending."""
    header, half = b"\7" * width, width // 2

    def word(value):
        return (value % 256**width).to_bytes(width, "little")

    return [
        (b"", width, 0, END),
        (header[1:], width, 0, END),
        (header, width, 0, END),
        (header + b"\0", width, 0, ZERO),
        (header + b"\xff", width, 0, PADDING),
        (header + word(1)[:-1], width, 0, CUT_OFF),
        (header + word(1), width, 1, PAST),
        (header + word(1) + b"\7", 2 * width + 1, 1, END),
        (header + word(2) + b"\7", width, 1, PAST),
        (header + word(1) + b"\7\0", 2 * width + 1, 1, ZERO),
        (header + word(1) + b"\7\xff", 2 * width + 1, 1, PADDING),
        (header + word(1) + b"\7\7", 2 * width + 1, 1, CUT_OFF),
        (header + word(1) + b"\7" + word(half) + b"\0" * half, 3 * width + 1 + half, 2, END),
        (header + word(1) + b"\7" + word(half + 1) + b"\0" * half, 2 * width + 1, 2, PAST),
        (header + word(-width) + b"\7", width, 1, PAST),
        (header + word(-2 * width) + b"\7", width, 1, PAST),
        (header + word(1 - width) + b"\7", width, 1, PAST),
        (header + word(0) + b"\7", width, 0, ZERO),
        (header + word(16**width) + b"\7", width, 0, ZERO),
        (header + word(16**width + 1) + b"\7", width, 1, PAST),
        (header + word(255) + b"\7" * 255, width, 0, PADDING),
        (header + word(256) + b"\7" * 256, width, 0, ZERO),
        (header + word(257) + b"\7" * 257, 2 * width + 257, 1, END),
    ]


class CountsAtTheEnd(Walk):
    """Where the walk ends so, it counts a word that it didn't read."""

    at = END

    def step(self):
        ending = super().step()
        self.words += ending == self.at
        return ending


class CountsAtZero(CountsAtTheEnd):
    at = ZERO


class CountsAtPadding(CountsAtTheEnd):
    at = PADDING


class CountsTheCutOff(CountsAtTheEnd):
    at = CUT_OFF


class ForgetsTheLast(Walk):
    """The word that points past the page."""

    def word(self):
        ending = super().word()
        self.words -= ending == PAST
        return ending


class ReadsBeforeTheByte(Walk):
    def before_word(self):
        ending = super().before_word()
        self.words += ending in (ZERO, PADDING) and self.length + self.width <= len(self.page)
        return ending


class GoesOnAtZero(Walk):
    """No stop at such a byte."""

    over = ZERO

    def before_word(self):
        ending = super().before_word()
        if ending != self.over:
            return ending
        return CUT_OFF if self.length + self.width > len(self.page) else None


class GoesOnAtPadding(GoesOnAtZero):
    over = PADDING


class ReadsTheCutOff(Walk):
    """What there is of a word that doesn't lie in the page."""

    def before_word(self):
        ending = super().before_word()
        return None if ending == CUT_OFF else ending


class TakesTheExactForPast(Walk):
    """An entry whose end is the page's."""

    def entry_end(self):
        end = super().entry_end()
        return end + (end == len(self.page))


class TakesPastForExact(Walk):
    """An entry that ends one byte past the page."""

    def entry_end(self):
        end = super().entry_end()
        return end - (end == len(self.page) + 1)


class Wraps(Walk):
    """Sums wrap as words do. It may go round and round, and gives up then."""

    def entry_end(self):
        return super().entry_end() % 256**self.width

    def word(self):
        return PAST if self.words > len(self.page) else super().word()


class ReadsHalfAWord(Walk):
    def entry_end(self):
        return (super().entry_end() - self.length - self.width) % 16**self.width + self.length + self.width


class TakesTheOtherWidth(Walk):
    def __init__(self, page, width):
        super().__init__(page, sum(WIDTHS) - width)


WRONG_WALKS = [
    CountsAtTheEnd, CountsAtZero, CountsAtPadding, CountsTheCutOff, ForgetsTheLast, ReadsBeforeTheByte, GoesOnAtZero, GoesOnAtPadding,
    ReadsTheCutOff, TakesTheExactForPast, TakesPastForExact, Wraps, ReadsHalfAWord, TakesTheOtherWidth,
]
# Those that a restart in the domain shows too: by the length, where no sum wraps.
WRONG_RESTARTS = [GoesOnAtZero, GoesOnAtPadding, TakesTheExactForPast, TakesPastForExact, ReadsHalfAWord, TakesTheOtherWidth]


class Walker:
    """A program that walks so, and takes other lines for their trace."""

    def __init__(self, walk):
        self.walk = walk

    def run(self, text):
        lines = text.splitlines()
        width = Sizes.parse(lines[0]).width
        return [self.trace(line, lines[:at], width) for at, line in enumerate(lines) if at >= 2], None

    def trace(self, line, before, width):
        return self.walk(page_of(line), width).trace() if line.startswith("walk ") else line


class NeedsPower(Walker):
    def trace(self, line, before, width):
        power = [other for other in before if other.startswith(("restart", "cut"))]
        return "walk not delivered" if line.startswith("walk ") and power[-1].startswith("cut") else super().trace(line, before, width)


class ChangesTheLog(Walker):
    def trace(self, line, before, width):
        walked = any(other.startswith("walk ") for other in before)
        return "get 0 0 0 0" if line == "get" and walked else super().trace(line, before, width)


class Rust:
    """Oracles that restart on a page by such a walk, and take other lines for their trace."""

    def __init__(self, walk):
        self.walk, self.unchanged = walk, self

    def trace(self, lines):
        return lines[2:]

    def ask(self, text):
        lines = text.splitlines()
        sizes = Sizes.parse(lines[0])
        page = volume_bytes(lines[1], sizes)[:sizes.page_size]
        return [f"restart 0 - - ? {sizes.width} {sizes.width} {self.walk(page, sizes.width).length} ? 00 ?"]


def first_difference(rust, program, scripts, counts):
    return next((found for lines in scripts if (found := against_both(rust, program, lines, counts))), None)


def right_walk(width, scripts):
    """What it misses: of its cases, and of what the generated pages should have."""
    for page, *wanted in cases(width):
        walk = Walk(page, width)
        if [walk.length, walk.words, walk.ending] != wanted:
            yield f"over {page.hex()}: {walk.trace()}, ended at {walk.ending}"
    counts = Counts()
    if len(counts.missing_walks()) != 2 * len(ENDINGS):
        yield f"of none: missing are {counts.missing_walks()}"
    if found := first_difference(Rust(Walk), Walker(Walk), scripts, counts):
        yield f"differs from itself: {found}"
    for ending in counts.missing_walks():
        yield f"never ends at {ending}"


def wrong_walk(rust, program, scripts, lines_most):
    """What is wrong with how it is caught."""
    found = first_difference(rust, program, scripts, Counts())
    if found is None:
        yield "is not caught"
        return
    lines = shrink(rust, program, found).lines
    page = page_of(lines[-1]) if lines[-1].startswith("walk ") else b""
    if len(lines) > lines_most or len(page) > SHRUNK:
        yield f"is shrunk to {lines}"


def wrong_walks():
    """Each with its name: oracles, a program, and how many lines show a difference between them."""
    for wrong in WRONG_WALKS:
        yield f"program that {wrong.__name__}", Rust(Walk), Walker(wrong), 4
    for wrong in WRONG_RESTARTS:
        yield f"Rust that {wrong.__name__}", Rust(wrong), Walker(Walk), 3
    for wrong in (NeedsPower, ChangesTheLog):
        yield f"program that {wrong.__name__}", Rust(Walk), wrong(Walk), 5


def walks_selftest(width):
    """What went wrong, in words."""
    scripts = [script(f"selftest:{i}", width) for i in range(SCRIPTS)]
    failures = [f"the walk at width {width} {what}" for what in right_walk(width, scripts)]
    for name, rust, program, lines_most in wrong_walks():
        failures += [f"at width {width} the {name} {what}" for what in wrong_walk(rust, program, scripts, lines_most)]
    return failures
