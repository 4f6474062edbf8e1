"""What a run has met: calls, answers, reports, refused erases, pages written, laps, cuts and restarts, pages walked, searches among marks."""

from collections import Counter

from .flash import LEFT, Flash, erase_refused
from .marks import MET
from .oracles import turned_down
from .sizes import Sizes
from .trace import parse
from .walks import ENDINGS

RESULTS = {"0": "OK", "1": "FAIL", "2": "BUSY", "8": "CANCEL"}

# What a long run must meet, or it has tested too little. Of the Rust's answers with both clients set, only read's CANCEL is missing: it
# needs R above A, and no seek to an ID that was handed out leads there.
ANSWERS = {
    "restart": [0], "append": [0, 1, 2, 6, 7], "read": [0, 1, 2, 6, 7], "seek": [0, 6], "sync": [0, 1, 2], "erase": [0, 1, 2],
    "deferred": [0], "write_complete": [0], "erase_complete": [0],
}
REPORTS = [
    "append_done OK", "append_done OK lost", "append_done FAIL", "sync_done OK", "sync_done FAIL",
    "erase_done OK", "erase_done BUSY", "erase_done FAIL", "read_done OK", "seek_done OK",
]

# Where the driver refused an erase, by the call that asked for it; and with which word.
PLACES = {"erase": "at the start", "erase_complete": "in the middle"}
REFUSALS = [f"{word} {place}" for place in PLACES.values() for word in ("BUSY", "FAIL")]

# Of cuts and restarts: where they fall (in a write or erase, in neither, with the power off) and what they leave; and those straight after an erase
# that the driver refused.
CUTS = [
    *[f"{what} in {kind} {left}" for what in ("cut", "restart") for kind in LEFT for left in LEFT[kind]],
    *[f"cut in neither {left}" for left in LEFT["write"]], "cut with the power off",
    "restart in neither", "restart with the power off",
    *[f"{what} after an erase refused {place}" for what in ("cut", "restart") for place in PLACES.values()],
]
# Of the lists that the page book speaks of: their calls; restarts, entries read after them and ends of reading that were held to it; restarts where
# a page is missing between two others.
BOOK = ["calls", "restarts", "entries", "ends", "restarts with a page missing"]


def report_name(report):
    words = report.split(" ")
    lost = " lost" if words[0] == "append_done" and words[2] == "1" else ""
    return f"{words[0]} {RESULTS[words[-1]]}{lost}"


class Counts:
    def __init__(self):
        self.scripts = Counter()  # by the volume they began on
        self.answers = Counter()  # by call and number
        self.reports = Counter()
        self.gets = 0
        self.altered = 0  # of the calls, those that the altered oracle made
        self.undelivered = Counter()  # by call
        self.refusals = Counter()  # of erases by the driver
        self.cuts = Counter()  # cuts, and restarts but the first, by where they fall and what they leave
        self.book = Counter()  # of the lists that the page book speaks of
        self.written = 0
        self.laps = 0
        self.walks = Counter()  # of pages given alone, by how they ended
        self.restarts = Counter()  # the same of those pages on which the Rust restarted too
        self.words = 0  # that those walks read
        self.searches = 0  # among the marks of a log
        self.met = Counter()  # of these searches, by what they met

    def take_walk(self, walk, with_rust):
        self.walks[walk.ending] += 1
        self.restarts[walk.ending] += with_rust
        self.words += walk.words

    def take_search(self, met):
        self.searches += 1
        self.met.update(met)

    def take(self, lines, trace, kind):
        """A script: its lines from `sizes` on, with a line of trace for each from the third."""
        before = self.calls()
        self.take_lines(lines, trace, kind)
        self.altered += (self.calls() - before) * turned_down(lines)

    def take_lines(self, lines, trace, kind):
        self.scripts[kind] += 1
        sizes = Sizes.parse(lines[0])
        flash = Flash(sizes.first)
        lap = refused = None  # where the driver refused an erase with the line before
        for line, text in zip(lines[2:], trace):
            step = parse(text)
            words = line.split(" ")
            if lap is not None and words[0] in ("cut", "restart"):
                self.cuts[cut_name(line, flash)] += 1
                if refused:
                    self.cuts[f"{words[0]} after an erase refused {refused}"] += 1
            refused = PLACES[words[0]] if erase_refused(line, step) else None
            if refused:
                self.refusals[f"{words[-1].upper()} {refused}"] += 1
            ended = flash.take(line, step)
            self.written += ended is not None and ended.left == "new"
            if step is None:
                self.take_other(line, text)
                continue
            self.answers[step.name, step.answer] += 1
            if step.report != "-":
                self.reports[report_name(step.report)] += 1
            now = step.A // sizes.length
            if step.name != "restart":
                self.laps += max(0, now - lap)
            lap = now

    def take_other(self, line, text):
        """A line whose trace is not a call's."""
        if text.endswith(" not delivered"):
            self.undelivered[line.split(" ", 1)[0]] += 1
        elif line == "get":
            self.gets += 1

    def add(self, other):
        self.scripts += other.scripts
        self.answers += other.answers
        self.reports += other.reports
        self.gets += other.gets
        self.altered += other.altered
        self.undelivered += other.undelivered
        self.refusals += other.refusals
        self.cuts += other.cuts
        self.book += other.book
        self.written += other.written
        self.laps += other.laps
        self.walks += other.walks
        self.restarts += other.restarts
        self.words += other.words
        self.searches += other.searches
        self.met += other.met

    def calls(self):
        """How many calls were made and compared."""
        return self.answers.total() + self.gets

    def missing(self):
        """What should have been met and was not."""
        answers = [f"{call} {number}" for call, numbers in ANSWERS.items() for number in numbers if not self.answers[call, number]]
        refusals = [f"an erase refused by {refusal}" for refusal in REFUSALS if not self.refusals[refusal]]
        return answers + [report for report in REPORTS if not self.reports[report]] + refusals

    def missing_cuts(self):
        """The same of lists with cuts."""
        missing = [name for name in CUTS if not self.cuts[name]] + [f"{name} of the book" for name in BOOK if not self.book[name]]
        return missing + ["a lap"] * (not self.laps)

    def missing_walks(self):
        """The same of pages walked: the ways in which a walk ends, the Rust's too."""
        alone = [ending for ending in ENDINGS if not self.walks[ending]]
        return alone + [f"{ending} with the Rust" for ending in ENDINGS if not self.restarts[ending]]

    def missing_searches(self):
        """The same of searches."""
        return [name for name in MET if not self.met[name]]

    def walked(self):
        return f"{self.walks.total()} pages, {self.words} length words"

    def searched(self):
        return f"{self.searches} searches"

    def __str__(self):
        calls, numbers = Counter(), Counter()
        for (call, number), count in self.answers.items():
            calls[call] += count
            numbers[number] += count
        calls["get"] = self.gets
        return "; ".join([
            f"{self.calls()} calls in {self.scripts.total()} scripts",
            f"with the altered oracle: {self.altered}",
            "calls: " + listed(sorted(calls.items(), key=lambda item: -item[1])),
            "answers: " + listed(sorted(numbers.items())),
            "reports: " + listed(sorted(self.reports.items())),
            "erases refused by the driver: " + (listed((name, self.refusals[name]) for name in REFUSALS if self.refusals[name]) or "none"),
            f"not delivered: {self.undelivered.total()}",
            f"pages written: {self.written}",
            f"laps: {self.laps}",
            "cuts and restarts: " + (listed((name, self.cuts[name]) for name in CUTS if self.cuts[name]) or "none"),
            "the page book: " + (listed((name, self.book[name]) for name in BOOK if self.book[name]) or "nothing"),
            f"walked alone: {self.walked()}",
            "ended at: " + (listed((name, self.walks[name]) for name in ENDINGS if self.walks[name]) or "nothing"),
            "with the Rust: " + (listed((name, self.restarts[name]) for name in ENDINGS if self.restarts[name]) or "nothing"),
            f"among marks: {self.searched()}",
            "met: " + (listed((name, self.met[name]) for name in MET if self.met[name]) or "nothing"),
        ])


def cut_name(line, flash):
    """Where a cut or restart falls and what it leaves, from the flash before it."""
    words = line.split(" ")
    if flash.off:
        return f"{words[0]} with the power off"
    if flash.under_way:
        return f"{words[0]} in {flash.under_way.kind} {words[-1]}"
    return f"cut in neither {words[1]}" if words[0] == "cut" else "restart in neither"


def listed(items):
    return ", ".join(f"{name} {count}" for name, count in items)
