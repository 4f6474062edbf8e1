"""Lines of a trace: their fields, and whether two sides say the same."""

from collections import namedtuple

# Answers, and results in reports.
OK, FAIL, BUSY = 0, 1, 2

# Words of a report and of a request, by the first.
REPORT_WORDS = {"-": 1, "append_done": 4, "read_done": 3, "sync_done": 2, "erase_done": 2, "seek_done": 2}
REQUEST_WORDS = {"-": 1, "write": 2, "erase": 2}

# The fields after REQUEST, counted from STATE.
STATE, KEPT, HOLD = 0, 4, 6
FIELDS = 7

Step = namedtuple("Step", "name answer report request state O R A kept page hold buffer")


def state_at(words):
    """Where STATE stands in a call's line, or None if the line has another form."""
    try:
        request = 2 + REPORT_WORDS[words[2]]
        state = request + REQUEST_WORDS[words[request]]
    except (IndexError, KeyError):
        return None
    extra = 1 if words[0] == "read" else 0
    return state if len(words) == state + FIELDS + extra else None


def parse(line):
    """The fields of a call's line; None for a line of another form (get, volume, not delivered, panic, a bad line)."""
    words = line.split(" ")
    at = state_at(words)
    if at is None:
        return None
    report = 2 + REPORT_WORDS[words[2]]
    state, oldest, read, append, kept, page, hold = words[at:at + FIELDS]
    return Step(
        words[0], int(words[1]), " ".join(words[2:report]), " ".join(words[report:at]),
        state, int(oldest), int(read), int(append), kept, page, hold, words[at + FIELDS] if words[0] == "read" else None,
    )


def same(oracle, other):
    """Whether two lines agree. STATE, KEPT and HOLD are passed over where the oracle wrote `?`, and nowhere else."""
    if oracle == other:
        return True
    ours, theirs = oracle.split(" "), other.split(" ")
    at = state_at(ours)
    if at is None or len(ours) != len(theirs):
        return False
    for unseen in (at + STATE, at + KEPT, at + HOLD):
        if ours[unseen] == "?":
            theirs[unseen] = "?"
    return ours == theirs


def first_difference(oracle, other):
    """The index of the first line that differs between two traces, a missing one included; None if they agree."""
    for i, (ours, theirs) in enumerate(zip(oracle, other)):
        if not same(ours, theirs):
            return i
    if len(oracle) != len(other):
        return min(len(oracle), len(other))
    return None
