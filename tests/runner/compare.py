"""A script on both sides, or against the page book, and the shortest one that still shows a difference."""

from collections import Counter, namedtuple

from .book import disagreement
from .domain import Tracker, admits_restart, volume_bytes
from .sides import Stopped
from .sizes import Sizes
from .trace import first_difference, parse

# A script on which the sides differ: the line of the script (counted from 0), what each side wrote there, and how the program ended if not well.
# With `book`, the other side is the page book. `names` are the sides' names.
Difference = namedtuple("Difference", "lines at oracle other ended book names", defaults=[False, ("the oracle", "the program")])


def compare(program, lines, trace):
    """Runs the program on a script whose trace by the oracle is known. None if they agree."""
    other, ended = program.run("\n".join(lines) + "\n")
    at = first_difference(trace, other)
    if at is None and ended is None:
        return None
    if at is None:
        at = len(trace)
    return Difference(lines, at + 2, text_at(trace, at), text_at(other, at), ended)


def against_book(lines, trace, met):
    """Holds the oracle's trace to the page book, where that speaks of the script. None if they agree; `met` counts what was compared."""
    found = disagreement(lines, trace, met)
    if found is None:
        return None
    at, says = found
    return Difference(lines, at + 2, trace[at], says, None, True, ("the oracle", "the book"))


def text_at(trace, at):
    return trace[at] if at < len(trace) else "(no line)"


def within_domain(oracle, lines):
    """Those of a script's lines that the domain allows, one after the other, and the oracle's trace of them; None for a volume outside it."""
    sizes = Sizes.parse(lines[0])
    volume = volume_bytes(lines[1], sizes)
    if not admits_restart(volume, sizes):
        return None
    state = Tracker(sizes, volume)
    kept, trace = lines[:3], oracle.ask("\n".join(lines[:3]) + "\n")
    state.update(lines[2], parse(trace[0]))
    for line in lines[3:]:
        if line.startswith("seek") and state.idle():
            line = f"seek {nearest(state.handed_out, int(line[5:]))}"
        if state.allows(line):
            text, = oracle.ask(line + "\n")
            kept.append(line)
            trace.append(text)
            state.update(line, parse(text))
    return kept, trace


def nearest(ids, wanted):
    """The ID itself where it was handed out, else the one nearest to it: without some calls the IDs are others."""
    return min(ids, key=lambda id: abs(id - wanted))


def shrink(oracles, program, difference):
    """The shortest script found, within the domain, by dropping lines and then by plainer ones, while a difference of the same kind remains."""

    def attempt(lines):
        try:
            script = within_domain(oracles.of(lines), lines)
        except Stopped:
            return None
        found = script and (against_book(*script, Counter()) if difference.book else compare(program, *script))
        # Of a program that was stopped or broke down, the last lines of the trace may be missing: its place isn't known.
        return found and (found if found.ended else found._replace(lines=found.lines[:found.at + 1]))

    best = attempt(difference.lines) or difference
    before = None
    while best is not before:
        before = best
        best = drop_lines(best, attempt)
        best = plainer_lines(best, attempt)
    return best


def drop_lines(best, attempt):
    """Drops runs of lines, long ones first, as long as the difference stays."""
    size = max(1, (len(best.lines) - 3) // 2)
    while size >= 1:
        at = 3
        while at < len(best.lines):
            found = attempt(best.lines[:at] + best.lines[at + size:])
            if found and len(found.lines) < len(best.lines):
                best = found
            else:
                at += size
        size //= 2
    return best


def plainer_lines(best, attempt):
    """Puts plainer lines in place of lines, one at a time."""
    at = 1
    while at < len(best.lines):
        page_size = Sizes.parse(best.lines[0]).page_size
        for line in plainer(best.lines[at], page_size):
            found = line != best.lines[at] and attempt(best.lines[:at] + [line] + best.lines[at + 1:])
            if found and len(found.lines) <= len(best.lines):
                best = found
                if line.startswith("volume"):
                    return best
                break
        at += 1
    return best


def plainer(line, page_size):
    """Plainer forms of a line, the plainest first."""
    words = line.split(" ")
    if words[0] == "volume" and len(words) == 2:
        return ["volume all 255", "volume all 0"] + [f"volume {text}" for text in with_a_blank_page(words[1], 2 * page_size)]
    if words[0] == "restart":
        plain = f"restart {words[1]} {words[2]} = ="
        return [plain] + [f"{plain} {left}" for left in words[5:]]
    if words[0] in ("append", "read") and words[2] != "-":
        ones = "01" * min(int(words[1]), len(words[2]) // 2) or "-"
        return [" ".join([words[0], words[1], ones] + words[3:])]
    return []


def with_a_blank_page(volume, digits):
    for start in range(0, len(volume), digits):
        blank = volume[:start] + "f" * digits + volume[start + digits:]
        if blank != volume:
            yield blank
