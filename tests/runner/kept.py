"""Scripts that are kept in files, with what is wanted of them in comments.

    # want: answer 0, A 32          fields of the trace line of the call above, on every side that runs it
    # rust: panic                   outside the domain: what the Rust does there (fields, `panic`, or `endless`)
    # the Rust: reads on ..         the same in words
"""

import pathlib
import sys

from .trace import parse

ALONE = ("walk", "nearest", "between")  # lines that the Rust doesn't have, and that change nothing: the program alone runs them
TESTS = pathlib.Path(__file__).resolve().parents[1]
FIELDS = ("answer", "report", "request", "state", "O", "R", "A", "kept", "page", "hold", "buffer")


def scripts_in(folder, width):
    """The scripts of a folder with words of that width: those of 8 bytes are in a folder of their own."""
    path = TESTS / (folder if width == 4 else f"{folder}{width}")
    return sorted(path.glob("*.script")) or sys.exit(f"no scripts in {path}")


class Kept:
    """A kept script: the whole, which the program runs, and what the oracle runs of it."""

    def __init__(self, path):
        self.name = path.stem
        self.text = path.read_text()
        lines = self.text.splitlines()
        self.whole = Script(self.name, lines)
        self.shared = Script(self.name, shared_lines(lines))


def shared_lines(lines):
    """Leaves out each line that the program alone runs, and the comments below it."""
    shared = True
    for line in lines:
        if line and not line.startswith("#"):
            shared = line.split(" ")[0] not in ALONE
        if shared:
            yield line


class Script:
    def __init__(self, name, lines):
        self.name = name
        self.text = ""
        self.lines = []  # without comments
        self.wants = []  # (index in the trace, field, value)
        self.rust = []
        self.words = ""
        for number, line in enumerate(lines, 1):
            self.text += line + "\n"
            if line.startswith("# want: "):
                self.wants += self.wanted(line[8:], number)
            elif line.startswith("# rust: "):
                self.rust += self.wanted(line[8:], number)
            elif line.startswith("# the Rust: "):
                self.words = line[12:]
            elif line and not line.startswith("#"):
                self.lines.append(line)

    def wanted(self, text, number):
        if len(self.lines) < 3:
            raise ValueError(f"{self.name}, line {number}: no call above")
        at = len(self.lines) - 3
        for want in text.split(", "):
            field, _, value = want.partition(" ")
            if field not in FIELDS + ("line", "panic", "endless"):
                raise ValueError(f"{self.name}, line {number}: no field '{field}'")
            yield at, field, value


def unmet(wants, lines, trace, ended):
    """Which wants a trace doesn't meet, in words."""
    return [
        f"'{lines[at + 2]}': wanted {field} {value}".rstrip() + f", found {text_at(trace, at, ended)}"
        for at, field, value in wants
        if not met(at, field, value, lines[at + 2].split(" ")[0], trace, ended)
    ]


def text_at(trace, at, ended):
    return trace[at] if at < len(trace) else f"no line ({ended or 'the trace ends before'})"


def met(at, field, value, name, trace, ended):
    if field == "endless":
        return len(trace) == at and ended is not None and ended.startswith("no end")
    if at >= len(trace):
        return False
    if field == "panic":
        return trace[at] == "panic " + name
    if field == "line":
        return trace[at] == value
    step = parse(trace[at])
    if step is None:
        return False
    found = str(getattr(step, field))
    return found == value or (found == "?" and field in ("state", "kept", "hold"))
