"""The bench flash: which operation is under way, and what it leaves where, from a script's lines and their trace."""

from collections import namedtuple

# An operation under way, and one that has ended with what it left: `old`, `blank` or `new`.
Operation = namedtuple("Operation", "kind slot")
Ended = namedtuple("Ended", "kind slot left")

LEFT = {"write": ["old", "blank", "new"], "erase": ["old", "blank"]}


class Flash:
    def __init__(self, first):
        self.first = first
        self.under_way = None
        self.off = True  # the power; at first too

    def copy(self):
        other = Flash(self.first)
        other.under_way, other.off = self.under_way, self.off
        return other

    def may_leave(self, left):
        """Whether a cut or restart may say that now. Where nothing is under way, it isn't looked at."""
        return self.under_way is None or left in LEFT[self.under_way.kind]

    def take(self, line, step):
        """Takes in a line and its trace (None: no call was delivered). Gives what operation ended, if one did."""
        words = line.split(" ")
        ended = None
        if words[0] == "cut":
            ended, self.off = self.end(words[1]), True
        if step is None:
            return ended
        if words[0] == "restart":
            ended, self.off = self.end(left_at_restart(line)), step.answer != 0
        elif self.under_way and words[0] == f"{self.under_way.kind}_complete":
            ended = self.end(words[2])
        if step.request != "-" and words[-1] == "ok":
            kind, page = step.request.split(" ")
            self.under_way = Operation(kind, int(page) - self.first)
        return ended

    def end(self, left):
        operation, self.under_way = self.under_way, None
        return operation and Ended(*operation, left)


def erase_refused(line, step):
    """Whether a line asked the driver for an erase and was refused, by its trace."""
    return step is not None and step.request.startswith("erase") and not line.endswith(" ok")


def left_at_restart(line):
    """What a restart's line says of the operation under way; None where it says nothing."""
    words = line.split(" ")
    return words[5] if len(words) > 5 else None


def after(volume, page_size, page, ended):
    """A volume after what an operation left in its slot; `page` is what a write was to write."""
    start, end = ended.slot * page_size, (ended.slot + 1) * page_size
    if ended.left == "blank":
        return volume[:start] + b"\xff" * page_size + volume[end:]
    if ended.left == "new":
        return volume[:start] + page + volume[end:]
    return volume
