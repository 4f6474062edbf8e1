"""The two oracles of a width: the Rust unchanged, and the copy of it that is altered where the driver turns an erase down."""

# Where the two part, if the driver is asked: it refuses to start an erase, or fails to go on with one. Where it is busy then, they agree.
TURNED_DOWN = ("erase busy", "erase fail", "erase_complete ok blank fail")


def turned_down(lines):
    """Whether a script has such a line: then it is for the altered oracle, else for the unchanged one."""
    return any(line in TURNED_DOWN for line in lines)


class Oracles:
    """Both, run as a Program or a Coprocess is."""

    def __init__(self, chosen, side, limit):
        self.unchanged, self.altered = side(chosen.oracle, limit), side(chosen.altered, limit)

    def of(self, lines):
        """The one that a script is for."""
        return self.altered if turned_down(lines) else self.unchanged

    def trace(self, lines):
        """A script's trace from the one that it is for. Line by line: a long script would fill the pipes."""
        oracle = self.of(lines)
        first = oracle.ask("\n".join(lines[:3]) + "\n")
        return first + [answer for line in lines[3:] for answer in oracle.ask(line + "\n")]

    def stop(self):
        self.unchanged.stop()
        self.altered.stop()
