"""Every list of up to five calls over a small alphabet, on the smallest pages, one and two of them, circular and plain."""

from .domain import Tracker
from .lists import volume_line
from .sizes import Sizes
from .trace import parse

DEPTH = 5


def letters(width):
    """The alphabet. Left out at a place: what the domain doesn't allow there, a deferred call that isn't due, a refusal where the driver isn't asked."""
    most = 2 * width  # fills a page

    def counting(first):
        return bytes(range(first, first + most)).hex()

    return [
        "append 1 a1 ok",
        f"append {most} {counting(0xb1)} ok",
        f"append {most} {counting(0xc1)} busy",
        "sync ok",
        f"read {most} {'00' * most}",
        "seek start",  # stands for O at that moment
        "erase ok",
        "erase fail",
        "deferred",
        "write_complete ok new",
        "write_complete fail blank",
        "erase_complete ok blank ok",
    ]


def names(width):
    return {letter.split(" ")[0] for letter in letters(width)}


def full_page(sizes, number):
    """A page filled by one entry."""
    return page(sizes, number, sizes.data_most)


def part_page(sizes, number):
    """A page with one entry of one byte, padded."""
    return page(sizes, number, 1)


def page(sizes, number, length):
    content = sizes.word(number * sizes.page_size) + sizes.word(length) + bytes([number]) * length
    return content + b"\xff" * (sizes.page_size - len(content))


def beginnings(width):
    """Sizes and volume of each tree of lists: fresh, then with a lap behind it (in a plain log: nearly at its end)."""
    for count in (1, 2):
        for mode in ("circular", "plain"):
            sizes = Sizes(4 * width, count, 7, mode, width)
            yield sizes, b"\xff" * sizes.length
            if mode == "plain":
                yield sizes, (b"" if count == 1 else full_page(sizes, 0)) + part_page(sizes, count - 1)
            elif count == 1:
                yield sizes, part_page(sizes, 1)
            else:
                yield sizes, part_page(sizes, 2) + full_page(sizes, 1)


def tasks(width):
    """The trees, split by the first letter: pairs of a beginning and a letter."""
    return [(b, first) for b in range(len(list(beginnings(width)))) for first in letters(width)]


def every(oracles, task, width):
    """The longest lists of a task, each with the oracle's trace: every shorter one is the front of one of these."""
    which, first = task
    sizes, volume = list(beginnings(width))[which]
    head = [sizes.line(), volume_line(volume), "restart 1 1 = ="]
    state = Tracker(sizes, volume)
    state.update(head[2], parse(traced(oracles, head)[0]))
    yield from longer(oracles, head, state, [first])


def traced(oracles, lines):
    """A list's trace, from the oracle that it is for."""
    return oracles.of(lines).ask("\n".join(lines) + "\n", len(lines) - 2)


def longer(oracles, lines, state, firsts):
    """The lists that go on from here, the next call one of `firsts`."""
    if len(lines) - 3 == DEPTH:
        yield lines + ["volume"], traced(oracles, lines + ["volume"])
        return
    for letter in firsts:
        line = f"seek {state.O}" if letter == "seek start" else letter
        if not state.allows(line) or (line == "deferred" and not state.deferred):
            continue
        more = lines + [line]
        step = parse(traced(oracles, more)[-1])
        if line.endswith(("busy", "fail")) and step.request == "-":
            continue
        after = state.copy()
        after.update(line, step)
        yield from longer(oracles, more, after, letters(state.sizes.width))
