"""Volumes to restart on, from a seed: fresh, all zero, partly filled, wrapped, high (IDs near the ceiling), damaged within the domain; and headless: without a valid page header."""

from .domain import admits_restart, has_header

KINDS = ["fresh", "zero", "filled", "wrapped", "high", "damaged"]
WEIGHTS = [22, 4, 18, 20, 8, 28]


def any_volume(rng, sizes):
    """A kind, and a volume of it within the domain."""
    kind = rng.choices(KINDS, WEIGHTS)[0]
    while True:
        volume = MAKERS[kind](rng, sizes)
        if admits_restart(volume, sizes):
            return kind, bytes(volume)


def any_headless(rng, sizes):
    """A kind, and a volume of it without a valid page header."""
    if rng.random() < 0.5:
        return "fresh", fresh(rng, sizes)
    while True:
        volume = b"".join(rng.choice(HEADLESS)(rng, sizes, slot) for slot in range(sizes.count))
        if not has_header(volume, sizes):
            return "headless", volume


def fresh(rng, sizes):
    return b"\xff" * sizes.length


def zero(rng, sizes):
    return bytes(sizes.length)


def filled(rng, sizes):
    """The first pages of a log that has not gone round yet."""
    return lap(rng, sizes, 0, rng.randint(1, sizes.count))


def wrapped(rng, sizes):
    """Every slot filled, the oldest page anywhere."""
    return lap(rng, sizes, rng.randint(1, 4 * sizes.count), sizes.count)


def high(rng, sizes):
    """The newest page a few pages below the ceiling."""
    newest = sizes.ceiling // sizes.page_size - rng.randint(1, 2 * sizes.count + 2)
    pages = rng.randint(1, sizes.count)
    return lap(rng, sizes, newest - pages + 1, pages)


def lap(rng, sizes, oldest, pages):
    """`pages` pages from number `oldest` on, each in its slot; the other slots blank."""
    volume = bytearray(fresh(rng, sizes))
    for number in range(oldest, oldest + pages):
        start = number % sizes.count * sizes.page_size
        volume[start:start + sizes.page_size] = page(rng, sizes, number * sizes.page_size)
    return volume


def page(rng, sizes, first_id):
    """A page with entries of random lengths, full or padded."""
    content = sizes.word(first_id)
    stop_early = rng.random() < 0.5
    while (fits := sizes.page_size - len(content) - sizes.width) > 0:
        if stop_early and rng.random() < 0.3:
            break
        length = rng.choice([fits, rng.randint(1, fits), rng.randint(1, min(fits, 8))] + [255, 256] * (fits >= 256))
        content += sizes.word(length) + data(rng, sizes, length)
    return content + b"\xff" * (sizes.page_size - len(content))


def data(rng, sizes, length):
    """Bytes of an entry; some look like padding, zeros or length words."""
    how = rng.random()
    if how < 0.5:
        return rng.randbytes(length)
    if how < 0.65:
        return b"\xff" * length
    if how < 0.75:
        return bytes(length)
    words = b"".join(sizes.word(rng.randint(0, 12)) for _ in range(length // sizes.width + 1))
    return words[:length]


def damaged(rng, sizes):
    """A volume with a few spots spoilt."""
    make = rng.choice([fresh, zero, filled, wrapped, wrapped, high])
    volume = bytearray(make(rng, sizes))
    for _ in range(rng.choice([1, 1, 1, 2, 3, 5])):
        start = rng.randrange(sizes.count) * sizes.page_size
        rng.choice(DAMAGES)(rng, volume, sizes, start)
    return volume


def spoil_header(rng, volume, sizes, start):
    """Another ID, most of them valid in the slot and some far ahead."""
    laps = rng.choice([0, 1, 2, rng.randint(0, 1 << 16), rng.randint(0, sizes.wrap >> 2)])
    new = (laps * sizes.length + start + rng.choice([0, 0, 0, 1, sizes.width, sizes.page_size])) % sizes.ceiling
    volume[start:start + sizes.width] = sizes.word(new)


def spoil_length(rng, volume, sizes, start):
    """Another word somewhere in the page, such as an entry's length might be."""
    width, page_size, most = sizes.width, sizes.page_size, sizes.data_most
    at = start + rng.choice([width, width, rng.randint(width, page_size - width)])
    any_length = rng.randint(1, page_size)
    beyond = [number + any_length for number in sizes.beyond_32_bits()]
    length = rng.choice([0, 1, 2, 3, most, most + 1, page_size, 255, 256, sizes.wrap - 1, any_length] + beyond)
    volume[at:at + width] = sizes.word(length)


def spoil_byte(rng, volume, sizes, start):
    volume[start + rng.randrange(sizes.page_size)] = rng.choice([0, 1, 255, rng.randrange(256)])


def spoil_tail(rng, volume, sizes, start):
    """The page's end: blank, zero or noise from some offset on."""
    at = rng.randrange(sizes.page_size)
    tail = sizes.page_size - at
    volume[start + at:start + sizes.page_size] = rng.choice([b"\xff" * tail, bytes(tail), rng.randbytes(tail)])


def spoil_copy(rng, volume, sizes, start):
    """Another slot's page in this one."""
    other = rng.randrange(sizes.count) * sizes.page_size
    volume[start:start + sizes.page_size] = volume[other:other + sizes.page_size]


def spoil_end(rng, volume, sizes, start):
    """One entry that leaves less than a word, and noise there: a length word doesn't lie in the page."""
    left = rng.randint(1, sizes.width - 1)
    length = sizes.data_most - left
    page_end = sizes.word(length) + data(rng, sizes, length) + rng.randbytes(left)
    volume[start + sizes.width:start + sizes.page_size] = page_end


def blank_slot(rng, sizes, slot):
    return b"\xff" * sizes.page_size


def zero_slot(rng, sizes, slot):
    """A valid page 0 in slot 0."""
    return bytes(sizes.page_size)


def noise_slot(rng, sizes, slot):
    return rng.randbytes(sizes.page_size)


def misplaced_slot(rng, sizes, slot):
    """A page that another slot, or none, would hold."""
    page_size = sizes.page_size
    elsewhere = rng.randint(0, 4 * sizes.count) * page_size
    beside = slot * page_size + rng.choice([1, sizes.width, page_size // 2])
    return page(rng, sizes, rng.choice([elsewhere, beside, sizes.ceiling]))


HEADLESS = [blank_slot, zero_slot, noise_slot, misplaced_slot]
DAMAGES = [spoil_header, spoil_length, spoil_length, spoil_byte, spoil_tail, spoil_copy, spoil_end]
MAKERS = {"fresh": fresh, "zero": zero, "filled": filled, "wrapped": wrapped, "high": high, "damaged": damaged}
