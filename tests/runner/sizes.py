"""The sizes of a script, and what follows from them: P, N, the first flash page, the mode, and the width of the board's words."""

WIDTHS = (4, 8)


class Sizes:
    def __init__(self, page_size, count, first, mode, width=4):
        self.page_size, self.count, self.first, self.mode, self.width = page_size, count, first, mode, width
        self.length = page_size * count
        self.data_most = page_size - 2 * width  # of an entry
        self.wrap = 1 << 8 * width
        self.ceiling = 7 << 8 * width - 4
        self.length_most = self.wrap - width - 1  # that a call may name: with a word added it doesn't wrap

    @classmethod
    def parse(cls, line):
        """From a script's first line."""
        _, page_size, count, first, mode, *width = line.split(" ")
        return cls(int(page_size), int(count), int(first), mode, *map(int, width))

    def line(self):
        """A script's first line. A width of 4 is left out."""
        width = "" if self.width == 4 else f" {self.width}"
        return f"sizes {self.page_size} {self.count} {self.first} {self.mode}{width}"

    def on_the_other_board(self):
        """The same with words of 8 bytes in place of 4, or of 4 in place of 8."""
        return Sizes(self.page_size, self.count, self.first, self.mode, sum(WIDTHS) - self.width)

    def word(self, value):
        return value.to_bytes(self.width, "little")

    def word_at(self, data, at):
        return int.from_bytes(data[at:at + self.width], "little")

    def beyond_32_bits(self):
        """A number that a word of 4 bytes would take for 0, where words are wider."""
        return [1 << 32] * (self.width > 4)
