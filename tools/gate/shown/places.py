"""The lines of a grammar text, and the places of their words, by docs/FORMATS.md."""
import collections
import itertools
import re

WORD = re.compile("[^ \t]+")
# An error or a warning. `start` and `end` are the offsets in bytes of its place.
Finding = collections.namedtuple("Finding", "severity line column start end message hint")


class Line:
    """A line: its number from 1, the offset in bytes of its first byte, its text without its end, and
    its words."""

    def __init__(self, number, start, text):
        self.number, self.start, self.text = number, start, text
        self.words = WORD.findall(text)

    def place(self, at=None):
        """The line, the column and the two offsets of the word with a number, or of the whole line."""
        if at is None:
            return self.number, 1, self.start, self.start + len(self.text.encode())
        word = next(itertools.islice(WORD.finditer(self.text), at, None))
        start = self.start + len(self.text[: word.start()].encode())
        return self.number, word.start() + 1, start, start + len(word[0].encode())


def lines_of(text):
    """The lines of a text. One CR before an LF, or at the end of the text, is part of a line's end."""
    parts = text.split("\n")
    starts = itertools.accumulate((len(it.encode()) + 1 for it in parts), initial=0)
    return [Line(number, start, it.removesuffix("\r")) for number, (start, it) in enumerate(zip(starts, parts), 1)]
