"""Finds literals in the text of a formula that is known to be right, if each of its clauses stands on a line of its own. A part of
tools/explain.

That much is seen from the ends of its lines alone, since the header says how many zeros there are in all. So the numbers are not looked at, and
may be written with zeros before them, and with several blanks between them.
"""

from bisect import bisect_right
from collections.abc import Iterator
from typing import Optional

from qrptools.words import BLOCK

MINUS, ZERO = b"-0"
BEFORE = b" \n"  # what stands before a word
FEW_DIGITS = 100  # a literal below it ends like many others
LONG_LINE = 300  # bytes of a line from which it takes less time to find its end alone


class Listed:
    """Such clauses, from a place in the text on, which is where the first line begins."""

    def __init__(self, text: bytes, start: int, count: int) -> None:
        self.text, self.start, self.count = text, start, count
        self.are_long = len(text) - start >= LONG_LINE * count
        self.ends = list(self.line_ends()) if self.are_long else []  # after each line

    def line_ends(self) -> Iterator[int]:
        end = self.start
        while end := self.text.find(b"\n", end) + 1:
            yield end

    def are_right(self) -> bool:
        """Whether each line is one clause and nothing else, and there are as many as there are clauses."""
        text, start, count = self.text, self.start, self.count
        if any(text.find(byte, start) >= 0 for byte in (b"c", b"\t", b"\r")):
            return False
        if self.are_long:
            return len(self.ends) == count and all(text[end - 3 : end] == b" 0\n" for end in self.ends)
        return text.count(b"\n", start) == count == text.count(b" 0\n", start)

    def pieces(self) -> Iterator[list[bytes]]:
        """The texts of the literals of the clauses, some at a time."""
        start = self.start
        for end in self.ends if self.are_long else self.block_ends():
            yield [self.text[start : end - 3]] if self.are_long else self.text[start:end].split(b" 0\n")[:-1]
            start = end

    def block_ends(self) -> Iterator[int]:
        """Where blocks of lines end."""
        start, last = self.start, self.text.rfind(b"\n") + 1
        while start < last:
            start = self.text.rfind(b"\n", start, start + BLOCK) + 1 or self.text.find(b"\n", start + BLOCK) + 1
            yield start

    def clauses_with(self, literals: list[int]) -> Optional[Iterator[tuple[int, bytes]]]:
        """The clauses that have one of these literals, in their order: how many are before each, and the text of its literals. None if one of
        the literals has few digits."""
        if any(abs(literal) < FEW_DIGITS for literal in literals):
            return None
        ends = {end for literal in literals for end in self.ends_with(literal)}
        return ((before, plain(self.text[self.text.rfind(b"\n", 0, end) + 1 : end - 2])) for before, end in self.with_counts(sorted(ends)))

    def ends_with(self, literal: int) -> Iterator[int]:
        """Where the lines end that have this literal."""
        text, wanted = self.text, b"%d " % abs(literal)
        place = text.find(wanted, self.start)
        while place >= 0:
            first = place - 1
            while text[first] == ZERO:
                first -= 1
            is_negative = text[first] == MINUS
            if is_negative == (literal < 0) and text[first - is_negative] in BEFORE:
                place = text.index(b"\n", place)
                yield place
            place = text.find(wanted, place + 1)

    def with_counts(self, ends: list[int]) -> Iterator[tuple[int, int]]:
        """These ends of lines, in their order, each with how many lines are before it."""
        before, passed = 0, self.start
        for end in ends:
            if self.are_long:
                before = bisect_right(self.ends, end)
            else:
                before, passed = before + self.text.count(b"\n", passed, end), end
            yield before, end


def plain(text: bytes) -> bytes:
    """The text of a clause without zeros before its numbers."""
    if b" 0" in text or b"-0" in text or text[:1] == b"0":
        return b" ".join(b"%d" % int(word) for word in text.split())
    return text
