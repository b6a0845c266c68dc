"""The words of a text, and how they are refused: the tokens, lines and faults of docs/FORMATS.md.

A part of tools/explain, tools/draw-proof and the tools beside them. Nothing here is proved: a verdict comes from qrp_cmd alone.
"""

import copy
import mmap
import os
import re
from collections.abc import Iterator
from typing import Any, Callable, Optional, Protocol, Union

GREATEST = 2**64 - 1  # of the numbers of steps
GREATEST_VARIABLE = 2**31 - 1
ALL = float("inf")  # as a number of lines: all of them

WORD = re.compile(rb"[^ \t\r\n]+")
NUMBER = re.compile(rb"-?[0-9]+")
# Lines are looked at in blocks of so many bytes, and of those of the last one to its end. What makes the words of a block hard to count.
BLOCK = 1 << 18
UNUSUAL = (b"\t", b"\r", b"-0", b"  ")
BLANKS = bytes.maketrans(b"\n", b" ")


class Data(Protocol):
    """What is used of the bytes of a file, which are in memory or mapped into it."""

    def __len__(self) -> int:
        ...

    def __getitem__(self, places: slice) -> bytes:
        ...

    def find(self, __wanted: bytes, __start: int = ..., __end: int = ...) -> int:
        ...

    def rfind(self, __wanted: bytes, __start: int = ..., __end: int = ...) -> int:
        ...


class Fault(Exception):
    """A text is refused: the name of the fault, the line, which word of the line it is (None for the end), and what else is known."""

    def __init__(self, name: str, words: "Words", **known: Any) -> None:
        super().__init__(f"{name} in line {words.line}")
        self.name, self.line, self.text, self.start = name, words.line, words.text, words.start
        self.index = words.taken - 1 if words.taken else None
        self.known = known

    @property
    def column(self) -> Optional[int]:
        """Where the word begins in its line, counted from 1; None for the end."""
        return None if self.index is None else list(WORD.finditer(self.text))[self.index].start() + 1


def value(word: Optional[bytes]) -> Union[int, bytes, None]:
    """A number as such, and any other word as it is. A magnitude that is too big is one that is above GREATEST."""
    if word is None or not NUMBER.fullmatch(word):
        return word
    magnitude = int(word.lstrip(b"-").lstrip(b"0")[:25] or b"0")
    if word[:1] != b"-":
        return magnitude
    return -magnitude or word  # a minus before zero is no number


def are_whole(block: bytes, lines: int, comment_bytes: bytes, zeros: int) -> bool:
    """Whether each of so many lines of a block that is known to be right has so many zeros and one at its end; with single blanks and zeros."""
    if block.count(b" 0\n") != lines or any(byte in block for byte in comment_bytes + b"\t\rr"):  # r begins the result
        return False
    words = (b"\n" + block).translate(BLANKS, b"-")
    if words.count(b" 0") != (zeros + 1) * lines or b"  " in words:
        return False
    # The first of the two zeros of a step is in the line of the second one.
    return zeros == 0 or (block.count(b" 0 ") == lines and b"\n" not in b"".join(block.split(b" 0")[1::2]))


def read(path: str) -> Data:
    """The bytes of a file, of which only those are in memory that are looked at."""
    if not os.path.getsize(path):
        return b""
    with open(path, "rb") as file:
        return mmap.mmap(file.fileno(), 0, access=mmap.ACCESS_READ)


def pieces(data: Data, start: int, end: int) -> Iterator[tuple[int, bytes]]:
    """The bytes from one place to another, some at a time, with the place of each piece."""
    for place in range(start, end, BLOCK):
        yield place, data[place : min(place + BLOCK, end)]


BlockTest = Callable[[bytes, int], bool]  # whether the lines of a block are right, of which there are so many


class Words:
    """The words of a text one by one. Of the first `good` lines it is known that they are right, as far as they go."""

    def __init__(self, data: Data, comment_bytes: bytes, good: float) -> None:
        self.data = data
        self.comment_bytes = comment_bytes
        self.good = good
        self.line, self.start, self.text = 0, 0, b""  # the line that is read, where it starts, and its text
        self.words: list[bytes] = []  # of the line
        self.taken = 0  # how many of them are taken
        self.right_blocks: dict[tuple[BlockTest, int], int] = {}  # where blocks start of which the test says so: how many lines each has
        self.word_by_word = 0  # up to here the text is read word by word

    def again(self) -> "Words":
        """The same words once more, from here on: from the line before, if no word of this one is taken, so that it begins a block."""
        words = copy.copy(self)
        if self.words and not self.taken:
            words.line, words.start, words.text, words.words = self.line - 1, self.start - 1, b"\n", []
        return words

    def next_line(self) -> bytes:
        """Goes to the next line and returns its text, which is empty at the end."""
        if self.text.endswith(b"\n") or self.line == 0:
            self.line += 1
        self.start += len(self.text)
        end = self.data.find(b"\n", self.start) + 1
        self.text = self.data[self.start : end or len(self.data)]
        self.words, self.taken = [], 0
        return self.text

    def block(self, are_right: BlockTest) -> bytes:
        """The next lines, if they are known to be right, and are so as this function says of a block; else nothing."""
        if self.taken < len(self.words) or self.line >= self.good:
            return b""
        start = self.start + len(self.text)
        if start < self.word_by_word:
            return b""
        end = self.data.rfind(b"\n", start, start + BLOCK) + 1 or self.data.find(b"\n", start + BLOCK) + 1
        block = self.data[start:end]
        known = self.right_blocks.get((are_right, start))
        lines = count = block.count(b"\n") if known is None else known
        if self.line + lines > self.good:
            count = int(self.good) - self.line
            block = b"".join(line + b"\n" for line in block.split(b"\n")[:count])
        if not block or known is None and not are_right(block, count):
            self.word_by_word = end
            return b""
        self.right_blocks[are_right, start] = lines
        self.line += count
        self.text = block[block.rfind(b"\n", 0, -1) + 1 :]
        self.start = start + len(block) - len(self.text)
        self.words, self.taken = [], 0
        return block

    def split(self) -> None:
        words = WORD.findall(self.text)
        self.words = [] if words and words[0][0] in self.comment_bytes else words

    def whole_line(self, first: frozenset[int]) -> Optional[bytes]:
        """The next line without its line end, if it is known to be right and holds one whole list that begins with one of these bytes. Else
        None."""
        if self.taken < len(self.words) or self.line >= self.good:
            return None
        text = self.next_line()
        if text and text[0] in first and text.endswith(b" 0\n") and b" 0 " not in text and not any(part in text for part in UNUSUAL):
            return text[:-1]
        self.split()
        return None

    def next(self) -> Optional[bytes]:
        """The next word, None at the end."""
        while self.taken == len(self.words):
            if not self.next_line():
                return None
            self.split()
        self.taken += 1
        return self.words[self.taken - 1]

    def back(self) -> None:
        """Gives the last word back."""
        self.taken -= 1

    def header(self, word: bytes, greatest: int, wrong: str, ended: str) -> list[int]:
        """The two numbers of a header, with the names of its faults."""
        numbers = []
        for wanted in (b"p", word, None, None):
            found = value(self.next())
            if found is None:
                raise Fault(ended, self, inside="the header")
            if wanted is None and isinstance(found, int) and 0 <= found <= greatest:
                numbers.append(found)
            elif wanted is None or found != wanted:
                raise Fault(wrong, self, word=word.decode())
        return numbers

    def place(self) -> int:
        """Where the last word ends in the text."""
        return self.start + [found.end() for found in WORD.finditer(self.text)][self.taken - 1]
