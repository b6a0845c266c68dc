"""Reads traces, and finds the steps that a proof needs. A part of tools/explain and the tools beside it.

All faults of docs/FORMATS.md are found, in the lines that are not known to be right. A trace may be large: its steps are kept as their
lines of text, and taken apart when they are looked at.
"""

import json
import re
from collections.abc import Iterable, Iterator
from typing import NamedTuple, Optional

from qrptools.formula import QUANTIFIERS, SET_BYTES
from qrptools.words import ALL, BLOCK, GREATEST, GREATEST_VARIABLE, Data, Fault, Words, are_whole, value

HEAD = re.compile(rb"\n(\d+)")
COMMENT_BYTES = b"c#"
ODD_PARTS = (b"c", b"#", b"r", b"\t", b"\r", b"\n0")  # what makes the zeros of a block hard to count: comments, the result, other blanks
COMMAS = bytes.maketrans(b" \n", b",,")


class SetVariable(NamedTuple):
    """A variable that a quantifier set of the trace names."""

    variable: int
    quantifier: str
    line: int


class Found(NamedTuple):
    """A step with those that it names: the literals of earlier ones and the lines of later ones, by their numbers."""

    step: "Step"
    before: dict[int, list[int]]
    later: dict[int, int]


def are_steps(block: bytes, lines: int) -> bool:
    """Whether each line of a block is a step, with single blanks and without leading zeros."""
    return are_whole(block, lines, COMMENT_BYTES, 1)


def words_of(block: bytes) -> list[bytes]:
    """The words of some lines without those of comments."""
    lines = map(bytes.split, block.split(b"\n"))
    return [word for line in lines if line and line[0][0] not in COMMENT_BYTES for word in line]


def lists_of(block: bytes) -> tuple[list[bytes], list[bytes]]:
    """The lists of the steps of such a block: the number and the literals of each after a line end, and its antecedents each after a blank."""
    lists = (b"\n" + block).split(b" 0")
    return lists[:-1:2], lists[1::2]


def integers(text: bytes) -> list[int]:
    """The numbers of a text that has a blank or a line end between them."""
    found: list[int] = json.loads(b"[%b]" % text.strip().translate(COMMAS))
    return found


def numbers_of(heads: list[bytes]) -> Iterator[int]:
    """The numbers of steps, from their first lists."""
    return map(int, HEAD.findall(b"".join(heads)))


class Step(NamedTuple):
    """A step: its line in the trace, and its text as one line with single zeros, without the line end."""

    line: int
    text: bytes

    @property
    def number(self) -> int:
        return int(self.text[: self.text.index(b" ")])

    @property
    def literals(self) -> list[int]:
        return list(map(int, self.text[: self.text.index(b" 0 ")].split()[1:]))

    @property
    def antecedents(self) -> list[int]:
        return list(map(int, self.text[self.text.index(b" 0 ") + 3 : -1].split()))


class Trace:
    """A trace, of the bytes of its text: its header and its sets are read at once, and its steps each time that they are asked for. `result`
    is empty until the last step was asked for."""

    def __init__(self, data: Data, good: float = ALL) -> None:
        self.data, self.result = data, ""
        words = Words(data, COMMENT_BYTES, good)
        words.header(b"qrp", GREATEST, "P2", "P7")
        self.sets: list[SetVariable] = []
        while self.read_set(words):
            pass
        self.words = words

    def read_set(self, words: Words) -> bool:
        """Reads a quantifier set, if there is one."""
        text = words.whole_line(SET_BYTES)
        if text:
            self.sets += [SetVariable(variable, QUANTIFIERS[text[:1]], words.line) for variable in map(int, text[1:-1].split())]
            return True
        word = words.next()
        if word is None:
            return False
        if word not in QUANTIFIERS:
            words.back()
            return False
        for variable, line in numbers(words, "a quantifier set", 1, GREATEST_VARIABLE):
            self.sets.append(SetVariable(variable, QUANTIFIERS[word], line))
        return True

    def steps(self) -> Iterator[Step]:
        """Each step in file order. After the last one the result is known."""
        for line, texts in self.pieces():
            for place, text in enumerate(texts):
                yield Step(line + place, text)

    def with_numbers(self, numbers: Iterable[int], last: float = ALL) -> Iterator[Step]:
        """The steps with one of these numbers, in file order, up to this line."""
        starts = tuple(b"%d " % number for number in numbers)
        for line, block in self.blocks(last):
            if block.startswith(starts) or any(b"\n" + start in block for start in starts):
                yield from (Step(line + place, text) for place, text in enumerate(block.split(b"\n")) if text.startswith(starts))

    def pieces(self) -> Iterator[tuple[int, list[bytes]]]:
        """The steps in file order, some at a time: the line of the first, and the text of each, on lines of their own."""
        for line, block in self.blocks():
            yield line, block.split(b"\n")[:-1]

    def blocks(self, last: float = ALL) -> Iterator[tuple[int, bytes]]:
        """The same up to this line, as one text: each step on a line, with single blanks and zeros."""
        words = self.words.again()
        seen: dict[int, int] = {}
        while words.line < last or words.taken < len(words.words):
            before = words.line
            block = words.block(are_steps)
            if block:
                yield before + 1, block
                continue
            word, line = words.next(), words.line
            if line > last:
                return
            if word == b"r":
                self.read_result(words)
                return
            yield line, self.read_step(words, word, seen) + b"\n"

    def count_steps(self) -> int:
        """How many steps there are, in a text that is right: 0 closes two lists of each."""
        words, place, zeros = self.words.words[self.words.taken :], self.words.start + len(self.words.text), 0
        while b"r" not in words:
            zeros += sum(not word.strip(b"0") for word in words)
            block = self.data[place : self.data.find(b"\n", place + BLOCK) + 1 or len(self.data)]
            place += len(block)
            count = block.count(b" 0")
            if count != block.count(b" 0 ") + block.count(b" 0\n") or block[:1] == b"0" or any(part in block for part in ODD_PARTS):
                words = words_of(block)
            else:
                words, zeros = [], zeros + count
        return (zeros + sum(not word.strip(b"0") for word in words[: words.index(b"r")])) // 2

    def read_result(self, words: Words) -> None:
        word = words.next()
        if word is None:
            raise Fault("P7", words, inside="the result")
        self.result = word.lower().decode(errors="replace")
        if self.result not in ("sat", "unsat"):
            raise Fault("P8", words)

    def read_step(self, words: Words, word: Optional[bytes], seen: dict[int, int]) -> bytes:
        """Reads the step that begins with this word; `seen` has the lines of those that were read so."""
        number, line = value(word), words.line
        if number is None:
            raise Fault("P7", words, inside="between steps")
        if not isinstance(number, int):
            raise Fault("P3", words, inside="between steps")
        if not 0 < number <= GREATEST:
            raise Fault("P4", words, number=number, greatest=GREATEST, inside="the number of a step")
        if line > words.good:
            earlier = seen.get(number) or next((step.line for step in self.with_numbers([number], words.good)), None)
            if earlier:
                raise Fault("P5", words, number=number, earlier=earlier)
            seen[number] = line
        literals = [literal for literal, _ in numbers(words, f"the literals of step {number}", -GREATEST_VARIABLE, GREATEST_VARIABLE)]
        antecedents = [other for other, _ in numbers(words, f"the antecedents of step {number}", 1, GREATEST, most=2)]
        return b" ".join(b"%d" % n for n in [number, *literals, 0, *antecedents, 0])


def numbers(words: Words, inside: str, least: int, greatest: int, most: Optional[int] = None) -> Iterator[tuple[int, int]]:
    """The numbers of a list up to the 0 that closes it, with their lines."""
    begun, read = words.line, 0
    while (number := value(words.next())) != 0:
        if number is None:
            raise Fault("P7", words, inside=inside, begun=begun)
        if not isinstance(number, int):
            raise Fault("P3", words, inside=inside)
        if read == most:
            raise Fault("P6", words, inside=inside)
        if not least <= number <= greatest:
            raise Fault("P4", words, number=number, greatest=greatest, inside=inside)
        read += 1
        yield number, words.line
