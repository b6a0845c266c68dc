"""Reads formulas. A part of tools/explain and the tools beside it.

All faults of docs/FORMATS.md are found, in the lines that are not known to be right.
"""

from collections.abc import Collection, Iterator, Set
from functools import cached_property
from operator import neg
from typing import NamedTuple, Optional

from qrptools.listed import Listed
from qrptools.words import ALL, BLANKS, GREATEST, GREATEST_VARIABLE, Data, Fault, Words, are_whole, value

SET_BYTES = frozenset(b"ae")
COMMENT_BYTES = b"c"
EXISTS, FOR_ALL = "exists", "for all"
QUANTIFIERS = {b"e": EXISTS, b"a": FOR_ALL}
ADJECTIVES = {EXISTS: "existential", FOR_ALL: "universal"}


class Place(NamedTuple):
    """Where a variable is bound. Blocks are counted from 1, the outermost."""

    quantifier: str
    block: int
    line: int


UNBOUND = Place("", 0, 0)
FEW = 32  # variables that are looked for, and sets that they are looked for in: to take all sets apart takes as long as to look for a hundred


class Clause(NamedTuple):
    """A clause: its number and its line, its literals, and whether it has no variable with both signs."""

    number: int
    line: int
    literals: frozenset[int]
    clean: bool


def is_clean(literals: Set[int]) -> bool:
    """Whether no literal of the set has its negation in it."""
    return literals.isdisjoint(map(neg, literals))


def holds(text: bytes, word: bytes) -> bool:
    """Whether a text with single blanks between its words has this one."""
    return b" %b " % word in text or text.startswith(word + b" ") or text.endswith(b" " + word) or text == word


def clause_of(number: int, line: int, text: bytes) -> Clause:
    """A clause, of the text of its literals."""
    literals = frozenset(map(int, text.split()))
    return Clause(number, line, literals, is_clean(literals))


def are_clauses(block: bytes, lines: int) -> bool:
    """Whether each line of a block is a clause, with single blanks and without leading zeros."""
    return are_whole(block, lines, COMMENT_BYTES, 0)


class Formula:
    """A formula, of the bytes of its text: its header and its prefix are read at once, and its clauses each time that they are asked for."""

    def __init__(self, data: Data, good: float = ALL) -> None:
        self.data = data
        words = Words(data, COMMENT_BYTES, good)
        self.variables, self.count = words.header(b"cnf", GREATEST_VARIABLE, "F2", "F7")
        self.header_line, self.header_end = words.line, words.place()
        self.sets: list[tuple[Place, bytes]] = []  # those that are not empty: the place of each, and its variables as text
        self.placed: dict[int, Place] = {}  # the places of the variables
        self.sought: dict[int, Place] = {}  # those of the variables that were looked for alone
        self.has_zeros = False  # before the number of a variable
        self.unplaced = 0  # the first set of which they are not there
        self.block, self.last = 0, b""
        while self.read_set(words):
            pass
        self.words = words
        self.prefix_end = words.place() if words.taken else words.start

    def read_set(self, words: Words) -> bool:
        """Reads a quantifier set, if there is one."""
        text = words.whole_line(SET_BYTES)
        if text:
            self.bind(text[:1], text[2:-2], words.line)
            return True
        word = words.next()
        if word is None:
            return False
        if word not in QUANTIFIERS:
            words.back()
            return False
        begun = words.line
        while (number := value(words.next())) != 0:
            if number is None:
                raise Fault("F7", words, inside="a quantifier set", begun=begun)
            if not isinstance(number, int):
                raise Fault("F3", words, inside="a quantifier set", begun=begun)
            if not 0 < number <= self.variables:
                raise Fault("F4", words, number=number, variables=self.variables, header=self.header_line)
            if number in self.places:
                raise Fault("F5", words, number=number, place=self.places[number])
            self.bind(word, b"%d" % number, words.line)
        return True

    def bind(self, letter: bytes, variables: bytes, line: int) -> None:
        """Takes a set, with the text of its variables."""
        if variables:
            # Neighbouring sets of one quantifier are one block, and empty sets are none.
            self.block, self.last = self.block + (letter != self.last), letter
            self.sets.append((Place(QUANTIFIERS[letter], self.block, line), variables))
            self.has_zeros = self.has_zeros or variables[:1] == b"0" or b" 0" in variables

    @property
    def places(self) -> dict[int, Place]:
        """Where each bound variable is bound."""
        if self.unplaced < len(self.sets):
            for place, variables in self.sets[self.unplaced :]:
                self.placed.update(dict.fromkeys(map(int, variables.split()), place))
            self.unplaced = len(self.sets)
        return self.placed

    def place(self, literal: int) -> Place:
        """Where the variable of a literal is bound. The first few are looked for in the texts of the sets, which may be large."""
        variable = abs(literal)
        if self.unplaced == len(self.sets) or variable not in self.sought and not self.seek(variable):
            return self.places.get(variable, UNBOUND)
        return self.sought[variable]

    def places_of(self, literals: Collection[int]) -> dict[int, Place]:
        """Where the variable of each of these literals is bound."""
        if len(literals) <= FEW:
            return {literal: self.place(literal) for literal in literals}
        places = self.places
        return {literal: places.get(abs(literal), UNBOUND) for literal in literals}

    def seek(self, variable: int) -> bool:
        """Looks for the place of a variable, unless there are too many sets, too many were looked for, or a number has leading zeros."""
        if max(len(self.sets), len(self.sought) + 1) > FEW or self.has_zeros:
            return False
        self.sought[variable] = next((place for place, text in self.sets if holds(text, b"%d" % variable)), UNBOUND)
        return True

    def clauses(self) -> Iterator[Clause]:
        """Each clause in file order."""
        for number, line, texts in self.pieces():
            for place, text in enumerate(texts):
                yield clause_of(number + place, line + place, text)

    def pieces(self) -> Iterator[tuple[int, int, list[bytes]]]:
        """The clauses in file order, some at a time: number and line of the first, and the texts of their literals, on lines of their own."""
        for number, line, block in self.blocks():
            yield number, line, block.split(b" 0\n")[:-1]

    @cached_property
    def listed(self) -> Optional[Listed]:
        """The clauses by their lines, if the text is in memory and known to be right, and each line after the prefix is one of them."""
        words, data = self.words, self.data
        if not words.words or words.taken or words.good < ALL or not isinstance(data, bytes):
            return None
        found = Listed(data, words.start, self.count)
        return found if found.are_right() else None

    def texts(self) -> Iterator[tuple[int, int, list[bytes]]]:
        """As `pieces`, but the numbers may have zeros before them, and several blanks between them."""
        if not self.listed:
            yield from self.pieces()
            return
        before = 0
        for some in self.listed.pieces():
            yield 1 + before, self.words.line + before, some
            before += len(some)

    def clauses_with(self, literals: list[int]) -> Iterator[tuple[int, int, bytes]]:
        """The clauses that have one of these literals, in file order: number, line, and the text of the literals."""
        found = self.listed.clauses_with(literals) if self.listed else None
        if found is None:
            return self.blocks_with(literals)
        return ((1 + before, self.words.line + before, clause) for before, clause in found)

    def blocks_with(self, literals: list[int]) -> Iterator[tuple[int, int, bytes]]:
        """The same, by blocks."""
        wanted = [b" %d " % literal for literal in literals]
        for number, line, block in self.blocks():
            text, lines, counted, passed = (b" " + block).translate(BLANKS), set(), 0, 0
            for word in wanted:
                place = text.find(word)
                while place >= 0:
                    end = block.index(b"\n", place)
                    lines.add((block.rfind(b"\n", 0, place) + 1, end))
                    place = text.find(word, end + 1)
            for start, end in sorted(lines):
                counted, passed = counted + block.count(b"\n", passed, start), start
                yield number + counted, line + counted, block[start : end - 2]

    def blocks(self) -> Iterator[tuple[int, int, bytes]]:
        """The clauses in file order, some at a time: number and line of the first, and their text, each on a line that ends with ` 0`."""
        words, number = self.words.again(), 1
        while True:
            before = words.line
            block = words.block(are_clauses)
            if block:
                yield number, before + 1, block
                number += words.line - before
                continue
            word = words.next()
            if word is None and number > self.count:
                return
            self.refuse_start(words, word, number)
            words.back()
            line = words.line
            yield number, line, b" ".join(b"%d" % literal for literal in self.literals(words, number)) + b" 0\n"
            number += 1

    def refuse_start(self, words: Words, word: Optional[bytes], number: int) -> None:
        """The faults of a word between clauses, after number - 1 of them."""
        found = value(word)
        if found is None or isinstance(found, int) and number > self.count:
            raise Fault("F8", words, count=self.count, read=number - 1, header=self.header_line)
        if not isinstance(found, int):
            raise Fault("F3", words, inside="between clauses" if number > 1 else "before the first clause")
        if abs(found) > GREATEST:
            raise Fault("F4", words, number=found, variables=self.variables, header=self.header_line)

    def literals(self, words: Words, clause: int) -> list[int]:
        """The literals of a clause up to the 0 that closes it."""
        found: list[int] = []
        begun = 0
        while (literal := value(words.next())) != 0:
            begun = begun or words.line
            if literal is None:
                raise Fault("F7", words, inside=f"clause {clause}", begun=begun)
            if not isinstance(literal, int):
                raise Fault("F3", words, inside=f"clause {clause}", begun=begun)
            if abs(literal) > self.variables:
                raise Fault("F4", words, number=literal, variables=self.variables, header=self.header_line)
            if words.line > words.good and abs(literal) not in self.places:
                raise Fault("F6", words, number=abs(literal))
            found.append(literal)
        return found
