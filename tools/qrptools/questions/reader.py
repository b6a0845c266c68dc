"""Reads formulas of gates in QCIR-14, prenex and closed (Jordan, Klieber, Seidl 2016), as docs/FORMATS.md has them. A part of the tools that take
one where they take a formula.

Variables and gates are numbered from 1 in the order in which the text gives their names, as `qrp_gates clauses` numbers them. All faults of
docs/FORMATS.md are found. Nothing here is proved: a verdict comes from qrp_gates alone.
"""

import re
from typing import NamedTuple, Optional

from qrptools.formula import EXISTS, FOR_ALL, Place
from qrptools.words import GREATEST_VARIABLE

HEADER = re.compile(rb"[ \t\r]*#[ \t\r]*QCIR[ \t\r]*-[ \t\r]*G?14[ \t\r]*(?:(?<=[ \t\r])[0-9]+[ \t\r]*)?")
BEGINNING = re.compile(rb"[ \t\r]*#[ \t\r]*QCIR[ \t\r]*-")  # of what is meant to be such a formula
TOKEN = re.compile(rb"[A-Za-z0-9_]+|[^ \t\r]")
WORD = re.compile(rb"[A-Za-z0-9_]+")
LITERAL = rb"[ \t\r]*-?[ \t\r]*[A-Za-z0-9_]+[ \t\r]*"
GATE = re.compile(rb"[ \t\r]*([A-Za-z0-9_]+)[ \t\r]*=[ \t\r]*(and|or|xor|ite)[ \t\r]*\((%b(?:,%b)*|[ \t\r]*)\)[ \t\r]*" % (LITERAL, LITERAL))
GIVEN = re.compile(rb"[ \t\r]*([A-Za-z0-9_]+)[ \t\r]*=")  # the name of a gate
QUANTIFIERS = {b"exists": EXISTS, b"forall": FOR_ALL}
SIZES = {b"and": None, b"or": None, b"xor": 2, b"ite": 3}  # how many inputs a gate of each kind has; None if it may have any number
SETS = "exists(..) or forall(..)"


class QuestionFault(Exception):
    """A formula of gates is refused: the name of the fault, its line with its text, which byte of it, None if it is the whole line, and why."""

    def __init__(self, name: str, line: int, text: bytes, place: Optional[int], why: str) -> None:
        super().__init__(f"{name} in line {line}")
        self.name, self.line, self.text, self.place, self.why = name, line, text, place, why


class Gate(NamedTuple):
    """A gate: its kind, its inputs as literals, and its line."""

    kind: str
    inputs: list[int]
    line: int


class Question:
    """A formula of gates: the names of its variables and gates by their numbers, where the variables are bound, the gates by their numbers in
    their order, and the literal of the output with its line."""

    def __init__(self) -> None:
        self.names: list[str] = [""]
        self.places: dict[int, Place] = {}
        self.gates: dict[int, Gate] = {}
        self.output, self.output_line = 0, 0

    def blocks(self) -> list[tuple[str, list[int]]]:
        """The blocks from the outermost on: each a quantifier and variables."""
        found: dict[int, tuple[str, list[int]]] = {}
        for variable, place in self.places.items():
            found.setdefault(place.block, (place.quantifier, []))[1].append(variable)
        return list(found.values())


class Line:
    """The tokens of a line, which are taken from the left."""

    def __init__(self, text: bytes, number: int) -> None:
        self.text, self.number = text, number
        self.tokens = [(found[0], found.start()) for found in TOKEN.finditer(text)]
        self.at = 0

    def refuse(self, name: str, why: str, back: int = 0) -> QuestionFault:
        """A fault of the next token, or of one that was taken before it."""
        place = self.tokens[self.at - back][1] if self.at - back < len(self.tokens) else None
        return QuestionFault(name, self.number, self.text, place, why)

    def is_done(self) -> bool:
        return self.at == len(self.tokens)

    def take(self, mark: bytes) -> bool:
        """Takes the next token, if it is this mark."""
        if self.is_done() or self.tokens[self.at][0] != mark:
            return False
        self.at += 1
        return True

    def need(self, mark: bytes) -> None:
        if not self.take(mark):
            raise self.refuse("Q3", f"'{mark.decode()}' is wanted")

    def word(self, what: str) -> bytes:
        if self.is_done() or not WORD.fullmatch(self.tokens[self.at][0]):
            raise self.refuse("Q3", f"{what} is wanted")
        self.at += 1
        return self.tokens[self.at - 1][0]

    def close(self) -> None:
        self.need(b")")
        if not self.is_done():
            raise self.refuse("Q3", "the line has to end here")


class Reader:
    """Reads a text of these bytes."""

    def __init__(self, data: bytes) -> None:
        self.data = data
        self.question = Question()
        self.numbers: dict[bytes, int] = {}
        self.output: Optional[tuple[bool, bytes]] = None
        self.block, self.last = 0, ""

    def read(self) -> Question:
        lines = self.data.split(b"\n")
        if not HEADER.fullmatch(lines[0]):
            raise QuestionFault("Q2", 1, lines[0], None, "the first line has to be '#QCIR-14', or '#QCIR-G14', with a number or without")
        for number, text in enumerate(lines[1:], 2):
            if self.output is not None and self.take_gate(text, number):
                continue
            line = Line(text, number)
            if line.is_done() or line.take(b"#"):
                continue
            if self.output is None:
                self.read_prefix(line)
            else:
                self.read_gate(line)
        return self.finished(len(lines), lines[-1])

    def finished(self, last: int, text: bytes) -> Question:
        """The formula, after its last line."""
        if self.output is None:
            raise QuestionFault("Q9", last, text, None, "the text ends, and no line 'output(..)' was there")
        is_negative, name = self.output
        if name not in self.numbers:
            raise QuestionFault("Q12", last, text, None, f"the text ends, and no line gives the output '{name.decode()}'")
        self.question.output = -self.numbers[name] if is_negative else self.numbers[name]
        return self.question

    def give(self, name: bytes, line: Line, back: int) -> int:
        """The number of a new name, which was taken before."""
        if name in self.numbers:
            raise line.refuse("Q4", f"the name '{name.decode()}' is given already", back)
        if len(self.numbers) == GREATEST_VARIABLE:
            raise line.refuse("Q10", f"there are more than {GREATEST_VARIABLE} names", back)
        self.numbers[name] = len(self.numbers) + 1
        self.question.names.append(name.decode())
        return len(self.numbers)

    def read_prefix(self, line: Line) -> None:
        """Reads a set, or the output."""
        wanted = f"{SETS}, or output(..)"
        word = line.word(wanted)
        line.need(b"(")
        if word in QUANTIFIERS:
            self.read_set(line, QUANTIFIERS[word])
        elif word == b"output":
            is_negative, name = line.take(b"-"), line.word("the name of the output")
            line.close()
            self.output, self.question.output_line = (is_negative, name), line.number
        elif word == b"free":
            raise line.refuse("Q6", "free variables: a closed formula has none", 2)
        else:
            raise line.refuse("Q3", f"{wanted} is wanted", 2)

    def read_set(self, line: Line, quantifier: str) -> None:
        is_next = True
        while is_next:
            name = line.word("the name of a variable")
            if quantifier != self.last:
                self.block, self.last = self.block + 1, quantifier
            self.question.places[self.give(name, line, 1)] = Place(quantifier, self.block, line.number)
            is_next = line.take(b",")
        line.close()

    def read_gate(self, line: Line) -> None:
        name = line.word("a gate, as 'name = and(..)',")
        line.need(b"=")
        word = line.word("and, or, xor or ite")
        line.need(b"(")
        if word in QUANTIFIERS:
            raise line.refuse("Q7", "a gate with a quantifier: the formula has to be prenex", 2)
        if word not in SIZES:
            raise line.refuse("Q3", "and, or, xor or ite is wanted", 2)
        inputs = self.inputs(line)
        size = SIZES[word]
        if size is not None and len(inputs) != size:
            raise QuestionFault("Q8", line.number, line.text, line.tokens[2][1], f"{word.decode()} has {size} inputs, and here it has {len(inputs)}")
        line.at = 1
        self.question.gates[self.give(name, line, 1)] = Gate(word.decode(), inputs, line.number)

    def take_gate(self, text: bytes, number: int) -> bool:
        """Takes the gate of a line at once, if there is one and nothing is wrong with it."""
        found = GATE.fullmatch(text)
        if not found or found[1] in self.numbers or len(self.numbers) == GREATEST_VARIABLE:
            return False
        words = found[3].translate(None, b" \t\r").split(b",")
        known, inputs = self.numbers.get, []
        for word in words if words != [b""] else []:
            literal = -known(word[1:], 0) if word[:1] == b"-" else known(word, 0)
            if not literal:
                return False
            inputs.append(literal)
        if SIZES[found[2]] not in (None, len(inputs)):
            return False
        self.numbers[found[1]] = variable = len(self.numbers) + 1
        self.question.names.append(found[1].decode())
        self.question.gates[variable] = Gate(found[2].decode(), inputs, number)
        return True

    def inputs(self, line: Line) -> list[int]:
        """The inputs of a gate, up to the end of the line."""
        found: list[int] = []
        is_next = not line.take(b")")
        if not is_next and not line.is_done():
            raise line.refuse("Q3", "the line has to end here")
        while is_next:
            is_negative, name = line.take(b"-"), line.word("a name, or a name after a minus,")
            if name not in self.numbers:
                raise self.missing(name, line)
            found.append(-self.numbers[name] if is_negative else self.numbers[name])
            is_next = line.take(b",")
            if not is_next:
                line.close()
        return found

    def missing(self, name: bytes, line: Line) -> QuestionFault:
        """The fault of an input that was taken last, and that no line before gives."""
        for number, text in enumerate(self.data.split(b"\n")[line.number - 1 :], line.number):
            given = GIVEN.match(text)
            if given and given[1] == name:
                return line.refuse("Q5", f"no line before gives the name '{name.decode()}', but line {number} does", 1)
        return line.refuse("Q12", f"no line gives the name '{name.decode()}'", 1)


def is_question(data: bytes) -> bool:
    """Whether the bytes begin as a formula of gates does."""
    return bool(BEGINNING.match(data))


def read_question(data: bytes) -> Question:
    """The formula of gates of some bytes. QuestionFault is raised at the first line that is not allowed."""
    return Reader(data).read()
