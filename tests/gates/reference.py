"""Reads formulas of gates as docs/FORMATS.md says, and makes their clauses. A part of tests/gates/test-gates, which shares nothing with the
program that it judges.

A text is `clauses(text)`: the formula in QDIMACS, or it raises `Refused` with the name of the fault and its line.
"""

import re
from typing import Any

TOKEN = re.compile(rb"[ \t\r]*(?:([A-Za-z0-9_]+)|([#(),=-])|([^ \t\r]))")
QUANTIFIERS = {b"exists": "e", b"forall": "a"}
INPUTS = {b"and": None, b"or": None, b"xor": 2, b"ite": 3}


class Refused(Exception):
    """A text is refused: the name of the fault, and its line."""


class Line:
    """The tokens of a line, which are taken from the left."""

    def __init__(self, text: bytes, number: int) -> None:
        self.tokens = [found.groups(b"") for found in TOKEN.finditer(text)]
        self.number, self.at = number, 0

    def refuse(self, fault: str) -> Refused:
        return Refused(fault, self.number)

    def gives(self, name: bytes) -> bool:
        """Whether it is the line of a gate of this name."""
        return self.tokens[:2] == [(name, b"", b""), (b"", b"=", b"")]

    def is_done(self) -> bool:
        return self.at == len(self.tokens)

    def take(self, mark: bytes) -> bool:
        """Takes this mark, if it is the next token."""
        if not self.is_done() and self.tokens[self.at][1] == mark:
            self.at += 1
            return True
        return False

    def need(self, mark: bytes) -> None:
        if not self.take(mark):
            raise self.refuse("Q3")

    def word(self) -> bytes:
        if self.is_done() or not self.tokens[self.at][0]:
            raise self.refuse("Q3")
        self.at += 1
        return self.tokens[self.at - 1][0]

    def close(self) -> None:
        self.need(b")")
        if not self.is_done():
            raise self.refuse("Q3")

    def signed(self) -> tuple[int, bytes]:
        sign = -1 if self.take(b"-") else 1
        return sign, self.word()


class Formula:
    """What the lines so far say: the blocks, the names with their numbers, the clauses, and the output, once it was read."""

    def __init__(self, lines: list[bytes]) -> None:
        self.lines = lines
        self.blocks: list[tuple[str, list[int]]] = []
        self.numbers: dict[bytes, int] = {}
        self.clauses: list[list[int]] = []
        self.output: tuple[int, bytes] | None = None

    def bind(self, letter: str, name: bytes, line: Line) -> int:
        if name in self.numbers:
            raise line.refuse("Q4")
        number = self.numbers[name] = len(self.numbers) + 1
        if self.blocks and self.blocks[-1][0] == letter:
            self.blocks[-1][1].append(number)
        else:
            self.blocks.append((letter, [number]))
        return number

    def literal(self, line: Line) -> int:
        sign, name = line.signed()
        if name not in self.numbers:
            is_later = any(Line(text, number).gives(name) for number, text in enumerate(self.lines, 1) if number >= line.number)
            raise line.refuse("Q5" if is_later else "Q12")
        return sign * self.numbers[name]

    def read_prefix(self, line: Line) -> None:
        word = line.word()
        line.need(b"(")
        if word in QUANTIFIERS:
            self.bind(QUANTIFIERS[word], line.word(), line)
            while line.take(b","):
                self.bind(QUANTIFIERS[word], line.word(), line)
            line.close()
        elif word == b"output":
            output = line.signed()
            line.close()
            self.output = output
        else:
            raise line.refuse("Q6" if word == b"free" else "Q3")

    def read_gate(self, line: Line) -> None:
        name = line.word()
        line.need(b"=")
        word = line.word()
        line.need(b"(")
        if word not in INPUTS:
            raise line.refuse("Q7" if word in QUANTIFIERS else "Q3")
        inputs: list[int] = []
        if not line.take(b")"):
            inputs.append(self.literal(line))
            while line.take(b","):
                inputs.append(self.literal(line))
            line.need(b")")
        if not line.is_done():
            raise line.refuse("Q3")
        if INPUTS[word] not in (None, len(inputs)):
            raise line.refuse("Q8")
        self.clauses += gate_clauses(word, self.bind("e", name, line), inputs)


def gate_clauses(word: bytes, g: int, inputs: list[int]) -> list[list[int]]:
    """The clauses of a gate g."""
    if word == b"and":
        return [[g, *(-one for one in inputs)], *([-g, one] for one in inputs)]
    if word == b"or":
        return [[-g, *inputs], *([g, -one] for one in inputs)]
    if word == b"xor":
        a, b = inputs
        return [[-g, a, b], [-g, -a, -b], [g, -a, b], [g, a, -b]]
    a, b, c = inputs
    return [[-g, -a, b], [-g, a, c], [g, -a, -b], [g, a, -c], [-g, b, c], [g, -b, -c]]


def clauses(text: bytes) -> bytes:
    """The clauses of a formula of gates, in QDIMACS."""
    lines = text.split(b"\n")
    if not re.fullmatch(rb"[ \t\r]*#[ \t\r]*QCIR[ \t\r]*-[ \t\r]*G?14(?:[ \t\r]+[0-9]+)?[ \t\r]*", lines[0]):
        raise Refused("Q2", 1)
    formula, line = Formula(lines), Line(b"", 1)
    for number, one in enumerate(lines[1:], 2):
        line = Line(one, number)
        if line.is_done() or line.take(b"#"):
            continue
        if formula.output is None:
            formula.read_prefix(line)
        else:
            formula.read_gate(line)
    if formula.output is None:
        raise Refused("Q9", len(lines))
    sign, name = formula.output
    if name not in formula.numbers:
        raise Refused("Q12", len(lines))
    rows: list[Any] = [[letter, *block] for letter, block in formula.blocks]
    rows += [*formula.clauses, [sign * formula.numbers[name]]]
    header = f"p cnf {len(formula.numbers)} {len(formula.clauses) + 1}\n"
    return (header + "".join(" ".join(map(str, [*row, 0])) + "\n" for row in rows)).encode()
