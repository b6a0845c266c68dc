"""Reads circuits in AIGER, ASCII and binary (Biere 2007; version 1.9: Biere, Heljanko, Wieringa 2011). A part of tools/from-aiger and
tools/explain-strategy.

A literal is an even number for a variable and the next odd one for its negation; 0 is false and 1 is true.
"""

import re
from collections.abc import Sequence
from functools import cached_property
from itertools import repeat
from operator import gt
from typing import NamedTuple, Optional

from qrptools.command import Ends, counted, finding

HEADER = re.compile(rb"(aag|aig)((?: [0-9]{1,20}){5,9})")
KINDS = {"i": "input", "l": "latch", "o": "output", "b": "bad state", "c": "constraint", "j": "justice property", "f": "fairness constraint"}
GREATEST = 2**30  # variables of a circuit
DIGITS = 10  # of a number


class Latch(NamedTuple):
    """A latch: its literal, that of its next value, and its value at the beginning: 0, 1, or its own literal if that is any."""

    literal: int
    next: int
    reset: int


class Circuit:
    """A circuit: the literals of its inputs and so on in their order, the two inputs of each gate by its literal, and the names of the
    user by kind and place."""

    def __init__(self) -> None:
        self.inputs: list[int] = []
        self.latches: list[Latch] = []
        self.outputs: list[int] = []
        self.bads: list[int] = []
        self.constraints: list[int] = []
        self.gates: dict[int, tuple[int, int]] = {}
        self.names: dict[tuple[str, int], str] = {}
        self.passed_over: list[str] = []  # what else there is, which is about infinite runs

    def name(self, kind: str, place: int) -> str:
        """The name of an input, a latch or the like; without a symbol it is the kind and the place, as i0."""
        return self.names.get((kind, place), f"{kind}{place}")

    def order(self, roots: list[int]) -> Optional[list[int]]:
        """The gates that these literals depend on, each after its inputs; None if a gate depends on itself."""
        found: list[int] = []
        state: dict[int, str] = {}
        stack = [root & ~1 for root in reversed(roots)]
        while stack:
            gate = stack[-1]
            if gate not in self.gates or state.get(gate) == "done":
                stack.pop()
            elif state.get(gate) == "begun":
                state[gate] = "done"
                found.append(stack.pop())
            else:
                state[gate] = "begun"
                below = [literal & ~1 for literal in self.gates[gate]]
                if any(state.get(other) == "begun" for other in below):
                    return None
                stack += below
        return found

    @cached_property
    def is_ordered(self) -> bool:
        """Whether each gate has a greater literal than its inputs, and than the gate before it."""
        own = list(self.gates)
        return all(gate > one and gate > other for gate, (one, other) in self.gates.items()) and all(map(gt, own[1:], own))

    def needed(self, roots: list[int]) -> list[int]:
        """The gates that these literals depend on in their order, each of which comes after its inputs."""
        marks = {root & ~1 for root in roots}
        for gate, (one, other) in reversed(self.gates.items()):
            if gate in marks:
                marks.add(one & ~1)
                marks.add(other & ~1)
        return [gate for gate in self.gates if gate in marks]


class Reader:
    """Reads a file of this name, of these bytes. Each fault ends the command with a line that says where it is."""

    def __init__(self, path: str, data: bytes) -> None:
        self.path, self.data, self.place, self.line = path, data, 0, 0
        self.circuit = Circuit()
        self.defined: dict[int, str] = {}
        self.is_binary, self.greatest = False, 0
        self.counts: dict[str, int] = {}

    def refuse(self, what: str) -> Ends:
        where = f"line {self.line}" if self.line else f"byte {self.place}"
        return finding(f"{self.path}, {where}: {what}")

    def text(self) -> Optional[bytes]:
        """The next line, None at the end."""
        if self.place >= len(self.data):
            return None
        end = self.data.find(b"\n", self.place)
        end = len(self.data) if end < 0 else end
        line, self.place, self.line = self.data[self.place : end], end + 1, self.line + 1
        return line.rstrip(b"\r")

    def numbers(self, what: str, least: int, most: int) -> list[int]:
        """The numbers of the next line, of which there are so many."""
        line = self.text()
        if line is None:
            raise self.refuse(f"the file ends before {what}")
        words = line.split(b" ")
        if not least <= len(words) <= most or not all(word.isdigit() and len(word) <= DIGITS for word in words):
            wanted = f"{least} to {most} numbers" if least < most else counted(least, "number")
            raise self.refuse(f"{what} is wanted, {wanted}")
        return list(map(int, words))

    def literal(self, what: str) -> int:
        return self.used(*self.numbers(what, 1, 1))

    def used(self, literal: int) -> int:
        """A literal that is in range."""
        if literal > 2 * self.greatest + 1:
            raise self.refuse(f"the literal {literal} is above {2 * self.greatest + 1}, the greatest by the header")
        return literal

    def define(self, literal: int, what: str) -> int:
        """A literal that gets its meaning here."""
        if self.used(literal) < 2 or literal % 2:
            raise self.refuse(f"{what} has the literal {literal}, which is not an even number above 0")
        if literal in self.defined:
            raise self.refuse(f"the literal {literal} is defined twice, as {self.defined[literal]} and as {what}")
        self.defined[literal] = what
        return literal

    def read(self) -> Circuit:
        """The circuit, after its header."""
        circuit = self.circuit
        circuit.inputs = [self.define(self.input_literal(place), f"input {place}") for place in range(self.counts["I"])]
        circuit.latches = [self.latch(place) for place in range(self.counts["L"])]
        for letter, literals, what in (("O", circuit.outputs, "output"), ("B", circuit.bads, "bad state"), ("C", circuit.constraints, "constraint")):
            literals += [self.literal(f"{what} {place}") for place in range(self.counts[letter])]
        self.pass_over()
        self.read_gates()
        self.read_symbols()
        self.refuse_undefined()
        return circuit

    def read_header(self) -> None:
        found = HEADER.fullmatch(self.text() or b"")
        if not found:
            raise self.refuse("the file is no circuit in AIGER, which begins with aag or aig and five to nine numbers")
        self.is_binary = found[1] == b"aig"
        numbers = list(map(int, found[2].split()))
        self.greatest, *rest = numbers
        self.counts = dict(zip("ILOABCJF", [*rest, 0, 0, 0, 0]))
        if self.greatest > GREATEST or max(rest) > GREATEST:
            raise self.refuse(f"the header has a number above {GREATEST}")
        if (self.counts["J"] or self.counts["F"]) and not self.counts["O"] and not self.counts["B"]:
            raise self.refuse("the circuit has justice or fairness properties, which are about infinite runs: no number of steps decides them")
        least = self.counts["I"] + self.counts["L"] + self.counts["A"]
        if self.greatest < least or self.is_binary and self.greatest != least:
            raise self.refuse(f"the header says {self.greatest} variables, and the inputs, latches and gates are {least}")

    def input_literal(self, place: int) -> int:
        return 2 * (place + 1) if self.is_binary else self.literal(f"input {place}")

    def latch(self, place: int) -> Latch:
        what = f"latch {place}"
        if self.is_binary:
            literal, (following, *reset) = 2 * (self.counts["I"] + place + 1), self.numbers(what, 1, 2)
        else:
            literal, following, *reset = self.numbers(what, 2, 3)
        self.define(literal, what)
        if reset and reset[0] not in (0, 1, literal):
            raise self.refuse(f"{what} begins with {reset[0]}, which is not 0, 1 or its literal {literal}")
        return Latch(literal, self.used(following), reset[0] if reset else 0)

    def pass_over(self) -> None:
        """Reads the justice properties, each of so many literals, and the fairness constraints. Nothing that is about steps needs them."""
        sizes = [self.numbers(f"the size of justice property {place}", 1, 1)[0] for place in range(self.counts["J"])]
        for letter, kind, counts in ("J", "j", sizes), ("F", "f", [1] * self.counts["F"]):
            for place, count in enumerate(counts):
                for _ in range(count):
                    self.literal(f"{KINDS[kind]} {place}")
            if self.counts[letter]:
                self.circuit.passed_over.append(counted(self.counts[letter], KINDS[kind]).replace("propertys", "properties"))

    def read_gates(self) -> None:
        """Reads the gates, all at once if nothing is wrong with them, else one by one up to the fault."""
        begun = self.place, self.line
        if self.are_taken(self.binary_gates() if self.is_binary else self.ascii_gates()):
            return
        self.place, self.line = begun
        for place in range(self.counts["A"]):
            what = f"gate {place}"
            if self.is_binary:
                literal = self.define(self.first_gate() + 2 * place, what)
                one = literal - self.difference(what)
                other = one - self.difference(what)
                if not 0 <= other <= one < literal:
                    raise self.refuse(f"{what} has an input that comes after it")
            else:
                literal, one, other = self.numbers(what, 3, 3)
                self.define(literal, what)
            self.circuit.gates[literal] = (self.used(one), self.used(other))

    def first_gate(self) -> int:
        """The literal of the first gate in the binary form."""
        return 2 * (self.counts["I"] + self.counts["L"] + 1)

    def are_taken(self, columns: "Optional[tuple[Sequence[int], list[int], list[int]]]") -> bool:
        """Takes the gates, of the columns of their literals and inputs, unless something is wrong with them."""
        if columns is None:
            return False
        own, ones, others = columns
        gates = dict(zip(own, zip(ones, others)))
        if not gates:
            return True
        most = max(max(own), max(ones), max(others))
        is_right = most <= 2 * self.greatest + 1 and min(own) > 1 and not any(map((1).__and__, own))
        if not is_right or len(gates) < len(own) or not self.defined.keys().isdisjoint(gates):
            return False
        self.circuit.gates = gates
        return True

    def ascii_gates(self) -> "Optional[tuple[Sequence[int], list[int], list[int]]]":
        """The columns of the gates in the ASCII form; None if a line has not three numbers with single blanks."""
        count, end = self.counts["A"], self.place
        lines = self.data[end:].split(b"\n", count)[:count]
        text = b" ".join(lines)
        words = text.decode(errors="replace").split(" ")
        if len(lines) < count or set(map(bytes.count, lines, repeat(b" "))) - {2} or text.translate(None, b"0123456789 ") or "" in words:
            return None
        if max(map(len, lines), default=0) > 3 * DIGITS + 2:
            return None
        numbers = list(map(int, words))
        self.place, self.line = end + len(text) + 1, self.line + count
        return numbers[0::3], numbers[1::3], numbers[2::3]

    def binary_gates(self) -> "Optional[tuple[Sequence[int], list[int], list[int]]]":
        """The columns of the gates in the binary form; None if the inputs of a gate are not in order, or the file ends before them."""
        own = range(self.first_gate(), self.first_gate() + 2 * self.counts["A"], 2)
        data, at, ones, others = self.data, self.place, [], []
        if len(data) - at < 2 * len(own):
            return None
        try:
            for literal in own:
                below = data[at]
                at += 1
                if below > 127:
                    below, at = longer(data, below, at)
                one = literal - below
                below = data[at]
                at += 1
                if below > 127:
                    below, at = longer(data, below, at)
                ones.append(one)
                others.append(one - below)
        except IndexError:
            return None
        if not all(map(gt, own, ones)) or min(others, default=0) < 0:
            return None
        self.place, self.line = at, 0
        return own, ones, others

    def difference(self, what: str) -> int:
        """A number of the binary form: seven bits in each byte, the lowest first, and a high bit in all but the last one."""
        number = shift = 0
        self.line = 0
        while self.place < len(self.data) and shift < 35:
            byte = self.data[self.place]
            self.place += 1
            number |= (byte & 127) << shift
            shift += 7
            if byte < 128:
                return number
        raise self.refuse(f"the file ends before {what}" if self.place >= len(self.data) else f"{what} has a number that is too long")

    def read_symbols(self) -> None:
        line = self.text()
        while line is not None and line != b"c":
            found = re.fullmatch(rb"([ilobcjf])([0-9]{1,10}) (.+)", line)
            if not found and line:
                raise self.refuse("a symbol is wanted, such as 'i0 NAME', or the line 'c' before comments")
            if found:
                kind, place = found[1].decode(), int(found[2])
                if place >= self.counts[kind.upper()]:
                    raise self.refuse(f"there is no {KINDS[kind]} {place}")
                if (kind, place) in self.circuit.names:
                    raise self.refuse(f"{KINDS[kind]} {place} has two symbols")
                name = found[3].decode(errors="surrogateescape").strip()
                if name:  # one of blanks says nothing
                    self.circuit.names[kind, place] = name
            line = self.text()

    def refuse_undefined(self) -> None:
        """Ends the command if a literal is used that has no meaning, or if a gate depends on itself."""
        circuit, self.line = self.circuit, 0
        used = [*circuit.outputs, *circuit.bads, *circuit.constraints, *(latch.next for latch in circuit.latches)]
        own = set(self.defined)
        if len(own | circuit.gates.keys()) < self.greatest:
            for literal in (*used, *(literal for inputs in circuit.gates.values() for literal in inputs)):
                if literal > 1 and literal & ~1 not in own and literal & ~1 not in circuit.gates:
                    raise finding(f"{self.path}: the literal {literal} is used, and neither an input nor a latch nor a gate")
        if not circuit.is_ordered and circuit.order([*used, *circuit.gates]) is None:
            raise finding(f"{self.path}: a gate depends on itself")


def longer(data: bytes, byte: int, at: int) -> tuple[int, int]:
    """A number of the binary form of two bytes or more, after its first byte, which stands before this place; and the place after it."""
    number, shift = byte & 127, 7
    while byte > 127:
        if shift >= 5 * 7:
            raise IndexError
        byte = data[at]
        at += 1
        number |= (byte & 127) << shift
        shift += 7
    return number, at


def read_circuit(path: str, data: bytes) -> Circuit:
    reader = Reader(path, data)
    reader.read_header()
    return reader.read()
