"""Reads circuits in AIGER (1.9, ASCII and binary) and judges them as strategies, by nothing of the programs that write them.

A circuit is a strategy of the winner: it names each variable of the opponent once as an input and each of the winner once as an output, no
output's cone has an input of its own or a later block, and in each run the matrix holds (sat) or fails (unsat).
"""

from __future__ import annotations

import itertools
import subprocess
from dataclasses import dataclass


class Lost(Exception):
    """Why a circuit is not a winning strategy, or not a circuit."""


@dataclass
class Formula:
    blocks: list[tuple[str, list[int]]]
    clauses: list[list[int]]

    def levels(self) -> dict[int, int]:
        """The number of each variable's block; neighbours of one quantifier are one block."""
        found: dict[int, int] = {}
        number, last = -1, ""
        for quantifier, variables in self.blocks:
            if variables and quantifier != last:
                number, last = number + 1, quantifier
            found.update({variable: number for variable in variables})
        return found

    def of(self, quantifier: str) -> list[int]:
        return [variable for letter, variables in self.blocks if letter == quantifier for variable in variables]


@dataclass
class Circuit:
    inputs: list[int]  # literals of AIGER
    outputs: list[int]
    gates: list[tuple[int, int, int]]
    names: dict[str, str]  # i0, o0 and so on

    def input_variables(self) -> list[int]:
        return [int(self.names[f"i{at}"]) for at in range(len(self.inputs))]

    def output_variables(self) -> list[int]:
        return [int(self.names[f"o{at}"]) for at in range(len(self.outputs))]


def read_formula(text: str) -> Formula:
    blocks: list[tuple[str, list[int]]] = []
    words = [word for line in text.splitlines() if line[:1] not in ("c", "p") for word in line.split()]
    clauses: list[list[int]] = []
    begun: list[int] = []
    for word in words:
        if word in ("a", "e"):
            blocks.append((word, []))
        elif word == "0":
            if blocks and not clauses and is_open(blocks):
                blocks.append(("", []))
            else:
                clauses.append(begun)
                begun = []
        elif is_open(blocks) and not clauses and not begun:
            blocks[-1][1].append(int(word))
        else:
            begun.append(int(word))
    return Formula([block for block in blocks if block[0]], clauses)


def is_open(blocks: list[tuple[str, list[int]]]) -> bool:
    """Whether a set was begun and not ended."""
    return bool(blocks) and blocks[-1][0] != ""


class Reader:
    """The bytes of a circuit, line by line and number by number."""

    def __init__(self, data: bytes) -> None:
        self.data, self.at = data, 0

    def line(self) -> str:
        end = self.data.find(b"\n", self.at)
        if end < 0:
            raise Lost("a line has no end")
        text = self.data[self.at : end].decode("ascii")
        self.at = end + 1
        return text

    def number(self) -> int:
        """A number in groups of seven bits, the lowest first."""
        value = shift = 0
        while True:
            byte = self.data[self.at]
            self.at += 1
            value |= (byte & 127) << shift
            shift += 7
            if byte < 128:
                return value


def read_circuit(data: bytes) -> Circuit:
    """The circuit of a text. Raises Lost if it is not one in which each gate stands on inputs and gates before it."""
    reader = Reader(data)
    kind, *numbers = reader.line().split()
    most, inputs_count, latches, outputs_count, gates_count = map(int, numbers)
    if latches or kind not in ("aag", "aig") or most < inputs_count + gates_count:
        raise Lost("the header is not that of a circuit without latches")
    if kind == "aag":
        inputs = [int(reader.line()) for _ in range(inputs_count)]
    else:
        inputs = [2 * (at + 1) for at in range(inputs_count)]
    outputs = [int(reader.line()) for _ in range(outputs_count)]
    gates = []
    for at in range(gates_count):
        if kind == "aag":
            left, first, second = map(int, reader.line().split())
        else:
            left = 2 * (inputs_count + 1 + at)
            first = left - reader.number()
            second = first - reader.number()
        if not left > first >= second >= 0:
            raise Lost(f"gate {left} does not stand on lesser literals in order")
        gates.append((left, first, second))
    names: dict[str, str] = {}
    while reader.at < len(reader.data):
        line = reader.line()
        if line == "c":
            break
        key, _, name = line.partition(" ")
        if key in names:
            raise Lost(f"two symbols {key}")
        names[key] = name
    check_order(inputs, outputs, gates)
    return Circuit(inputs, outputs, gates, names)


def check_order(inputs: list[int], outputs: list[int], gates: list[tuple[int, int, int]]) -> None:
    defined = {0, *inputs}
    if any(literal % 2 or literal == 0 for literal in inputs) or len(set(inputs)) != len(inputs):
        raise Lost("an input is not a variable of its own")
    for left, first, second in gates:
        if left % 2 or left in defined or first & ~1 not in defined or second & ~1 not in defined:
            raise Lost(f"gate {left} is not in order")
        defined.add(left)
    if any(literal & ~1 not in defined for literal in outputs):
        raise Lost("an output is not defined")


def check_names(formula: Formula, circuit: Circuit, winner: str) -> None:
    """Inputs and outputs are the variables of both players, in the order of the prefix, and outputs see earlier blocks alone."""
    levels = formula.levels()
    if circuit.input_variables() != formula.of("a" if winner == "e" else "e") or circuit.output_variables() != formula.of(winner):
        raise Lost("the symbols are not the variables of the two players in the order of the prefix")
    depth = {0: -1}
    for literal, variable in zip(circuit.inputs, circuit.input_variables()):
        depth[literal] = levels[variable]
    for left, first, second in circuit.gates:
        depth[left] = max(depth[first & ~1], depth[second & ~1])
    for literal, variable in zip(circuit.outputs, circuit.output_variables()):
        if depth[literal & ~1] >= levels[variable]:
            raise Lost(f"the output of {variable} depends on an input of its own block, or of a later one")


def true_literals(circuit: Circuit, bits: tuple[int, ...]) -> set[int]:
    """The literals that are true in a run."""
    value = {0: 0, **dict(zip(circuit.inputs, bits))}
    for left, first, second in circuit.gates:
        value[left] = (value[first & ~1] ^ first & 1) & (value[second & ~1] ^ second & 1)
    wires = [*zip(circuit.inputs, circuit.input_variables()), *zip(circuit.outputs, circuit.output_variables())]
    return {variable if value[literal & ~1] ^ literal & 1 else -variable for literal, variable in wires}


def check_plays(formula: Formula, circuit: Circuit, is_true: bool) -> int:
    """Each play is won; how many there are."""
    for bits in itertools.product((0, 1), repeat=len(circuit.inputs)):
        true = true_literals(circuit, bits)
        if all(any(literal in true for literal in clause) for clause in formula.clauses) != is_true:
            raise Lost(f"the play {bits} is lost")
    return 2 ** len(circuit.inputs)


def check_by_solver(formula: Formula, circuit: Circuit, is_true: bool, solver: str) -> None:
    """A SAT solver finds no run in which the matrix fails (sat), or holds (unsat)."""
    top = max([*circuit.inputs, *(gate[0] for gate in circuit.gates), 0]) // 2 + 1
    number = lambda literal: (-1 if literal & 1 else 1) * (literal // 2 or top)
    clauses = [[-top]]
    for gate in circuit.gates:
        left, first, second = map(number, gate)
        clauses += [[-left, first], [-left, second], [left, -first, -second]]
    wires = [*zip(circuit.inputs, circuit.input_variables()), *zip(circuit.outputs, circuit.output_variables())]
    of = {variable: number(literal) for literal, variable in wires}
    wire = lambda literal: of[abs(literal)] if literal > 0 else -of[abs(literal)]
    if is_true:
        failing = []
        for clause in formula.clauses:
            top += 1
            failing.append(top)
            clauses += [[-top, -wire(literal)] for literal in clause]
        clauses.append(failing)
    else:
        clauses += [[wire(literal) for literal in clause] for clause in formula.clauses]
    text = f"p cnf {top} {len(clauses)}\n" + "".join(" ".join(map(str, [*clause, 0])) + "\n" for clause in clauses)
    done = subprocess.run([solver, "-q"], input=text, capture_output=True, text=True, check=False)
    if done.returncode != 20:
        raise Lost(f"{solver} ends with {done.returncode}: there may be a run that is lost")


def check_strategy(formula: Formula, data: bytes, is_true: bool, solver: str = "", most_inputs: int = 12) -> Circuit:
    """Judges the text of a circuit as the winner's strategy. Raises Lost; all plays are tried if there are few inputs, else the solver."""
    circuit = read_circuit(data)
    check_names(formula, circuit, "e" if is_true else "a")
    if len(circuit.inputs) <= most_inputs:
        check_plays(formula, circuit, is_true)
    elif solver:
        check_by_solver(formula, circuit, is_true, solver)
    return circuit
