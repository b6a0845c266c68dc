"""Formulas of gates where a tool takes a formula: it goes on with their clauses, which qrp_gates makes, and speaks of their names. A part of
tools/solve, tools/play, tools/explain, tools/explain-strategy and tools/check.
"""

import os
import subprocess
from typing import NamedTuple, Optional

from qrptools.command import called_as, finding, read_file, temporary_folder, unusable, writing
from qrptools.names import Names
from qrptools.program import GATES, STRATEGY, keep, run_program, why_not
from qrptools.questions.reader import Gate, Question, QuestionFault, is_question, read_question

HEAD = 64  # bytes of a file in which it is seen that it is a formula of gates
CLAUSES = "clauses.qdimacs"


class Asked(NamedTuple):
    """A formula: the file that was named, or a copy if that can be read only once; the one with its clauses, which is the same unless the formula
    is one of gates; the names; and the formula of gates, if it is one."""

    path: str
    clauses: str
    names: Names
    question: Optional[Question]

    @property
    def strategist(self) -> str:
        """The program that makes the winner's circuit: its symbols are numbers, or the names of the formula of gates."""
        return GATES if self.question else STRATEGY

    def refuse_unverified(self, trace: str, flags: list[str]) -> None:
        """Ends the command unless the proof is one of the formula of gates, if there is one."""
        if not self.question:
            return
        line, status = run_program(["check", *flags, self.path, trace], name=GATES)
        if line.startswith("REFUSED "):
            raise finding(f"{GATES} refuses the proof: {line}; '{called_as('explain')} FORMULA TRACE' says why")
        if status:
            raise unusable(f"{GATES} does not check the proof: {why_not(line, status, self.path, trace, GATES)}")


def is_file_of_gates(path: str) -> bool:
    """Whether a file that can be read again begins as a formula of gates does."""
    try:
        with open(path, "rb") as file:
            return is_question(file.read(HEAD))
    except OSError:
        return False


def asked(path: str, names: Optional[str], folder: str) -> Asked:
    """The formula of a file. Clauses are written to this folder."""
    path = keep(path, folder)
    if not is_file_of_gates(path):
        return Asked(path, path, Names(names), None)
    clauses = os.path.join(folder, CLAUSES)
    with writing("the clauses of the formula"), open(clauses, "wb") as out:
        line, status = run_program(["clauses", path], out, GATES)
        if not line and status > 0:
            out.write(bytes(1 << 16))  # fails as the program's output did
    if line.startswith("REFUSED "):
        raise finding(f"{GATES} refuses the formula: {line}; '{called_as('explain')} FORMULA' says why")
    if status:
        raise unusable(f"{GATES} makes no clauses: {why_not(line, status, path, path, GATES)}")
    question = question_of(path)
    return Asked(path, clauses, QuestionNames(question, names), question)


def clauses_of(data: bytes) -> bytes:
    """The clauses of a formula of gates of these bytes, which qrp_gates takes."""
    with temporary_folder() as folder:
        path = os.path.join(folder, "formula.qcir")
        with writing("a copy of the formula"), open(path, "wb") as file:
            file.write(data)
        return read_file(asked(path, None, folder).clauses)


def question_of(path: str) -> Question:
    try:
        return read_question(read_file(path))
    except QuestionFault as fault:
        raise finding(f"the formula has {fault}: '{called_as('explain')} FORMULA' says why") from fault


def refused_by_gates(path: str) -> tuple[str, int]:
    """The line by which qrp_gates refuses a formula of gates, empty if it takes it; and its status."""
    return run_program(["clauses", path], subprocess.DEVNULL, GATES)


class QuestionNames(Names):
    """The names of a formula of gates; those of a file come before them."""

    def __init__(self, question: Question, path: Optional[str], given: Optional[Names] = None) -> None:
        super().__init__(path)
        if given:
            self.names, self.variables, self.buses = dict(given.names), dict(given.variables), given.buses
        self.question, self.gates, self.has_values = question, frozenset(question.gates), True
        for variable, name in enumerate(question.names[1:], 1):
            if variable not in self.names:
                self.names[variable] = name
            self.variables.setdefault(name, variable)

    def variable(self, name: str) -> int:
        """The variable of this name, 0 if there is none: a number is a name here."""
        return self.variables.get(name, 0)


class QuestionGates:
    """The gates of a formula of gates, in the place of those that are found among clauses."""

    def __init__(self, question: Question) -> None:
        self.definitions = question.gates

    def set_to(self, values: dict[int, int], given: set[int]) -> None:
        """Adds the values of the gates that are not there, as literals that are true, after those of the variables."""
        true = {*given, *values.values()}
        for variable, gate in self.definitions.items():
            if variable not in values:
                values[variable] = variable if value_of(gate, true) else -variable
            true.add(values[variable])


def value_of(gate: Gate, true: set[int]) -> bool:
    """The value of a gate, if these literals are true."""
    inputs = [literal in true for literal in gate.inputs]
    if gate.kind == "and":
        return all(inputs)
    if gate.kind == "or":
        return any(inputs)
    return inputs[0] != inputs[1] if gate.kind == "xor" else inputs[1] if inputs[0] else inputs[2]
