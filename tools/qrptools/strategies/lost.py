"""Looks for a run of a strategy that is lost, by a solver and by nothing of the proof that the strategy was made of.

A SAT solver writes a refutation in DRAT if no run is lost, which becomes a trace in QRP; DepQBF writes such a trace by itself.

A part of tools/explain-strategy. A run is lost if a clause of the formula is false, of a winner who is existential; else if all clauses hold.
That there is such a run is a formula of its own, in which all variables are existential: those of the inputs and outputs, one for each gate with
the clauses that leave it its value (Tseitin 1968), and one for each clause that may be false.
"""

import os
import time
from collections.abc import Iterator
from typing import Optional, Union

from qrptools.command import read_file, writing
from qrptools.formula import EXISTS, Clause, Formula
from qrptools.games.game import State
from qrptools.program import trimmed
from qrptools.refutations.chains import NoChain, refuted, trace_lines
from qrptools.solver import SatSolver, Solver, given_up, verify
from qrptools.strategies.strategy import Strategy

NONE_IS_LOST = "VERIFIED false"  # of the formula that there is a lost run
NEEDS = "it needs more than the size of the formula and of the circuit"


class LostRun:
    """The formula that a run is lost."""

    def __init__(self, strategy: Strategy, formula: Formula) -> None:
        self.strategy, self.formula = strategy, formula
        self.wires = {literal: number for number, literal in enumerate((0, *strategy.inputs, *strategy.gates), 1)}
        self.outputs = {variable: number for number, variable in enumerate(strategy.outputs, len(self.wires) + 1)}
        self.variables = {**{variable: self.wires[literal] for literal, variable in strategy.inputs.items()}, **self.outputs}
        self.wired = len(self.wires) + len(self.outputs)  # variables of the circuit

    def wire(self, literal: int) -> int:
        """The literal here of a literal of the circuit."""
        return -self.wires[literal & ~1] if literal & 1 else self.wires[literal]

    def circuit(self) -> Iterator[list[int]]:
        """The clauses of the circuit."""
        yield [-self.wire(0)]
        for gate, both in self.strategy.gates.items():
            output, one, other = self.wire(gate), *map(self.wire, both)
            yield from ([-output, one], [-output, other], [output, -one, -other])
        for variable, literal in self.strategy.outputs.items():
            output, value = self.outputs[variable], self.wire(literal)
            yield from ([-output, value], [output, -value])

    def matrix(self) -> Iterator[list[int]]:
        """The clauses of the formula with its variables here."""
        for clause in self.formula.clauses():
            yield [self.variables[literal] if literal > 0 else -self.variables[-literal] for literal in sorted(clause.literals, key=abs)]

    def lost(self) -> Iterator[list[int]]:
        """The clauses that say that the run is lost."""
        if self.strategy.winner != EXISTS:
            yield from self.matrix()
            return
        false: list[int] = []
        for number, clause in enumerate(self.matrix(), self.wired + 1):
            false.append(number)
            yield from ([-number, -literal] for literal in clause)
        yield false

    def lines(self, has_prefix: bool = True) -> Iterator[str]:
        """The lines of the formula, with or without the prefix, which SAT solvers do not take."""
        clauses = [*self.circuit(), *self.lost()]
        greatest = max(abs(literal) for clause in clauses for literal in clause)
        yield f"p cnf {greatest} {len(clauses)}\n"
        if has_prefix:
            yield f"e {' '.join(map(str, range(1, greatest + 1)))} 0\n"
        yield from (" ".join(map(str, [*clause, 0])) + "\n" for clause in clauses)

    def true_literals(self, values: dict[int, int]) -> set[int]:
        """The literals of the formula that are true after these values of the inputs."""
        values = {**values, **self.strategy.run(values)}
        return {variable if value else -variable for variable, value in values.items()}

    def false_clause(self, true: set[int]) -> Optional[Clause]:
        """The first clause that is false if these literals are true."""
        return next((clause for clause in self.formula.clauses() if true.isdisjoint(clause.literals)), None)


def lost_run(question: LostRun, solver: Union[Solver, SatSolver], folder: str) -> Optional[dict[int, int]]:
    """The inputs of a lost run by variable; None if there is none, which is what the solver proves and qrp_cmd verifies. Whether the run is lost
    the caller has to see."""
    path, trace = os.path.join(folder, "lost.qdimacs"), os.path.join(folder, "lost.qrp")
    with writing("the formula of a lost run", NEEDS), open(path, "w") as file:
        file.writelines(question.lines())
    if isinstance(solver, Solver):
        true = true_by_trace(path, trace, solver, folder)
    else:
        true = true_by_values(question, solver, path, trace)
    if true is None:
        return None
    return {variable: int(question.wires[literal] in true) for literal, variable in question.strategy.inputs.items()}


def true_by_trace(path: str, trace: str, solver: Solver, folder: str) -> Optional[set[int]]:
    """The literals that are true in a lost run, by the trace that the solver writes."""
    line = solver.solve(path, trace, trace)
    verify(path, trace, line, trace)
    return None if line == NONE_IS_LOST else set(State(path, trimmed(path, trace, [], folder), False).move()[0])


def true_by_values(question: LostRun, solver: SatSolver, path: str, trace: str) -> Optional[set[int]]:
    """The same by the values that the solver finds. Its refutation becomes a trace; if it has other clauses than those that follow by unit
    propagation, it is asked once more for a plain one."""
    ways: list[list[str]] = [[], ["--plain"]]
    formula, proof, end = f"{path}.cnf", f"{trace}.drat", time.monotonic() + solver.timeout

    def go_on() -> None:
        if time.monotonic() > end:
            raise given_up(solver.timeout, 2)

    with writing("the formula of a lost run", NEEDS), open(formula, "w") as file:
        file.writelines(question.lines(False))
    for options in ways:
        true = solver.solve(formula, proof, *options)
        if true is not None:
            return true
        try:
            whole = Formula(read_file(path))
            found = refuted(whole, read_file(proof), "the solver's proof", go_on)
        except NoChain:
            if options:
                raise
            continue
        with writing("the proof that no run is lost"), open(trace, "w") as file:
            file.writelines(trace_lines(whole, found))
        verify(path, trace, NONE_IS_LOST, trace)
        break
    return None
