"""Makes a trace in QRP of a refutation in DRAT. A part of tools/drat-to-qrp and tools/explain-strategy.

All variables of the formula are existential, so each chain of resolution steps is one of Q-resolution (Kleine Buening, Karpinski, Floegel 1995).
"""

import re
from collections.abc import Iterator
from typing import Callable

from qrptools.command import Ends, finding
from qrptools.formula import FOR_ALL, Formula
from qrptools.refutations.propagation import NoPropagation, Propagation


class NoChain(Ends):
    """Ends the command since a clause does not follow by unit propagation."""

    def __init__(self, where: str) -> None:
        advice = "let the solver write no such clauses, as cadical does with --plain"
        super().__init__(
            f"{where}: the clause does not follow by unit propagation; if it follows by RAT, no chain of resolution steps shows it: {advice}", 1
        )


LINE = re.compile(rb"(d )?((?:-?[1-9][0-9]{0,9} )*)0")


def refuted(formula: Formula, proof: bytes, path: str, go_on: Callable[[], None] = lambda: None) -> Propagation:
    """The clauses that a proof needs, up to the empty one. The command ends if it is not there."""
    if any(place.quantifier == FOR_ALL for place, _ in formula.sets):
        raise finding("the formula has universal variables, and a proof in DRAT is about existential ones alone")
    found = Propagation(formula.variables, go_on)
    found.put_formula(clause.literals for clause in formula.clauses())
    for number, line in enumerate(proof.split(b"\n"), 1):
        if found.empty is not None:
            break
        if not line or line.startswith(b"c"):
            continue
        taken = LINE.fullmatch(line.rstrip(b"\r"))
        if not taken:
            raise finding(f"{path}, line {number}: a line of DRAT is wanted, in its text form: 'd' if a clause is deleted, literals and 0")
        literals = frozenset(map(int, taken[2].split()))
        if taken[1]:
            found.delete(literals)
            continue
        try:
            found.put(literals)
        except NoPropagation:
            raise NoChain(f"{path}, line {number}") from None
    if found.empty is None:
        raise finding(f"{path}: the proof ends without the empty clause")
    return found


def needed(found: Propagation) -> list[int]:
    """The numbers of the clauses that the empty one needs, in their order."""
    marks = {found.empty}
    for number in range(found.empty or 0, -1, -1):
        if number in marks:
            marks.update(found.derived[number].chain)
    return [number for number in range(len(found.derived)) if number in marks]


def trace_lines(formula: Formula, found: Propagation) -> Iterator[str]:
    """The lines of the trace."""
    numbers = needed(found)
    count = sum(max(1, len(found.derived[number].chain) - 1) for number in numbers)
    yield f"p qrp {formula.variables} {count}\n"
    yield f"e {' '.join(text.decode() for _, text in formula.sets)} 0\n"
    steps: dict[int, int] = {}  # by the clauses
    step = 0
    for number in numbers:
        literals, chain = found.derived[number]
        if not chain:
            step += 1
            yield f"{step} {spelled(literals)}0 0\n"
        else:
            left = set(found.derived[chain[0]].literals)
            before = steps[chain[0]]
            for other in chain[1:]:
                step += 1
                with_it = found.derived[other].literals
                pivot = next(literal for literal in with_it if -literal in left)
                left.update(with_it)
                left -= {pivot, -pivot}
                yield f"{step} {spelled(left)}0 {before} {steps[other]} 0\n"
                before = step
        steps[number] = step
    yield "r unsat\n"


def spelled(literals: "set[int] | frozenset[int]") -> str:
    """Literals in the order of their variables, each with a blank after it."""
    return "".join(f"{literal} " for literal in sorted(literals, key=abs))
