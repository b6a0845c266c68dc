"""A question about a circuit as a formula of gates in QCIR-14 (Jordan, Klieber, Seidl 2016). A part of tools/from-aiger.

The gates are those of the circuit. Outputs, bad states and constraints are gates of one input, with their names; a question is a gate over these
for each step, and the output is that all of them are true.
"""

import re
from collections.abc import Iterator

from qrptools.circuits.encoding import Encoding, named
from qrptools.circuits.patterns import word_of
from qrptools.circuits.unrolled import Clause
from qrptools.formula import EXISTS, FOR_ALL

WORDS = {EXISTS: "exists", FOR_ALL: "forall"}
ASKED = "asked"


class GateText:
    """The text of a question. Its variables and gates have the numbers of the formula in clauses, and then come outputs and the like."""

    def __init__(self, encoding: Encoding) -> None:
        self.encoding, self.unrolled = encoding, encoding.unrolled
        self.taken: set[str] = set()
        self.literals: dict[int, str] = {}  # what is written for literals without a sign
        self.own: list[str] = []  # what the names were made of, of the outputs and the like
        for literal, own in encoding.inputs.items():
            self.literals[literal] = self.free(named(own, encoding.steps))
        for gate in encoding.gates:
            self.literals[gate] = self.free(f"g{gate // 2}")
        self.gates = [f"{self.literals[gate]} = and({self.inputs(self.unrolled.gates[gate])})" for gate in encoding.gates]
        self.asked = self.free(ASKED)
        self.parts = [self.part(clause) for clause in self.with_constraints()]

    def free(self, name: str) -> str:
        """A name that the format allows, like this one, and that nothing else has."""
        name = re.sub("[^A-Za-z0-9_]+", "_", name).rstrip("_") or "_"
        while name in self.taken:
            name += "_"
        self.taken.add(name)
        return name

    def inputs(self, literals: "list[int] | tuple[int, ...]") -> str:
        return ", ".join(("-" if literal & 1 else "") + self.literals[literal & ~1] for literal in literals)

    def name(self, name: str, literal: int) -> str:
        """A new gate with this name, which is a literal or a constant."""
        own = self.free(name)
        self.own.append("_".join(name.split()))
        self.gates.append(f"{own} = {'or' if literal == 0 else 'and'}({self.inputs([literal]) if literal > 1 else ''})")
        return own

    def with_constraints(self) -> list[Clause]:
        """The clauses, after a gate for each constraint that one of them has, in a step."""
        found: dict[int, str] = {}
        used = {literal ^ 1 for clause in self.unrolled.clauses for literal in clause.literals if literal != clause.own}
        for step, literals in enumerate(self.unrolled.constraints):
            for place, literal in enumerate(literals):
                if literal in used and literal not in found:
                    name = self.unrolled.circuit.name("c", place)
                    found[literal] = self.name(f"{name} of step {step}" if self.unrolled.steps > 1 else name, literal)
        self.constraints = found
        return self.unrolled.clauses

    def part(self, clause: Clause) -> str:
        """What has to be true for a clause: its output or the like, or a gate that is true once a constraint before it was false."""
        is_bad = clause.property.kind == "b"
        own = ("-" if is_bad else "") + self.name(clause.name(), clause.property.wanted(clause.own))
        others = [self.constraints[literal ^ 1] for literal in clause.literals if literal != clause.own and literal ^ 1 in self.constraints]
        if not others:
            return own
        gate = self.free(f"{clause.name()} as long as assumed")
        self.own.append("")
        self.gates.append(f"{gate} = or({', '.join([*(f'-{other}' for other in others), own])})")
        return gate

    def lines(self, comments: list[str]) -> Iterator[str]:
        yield "#QCIR-14\n"
        yield from (f"# {comment}\n" for comment in comments)
        for quantifier, literals in self.encoding.blocks:
            yield f"{WORDS[quantifier]}({self.inputs(literals)})\n"
        yield f"output({self.asked})\n"
        yield from (f"{gate}\n" for gate in self.gates)
        yield f"{self.asked} = and({', '.join(self.parts)})\n"

    def names(self) -> Iterator[str]:
        """The lines of the file of names: those of the inputs, as the formula in clauses has them, and of outputs and the like."""
        rows = [(self.encoding.variables[literal], named(own, self.encoding.steps)) for literal, own in self.encoding.inputs.items()]
        rows += [(number, word_of(name)) for number, name in enumerate(self.own, len(self.encoding.variables) + 1) if name]
        seen: set[str] = set()
        for number, name in rows:
            while name in seen:
                name += "'"
            seen.add(name)
            yield f"{number} {name}\n"
