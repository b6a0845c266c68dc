"""What a circuit has to do in some steps, as gates and clauses over its inputs. A part of tools/from-aiger.

A literal here is made as in AIGER: an even number for an input or a gate, the next odd one for its negation; 0 is false and 1 is true. Equal
gates are one, and what constants decide is no gate.
"""

from collections.abc import Collection
from typing import Callable, NamedTuple, Optional

from qrptools.circuits.aiger import Circuit


class Input(NamedTuple):
    """An input in a step, None if it has one value for all steps; or a latch whose value at the beginning is free, in step 0."""

    name: str
    step: Optional[int]


class Property(NamedTuple):
    """An output (o) or a constraint (c) that has to be true, or a bad state (b) that has to be false; and its name."""

    kind: str
    place: int
    name: str

    def wanted(self, literal: int) -> int:
        """The literal that has to be true, of that of the property."""
        return literal ^ (self.kind == "b")


class Clause(NamedTuple):
    """A clause of what has to hold: the property, in a step, the literal that has to be true for it, and all literals."""

    property: Property
    step: Optional[int]
    own: int
    literals: list[int]

    def name(self) -> str:
        return self.property.name if self.step is None else f"{self.property.name} of step {self.step}"

    def about(self) -> str:
        return f"{self.name()} {'is false' if self.property.kind == 'b' else 'holds'}"


def value_of(literal: int, values: dict[int, int]) -> int:
    """The literal here of a literal of the circuit."""
    return values[literal & ~1] ^ (literal & 1)


class Unrolled:
    """A circuit in so many steps: its inputs, its gates, and once it is asked the clauses that have to hold."""

    def __init__(self, circuit: Circuit, steps: int, has_one_value: Callable[[str], bool], properties: list[Property]) -> None:
        self.circuit, self.steps, self.has_one_value, self.properties = circuit, steps, has_one_value, properties
        self.inputs: dict[int, Input] = {}  # by their literals
        self.literals: dict[Input, int] = {}  # those of inputs
        self.gates: dict[int, tuple[int, int]] = {}  # the two inputs by the literal
        self.known: dict[tuple[int, int], int] = {}  # gates by their inputs
        self.latest = 0  # the last literal
        self.clauses: list[Clause] = []
        self.asked: list[list[int]] = []  # by step, the literals of the properties
        self.constraints: list[list[int]] = []  # by step, those of the constraints
        self.unroll()

    def unroll(self) -> None:
        circuit = self.circuit
        literals = {"o": circuit.outputs, "b": circuit.bads}
        asked = [literals[own.kind][own.place] for own in self.properties]
        roots = [*asked, *circuit.constraints, *(latch.next for latch in circuit.latches)]
        order, latches = circuit.order(roots) or [], self.first_latches()
        for step in range(self.steps):
            values = {0: 0, **latches, **{literal: self.input(circuit.name("i", place), step) for place, literal in enumerate(circuit.inputs)}}
            for gate in order:
                one, other = circuit.gates[gate]
                values[gate] = self.conjunction(value_of(one, values), value_of(other, values))
            self.constraints.append([value_of(literal, values) for literal in circuit.constraints])
            self.asked.append([value_of(literal, values) for literal in asked])
            latches = {latch.literal: value_of(latch.next, values) for latch in circuit.latches}

    def demand(self, demanded: Collection[int]) -> None:
        """Makes the clauses: what has to hold does so up to the step in which a constraint is false, but for these, which have to hold too."""
        assumed: list[int] = []
        for step, (asked, constraints) in enumerate(zip(self.asked, self.constraints)):
            assumed += [literal ^ 1 for place, literal in enumerate(constraints) if place not in demanded]
            own = [(Property("c", place, self.circuit.name("c", place)), constraints[place]) for place in sorted(demanded)]
            for what, literal in (*zip(self.properties, asked), *own):
                self.ask(what, step if self.steps > 1 else None, what.wanted(literal), assumed)

    def first_latches(self) -> dict[int, int]:
        """The values of the latches at the beginning."""
        name = self.circuit.name
        rows = enumerate(self.circuit.latches)
        return {latch.literal: latch.reset if latch.reset < 2 else self.input(name("l", place), 0) for place, latch in rows}

    def input(self, name: str, step: int) -> int:
        """The literal of an input in a step."""
        key = Input(name, None if self.has_one_value(name) else step)
        if key not in self.literals:
            self.latest += 2
            self.literals[key] = self.latest
            self.inputs[self.latest] = key
        return self.literals[key]

    def conjunction(self, one: int, other: int) -> int:
        one, other = sorted((one, other))
        if one == 0 or one ^ 1 == other:
            return 0
        if one in (1, other):
            return other
        if (one, other) not in self.known:
            self.latest += 2
            self.known[one, other] = self.latest
            self.gates[self.latest] = (one, other)
        return self.known[one, other]

    def ask(self, what: Property, step: Optional[int], own: int, others: list[int]) -> None:
        """Adds a clause, if it is not true anyway."""
        literals = list(dict.fromkeys(literal for literal in (*others, own) if literal))
        if 1 not in literals and all(literal ^ 1 not in literals for literal in literals):
            self.clauses.append(Clause(what, step, own, literals))

    def needed(self, roots: Optional[set[int]] = None) -> set[int]:
        """The gates and inputs that some literals depend on, else those of the clauses."""
        needed = {literal & ~1 for clause in self.clauses for literal in clause.literals} if roots is None else {root & ~1 for root in roots}
        for gate in reversed(self.gates):
            if gate in needed:
                needed.update(literal & ~1 for literal in self.gates[gate])
        return needed

    def inputs_of(self, constraint: int) -> list[Input]:
        """The inputs that a constraint depends on, in any of the steps."""
        needed = self.needed({literals[constraint] for literals in self.constraints})
        return [own for literal, own in self.inputs.items() if literal in needed]
