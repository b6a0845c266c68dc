"""A question about a circuit as a formula in QDIMACS 1.1, and the names of its variables. A part of tools/from-aiger.

The inputs are bound as the user says, and the gates after them, innermost and existential: each gate has a variable for its output, and clauses
that leave it the value that its inputs give (Tseitin 1968).
"""

from collections.abc import Iterator
from itertools import islice
from typing import Optional

from qrptools.circuits.patterns import LISTED, base_of, compressed, sizes_of, word_of
from qrptools.circuits.unrolled import Input, Unrolled
from qrptools.command import counted
from qrptools.formula import EXISTS, FOR_ALL
from qrptools.names import BIT

LETTERS = {EXISTS: "e", FOR_ALL: "a"}
WORDS = {EXISTS: "exists", FOR_ALL: "for all"}
BLOCKS = 6  # blocks in a message
Block = tuple[str, list[int]]  # a quantifier, and literals or variables


class Prefix:
    """How inputs are bound, by their names: what comes first, outermost in all steps, and what is bound in each step. What is in neither is
    universal and comes last in its step."""

    def __init__(self, outer: list[tuple[str, set[str]]], rows: list[tuple[str, set[str]]]) -> None:
        self.outer, self.rows = outer, rows

    def place(self, own: Input) -> tuple[int, int]:
        """The place of the block of an input: the step, -1 for what is outermost, and the place in it."""
        outer = first_with(own.name, self.outer)
        if outer is not None:
            return -1, outer
        row = first_with(own.name, self.rows)
        return own.step or 0, len(self.rows) if row is None else row

    def quantifier(self, own: Input) -> str:
        step, place = self.place(own)
        rows = self.outer if step < 0 else self.rows
        return rows[place][0] if place < len(rows) else FOR_ALL


def first_with(name: str, rows: list[tuple[str, set[str]]]) -> Optional[int]:
    return next((place for place, (_, names) in enumerate(rows) if name in names), None)


def blocks_of(inputs: dict[int, Input], prefix: Prefix) -> list[Block]:
    """The blocks of the inputs from the outermost on: each a quantifier and literals."""
    found: dict[tuple[int, int], Block] = {}
    for literal, own in inputs.items():
        found.setdefault(prefix.place(own), (prefix.quantifier(own), []))[1].append(literal)
    return [block for _, block in sorted(found.items())]


class Encoding:
    """The formula of what an unrolled circuit has to do. Inputs that it uses in no step, such as a clock, are left out."""

    def __init__(self, unrolled: Unrolled, prefix: Prefix) -> None:
        self.unrolled, self.steps, self.prefix = unrolled, unrolled.steps, prefix
        needed = unrolled.needed()
        used = {own.name for literal, own in unrolled.inputs.items() if literal in needed}
        self.unused = list(dict.fromkeys(own.name for own in unrolled.inputs.values() if own.name not in used))
        self.inputs = {literal: own for literal, own in unrolled.inputs.items() if own.name in used}
        self.blocks = blocks_of(self.inputs, prefix)
        self.gates = [gate for gate in unrolled.gates if gate in needed]  # each after its inputs
        order = [literal for _, literals in self.blocks for literal in literals] + self.gates
        self.variables = {literal: number for number, literal in enumerate(order, 1)}

    def literal(self, literal: int) -> int:
        return -self.variables[literal & ~1] if literal & 1 else self.variables[literal]

    def clauses(self) -> Iterator[list[int]]:
        for gate in self.gates:
            output, (one, other) = self.literal(gate), map(self.literal, self.unrolled.gates[gate])
            yield from ([-output, one], [-output, other], [output, -one, -other])
        for clause in self.unrolled.clauses:
            yield list(map(self.literal, clause.literals))

    def sets(self) -> list[Block]:
        """The quantifier sets, in which neighbours of one quantifier are one."""
        sets: list[Block] = []
        for quantifier, literals in [*self.blocks, *([(EXISTS, self.gates)] if self.gates else [])]:
            if not sets or sets[-1][0] != quantifier:
                sets.append((quantifier, []))
            sets[-1][1].extend(self.variables[literal] for literal in literals)
        return sets

    def lines(self, comments: list[str]) -> Iterator[str]:
        """The lines of the formula."""
        clauses = list(self.clauses())
        first = len(clauses) - len(self.unrolled.clauses) + 1
        yield from (f"c {comment}\n" for comment in comments)
        yield from (f"c clause {number}: {clause.about()}\n" for number, clause in enumerate(self.unrolled.clauses, first))
        yield f"p cnf {len(self.variables)} {len(clauses)}\n"
        for quantifier, variables in self.sets():
            yield f"{LETTERS[quantifier]} {' '.join(map(str, variables))} 0\n"
        for numbers in clauses:
            yield " ".join(map(str, [*numbers, 0])) + "\n"

    def names(self) -> Iterator[str]:
        """The lines of the file of names: those of the inputs, in a step with its number before the bit of a bus, and of the gates that what
        has to hold is about alone. A gate has the name of the output or the bad state that it is, with not_ before it if it is its negation. The last
        line says which variables are gates."""
        seen: set[str] = set()
        called = [(literal, named(own, self.steps)) for literal, own in self.inputs.items()]
        called += [(gate, name) for gate, name in self.outputs().items() if gate in self.unrolled.gates]
        for literal, name in called:
            while name in seen:
                name += "'"
            seen.add(name)
            yield f"{self.variables[literal]} {name}\n"
        if self.gates:
            yield f"# gates: {len(self.inputs) + 1} to {len(self.variables)}\n"

    def outputs(self) -> dict[int, str]:
        found = {}
        for clause in self.unrolled.clauses:
            if clause.literals == [clause.own]:
                literal = clause.property.wanted(clause.own)  # that of the output or the bad state itself
                name = "_".join(clause.name().split())
                found[literal & ~1] = word_of(f"not_{name}" if literal & 1 else name)
        return found

    def summary(self, most: int = LISTED, blocks: int = BLOCKS) -> str:
        """The prefix and what has to hold, in one line, with so many names of a block and so many blocks."""
        parts = [f"{WORDS[quantifier]} {shown(names, most)}" for quantifier, names in islice(self.named_blocks(), blocks)]
        parts += [f"and {len(self.blocks) - blocks} more blocks in this way"] if len(self.blocks) > blocks else []
        parts += [f"exists {counted(len(self.gates), 'gate')}"] if self.gates else []
        parts += [] if parts else ["no variable"]
        return f"{', '.join(parts)}: {counted(len(self.unrolled.clauses), 'clause')} of what has to hold"

    def named_blocks(self) -> Iterator[tuple[str, list[str]]]:
        """The quantifier of each block and its names, with those of buses of which all bits that are used are in the block, in one step."""
        sizes = sizes_of(dict.fromkeys(word_of(own.name) for own in self.inputs.values()))
        whole = {base_of(named(own, self.steps)): sizes[base_of(word_of(own.name))] for own in self.inputs.values()}
        for quantifier, literals in self.blocks:
            yield quantifier, compressed([named(self.inputs[literal], self.steps) for literal in literals], whole)


def shown(names: list[str], most: int = LISTED) -> str:
    return " ".join(names[:most]) + (f" and {len(names) - most} more" if len(names) > most else "")


def named(own: Input, steps: int) -> str:
    """The name of an input as one word, that no other word of a reply can be."""
    name = word_of(own.name)
    if steps == 1 or own.step is None:
        return name
    bit = BIT.fullmatch(name)
    return f"{bit[1]}@{own.step}[{bit[2]}]" if bit else f"{name}@{own.step}"
