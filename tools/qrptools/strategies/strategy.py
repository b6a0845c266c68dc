"""Reads a circuit as the strategy of a player: its inputs are the variables of the other player, and its outputs those of the winner.

A part of tools/explain-strategy and tools/play. The symbol of each input and output is the number of its variable, or its name. Nothing here
says whether the circuit wins.
"""

from collections.abc import Iterable
from typing import NamedTuple, Optional

from qrptools.circuits.aiger import KINDS, Circuit, Reader
from qrptools.command import called_as, finding, read_file
from qrptools.formula import ADJECTIVES, EXISTS, FOR_ALL, Formula
from qrptools.names import Names
from qrptools.program import circuit_of, keep
from qrptools.questions.files import Asked, QuestionNames
from qrptools.words import Fault

OTHER = {EXISTS: FOR_ALL, FOR_ALL: EXISTS}
NO_STRATEGY = {"L": "latches", "B": "bad states", "C": "constraints", "J": "justice properties", "F": "fairness constraints"}


class Files(NamedTuple):
    """A formula, and a circuit, or if there is none a trace that it is made of, which is else empty."""

    formula: str
    circuit: Optional[str]
    trace: str


class Strategy(NamedTuple):
    """A strategy: the quantifier of the winner; the variable of each input by its literal, and the literal of each output by its variable, in the
    order of the prefix; and the two inputs of each gate by its literal, each gate after its inputs."""

    winner: str
    inputs: dict[int, int]
    outputs: dict[int, int]
    gates: dict[int, tuple[int, int]]

    def part(self, variables: Iterable[int]) -> "Strategy":
        """The same with these outputs alone, and with the inputs and gates that they need."""
        outputs = {variable: self.outputs[variable] for variable in variables}
        needed = {literal & ~1 for literal in outputs.values()}
        for gate, (one, other) in reversed(self.gates.items()):
            if gate in needed:
                needed.add(one & ~1)
                needed.add(other & ~1)
        inputs = {literal: variable for literal, variable in self.inputs.items() if literal in needed}
        return Strategy(self.winner, inputs, outputs, {gate: both for gate, both in self.gates.items() if gate in needed})

    def run(self, values: dict[int, int], every: int = 1) -> dict[int, int]:
        """The values of the outputs by variable, after those of the inputs by variable. A value has a bit for each run, and `every` has all bits."""
        known = {0: 0, **{literal: values[variable] for literal, variable in self.inputs.items()}}
        value = lambda literal: known[literal & ~1] ^ (every if literal & 1 else 0)
        for gate, (one, other) in self.gates.items():
            known[gate] = value(one) & value(other)
        return {variable: value(literal) for variable, literal in self.outputs.items()}


def strategy_of(given: Asked, files: Files, flags: list[str], folder: str) -> tuple[Formula, Strategy]:
    """The formula in clauses and the strategy of some files. The program that makes one has checked the formula."""
    if files.circuit is not None:
        formula = checked_formula(files.formula)
        return formula, read_strategy(keep(files.circuit, folder), formula, given.names)
    made = circuit_of(given.path, files.trace, flags, folder, given.strategist)
    formula = Formula(read_file(files.formula))
    return formula, read_strategy(made, formula, QuestionNames(given.question, None) if given.question else Names())


def checked_formula(path: str) -> Formula:
    """The formula of a file that no program has checked. The command ends if it has a fault."""
    try:
        formula = Formula(read_file(path), 0)
        for _ in formula.pieces():
            pass
        return formula
    except Fault as fault:
        raise finding(f"the formula has {fault}: '{called_as('explain')} FORMULA' says why") from fault


def read_strategy(path: str, formula: Formula, names: Names) -> Strategy:
    """The strategy that a file has for a formula. The command ends if it is not one."""
    reader = Reader(path, read_file(path))
    reader.read_header()
    refuse_counts(path, reader.counts, formula, len(names.gates) if names.has_values else 0)
    circuit = reader.read()
    inputs = variables_of(path, circuit, "i", len(circuit.inputs), formula, names)
    outputs = variables_of(path, circuit, "o", len(circuit.outputs), formula, names)
    winner = winner_of(formula, inputs, outputs)
    for kind, variables, quantifier in ("o", outputs, winner), ("i", inputs, OTHER[winner]):
        refuse_mixed(path, kind, [variable for variable in variables if formula.places[variable].quantifier != quantifier], formula, names)
    order = {variable: place for place, variable in enumerate(map(int, b" ".join(text for _, text in formula.sets).split()))}
    by_prefix = lambda variables: sorted(range(len(variables)), key=lambda place: order[variables[place]])
    found = Strategy(
        winner,
        {circuit.inputs[place]: inputs[place] for place in by_prefix(inputs)},
        {outputs[place]: circuit.outputs[place] for place in by_prefix(outputs)},
        needed_gates(circuit),
    )
    refuse_late(path, found, formula, names)
    return found


def needed_gates(circuit: Circuit) -> dict[int, tuple[int, int]]:
    """The gates that the outputs depend on, each after its inputs."""
    order = circuit.needed(circuit.outputs) if circuit.is_ordered else circuit.order(circuit.outputs) or []
    return circuit.gates if circuit.is_ordered and len(order) == len(circuit.gates) else {gate: circuit.gates[gate] for gate in order}


def refuse_counts(path: str, counts: dict[str, int], formula: Formula, gates: int) -> None:
    """Ends the command if a circuit with these counts is not about the variables of the formula, or about those that are no gates, of which it
    has so many."""
    other = next((word for letter, word in NO_STRATEGY.items() if counts[letter]), None)
    if other:
        raise finding(f"{path}: the circuit has {other}, and that of a strategy has none")
    players = [sum(place.quantifier == quantifier for place in formula.places.values()) for quantifier in (EXISTS, FOR_ALL)]
    bound = [players[0] - gates, players[1]]
    if [counts["I"], counts["O"]] not in (players, players[::-1], bound, bound[::-1]):
        own = f"{players[0]} existential and {players[1]} universal variables"
        raise finding(f"{path}: the circuit has {counts['I']} inputs and {counts['O']} outputs, and the formula {own}")


def variables_of(path: str, circuit: Circuit, kind: str, count: int, formula: Formula, names: Names) -> list[int]:
    """The variable of each input or output, by its symbol."""
    found: dict[int, None] = {}
    for place in range(count):
        what, symbol = f"{KINDS[kind]} {place}", circuit.names.get((kind, place))
        if symbol is None:
            raise finding(f"{path}: {what} has no symbol, which says what its variable is")
        variable = names.variable(symbol) or names.variable(symbol.lstrip("\\"))  # yosys writes a backslash before numbers
        if variable not in formula.places:
            raise finding(f"{path}: {what} is called '{symbol}', which is not a variable of the formula")
        if variable in found:
            raise finding(f"{path}: {what} is called '{symbol}', and another {KINDS[kind]} is this variable too")
        found[variable] = None
    return list(found)


def winner_of(formula: Formula, inputs: list[int], outputs: list[int]) -> str:
    """The quantifier of the outputs, else the one that the inputs do not have. If there is no variable, all clauses are empty."""
    if outputs:
        return formula.places[outputs[0]].quantifier
    if inputs:
        return OTHER[formula.places[inputs[0]].quantifier]
    return FOR_ALL if formula.count else EXISTS


def refuse_mixed(path: str, kind: str, wrong: list[int], formula: Formula, names: Names) -> None:
    if wrong:
        adjective = ADJECTIVES[formula.places[wrong[0]].quantifier]
        raise finding(
            f"{path}: the {KINDS[kind]} {names.name(wrong[0])} is {adjective}: the outputs are the variables of one player, and the inputs the others"
        )


def last_blocks(strategy: Strategy, formula: Formula) -> dict[int, int]:
    """The last block of the inputs that each wire depends on, by its literal; 0 if there is none."""
    last = {0: 0}
    last.update((literal, formula.places[variable].block) for literal, variable in strategy.inputs.items())
    for gate, (one, other) in strategy.gates.items():
        before, after = last[one & ~1], last[other & ~1]
        last[gate] = after if before < after else before
    return last


def refuse_late(path: str, strategy: Strategy, formula: Formula, names: Names) -> None:
    """Ends the command if an output depends on an input of its own block, or of a later one."""
    last = last_blocks(strategy, formula)
    for variable, literal in strategy.outputs.items():
        block = formula.places[variable].block
        if last[literal & ~1] >= block:
            late = next(other for other in strategy.part([variable]).inputs.values() if formula.places[other].block >= block)
            wrong = f"of block {formula.places[late].block}, which does not come before it"
            raise finding(f"{path}: the output {names.name(variable)}, of block {block}, depends on the input {names.name(late)}, {wrong}")
