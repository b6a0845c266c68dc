"""The game that a formula is, played by the circuit of a whole strategy. A part of tools/play.

The circuit answers each reply at once. No state is verified: whether the circuit wins is said by who made it, and at the end by the matrix.
"""

from qrptools.formula import EXISTS, Formula
from qrptools.games.game import Checker, State, blocks_of
from qrptools.step_rules import SIDES
from qrptools.strategies.strategy import Strategy, last_blocks


class CircuitState(State):
    """A formula, and the values of the blocks so far. A gate gets its value once, after the last block that it depends on."""

    by = "circuit"

    def __init__(self, formula: Formula, strategy: Strategy) -> None:
        self.formula, self.strategy, self.blocks = formula, strategy, blocks_of(formula)
        self.result = "sat" if strategy.winner == EXISTS else "unsat"
        self.side = SIDES[self.result]
        self.true: set[int] = set()
        self.inputs = {variable: literal for literal, variable in strategy.inputs.items()}
        self.values = {0: 0}  # of the wires, by their literals
        self.gates: dict[int, list[int]] = {}  # by the last block that they depend on
        last = last_blocks(strategy, formula)
        for gate in strategy.gates:
            self.gates.setdefault(last[gate], []).append(gate)
        self.run(0)

    def run(self, block: int) -> None:
        """Gives the gates their values that depend on this block and on those before it."""
        values, inputs = self.values, self.strategy.gates
        for gate in self.gates.pop(block, []):
            one, other = inputs[gate]
            values[gate] = (values[one & ~1] ^ one & 1) & (values[other & ~1] ^ other & 1)

    def move(self) -> tuple[list[int], list[int]]:
        """The winner's values of the outermost block, as literals."""
        outputs = self.strategy.outputs
        value = lambda literal: self.values[literal & ~1] ^ literal & 1
        return [variable if value(outputs[variable]) else -variable for variable in self.blocks[0].variables], []

    def put_in(self, values: list[int]) -> None:
        self.true.update(values)
        self.values.update((self.inputs[abs(literal)], int(literal > 0)) for literal in values if abs(literal) in self.inputs)
        self.run(self.blocks[0].number)
        del self.blocks[0]

    def holds(self) -> bool:
        return not any(self.true.isdisjoint(clause.literals) for clause in self.formula.clauses())


class NoChecker(Checker):
    """Lets each state pass, without a line."""

    def __init__(self) -> None:
        super().__init__("", False, [])

    def check(self, _state: State) -> tuple[str, list[str]]:
        return "", []
