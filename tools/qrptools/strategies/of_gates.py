"""A circuit for the variables of a formula of gates, as one for all variables of its clauses. A part of tools/explain-strategy and tools/play.

Nobody chooses the values of gates, so a circuit that wins a formula of gates, as qrp_gates writes it, has no outputs or inputs for them. In the
clauses they are variables of the existential player: outputs that follow from the others if this player wins, and else inputs that no output
depends on.
"""

from collections.abc import Collection

from qrptools.formula import EXISTS, FOR_ALL, Formula
from qrptools.questions.files import Asked, QuestionGates
from qrptools.questions.reader import Gate, Question
from qrptools.strategies.strategy import Files, Strategy, strategy_of


def strategy_for(given: Asked, files: Files, flags: list[str], folder: str) -> tuple[Formula, Strategy]:
    """The formula in clauses and the strategy of some files, for all of its variables."""
    formula, strategy = strategy_of(given, files, flags, folder)
    question = given.question
    if not question or not question.gates or set(question.gates) <= {*strategy.outputs, *strategy.inputs.values()}:
        return formula, strategy
    if not question.places:
        strategy = strategy._replace(winner=EXISTS if is_true(question) else FOR_ALL)
    return formula, with_gates(strategy, question)


def without_gates(strategy: Strategy, gates: Collection[int]) -> Strategy:
    """The circuit without the outputs of these gates, and without their inputs."""
    if not gates:
        return strategy
    part = strategy.part(variable for variable in strategy.outputs if variable not in gates)
    return part._replace(inputs={literal: variable for literal, variable in strategy.inputs.items() if variable not in gates})


def is_true(question: Question) -> bool:
    """Whether a formula without variables is true."""
    values: dict[int, int] = {}
    QuestionGates(question).set_to(values, set())
    return question.output in values.values()


class Conjunctions:
    """The gates of a circuit, to which more are added."""

    def __init__(self, strategy: Strategy) -> None:
        self.gates = dict(strategy.gates)
        self.latest = max([0, *strategy.inputs, *self.gates])

    def all_of(self, literals: list[int]) -> int:
        """A literal that is true if all of these are."""
        found = literals[0] if literals else 1
        for literal in literals[1:]:
            self.latest += 2
            self.gates[self.latest] = (found, literal)
            found = self.latest
        return found

    def any_of(self, literals: list[int]) -> int:
        return self.all_of([literal ^ 1 for literal in literals]) ^ 1

    def choice(self, condition: int, one: int, other: int) -> int:
        """The first of two literals if the condition is true, else the second."""
        return self.any_of([self.all_of([condition, one]), self.all_of([condition ^ 1, other])])

    def gate(self, gate: Gate, inputs: list[int]) -> int:
        """The literal of a gate with these inputs."""
        if gate.kind == "and":
            return self.all_of(inputs)
        if gate.kind == "or":
            return self.any_of(inputs)
        return self.choice(inputs[0], inputs[1] ^ 1, inputs[1]) if gate.kind == "xor" else self.choice(*inputs)


def with_gates(strategy: Strategy, question: Question) -> Strategy:
    """The circuit for all variables of the clauses."""
    found = Conjunctions(strategy)
    if strategy.winner != EXISTS:
        inputs = {found.latest + 2 * place: gate for place, gate in enumerate(question.gates, 1)}
        return strategy._replace(inputs={**strategy.inputs, **inputs})
    literals = {variable: literal for literal, variable in strategy.inputs.items()}
    literals.update(strategy.outputs)
    for variable, gate in question.gates.items():
        literals[variable] = found.gate(gate, [literals[abs(literal)] ^ (literal < 0) for literal in gate.inputs])
    outputs = {**strategy.outputs, **{variable: literals[variable] for variable in question.gates}}
    return strategy._replace(outputs=outputs, gates=found.gates)
