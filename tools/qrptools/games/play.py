"""A play of the game: the moves of both players up to the end, or up to a block of the other player without values.

A part of tools/play and tools/solve, which tell it in their own ways.
"""

from argparse import Namespace
from collections.abc import Iterator
from typing import NamedTuple, Optional, Union

from qrptools.formula import ADJECTIVES, EXISTS
from qrptools.games.game import LINES, Block, Checker, State
from qrptools.games.gates import Gates
from qrptools.games.replies import Replies, described
from qrptools.names import Names
from qrptools.questions.files import QuestionGates, QuestionNames


class Move(NamedTuple):
    """A move: the block, whether the winner makes it, the literals that are then true, the variables that the proof leaves open, those that
    are set as their gates give them, the program's line, and the files of the state."""

    block: Block
    is_winners: bool
    values: list[int]
    are_open: list[int]
    gates: list[int]
    line: str
    files: list[str]


class Failing(NamedTuple):
    """A clause that is false at the end: its number, its line, and its literals."""

    number: int
    line: int
    literals: list[int]


SOME_CLAUSES = 5  # in a message
UNNAMED = 20  # variables without a name that are shown in a move, if others have names


class Play:
    """A game. What happens is told by the methods at the end, which do nothing here."""

    def __init__(self, arguments: Namespace, state: State, names: Names, checker: Checker) -> None:
        self.state, self.names, self.checker = state, names, checker
        theirs = [block for block in state.blocks if not state.is_winners(block)]
        self.replies = Replies(arguments.reply, theirs, names, arguments.random)
        self.winner = ADJECTIVES[state.side.reduced]
        self.verified = LINES[state.result]
        self.true: set[int] = set()  # the literals that are true after the moves so far
        self.is_lost = False  # whether the end is that of the other player, which can be if nothing is verified

    def to_the_end(self) -> None:
        """Plays while there are values."""
        self.began()
        while self.state.blocks:
            block = self.state.blocks[0]
            if self.state.is_winners(block):
                values, are_open = self.state.move()
                self.make(block, values, are_open, [])
                continue
            given, gates = self.other_values(block)
            if given is None:
                self.stopped(block)
                return
            self.make(block, given, [], gates)
        holds = self.state.holds()
        self.is_lost = holds != (self.state.result == "sat")
        self.ended(holds, [] if holds else self.failing())

    def other_values(self, block: Block) -> tuple[Optional[list[int]], list[int]]:
        """The other player's values of a block, None if some are not given, and the variables that are set as their gates give them."""
        given = self.replies.given.get(block.number, {})
        is_last = block.quantifier == EXISTS and len(self.state.blocks) == 1  # gates are innermost
        whole = not is_last or all(variable in given for variable in block.variables)
        gates = None if whole else self.gates_of(block)
        values = self.replies.values(block, gates.definitions if gates else {})
        if values is None:
            return None, []
        named = set(values)
        if gates:
            gates.set_to(values, self.true)
        return [values[variable] for variable in block.variables], [variable for variable in block.variables if variable not in named]

    def gates_of(self, block: Block) -> Union[Gates, QuestionGates]:
        """The gates of the innermost block."""
        if isinstance(self.names, QuestionNames):
            return QuestionGates(self.names.question)
        return Gates(self.state.formula, block.variables)

    def make(self, block: Block, values: list[int], are_open: list[int], gates: list[int]) -> None:
        """Makes a move and has the state after it verified."""
        is_winners = self.state.is_winners(block)
        self.state.put_in(values)
        line, files = self.checker.check(self.state)
        self.true.update(values)
        self.moved(Move(block, is_winners, values, are_open, gates, line, files))

    def failing(self) -> list[Failing]:
        """The clauses of the formula that are false at the end."""
        false = {b"%d" % -literal for literal in self.true}
        found: list[Failing] = []
        for number, line, texts in self.state.formula.pieces():
            for place, text in enumerate(texts):
                if false.issuperset(text.split()):
                    found.append(Failing(number + place, line + place, list(dict.fromkeys(map(int, text.split())))))
        return found

    def lines_of_move(self, move: Move) -> Iterator[str]:
        """A move as text: who makes it, the literals, and the numbers of the buses."""
        who = f"by the {self.state.by}" if move.is_winners else "the other player"
        gates, shown = {abs(literal) for literal in move.values} & self.names.gates | set(move.gates), []
        literals = [literal for literal in move.values if abs(literal) not in gates]
        unnamed = [literal for literal in literals if abs(literal) not in self.names.names] if self.names.names else []
        if len(unnamed) > UNNAMED:
            literals = [literal for literal in literals if abs(literal) in self.names.names]
        if literals:
            shown.append(self.names.shown(literals))
        if len(unnamed) > UNNAMED:
            shown.append(f"{len(unnamed)} variables without a name")
        if gates:
            shown.append(f"{len(gates)} gate{'s' if len(gates) > 1 else ''} as defined")
        yield f"{described(move.block)}, {who}: {', and '.join(shown)}"
        numbers = " ".join(f"{bus}={number}" for bus, number in self.names.values(literals))
        if numbers:
            yield f"    as numbers: {numbers}"
        if move.are_open:
            yield f"    left open by the proof: {self.names.shown(move.are_open)}"

    def lines_of_end(self, holds: bool, failing: list[Failing]) -> Iterator[str]:
        """The end as text: who has won, and which clauses are false."""
        end = "has lost" if self.is_lost else "has won"
        yield f"no variable is left, and the matrix {'holds' if holds else 'does not hold'}: the {self.winner} player {end}"
        for clause in failing[:SOME_CLAUSES]:
            literals = self.names.shown(clause.literals) or "it has no literal"
            yield f"    clause {clause.number}, in line {clause.line} of the formula, is false: {literals}"
        if len(failing) > SOME_CLAUSES:
            yield f"    and {len(failing) - SOME_CLAUSES} more clauses"

    def began(self) -> None:
        """The game begins."""

    def moved(self, move: Move) -> None:
        """A move was made, and verified."""

    def stopped(self, block: Block) -> None:
        """The game stops before a block of the other player."""

    def ended(self, holds: bool, failing: list[Failing]) -> None:
        """The game is at its end."""
