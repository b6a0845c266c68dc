"""The other player's values. A part of tools/play and tools/solve."""

import random
import sys
from collections.abc import Collection
from typing import Callable, Optional

from qrptools.command import Ends, unusable
from qrptools.formula import ADJECTIVES
from qrptools.games.game import Block
from qrptools.names import FORMS, Names

Values = dict[int, int]  # the literals that are true, by their variables


class Replies:
    """The other player's values: texts for blocks of this player in order, and what else is asked for or taken at random. Outputs of gates
    that no text has get the values that their gates give them."""

    def __init__(self, replies: list[str], blocks: list[Block], names: Names, seed: Optional[str]) -> None:
        if len(replies) > len(blocks):
            raise unusable(f"there are {len(replies)} replies, and only {len(blocks)} blocks of the other player")
        self.names, self.random = names, random.Random(seed) if seed is not None else None
        self.given = {block.number: self.read(text, block, {}) for block, text in zip(blocks, replies)}
        self.is_terminal = bool(sys.stdin and sys.stdin.isatty())
        self.before_asking: Callable[[], None] = lambda: None  # what has to be done before a question

    def read(self, text: str, block: Block, values: Values) -> Values:
        """Adds the values of a text to those that are known of a block."""
        variables = frozenset(block.variables)
        for word in text.replace(",", " ").split():
            for literal in self.names.literals(word) or [0]:
                if abs(literal) not in variables:
                    known = self.names.listed(block.variables)
                    raise unusable(f"'{word}' is not a literal of {described(block)}, which has the variables {known} ({FORMS})")
                if values.setdefault(abs(literal), literal) != literal:
                    raise unusable(f"the reply for {described(block)} has {self.names.name(abs(literal))} with both values")
        return values

    def values(self, block: Block, gates: Collection[int]) -> Optional[Values]:
        """The values of a block by variable, but for those of gates that nobody gives; None if some are not given."""
        values: Values = dict(self.given.get(block.number, {}))
        missing = [variable for variable in block.variables if variable not in values and variable not in gates]
        if missing and self.random:
            values.update((variable, self.random.choice((variable, -variable))) for variable in missing)
        elif missing and self.is_terminal:
            return self.asked(block, values, missing)
        elif missing and block.number in self.given:
            raise unusable(f"the reply for {described(block)} has no value of {self.names.listed(missing)}")
        elif missing:
            return None
        return values

    def asked(self, block: Block, values: Values, wanted: list[int]) -> Optional[Values]:
        """The values after the user was asked for those that are wanted, None if the user ends the play."""
        self.before_asking()
        while missing := [variable for variable in wanted if variable not in values]:
            question = f"{described(block)}: {self.names.listed(missing)} (with - what is false; an empty line ends): "
            print(question, end="", file=sys.stderr, flush=True)
            line = sys.stdin.readline()
            if not line.strip():
                return None
            try:
                values = self.read(line, block, dict(values))
            except Ends as fault:
                print(fault, file=sys.stderr)
        return values


def described(block: Block) -> str:
    return f"block {block.number} ({ADJECTIVES[block.quantifier]})"
