"""What the variables and gates of a strategy are called in a text. A part of tools/explain-strategy."""

import re
from collections.abc import Iterable
from typing import Callable

from qrptools.names import Names
from qrptools.strategies.strategy import Strategy

Spelling = Callable[[str], str]  # a name as a format takes it


def as_it_is(name: str) -> str:
    return name


def unused(stem: str, names: Iterable[str]) -> str:
    """The stem, with so many underscores that no name is it with a number after it."""
    taken = list(names)
    while any(re.fullmatch(f"{stem}[0-9]+", name) for name in taken):
        stem += "_"
    return stem


class Labels:
    """The labels of the inputs, the outputs and the gates of a strategy, no two of which are the same. A variable without a name is called by
    its number, after a letter if there is one."""

    def __init__(self, strategy: Strategy, names: Names, letter: str = "v", spelled: Spelling = as_it_is) -> None:
        self.strategy, given = strategy, list(map(spelled, names.variables))
        self.stem = unused("g", given)
        stem = unused(letter, given) if letter else ""
        self.variables: dict[int, str] = {}
        seen = {"false", "true"}  # which are constants in a text
        for variable in (*strategy.inputs.values(), *strategy.outputs):
            label = spelled(names.names[variable]) if variable in names.names else f"{stem}{variable}"
            while label in seen:
                label += "_"
            seen.add(label)
            self.variables[variable] = label

    def wire(self, literal: int) -> str:
        """The label of an input or a gate, by its literal without a sign."""
        variable = self.strategy.inputs.get(literal)
        return self.gate(literal) if variable is None else self.variables[variable]

    def gate(self, literal: int) -> str:
        return f"{self.stem}{literal // 2}"

    def inputs(self) -> list[str]:
        return [self.variables[variable] for variable in self.strategy.inputs.values()]

    def outputs(self) -> list[str]:
        return [self.variables[variable] for variable in self.strategy.outputs]
