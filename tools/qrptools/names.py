"""The user's names of variables. A part of tools/play, tools/solve, tools/explain and tools/draw-proof.

A file of names has a variable and its name on each line; lines that begin with # are passed over, but for '# gates: 9 to 200', which says that
these variables are gates. The names NAME[3], NAME[2] and so on are
those of a bus, the bits of a number.
"""

import re
from collections.abc import Iterable, Iterator
from typing import Optional

from qrptools.command import read_file, unusable
from qrptools.words import GREATEST_VARIABLE

LISTED = 20  # variables in a message
GATES = re.compile(r"# gates: ([1-9][0-9]{0,8}) to ([1-9][0-9]{0,8})")
BIT = re.compile(r"(.+)\[([0-9]{1,4})\]")
NUMBER = re.compile(r"[0-9]+|0x[0-9a-fA-F]+|0b[01]+")
FORMS = "write NAME, NAME=1, -NAME, !NAME or NAME=0, or BUS=NUMBER for the bits BUS[0], BUS[1] and so on; a number is a NAME too"


class Names:
    """The names of variables. Without a file they are numbers."""

    def __init__(self, path: Optional[str] = None) -> None:
        self.names: dict[int, str] = {}
        self.variables: dict[str, int] = {}
        self.buses: dict[str, dict[int, int]] = {}
        self.gates: frozenset[int] = frozenset()  # the variables that are known to be gates
        self.has_values = False  # whether nobody chooses the values of these
        lines = read_file(path).decode(errors="surrogateescape").split("\n") if path else []
        for place, line in enumerate(lines, 1):
            words = line.split()
            found = GATES.fullmatch(line.strip())
            if found:
                self.gates |= frozenset(range(int(found[1]), int(found[2]) + 1))
            if words and not words[0].startswith("#"):
                self.take(words, f"{path}, line {place}")

    def take(self, words: list[str], where: str) -> None:
        if len(words) != 2 or not is_variable(words[0]):
            raise unusable(f"{where}: a variable and a name of one word are wanted")
        variable, name = int(words[0]), words[1]
        if name[0] in "-!~#" or NUMBER.fullmatch(name):
            raise unusable(f"{where}: a name does not begin with -, !, ~ or # and is not a number")
        if variable in self.names or name in self.variables:
            raise unusable(f"{where}: the variable has a name already, or the name a variable")
        self.names[variable], self.variables[name] = name, variable
        bit = BIT.fullmatch(name)
        if bit and str(int(bit[2])) == bit[2]:
            self.buses.setdefault(bit[1], {})[int(bit[2])] = variable

    def name(self, variable: int) -> str:
        return self.names.get(variable, str(variable))

    def shown(self, literals: Iterable[int]) -> str:
        """Literals as text."""
        if not self.names:
            return " ".join(map(str, literals))
        return " ".join(("-" if literal < 0 else "") + self.name(abs(literal)) for literal in literals)

    def listed(self, variables: list[int]) -> str:
        """Variables as text, without gates beside others, and of many the first."""
        variables = [variable for variable in variables if variable not in self.gates] or variables
        rest = f" and {len(variables) - LISTED} more" if len(variables) > LISTED else ""
        return self.shown(variables[:LISTED]) + rest

    def values(self, literals: Iterable[int]) -> Iterator[tuple[str, int]]:
        """The values of a bus as a number, for each bus of two bits or more of which all bits are among the literals."""
        given = {abs(literal): literal > 0 for literal in literals} if self.buses else {}
        for bus, bits in self.buses.items():
            if len(bits) > 1 and all(variable in given for variable in bits.values()):
                yield bus, sum(given[variable] << place for place, variable in bits.items())

    def literals(self, word: str) -> Optional[list[int]]:
        """The literals that a word of a reply means; None if it means none."""
        name, is_false = (word[1:], True) if word[:1] in ("-", "!", "~") else (word, False)
        variable = self.variable(name)
        if variable:
            return [-variable if is_false else variable]
        name, equals, number = word.rpartition("=")
        variable = self.variable(name)
        if not equals or not NUMBER.fullmatch(number) or variable and number not in ("0", "1"):
            return None
        if not variable:
            return self.bits(name, number)
        return [variable if number == "1" else -variable]

    def variable(self, name: str) -> int:
        """The variable of this name or number, 0 if there is none."""
        return self.variables.get(name) or (int(name) if is_variable(name) else 0)

    def bits(self, bus: str, number: str) -> Optional[list[int]]:
        """The literals of the bits of a bus that has this number, None if it has too few or there is no such bus."""
        if len(number) >= 1200:
            return None
        value = int(number, 10 if number.isdecimal() else 0)
        bits = self.buses.get(bus, {})
        if value >> (max(bits, default=-1) + 1) or any(value >> place & 1 and place not in bits for place in range(value.bit_length())):
            return None
        return [variable if value >> place & 1 else -variable for place, variable in bits.items()] or None


def is_variable(word: str) -> bool:
    return bool(re.fullmatch("0*[1-9][0-9]{0,9}", word, re.ASCII)) and int(word) <= GREATEST_VARIABLE
