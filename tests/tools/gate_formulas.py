"""Formulas of gates for the tests: random texts in QCIR-14, and what they say by trying all values of the variables. No clause is made, and nothing
is shared with the tools or the programs."""

import random
import re
from typing import Any, Optional

LINE = re.compile(r"\s*(\w+)\s*(?:=\s*(\w+)\s*)?\((.*)\)\s*")
KINDS = {
    "and": all,
    "or": any,
    "xor": lambda values: values[0] != values[1],
    "ite": lambda values: values[1] if values[0] else values[2],
}


class GateFormula:
    """A formula of gates of a text that is right: its variables with their quantifiers, its gates in order, and its output."""

    def __init__(self, text: str) -> None:
        self.prefix, self.gates, self.output = [], [], ""
        for line in text.split("\n")[1:]:
            if not line.strip() or line.lstrip().startswith("#"):
                continue
            parts = LINE.fullmatch(line)
            assert parts, line
            name, kind, inside = parts.groups()
            words = ["".join(word.split()) for word in inside.split(",")] if inside.strip() else []
            if kind:
                self.gates.append((name, kind, words))
            elif name == "output":
                self.output = words[0]
            else:
                self.prefix += [(name[0].replace("f", "a"), word) for word in words]

    def values(self, given: dict[str, bool]) -> dict[str, bool]:
        """The values of all names, by those of the variables."""
        found = dict(given)
        for name, kind, words in self.gates:
            found[name] = KINDS[kind]([found[word.lstrip("-")] != word.startswith("-") for word in words])
        return found

    def holds(self, given: dict[str, bool]) -> bool:
        """Whether the output is true."""
        return self.values(given)[self.output.lstrip("-")] != self.output.startswith("-")

    def truth(self, given: Optional[dict[str, bool]] = None) -> bool:
        """Whether the formula is true, if these values are given to the variables of a part of the prefix."""
        given = given or {}
        if len(given) == len(self.prefix):
            return self.holds(given)
        quantifier, name = self.prefix[len(given)]
        answers = (self.truth({**given, name: value}) for value in (False, True))
        return any(answers) if quantifier == "e" else all(answers)


def random_formula(pick: random.Random) -> str:
    """A random text: gates of all kinds, also wide, empty and of one input, with inputs that are repeated and negated; at times the output is a
    variable; names may be numbers and words of the format, and blanks and comments stand here and there."""
    count = pick.randint(1, 7)
    pool = ["and", "xor", "output", "1", "22", "_", "a", "A", "x1", "exists", "b_0", "ite", "G", "g", "free", "7", "z", "name", "QCIR", "14", "003"]
    names = pick.sample(pool, len(pool)) + [f"n{number}" for number in range(40)]
    known: list[Any]
    lines, known, blank = [pick.choice(("#QCIR-14", "#QCIR-G14", "#QCIR-14 9"))], [], pick.choice(("", " ", "\t"))
    rest = names[:count]
    while rest:
        size = pick.randint(1, len(rest))
        lines.append(f"{pick.choice(('exists', 'forall'))}({f',{blank}'.join(rest[:size])})")
        known, rest = known + rest[:size], rest[size:]
    gates = []
    for name in names[count : count + pick.choice((0, 1, 2, 5, 9, 14))]:
        kind = pick.choice(("and", "or", "xor", "ite"))
        size = {"xor": 2, "ite": 3}.get(kind) or pick.choice((0, 1, 2, 2, 3, 3, 6, 12))
        inputs = [pick.choice(("", "-")) + pick.choice(known[-6:] if pick.random() < 0.7 else known) for _ in range(size)]
        gates += [f"{name}{blank}={blank}{kind}({f'{blank},'.join(inputs)})"]
        gates += [pick.choice(("", "# a comment = and("))] if pick.random() < 0.1 else []
        known.append(name)
    output = known[-1] if pick.random() < 0.9 else pick.choice(known)
    return "\n".join([*lines, f"output({pick.choice(('', '-'))}{output})", *gates, *([""] if pick.random() < 0.5 else [])])
