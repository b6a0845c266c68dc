"""Random formulas with proofs, for the tests of tools/play.

A formula is a list of pairs of quantifier and variable, and a list of clauses. A proof is a truth and a list of steps, each its literals and
the places of its antecedents. `truth` is found by trying all values, with no proof.
"""

import random
from collections.abc import Collection, Iterable, Sequence, Set
from typing import Any, Union

Pairs = list[tuple[str, int]]
Clauses = list[list[int]]
Steps = Sequence[tuple[Collection[int], Sequence[int]]]

GREATEST = 2**64 - 1


def truth(pairs: Pairs, clauses: Clauses, values: frozenset[int] = frozenset()) -> bool:
    """Whether the formula is true after these values of its first variables."""
    if len(values) == len(pairs):
        return all(not values.isdisjoint(clause) for clause in clauses)
    quantifier, variable = pairs[len(values)]
    below = (truth(pairs, clauses, values | {literal}) for literal in (variable, -variable))
    return any(below) if quantifier == "e" else all(below)


def random_formula(draw: random.Random) -> tuple[Pairs, Clauses]:
    """A formula of up to 7 variables, with empty clauses, tautologies and repeated literals among others."""
    variables = draw.sample(range(1, 12), draw.randint(0, 7))
    pairs = [(draw.choice("ae"), variable) for variable in variables]
    if draw.random() < 0.5:
        pairs.sort(key=lambda pair: pair[1] // 4)  # longer blocks
    clauses, is_dense = [], draw.random() < 0.5  # many long clauses make longer proofs
    for _ in range(draw.randint(12, 40) if is_dense else draw.randint(0, 9)):
        length = draw.randint(3, 4) if is_dense else draw.randint(1, 4) if draw.random() < 0.95 else 0
        clauses.append([draw.choice((1, -1)) * variable for variable in draw.choices(variables, k=length)] if variables else [])
    return pairs, clauses


class Searched:
    """The proof that the search for the truth of a formula gives, without sharing."""

    def __init__(self, pairs: Pairs, clauses: Clauses) -> None:
        self.steps: list[Any]
        self.pairs, self.clauses, self.steps = pairs, clauses, []
        self.truth = truth(pairs, clauses)
        self.find(frozenset())

    def step(self, literals: Iterable[int], antecedents: list[int]) -> tuple[int, frozenset[int]]:
        self.steps.append((sorted(literals, key=abs), antecedents))
        return len(self.steps) - 1, frozenset(literals)

    def find(self, values: frozenset[int]) -> tuple[int, frozenset[int]]:
        """A step all of whose literals are false after these values, or true if it is a cube."""
        if len(values) == len(self.pairs):
            return self.step(values, []) if self.truth else self.step(next(c for c in self.clauses if values.isdisjoint(c)), [])
        quantifier, variable = self.pairs[len(values)]
        branches = [values | {literal} for literal in (variable, -variable)]
        if (quantifier == "e") == self.truth:
            won = next(branch for branch in branches if truth(self.pairs, self.clauses, branch) == self.truth)
            place, literals = self.find(won)
            return self.step(literals - {variable, -variable}, [place])
        (one, first), (other, second) = map(self.find, branches)
        for place, literals in (one, first), (other, second):
            if literals.isdisjoint((variable, -variable)):
                return place, literals
        return self.step((first | second) - {variable, -variable}, [one, other])


class Saturated:
    """A proof of steps that are drawn at random until one is empty; `steps` is None if none is found in time."""

    def __init__(self, pairs: Pairs, clauses: Clauses, any_pivot: bool, draw: random.Random) -> None:
        self.pairs, self.clauses, self.draw = pairs, clauses, draw
        self.truth = truth(pairs, clauses)
        self.deciding, self.reduced = ("a", "e") if self.truth else ("e", "a")
        self.quantifiers = {variable: quantifier for quantifier, variable in pairs}
        self.block: dict[Any, Any]
        self.block, last = {}, None
        for quantifier, variable in pairs:
            self.block[variable] = max(self.block.values(), default=0) + (quantifier != last)
            last = quantifier
        self.pivots = "ae" if any_pivot else self.deciding
        self.known: set[Any]
        self.steps: Any  # a list, or None
        self.steps, self.known = [], set()
        self.find()

    def find(self) -> None:
        for _ in range(12):
            self.add_initial()
        for _ in range(4000):
            if self.steps and not self.steps[-1][0]:
                return
            if self.draw.random() < 0.02 or not self.steps:
                self.add_initial()
            elif self.draw.random() < 0.2:
                place = self.draw.randrange(len(self.steps))
                literals = self.steps[place][0]
                self.add(literals, self.reducible(literals), [place])
            else:
                self.add_resolvent(*self.draw.choices(range(len(self.steps)), k=2))
        self.steps = None

    def reducible(self, literals: Set[int]) -> set[int]:
        last = max((self.block[abs(l)] for l in literals if self.quantifiers[abs(l)] == self.deciding), default=0)
        return {l for l in literals if self.quantifiers[abs(l)] == self.reduced and self.block[abs(l)] > last}

    def add(self, literals: Set[int], may_go: Set[int], antecedents: list[int]) -> None:
        """Adds a step without some of the literals that may go."""
        share = self.draw.choice((0, 0.5, 1, 1))
        kept = frozenset(l for l in literals if l not in may_go or self.draw.random() >= share)
        if kept not in self.known:
            self.known.add(kept)
            self.steps.append((kept, antecedents))

    def add_initial(self) -> None:
        if self.truth:
            values = {self.draw.choice((variable, -variable)) for _, variable in self.pairs}
            if any(values.isdisjoint(clause) and is_clean(clause) for clause in self.clauses):
                return
            for literal in self.draw.sample(sorted(values), len(values)):
                rest = values - {literal}
                if self.draw.random() < 0.8 and not any(rest.isdisjoint(clause) and is_clean(clause) for clause in self.clauses):
                    values = rest
            self.add(values, frozenset(), [])
        elif self.clauses:
            clause = set(self.draw.choice(self.clauses))
            if is_clean(clause):
                self.add(clause, self.reducible(clause), [])

    def add_resolvent(self, one: int, other: int) -> None:
        first, second = self.steps[one][0], self.steps[other][0]
        clashes = [literal for literal in first if -literal in second]
        if len(clashes) == 1 and self.quantifiers[abs(clashes[0])] in self.pivots:
            literals = (first | second) - {clashes[0], -clashes[0]}
            in_parents = {l for l in literals if all(l in self.reducible(parent) for parent in (first, second) if l in parent)}
            self.add(literals, self.reducible(literals) | in_parents, [one, other])


def is_clean(literals: Iterable[int]) -> bool:
    return all(-literal not in literals for literal in literals)


def formula_text(pairs: Pairs, clauses: Clauses, draw: random.Random) -> str:
    """The text of a formula; neighbouring sets of one quantifier and empty sets may be there."""
    lines: list[Any]
    lines, last = [], None
    for quantifier, variable in pairs:
        if quantifier == last and draw.random() < 0.8:
            lines[-1].append(variable)
        else:
            lines += [["ae"[draw.random() < 0.5]]] if draw.random() < 0.1 else []
            lines.append([quantifier, variable])
        last = quantifier
    lines += [list(clause) for clause in clauses]
    return f"p cnf 12 {len(clauses)}\n" + "".join(" ".join(map(str, [*line, 0])) + "\n" for line in lines)


def trace_text(steps: Steps, result: bool, draw: random.Random) -> str:
    """The text of a trace, with numbers in any order, literals in any order and some of them repeated."""
    top = draw.choice((len(steps), 3 * len(steps), GREATEST))
    numbers = draw.sample(range(top - 3 * len(steps), top + 1), len(steps)) if top == GREATEST else draw.sample(range(1, top + 1), len(steps))
    lines = []
    for number, (literals, antecedents) in zip(numbers, steps):
        literals = draw.sample(sorted(literals), len(literals))
        literals += draw.choices(literals, k=draw.randint(0, 2)) if literals and draw.random() < 0.2 else []
        lines.append([number, *literals, 0, *(numbers[place] for place in antecedents), 0])
    return "p qrp 0 0\n" + "".join(" ".join(map(str, line)) + "\n" for line in lines) + f"r {'sat' if result else 'unsat'}\n"


def random_case(seed: int) -> tuple[Pairs, Clauses, bool, str, str]:
    """The formula of a seed, whether its proof needs any pivot, and both texts. There may be no proof, but of a search there is."""
    draw = random.Random(seed)
    pairs, clauses = random_formula(draw)
    any_pivot = draw.random() < 0.5
    proof: Union[Searched, Saturated] = Searched(pairs, clauses) if draw.random() < 0.3 else Saturated(pairs, clauses, any_pivot, draw)
    if proof.steps is None:
        proof = Searched(pairs, clauses)
    return pairs, clauses, any_pivot, formula_text(pairs, clauses, draw), trace_text(proof.steps, proof.truth, draw)
