"""Small random formulas with random proofs by every rule: pivots of both quantifiers, reductions of a part, parents that are reduced before they
are resolved, initial clauses and cubes that are reduced, steps that nothing needs, any numbers and orders, reductions that are put off."""

from __future__ import annotations

import random

Step = tuple[frozenset[int], list[int]]  # literals, and places of the antecedents


class Proof:
    """A formula and a proof of its truth or falsity, as texts."""

    def __init__(self, seed: int) -> None:
        self.random = random.Random(seed)
        self.quantifier: dict[int, str] = {}
        self.level: dict[int, int] = {}
        self.blocks = self.make_blocks()
        self.clauses = self.make_clauses()
        self.is_true = self.random.random() < 0.5
        self.steps: list[Step] = []
        self.place: dict[frozenset[int], int] = {}
        self.kept = self.random.choice((0.3, 0.6, 0.9))

    def make_blocks(self) -> list[tuple[str, list[int]]]:
        variables = list(range(1, self.random.randint(3, 8) + 1))
        self.random.shuffle(variables)
        blocks: list[tuple[str, list[int]]] = []
        letter = self.random.choice("ae")
        while variables:
            size = self.random.randint(1, 3)
            block, variables = variables[:size], variables[size:]
            for variable in block:
                self.quantifier[variable], self.level[variable] = letter, len(blocks)
            blocks.append((letter, block))
            letter = "a" if letter == "e" else "e"
        return blocks

    def make_clauses(self) -> list[list[int]]:
        variables, clauses = sorted(self.quantifier), []
        for _ in range(self.random.randint(2, 14)):
            chosen = self.random.sample(variables, min(len(variables), self.random.randint(1, 4)))
            clause = [variable * self.random.choice((1, -1)) for variable in chosen]
            if self.random.random() < 0.1:
                clause.append(-clause[0])
            self.random.shuffle(clause)
            clauses.append(clause)
        return clauses

    def reducible(self, literals: frozenset[int]) -> frozenset[int]:
        reduced = "e" if self.is_true else "a"
        top = max((self.level[abs(one)] for one in literals if self.quantifier[abs(one)] != reduced), default=-1)
        return frozenset(one for one in literals if self.quantifier[abs(one)] == reduced and self.level[abs(one)] > top)

    def some(self, literals: frozenset[int], part: float) -> frozenset[int]:
        return frozenset(one for one in sorted(literals) if self.random.random() < part)

    def add(self, literals: frozenset[int], antecedents: list[int]) -> None:
        if literals not in self.place:
            self.place[literals] = len(self.steps)
            self.steps.append((literals, antecedents))

    def add_clauses(self) -> None:
        for clause in self.clauses:
            literals = frozenset(clause)
            if not any(-one in literals for one in literals):
                self.add(literals - self.some(self.reducible(literals), self.random.choice((0, 0.5, 1))), [])

    def add_cubes(self) -> None:
        for _ in range(60):
            cube = {variable * self.random.choice((1, -1)) for variable in sorted(self.quantifier)}
            if all(any(one in cube for one in clause) for clause in self.clauses):
                for one in self.random.sample(sorted(cube), len(cube)):
                    if self.random.random() < self.kept and self.is_initial(cube - {one}):
                        cube.discard(one)
                self.add(frozenset(cube), [])

    def is_initial(self, cube: set[int]) -> bool:
        return all(any(one in cube for one in clause) or any(-one in clause for one in clause) for clause in self.clauses)

    def derive(self) -> bool:
        """Adds steps at random; whether the empty one is among them in the end."""
        if self.is_true:
            self.add_cubes()
        else:
            self.add_clauses()
        for _ in range(4000 if self.steps else 0):
            if frozenset() in self.place:
                break
            if self.random.random() < 0.3:
                self.reduce()
            else:
                self.resolve()
        return frozenset() in self.place

    def reduce(self) -> None:
        at = self.random.randrange(len(self.steps))
        literals = self.steps[at][0]
        left_out = self.some(self.reducible(literals), 0.6)
        if left_out:
            self.add(literals - left_out, [at])

    def resolve(self) -> None:
        first, second = self.random.randrange(len(self.steps)), self.random.randrange(len(self.steps))
        a, b = self.steps[first][0], self.steps[second][0]
        pivots = {abs(one) for one in a if -one in b}
        if len(pivots) != 1:
            return
        whole = frozenset(one for one in a | b if abs(one) not in pivots)
        if len(whole) > 7:
            return
        of_whole, of_a, of_b = self.reducible(whole), self.reducible(a), self.reducible(b)
        may = frozenset(one for one in whole if one in of_whole or (one not in a or one in of_a) and (one not in b or one in of_b))
        self.add(whole - self.some(may, self.kept), [first, second])

    def formula(self) -> str:
        lines = [f"p cnf {max(self.quantifier)} {len(self.clauses)}"]
        lines += [f"{letter} {' '.join(map(str, block))} 0" for letter, block in self.blocks]
        lines += [" ".join(map(str, [*clause, 0])) for clause in self.clauses]
        return "\n".join(lines) + "\n"

    def trace(self) -> str:
        numbers = list(range(1, len(self.steps) + 1))
        self.random.shuffle(numbers)
        lines = [f"p qrp {max(self.quantifier)} {len(self.steps)}"]
        for number, (literals, antecedents) in zip(numbers, self.steps):
            written = sorted(literals)
            self.random.shuffle(written)
            lines.append(" ".join(map(str, [number, *written, 0, *(numbers[at] for at in antecedents), 0])))
        return "\n".join([*lines, "r sat" if self.is_true else "r unsat"]) + "\n"


class PlayedProof(Proof):
    """A proof that follows all plays of the formula: the loser's variables are tried both ways, and the winner's get a value that wins. So the
    winner's moves depend on those of the loser. Reductions are put off at random."""

    def derive(self) -> bool:
        self.order = [variable for _, block in self.blocks for variable in block]
        self.is_true = self.wins(0, frozenset())
        place = self.follow(0, frozenset())
        while self.steps[place][0]:
            place = self.put(self.steps[place][0] - self.reducible(self.steps[place][0]), [place])
        return True

    def holds(self, values: frozenset[int]) -> bool:
        return all(any(one in values for one in clause) for clause in self.clauses)

    def wins(self, at: int, values: frozenset[int]) -> bool:
        """Whether the formula is true if the variables before the place `at` have these values."""
        if at == len(self.order):
            return self.holds(values)
        both = (self.wins(at + 1, values | {sign * self.order[at]}) for sign in (1, -1))
        return any(both) if self.quantifier[self.order[at]] == "e" else all(both)

    def put(self, literals: frozenset[int], antecedents: list[int]) -> int:
        self.add(literals, antecedents)
        return self.place[literals]

    def reduced(self, place: int) -> int:
        """A step without some of what may be left out of it."""
        literals = self.steps[place][0]
        left_out = self.some(self.reducible(literals), self.random.choice((0, 0.5, 1)))
        return self.put(literals - left_out, [place]) if left_out else place

    def follow(self, at: int, values: frozenset[int]) -> int:
        """The place of a step that these values do not meet: a clause that they make false, or a cube that they make true."""
        literal_of = (lambda one: one) if self.is_true else (lambda one: -one)
        if at == len(self.order):
            return self.reduced(self.put(self.leaf(values), []))
        variable = self.order[at]
        if (self.quantifier[variable] == "e") == self.is_true:
            sign = next(sign for sign in self.random.sample((1, -1), 2) if self.wins(at + 1, values | {sign * variable}) == self.is_true)
            return self.reduced(self.follow(at + 1, values | {sign * variable}))
        first = self.follow(at + 1, values | {variable})
        if literal_of(variable) not in self.steps[first][0]:
            return first
        second = self.follow(at + 1, values | {-variable})
        if literal_of(-variable) not in self.steps[second][0]:
            return second
        return self.reduced(self.resolvent(first, second, variable))

    def leaf(self, values: frozenset[int]) -> frozenset[int]:
        if not self.is_true:
            return frozenset(self.random.choice([clause for clause in self.clauses if not any(one in values for one in clause)]))
        cube = set(values)
        for one in self.random.sample(sorted(values), len(values)):
            if self.random.random() < self.kept and self.is_initial(cube - {one}):
                cube.discard(one)
        return frozenset(cube)

    def resolvent(self, first: int, second: int, variable: int) -> int:
        """The resolvent on a variable, after both antecedents lost the literals that clash beside it: these can be left out."""
        literals = [self.steps[first][0], self.steps[second][0]]
        places = [first, second]
        for side in (0, 1):
            clashing = frozenset(one for one in literals[side] if -one in literals[1 - side] and abs(one) != variable)
            if clashing:
                places[side] = self.put(literals[side] - self.reducible(literals[side]), [places[side]])
                literals[side] = self.steps[places[side]][0]
        return self.put((literals[0] | literals[1]) - {variable, -variable}, places)


class PlantedProof(PlayedProof):
    """A formula in which the winner has to compute functions of two of the loser's variables, and its proof by all plays.

    If it is true, clauses define each of the winner's variables. If it is false, a last block has a variable for each function, which is forced
    to be true if the universal player computes it, and one clause says that one of them is false."""

    def make_blocks(self) -> list[tuple[str, list[int]]]:
        self.is_planted_true = self.random.random() < 0.5
        loser, winner = ("a", "e") if self.is_planted_true else ("e", "a")
        names = self.random.sample(range(1, 12), 11)
        blocks = [(loser, [names.pop(), names.pop()]), (winner, [names.pop()]), (loser, [names.pop()]), (winner, [names.pop()])]
        if not self.is_planted_true:
            blocks.append((loser, [names.pop(), names.pop()]))
        for level, (letter, block) in enumerate(blocks):
            for variable in block:
                self.quantifier[variable], self.level[variable] = letter, level
        return blocks

    def make_clauses(self) -> list[list[int]]:
        (first, second), (early,), (third,), (late,) = (block for _, block in self.blocks[:4])
        forced = self.blocks[4][1] if len(self.blocks) > 4 else [0, 0]
        clauses = []
        for inputs, output, then in (((first, second), early, forced[0]), (self.random.sample((first, second, third), 2), late, forced[1])):
            table = self.random.choice((0b0110, 0b1001, 0b1000, 0b1110, 0b0100, 0b0010))
            for row in range(4):
                values = [variable if row >> bit & 1 else -variable for bit, variable in enumerate(inputs)]
                result = output if table >> row & 1 else -output
                clauses.append([*(-one for one in values), *([-result, then] if then else [result])])
        if forced[0]:
            clauses.append([-one for one in forced])
        for clause in clauses:
            self.random.shuffle(clause)
        self.random.shuffle(clauses)
        return clauses


def random_proof(seed: int) -> Proof | None:
    """The proof of a seed, if its random steps come to an end. Of three seeds one is by random steps, and two by all plays."""
    proof = (Proof, PlayedProof, PlantedProof)[seed % 3](seed)
    return proof if proof.derive() else None
