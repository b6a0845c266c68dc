"""A small solver that has its own proof checked. usage: python3 solve.py FORMULA [TRACE]

It searches with clause and cube learning, and hands each step over to the library as soon as it has it. It prints the line of the library's
verdict on its proof. If a second file is named, it also writes the proof there as text. The status is that of qrp_cmd.
"""

import dataclasses
import pathlib
import sys

import qrp_check


@dataclasses.dataclass(frozen=True)
class Constraint:
    """A clause that follows, or a cube, with the number of its step.

    It is reduced: a clause without a universal literal that comes after all its existential ones, and a cube the other way round.
    """

    is_cube: bool
    literals: frozenset
    step: int


class Solver:
    """A formula, whose text is in canonical form, and the constraints that were learned. The proof is handed over to `proof`."""

    def __init__(self, formula, proof):
        self.proof = proof
        self.universal = {}  # whether a variable is
        self.block = {}  # of each variable, the place of the first variable of its block
        self.order = []  # the variables from outermost to innermost
        self.values = set()  # the literals that are set to true
        self.clauses = []  # those of the formula that are not tautologies
        self.constraints = []  # the same, reduced, and what was learned
        self.last = 0  # the number of the last step
        for line in formula.decode().splitlines()[1:]:
            *words, _ = line.split()
            if words and words[0] in ("a", "e"):
                self.add_block(words[0] == "a", [int(word) for word in words[1:]])
            else:
                self.add_clause([int(word) for word in words])

    def add_block(self, universal, variables):
        self.proof.add_variables(variables, universal=universal)
        place = len(self.order)
        for variable in variables:
            self.universal[variable], self.block[variable] = universal, place
        self.order += variables

    def add_clause(self, literals):
        self.proof.add_clause(literals)
        clause = frozenset(literals)
        if not any(-literal in clause for literal in clause):
            self.clauses.append(clause)
            self.learn(False, clause, [])

    def solve(self):
        """Whether the formula is true. The last step is then the empty cube, or else the empty clause."""
        return self.search(0).is_cube

    def reduced(self, is_cube, literals):
        """The literals without those of the reduced quantifier that come after all others."""
        deciding = [self.block[abs(literal)] for literal in literals if self.universal[abs(literal)] == is_cube]
        innermost = max(deciding, default=-1)
        return frozenset(literal for literal in literals if self.block[abs(literal)] <= innermost)

    def add_step(self, literals, antecedents):
        """Hands a step over. Returns its number."""
        self.last += 1
        self.proof.add_step(self.last, literals, antecedents)
        return self.last

    def learn(self, is_cube, literals, antecedents):
        """Hands a step over that has these antecedents, and keeps it."""
        kept = self.reduced(is_cube, literals)
        if is_cube and not antecedents and kept != literals:
            # An initial cube is reduced in a step of its own; a clause and a resolvent are reduced at once.
            antecedents = [self.add_step(literals, [])]
        self.constraints.append(Constraint(is_cube, kept, self.add_step(kept, antecedents)))
        return self.constraints[-1]

    def decides(self, constraint):
        """Whether the values decide the game by this constraint: the literals of a clause are all false, or those of a cube all true."""
        return all((literal if constraint.is_cube else -literal) in self.values for literal in constraint.literals)

    def true_literals(self):
        """A true literal of each clause, if possible an existential one, since these can be reduced; None if a clause has none."""
        cube = set()
        for clause in self.clauses:
            literals = clause & self.values
            if not literals:
                return None
            cube.add(min(literals, key=lambda literal: (self.universal[abs(literal)], abs(literal))))
        return frozenset(cube)

    def search(self, place):
        """The variables before this place of the order have values. Returns a constraint that decides the game then."""
        for constraint in self.constraints:
            if self.decides(constraint):
                return constraint
        cube = self.true_literals()
        if cube is not None:
            return self.learn(True, cube, [])
        # Not all variables have values, since then each clause is true or false.
        variable = self.order[place]
        found = []
        for literal in variable, -variable:
            self.values.add(literal)
            found.append(self.search(place + 1))
            self.values.remove(literal)
            if found[-1].literals.isdisjoint((variable, -variable)):
                return found[-1]  # the value plays no part
        # Both have the variable, with different signs, so both are clauses, if it is existential, or else cubes.
        first, second = found
        return self.learn(first.is_cube, (first.literals | second.literals) - {variable, -variable}, [first.step, second.step])


def run(formula, trace=None):
    """Solves the formula of this file, and writes the proof to the other one if it is named. Returns the status."""
    try:
        text = qrp_check.format(pathlib.Path(formula).read_bytes())
    except qrp_check.Refused as refused:
        print(refused.verdict)
        return refused.verdict.status
    with qrp_check.Proof() as proof:
        solver = Solver(text, proof)
        sat = solver.solve()
        verdict = proof.check(sat=sat)
        print(verdict, flush=True)
        if trace is not None:
            pathlib.Path(trace).write_bytes(proof.trace_text(sat=sat))
    return verdict.status


def main(words):
    if len(words) not in (1, 2):
        print("usage: python3 solve.py FORMULA [TRACE]", file=sys.stderr)
        return 5
    try:
        return run(*words)
    except OSError as error:
        print(error, file=sys.stderr)
        return 3
    except MemoryError:
        print("NO MEMORY")
        return 4


if __name__ == "__main__":
    sys.exit(main(sys.argv[1:]))
