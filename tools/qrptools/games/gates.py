"""The gates of a formula: variables that some clauses define by variables before them. A part of tools/play and tools/solve.

A circuit becomes clauses by a variable for the output of each gate, and clauses that leave it one value for all values of the inputs (Tseitin
1968). Such a variable stands after its inputs in the prefix. So of each variable those clauses are looked at in which it is the last one.
Nothing here is proved: the values are a reply like any other, and qrp_cmd checks the state after them.
"""

from itertools import combinations, product

from qrptools.formula import Formula

Literals = frozenset[int]
TABLE = 6  # inputs of a gate whose whole table is looked at
FEW = 8  # different lists of inputs of which pairs are looked at too, and long clauses that are looked at
MOST = 64  # clauses of a gate whose table is looked at


class Gates:
    """The gates of a block, of the clauses of the formula."""

    def __init__(self, formula: Formula, variables: list[int]) -> None:
        wanted = set(variables)
        ends: dict[int, list[Literals]] = {}
        places: dict[int, int] = {variable: place for place, variable in enumerate(map(int, b" ".join(text for _, text in formula.sets).split()))}
        for clause in formula.clauses():
            last = max((abs(literal) for literal in clause.literals), key=lambda variable: places.get(variable, 0), default=0)
            if last in wanted and clause.clean:
                ends.setdefault(last, []).append(clause.literals)
        found = ((variable, definition(variable, ends.get(variable, []))) for variable in variables)
        self.definitions = {variable: clauses for variable, clauses in found if clauses}

    def set_to(self, values: dict[int, int], given: set[int]) -> None:
        """Adds the values of the outputs that are not there: as the gates give them after the values of the blocks before."""
        true = {*given, *values.values()}
        for variable, clauses in self.definitions.items():
            if variable not in values:
                values[variable] = forced(variable, clauses, true)
                true.add(values[variable])


def forced(variable: int, clauses: list[Literals], true: set[int]) -> int:
    """The literal of the variable that these clauses leave, if these literals are true."""
    for clause in clauses:
        own = variable if variable in clause else -variable
        if all(-other in true for other in clause if other != own):
            return own
    return -variable


def definition(variable: int, clauses: list[Literals]) -> list[Literals]:
    """The clauses that define the variable, from those of the most inputs on; none if it is not defined."""
    found = conjunction(variable, clauses)
    short = [clause for clause in clauses if len(clause) <= TABLE + 1]
    if found or len(short) > MOST:
        return found
    for some in inputs_of(variable, short):
        part = [clause for clause in short if all(abs(literal) in some or abs(literal) == variable for literal in clause)]
        # Clauses with fewer inputs may ask something of the output, in place of saying what it is.
        for clauses_of_all in part, [clause for clause in part if len(clause) > 1], [clause for clause in part if len(clause) == len(some) + 1]:
            if is_function(variable, clauses_of_all, some):
                return clauses_of_all
    return []


def inputs_of(variable: int, clauses: list[Literals]) -> list[Literals]:
    """The inputs that a gate with some of these clauses may have, those of one clause or of two, from the most on."""
    inputs = {frozenset(abs(literal) for literal in clause) - {variable} for clause in clauses}
    if len(inputs) <= FEW:
        inputs |= {one | other for one, other in combinations(inputs, 2) if len(one | other) <= TABLE}
    return sorted(inputs, key=lambda some: (-len(some), sorted(some)))


def conjunction(variable: int, clauses: list[Literals]) -> list[Literals]:
    """Those clauses that say that the variable is the conjunction of two literals or more, or its negation; none if it is not."""
    given = set(clauses)
    for whole in sorted(clauses, key=len, reverse=True)[:FEW]:
        own = next(literal for literal in whole if abs(literal) == variable)
        parts = [frozenset((-own, -literal)) for literal in whole if literal != own]
        if len(parts) > 1 and given.issuperset(parts):
            return [whole, *parts]
    return []


def is_function(variable: int, clauses: list[Literals], inputs: Literals) -> bool:
    """Whether these clauses leave the variable one value for each value of the inputs."""
    for signs in product((1, -1), repeat=len(inputs)):
        true = {sign * other for sign, other in zip(signs, inputs)}
        left = {clause - {-literal for literal in true} for clause in clauses if clause.isdisjoint(true)}
        if left != {frozenset([variable])} and left != {frozenset([-variable])}:
            return False
    return True
