"""Formulas of known families that bench/beside has the solver DepQBF write traces of. Those of tests/traces are of the same families."""

import random
import subprocess
from collections.abc import Callable
from itertools import product
from pathlib import Path
from typing import NamedTuple

from slow_inputs import line

Formula = tuple[list[tuple[str, list[int]]], list[list[int]]]  # quantifier sets and clauses


def text_of(formula: Formula) -> str:
    """A formula in QDIMACS."""
    sets, clauses = formula
    variables = max(variable for _, variables in sets for variable in variables)
    return line("p cnf", variables, len(clauses)) + "".join([line(letter, bound, 0) for letter, bound in sets] + [line(own, 0) for own in clauses])


def parity(n: int) -> Formula:
    """False: a universal variable is the parity of n existential ones that come before it."""
    bits, guess, sums = list(range(1, n + 1)), n + 1, [1, *range(n + 2, 2 * n + 1)]
    clauses: list[list[int]] = []
    for one, other, both in zip(sums, bits[1:], sums[1:]):
        clauses += [[-one, -other, -both], [one, other, -both], [-one, other, both], [one, -other, both]]
    clauses += [[guess, sums[-1]], [-guess, -sums[-1]]]
    return [("e", bits), ("a", [guess]), ("e", sums[1:])], clauses


def kbkf(n: int) -> Formula:
    """False, and hard for Q-resolution: the family of Kleine Buening, Karpinski and Floegel."""
    left, right, universal = range(1, 3 * n, 3), range(2, 3 * n, 3), range(3, 3 * n + 1, 3)
    ends = list(range(3 * n + 1, 4 * n + 1))
    clauses = [[-1, -2]]
    for d, e, x in zip(left[:-1], right, universal):
        clauses += [[d, x, -d - 3, -e - 3], [e, -x, -d - 3, -e - 3]]
    negated = [-end for end in ends]
    clauses += [[left[-1], universal[-1], *negated], [right[-1], -universal[-1], *negated]]
    for x, end in zip(universal, ends):
        clauses += [[x, end], [-x, end]]
    sets = [one for d, e, x in zip(left, right, universal) for one in (("e", [d, e]), ("a", [x]))]
    return [*sets, ("e", ends)], clauses


def equality(n: int) -> Formula:
    """False: universal variables are other than the existential ones before them."""
    first, universal, last = (list(range(start * n + 1, (start + 1) * n + 1)) for start in range(3))
    clauses = [[-t for t in last]]
    for x, u, t in zip(first, universal, last):
        clauses += [[x, u, t], [-x, -u, t]]
    return [("e", first), ("a", universal), ("e", last)], clauses


def copycat(n: int) -> Formula:
    """True: each existential variable is the universal one before it."""
    pairs = [(2 * i + 1, 2 * i + 2) for i in range(n)]
    sets = [one for u, x in pairs for one in (("a", [u]), ("e", [x]))]
    return sets, [clause for u, x in pairs for clause in ([u, -x], [-u, x])]


def adder(n: int) -> Formula:
    """True: two numbers of n bits have a sum, with carries."""
    one, other, sums, carries = (list(range(start * n + 1, (start + 1) * n + 1)) for start in range(4))
    carries.append(4 * n + 1)
    clauses = [[-carries[0]]]
    for i in range(n):
        for signs in product((1, -1), repeat=3):
            known = [-sign * variable for sign, variable in zip(signs, (one[i], other[i], carries[i]))]
            ones = signs.count(1)
            clauses += [[*known, sums[i] if ones % 2 else -sums[i]], [*known, carries[i + 1] if ones >= 2 else -carries[i + 1]]]
    return [("a", one + other), ("e", sums + carries)], clauses


def pigeons(n: int) -> Formula:
    """False: n + 1 pigeons in n holes, with a universal variable between two halves of the choices."""
    holes = [[pigeon * n + hole + 1 for hole in range(n)] for pigeon in range(n + 1)]
    clauses = [list(choices) for choices in holes]
    clauses += [[-holes[late][hole], -holes[early][hole]] for hole in range(n) for late in range(n + 1) for early in range(late)]
    choices, extra = n * (n + 1), n * (n + 1) + 1
    for clause in clauses[::3]:
        clause.append(extra)
    return [("e", list(range(1, choices // 2 + 1))), ("a", [extra]), ("e", list(range(choices // 2 + 1, choices + 1)))], clauses


def rand(seed: int, sets: str, size: int, count: int, existential: int) -> Formula:
    """Random clauses of so many literals, of which three or more are existential; sets of this size."""
    dice = random.Random(seed)
    bound = [(letter, list(range(size * place + 1, size * (place + 1) + 1))) for place, letter in enumerate(sets)]
    variables = range(1, size * len(sets) + 1)
    of_e = {variable for letter, own in bound if letter == "e" for variable in own}
    clauses: list[list[int]] = []
    while len(clauses) < count:
        chosen = dice.sample(variables, existential)
        if len(of_e.intersection(chosen)) >= 3:
            clauses.append([variable if dice.random() < 0.5 else -variable for variable in chosen])
    return bound, clauses


TRADITIONAL, LAZY = "--traditional-qcdcl", "--no-lazy-qpup"


class Solved(NamedTuple):
    """A formula, the option with which it is solved, and whether trim is measured of its trace too."""

    make: Callable[[], Formula]
    option: str
    is_trimmed: bool = False


SOLVED = {
    "parity16": Solved(lambda: parity(16), TRADITIONAL, True),
    "parity17-lazy": Solved(lambda: parity(17), LAZY),
    "parity18": Solved(lambda: parity(18), TRADITIONAL),
    "parity18-lazy": Solved(lambda: parity(18), LAZY),
    "kbkf16": Solved(lambda: kbkf(16), TRADITIONAL),
    "kbkf16-lazy": Solved(lambda: kbkf(16), LAZY, True),
    "equality16": Solved(lambda: equality(16), TRADITIONAL, True),
    "equality16-lazy": Solved(lambda: equality(16), LAZY),
    "copycat18": Solved(lambda: copycat(18), TRADITIONAL, True),
    "copycat18-lazy": Solved(lambda: copycat(18), LAZY),
    "pigeons8": Solved(lambda: pigeons(8), TRADITIONAL, True),
    "pigeons8-lazy": Solved(lambda: pigeons(8), LAZY),
    "adder9": Solved(lambda: adder(9), TRADITIONAL, True),
    "adder9-lazy": Solved(lambda: adder(9), LAZY),
    "false": Solved(lambda: rand(29, "eae", 60, 900, 5), TRADITIONAL),
    "false-lazy": Solved(lambda: rand(29, "eae", 60, 900, 5), LAZY),
    "true": Solved(lambda: rand(31, "aeae", 50, 500, 5), TRADITIONAL),
}


def write_solved(name: str, formula: Path, trace: Path) -> None:
    """Writes a formula, and the trace that the solver writes of it."""
    formula.write_text(text_of(SOLVED[name].make()))
    words = ["depqbf", "--trace=qrp", "--dep-man=simple", "--no-qbce-dynamic", SOLVED[name].option, str(formula)]
    with trace.open("wb") as out:
        subprocess.run(words, stdout=out, check=False)
