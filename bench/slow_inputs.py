"""Inputs that are made to be slow: each function gives the lines of a formula, and then those of a trace, of some size."""

import random
from collections.abc import Callable, Iterable, Iterator, Sequence
from itertools import product
from pathlib import Path

Lines = list[str]
Make = Callable[[int], Iterator[Iterable[str]]]


def line(*parts: int | str | Sequence[int]) -> str:
    return " ".join(str(number) for part in parts for number in ([part] if isinstance(part, (int, str)) else part)) + "\n"


# Long clauses and many sets


def tautology(n: int) -> Iterator[Lines]:
    """A clause of n literals whose one clash stands at its end: the empty cube meets it."""
    yield [line("p cnf", n, 1), line("e", range(1, n + 1), 0), line(range(1, n + 1), -n, 0)]
    yield ["p qrp 0 0\n1 0 0\nr sat\n"]


def missed_clause(n: int) -> Iterator[Lines]:
    """A clause of n literals that an initial cube misses."""
    yield [line("p cnf", n, 1), line("e", range(1, n + 1), 0), line(range(1, n + 1), 0)]
    yield ["p qrp 0 0\n1 0 0\nr sat\n"]


def clashes(n: int) -> Iterator[Lines]:
    """Two clauses of n literals that clash in each of them."""
    one, other = range(1, n + 1), range(-n, 0)
    yield [line("p cnf", n, 2), line("e", one, 0), line(one, 0), line(other, 0)]
    yield ["p qrp 0 0\n", line(1, one, 0, 0), line(2, other, 0, 0), "3 0 1 2 0\nr unsat\n"]


def blocks(n: int) -> Iterator[Lines]:
    """2n blocks of one variable each, and a clause of all n universal ones, which are left out at once."""
    universal = range(2, 2 * n + 2, 2)
    sets = [line("a", variable, 0) + line("e", variable + 1, 0) for variable in universal]
    yield [line("p cnf", 2 * n + 1, 2), "e 1 0\n", *sets, line(1, universal, 0), "-1 0\n"]
    yield ["p qrp 0 0\n", line(1, 1, universal, 0, 0), "2 1 0 1 0\n3 -1 0 0\n4 0 2 3 0\nr unsat\n"]


def many_sets(n: int) -> Iterator[Lines]:
    """The same quantifier set n times in the trace."""
    yield ["p cnf 1 2\ne 1 0\n1 0\n-1 0\n"]
    yield ["p qrp 0 0\n", *["e 1 0\n"] * n, "1 1 0 0\n2 -1 0 0\n3 0 1 2 0\nr unsat\n"]


def empty_sets(n: int) -> Iterator[Lines]:
    """2n empty quantifier sets in the formula."""
    yield ["p cnf 1 2\n", *["e 0\na 0\n"] * n, "e 1 0\n1 0\n-1 0\n"]
    yield ["p qrp 0 0\n1 1 0 0\n2 -1 0 0\n3 0 1 2 0\nr unsat\n"]


def bare_prefix(n: int) -> Iterator[Lines]:
    """n existential variables and no clause."""
    yield [line("p cnf", n, 0), line("e", range(1, n + 1), 0)]
    yield ["p qrp 0 0\n1 0 0\nr sat\n"]


def two_decisions(n: int) -> Iterator[Lines]:
    """Two clauses of 100 existential and n universal literals, where the first and all universal ones have opposite signs."""
    seen, universal = range(2, 101), range(101, n + 101)
    one, other = line(1, seen, universal, 0), line(-1, seen, [-variable for variable in universal], 0)
    units = [line(-variable, 0) for variable in seen]
    yield [line("p cnf", n + 100, 101), line("e", range(1, 101), 0), line("a", universal, 0), one, other, *units]
    steps = [f"1 {one.strip()} 0\n", line(2, 1, seen, 0, 1, 0), f"3 {other.strip()} 0\n", line(4, -1, seen, 0, 3, 0), line(5, seen, 0, 2, 4, 0)]
    for variable in seen:
        last = len(steps)
        steps += [line(last + 1, -variable, 0, 0), line(last + 2, range(variable + 1, 101), 0, last, last + 1, 0)]
    yield ["p qrp 0 0\n", *steps, "r unsat\n"]


# Numbers of steps


def numbered_chain(n: int, number: Callable[[int], int]) -> Iterator[Lines]:
    """A chain of n resolutions, of which this function gives the numbers of the steps from their places."""
    yield [line("p cnf", n, n + 1), line("e", range(1, n + 1), 0), "1 0\n", *(line(-i, i + 1, 0) for i in range(1, n)), line(-n, 0)]
    links = (line(number(2 * i), -i, i + 1, 0, 0) + line(number(2 * i + 1), i + 1, 0, number(2 * i - 1), number(2 * i), 0) for i in range(1, n))
    end = line(number(2 * n), -n, 0, 0) + line(number(2 * n + 1), 0, number(2 * n - 1), number(2 * n), 0)
    yield ["p qrp 0 0\n", line(number(1), 1, 0, 0), *links, end, "r unsat\n"]


def gaps(n: int) -> Iterator[Lines]:
    """A chain of n resolutions whose step numbers lie near each other, with gaps."""
    return numbered_chain(n, lambda place: 3 * place + place * place % 3)


def falling_numbers(n: int) -> Iterator[Lines]:
    """A chain of n resolutions whose step numbers fall."""
    return numbered_chain(n, lambda place: 4 * n - place)


def sparse_numbers(n: int) -> Iterator[Lines]:
    """A chain of n resolutions whose step numbers are just within a table: sixteen times their place."""
    return numbered_chain(n, lambda place: 16 * place + 1)


def long_numbers(n: int) -> Iterator[Lines]:
    """A chain of n resolutions whose step numbers have nine digits and follow each other."""
    return numbered_chain(n, lambda place: 10**8 + place)


def chain(n: int) -> Iterator[Lines]:
    """A chain of n resolutions whose steps are numbered from 1."""
    return numbered_chain(n, lambda place: place)


def random_numbers(n: int) -> Iterator[Lines]:
    """A chain of n resolutions whose step numbers go up to 2^40, in no order."""
    numbers = random.Random(3).sample(range(1, 2**40), 2 * n + 2)
    return numbered_chain(n, numbers.__getitem__)


def multiples_of_32_bits(n: int) -> Iterator[Lines]:
    """A chain of n resolutions whose step numbers are multiples of 2^32, with the same low half."""
    return numbered_chain(n, lambda place: place << 32)


def multiples_of_40_bits(n: int) -> Iterator[Lines]:
    """A chain of n resolutions whose step numbers are multiples of 2^40."""
    return numbered_chain(n, lambda place: place << 40)


def golden_numbers(n: int) -> Iterator[Lines]:
    """A chain of n resolutions whose step numbers become small by a product with 2^64 over the golden ratio, which hash tables take."""
    inverse = pow(0x9E3779B97F4A7C15, -1, 2**64)
    return numbered_chain(n, lambda place: inverse * place % 2**64)


# Steps


def repeated_literal(n: int) -> Iterator[Lines]:
    """A step that writes a literal n times, with which n steps are resolved."""
    x = n + 2
    links = (line(-x, -i, i + 1, 0) for i in range(1, n + 1))
    yield [line("p cnf", x, n + 3), line("e", range(1, x + 1), 0), line(x, 0), "1 0\n", *links, line(-n - 1, 0)]
    steps, last = ["p qrp 0 0\n", line(1, [x] * n, 0, 0), "2 1 0 0\n"], 2
    for i in range(1, n + 1):
        new = 3 * i
        steps += [line(new, -x, -i, i + 1, 0, 0), line(new + 1, -i, i + 1, 0, new, 1, 0), line(new + 2, i + 1, 0, last, new + 1, 0)]
        last = new + 2
    yield [*steps, line(last + 1, -n - 1, 0, 0), line(last + 2, 0, last, last + 1, 0), "r unsat\n"]


def reduct_chain(n: int) -> Iterator[Lines]:
    """A chain of n reducts of a step of one literal, each of the one before."""
    yield ["p cnf 1 2\ne 1 0\n1 0\n-1 0\n"]
    reducts = (line(number, 1, 0, number - 1, 0) for number in range(2, n + 2))
    yield ["p qrp 0 0\n1 1 0 0\n", *reducts, line(n + 2, -1, 0, 0), line(n + 3, 0, n + 1, n + 2, 0), "r unsat\n"]


def empty_steps(n: int) -> Iterator[Lines]:
    """n initial steps without literals."""
    yield ["p cnf 0 1\n0\n"]
    yield ["p qrp 0 0\n", *(line(number, 0, 0) for number in range(1, n + 1)), "r unsat\n"]


def far_variables(n: int) -> Iterator[Lines]:
    """n steps that nothing uses, of variables far above those of the formula."""
    yield ["p cnf 1 2\ne 1 0\n1 0\n-1 0\n"]
    far = (line(number, 2**31 - 1 - number, 0, 0) for number in range(3, n + 3))
    yield ["p qrp 0 0\n1 1 0 0\n2 -1 0 0\n", *far, line(n + 3, 0, 1, 2, 0), "r unsat\n"]


def unbound_literals(n: int) -> Iterator[Lines]:
    """Two steps that are needed, of n variables that nothing binds, in no order."""
    dice = random.Random(1)
    literals = [dice.randrange(2, 2**31 - 1) for _ in range(n)]
    yield ["p cnf 1 2\ne 1 0\n1 0\n-1 0\n"]
    yield ["p qrp 0 0\n", line(1, 1, literals, 0, 0), line(2, -1, literals, 0, 0), "3 0 1 2 0\nr unsat\n"]


# One long clause, and many short steps


def walk(first: int, rounds: int, parent: Callable[[int], Sequence[int]], more: Sequence[int] = ()) -> Lines:
    """Steps from this number on that lead from a clause 1 to 2, and then to 3 and to 2 by turns, an even number of times. Each time the clause 1,
    with some more literals, is a new step with the antecedents that the function gives for the round."""
    steps = [line(first, -1, 2, 0, 0), line(first + 1, -2, -1, 3, 0, 0), line(first + 2, -3, -1, 2, 0, 0), line(first + 3, -2, 0, 0)]
    steps += [line(first + 4, 1, more, 0, parent(0), 0), line(first + 5, 2, 0, first + 4, first, 0)]
    last = first + 5
    for turn in range(1, rounds + 1):
        new, literal, other = last + 1, 2 + turn % 2, first + 2 - turn % 2
        steps += [line(new, 1, more, 0, parent(turn), 0), line(new + 1, -1, literal, 0, last, other, 0), line(new + 2, literal, 0, new + 1, new, 0)]
        last = new + 2
    return [*steps, line(last + 1, 0, last, first + 3, 0), "r unsat\n"]


WALK = "-1 2 0\n-2 -1 3 0\n-3 -1 2 0\n-2 0\n"  # the clauses of its initial steps


def reducts_of_one(n: int) -> Iterator[Lines]:
    """n reducts, each of one literal, of one clause with n universal literals."""
    universal = range(4, n + 4)
    yield [line("p cnf", n + 3, 5), "e 1 2 3 0\n", line("a", universal, 0), line(1, universal, 0), WALK]
    yield ["p qrp 0 0\n", line(1, 1, universal, 0, 0), *walk(2, n // 2 * 2, lambda turn: [1])]


def reducts_with_one_more(n: int) -> Iterator[Lines]:
    """n reducts, each of one literal and of one that is reducible, of one clause with n universal literals."""
    universal = range(4, n + 4)
    yield [line("p cnf", n + 3, 5), "e 1 2 3 0\n", line("a", universal, 0), line(1, universal, 0), WALK]
    yield ["p qrp 0 0\n", line(1, 1, universal, 0, 0), *walk(2, n // 2 * 2, lambda turn: [1], [n + 3])]


def reduced_after(n: int) -> Iterator[Lines]:
    """n resolvents, each of one literal, of one clause with n universal literals that are reducible only after it is resolved."""
    inner, universal = n + 4, range(4, n + 4)
    yield [line("p cnf", n + 4, 6), "e 1 2 3 0\n", line("a", universal, 0), line("e", inner, 0), line(1, universal, inner, 0), line(-inner, 0), WALK]
    yield ["p qrp 0 0\n", line(1, 1, universal, inner, 0, 0), line(2, -inner, 0, 0), *walk(3, n // 2 * 2, lambda turn: [1, 2])]


def resolvents_of_one(n: int) -> Iterator[Lines]:
    """n resolvents, each of one literal with one of two clauses of n universal literals."""
    universal = range(4, n + 4)
    yield [line("p cnf", n + 3, 4), "e 1 2 3 0\n", line("a", universal, 0), line(-2, 3, universal, 0), line(-3, 2, universal, 0), "2 0\n-2 0\n"]
    steps = [line(1, -2, 3, universal, 0, 0), line(2, -3, 2, universal, 0, 0), "3 2 0 0\n4 -2 0 0\n"]
    last = 3
    for turn in range(n // 2 * 2):
        steps.append(line(turn + 5, 3 - turn % 2, 0, last, 1 + turn % 2, 0))
        last = turn + 5
    yield ["p qrp 0 0\n", *steps, line(last + 1, 0, last, 4, 0), "r unsat\n"]


# Initial steps


def alike_clauses(n: int) -> Iterator[Lines]:
    """n clauses that differ in reducible literals alone, and their initial steps in the reverse order, each of them needed."""
    y = lambda i: n + 2 + i
    sets = [line("e", range(1, n + 3), 0), line("a", range(n + 3, 2 * n + 3), 0)]
    links = (line(-1, -i - 1, i + 2, 0) for i in range(1, n + 1))
    yield [line("p cnf", 2 * n + 2, 2 * n + 2), *sets, *(line(1, y(i), 0) for i in range(1, n + 1)), *links, "2 0\n", line(-n - 2, 0)]
    steps, last = ["p qrp 0 0\n", *(line(n + 1 - i, 1, y(i), 0, 0) for i in range(n, 0, -1)), line(n + 1, 2, 0, 0)], n + 1
    for i in range(1, n + 1):
        new, own = n + 3 * i - 1, n + 1 - i
        steps += [line(new, -1, -i - 1, i + 2, 0, 0), line(new + 1, -i - 1, i + 2, 0, own, new, 0), line(new + 2, i + 2, 0, last, new + 1, 0)]
        last = new + 2
    yield [*steps, line(last + 1, -n - 2, 0, 0), line(last + 2, 0, last, last + 1, 0), "r unsat\n"]


def equal_clauses(n: int) -> Iterator[Lines]:
    """n equal clauses, and as many initial steps that are equal to them, each of them needed."""
    yield [line("p cnf", 3, n + 4), "e 1 2 3 0\n", *["1 0\n"] * n, WALK]
    yield ["p qrp 0 0\n", *walk(1, n // 2 * 2, lambda turn: [])]


def partly_reduced(n: int) -> Iterator[Lines]:
    """n clauses with two reducible literals, and as many initial steps without the first of these, each of them needed."""
    count = n // 2 * 2 + 1
    first, second = range(4, count + 4), range(count + 4, 2 * count + 4)
    clauses = [line(1, one, two, 0) for one, two in zip(first, second)]
    yield [line("p cnf", 2 * count + 3, count + 4), "e 1 2 3 0\n", line("a", first, second, 0), *clauses, WALK]
    initial = [line(number, 1, literal, 0, 0) for number, literal in enumerate(second, 1)]
    yield ["p qrp 0 0\n", *initial, *walk(count + 1, count - 1, lambda turn: [turn + 1])]


def cube_tree(depth: int, last: Callable[[int], int]) -> Lines:
    """An initial cube for each assignment of the variables up to this one, with one literal more, which the function gives; the reducts without it;
    and the resolvents of these up to the empty cube."""
    steps: Lines = []

    def step(literals: Sequence[int], *antecedents: int) -> int:
        steps.append(line(len(steps) + 1, literals, 0, antecedents, 0))
        return len(steps)

    level = []
    for place, signs in enumerate(product((1, -1), repeat=depth)):
        literals = [sign * variable for variable, sign in enumerate(signs, 1)]
        level.append((literals, step(literals, step([*literals, last(place)]))))
    while len(level) > 1:
        level = [(literals[:-1], step(literals[:-1], one, two)) for (literals, one), (_, two) in zip(level[::2], level[1::2])]
    return ["p qrp 0 0\n", *steps, "r sat\n"]


def depth_for(n: int) -> int:
    """Of how many variables there are n assignments, or more."""
    return max(n - 1, 1).bit_length()


def by_turns(n: int, order: Callable[[range], Sequence[int]]) -> Iterator[Lines]:
    """A clause of n literals, in an order, that n initial cubes meet by its first and its last literal by turns."""
    depth = depth_for(n)
    clause = order(range(depth + 1, depth + n + 1))
    yield [line("p cnf", depth + n, 1), line("a", range(1, depth + 1), 0), line("e", range(depth + 1, depth + n + 1), 0), line(clause, 0)]
    yield cube_tree(depth, lambda place: clause[-(place % 2)])


def met_by_turns(n: int) -> Iterator[Lines]:
    """A clause of n literals that n initial cubes meet by its first and its last literal by turns."""
    return by_turns(n, lambda variables: variables)


def met_in_no_order(n: int) -> Iterator[Lines]:
    """A clause of n literals in no order that n initial cubes meet by its first and its last literal by turns."""
    return by_turns(n, lambda variables: random.Random(1).sample(variables, len(variables)))


def all_watched(n: int) -> Iterator[Lines]:
    """n clauses of two literals, all of which n initial cubes meet by the one and by the other by turns."""
    depth = depth_for(n)
    yield [line("p cnf", depth + 2, n), line("a", range(1, depth + 1), 0), line("e", depth + 1, depth + 2, 0), *[line(depth + 1, depth + 2, 0)] * n]
    yield cube_tree(depth, lambda place: depth + 1 + place % 2)


def with_comments(text: bytes, mark: bytes) -> bytes:
    """A text with a comment line after each line."""
    return text.replace(b"\n", b"\n" + mark + b" a comment of some words\n")


def write_pair(make: Make, size: int, folder: Path) -> list[Path]:
    """Writes what a function makes of a size into the files `formula` and `trace` of a folder, and gives their paths."""
    paths = [folder / name for name in ("formula", "trace")]
    for path, lines in zip(paths, make(size)):
        with open(path, "w", encoding="ascii") as file:
            file.writelines(lines)
    return paths
