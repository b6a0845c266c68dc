"""Proofs that are made to be measured, for bench/beside: each function gives the lines of a formula, and then those of a trace, of some bytes in
all: the size that it is given, or up to half as many again.
"""

import random
from collections.abc import Callable, Iterable, Iterator
from itertools import count, product

from slow_inputs import line

Pair = Iterator[Iterable[str]]
NUMBERS = 2**64  # those of steps are less


def words(literals: Iterable[int]) -> str:
    """Some literals with a blank after each."""
    return "".join([f"{literal} " for literal in literals])


def some_way(first: int, last: int, dice: random.Random, many: int) -> list[int]:
    """So many literals of the variables from the first to the last one."""
    return [dice.choice((1, -1)) * variable for variable in dice.sample(range(first, last + 1), many)]


# Chains of resolutions: the variables 1 to n are implied one after the other


def chain_formula(n: int, clauses: Iterable[str], universal: int) -> Iterator[str]:
    """A formula of n + 1 such clauses, with so many universal variables after the existential ones."""
    yield from (line("p cnf", n + universal, n + 1), line("e", range(1, n + 1), 0), line("a", range(n + 1, n + universal + 1), 0))
    yield from clauses


def links(n: int) -> Iterator[str]:
    """The literals of the clauses of a chain, each of which has a universal variable of its own, but the last one and the one before."""
    yield f"1 {n + 1} "
    yield from (f"-{i} {i + 1} {n + i if i % 2 else -n - i} " for i in range(1, n))
    yield f"-{n} "


def chain(size: int) -> Pair:
    """a chain of resolutions and reductions, all in the core"""
    n = max(4, size // 138)
    yield chain_formula(n, (f"{literals}0\n" for literals in links(n)), n)
    yield refutation(n, lambda place: place)


def refutation(n: int, number: Callable[[int], int]) -> Iterator[str]:
    """The refutation of a chain, with the numbers of its steps by their places: all initial steps, and then the others."""
    yield line("p qrp", 2 * n, 3 * n + 1)
    yield from (f"{number(place)} {literals}0 0\n" for place, literals in enumerate(links(n), 1))
    yield f"{number(n + 2)} 1 0 {number(1)} 0\n"
    last = n + 2
    for i in range(1, n):
        tail = n + i if i % 2 else -n - i
        yield f"{number(last + 1)} {i + 1} {tail} 0 {number(last)} {number(i + 1)} 0\n{number(last + 2)} {i + 1} 0 {number(last + 1)} 0\n"
        last += 2
    yield f"{number(last + 1)} 0 {number(last)} {number(n + 1)} 0\nr unsat\n"


def large_numbers(size: int) -> Pair:
    """step numbers of up to 64 bits"""
    n = max(4, size // 210)
    yield chain_formula(n, (f"{literals}0\n" for literals in links(n)), n)
    yield refutation(n, scattered)


def scattered(place: int) -> int:
    """A number of up to 64 bits, another one for each place, in no order."""
    place = (place ^ place >> 30) * 0xBF58476D1CE4E5B9 % NUMBERS
    place = (place ^ place >> 27) * 0x94D049BB133111EB % NUMBERS
    return place ^ place >> 31


def shuffled(size: int) -> Pair:
    """numbers of steps in no order"""
    n = max(4, size // 135)
    numbers = list(range(1, 3 * n + 2))
    random.Random(12).shuffle(numbers)
    yield chain_formula(n, (f"{literals}0\n" for literals in links(n)), n)
    yield refutation(n, [0, *numbers].__getitem__)


def unused(size: int) -> Pair:
    """a chain of which every step is followed by 99 that nothing uses"""
    n = max(2, size // 26_000)
    yield chain_formula(n, (f"{literals}0\n" for literals in links(n)), n)
    yield with_unused(n)


def with_unused(n: int) -> Iterator[str]:
    """The refutation of a chain, with 99 steps of twelve literals after each of its steps."""
    dice, names = random.Random(5), {0: 0}
    others = [words(dice.choice((1, -1)) * dice.randint(1, 2 * n) for _ in range(12)) for _ in range(5000)]
    number = 0
    yield f"p qrp {2 * n} 0\n"
    for place, text in enumerate(refutation(n, lambda place: place)):
        for step in text.splitlines() if place else []:
            if step.startswith("r"):
                yield step + "\n"
                return
            number += 1
            own, _, rest = step.partition(" ")
            literals, _, antecedents = (" " + rest).partition(" 0 ")
            names[int(own)] = number
            yield f"{number}{literals} 0 {words(names[int(word)] for word in antecedents.split())[:-1]}\n"
            for number in range(number + 1, number + 100):
                first = dice.randint(max(1, number - 5000), number - 1)
                yield f"{number} {dice.choice(others)}0 {first} {dice.randint(1, number - 1)} 0\n"


# Trees of resolutions: a step for each assignment of some variables, and for each beginning of one


def tree_steps(depth: int, leaf: Callable[[list[int]], str]) -> Iterator[str]:
    """The steps of a tree: an initial one for each assignment, with the literals that the function gives besides; its reduct; and the resolvents."""
    number, stack = 0, []
    for place, signs in enumerate(product((1, -1), repeat=depth)):
        literals = [sign * variable for variable, sign in enumerate(signs, 1)]
        yield f"{number + 1} {words(literals)}{leaf(literals)}0 0\n{number + 2} {words(literals)}0 {number + 1} 0\n"
        number += 2
        stack.append(number)
        while place & 1:
            literals, place, number = literals[:-1], place >> 1, number + 1
            second, first = stack.pop(), stack.pop()
            yield f"{number} {words(literals)}0 {first} {second} 0\n"
            stack.append(number)


def tree(size: int) -> Pair:
    """a tree of resolutions on clauses of up to 20 literals"""
    depth = next(d for d in count(2) if 2 ** (d + 1) * (6 * d + 34) >= size)
    leaf = f"{depth + 1} -{depth + 2} "
    clauses = (f"{words(sign * v for v, sign in enumerate(signs, 1))}{leaf}0\n" for signs in product((1, -1), repeat=depth))
    sets = [line("p cnf", depth + 2, 2**depth), line("e", range(1, depth + 1), 0), line("a", depth + 1, depth + 2, 0)]
    yield (text for texts in (sets, clauses) for text in texts)
    yield (text for texts in (["p qrp 0 0\n"], tree_steps(depth, lambda _: leaf), ["r unsat\n"]) for text in texts)


def cubes(size: int) -> Pair:
    """all assignments of the universal variables as initial cubes, and the tree over them"""
    more = 60  # existential variables that follow
    depth = next(d for d in count(2) if 2 ** (d + 1) * ((2 * d + more) * 2 + d * 6 + 40) >= size)
    variables, clauses = 2 * depth + more, []
    for i in range(1, depth + 1):
        clauses += [[i, -depth - i], [-i, depth + i]]
    for j in range(more):
        one, other, following = depth + 1 + j % depth, 2 * depth + 1 + j, depth + 1 + (j + 1) % depth
        clauses += [[one, -other], [-one, other], [one, -other, 2 * depth + 1 + (j + 1) % more], [-one, other, -following]]
    universal, existential = range(1, depth + 1), range(depth + 1, variables + 1)
    yield [line("p cnf", variables, len(clauses)), line("a", universal, 0), line("e", existential, 0), *(line(clause, 0) for clause in clauses)]

    def leaf(literals: list[int]) -> str:
        signs = [1 if literal > 0 else -1 for literal in literals]
        return words(signs[i % depth] * (depth + 1 + i) for i in range(depth)) + words(signs[j % depth] * (2 * depth + 1 + j) for j in range(more))

    yield (text for texts in (["p qrp 0 0\n"], tree_steps(depth, leaf), ["r sat\n"]) for text in texts)


# Initial steps, long clauses, and a formula of which little is used


def initial(size: int) -> Pair:
    """clauses and as many initial steps, whole, reduced and partly reduced"""
    n, tails = max(4, size // 100), 50
    dice = random.Random(3)
    universal = [words(some_way(n, n + tails - 1, dice, 2)).split() for _ in range(n)]
    existential = ["1 ", *(f"-{i} {i + 1} " for i in range(1, n - 1)), f"-{n - 1} "]
    order = dice.sample(range(n), n)
    sets = [line("p cnf", n + tails - 1, n), line("e", range(1, n), 0), line("a", range(n, n + tails), 0)]
    yield (text for texts in (sets, (f"{existential[i]}{' '.join(universal[i])} 0\n" for i in order)) for text in texts)
    kept = ("".join(f"{word} " for word in universal[i][: (2, 0, 1)[i % 3]]) for i in range(n))
    steps = (f"{i + 1} {existential[i]}{tail}0 0\n" for i, tail in enumerate(kept))
    resolvents = (f"{n + i} {f'{i + 1} ' if i < n - 1 else ''}0 {n + i - 1 if i > 1 else 1} {i + 1} 0\n" for i in range(1, n))
    yield (text for texts in (["p qrp 0 0\n"], steps, resolvents, ["r unsat\n"]) for text in texts)


def one_form(size: int) -> Pair:
    """clauses with one fully reduced form, and as many initial steps"""
    n = max(4, size // 100) // 2 * 2
    sets = [line("p cnf", 2 * n + 3, n + 5), "e 1 2 3 0\n", line("a", range(4, 2 * n + 4), 0)]
    yield [*sets, *(f"1 {4 + i} {4 + n + i} 0\n" for i in range(n)), "-1 2 0\n-2 -1 3 0\n-3 -1 2 0\n-2 0\n-3 0\n"]
    steps = ["p qrp 0 0\n1 -1 2 0 0\n2 -2 -1 3 0 0\n3 -3 -1 2 0 0\n4 -2 0 0\n5 -3 0 0\n", *(f"{6 + i} 1 {4 + i} 0 0\n" for i in range(n))]
    last = n + 6
    steps.append(f"{last} 2 0 6 1 0\n")
    for i in range(1, n):
        literal, other = (3, 2) if i % 2 else (2, 3)
        steps.append(f"{last + 1} -1 {literal} 0 {last} {other} 0\n{last + 2} {literal} 0 {last + 1} {6 + i} 0\n")
        last += 2
    yield [*steps, f"{last + 1} 0 {last} {5 if n % 2 == 0 else 4} 0\nr unsat\n"]


def wide(size: int) -> Pair:
    """clauses of 10,000 literals"""
    width, n = 10_000, max(4, size // 180_000)
    tail = words(v if v % 3 else -v for v in range(n + 1, n + width + 1))
    tails = [tail, " ".join([*reversed(tail.split()), ""])]
    clauses = [f"1 {tail}0\n", *(f"-{i} {i + 1} {tail}0\n" for i in range(1, n)), f"-{n} {tail}0\n"]
    yield chain_formula(n, clauses, width)
    steps = [f"p qrp 0 0\n1 1 {tail}0 0\n"]
    for i in range(1, n):
        steps.append(f"{2 * i} -{i} {i + 1} {tails[i % 2]}0 0\n{2 * i + 1} {i + 1} {tails[1 - i % 2]}0 {2 * i - 1} {2 * i} 0\n")
    end = f"{2 * n} -{n} {tail}0 0\n{2 * n + 1} {tails[1]}0 {2 * n - 1} {2 * n} 0\n{2 * n + 2} 0 {2 * n + 1} 0\nr unsat\n"
    yield [*steps, end]


def little_used(size: int) -> Pair:
    """a large formula of which little is used"""
    n, bits = size // 26, random.Random(9).getrandbits
    sets = [line("p cnf", 100_000, n + 2)]
    sets += [line(letter, range(first, last + 1), 0) for letter, first, last in (("e", 1, 30_000), ("a", 30_001, 60_000), ("e", 60_001, 100_000))]
    clauses = (f"{bits(16) + 1} {-bits(16) - 1} {-bits(15) - 1} {bits(16) + 30_000} 0\n" for _ in range(n))
    yield (text for texts in (sets, ["1 30001 0\n-1 30002 0\n"], clauses) for text in texts)
    yield ["p qrp 0 0\n1 1 30001 0 0\n2 -1 0 0\n3 0 1 2 0\nr unsat\n"]
