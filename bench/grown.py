"""Inputs on which the time of a program must not grow much faster than they do: where a size doubles, it may take so many times as long."""

from typing import NamedTuple

import slow_inputs as slow

LINEAR, MORE = 2.6, 6.0  # times, where the size doubles


class Grown(NamedTuple):
    """A function of slow_inputs.py, the size that it is measured at, the first line that is printed, and how many times the time may grow."""

    make: slow.Make
    size: int
    says: str  # of `check`; of qrp_strategy the header, in which {n} is the size and {m} one more
    most: float = LINEAR

    def line(self, size: int) -> str:
        return self.says.format(n=size, m=size + 1)

    def description(self) -> str:
        return str(self.make.__doc__).rstrip(".")


TRUE, FALSE = "VERIFIED true", "VERIFIED false"
INPUTS = (
    Grown(slow.tautology, 1_000_000, TRUE),
    Grown(slow.missed_clause, 1_000_000, "REFUSED step 1 S5"),
    Grown(slow.clashes, 500_000, "REFUSED step 3 S9"),
    Grown(slow.blocks, 200_000, FALSE),
    Grown(slow.many_sets, 1_000_000, FALSE),
    Grown(slow.empty_sets, 250_000, FALSE),
    Grown(slow.gaps, 300_000, FALSE),
    Grown(slow.falling_numbers, 100_000, FALSE),
    Grown(slow.sparse_numbers, 100_000, FALSE),
    Grown(slow.long_numbers, 200_000, FALSE),
    Grown(slow.random_numbers, 100_000, FALSE),
    Grown(slow.multiples_of_32_bits, 100_000, FALSE),
    Grown(slow.multiples_of_40_bits, 100_000, FALSE),
    Grown(slow.golden_numbers, 100_000, FALSE),
    Grown(slow.repeated_literal, 100_000, FALSE),
    Grown(slow.reduct_chain, 500_000, FALSE),
    Grown(slow.empty_steps, 500_000, FALSE),
    Grown(slow.far_variables, 500_000, FALSE),
    Grown(slow.unbound_literals, 200_000, "REFUSED step 1 S2"),
    Grown(slow.alike_clauses, 200_000, FALSE),
    Grown(slow.equal_clauses, 50_000, FALSE),
    Grown(slow.partly_reduced, 50_000, FALSE),
    Grown(slow.met_by_turns, 32_768, TRUE),
    Grown(slow.reducts_of_one, 200_000, FALSE),
    Grown(slow.reduced_after, 200_000, FALSE),
    Grown(slow.resolvents_of_one, 100_000, FALSE),
    Grown(slow.reducts_with_one_more, 10_000, FALSE, MORE),
    Grown(slow.met_in_no_order, 16_384, TRUE, MORE),
    Grown(slow.all_watched, 4_096, TRUE, MORE),
)


# The numbers of variables around which a table of places may change its width.
STRATEGIES = (
    *(Grown(slow.bare_prefix, size, "aag 0 0 0 {n} 0") for size in (65_535, 100_000, 131_072, 200_000, 262_144, 750_000, 1_000_000)),
    Grown(slow.blocks, 10_000, "aag {m} {m} 0 {n} 0"),
    Grown(slow.blocks, 100_000, "aag {m} {m} 0 {n} 0"),
    Grown(slow.two_decisions, 50_000, "aag 298 100 0 {n} 198"),
)
