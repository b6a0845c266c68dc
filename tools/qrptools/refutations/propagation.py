"""Checks the clauses of a refutation one after the other by unit propagation, and keeps what each of them follows from.

A part of tools/drat-to-qrp and tools/explain-strategy. A clause follows by unit propagation if the negations of its literals, and what clauses
then leave one literal of, make a clause false (reverse unit propagation: Goldberg and Novikov 2003). The clauses that took part, from the false
one back, are the antecedents of a chain of resolution steps, whose last clause has no literal that the clause lacks.
"""

from collections.abc import Iterable
from typing import Callable, NamedTuple, Optional

Watched = list[int]  # a clause: its number, and its literals, of which the first two are watched; without literals it is deleted


class Derived(NamedTuple):
    """A clause with its antecedents: its literals, and the numbers of the clauses of its chain; none if it is one of the formula."""

    literals: frozenset[int]
    chain: list[int]


class NoPropagation(Exception):
    """A clause that does not follow by unit propagation."""


class Propagation:
    """Clauses, by numbers in the order in which they come, and the literals that are true in all cases. It asks now and then whether to go on."""

    def __init__(self, variables: int, go_on: Callable[[], None] = lambda: None) -> None:
        self.derived: list[Derived] = []
        self.empty: Optional[int] = None  # the number of the empty clause
        self.values = [0] * (2 * variables + 1)  # by literal: 1 is true and -1 false
        self.watches: list[list[Watched]] = [[] for _ in self.values]
        self.reasons: list[Optional[Watched]] = [None] * (variables + 1)
        self.trail: list[int] = []
        self.looked = 0  # up to this place of the trail
        self.units: dict[int, int] = {}  # the clauses of the literals that are true in all cases
        self.known: dict[frozenset[int], list[Watched]] = {}  # those that are watched, as they are written
        self.variables, self.go_on = variables, go_on

    def put_formula(self, clauses: Iterable[Iterable[int]]) -> None:
        """Takes the clauses of the formula."""
        short = []
        for clause in clauses:
            literals = frozenset(clause)
            self.derived.append(Derived(literals, []))
            if any(-literal in literals for literal in literals):
                continue
            if len(literals) < 2:
                short.append(len(self.derived) - 1)
            else:
                self.watch(literals, len(self.derived) - 1, literals)
        for number in short:
            self.put_short(number)

    def watch(self, literals: frozenset[int], number: int, written: frozenset[int]) -> None:
        clause = [number, *literals]
        self.watches[clause[1]].append(clause)
        self.watches[clause[2]].append(clause)
        self.known.setdefault(written, []).append(clause)

    def put_short(self, number: int) -> None:
        """Takes a clause of one literal or none, and what follows in all cases."""
        if self.empty is not None:
            return
        literals = self.derived[number].literals
        if not literals or self.values[min(literals)] < 0:
            self.empty = self.reduced(number, literals)
        elif not self.values[min(literals)]:
            self.set(min(literals), [number, *literals])
            begun = len(self.trail) - 1
            false = self.propagate()
            for literal in self.trail[begun:]:
                reason = self.reasons[abs(literal)]
                self.units[literal] = self.reduced(reason[0], reason[1:], literal) if reason else -1
            if false:
                self.empty = self.reduced(false[0], false[1:])

    def reduced(self, number: int, literals: Iterable[int], but: int = 0) -> int:
        """The clause of this number without the literals that are false in all cases, but for one: then it is that of a true literal."""
        chain = [number, *(self.units[-literal] for literal in literals if literal != but)]
        return number if len(chain) == 1 else self.put_derived(frozenset([but] if but else []), chain)

    def put_derived(self, literals: frozenset[int], chain: list[int]) -> int:
        self.derived.append(Derived(literals, chain))
        return len(self.derived) - 1

    def set(self, literal: int, reason: Optional[Watched]) -> None:
        self.values[literal], self.values[-literal] = 1, -1
        self.reasons[abs(literal)] = reason
        self.trail.append(literal)

    def propagate(self) -> Optional[Watched]:
        """Makes true what clauses leave one literal of; the first clause that is false, if one is."""
        values, watches, trail = self.values, self.watches, self.trail
        while self.looked < len(trail):
            false = -trail[self.looked]
            self.looked += 1
            kept: list[Watched] = []
            watching, watches[false] = watches[false], kept
            for place, clause in enumerate(watching):
                if len(clause) < 3:
                    continue
                if clause[1] == false:
                    clause[1], clause[2] = clause[2], false
                first = clause[1]
                if values[first] > 0:
                    kept.append(clause)
                    continue
                for other in range(3, len(clause)):
                    if values[clause[other]] >= 0:
                        clause[2], clause[other] = clause[other], false
                        watches[clause[2]].append(clause)
                        break
                else:
                    kept.append(clause)
                    if values[first] < 0:
                        kept += watching[place + 1 :]
                        return clause
                    values[first], values[-first] = 1, -1
                    self.reasons[abs(first)] = clause
                    trail.append(first)
        return None

    def put(self, literals: frozenset[int]) -> None:
        """Takes a clause that follows by unit propagation."""
        self.go_on()
        if self.empty is not None or any(-literal in literals for literal in literals):
            return
        if any(abs(literal) > self.variables for literal in literals):
            raise NoPropagation
        if any(self.values[literal] > 0 for literal in literals):
            return  # such a clause is never needed
        begun = len(self.trail)
        for literal in literals:
            if not self.values[literal]:
                self.set(-literal, None)
        false = self.propagate()
        if not false:
            raise NoPropagation
        left, chain = self.analyzed(false, begun)
        self.back_to(begun)
        number = self.put_derived(left, chain) if len(chain) > 1 else chain[0]
        if len(left) < 2:
            self.put_short(number)
        else:
            self.watch(left, number, literals)

    def analyzed(self, false: Watched, begun: int) -> tuple[frozenset[int], list[int]]:
        """What is left of a false clause, and its chain, after the literals are resolved away that were not assumed."""
        left, chain = set(false[1:]), [false[0]]
        for literal in reversed(self.trail[begun:]):
            reason = self.reasons[abs(literal)]
            if -literal in left and reason:
                chain.append(reason[0])
                left.update(reason[1:])
                left -= {literal, -literal}
        for literal in [literal for literal in left if -literal in self.units]:
            chain.append(self.units[-literal])
            left.remove(literal)
        return frozenset(left), chain

    def back_to(self, begun: int) -> None:
        for literal in self.trail[begun:]:
            self.values[literal] = self.values[-literal] = 0
        del self.trail[begun:]
        self.looked = begun

    def delete(self, literals: frozenset[int]) -> None:
        """Looks no more at a clause, as it was written. What is true in all cases by it stays so."""
        clauses = self.known.get(literals)
        if clauses:
            del clauses.pop()[1:]
            if not clauses:
                del self.known[literals]
