"""Whether clauses give steps that are not written as they are. A part of tools/used-clauses, whose given_clauses.py says what keys are."""

from collections import Counter
from collections.abc import Iterable
from functools import cached_property
from itertools import chain

from qrptools.formula import EXISTS, FOR_ALL, Formula

Keyed = tuple[bytes, int]  # the text of a step, and its key


def with_negations(texts: Iterable[bytes]) -> frozenset[bytes]:
    """The literals of some variables, as texts."""
    text = b"".join(b" " + text for text in texts)
    return frozenset((text + text.replace(b" ", b" -")).split())


class Reducts:
    """Some steps, found by their keys. They are taken out as soon as a clause gives them.

    Many steps may have one key, if they differ in universal literals alone. Then each is kept by the rarest of its universal literals, since a
    clause that gives it has this literal too.
    """

    def __init__(self, formula: Formula, universal: frozenset[bytes], steps: list[Keyed]) -> None:
        self.formula, self.universal = formula, universal
        self.left = {text for text, _ in steps}
        self.single: dict[int, bytes] = {}  # the step with a key
        shared = {key for text, key in steps if self.single.setdefault(key, text) != text}
        self.groups = self.grouped([(text, key) for text, key in steps if key in shared])  # those of a key that several have

    def grouped(self, steps: list[Keyed]) -> dict[int, dict[bytes, set[bytes]]]:
        """Steps by their keys, and of each key by the rarest universal literal, or by the empty text if they have none."""
        universal = [self.universal.intersection(text.split()) for text, _ in steps]
        counts = Counter(chain.from_iterable(universal))
        groups: dict[int, dict[bytes, set[bytes]]] = {}
        for (text, key), literals in zip(steps, universal):
            rarest = min(literals, key=counts.__getitem__, default=b"")
            groups.setdefault(key, {}).setdefault(rarest, set()).add(text)
        return groups

    def take(self, clause: bytes, key: int) -> bool:
        """Takes the steps with this key out that a clause gives, and returns whether there are any."""
        given = [step for step in self.near(clause, key) if step in self.left and self.is_given(clause, step)]
        self.left.difference_update(given)
        return bool(given)

    def near(self, clause: bytes, key: int) -> list[bytes]:
        """The steps with this key that a clause may give."""
        if key not in self.groups:
            return [self.single[key]]
        literals = [b"", *self.universal.intersection(clause.split())]
        return [step for literal in literals for step in self.groups[key].get(literal, ())]

    def is_given(self, clause: bytes, step: bytes) -> bool:
        """Whether a step is a clause, or a reduct of it."""
        literals, kept = frozenset(clause.split()), step.split()
        if not literals.issuperset(kept):
            return False
        out = literals.difference(kept)
        is_clean = not out or len(set(clause.replace(b"-", b"").split())) == len(literals)
        return is_clean and (out <= self.innermost or self.are_reducible(literals, out))

    def are_reducible(self, literals: frozenset[bytes], out: frozenset[bytes]) -> bool:
        """Whether some literals of a clause are universal, and in blocks after those of all of its existential ones."""
        last = max(map(self.blocks.__getitem__, literals - self.universal), default=0)
        return out <= self.universal and min(map(self.blocks.__getitem__, out)) > last

    @cached_property
    def blocks(self) -> dict[bytes, int]:
        """The block of each literal."""
        return {literal: place.block for place, text in self.formula.sets for literal in with_negations([text])}

    @cached_property
    def innermost(self) -> frozenset[bytes]:
        """The universal literals after all existential ones."""
        sets = self.formula.sets
        last = max((place.block for place, _ in sets if place.quantifier == EXISTS), default=0)
        are_all = all(place.block > last for place, _ in sets if place.quantifier == FOR_ALL)
        return self.universal if are_all else with_negations(text for place, text in sets if place.block > last)
