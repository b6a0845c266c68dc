"""Which clauses of a formula give the initial steps of a trace. A part of tools/used-clauses.

A clause gives a step if it has all of its literals, and what it has more is universal and reducible in it. Of each step the first such clause is
wanted. Clauses and steps are texts here, such as `1 -2 3`. They are looked for in three ways, each for what the one before leaves:

1. Most traces begin with the clauses in their order. So the first clause is compared with the first step, and so on.
2. A step that is written as some clause is looked up by its text.
3. Else the clause has other literals too. But its existential literals are those of the step, so both have the same key, a number made of these
   literals. Only clauses and steps with the same key are compared literal by literal (reducts.py).

If several clauses have the key of a step, the first one that gives it need not be the one that is written as it is. So these are compared literal
by literal too.
"""

from array import array
from collections import Counter
from collections.abc import Iterable, Iterator, Sequence
from itertools import chain, compress, islice
from operator import eq
from typing import NamedTuple, Optional

from qrptools.formula import FOR_ALL, Formula
from qrptools.reducts import Keyed, Reducts, with_negations

FEW = 8  # steps are few if the formula has more than so many times as many clauses


class Clauses(NamedTuple):
    """Some clauses in file order: their numbers, their lines, and the texts of their literals."""

    numbers: Sequence[int]
    lines: Sequence[int]
    texts: list[bytes]

    def chosen(self, marks: bytes) -> "Clauses":
        """Those with a mark that is not 0."""
        return Clauses(list(compress(self.numbers, marks)), list(compress(self.lines, marks)), list(compress(self.texts, marks)))


class Candidates:
    """The clauses that may give a step, some at a time. If the steps are few, each clause that has the first literal of one: these are kept.
    Else all clauses, which are read anew each time."""

    def __init__(self, formula: Formula, first_literals: Optional[set[bytes]]) -> None:
        self.formula = formula
        self.kept = None if first_literals is None else [clauses.chosen(having(first_literals, clauses.texts)) for clauses in self.read()]

    def __iter__(self) -> Iterator[Clauses]:
        return self.read() if self.kept is None else iter(self.kept)

    def read(self) -> Iterator[Clauses]:
        for number, line, texts in self.formula.pieces():
            yield Clauses(range(number, number + len(texts)), range(line, line + len(texts)), texts)


def having(literals: set[bytes], texts: list[bytes]) -> bytes:
    """Of each text whether it has one of these literals."""
    return bytes(not literals.isdisjoint(text.split()) for text in texts)


class Given:
    """The clauses that give the initial steps of a trace, of the texts of the literals of these steps."""

    def __init__(self, formula: Formula, steps: Iterator[bytes]) -> None:
        self.formula = formula
        self.universal = with_negations(text for place, text in formula.sets if place.quantifier == FOR_ALL)
        few = list(islice(steps, formula.count // FEW))
        are_few = len(few) < formula.count // FEW and b"" not in few
        self.steps = chain(few, steps)
        self.candidates = Candidates(formula, {step.split(b" ", 1)[0] for step in few} if are_few else None)
        self.keys = array("q")  # of each candidate
        self.are_steps = bytearray()  # of each candidate whether it is written as a step

    def clauses(self) -> Iterator[Clauses]:
        """Those that give steps, some at a time."""
        left = self.with_keys(self.compare())
        doubtful = self.doubtful().union(key for _, key in left)
        reducts = Reducts(self.formula, self.universal, [*left, *self.steps_with(doubtful)])
        for clauses, keys, are_steps in self.with_marks():
            if not doubtful.isdisjoint(keys):
                rows = zip(clauses.texts, keys, are_steps)
                are_steps = bytes(reducts.take(text, key) if key in doubtful else is_step for text, key, is_step in rows)
            yield clauses.chosen(are_steps)

    def compare(self) -> Iterable[bytes]:
        """Marks the candidates that are written as a step. Returns the steps that no candidate is written as."""
        left = self.compare_in_order()
        if left:
            texts = chain.from_iterable(clauses.texts for clauses in self.candidates)
            for place, text in enumerate(texts):
                if left.pop(text, False):
                    self.are_steps[place] = True
        return left

    def compare_in_order(self) -> dict[bytes, bool]:
        """Gives each candidate a key, and marks it if the step in its place is written so. Returns the other steps, each with True."""
        left: dict[bytes, bool] = {}
        for clauses in self.candidates:
            steps = list(islice(self.steps, len(clauses.texts)))
            are_same = bytes(map(eq, clauses.texts, steps))
            self.keys.extend(self.keys_of(clauses.texts))
            self.are_steps.extend(are_same.ljust(len(clauses.texts), b"\0"))
            if not all(are_same):
                left.update((step, True) for step, is_same in zip(steps, are_same) if not is_same)
        left.update((step, True) for step in self.steps)
        return left

    def keys_of(self, texts: Iterable[bytes]) -> list[int]:
        """The key of each text. Texts with other existential literals hardly ever have the same one."""
        return [hash(frozenset(text.split()) - self.universal) for text in texts]

    def with_keys(self, steps: Iterable[bytes]) -> list[Keyed]:
        texts = list(steps)
        return list(zip(texts, self.keys_of(texts)))

    def doubtful(self) -> set[int]:
        """The keys that several candidates have, one of which is written as a step."""
        if len(set(self.keys)) == len(self.keys):
            return set()
        several = {key for key, count in Counter(self.keys).items() if count > 1}
        return several.intersection(compress(self.keys, self.are_steps))

    def steps_with(self, wanted: set[int]) -> Iterator[Keyed]:
        """The steps with these keys that a candidate is written as."""
        if not wanted:
            return
        for clauses, keys, are_steps in self.with_marks():
            if not wanted.isdisjoint(keys):
                yield from ((text, key) for text, key, is_step in zip(clauses.texts, keys, are_steps) if is_step and key in wanted)

    def with_marks(self) -> Iterator[tuple[Clauses, Sequence[int], bytes]]:
        """The candidates, each time with their keys, and whether they are written as steps."""
        start = 0
        for clauses in self.candidates:
            end = start + len(clauses.texts)
            yield clauses, self.keys[start:end], bytes(self.are_steps[start:end])
            start = end
