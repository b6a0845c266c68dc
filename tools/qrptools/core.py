"""Finds the steps that a proof needs: the last one without literals, and those below it. A part of tools/explain and the tools beside it."""

import operator
from array import array
from itertools import islice
from typing import Callable, Optional

from qrptools.steps import Trace, lists_of, numbers_of


def is_needed(trace: Trace, number: int) -> bool:
    """Whether the proof needs the step with this number: the last step without literals is that step, or depends on it."""
    wanted, needed = b"%d" % number, False
    dependent: set[bytes] = set()
    for _, block in trace.blocks():
        if not dependent and b"\n%b " % wanted not in b"\n" + block:
            continue
        heads, tails = lists_of(block)
        if not dependent:
            place = [head.partition(b" ")[0] for head in heads].index(b"\n" + wanted)
            dependent.add(wanted)
            needed = b" " not in heads[place]
            del heads[: place + 1], tails[: place + 1]
        for head, tail in zip(heads, tails):
            depends = not dependent.isdisjoint(tail.split())
            if depends:
                dependent.add(head[1:].partition(b" ")[0])
            if b" " not in head:
                needed = depends
    return needed


class Core:
    """The numbers and antecedents of all steps, and which steps the proof needs; `goal` is the place of the last empty one, or None."""

    def __init__(self, trace: Trace) -> None:
        self.numbers = array("Q")
        self.antecedents = array("Q"), array("Q")  # 0 where there is none
        self.goal: Optional[int] = None
        for _, block in trace.blocks():
            self.take(*lists_of(block))
        self.find = self.finder()
        self.marks: Optional[bytearray] = None

    def take(self, heads: list[bytes], tails: list[bytes]) -> None:
        """Adds these steps."""
        begun = len(self.numbers)
        self.numbers.extend(numbers_of(heads))
        named = list(map(bytes.split, tails))
        for place, antecedents in enumerate(self.antecedents):
            antecedents.extend([int(words[place]) if len(words) > place else 0 for words in named])
        empty = [place for place, head in enumerate(heads) if b" " not in head]
        if empty:
            self.goal = begun + empty[-1]

    def finder(self) -> Callable[[int], int]:
        """What gives the place of the step with a number: one that is none where there is no such step."""
        numbers, none = self.numbers, len(self.numbers)
        if numbers and numbers[-1] - numbers[0] == none - 1 and all(map(operator.lt, numbers, islice(numbers, 1, None))):
            first = numbers[0]
            return lambda number: min(number - first, none) if first <= number else none
        places = dict(zip(numbers, range(none)))
        return lambda number: places.get(number, none)

    @property
    def needed(self) -> bytearray:
        """A byte for each step, which is 1 if the proof needs it."""
        if self.marks is None:
            self.marks = self.mark()
        return self.marks

    def mark(self) -> bytearray:
        needed, find = bytearray(len(self.numbers)), self.find
        if self.goal is None:
            return needed
        first, second = self.antecedents
        place = self.goal
        while place >= 0:
            needed[place] = 1
            for number in (first[place], second[place]):
                if number and (below := find(number)) < place:
                    needed[below] = 1
            place = needed.rfind(1, 0, place)
        return needed
