"""Takes values of the outermost block out of a proof. A part of tools/play.

A clause with a true literal is gone, and of the others the false literals go; the same holds of steps that are clauses. Of cubes it is the
other way round. What is left of the proof is a proof of the formula that is left. Nothing here is proved: qrp_cmd checks each formula that
is left by the proof that is left.
"""

from array import array
from collections.abc import Iterable, Iterator, Sequence
from itertools import chain, compress, repeat
from operator import contains, itemgetter
from typing import Callable

from qrptools.games.cut import Cut, literals
from qrptools.steps import integers, lists_of
from qrptools.trimmed import trimmed_blocks

SOME = 1 << 12  # steps at a time
WHOLE, LESS, GONE = range(3)  # of a step, what is left of it: all that the values leave of it, less, or nothing
NONE = -1  # as the place of an antecedent: there is none
ABSENT = -2  # as the place of an antecedent: nothing is left of it


class Steps:
    """The steps of a proof in file order, in texts as cut.py has them. The last one is the goal, and all others are needed."""

    def __init__(self, path: str) -> None:
        self.texts = [b"\n" + block for block in trimmed_blocks(path)]

    def lines(self) -> Iterator[bytes]:
        """The line of each step."""
        return chain.from_iterable(text.split(b"\n")[1:-1] for text in self.texts)

    def last_line(self) -> bytes:
        text = self.texts[-1]
        return text[text.rfind(b"\n", 0, -1) + 1 : -1]

    def with_number(self, number: bytes) -> bytes:
        """The line of the step with this number, which is looked for from the end on."""
        for text in reversed(self.texts):
            start = text.rfind(b"\n%b " % number) + 1
            if start:
                return text[start : text.find(b"\n", start)]
        raise ValueError(number)

    def end(self, deciding: frozenset[bytes], any_pivot: bool) -> bytes:
        """The line of the first step without literals of the deciding quantifier."""
        if any_pivot:
            return next(line for line in self.lines() if deciding.isdisjoint(literals(line)))
        # Then such a step can only be reduced.
        line = self.last_line()
        while len(below := antecedents(line)) == 1:
            line = self.with_number(*below)
        return line

    def literals_before(self, line: bytes) -> set[bytes]:
        """The literals of the antecedents of a step, or its own if it has none."""
        below = list(map(self.with_number, antecedents(line))) or [line]
        return set(chain.from_iterable(map(literals, below)))

    def end_with(self, line: bytes) -> None:
        """Leaves out all that comes after this step, and lets the goal be a reduct of it."""
        goal, wanted = self.last_line(), b"\n" + line.partition(b" 0 ")[0]
        if line != goal:
            lists = Lists(iter(self.texts), lambda lines: lines.index(wanted) if wanted in lines else -1)
            lists.tails.append(b" " + lists.number(lists.goal))
            lists.keep(needed(lists.first, lists.second, lists.goal) + b"\1")
            lists.lines.append(b"\n" + goal.partition(b" ")[0])
            self.texts = list(lists.texts())

    def leave_out(self, cut: Cut) -> None:
        """Takes literals out of all steps."""
        self.texts = list(map(cut.steps, self.texts))

    def take_out(self, cut: Cut) -> None:
        """Takes values of the outermost block out of the proof."""
        lists = Lists(map(cut.steps, self.texts), first_empty)
        lists.keep(Restriction(lists).follow())
        self.texts = list(lists.texts())


def antecedents(line: bytes) -> list[bytes]:
    """The numbers of the antecedents of a step, as text."""
    return line.partition(b" 0 ")[2].split(b" ")[:-1]


def first_empty(lines: list[bytes]) -> int:
    """The place of the first step without literals, or -1."""
    return bytes(map(contains, lines, repeat(b" "))).find(0)


class Lists:
    """Steps as lists: of each its number and literals after a line end, and its antecedents, each after a blank. The last one is the goal."""

    def __init__(self, texts: Iterator[bytes], find_goal: Callable[[list[bytes]], int]) -> None:
        """Takes the steps of these texts up to the first one that `find_goal` finds among the lines of a text."""
        self.lines: list[bytes] = []
        self.tails: list[bytes] = []
        place = -1
        while place < 0:
            lines, tails = lists_of(next(texts)[1:])
            place = find_goal(lines)
            end = place + 1 or len(lines)
            self.lines += lines[:end]
            self.tails += tails[:end]
        # Its places: those of the antecedents of each step.
        numbers = map(int, map(itemgetter(0), map(bytes.partition, self.lines, repeat(b" "))))  # which leaves the line end out
        self.places = dict(zip(numbers, range(len(self.lines))))
        self.places[0] = NONE
        self.first, self.second = array("q"), array("q")
        for start in range(0, len(self.tails), SOME):
            for places, named in zip((self.first, self.second), antecedents_of(self.tails[start : start + SOME])):
                places.extend(map(self.places.get, named, repeat(ABSENT)))

    @property
    def goal(self) -> int:
        return len(self.lines) - 1

    def number(self, place: int) -> bytes:
        return self.lines[place].partition(b" ")[0][1:]

    def keep(self, marks: bytes) -> None:
        """Keeps the steps with a mark."""
        self.lines, self.tails = list(compress(self.lines, marks)), list(compress(self.tails, marks))

    def texts(self) -> Iterator[bytes]:
        """The steps as texts."""
        for start in range(0, len(self.lines), SOME):
            lists = chain.from_iterable(zip(self.lines[start : start + SOME], self.tails[start : start + SOME]))
            yield b" 0".join(lists) + b" 0\n"


def antecedents_of(tails: list[bytes]) -> Iterator[Iterator[int]]:
    """The numbers of the first antecedents, and of the second ones: 0 where there is none."""
    counts = bytes(map(bytes.count, tails, repeat(b" ")))
    one, two = (integers(b"".join(compress(tails, map(count.__eq__, counts)))) for count in (1, 2))
    none: Iterator[int] = repeat(0)
    for sources in [none, iter(one), iter(two[0::2])], [none, none, iter(two[1::2])]:
        yield map(next, map(sources.__getitem__, counts))


def needed(first: Sequence[int], second: Sequence[int], goal: int) -> bytearray:
    """Marks the steps that the goal needs."""
    marks = bytearray(goal + 1)
    marks[goal] = 1
    place = goal
    while place >= 0:
        one, other = first[place], second[place]
        if one >= 0:
            marks[one] = 1
        if other >= 0:
            marks[other] = 1
        place = marks.rfind(1, 0, place)
    return marks


class Restriction:
    """The rest of a proof from whose steps literals were taken out, and of which some steps are gone.

    Of each step it is found which of its literals can still be derived, and from which antecedents. Nothing changes if both antecedents are
    left as a whole.
    """

    def __init__(self, steps: Lists) -> None:
        self.steps, self.lines = steps, steps.lines
        self.goal = steps.goal
        self.left = bytearray(repeat(WHOLE, len(self.lines)))
        self.left += bytes([GONE, WHOLE])  # of the places that are ABSENT and NONE
        self.rest: dict[int, bytes] = {}  # lines of which less is left
        self.stand: dict[int, int] = {}  # the places of steps that are as another one

    def follow(self) -> bytearray:
        """Goes through the steps in file order up to the first one of which no literal is left; it and those that it needs are marked."""
        steps, left = self.steps, self.left
        marks = needed(steps.first, steps.second, self.goal)
        for place, first, second in compress(zip(range(self.goal + 1), steps.first, steps.second), marks):
            if left[first] == WHOLE == left[second]:
                continue
            self.derive(place, [below for below in (first, second) if below >= 0])
            if place in self.rest and b" " not in self.rest[place]:
                self.goal = place
                break
        for place, line in self.rest.items():
            self.lines[place] = line
        return needed(steps.first, steps.second, self.goal)

    def line(self, place: int) -> bytes:
        return self.rest.get(place, self.lines[place])

    def derive(self, place: int, antecedents: list[int]) -> None:
        """Finds what is left of a step, of whose antecedents something is left."""
        if len(antecedents) == 2:
            antecedents = self.with_pivot(*antecedents)
        antecedents = [self.stand.get(below, below) for below in antecedents]
        given = {word for below in antecedents for word in words(self.line(below))}
        number, *wanted = self.lines[place].split(b" ")
        kept = list(filter(given.__contains__, wanted))
        if len(antecedents) == 1 and given.issubset(kept):
            self.stand[place], self.left[place] = antecedents[0], LESS
            return
        if len(kept) < len(wanted):
            self.rest[place], self.left[place] = b" ".join([number, *kept]), LESS
        self.set_antecedents(place, antecedents)

    def set_antecedents(self, place: int, antecedents: list[int]) -> None:
        steps = self.steps
        steps.first[place], steps.second[place] = (*antecedents, NONE)[:2]
        steps.tails[place] = b"".join(b" " + steps.number(below) for below in antecedents)

    def with_pivot(self, one: int, other: int) -> list[int]:
        """Those of two antecedents that a step can come from: both if they still clash, else one that has lost the literal of the pivot."""
        first, second = (self.line(self.stand.get(place, place)) for place in (one, other))
        if not set(words(first)).isdisjoint(words(negated(second))):
            return [one, other]
        pivot = set(words(self.lines[one])).intersection(words(negated(self.lines[other])))
        return [one] if pivot.isdisjoint(words(first)) else [other]


def words(line: bytes) -> list[bytes]:
    """The literals of a number and literals."""
    return line.split(b" ")[1:]


def negated(line: bytes) -> bytes:
    """A number and literals, with each literal negated."""
    return line.replace(b" ", b" -").replace(b"--", b"")
