"""Finds single steps of a trace that the program has found right, without reading all steps before them. A part of tools/explain.

In such a trace a line that begins with a number may be a step, or the rest of one that began in a line before. Which of these it is can
be seen from the lines just before it: whatever state a reader is in, after a line with two lists of which the first cannot be one of
antecedents, because it has a minus or more than two numbers, it is between two steps. If no such line is near, the zeros are counted from the
last line with a minus on, or from the first step: there are two of each step. If they are hard to count, or the trace has comments, nothing
is found here, and the steps are read from the beginning.

Where a step is looked for first is guessed by the numbers that lines begin with, as if they went up. Of a number that is not found, its
digits are looked for: if each place where they stand is in the line of another step, there is no step with it.
"""

import re
from collections.abc import Iterator
from typing import Optional

from qrptools.steps import Found, Step, Trace
from qrptools.words import BLOCK, pieces

NEAR = 1000  # lines that are looked at before a step
SMALL = 1 << 16  # bytes that are looked through, once the place of a step is guessed
MANY = 100  # places that are looked at for a step, if it is not where it is guessed
MISSING = 0  # as the place of a step: there is none
NUMBER = re.compile(rb"[0-9]{1,20}")
ODD_ZEROS = (b"\n0", b"\t", b"\r")  # what makes the zeros of some lines hard to count
WHOLE_STEP = re.compile(rb"[1-9][0-9]*(?: -?[1-9][0-9]*)* 0(?: [1-9][0-9]*){0,2} 0")


class Finder:
    """The places of steps in the text of a trace. `result` is None if the steps have to be read from the beginning."""

    def __init__(self, trace: Trace) -> None:
        self.data = trace.data
        self.begin = trace.words.start  # of the line with the first step
        self.is_line_of_step = trace.words.taken == 0  # whether that line begins with it
        self.starts = {self.begin} if self.is_line_of_step else set()  # of lines that are known to begin with a step
        self.end = len(self.data)
        self.result: Optional[list[bytes]] = None
        for place, piece in pieces(self.data, self.begin, self.end):
            steps, end, _ = piece.partition(b"r")  # without comments no other letter stands between the steps
            if b"c" in steps or b"#" in steps:
                return
            if end:
                self.end = place + len(steps)
                self.result = self.data[self.end : self.end + 200].lower().split()[1:2]
                return

    def place(self, number: int) -> Optional[int]:
        """Where the line of the step with this number begins, MISSING if there is no such step; None if that is not sure."""
        sign = b"\n%d " % number
        low, high = self.guess(number)
        guessed = self.step_after(sign, low, high + len(sign))
        if guessed is None and self.is_missing(number):
            return MISSING
        return guessed or self.step_after(sign, self.begin - 1, self.end)

    def step_after(self, sign: bytes, start: int, end: int) -> Optional[int]:
        """Where the first line begins after a line end between these places that begins so and is sure to be a step; None if there is none."""
        return next((place + 1 for place in self.found(sign, start, end) if self.is_step(place + 1)), None)

    def is_missing(self, number: int) -> bool:
        """Whether it is sure that no step has this number: its digits stand in few places, each in the line of another step."""
        places = list(self.found(b"%d" % number, self.begin, self.end))
        starts = {max(self.data.rfind(b"\n", 0, place) + 1, self.begin) for place in places}
        return len(places) < MANY and all(self.is_step(start) and int(self.line_at(start).split()[0]) != number for start in starts)

    def found(self, wanted: bytes, start: int, end: int) -> Iterator[int]:
        """The first places between these two in which this stands, at most MANY."""
        for _ in range(MANY):
            start = self.data.find(wanted, start, end) + 1
            if not start:
                return
            yield start - 1

    def guess(self, number: int) -> tuple[int, int]:
        """Between which places the line before the step with this number ends, if the numbers of the steps go up and each begins a line."""
        low, high = self.begin - 1, self.end
        while high - low > SMALL:
            middle = self.data.find(b"\n", (low + high) // 2, high)
            first = NUMBER.match(self.data[middle + 1 : middle + 21]) if middle >= 0 else None
            if first and int(first[0]) <= number:
                low = middle
            elif first:
                high = middle
            else:
                break
        return low, high

    def line_at(self, place: int) -> bytes:
        end = self.data.find(b"\n", place, self.end)
        return self.data[place : end if end >= 0 else self.end]

    def is_step(self, place: int) -> bool:
        """Whether it is sure that a step begins at this line, and ends in it."""
        return bool(WHOLE_STEP.fullmatch(self.line_at(place))) and (self.is_after_step(place) or self.is_after_zeros(place))

    def is_after_zeros(self, place: int) -> bool:
        """Whether it is sure by the zeros before this line that a step begins with it: they are even in number, and the last is just before."""
        start = max((start for start in self.starts if start <= place), default=self.begin)
        minus = self.data.rfind(b"-", start, place)
        after = self.data.find(b"\n", minus, place) + 1 if minus >= 0 else 0
        if after and self.is_step_with_minus(self.data.rfind(b"\n", 0, minus) + 1):
            start = after
            self.starts.add(start)
        if start not in self.starts:
            return False
        zeros = 0
        for lines in self.lines(start, place):
            count = lines.count(b" 0")
            if count != lines.count(b" 0 ") + lines.count(b" 0\n") or lines[:1] == b"0" or any(part in lines for part in ODD_ZEROS):
                return False
            zeros += count
        is_sure = zeros % 2 == 0 and (start == place or self.data[place - 3 : place] == b" 0\n")
        self.starts |= {place} if is_sure else set()
        return is_sure

    def is_step_with_minus(self, place: int) -> bool:
        """Whether a line has two lists, and a minus in the first of them, so that it is a step."""
        line = self.line_at(place)
        return bool(WHOLE_STEP.fullmatch(line)) and b"-" in line[: line.index(b" 0 ")]

    def lines(self, start: int, end: int) -> Iterator[bytes]:
        """The lines from one place to another, some at a time."""
        while start < end:
            after = self.data.rfind(b"\n", start, min(start + BLOCK, end)) + 1 or self.data.find(b"\n", start, end) + 1 or end
            yield self.data[start:after]
            start = after

    def is_after_step(self, place: int) -> bool:
        """Whether it is sure by the lines just before this one that a step begins with it."""
        for _ in range(NEAR):
            if place == self.begin:
                return self.is_line_of_step
            end = place - 1
            place = max(self.data.rfind(b"\n", 0, end) + 1, self.begin)
            line = self.data[place:end]
            if not WHOLE_STEP.fullmatch(line):
                return False
            first = line[: line.index(b" 0 ")]
            if place > self.begin and (b"-" in first or first.count(b" ") >= 2):
                return True
        return False

    def step(self, place: int) -> Step:
        return Step(sum(piece.count(b"\n") for _, piece in pieces(self.data, 0, place)) + 1, self.line_at(place))


def find_near(trace: Trace, number: int) -> Optional[Found]:
    """The step with this number and those that it names; None if that is not sure."""
    finder = Finder(trace)
    if not finder.result or finder.result[0] not in (b"sat", b"unsat"):
        return None
    place = finder.place(number)
    if not place:
        return None
    found = Found(finder.step(place), {}, {})
    for antecedent in found.step.antecedents:
        other = finder.place(antecedent)
        if other is None:
            return None
        if MISSING < other < place:
            found.before[antecedent] = list(map(int, finder.line_at(other).partition(b" 0 ")[0].split()[1:]))
        elif other:
            found.later[antecedent] = finder.step(other).line
    trace.result = finder.result[0].decode()
    return found
