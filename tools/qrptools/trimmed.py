"""Reads traces as 'qrp_cmd trim' writes them: a step is a line, with single blanks and without leading zeros. A part of tools/proof-stats
and tools/used-clauses.

Such a trace may be large: it is read in blocks of lines, and only one of them is in memory.
"""

from collections.abc import Iterable, Iterator
from itertools import compress, repeat
from operator import itemgetter, not_

from qrptools.steps import lists_of
from qrptools.words import BLOCK


def trimmed_blocks(path: str) -> Iterator[bytes]:
    """The lines of the steps in file order, some at a time."""
    with open(path, "rb") as file:
        line = file.readline()
        while line[:1] in (b"p", b"a", b"e"):
            line = file.readline()
        while line[:1] not in (b"r", b""):
            block = b"".join([line, file.read(BLOCK), file.readline()])
            end = block.rfind(b"\nr") + 1
            yield block[:end] if end else block
            line = file.readline()


def trimmed_steps(path: str) -> Iterator[tuple[list[bytes], list[bytes]]]:
    """The lists of the steps in file order, some at a time, as steps.lists_of gives them."""
    return map(lists_of, trimmed_blocks(path))


def literals_of_initial(heads: list[bytes], tails: list[bytes]) -> Iterator[bytes]:
    """The literals of each of these steps that has no antecedents, as text."""
    return map(itemgetter(2), map(bytes.partition, compress(heads, map(not_, tails)), repeat(b" ")))


def initial_steps(path: str) -> Iterator[bytes]:
    """The literals of the initial steps in file order, as texts."""
    for block in trimmed_blocks(path):
        initial = block.split(b" 0 0\n")[:-1]
        steps: Iterable[bytes] = initial
        if block.count(b"\n") > len(initial):
            steps = map(itemgetter(2), map(bytes.rpartition, initial, repeat(b"\n")))  # each after others
        yield from map(itemgetter(2), map(bytes.partition, steps, repeat(b" ")))


def result(path: str) -> str:
    """The result word."""
    with open(path, "rb") as file:
        file.seek(-len(b"r unsat\n"), 2)
        return file.read().split()[-1].decode()
