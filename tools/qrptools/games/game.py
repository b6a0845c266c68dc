"""The game that a formula is, played by its proof. A part of tools/play and tools/solve.

The player wins whose quantifier the proof reduces. The first step without literals of the other quantifier is where the literals of the
outermost block go, and before it none of them is reduced. So the literals of this block that its antecedents have are those that bind the
winner: they are made false in clauses, and true in cubes. Other variables of the block may have any value.
"""

import os
import shutil
import tempfile
from collections.abc import Iterable, Iterator
from itertools import chain

from qrptools.command import Ends, unusable, writing
from qrptools.formula import EXISTS, FOR_ALL, Formula, Place, is_clean
from qrptools.program import run_program, why_not
from qrptools.games.restriction import Steps, antecedents
from qrptools.games.cut import Cut, count_lines, literals, spelled
from qrptools.step_rules import SIDES
from qrptools.trimmed import result
from qrptools.words import read

LETTERS = {EXISTS: "e", FOR_ALL: "a"}
LINES = {"sat": "VERIFIED true", "unsat": "VERIFIED false"}
OWN_FAULT = 3  # the status if a state is not verified


class Block:
    """A block of the prefix: its place, counted from 1, its quantifier and its variables."""

    def __init__(self, place: Place, variables: list[int]) -> None:
        self.number, self.quantifier, self.variables = place.block, place.quantifier, variables


def blocks_of(formula: Formula) -> list[Block]:
    """The blocks of a formula, from the outermost to the innermost."""
    blocks: list[Block] = []
    for place, text in formula.sets:
        variables = list(map(int, text.split()))
        if blocks and blocks[-1].number == place.block:
            blocks[-1].variables += variables
        else:
            blocks.append(Block(place, variables))
    return blocks


class State:
    """What is left of a formula and of its proof after some blocks have their values."""

    by = "proof"

    def __init__(self, path: str, trimmed: str, any_pivot: bool) -> None:
        """The beginning, of the files of the formula and of the trimmed trace."""
        self.formula = formula = Formula(read(path))
        self.variables, self.blocks, self.any_pivot = formula.variables, blocks_of(formula), any_pivot
        self.result = result(trimmed)
        self.side = SIDES[self.result]
        self.clauses = [b"\n" + b"".join(map(line_of, some)) for _, _, some in formula.pieces()]  # texts as cut.py has them
        self.steps = Steps(trimmed)

    def is_winners(self, block: Block) -> bool:
        return block.quantifier == self.side.reduced

    def move(self) -> tuple[list[int], list[int]]:
        """The winner's values of the outermost block, as literals, and those variables that may have any value."""
        given = self.binding_literals()
        values, are_open = [], []
        for variable in self.blocks[0].variables:
            literal = next((literal for literal in (variable, -variable) if b"%d" % literal in given), None)
            if literal is None:
                are_open.append(variable)
                values.append(-variable)
            else:
                values.append(literal if self.result == "sat" else -literal)
        return values, are_open

    def binding_literals(self) -> set[bytes]:
        """The literals of the first step that can be reduced to nothing. By any pivot the proof may go on after it: this is left out."""
        steps = self.steps
        deciding = self.deciding_literals() if self.any_pivot else frozenset()
        line = steps.end(deciding, self.any_pivot)
        found = steps.literals_before(line)
        if self.result == "unsat" and not antecedents(line):
            found = self.clause_with(found, self.deciding_literals())
        if self.any_pivot:
            steps.end_with(line)
        return found

    def deciding_literals(self) -> frozenset[bytes]:
        variables = [variable for block in self.blocks if not self.is_winners(block) for variable in block.variables]
        return spelled(variables) | spelled(-variable for variable in variables)

    def clause_with(self, found: set[bytes], deciding: frozenset[bytes]) -> set[bytes]:
        """The literals of the clause that an initial step with these comes from. None of them is of the deciding quantifier."""
        lines = chain.from_iterable(text.split(b"\n")[1:-1] for text in self.clauses)
        rows = (set(literals(line)) for line in lines)
        return next(row for row in rows if row >= found and row.isdisjoint(deciding) and is_clean(set(map(int, row))))

    def put_in(self, values: list[int]) -> None:
        """Puts values of the outermost block in, as literals: by the proof if it is the winner's."""
        true, false = spelled(values), spelled(-literal for literal in values)
        self.clauses = list(map(Cut(false, true).clauses, self.clauses))
        out, gone = (true, false) if self.result == "sat" else (false, true)
        if self.is_winners(self.blocks[0]) and not self.any_pivot:
            self.steps.leave_out(Cut(out))
        else:
            self.steps.take_out(Cut(out, gone))
        del self.blocks[0]

    def holds(self) -> bool:
        """Whether the matrix holds, after all variables have their values."""
        return count_lines(self.clauses) == 0

    def sets(self) -> bytes:
        return "".join(f"{LETTERS[block.quantifier]} {' '.join(map(str, block.variables))} 0\n" for block in self.blocks).encode()

    def formula_text(self) -> Iterator[bytes]:
        """The formula, some bytes at a time."""
        yield b"p cnf %d %d\n%b" % (self.variables, count_lines(self.clauses), self.sets())
        yield from (text.replace(b"\n ", b"\n")[1:] for text in self.clauses)

    def trace_text(self) -> Iterator[bytes]:
        """The trace, some bytes at a time."""
        yield b"p qrp %d %d\n%b" % (self.variables, count_lines(self.steps.texts), self.sets())
        yield from (text[1:] for text in self.steps.texts)
        yield b"r %b\n" % self.result.encode()


def line_of(text: bytes) -> bytes:
    """The line of a clause, of the text of its literals."""
    return b" %b 0\n" % text if text else b" 0\n"


class Checker:
    """Has qrp_cmd check each state, of files in a folder."""

    def __init__(self, folder: str, is_kept: bool, flags: list[str]) -> None:
        self.folder, self.is_kept, self.flags, self.count = folder, is_kept, flags, 0

    def check(self, state: State) -> tuple[str, list[str]]:
        """The line of a state that is verified, and its files. Else the command ends."""
        self.count += 1
        number = self.count if self.is_kept else 1
        formula, trace = (os.path.join(self.folder, f"state{number}.{kind}") for kind in ("qdimacs", "qrp"))
        self.write(formula, state.formula_text())
        self.write(trace, state.trace_text())
        line, status = run_program(["check", *self.flags, formula, trace])
        if line == LINES[state.result] and status == 0:
            return line, [formula, trace]
        if line.startswith(("REFUSED ", "VERIFIED ")):
            raise self.own_fault(line, formula, trace)
        raise unusable(f"state {self.count} is not checked: {why_not(line, status, formula, trace)}")

    def write(self, path: str, text: Iterable[bytes]) -> None:
        try:
            with open(path, "wb") as file:
                file.writelines(text)
        except OSError as fault:
            raise unusable(f"{path} cannot be written: {fault.strerror}") from fault

    def own_fault(self, line: str, *paths: str) -> Ends:
        folder = self.folder
        if not self.is_kept:
            with writing("the state that is not verified"):
                folder = tempfile.mkdtemp(prefix="qrp-not-verified-")
                for path in paths:
                    shutil.move(path, folder)
        fault = "this is a fault of this tool, and says nothing of the proof"
        return Ends(f"state {self.count} is not verified ({line}): {fault}; see {folder}", OWN_FAULT)
