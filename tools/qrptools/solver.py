"""Runs DepQBF, or a SAT solver, and has qrp_cmd check the proof of it. A part of tools/solve and tools/explain-strategy."""

import argparse
import os
import subprocess
import tempfile
from collections.abc import Sequence
from contextlib import AbstractContextManager
from typing import IO, Optional

from qrptools.command import Ends, finding, started, unusable
from qrptools.program import CHECKER, run_program, signal_of, why_not

OPTIONS = ["--trace=qrp", "--dep-man=simple", "--no-qbce-dynamic"]
MODES = {"traditional": "--traditional-qcdcl", "lazy": "--no-lazy-qpup"}
ANSWERS = {10: "VERIFIED true", 20: "VERIFIED false"}  # by the solver's status
DEPQBF = "depqbf"
CADICAL = "cadical"
SATISFIABLE, UNSATISFIABLE = 10, 20  # statuses of SAT solvers
YEAR = 366 * 86400  # seconds


def seconds(word: str) -> float:
    """A number of seconds of a command line."""
    try:
        number = float(word)
    except ValueError:
        number = 0.0
    if not 0 < number < YEAR:
        raise argparse.ArgumentTypeError(f"'{word}' is not a number of seconds above 0 and below {YEAR}")
    return number


class Solver:
    """A solver by its command, with a mode and options of its own. It is given up after so many seconds, if there is a number; `limit` is the
    status of this command if the solver reached a limit."""

    def __init__(
        self, command: str = DEPQBF, mode: str = "traditional", options: Sequence[str] = (), timeout: Optional[float] = None, limit: int = 2
    ) -> None:
        self.command, self.options = command, [*OPTIONS, MODES[mode], *options]
        self.timeout, self.limit = timeout, limit

    def solve(self, formula: str, trace: str, named: str) -> str:
        """Writes the solver's proof to this file, which a message names so, and returns the line that it should be verified by."""
        formula = os.path.join(".", formula) if formula.startswith("-") else formula
        try:
            with open(trace, "wb") as out, self.started(formula, out) as process:
                _, complained = process.communicate(timeout=self.timeout)
        except subprocess.TimeoutExpired as fault:
            raise given_up(self.timeout, self.limit) from fault
        except OSError as fault:
            if fault.filename == trace:
                raise unusable(f"{named} cannot be written: {fault.strerror}") from fault
            advice = "install it (on Debian: apt-get install depqbf), or name it by --solver"
            raise unusable(f"the solver {self.command} cannot be run ({fault.strerror}): {advice}") from fault
        if process.returncode in ANSWERS:
            return ANSWERS[process.returncode]
        line = no_answer(process.returncode, complained)
        raise Ends(line, self.limit) if process.returncode == 0 else finding(line)

    def started(self, formula: str, out: IO[bytes]) -> "AbstractContextManager[subprocess.Popen[bytes]]":
        return started([self.command, *self.options, formula], stdin=subprocess.DEVNULL, stdout=out, stderr=subprocess.PIPE)


class SatSolver:
    """A SAT solver by its command, which is called as cadical is, with options and two files: a formula in DIMACS, and one for its proof in
    DRAT. It is given up after so many seconds."""

    def __init__(self, command: str, timeout: float) -> None:
        self.command, self.timeout = command, timeout

    def solve(self, formula: str, proof: str, *options: str) -> Optional[set[int]]:
        """The literals that are true if the formula is; None if the solver has written a refutation."""
        words = [self.command, "-q", "--no-binary", *options, formula, proof]
        try:
            with started(words, stdin=subprocess.DEVNULL, stdout=subprocess.PIPE, stderr=subprocess.PIPE) as process:
                printed, complained = process.communicate(timeout=self.timeout)
        except subprocess.TimeoutExpired as fault:
            raise given_up(self.timeout, 2) from fault
        except OSError as fault:
            advice = "install it (on Debian: apt-get install cadical), or name another one by --sat-solver"
            raise unusable(f"the solver {self.command} cannot be run ({fault.strerror}): {advice}") from fault
        if process.returncode == UNSATISFIABLE:
            return None
        if process.returncode == SATISFIABLE:
            lines = printed.decode(errors="replace").split("\n")
            return {int(word) for line in lines if line.startswith("v ") for word in line.split()[1:] if word.lstrip("-").isdecimal()}
        line = no_answer(process.returncode, complained)
        raise unusable(line) if process.returncode == 0 else finding(line)


def given_up(timeout: Optional[float], status: int) -> Ends:
    return Ends(f"the solver was given up after {timeout:g} seconds", status)


def no_answer(status: int, complained: bytes) -> str:
    said = complained.decode(errors="replace").strip().split("\n")[-1]
    return f"the solver has no answer, but {ended_by(status)}" + (f": {said}" if said else "")


def ended_by(status: int) -> str:
    """A status in words. A shell adds 128 to a signal."""
    return f"was ended by {signal_of(status).rstrip(',')}" if status < 0 else f"status {status}"


def verify(formula: str, trace: str, answer: str, named: str, program: str = CHECKER) -> None:
    """Ends the command if the proof does not show the answer by this program."""
    line, status = run_program(["check", formula, trace], name=program)
    if line == answer and status == 0:
        return
    if line.startswith("REFUSED trace "):
        refuse_full(trace, named)
    if line.startswith(("REFUSED ", "VERIFIED ")):
        raise finding(
            f"the solver answers {answer.split()[-1]}, and {program} says {line} of its proof" + (f", with status {status}" if line == answer else "")
        )
    raise unusable(why_not(line, status, formula, trace, program))


def refuse_full(trace: str, named: str) -> None:
    """Ends the command if nothing more can be written beside the proof: then it was cut off for that reason."""
    try:
        with tempfile.NamedTemporaryFile(dir=os.path.dirname(trace) or ".") as file:
            file.write(bytes(1 << 16))
    except OSError as fault:
        raise unusable(f"the proof cannot be written to {named}: {fault.strerror}") from fault
