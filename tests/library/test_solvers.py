"""The solvers of examples/callers on random formulas; tests/library/test-library runs this. usage: test_solvers.py PROGRAM SOLVER..

A SOLVER is a program, or a file in Python. For each formula it has to print the verdict with the truth that trying all values gives, on the
proof that it handed over, and the same proof, written as text, has to get the same line from PROGRAM, with --qu too. The last line that is
printed has two numbers, how many cases passed and failed.
"""

import concurrent.futures
import contextlib
import functools
import io
import os
import pathlib
import random
import runpy
import subprocess
import sys
import tempfile
from collections.abc import Callable
from typing import Optional

sys.dont_write_bytecode = True
sys.path.insert(0, str(pathlib.Path(__file__).resolve().parents[1] / "tools"))
import random_proofs  # noqa: E402

Ended = tuple[str, str, Optional[int]]  # what a command printed on its output and its errors, and its status
Solve = Callable[..., Ended]
Pairs = list[tuple[str, int]]  # the variables of a prefix, each with its quantifier
Clauses = list[list[int]]
Case = tuple[bool, Pairs, Clauses]  # a formula with its truth
SEED = 2012
OF_EACH_TRUTH = 150
BLOCKS = 3  # at least so many in a third of the formulas


def block_count(pairs: Pairs) -> int:
    """How many blocks the prefix has."""
    return sum(1 for place, pair in enumerate(pairs) if place == 0 or pair[0] != pairs[place - 1][0])


def formulas() -> list[Case]:
    """As many true as false formulas, each with its truth; a third of each have several blocks."""
    draw = random.Random(SEED)
    found: dict[bool, list[tuple[Pairs, Clauses]]] = {True: [], False: []}
    while min(map(len, found.values())) < OF_EACH_TRUTH:
        pairs, clauses = random_proofs.random_formula(draw)
        same = found[random_proofs.truth(pairs, clauses)]
        if len(same) < OF_EACH_TRUTH and (len(same) % 3 or block_count(pairs) >= BLOCKS):
            same.append((pairs, clauses))
    return [(truth, pairs, clauses) for truth, same in found.items() for pairs, clauses in same]


def text_of(pairs: Pairs, clauses: Clauses) -> str:
    """The formula in QDIMACS."""
    sets = "".join(f"{quantifier} {variable} 0\n" for quantifier, variable in pairs)
    lines = "".join(" ".join(map(str, [*clause, 0])) + "\n" for clause in clauses)
    return f"p cnf {max([0, *(variable for _, variable in pairs)])} {len(clauses)}\n{sets}{lines}"


def ended(*words: object) -> Ended:
    """What the command printed on its output and its errors, and its status; a command that takes a minute is ended."""
    called = list(map(str, (sys.executable, *words) if str(words[0]).endswith(".py") else words))
    try:
        run = subprocess.run(called, capture_output=True, text=True, timeout=60, check=False)
    except subprocess.TimeoutExpired:
        return "", "it takes more than a minute", None
    return run.stdout, run.stderr, run.returncode


@functools.lru_cache(maxsize=None)
def checked(program: str, formula: str, trace: str) -> tuple[Ended, Ended]:
    """What the program says of these texts, without the flag and with it."""
    with tempfile.TemporaryDirectory() as work:
        files = pathlib.Path(work, "formula"), pathlib.Path(work, "trace")
        for file, text in zip(files, (formula, trace)):
            file.write_text(text)
        return ended(program, "check", *files), ended(program, "check", "--qu", *files)


def in_python(file: str) -> Solve:
    """What calls the solver in this file, without a process of its own for each formula, and returns what `ended` does."""
    module = runpy.run_path(file)

    def call(*words: object) -> Ended:
        output, errors = io.StringIO(), io.StringIO()
        with contextlib.redirect_stdout(output), contextlib.redirect_stderr(errors):
            status = module["main"](list(map(str, words)))
        return output.getvalue(), errors.getvalue(), status

    return call


def is_solved(program: str, solve: Solve, formula: str, wanted: str) -> bool:
    """Whether the solver, which this calls, prints this line for the formula, and the program does for its proof as text."""
    with tempfile.TemporaryDirectory() as work:
        file, trace = pathlib.Path(work, "formula"), pathlib.Path(work, "trace")
        file.write_text(formula)
        line = (f"VERIFIED {wanted}\n", "", 0)
        return solve(file, trace) == line and checked(program, formula, trace.read_text()) == (line, line)


def solved(program: str, solver: str, cases: list[Case]) -> list[bool]:
    """For each formula whether the solver solves it. Those that it does not are named."""
    is_file = solver.endswith(".py")
    command: Solve = functools.partial(ended, solver)
    solve = in_python(solver) if is_file else command
    with concurrent.futures.ThreadPoolExecutor(1 if is_file else os.cpu_count()) as pool:
        answers = list(pool.map(lambda case: is_solved(program, solve, text_of(*case[1:]), str(case[0]).lower()), cases))
    for (_, pairs, clauses), is_right in zip(cases, answers):
        if not is_right:
            print(f"FAILED: {pathlib.Path(solver).name} on {text_of(pairs, clauses)!r}")
    return answers


def other_use(solver: str, folder: pathlib.Path) -> list[bool]:
    """Whether the solver ends as it should without a name for its trace, on a refused formula, without a file, and on wrong words."""
    (folder / "free").write_text("p cnf 2 2\ne 1 0\n1 0\n2 0\n")
    (folder / "right").write_text("p cnf 0 1\n0\n")
    refused, lost, full = ended(solver, folder / "free"), ended(solver, folder / "none"), ended(solver, folder / "right", "/dev/full")
    return [
        ended(solver, folder / "right") == ("VERIFIED false\n", "", 0),
        refused == ("REFUSED formula F6 line 4\n", "", 2),
        (lost[0], bool(lost[1]), lost[2]) == ("", True, 3),
        (full[0], bool(full[1]), full[2]) == ("VERIFIED false\n", True, 3),
        *((said[0], said[1][:6], said[2]) == ("", "usage:", 5) for said in (ended(solver), ended(solver, "a", "b", "c"))),
    ]


def main(words: list[str]) -> None:
    program, *solvers = words
    answers, cases = [], formulas()
    with tempfile.TemporaryDirectory() as work:
        for solver in solvers:
            answers += solved(program, solver, cases)
            use = other_use(solver, pathlib.Path(work))
            if not all(use):
                print(f"FAILED: other use of {pathlib.Path(solver).name}: {use}")
            answers += use
    print(f"solvers: {len(solvers)}, {len(cases)} formulas each")
    print(answers.count(True), answers.count(False))


if __name__ == "__main__":
    main(sys.argv[1:])
