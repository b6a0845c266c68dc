"""Tests tools/drat-to-qrp. usage: tests/tools/test_drat.py PROGRAM ..; tests/tools/test-tools calls it.

The traces of refutations that cadical writes of random formulas, and of some that are written here, are verified by PROGRAM; a step of them
changed is refused. Then come proofs that are none.
"""

import os
import random
import shutil
import subprocess
import sys
import tempfile
from collections.abc import Sequence
from pathlib import Path
from typing import Any, Union

ROOT = Path(__file__).resolve().parents[2]
sys.path[:0] = [str(ROOT / "tests")]
sys.dont_write_bytecode = True
from expect import expect, finish, skip  # noqa: E402

Ended = subprocess.CompletedProcess[Any]
Program = Union[str, Path]

TOOL = ROOT / "tools" / "drat-to-qrp"
RANDOM_FORMULAS = 30
LEAST_UNSATISFIABLE = 10
# All clauses over two variables, with what a proof may have: blanks are single.
TWO = "p cnf 2 4\ne 1 2 0\n1 2 0\n1 -2 0\n-1 2 0\n-1 -2 0\n"
PARITY = "p cnf 3 8\ne 1 2 3 0\n" + "".join(f"{a} {b} {c} 0\n" for a in (1, -1) for b in (2, -2) for c in (3, -3))
RIGHT = [
    ("a unit, and the empty clause", TWO, "1 0\n0\n", 8),
    ("the end is not said", TWO, "1 0\n", 8),
    ("no clause is needed", "p cnf 1 2\ne 1 0\n1 0\n-1 0\n", "", 3),
    ("the formula has the empty clause", "p cnf 1 2\ne 1 0\n1 0\n0\n", "0\n", 1),
    ("a clause of the formula again", TWO, "2 1 0\n1 0\n0\n", 8),
    ("literals twice, and a tautology", "p cnf 2 5\ne 1 2 0\n1 2 2 0\n1 -2 1 0\n-1 2 0\n-1 -2 0\n1 -1 0\n", "2 -2 0\n1 1 0\n0\n", 8),
    ("a comment, an empty line and another line end", TWO, "c DRAT\n\n1 0\r\n0\n", 8),
    ("clauses that are not needed", PARITY, "-1 -2 0\n1 2 0\n1 -2 0\n1 0\n-1 2 0\n-1 0\n0\n", 18),
    ("deleted clauses", PARITY, "1 2 0\nd 1 2 3 0\nd 1 2 -3 0\n1 -2 0\n1 0\nd 1 0\nd 1 2 0\n-1 2 0\n-1 -2 0\n-1 0\n0\n", 18),
    ("a clause deleted that is not there", TWO, "d 1 0\nd 7 0\n1 0\n0\n", 8),
    ("a clause deleted that made a literal true", "p cnf 2 3\ne 1 2 0\n1 0\n-1 2 0\n-1 -2 0\n", "d 1 0\nd -1 2 0\n0\n", 6),
    ("a chain that ends with less than the clause", TWO, "1 2 0\n2 0\n0\n", 8),
    ("two sets", TWO.replace("e 1 2 0", "e 1 0\ne 2 0"), "1 0\n0\n", 8),
]
NOT = "the clause does not follow by unit propagation"
WRONG = [
    ("a clause that does not follow", PARITY, "1 0\n0\n", f"line 1: {NOT}"),
    ("one that follows by RAT alone", TWO.replace("p cnf 2 4", "p cnf 3 4").replace("1 2 0\n", "1 2 3 0\n", 1), "3 0\n", f"line 1: {NOT}"),
    ("a definition of a new variable", PARITY, "4 -1 0\n", f"line 1: {NOT}"),
    ("one that a deleted clause is needed for", TWO, "d 1 2 0\nd 1 -2 0\n1 0\n", f"line 3: {NOT}"),
    ("no end", PARITY, "1 2 0\n", "the proof ends without the empty clause"),
    ("no proof", PARITY, "", "the proof ends without the empty clause"),
    ("the binary form", TWO, "a\2\0a\0", "line 1: a line of DRAT is wanted, in its text form"),
    ("no 0", TWO, "1\n", "line 1: a line of DRAT is wanted"),
    ("a trace", TWO, "p qrp 2 1\n", "line 1: a line of DRAT is wanted"),
    ("two clauses in a line", TWO, "1 0 0\n", "line 1: a line of DRAT is wanted"),
    ("a huge literal", TWO, "1 0\n99999999999 0\n0\n", None),
    ("a huge literal at first", TWO, "99999999999 0\n", "line 1: a line of DRAT is wanted"),
    ("a universal variable", TWO.replace("e 1 2 0", "e 1 0\na 2 0"), "1 0\n0\n", "the formula has universal variables"),
    ("a formula with a fault", TWO.replace("1 -2 0", "1 -3 0", 1), "1 0\n0\n", "the formula has F4 in line 4"),
]


class Use:
    """Uses of the tool with this program, in a folder."""

    def __init__(self, program: Program, folder: str) -> None:
        self.program, self.folder = program, Path(folder)

    def write(self, name: str, text: str) -> Path:
        path = self.folder / name
        path.write_text(text)
        return path

    def made(self, formula: Path, proof: Path) -> Ended:
        return subprocess.run([sys.executable, TOOL, formula, proof], capture_output=True, text=True, check=False, timeout=300)

    def line(self, formula: Path, trace: str) -> str:
        return subprocess.run([self.program, "check", formula, self.write("trace", trace)], capture_output=True, text=True, check=False).stdout

    def verified(self, name: str, formula: Path, proof: Path) -> list[str]:
        """Expects that the trace of a proof is verified, and returns its lines."""
        ended = self.made(formula, proof)
        expect(f"drat, {name}: ends well", (ended.returncode, ended.stderr) == (0, ""), ended)
        line = self.line(formula, ended.stdout)
        expect(f"drat, {name}: verified", line == "VERIFIED false\n", (line, ended.stdout))
        return ended.stdout.splitlines()


def try_right(use: Use) -> None:
    for name, formula, proof, steps in RIGHT:
        lines = use.verified(name, use.write("formula", formula), use.write("proof", proof))
        numbers = [line for line in lines if line[0].isdigit()]
        expect(f"drat, {name}: {steps} steps", len(numbers) == steps == int(lines[0].split()[3]), lines)
        for at in range(len(lines)):
            if lines[at][0].isdigit() and not lines[at].endswith(" 0 0"):
                changed = [*lines[:at], lines[at].rsplit(" ", 2)[0] + " 0", *lines[at + 1 :]]
                line = use.line(use.folder / "formula", "".join(f"{one}\n" for one in changed))
                expect(f"drat, {name}: a step without its second antecedent is refused", line.startswith("REFUSED "), (changed, line))


def try_wrong(use: Use) -> None:
    formula: Any
    proof: Any
    for name, formula, proof, said in WRONG:
        path = use.write("proof", proof)
        ended = use.made(use.write("formula", formula), path)
        if said is None:
            expect(f"drat, {name}: the end comes before it", ended.returncode == 0, ended)
            continue
        holds = (ended.returncode, ended.stdout) == (1, "") and said in ended.stderr and ended.stderr.count("\n") == 1
        expect(f"drat, {name}", holds and (str(path) in ended.stderr or "formula has" in said), ended)
    missing = use.folder / "missing"
    formula, proof = use.write("formula", TWO), use.write("proof", "1 0\n0\n")
    words: Any
    for words in [missing, proof], [formula, missing]:
        ended = use.made(*words)
        expect(f"drat, no file {words}", ended.returncode == 2 and "cannot be read: No such file" in ended.stderr and not ended.stdout, ended)
    done = subprocess.run(
        ["bash", "-c", '"$@" >/dev/full', "bash", sys.executable, TOOL, formula, proof], capture_output=True, text=True, check=False
    )
    expect("drat, a full output", done.returncode == 2 and "the standard output cannot be written" in done.stderr, done)
    for words in [], [formula], [formula, proof, proof]:
        done = subprocess.run([sys.executable, TOOL, *words], capture_output=True, text=True, check=False)
        expect(f"drat, the words {words}", done.returncode == 2 and done.stderr.startswith("usage: "), done)


def try_solver(use: Use) -> None:
    """Refutations that a solver writes of random formulas, by all of its techniques and plain."""
    if not shutil.which("cadical"):
        skip("refutations of cadical", "there is no cadical")
        return
    found = 0
    for seed in range(RANDOM_FORMULAS):
        pick = random.Random(seed)
        count = pick.randint(3, 70)
        sizes = [pick.choice((1, 2, 4)) if pick.random() < 0.1 else 3 for _ in range(int(count * pick.uniform(4.0, 5.5)))]
        clauses = [[variable * pick.choice((1, -1)) for variable in pick.sample(range(1, count + 1), min(count, size))] for size in sizes]
        text = "".join(" ".join(map(str, [*clause, 0])) + "\n" for clause in clauses)
        head, prefix = f"p cnf {count} {len(clauses)}\n", f"e {' '.join(map(str, range(1, count + 1)))} 0\n"
        formula, plain, proof = use.write("formula", head + prefix + text), use.write("plain", head + text), use.folder / "proof"
        options: Any = pick.choice(([], ["--plain"]))
        done = subprocess.run(["cadical", "-q", "--no-binary", *options, plain, proof], capture_output=True, check=False)
        if done.returncode == 20:
            found += 1
            use.verified(f"formula {seed} {options}", formula, proof)
    expect("drat: some random formulas are false", found >= LEAST_UNSATISFIABLE, found)


LEAST = 170


def main() -> int:
    program = os.path.abspath(sys.argv[1])
    for part in try_right, try_wrong, try_solver:
        with tempfile.TemporaryDirectory() as folder:
            part(Use(program, folder))
    return finish(LEAST)


if __name__ == "__main__":
    sys.exit(main())
