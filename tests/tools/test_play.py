"""Tests tools/play: whole games, each state of them, and how the command is used. usage: tests/tools/test_play.py PROGRAM ..

tests/tools/test-tools calls it. Every state of a game is compared with the formula as this file restricts it, every move with a search of
the game if the formula is small, and the end with the matrix. What is verified is what PROGRAM says.
"""

import importlib.machinery
import importlib.util
import itertools
import json
import os
import pty
import signal
import subprocess
import sys
import tempfile
import time
from argparse import Namespace
from collections.abc import Iterator, Sequence, Set
from concurrent.futures import ProcessPoolExecutor
from pathlib import Path
from types import ModuleType
from typing import Any, Optional, Union

ROOT = Path(__file__).resolve().parents[2]
sys.path[:0] = [str(ROOT / "tests"), str(ROOT / "tools"), str(ROOT / "tests" / "tools")]
sys.dont_write_bytecode = True
from expect import expect, finish  # noqa: E402
from qrptools import trimmed as reading  # noqa: E402
from qrptools.command import Ends  # noqa: E402
from qrptools.formula import Formula  # noqa: E402
from qrptools.games import cut, play as playing, restriction  # noqa: E402
from qrptools.games.game import Checker, State  # noqa: E402
from qrptools.games.gates import Gates  # noqa: E402
from qrptools.names import Names  # noqa: E402
from qrptools.program import trimmed  # noqa: E402
from random_proofs import random_case, truth  # noqa: E402
from test_steps import damages  # noqa: E402

Ended = subprocess.CompletedProcess[Any]
Clauses = list[list[int]]
Blocks = list[tuple[str, list[int]]]

PLAY = ROOT / "tools" / "play"
EXAMPLES = sorted(folder for folder in (ROOT / "examples").iterdir() if (folder / "make-formula").exists())
SEEDS = 700  # of random formulas
SMALL = 12  # variables that a search of the game takes
EVERY = 7  # of the damages of a proof so many are tried, and the first ones


def module_of(tool: Path) -> ModuleType:
    """A tool as a module."""
    loader = importlib.machinery.SourceFileLoader(f"tool_{tool.name}", str(tool))
    spec = importlib.util.spec_from_loader(loader.name, loader)
    assert spec
    module = importlib.util.module_from_spec(spec)
    loader.exec_module(module)
    return module


TOOL = module_of(PLAY)


# The formula, read and restricted here


def read_formula(text: str) -> tuple[Blocks, Clauses]:
    """The blocks, each a quantifier and its variables, and the clauses of a formula that is known to be right."""
    words = [word for line in text.splitlines() if not line.startswith("c") for word in line.split()][4:]
    clauses: list[Any]
    row: list[Any]
    sets: list[Any]
    sets, clauses, row = [], [], []
    for word in words:
        if word == "0":
            (sets if row and row[0] in "ae" else clauses).append(row)
            row = []
        else:
            row.append(word)
    blocks: list[Any] = []
    for quantifier, *variables in sets:
        if blocks and variables and blocks[-1][0] == quantifier:
            blocks[-1][1].extend(map(int, variables))
        elif variables:
            blocks.append((quantifier, list(map(int, variables))))
    return blocks, [list(map(int, clause)) for clause in clauses]


def restricted(blocks: Blocks, clauses: Clauses, values: Set[int]) -> tuple[Blocks, Clauses]:
    """The formula after values of its outermost block."""
    left = [[literal for literal in clause if -literal not in values] for clause in clauses if values.isdisjoint(clause)]
    return blocks[1:], left


def pairs_of(blocks: Blocks) -> list[tuple[str, int]]:
    return [(quantifier, variable) for quantifier, variables in blocks for variable in variables]


# Whole games


class Wrong(Exception):
    """A game is not as it has to be."""


def require(holds: object, what: str) -> None:
    if not holds:
        raise Wrong(what)


class NoGates:
    """Stands in for Gates where no variable is one."""

    definitions: dict[Any, Any] = {}

    def __init__(self, *_: object) -> None:
        pass

    def set_to(self, *_: object) -> None:
        pass


def played(formula: Any, trace: Any, any_pivot: bool, seed: int, folder: Path) -> dict[str, Any]:
    """What the tool finds of a game with random replies, with the files of all states in a folder."""
    restriction.SOME, reading.BLOCK = (3, 40) if seed % 2 else (1 << 12, 1 << 18)  # small pieces and large ones
    cut.FEW = 1 if seed == 2 else 12  # both ways to look for literals
    setattr(playing, "Gates", NoGates if seed == 1 else Gates)  # gates with values at random, and as they are defined
    arguments = Namespace(json=True, reply=[], random=str(seed), write=os.path.join(folder, f"states{seed}"), qu=any_pivot)
    os.mkdir(arguments.write)
    path = trimmed(str(formula), str(trace), TOOL.flags_of(arguments), str(folder))
    game = TOOL.Collected(arguments, State(str(formula), path, any_pivot), Names(), Checker(arguments.write, True, TOOL.flags_of(arguments)))
    game.to_the_end()
    return game.found


def try_game(formula: Any, trace: Any, any_pivot: bool, seed: int, folder: Path) -> tuple[int, int]:
    """Plays a game and compares it with the formula. Raises Wrong."""
    found = played(formula, trace, any_pivot, seed, folder)
    blocks, clauses = read_formula(Path(formula).read_text())
    is_true = {"VERIFIED true": True, "VERIFIED false": False}[found["verified"]]
    winner = "e" if is_true else "a"
    require(found["winner"] == ("existential" if is_true else "universal"), "the winner")
    require([move["block"] for move in found["moves"]] == list(range(1, len(blocks) + 1)), "the moves to the end")
    for move in found["moves"]:
        quantifier, variables = blocks[0]
        values = frozenset(move["values"])
        require([abs(literal) for literal in move["values"]] == variables, f"block {move['block']}: a value for each variable")
        require(move["by"] == ("proof" if quantifier == winner else "other player"), f"block {move['block']}: who moves")
        require(not move["open"] or quantifier == winner and set(move["open"]) <= set(variables), f"block {move['block']}: open variables")
        try_open(blocks, clauses, move, is_true)
        blocks, clauses = restricted(blocks, clauses, values)
        try_state(blocks, clauses, move, is_true)
    require(found["matrix"] is is_true and all(not clause for clause in clauses), "the end")
    require((not clauses) is is_true, "the winner by the matrix")
    try_failing(found, formula, is_true)
    return len(found["moves"]), sum(len(move["open"]) for move in found["moves"])


def try_failing(found: dict[str, Any], formula: Any, is_true: bool) -> None:
    """At the end the clauses are named that are false, and no others."""
    true = {literal for move in found["moves"] for literal in move["values"]}
    _, clauses = read_formula(Path(formula).read_text())
    false = [(number, list(dict.fromkeys(clause))) for number, clause in enumerate(clauses, 1) if true.isdisjoint(clause)]
    require(
        [(clause["clause"], clause["literals"]) for clause in found["failing"]] == false and bool(false) is not is_true, "the clauses that are false"
    )
    lines = Path(formula).read_text().split("\n")
    require(
        all(set(clause["literals"]) <= set(map(int, lines[clause["line"] - 1].split())) for clause in found["failing"]), "the lines of these clauses"
    )


def try_state(blocks: Blocks, clauses: Clauses, move: dict[str, Any], is_true: bool) -> None:
    """The files of a state are the formula that is left, and a proof of it; the winner has not lost it."""
    require(read_formula(Path(move["formula"]).read_text()) == (blocks, clauses), f"block {move['block']}: the formula that is left")
    require(move["line"] == f"VERIFIED {str(is_true).lower()}", f"block {move['block']}: verified")
    require(Path(move["trace"]).read_text().endswith(f"r {'sat' if is_true else 'unsat'}\n"), f"block {move['block']}: the result")
    if len(pairs_of(blocks)) <= SMALL:
        require(truth(pairs_of(blocks), clauses) == is_true, f"block {move['block']}: the winner has lost the game")


def try_open(blocks: Blocks, clauses: Clauses, move: dict[str, Any], is_true: bool) -> None:
    """Of variables that the proof leaves open every value wins."""
    if move["open"] and len(pairs_of(blocks)) <= 8:
        fixed = [literal for literal in move["values"] if abs(literal) not in move["open"]]
        for signs in itertools.product((1, -1), repeat=len(move["open"])):
            values = frozenset(fixed + [sign * variable for sign, variable in zip(signs, move["open"])])
            left, rest = restricted(blocks, clauses, values)
            require(truth(pairs_of(left), rest) == is_true, f"block {move['block']}: open, but it loses with {sorted(values)}")


def outcome(case: Any) -> tuple[str, Optional[str], int, int]:
    """Plays some games. The name of the case, what was wrong if anything, and how many moves and open variables there were."""
    name, files, any_pivot, seeds = case
    moves = are_open = 0
    with tempfile.TemporaryDirectory() as folder:
        if name.startswith("random "):
            files = written(Path(folder), int(name.split()[1]))
        for seed in seeds:
            try:
                formula, trace = files
                found = try_game(formula, trace, any_pivot, seed, Path(folder))
            except (Exception, SystemExit) as fault:  # an exception of the tool is a failure too
                return name, f"{type(fault).__name__}: {fault}", moves, are_open
            moves, are_open = moves + found[0], are_open + found[1]
    return name, None, moves, are_open


def written(folder: Path, seed: int) -> Any:
    """The files of a random case."""
    _, _, _, formula, trace = random_case(seed)
    paths = Path(folder) / "formula", Path(folder) / "trace"
    for path, text in zip(paths, (formula, trace)):
        path.write_text(text)
    return paths


def stored_cases() -> Iterator[Any]:
    folder = ROOT / "tests" / "traces"
    for row in (folder / "expected.tsv").read_text().splitlines()[1:]:
        formula, trace = row.split("\t")[:2]
        yield f"tests/traces/{trace}", (folder / formula, folder / trace), False, (1, 2)
    for example in EXAMPLES:
        for ending in "qrp", "trimmed.qrp":
            files = example / f"{example.name}.qdimacs", example / f"{example.name}.{ending}"
            yield f"{example.name}.{ending}", files, False, (1, 2, 3)
            yield f"{example.name}.{ending} by any pivot", files, True, (4, 5)


def random_cases() -> Iterator[Any]:
    for seed in range(SEEDS):
        yield f"random {seed}", None, random_case(seed)[2], (1, 2)


def try_games(pool: Any) -> None:
    for cases in stored_cases(), random_cases():
        moves = are_open = 0
        for name, wrong, some, more in pool.map(outcome, cases, chunksize=4):
            expect(f"the game of {name}", wrong is None, wrong)
            moves, are_open = moves + some, are_open + more
        expect("there were moves, and open variables", moves > 400 and are_open > 100, (moves, are_open))


# Damaged proofs


def try_damaged(case: Any) -> tuple[str, str]:
    """A damaged proof is refused, or its game is as it has to be."""
    name, formula, trace, any_pivot = case
    with tempfile.TemporaryDirectory() as folder:
        paths = Path(folder) / "formula", Path(folder) / "trace"
        for path, text in zip(paths, (formula, trace)):
            path.write_text(text)
        try:
            try_game(paths[0], paths[1], any_pivot, 1, Path(folder))
            return name, "played"
        except Ends as fault:
            return name, "refused" if fault.status == 1 and "refuses the proof" in str(fault) else f"{fault.status} {fault}"
        except Exception as fault:
            return name, f"{type(fault).__name__}: {fault}"


def damaged_cases() -> Iterator[Any]:
    for example in "blind-box", "eight-matches", "carry-from-tables":
        folder = ROOT / "examples" / example
        pairs = damages(folder / f"{example}.qdimacs", folder / f"{example}.trimmed.qrp")
        for number, (formula, trace) in enumerate(pairs):
            if number < 12 or number % EVERY == 0:
                yield f"damage {number} of {example}", formula, trace, number % 2 == 1


def try_damages(pool: Any) -> None:
    seen = {"played": 0, "refused": 0}
    for name, found in pool.map(try_damaged, damaged_cases(), chunksize=4):
        expect(name, found in seen, found)
        seen[found] = seen.get(found, 0) + 1
    expect("some damaged proofs are refused and some are not", min(seen.values()) > 10, seen)


# The command


def play(*words: object, program: Any = None, **options: Any) -> Ended:
    environment = dict(os.environ, **({"QRP_CMD": str(program)} if program else {}))
    options = {"stdin": subprocess.DEVNULL, "stdout": subprocess.PIPE, "stderr": subprocess.PIPE, "text": True, "env": environment, **options}
    return subprocess.run([sys.executable, PLAY, *map(str, words)], check=False, timeout=60, **options)


def example(name: str) -> tuple[Path, Path]:
    return ROOT / "examples" / name / f"{name}.qdimacs", ROOT / "examples" / name / f"{name}.qrp"


MATCHES, BOX, ROBOT = example("eight-matches"), example("blind-box"), example("blind-robot")
REPLIES = ["--reply", "-1 -2", "--reply", "5, -6"]
TOLD = """\
VERIFIED false: the universal player wins
block 1 (existential), the other player: -1 -2
    VERIFIED false
block 2 (universal), by the proof: 3 -4
    left open by the proof: 4
    VERIFIED false
block 3 (existential), the other player: 5 -6
    VERIFIED false
block 4 (universal), by the proof: -7 -8
    VERIFIED false
block 5 (existential) is the other player's: 9 10
    give the values by --reply "..", with - before each variable that is false
"""


def try_text() -> None:
    """What is printed of a game, as text and as JSON, by numbers and by names."""
    told = play(*REPLIES, *MATCHES)
    expect("the text of a game", (told.returncode, told.stdout, told.stderr) == (0, TOLD, ""), told)
    as_json = play("--json", *REPLIES, *MATCHES)
    found = json.loads(as_json.stdout)
    expect("JSON, one line", as_json.returncode == 0 and as_json.stdout.count("\n") == 1 and found["next"]["variables"] == [9, 10], found)
    expect("JSON, the moves", [move["values"] for move in found["moves"]] == [[-1, -2], [3, -4], [5, -6], [-7, -8]], found)
    with tempfile.TemporaryDirectory() as folder:
        names = Path(folder) / "names"
        names.write_text("1 high\n\n2 low\n3 answer\n")
        named = play("--names", names, "--reply", "-high -2", *MATCHES)
        wanted = "".join(TOLD.replace("-1 -2", "-high -low").replace("3 -4", "answer -4").splitlines(True)[:6])
        expect("names", named.stdout.startswith(wanted), named)
        found = json.loads(play("--json", "--names", names, "--reply=-low -high", *MATCHES).stdout)
        expect("JSON, names", [move["names"] for move in found["moves"]] == [["-high", "-low"], ["answer", "-4"]], found)
        for text in "1\n", "1 a b\n", "x a\n", "0 a\n", "1 a\n1 b\n", "1 a\n2 a\n", "1 2\n", "1 -a\n", "1 !a\n", "1 ~a\n", "1 #a\n", "1 0x2\n":
            names.write_text(text)
            refused = play("--names", names, *MATCHES)
            expect(
                f"names {text!r}",
                refused.returncode == 2 and not refused.stdout and f"{names}, line {text.count(chr(10))}" in refused.stderr,
                refused,
            )


def try_replies() -> None:
    """Replies that are wrong, and those at random."""
    for replies, said in (
        (["--reply", "1"], "no value of 2"),
        (["--reply", "1 2", "--reply", "-5"], "no value of 6"),
        (["--reply", "1 2 3"], "'3' is not a literal of block 1"),
        (["--reply", "1 -1 2"], "with both values"),
        (["--reply", "1 x"], "'x' is not a literal"),
        (["--reply", "0"], "'0' is not a literal"),
        (["--reply", "99999999999999999999"], "is not a literal"),
        (["--reply", "1 2"] * 6, "there are 6 replies, and only 5 blocks"),
    ):
        refused = play(*replies, *MATCHES)
        last = refused.stderr.splitlines()[-1:]
        expect(f"{replies}", refused.returncode == 2 and last and said in last[0] and "Traceback" not in refused.stderr, refused)
    first, again, other = (play("--random", seed, "--reply", "1", *MATCHES) for seed in ("7", "7", "8"))
    expect("a seed gives one game", first.stdout == again.stdout != other.stdout and first.returncode == 0, (first, other))
    expect("to the end", "the matrix does not hold: the universal player has won\n    clause " in first.stdout, first)
    expect("what is given stays", "the other player: 1 " in first.stdout, first)


BUS = """\
# a bus of three bits, and one with a gap
1 a[0]
3 a[2]
2 a[1]

4 b[0]
5 b[2]
6 c=1
7 one[0]
"""
FORMS = [
    ("3", [3]),
    ("-3", [-3]),
    ("!3", [-3]),
    ("~3", [-3]),
    ("3=1", [3]),
    ("3=0", [-3]),
    ("99", [99]),
    ("a[2]", [3]),
    ("-a[2]", [-3]),
    ("!a[2]", [-3]),
    ("~a[2]", [-3]),
    ("a[2]=1", [3]),
    ("a[2]=0", [-3]),
    ("c=1", [6]),
    ("-c=1", [-6]),
    ("c=1=0", [-6]),
    ("a=5", [1, 3, -2]),
    ("a=0", [-1, -3, -2]),
    ("a=0x7", [1, 3, 2]),
    ("a=0b010", [-1, -3, 2]),
    ("b=4", [-4, 5]),
    ("one=1", [7]),
    *((word, None) for word in ("a=8", "b=2", "a=", "a=x", "a=-1", "-a=5", "a", "d=1", "=1", "0", "-", "", "3=2", "a[3]", "a=" + "9" * 2000)),
]


def try_forms() -> None:
    """The forms in which a reply may give a value."""
    with tempfile.TemporaryDirectory() as folder:
        path = Path(folder) / "names"
        path.write_text(BUS)
        names = Names(str(path))
    for word, literals in FORMS:
        expect(f"a reply {word[:20]!r}", names.literals(word) == literals, names.literals(word))
    expect("the values of buses", sorted(names.values([1, -2, 3, 4])) == [("a", 5)], list(names.values([1, -2, 3, 4])))
    expect("the values of a bus with a gap", sorted(names.values([-4, 5, 7])) == [("b", 4)], list(names.values([-4, 5, 7])))


CIRCUIT = """\
p cnf 9 16
a 1 2 3 0
e 4 5 6 7 8 9 0
-4 1 0
-4 2 0
4 -1 -2 0
-5 1 3 0
-5 -1 -3 0
5 -1 3 0
5 1 -3 0
-3 -1 6 0
-3 1 -6 0
3 -2 6 0
3 2 -6 0
7 -4 0
7 -5 0
-7 4 5 0
8 7 6 0
-9 8 0
"""
WIDE = range(1, 12)


def try_gates() -> None:
    """Which variables clauses define, and the values that gates give them."""
    gates = Gates(Formula(CIRCUIT.encode()), [4, 5, 6, 7, 8, 9])
    expect("gates: and, xor, a choice, or; not what a clause only bounds", sorted(gates.definitions) == [4, 5, 6, 7], gates.definitions)
    for one, two, three in itertools.product((True, False), repeat=3):
        given = {variable if value else -variable for variable, value in ((1, one), (2, two), (3, three))}
        values = {8: 8, 9: -9}
        gates.set_to(values, given)
        wanted: Any = {4: one and two, 5: one != three, 6: one if three else two, 7: one and two or one != three}
        expect(f"gates of {sorted(given)}", all(values[v] == (v if is_true else -v) for v, is_true in wanted.items()), values)
    values = {4: 4, 8: 8, 9: -9}
    gates.set_to(values, {-1, -2, -3})
    expect("a value that is given stays, and others follow from it", values[4] == 4 and values[7] == 7, values)
    wide = "p cnf 12 12\na 1 2 3 4 5 6 7 8 9 10 11 0\ne 12 0\n" + "".join(f"-12 {v} 0\n" for v in WIDE) + f"12 {' '.join(str(-v) for v in WIDE)} 0\n"
    for text, wanted in (
        ("p cnf 3 3\na 1 0\ne 2 3 0\n2 -1 0\n-2 1 0\n3 0\n", [2, 3]),  # a copy, and a constant
        ("p cnf 3 2\na 1 0\ne 2 3 0\n2 -1 0\n3 2 1 0\n", []),
        ("p cnf 3 4\na 1 2 0\ne 3 0\n-3 1 0\n-3 2 0\n3 -1 -2 0\n3 0\n", [3]),  # an output that has to hold
        ("p cnf 3 4\na 1 2 0\ne 3 0\n-3 1 0\n-3 2 0\n3 -1 -2 0\n-3 1 -1 0\n", [3]),
        (wide, [12]),
        (wide.replace("-12 1 0\n", "").replace("12 12", "12 11"), []),
    ):
        formula = Formula(text.encode())
        variables = [int(word) for word in formula.sets[-1][1].split()]
        expect(f"gates of {text!r}", sorted(Gates(formula, variables).definitions) == wanted, Gates(formula, variables).definitions)
    for asked in "3", "-3", "3 1", "-3 -2", "3 1 2":
        exclusive = ["-3 1 2 0\n-3 -1 -2 0\n3 -1 2 0\n3 1 -2"] if asked != "3 1 2" else []  # which is one of as many inputs
        for gate in ["-3 1 0\n-3 2 0\n3 -1 -2", "3 -1 0\n3 -2 0\n-3 1 2", *exclusive]:
            clauses = gate.split(" 0\n")
            formula = Formula(f"p cnf 3 {len(clauses) + 1}\na 1 2 0\ne 3 0\n{asked} 0\n{gate} 0\n".encode())
            found = Gates(formula, [3]).definitions.get(3, [])
            expect(
                f"the gate {clauses} of which '{asked}' is asked", set(found) == {frozenset(map(int, clause.split())) for clause in clauses}, found
            )


def try_end() -> None:
    """The gates of the other player's last block are not asked for, and the clauses that are false are named."""
    names = ROOT / "examples" / "blind-box" / "blind-box.names"
    told = play("--names", names, "--reply", "box=0", *BOX)
    end = told.stdout.splitlines()[-5:]
    expect(
        "blind-box to its end",
        told.returncode == 0 and not told.stderr and end[0] == "block 4 (existential), the other player: 22 gates as defined",
        told,
    )
    expect("blind-box: who wins", end[2] == "no variable is left, and the matrix does not hold: the universal player has won", end)
    clauses = [
        "    clause 77, in line 84 of the formula, is false: -sum1 wanted1",
        "    clause 80, in line 87 of the formula, is false: sum2 -carry2",
    ]
    expect("blind-box: the clauses", end[3:] == clauses, end)
    found = json.loads(play("--json", "--names", names, "--reply", "!box", *BOX).stdout)
    holds = (
        len(found["moves"][3]["gates"]) == 22
        and found["matrix"] is False
        and [clause["names"] for clause in found["failing"]] == [["-sum1", "wanted1"], ["sum2", "-carry2"]]
    )
    expect("blind-box: JSON", holds, found["failing"])
    given = play("--names", names, "--reply", "box", "--reply", "half0 sum2", *BOX)
    expect("blind-box: gates that are given", "the other player: half0 sum2, and 20 gates as defined\n" in given.stdout, given)
    wrong = play("--names", names, "--reply", "box=2", *BOX)
    said = "'box=2' is not a literal of block 2 (existential), which has the variables box (write NAME, NAME=1, -NAME, !NAME or NAME=0"
    expect("a wrong value", wrong.returncode == 2 and said in wrong.stderr, wrong)


def try_small() -> None:
    """A goal that is an initial step, a formula without variables, without clauses, and empty sets."""
    cases = (
        ("p cnf 3 1\na 1 3 0\n1 -3 0\n", "p qrp 0 0\n7 0 0\nr unsat\n", "block 1 (universal), by the proof: -1 3\n"),
        ("p cnf 3 1\na 1 3 0\n1 -3 0\n", "p qrp 0 0\n7 1 0 0\n9 0 7 0\nr unsat\n", "block 1 (universal), by the proof: -1 3\n"),
        (
            "p cnf 2 3\na 1 2 0\n1 -1 0\n2 -2 1 0\n-2 0\n",
            "p qrp 0 0\n1 0 0\nr unsat\n",
            "block 1 (universal), by the proof: -1 2\n    left open by the proof: 1\n",
        ),
        ("p cnf 0 1\n0\n", "p qrp 0 0\n1 0 0\nr unsat\n", "no variable is left, and the matrix does not hold"),
        ("p cnf 0 0\n", "p qrp 0 0\n18446744073709551615 0 0\nr sat\n", "no variable is left, and the matrix holds"),
        (
            "p cnf 2 1\na 0\ne 1 0\na 0\ne 2 0\n1 2 0\n",
            "p qrp 0 0\n2 1 0 0\n1 0 2 0\nr sat\n",
            "block 1 (existential), by the proof: 1 -2\n    left open by the proof: 2\n",
        ),
    )
    with tempfile.TemporaryDirectory() as folder:
        formula, trace = Path(folder) / "f", Path(folder) / "t"
        for formula_text, trace_text, said in cases:
            formula.write_text(formula_text)
            trace.write_text(trace_text)
            told = play(formula, trace)
            expect(f"{formula_text!r} {trace_text!r}", told.returncode == 0 and said in told.stdout, told)
        names = Path(folder) / "names"
        trace.write_text("p qrp 0 0\n1 0 0\nr sat\n")
        names.write_text("1 a\n3 c\n")
        for count, said in ((22, f"-a -2 -c {' '.join(str(-n) for n in range(4, 23))}\n"), (23, "-a -c, and 21 variables without a name\n")):
            formula.write_text(f"p cnf {count} 0\ne {' '.join(map(str, range(1, count + 1)))} 0\n")
            told = play("--names", names, formula, trace)
            expect(f"{count} variables, of which two have names", f"by the proof: {said}" in told.stdout, told)


def try_any_pivot() -> None:
    """By any pivot steps that could be reduced to nothing are used as antecedents, and literals of the outermost block are reduced in them."""
    clauses = [[-1, 3], [2, -3], [1, 5], [-5, 6, -2], [-6, -2]]
    formula_text = "p cnf 6 5\na 1 0\ne 2 0\na 3 5 0\ne 6 0\n" + "".join(" ".join(map(str, [*clause, 0])) + "\n" for clause in clauses)
    steps = ["1 -1 3 0 0", "2 2 -3 0 0", "3 2 0 1 2 0", "4 1 5 0 0", "5 -5 6 -2 0 0", "6 6 -2 0 4 5 0", "7 -6 -2 0 0", "8 -2 0 6 7 0", "9 0 3 8 0"]
    with tempfile.TemporaryDirectory() as folder:
        formula, trace = Path(folder) / "f", Path(folder) / "t"
        formula.write_text(formula_text)
        trace.write_text("\n".join(["p qrp 0 0", *steps, "r unsat", ""]))
        told = play("--qu", "--random", "1", formula, trace)
        wanted = "VERIFIED false: the universal player wins\nblock 1 (universal), by the proof: 1\n    VERIFIED false\n"
        expect("any pivot", told.returncode == 0 and told.stdout.startswith(wanted) and told.stdout.count("    VERIFIED false\n") == 4, told)
        plain = play(formula, trace)
        expect("any pivot, without --qu", plain.returncode == 1 and "REFUSED step 3 S10" in plain.stderr, plain)


def try_files() -> None:
    """--write, pipes, and files that cannot be used."""
    with tempfile.TemporaryDirectory() as folder:
        states = Path(folder) / "new" / "states"
        told = play("--write", states, *REPLIES, *MATCHES)
        names = sorted(path.name for path in states.iterdir())
        expect(
            "the files of the states",
            told.stdout == TOLD and names == sorted(f"state{n}.{kind}" for n in range(1, 5) for kind in ("qdimacs", "qrp")),
            names,
        )
        again = play("--write", states, *MATCHES)
        expect("a folder that is not empty", again.returncode == 2 and "is not empty" in again.stderr and not again.stdout, again)
        full = play("--write", "/dev/null/x", *MATCHES)
        expect("a folder that cannot be made", full.returncode == 2 and "/dev/null/x cannot be used" in full.stderr, full)
    piped = subprocess.run(["bash", "-c", f"{sys.executable} {PLAY} <(cat {BOX[0]}) <(cat {BOX[1]})"], capture_output=True, text=True, check=False)
    expect("pipes", piped.stdout.startswith("VERIFIED false: the universal player wins\nblock 1 (universal), by the proof: -1 2\n"), piped)
    words: Any
    for words in (
        [],
        [BOX[0]],
        [*BOX, "x"],
        ["--other", *BOX],
        ["--names"],
        ["/nonexistent", BOX[1]],
        [BOX[0], "/nonexistent"],
        [ROOT, BOX[1]],
        ["--names", "/nonexistent", *BOX],
    ):
        ended = play(*words)
        expect(f"usage: play {words}", ended.returncode == 2 and not ended.stdout and ended.stderr and "Traceback" not in ended.stderr, ended)
    refused = play(MATCHES[0], BOX[1])
    expect("a refused proof", refused.returncode == 1 and not refused.stdout and "refuses the proof: REFUSED" in refused.stderr, refused)
    for redirection, status in (">/dev/full", 2), (">&-", 2):
        ended = subprocess.run(
            ["bash", "-c", f"{sys.executable} {PLAY} {BOX[0]} {BOX[1]} {redirection}"], capture_output=True, text=True, check=False
        )
        expect(
            f"play .. {redirection}", ended.returncode == status and "cannot be written" in ended.stderr and "Traceback" not in ended.stderr, ended
        )


def try_terminal() -> None:
    """At a terminal the values are asked for, until all are there or the user ends the play."""
    for lines, shown in (("1\nx\n-2\n\n", 6), ("\n", 2), ("\x04", 2)):
        master, slave = pty.openpty()
        with subprocess.Popen([sys.executable, PLAY, *MATCHES], stdin=slave, stdout=subprocess.PIPE, stderr=subprocess.PIPE, text=True) as process:
            os.close(slave)
            os.write(master, lines.encode())
            out, said = process.communicate(timeout=60)
        os.close(master)
        expect(
            f"typed {lines!r}",
            process.returncode == 0 and out.count("\n") in (shown + 2, shown + 1, shown + 3) and "block 1 (existential): 1 2 (with" in said,
            (out, said),
        )
        expect(
            f"typed {lines!r}: what is missing", ("block 1 (existential): 2 (with" in said and "'x' is not a literal" in said) == ("x" in lines), said
        )


FAKE = """#!/bin/sh
# The program, but for its check number N of a state, which it does in its own way.
case $1 in
check)
    echo >> "$COUNTS"
    if [ "$(wc -l < "$COUNTS")" = "$N" ]; then
        {what}
    fi ;;
esac
exec "$REAL" "$@"
"""


def fake(folder: Union[str, Path], what: str, number: int) -> tuple[dict[str, str], Path]:
    """A program that does this in place of a check, and the environment for it."""
    program, counts = Path(folder) / "fake", Path(folder) / "counts"
    program.write_text(FAKE.replace("{what}", what))
    program.chmod(0o755)
    counts.write_text("")
    temporary = Path(folder) / "tmp"
    temporary.mkdir(exist_ok=True)
    return dict(os.environ, REAL=os.environ["QRP_CMD"], QRP_CMD=str(program), COUNTS=str(counts), N=str(number), TMPDIR=str(temporary)), temporary


def try_own_fault() -> None:
    """A state that is not verified is never told as a move; its files are kept."""
    cases = (("echo REFUSED step 1 S4; exit 1", 3, "(REFUSED step 1 S4)"), ("echo VERIFIED true; exit 0", 3, "(VERIFIED true)"))
    others = (
        ("echo NO MEMORY; exit 4", 2, "NO MEMORY"),
        ("kill -9 $$", 2, "SIGKILL"),
        ("echo VERIFIED false; exit 1", 3, "(VERIFIED false)"),
        ("exit 0", 2, "state 2"),
    )
    for what, status, said in cases + others:
        with tempfile.TemporaryDirectory() as folder:
            environment, temporary = fake(folder, what, 2)
            told = play(*REPLIES, *MATCHES, env=environment)
            holds = told.returncode == status and said in told.stderr and "Traceback" not in told.stderr
            expect(f"{what}: status and line", holds, told)
            expect(f"{what}: the move is not told", told.stdout == "".join(TOLD.splitlines(True)[:3]), told)
            kept = sorted(path.name for path in temporary.glob("*/*"))
            expect(f"{what}: the files", kept == (["state1.qdimacs", "state1.qrp"] if status == 3 else []), kept)
            states = Path(folder) / "states"
            (Path(folder) / "counts").write_text("")
            told = play("--write", states, *REPLIES, *MATCHES, env=environment)
            expect(f"{what}: the files of --write", told.returncode == status and len(list(states.iterdir())) == 4, told)


def try_signals() -> None:
    """A signal while the program runs ends the tool without a word, and leaves nothing."""
    for number in signal.SIGINT, signal.SIGTERM:
        with tempfile.TemporaryDirectory() as folder:
            environment, temporary = fake(folder, 'echo $$ > "$COUNTS.pid"; exec sleep 50', 2)
            with subprocess.Popen(
                [sys.executable, PLAY, *REPLIES, *MATCHES], stdout=subprocess.PIPE, stderr=subprocess.PIPE, env=environment
            ) as process:
                marker = Path(folder) / "counts.pid"
                waited = time.monotonic()
                while not (marker.exists() and marker.read_text()) and time.monotonic() < waited + 30:
                    time.sleep(0.02)
                process.send_signal(number)
                _, said = process.communicate(timeout=30)
            expect(
                f"{number.name}: status, no word, no file",
                (process.returncode, said, list(temporary.iterdir())) == (128 + number, b"", []),
                (process.returncode, said),
            )
            ended = not Path(f"/proc/{marker.read_text().strip()}").exists()
            expect(f"{number.name}: the program has ended", ended)


def main() -> int:
    os.environ["QRP_CMD"] = os.path.abspath(sys.argv[1])
    signal.signal(signal.SIGINT, signal.default_int_handler)  # a run in the background ignores interrupts, and so would all that it starts
    with ProcessPoolExecutor(min(4, os.cpu_count() or 1)) as pool:
        try_games(pool)
        try_damages(pool)
    for part in try_text, try_forms, try_gates, try_end, try_replies, try_small, try_any_pivot, try_files, try_terminal, try_own_fault, try_signals:
        part()
    return finish(1443)


if __name__ == "__main__":
    sys.exit(main())
