"""Tests tools/explain-strategy, and the strategies of tools/play and tools/solve. usage: tests/tools/test_strategy.py PROGRAM ..;
tests/tools/test-tools calls it.

Each format is read back, by a reader of this test or by yosys and berkeley-abc, and compared with a simulation of the circuit, for the circuits of
the examples and for random ones. What --verify says is compared with what all plays say. Then come circuits that are wrong. The program
qrp_strategy is the one beside PROGRAM; DepQBF, yosys and berkeley-abc are used if they are there.
"""

import itertools
import json
import os
import random
import re
import resource
import shutil
import subprocess
import sys
import tempfile
from collections.abc import Callable, Sequence
from pathlib import Path
from typing import Any, Optional, Union

ROOT = Path(__file__).resolve().parents[2]
sys.path[:0] = [str(ROOT / "tests"), str(ROOT / "tests" / "strategy")]
sys.dont_write_bytecode = True
from circuits import Lost, check_strategy, read_circuit, read_formula  # noqa: E402
from expect import expect, finish, skip  # noqa: E402

Ended = subprocess.CompletedProcess[Any]
Program = Union[str, Path]
Found = tuple[list[str], list[str], Callable[[dict[str, Any]], dict[str, Any]]]

TOOL, PLAY, SOLVE = (ROOT / "tools" / name for name in ("explain-strategy", "play", "solve"))
BOX = ROOT / "examples" / "blind-box" / "blind-box"
MATCHES = ROOT / "examples" / "eight-matches" / "eight-matches"
ARBITER = ROOT / "examples" / "arbiter" / "arbiter"
RANDOM_CIRCUITS = 24
DRAWN = 80  # gates of a graph that is drawn
RUNS = 32  # of a simulation, if there are more
# Names that some format has to change, or that look like those of gates and variables.
ODD = ["module", "a[0]", "a[1]", "g3", "v1", 'quo"te', "back\\", "x#y", "two=2", "g_4", "x.y", "strategy", "wire"]


class Use:
    """Uses of the tools with these programs, in a folder."""

    def __init__(self, program: Program, folder: Any) -> None:
        self.program, self.folder = Path(program), Path(folder)
        self.strategy = self.program.parent / "qrp_strategy"
        self.temporary = self.folder / "temporary"
        self.temporary.mkdir()
        self.environment = dict(os.environ, QRP_CMD=str(program), TMPDIR=str(self.temporary), PYTHONDONTWRITEBYTECODE="1")
        self.environment.pop("QRP_STRATEGY", None)

    def run(self, tool: Union[str, Path], *words: object, **options: Any) -> Ended:
        options = {"env": self.environment, "encoding": "utf-8", **options}
        return subprocess.run([sys.executable, str(tool), *map(str, words)], capture_output=True, check=False, timeout=300, **options)

    def shown(self, *words: object) -> str:
        """What is printed, of a use that goes well."""
        ended = self.run(TOOL, *words)
        expect(f"explain-strategy {words}: ends well", ended.returncode == 0 and not ended.stderr, ended)
        return ended.stdout

    def expect(self, name: str, ended: Ended, status: int, out: Any, said: str = "") -> None:
        """Expects a status, the output and words on the standard error; no traceback, and no temporary file."""
        holds = ended.returncode == status and ended.stdout == out and said in ended.stderr and "Traceback" not in ended.stderr
        expect(f"strategy: {name}", holds and bool(ended.stderr) == bool(said), (status, out, said, ended))
        left = list(self.temporary.iterdir())
        expect(f"strategy: {name}: nothing is left", not left, left)

    def write(self, name: str, text: Union[str, bytes]) -> Path:
        path = self.folder / name
        path.write_bytes(text if isinstance(text, bytes) else text.encode())
        return path


# ---- reading the formats back: each reader gives the labels of the inputs and outputs in their order, and a function from the values of the
# inputs to those of the outputs, by label


def of_circuit(circuit: Any) -> Found:
    """A circuit of AIGER, by its symbols."""

    def run(values: dict[str, Any]) -> dict[str, Any]:
        known = {0: 0, **{literal: values[circuit.names[f"i{at}"]] for at, literal in enumerate(circuit.inputs)}}
        value = lambda literal: known[literal & ~1] ^ literal & 1
        for left, one, other in circuit.gates:
            known[left] = value(one) & value(other)
        return {circuit.names[f"o{at}"]: value(literal) for at, literal in enumerate(circuit.outputs)}

    return [circuit.names[f"i{at}"] for at in range(len(circuit.inputs))], [circuit.names[f"o{at}"] for at in range(len(circuit.outputs))], run


def of_text(text: str, labels: Any) -> Found:
    """The expressions of the text, as those of Python. These are the labels of the inputs."""
    rows = [line[4:].partition(" = ") for line in text.splitlines() if line.startswith("    ") and not line.startswith("    as numbers")]
    known = {label: place for place, label in enumerate([*labels, *(left for left, _, _ in rows)])}
    signs = {"!": "1 - ", "&": "*", "|": "|", "(": "(", ")": ")", "true": "1", "false": "0"}
    words = lambda right: (signs[word] if word in signs else f"values[{known[word]}]" for word in re.findall("[!&|()]|[^!&|() ]+", right))
    python = lambda right: re.sub(r"1 - (values\[\d+\])", r"(1 - \1)", "".join(words(right)))
    code = [(left, compile(python(right), left, "eval")) for left, _, right in rows]

    def run(values: dict[str, Any]) -> dict[str, Any]:
        found = {known[label]: value for label, value in values.items()}
        for left, right in code:
            found[known[left]] = eval(right, {"values": found})  # noqa: S307
        return {left: found[known[left]] for left, _ in code}

    return labels, [left for left, _ in code], run


def of_dot(text: str) -> Found:
    """The nodes of a graph by their label; the gates have numbers in an order."""
    found = re.findall(r'^    (\w+) \[label="(.*)", shape=(\w+)\];$', text, re.MULTILINE)
    nodes = {name: (re.sub(r"\\(.)", r"\1", label), shape) for name, label, shape in found}
    edges: dict[Any, Any] = {}
    for start, end, circle in re.findall(r"^    (\w+) -> (\w+)( \[arrowhead=odot\])?;$", text, re.MULTILINE):
        edges.setdefault(end, []).append((start, bool(circle)))
    gates = sorted((name for name, (_, shape) in nodes.items() if shape == "circle"), key=lambda name: int(name[1:]))
    labels = lambda kind: [label for label, shape in nodes.values() if shape == kind]

    def run(values: dict[str, Any]) -> dict[str, Any]:
        known = {"false": 0, **{name: values[label] for name, (label, shape) in nodes.items() if shape == "box"}}
        for name in [*gates, *(name for name, (_, shape) in nodes.items() if shape == "doubleoctagon")]:
            known[name] = min(known[start] ^ circle for start, circle in edges[name])
        return {label: known[name] for name, (label, shape) in nodes.items() if shape == "doubleoctagon"}

    return labels("box"), labels("doubleoctagon"), run


def rows_of(text: str) -> tuple[Any, Any, Any]:
    """The rows of a table: the labels of the inputs and outputs, and the values of each row."""
    lines = [[part.split() for part in line.split(" | ")] for line in text.splitlines()]
    lines = [[[], *line] if len(line) == 1 else line for line in lines]
    (inputs, outputs), rows = lines[0], lines[1:]
    return inputs, outputs, [(dict(zip(inputs, map(int, left))), dict(zip(outputs, map(int, right)))) for left, right in rows]


def by_program(name: str, words: Sequence[Any], made: Path) -> Any:
    """The circuit that a program has made of a text."""
    made.unlink(missing_ok=True)
    done = subprocess.run(words, capture_output=True, text=True, check=False)
    is_read = done.returncode == 0 and "rror" not in done.stdout + done.stderr and made.is_file()
    return of_circuit(read_circuit(made.read_bytes())) if expect(f"{name}: it is read by {words[0]}", is_read, done) else None


def of_verilog(use: Use, name: str, text: str) -> Any:
    path, made = use.write("strategy.v", text), use.folder / "by_yosys.aag"
    script = f"read_verilog {path}; hierarchy -check -top strategy; proc; flatten; aigmap; clean; write_aiger -ascii -symbols {made}"
    found = by_program(name, ["yosys", "-q", "-p", script], made)
    ports = [re.findall(rf"^    {kind} (?:\\(\S+) |(\w+)),?$", text, re.MULTILINE) for kind in ("input", "output")]
    return found and (*([one or other for one, other in some] for some in ports), found[2])


def of_blif(use: Use, name: str, text: str) -> Any:
    path, made = use.write("strategy.blif", text), use.folder / "by_abc.aig"
    found = by_program(name, ["berkeley-abc", "-c", f"read_blif {path}; strash; write_aiger -s {made}"], made)
    lines = text.replace("\\\n", "").splitlines()
    return found and (lines[1].split()[1:], lines[2].split()[1:], found[2])


# ---- circuits


class Given:
    """A formula with a circuit: its file, and what it does by a simulation."""

    def __init__(self, name: str, formula: Any, path: Path, names: Any = None) -> None:
        self.name, self.formula, self.path, self.names = name, formula, path, names
        self.text = read_formula(formula.read_text())
        self.circuit = read_circuit(path.read_bytes())
        _, _, self.run = of_circuit(self.circuit)
        lines = [line.split() for line in names.read_text().splitlines()] if names else []
        self.called = dict(lines)  # by number
        pick, self.is_whole = random.Random(name), len(self.circuit.inputs) <= 6
        symbols = [self.circuit.names[f"i{at}"] for at in range(len(self.circuit.inputs))]
        values = itertools.product((0, 1), repeat=len(symbols)) if self.is_whole else ([pick.randint(0, 1) for _ in symbols] for _ in range(RUNS))
        self.runs = [dict(zip(symbols, row)) for row in values]

    def words(self, *words: object) -> list[Any]:
        return [*words, "--circuit", self.path, *(["--names", self.names] if self.names else []), self.formula]

    def expect_same(self, kind: str, found: Any, inputs: Any = None) -> None:
        """Expects that what was read back does what the circuit does. These are the symbols of its inputs, if they are not all."""
        inputs = list(self.runs[0]) if inputs is None else inputs
        outputs = list(self.run(self.runs[0]))
        if found is None:
            return
        labels, results, run = found
        if not expect(f"{self.name}, {kind}: the inputs and outputs", (len(labels), len(results)) == (len(inputs), len(outputs)), (labels, results)):
            return
        own = [run({label: row[symbol] for label, symbol in zip(labels, inputs)}) for row in self.runs]
        pairs = [([self.run(row)[symbol] for symbol in outputs], [got.get(label) for label in results]) for row, got in zip(self.runs, own)]
        expect(f"{self.name}, {kind}: the outputs of each run", all(wanted == got for wanted, got in pairs), pairs)


def called(given: Given, symbols: Any) -> list[str]:
    return [given.called.get(symbol, symbol) for symbol in symbols]


def try_formats(use: Use, given: Given) -> None:
    """Each format of a circuit, read back."""
    inputs, outputs = list(given.runs[0]), list(given.run(given.runs[0]))
    text = use.shown(*given.words())
    _, results, run = of_text(text, called(given, inputs))
    gates = [label for label in results if label not in called(given, outputs)]
    given.expect_same("text", (called(given, inputs), [label for label in results if label not in gates], run))
    circuit = read_circuit(use.shown(*given.words("--format", "aag")).encode())
    found = of_circuit(circuit)
    expect(f"{given.name}, aag: the symbols", list(found[:2]) == [called(given, inputs), called(given, outputs)], found)
    given.expect_same("aag", found)
    binary = use.run(TOOL, *given.words("--format", "aig"), encoding=None)
    expect(f"{given.name}, aig: ends well", binary.returncode == 0 and not binary.stderr, binary)
    found = of_circuit(read_circuit(binary.stdout))
    expect(f"{given.name}, aig: the symbols", list(found[:2]) == [called(given, inputs), called(given, outputs)], found)
    given.expect_same("aig", found)
    try_table(use, given, outputs)
    graph = use.shown(*given.words("--format", "dot"))
    drawn = of_dot(graph)
    used = [symbol for symbol in inputs if given.called.get(symbol, symbol) in drawn[0]]
    given.expect_same("dot", drawn, used)
    for kind, program, read in ("verilog", "yosys", of_verilog), ("blif", "berkeley-abc", of_blif):
        written = use.shown(*given.words("--format", kind))
        if shutil.which(program) and outputs:  # without an output they take no circuit
            given.expect_same(kind, read(use, f"{given.name}, {kind}", written))
    if shutil.which("dot") and len(given.circuit.gates) <= DRAWN:
        done = subprocess.run(["dot", "-Tsvg"], input=graph, capture_output=True, text=True, check=False)
        expect(
            f"{given.name}, dot: it is drawn",
            (done.returncode, done.stdout.count('class="edge"')) == (0, graph.count("->")) and not done.stderr,
            done,
        )


def try_table(use: Use, given: Given, outputs: Any) -> None:
    """The table of all outputs, or of some: a row for all values of the inputs that they depend on."""
    for some in [outputs, *([output] for output in random.Random(given.name).sample(outputs, min(3, len(outputs))))]:
        ended = use.run(TOOL, *given.words("--format", "table", *(["--only", ",".join(some)] if some else [])))
        if not ended.returncode:
            expect(f"{given.name}: the table of {some}", is_table(given, some, ended.stdout), ended.stdout)
            return
        use.expect(f"{given.name}: a table of {some}", ended, 1, "", "inputs, and a table has at most 8: choose outputs by --only or --block")


def is_table(given: Given, some: Any, text: str) -> bool:
    """Whether each row is that of the simulation, whatever the inputs are that the table does not have."""
    inputs, results, rows = rows_of(text)
    symbol = dict(zip(called(given, given.runs[0]), given.runs[0]))
    if results != called(given, some) or not len({tuple(left.values()) for left, _ in rows}) == len(rows) == 1 << len(inputs):
        return False
    for left, right in rows:
        own = {symbol[label]: value for label, value in left.items()}
        for other in 0, 1:
            found = given.run({**dict.fromkeys(given.runs[0], other), **own})
            if [found[output] for output in some] != list(right.values()):
                return False
    return True


def examples() -> list[tuple[Path, Path]]:
    traces = sorted(ROOT.glob("examples/**/*.qrp"))
    return [(trace.with_suffix(".qdimacs"), trace) for trace in traces if trace.with_suffix(".qdimacs").is_file()]


def made(use: Use, formula: Path, trace: Path, flags: Sequence[str] = ("--binary",)) -> bytes:
    """The circuit of a proof, by the program."""
    done = subprocess.run([use.strategy, *flags, formula, trace], capture_output=True, check=False)
    expect(f"qrp_strategy of {trace.name}", done.returncode == 0, done)
    return done.stdout


def try_examples(use: Use) -> None:
    """The circuits of the examples: all formats with and without names, the same of a trace, and what they say of blind-box."""
    for formula, trace in examples():
        path = use.write(f"{formula.stem}.aig", made(use, formula, trace))
        names = formula.with_suffix(".names")
        for given in Given(formula.stem, formula, path), *([Given(f"{formula.stem} with names", formula, path, names)] if names.exists() else []):
            try_formats(use, given)
        expect(f"{trace.name}: by the trace", use.shown(formula, trace) == use.shown("--circuit", path, formula))
    box = f"{BOX}.qdimacs", f"{BOX}.qrp"
    wanted = "the universal player's strategy: 5 outputs, 23 inputs, 0 gates\nblock 1 (universal)\n    a0 = false\n    b0 = true\n"
    wanted += "block 3 (universal)\n    carry_in = !box\n    a1 = true\n    b1 = false\n"
    found = use.shown("--names", f"{BOX}.names", *box)
    expect("blind-box", found == wanted, found)
    found = use.shown("--format", "table", "--only", "carry_in a1", "--names", f"{BOX}.names", *box)
    expect("the table of blind-box", found == "box | carry_in a1\n  0 |        1  1\n  1 |        0  1\n", found)
    found = use.shown("--qu", "--block", "1", *box)
    expect("a block of blind-box", found.splitlines()[1:] == ["block 1 (universal)", "    1 = false", "    2 = true"], found)


class Sample:
    """A random formula, and a circuit for it in which outputs depend on earlier blocks alone; whether it wins is open."""

    def __init__(self, seed: int) -> None:
        pick = random.Random(seed)
        self.variables = list(range(1, pick.randint(2, 9) + 1))
        rest, letter = pick.sample(self.variables, len(self.variables)), pick.choice("ae")
        self.blocks = []
        while rest:
            size = pick.randint(1, 3)
            self.blocks.append((letter, rest[:size]))
            rest, letter = rest[size:], "ea"[letter == "e"]
        literal = lambda: pick.choice(self.variables) * pick.choice((1, -1))
        self.clauses = [[literal() for _ in range(pick.randint(1, 4))] for _ in range(pick.choice((0, 1, 2, 3, 6)))]
        self.winner = pick.choice("ae")
        self.inputs = [variable for letter, some in self.blocks if letter != self.winner for variable in some]
        self.gates: list[Any]
        self.gates, self.outputs = [], []
        wires, literals = [0], iter(range(2, 2 * len(self.inputs) + 1, 2))
        for letter, some in self.blocks:
            for variable in some:
                if letter != self.winner:
                    wires.append(next(literals))
                    continue
                for _ in range(pick.choice((0, 0, 1, 3, 12))):
                    self.add_gate(wires, pick)
                self.outputs.append((variable, pick.choice(wires[-4:]) ^ pick.randint(0, 1)))

    def add_gate(self, wires: Any, pick: random.Random) -> None:
        left = 2 * (len(self.inputs) + len(self.gates) + 1)
        both = sorted((pick.choice(wires[-6:]) ^ pick.randint(0, 1) for _ in "ab"), reverse=True)
        self.gates.append((left, *both))
        wires.append(left)

    def formula(self) -> str:
        lines = [f"p cnf {len(self.variables)} {len(self.clauses)}", *(f"{letter} {' '.join(map(str, some))} 0" for letter, some in self.blocks)]
        return "".join(line + "\n" for line in [*lines, *(" ".join(map(str, [*clause, 0])) for clause in self.clauses)])

    def aag(self) -> str:
        counts = len(self.inputs) + len(self.gates), len(self.inputs), 0, len(self.outputs), len(self.gates)
        lines = [" ".join(map(str, ("aag", *counts))), *(str(2 * place + 2) for place in range(len(self.inputs)))]
        lines += [*(str(literal) for _, literal in self.outputs), *(" ".join(map(str, gate)) for gate in self.gates)]
        lines += [*(f"i{at} {it}" for at, it in enumerate(self.inputs)), *(f"o{at} {it}" for at, (it, _) in enumerate(self.outputs))]
        return "".join(line + "\n" for line in lines)


def wins(given: Given, is_true: bool) -> Optional[bool]:
    """Whether a circuit wins, as all plays say, or of many inputs a SAT solver. None if there is no such solver."""
    solver = shutil.which("cadical") or ""
    if len(given.circuit.inputs) > 12 and not solver:
        return None
    try:
        check_strategy(given.text, given.path.read_bytes(), is_true, solver)
        return True
    except Lost:
        return False


def try_random_circuits(use: Use) -> None:
    """Circuits with any gates, constants among their inputs, and odd names; and whether they win."""
    answers, solver = [], shutil.which("depqbf")
    for seed in range(RANDOM_CIRCUITS):
        sample, pick = Sample(seed), random.Random(-seed)
        formula, path = use.write("sample.qdimacs", sample.formula()), use.write("sample.aag", sample.aag())
        some = pick.sample(sample.variables, pick.randint(0, len(sample.variables)))
        names = use.write("sample.names", "".join(f"{variable} {name}\n" for variable, name in zip(some, pick.sample(ODD, len(some)))))
        given = Given(f"circuit {seed}", formula, path, names if seed % 3 else None)
        try_formats(use, given)
        if solver:
            answer = wins(given, sample.winner == "e")
            answers.append(answer)
            try_verified(use, given, answer)
            if not seed % 3:
                try_verified(use, given, answer, "--solver", "depqbf")
    expect("some random circuits win, and some do not", not solver or 2 < sum(map(bool, answers)) < RANDOM_CIRCUITS - 2, answers)
    for program in "yosys", "berkeley-abc", "dot":
        if not shutil.which(program):
            skip(f"formats read by {program}", f"there is no {program}")


# ---- whether a circuit wins

WINS = "the circuit wins: no output depends on a later block, and qrp_cmd has verified that no run is lost\n"


def try_verified(use: Use, given: Given, wanted: Any, *words: object) -> None:
    """What --verify says of a circuit; the run that it shows is lost."""
    ended = use.run(TOOL, *given.words("--verify", *words))
    if wanted:
        use.expect(f"{given.name} wins", ended, 0, WINS)
        return
    use.expect(f"{given.name} does not win", ended, 1, "", "the circuit does not win: with ")
    found = re.search(r": with (.*) (?:clause (\d+), in line \d+ of the formula, is false|all clauses hold)\n$", ended.stderr)
    number = {label: symbol for symbol, label in given.called.items()}
    inputs: list[str] = [] if not found or found[1] == "no input" else found[1].split()
    values = {number.get(word.removeprefix("-"), word.removeprefix("-")): int(word[0] != "-") for word in inputs}
    if not expect(f"{given.name}: the inputs of a run", sorted(values) == sorted(given.runs[0]), ended.stderr):
        return
    true = {int(symbol) if value else -int(symbol) for symbol, value in {**values, **given.run(values)}.items()}
    false = [number for number, clause in enumerate(given.text.clauses, 1) if true.isdisjoint(clause)]
    expect(f"{given.name}: the run is lost", (str(false[0]) if false else None) == (found and found[2]), (false, ended.stderr))


def try_examples_verified(use: Use) -> None:
    """The circuits of the examples win. With one gate or output changed they win only if all plays say so."""
    if not shutil.which("depqbf"):
        skip("whether circuits win", "there is no depqbf")
        return
    for formula, trace in examples():
        use.expect(f"{trace.name}: --verify", use.run(TOOL, "--verify", formula, trace), 0, WINS)
        text = made(use, formula, trace, ())
        _, _, inputs, _, outputs, gates = text.decode().split("\n")[0].split()
        lines, first = text.decode().splitlines(), 1 + int(inputs)
        found, changes = 0, range(first, first + int(outputs) + int(gates))
        for at in random.Random(1).sample(changes, min(8, len(changes))):
            *rest, last = lines[at].split()
            path = use.write("changed.aag", "".join(line + "\n" for line in [*lines[:at], " ".join([*rest, str(int(last) ^ 1)]), *lines[at + 1 :]]))
            given = Given(f"{trace.stem} with another line {at + 1}", formula, path)
            wanted = wins(given, "\nr SAT" in trace.read_text())
            wanted = use.run(TOOL, *given.words("--verify")).returncode == 0 if wanted is None else wanted
            try_verified(use, given, wanted)
            found += not wanted
        expect(f"{trace.name}: changes are found", found > 0, found)


def try_solvers(use: Use) -> None:
    """A solver that is not there, has no answer, a wrong one, or a wrong proof."""
    path = use.write("box.aag", made(use, Path(f"{BOX}.qdimacs"), Path(f"{BOX}.qrp"), ()))
    for name, script, status, said in (
        ("silent", "exit 0", 2, "the solver has no answer, but status 0"),
        ("broken", "echo 'it is broken' >&2; exit 134", 1, "the solver has no answer, but status 134: it is broken"),
        ("cut", "echo 'p qrp 1 1'; exit 20", 1, "the solver answers false, and qrp_cmd says REFUSED trace"),
        ("killed", "kill -9 $$", 1, "the solver has no answer, but was ended by signal 9 (SIGKILL)"),
        ("none", None, 2, "cannot be run (No such file or directory): install it"),
    ):
        solver = use.folder / name
        if script:
            solver = use.write(name, f"#!/bin/sh\n{script}\n")
            solver.chmod(0o755)
        ended = use.run(TOOL, "--verify", "--solver", solver, "--circuit", path, f"{BOX}.qdimacs")
        use.expect(f"the solver is {name}", ended, status, "", said)


def try_sat_solvers(use: Use) -> None:
    """A SAT solver that is not there, has no answer or a wrong one, does not end, or writes what does not follow by unit propagation."""
    path = use.write("box.aag", made(use, Path(f"{BOX}.qdimacs"), Path(f"{BOX}.qrp"), ()))
    rat = 'for last; do :; done; echo "1 0" > "$last"; '
    for name, script, status, said in (
        ("silent", "exit 0", 2, "the solver has no answer, but status 0"),
        ("broken", "echo 'it is broken' >&2; exit 134", 1, "the solver has no answer, but status 134: it is broken"),
        ("without a proof", "exit 20", 2, "lost.qrp.drat cannot be read: No such file or directory"),
        ("cut", 'for last; do :; done; : > "$last"; exit 20', 1, "the solver's proof: the proof ends without the empty clause"),
        ("wrong", "echo v 1 2 3 0; exit 10", 3, "the run that was found is not lost: this is a fault of this tool or of the solver"),
        ("without values", "exit 10", 3, "the run that was found is not lost"),
        ("never plain", f"{rat}exit 20", 1, "the solver's proof, line 1: the clause does not follow by unit propagation; if it follows by RAT"),
        ("slow", "sleep 100", 2, "the solver was given up after 0.5 seconds"),
        ("none", None, 2, "cannot be run (No such file or directory): install it (on Debian: apt-get install cadical)"),
    ):
        solver = use.folder / name.replace(" ", "_")
        if script:
            solver = use.write(solver.name, f"#!/bin/sh\n{script}\n")
            solver.chmod(0o755)
        limit = ["--timeout", "0.5"] if name == "slow" else []
        ended = use.run(TOOL, "--verify", *limit, "--sat-solver", solver, "--circuit", path, f"{BOX}.qdimacs")
        use.expect(f"the SAT solver is {name}", ended, status, "", said)
    slow = use.write("slow_depqbf", "#!/bin/sh\nsleep 100\n")
    slow.chmod(0o755)
    ended = use.run(TOOL, "--verify", "--timeout", "0.5", "--solver", slow, "--circuit", path, f"{BOX}.qdimacs")
    use.expect("DepQBF is slow", ended, 2, "", "the solver was given up after 0.5 seconds")
    if not shutil.which("cadical"):
        skip("circuits verified by a SAT solver", "there is no cadical")
        return
    ended = use.run(TOOL, "--verify", "--sat-solver", "cadical", "--circuit", path, f"{BOX}.qdimacs")
    use.expect("by cadical", ended, 0, WINS)
    plain = use.write("plain", f'#!/bin/sh\ncase "$*" in *--plain*) exec cadical "$@" ;; esac\n{rat}exit 20\n')
    plain.chmod(0o755)
    ended = use.run(TOOL, "--verify", "--sat-solver", plain, "--circuit", path, f"{BOX}.qdimacs")
    use.expect("by a solver that writes what follows by RAT, but with --plain", ended, 0, WINS)


def try_smaller(use: Use) -> None:
    """A circuit that berkeley-abc makes smaller keeps its symbols, is read again, and wins."""
    if not shutil.which("berkeley-abc"):
        skip("circuits made smaller", "there is no berkeley-abc")
        return
    for formula, trace in examples():
        path, small = use.write("strategy.aig", made(use, formula, trace)), use.folder / "smaller.aig"
        small.unlink(missing_ok=True)
        given = read_circuit(path.read_bytes())
        if not given.outputs:
            continue
        script = f"read_aiger {path}; dc2; fraig; write_aiger -s {small}"
        done = subprocess.run(["berkeley-abc", "-q", script], capture_output=True, text=True, check=False)
        if not expect(f"{formula.stem}: it is made smaller", done.returncode == 0 and small.is_file(), done):
            continue
        found = read_circuit(small.read_bytes())
        expect(f"{formula.stem}: no larger", len(found.gates) <= len(given.gates), (len(found.gates), len(given.gates)))
        expect(f"{formula.stem}: the symbols stay", sorted(found.names.items()) == sorted(given.names.items()), (found.names, given.names))
        if shutil.which("depqbf") or shutil.which("cadical"):
            use.expect(f"{formula.stem}: the smaller one", use.run(TOOL, "--verify", "--circuit", small, formula), 0, WINS)


# ---- wrong circuits, and wrong words

FORMULA = "p cnf 3 2\na 1 0\ne 2 0\na 3 0\n1 2 0\n-1 2 3 0\n"  # false: 1 is universal, and so is 3, which comes after 2
RIGHT = "aag 1 1 0 2 0\n2\n1\n3\ni0 2\no0 1\no1 3\n"
TRUE_FORMULA = "p cnf 3 1\na 1 0\ne 2 0\na 3 0\n1 2 0\n"
WRONG = [
    ("not a circuit", "p cnf 1 1\n", "line 1: the file is no circuit in AIGER, which begins with aag or aig"),
    ("an empty file", "", "byte 0: the file is no circuit in AIGER"),
    ("a huge number", "aag 99999999999 1 0 2 0\n", "line 1: the header has a number above 1073741824"),
    ("a number of thousands of digits", f"aag {'9' * 5000} 1 0 2 0\n", "line 1: the file is no circuit in AIGER"),
    (
        "many inputs",
        "aig 1073741824 1073741824 0 0 0\n",
        "the circuit has 1073741824 inputs and 0 outputs, and the formula 1 existential and 2 universal variables",
    ),
    ("many gates", "aig 1073741824 1 0 2 1073741823\n2\n2\n", "the file ends before gate 0"),
    ("latches", RIGHT.replace("aag 1 1 0", "aag 2 1 1"), "the circuit has latches, and that of a strategy has none"),
    ("bad states", RIGHT.replace("2 0\n", "2 0 1\n", 1), "the circuit has bad states, and that of a strategy has none"),
    ("constraints", RIGHT.replace("2 0\n", "2 0 0 1\n", 1), "the circuit has constraints, and that of a strategy has none"),
    ("justice", RIGHT.replace("2 0\n", "2 0 0 0 1\n", 1), "the circuit has justice properties"),
    ("an output too few", "aag 1 1 0 1 0\n2\n1\ni0 2\no0 1\n", "the circuit has 1 inputs and 1 outputs, and the formula"),
    ("no symbol of an input", RIGHT.replace("i0 2\n", ""), "input 0 has no symbol"),
    ("no symbol of an output", RIGHT.replace("o1 3\n", ""), "output 1 has no symbol"),
    ("two symbols", RIGHT + "o1 3\n", "line 8: output 1 has two symbols"),
    ("a symbol of nothing", RIGHT.replace("o1 3", "o2 3"), "line 7: there is no output 2"),
    ("a symbol of thousands of digits", RIGHT.replace("o1 3", f"o{'1' * 5000} 3"), "line 7: a symbol is wanted"),
    ("a number of no variable", RIGHT.replace("o1 3", "o1 4"), "output 1 is called '4', which is not a variable of the formula"),
    ("a name of no variable", RIGHT.replace("o1 3", "o1 x"), "output 1 is called 'x', which is not a variable of the formula"),
    ("a variable twice", RIGHT.replace("o1 3", "o1 1"), "output 1 is called '1', and another output is this variable too"),
    (
        "the players mixed",
        RIGHT.replace("o1 3", "o1 2").replace("i0 2", "i0 3"),
        "the output 2 is existential: the outputs are the variables of one player",
    ),
    ("an input of the winner", RIGHT.replace("i0 2", "i0 3"), "the input 3 is universal: the outputs are the variables of one player"),
    ("a later input", RIGHT.replace("\n1\n", "\n2\n"), "the output 1, of block 1, depends on the input 2, of block 2, which does not come before it"),
    (
        "a later input below a gate",
        "aag 2 1 0 2 1\n2\n5\n3\n4 3 1\ni0 2\no0 1\no1 3\n",
        "the output 1, of block 1, depends on the input 2, of block 2",
    ),
    ("an output above the greatest", RIGHT.replace("\n1\n", "\n8\n"), "line 3: the literal 8 is above 3, the greatest by the header"),
    ("gates in a circle", "aag 3 1 0 2 2\n2\n1\n4\n4 6 1\n6 4 1\ni0 2\no0 1\no1 3\n", "a gate depends on itself"),
    ("a gate of itself", "aag 2 1 0 2 1\n2\n1\n4\n4 4 1\ni0 2\no0 1\no1 3\n", "a gate depends on itself"),
    (
        "a literal that is nothing",
        "aag 3 1 0 2 1\n2\n1\n4\n4 6 1\ni0 2\no0 1\no1 3\n",
        "the literal 6 is used, and neither an input nor a latch nor a gate",
    ),
    ("a text that is cut off", RIGHT[:18], "line 3: the file ends before output 1"),
    ("a binary text that is cut off", b"aig 2 1 0 2 1\n1\n3\n\x02", "the file ends before gate 0"),
    ("a binary gate of a later one", b"aig 2 1 0 2 1\n1\n3\n\x00\x7f", "gate 0 has an input that comes after it"),
    ("a binary number that is too long", b"aig 2 1 0 2 1\n1\n3\n\xff\xff\xff\xff\xff\xff\xff", "gate 0 has a number that is too long"),
    ("bytes", bytes(range(256)), "the file is no circuit in AIGER"),
]


def try_wrong_circuits(use: Use) -> None:
    """What is not a circuit for the formula is refused, with the file and the reason."""
    formula, path = use.write("formula.qdimacs", FORMULA), use.write("circuit", RIGHT)
    use.expect(
        "a right circuit",
        use.run(TOOL, "--circuit", path, formula),
        0,
        "the universal player's strategy: 2 outputs, 1 input, 0 gates\nblock 1 (universal)\n    1 = true\nblock 3 (universal)\n    3 = !2\n",
    )
    data: Any
    for name, data, said in WRONG:
        path = use.write("circuit", data)
        more: Any
        for more in [], ["--verify"], ["--format", "blif"]:
            ended = use.run(TOOL, *more, "--circuit", path, formula)
            use.expect(f"{name} {more}", ended, 1, "", said)
            expect(f"strategy: {name} {more}: the file is named", ended.stderr.startswith(f"{TOOL}: {path}") and ended.stderr.count("\n") == 1, ended)
    for cut in range(len(RIGHT) - 1):
        path = use.write("circuit", RIGHT[:cut])
        ended = use.run(TOOL, "--circuit", path, formula)
        use.expect(f"a text that is cut off after {cut} bytes", ended, 1, "", str(path))
    for text, said in ("no formula\n", "the formula has F2 in line 1: "), ("p cnf 2 1\ne 1 2 0\n1 2 0\n", "the circuit has 1 inputs"):
        path = use.write("circuit", RIGHT)
        ended = use.run(TOOL, "--circuit", path, use.write("other", text))
        use.expect(f"the formula {text!r}", ended, 1, "", said)
    other = use.write("other", FORMULA.replace("-1 2 3 0", "-1 2 9 0"))
    use.expect("a formula with a fault in a clause", use.run(TOOL, "--verify", "--circuit", path, other), 1, "", "the formula has F4 in line 6: ")


def try_no_variables(use: Use) -> None:
    """Formulas and circuits without some kind of variable."""
    for formula, text, wanted in (
        ("p cnf 0 0\n", "aag 0 0 0 0 0\n", "existential"),
        ("p cnf 0 1\n0\n", "aag 0 0 0 0 0\n", "universal"),
        ("p cnf 1 0\na 1 0\n", "aag 1 1 0 0 0\n2\ni0 1\n", "existential"),
        ("p cnf 1 1\ne 1 0\n0\n", "aag 1 1 0 0 0\n2\ni0 1\n", "universal"),
        ("p cnf 2 1\ne 1 2 0\n1 2 0\n", "aag 0 0 0 2 0\n0\n1\no0 1\no1 2\n", "existential"),
    ):
        words = ["--circuit", use.write("circuit", text), use.write("formula", formula)]
        said = use.shown(*words).splitlines()[0]
        expect(f"the winner of {formula!r}", said.startswith(f"the {wanted} player's strategy: "), said)
        for kind in "aag", "verilog", "blif", "table", "dot":
            use.shown("--format", kind, *words)
        if shutil.which("depqbf"):
            use.expect(f"no variables: {formula!r}", use.run(TOOL, "--verify", *words), 0, WINS)


def try_expressions(use: Use) -> None:
    """What follows from the other terms is left out, and gates are written out if that leaves them one place."""
    for gates, outputs, wanted in (
        ("8 4 2|10 9 2", [10], ["a = x & !y"]),
        ("8 4 2|10 8 3", [10], ["a = false"]),
        ("8 4 2|10 8 3", [11], ["a = true"]),
        ("8 5 3|10 9 2", [10], ["a = x"]),
        ("8 6 3|10 9 5|12 11 2", [12], ["a = x & y"]),
        ("8 6 3|10 9 5|12 11 2", [13], ["a = !x | !y"]),
        ("8 4 2|10 8 2", [8, 10], ["g4 = x & y", "a = g4", "b = g4"]),
        ("8 4 2|10 9 2", [8, 10], ["a = x & y", "b = x & !y"]),
        ("8 4 2|10 9 6", [8, 10], ["g4 = x & y", "a = g4", "b = z & !g4"]),
        ("8 5 3|10 9 6|12 9 7", [10, 12], ["g4 = !x & !y", "a = z & !g4", "b = !z & !g4"]),
        ("8 5 3|10 8 6|12 9 8", [10, 12], ["a = !x & !y & z", "b = false"]),
        ("8 1 2|10 0 4", [8, 10], ["a = x", "b = false"]),
    ):
        rows, letters = gates.split("|"), "ab"[: len(outputs)]
        formula = use.write("formula", f"p cnf 5 0\na 1 2 3 0\ne {' '.join('45'[: len(outputs)])} 0\n")
        names = use.write("names", "1 x\n2 y\n3 z\n" + "".join(f"{variable} {letter}\n" for variable, letter in zip("45", letters)))
        head = f"aag {3 + len(rows)} 3 0 {len(outputs)} {len(rows)}\n2\n4\n6\n" + "".join(f"{literal}\n" for literal in outputs)
        path = use.write(
            "circuit", head + "".join(f"{row}\n" for row in rows) + "i0 x\ni1 y\ni2 z\n" + "".join(f"o{at} {it}\n" for at, it in enumerate(letters))
        )
        found = [line.strip() for line in use.shown("--names", names, "--circuit", path, formula).splitlines()[2:]]
        expect(f"the expressions of {gates} {outputs}", found == wanted, found)
    names = use.write("names", "1 g4\n2 v3\n")
    formula = use.write("formula", "p cnf 5 0\na 1 2 3 0\ne 4 5 0\n")
    path = use.write("circuit", "aag 4 3 0 2 1\n2\n4\n6\n8\n9\n8 6 2\ni0 1\ni1 2\ni2 3\no0 4\no1 5\n")
    found = use.shown("--names", names, "--circuit", path, formula).splitlines()[2:]
    expect("names like those of gates", found == ["    g_4 = g4 & 3", "    4 = g_4", "    5 = !g_4"], found)
    found = use.shown("--format", "verilog", "--names", names, "--circuit", path, formula).splitlines()[1:]
    ports = ["    input g4,", "    input v3,", "    input v_3,", "    output v_4,", "    output v_5", ");"]
    expect(
        "names like those of variables",
        found == [*ports, "    wire g_4 = g4 & v_3;", "    assign v_4 = g_4;", "    assign v_5 = ~g_4;", "endmodule"],
        found,
    )


def try_odd_names(use: Use) -> None:
    """Names of any bytes come back as they went, in any locale; names that mean something elsewhere are changed, and --only takes each name."""
    formula = use.write("formula", "p cnf 3 0\na 1 0\ne 2 3 0\n")
    names = use.write("names", b"1 \xff\n2 caf\xc3\xa9,x\n3 1'b0\n")
    plain = use.write("circuit", "aag 1 1 0 2 0\n2\n2\n3\ni0 1\no0 2\no1 3\n")
    words: list[Any] = ["--names", names, "--format", "aag", "--circuit"]
    variables: Any
    for variables in {}, {"LC_ALL": "C"}, {"LC_ALL": "C", "PYTHONUTF8": "0", "PYTHONCOERCECLOCALE": "0"}:
        environment = {"env": {**use.environment, **variables}, "encoding": "utf-8", "errors": "surrogateescape"}
        ended = use.run(TOOL, *words, plain, formula, **environment)
        again = use.run(TOOL, *words, use.write("again", ended.stdout.encode("utf-8", "surrogateescape")), formula, **environment)
        expect(f"names of any bytes {variables}", ended.returncode == 0 and "i0 \udcff\no0 caf\u00e9,x\no1 1'b0\n" in ended.stdout, ended)
        expect(f"names of any bytes come back {variables}", (again.returncode, again.stdout) == (0, ended.stdout), again)
    blif = use.run(TOOL, "--names", names, "--format", "blif", "--circuit", plain, formula, **environment).stdout
    expect("a name like a constant in BLIF", "1_b0" in blif and "'" not in blif, blif)
    one = use.run(TOOL, "--names", names, "--only", "caf\u00e9,x", "--circuit", plain, formula, errors="surrogateescape")
    expect("a name with a comma is chosen", one.returncode == 0 and "1 output, " in one.stdout, one)
    for nothing in "", ",", " ":
        use.expect(f"--only '{nothing}'", use.run(TOOL, "--only", nothing, "--circuit", plain, formula), 2, "", "--only names no output")
    words = "endmodule endcase endfunction endgenerate endspecify endtask cmos incdir always_ff unique0 bind pulsestyle_onevent rtranif1".split()
    names = use.write("words", f"1 {words[0]}\n2 {words[1]}\n3 plain\n")
    text = use.shown("--names", names, "--format", "verilog", "--circuit", plain, formula)
    expect("keywords in Verilog", f"input \\{words[0]} ," in text and f"assign \\{words[1]}  = " in text and "output plain" in text, text)
    for word in words:
        use.write("words", f"1 {word}\n")
        text = use.shown("--names", names, "--format", "verilog", "--circuit", plain, formula)
        expect(f"the keyword {word}", f"input \\{word} ," in text, text)
        if shutil.which("yosys"):
            read = ["yosys", "-q", "-p", f"read_verilog -sv {use.write('module.v', text)}"]
            expect(f"yosys reads a name {word}", subprocess.run(read, check=False, capture_output=True).returncode == 0, text)
    path = use.write("yosys", "aag 1 1 0 2 0\n2\n2\n3\ni0 \\1\no0 \\2\no1 \\3\n")
    expect("numbers as yosys writes them", use.shown("--circuit", path, formula) == use.shown("--circuit", plain, formula))
    path = use.write("justice", "aag 1 1 0 2 0 0 0 1\n2\n2\n3\n1\n2\n")
    use.expect("justice", use.run(TOOL, "--circuit", path, formula), 1, "", "the circuit has justice properties, and that of a strategy has none")


def try_buses(use: Use) -> None:
    """The ports of a module with buses are those of the names, whatever the outputs depend on."""
    formula = use.write("formula", "p cnf 7 0\na 1 2 3 0\ne 4 5 6 0\na 7 0\n")
    names = use.write("names", "1 d[0]\n2 d[1]\n3 en@0\n4 h[0]\n5 h[1]\n6 k[1]\n7 k[0]\n")
    head = "aag 5 4 0 3 1\n2\n4\n6\n8\n"
    for outputs, gate, lines in (
        ("4\n0\n1\n", "10 2 4", ["h[0] = d[1]", "h[1] = 1'b0", "\\k[1]  = 1'b1"]),
        ("10\n3\n6\n", "10 2 5", ["h[0] = d[0] & ~d[1]", "h[1] = ~d[0]", "\\k[1]  = \\en@0 "]),
    ):
        path = use.write("circuit", f"{head}{outputs}{gate}\ni0 1\ni1 2\ni2 3\ni3 7\no0 4\no1 5\no2 6\n")
        ports = ["    input [1:0] d,", "    input \\en@0 ,", "    input \\k[0] ,", "    output [1:0] h,", "    output \\k[1] ", ");"]
        text = use.shown("--format", "verilog-buses", "--names", names, "--circuit", path, formula)
        expect(f"buses of {lines}", text.splitlines() == ["module strategy (", *ports, *(f"    assign {line};" for line in lines), "endmodule"], text)
        block = use.shown("--format", "verilog-buses", "--block", "2", "--names", names, "--circuit", path, formula).splitlines()
        expect(f"buses of {lines}: a block", block[1:6] == [ports[0], ports[1], *ports[3:]], block)
        if shutil.which("yosys"):
            read = ["yosys", "-q", "-p", f"read_verilog {use.write('module.v', text)}; hierarchy -check -top strategy"]
            expect(f"buses of {lines}: yosys", subprocess.run(read, check=False, capture_output=True).returncode == 0, text)


def try_choices(use: Use) -> None:
    """--only and --block."""
    formula = use.write("formula", "p cnf 6 0\na 1 2 0\ne 3 4 5 0\na 6 0\n")
    gates = "aag 6 3 0 3 3\n2\n4\n6\n9\n11\n13\n8 4 2\n10 5 3\n12 11 9\n"
    path = use.write("circuit", gates + "i0 1\ni1 2\ni2 6\no0 3\no1 4\no2 5\n")
    names = use.write("names", "1 x[0]\n2 x[1]\n3 y[0]\n4 y[1]\n5 z\n")
    head = "the existential player's strategy: {}\nblock 2 (existential)\n"
    y, z = (
        "    y[0] = !x[0] | !x[1]\n    y[1] = x[0] | x[1]\n",
        "    g4 = x[0] & x[1]\n    y[0] = !g4\n    g5 = !x[0] & !x[1]\n    y[1] = !g5\n    z = g4 | g5\n",
    )
    words: Any
    for words, wanted in (
        ([], head.format("3 outputs, 3 inputs, 3 gates") + z),
        (["--block", "2"], head.format("3 outputs, 2 inputs, 3 gates") + z),
        (["--only", "y"], head.format("2 outputs, 2 inputs, 2 gates") + y),
        (["--only", "4 y[0]"], head.format("2 outputs, 2 inputs, 2 gates") + y),
        (["--only", "y[1],3"], head.format("2 outputs, 2 inputs, 2 gates") + y),
        (["--only", "y[1]", "--only", "y[0]"], head.format("2 outputs, 2 inputs, 2 gates") + y),
        (["--only", "z"], head.format("1 output, 2 inputs, 3 gates") + "    z = (!x[0] & !x[1]) | (x[0] & x[1])\n"),
    ):
        found = use.shown("--names", names, *words, "--circuit", path, formula)
        expect(f"the outputs {words}", found == wanted, found)
    for words, said in (
        (["--only", "w"], "'w' is not an output; the outputs are y[0] y[1] z"),
        (["--only", "x[0]"], "'x[0]' is not an output"),
        (["--only", "9"], "'9' is not an output"),
        (["--block", "1"], "block 1 (universal) is the other player's: it has no outputs"),
        (["--block", "4"], "there is no block 4; the blocks are 1 to 3"),
        (["--block", "0"], "there is no block 0"),
    ):
        use.expect(f"the outputs {words}", use.run(TOOL, "--names", names, *words, "--circuit", path, formula), 2, "", said)
    wide = [f"{place}" for place in range(1, 11)]
    formula = use.write("formula", f"p cnf 11 0\na {' '.join(wide)} 0\ne 11 0\n")
    gates = "".join(f"{2 * place + 20} {2 * place + 18 if place > 1 else 2} {2 * place + 2}\n" for place in range(1, 10))
    path = use.write(
        "circuit",
        "aag 19 10 0 1 9\n"
        + "".join(f"{2 * number}\n" for number in range(1, 11))
        + f"38\n{gates}"
        + "".join(f"i{number - 1} {number}\n" for number in range(1, 11))
        + "o0 11\n",
    )
    outputs = use.shown("--circuit", path, formula).splitlines()[2:]
    expect("a large conjunction is cut", outputs == ["    g17 = 1 & 2 & 3 & 4 & 5 & 6 & 7 & 8", "    11 = 9 & 10 & g17"], outputs)
    use.expect(
        "a table that is too large",
        use.run(TOOL, "--format", "table", "--circuit", path, formula),
        1,
        "",
        "the outputs depend on 10 inputs, and a table has at most 8",
    )
    deep = "".join(f"{2 * number} {2 * number - 1} {2 * (number % 20 + 1)}\n" for number in range(21, 20021))
    symbols = "".join(f"i{place} {place + 1}\n" for place in range(20))
    path = use.write("circuit", "aag 20020 20 0 1 20000\n" + "".join(f"{2 * number}\n" for number in range(1, 21)) + f"40040\n{deep}{symbols}o0 21\n")
    formula = use.write("formula", f"p cnf 21 0\na {' '.join(map(str, range(1, 21)))} 0\ne 21 0\n")
    found = use.shown("--circuit", path, formula)
    expect(
        "a deep circuit",
        found.startswith("the existential player's strategy: 1 output, 20 inputs, 20000 gates\n") and found.count("\n") > 2000,
        found[:200],
    )
    formula, path = use.write("formula", "p cnf 2 0\na 1 0\ne 2 0\n"), use.write("circuit", "aag 1 1 0 1 0\n2\n3\ni0 1\no0 2\n")
    names = use.write("names", "1 true\n2 false\n")
    expect("names like constants", "    false_ = !true_\n" in use.shown("--names", names, "--circuit", path, formula))


def try_words(use: Use) -> None:
    """Wrong command lines, files that are not there, and programs that are not there."""
    box, path = (f"{BOX}.qdimacs", f"{BOX}.qrp"), use.write("circuit", RIGHT)
    for words in (
        [],
        box[:1],
        ["--circuit", path],
        ["--circuit", path, *box],
        ["--format", "xml", *box],
        ["--block", "x", *box],
        ["--verify", "--only", "1", *box],
        ["--verify", "--format", "aag", *box],
        ["--verify", "--block", "1", *box],
        ["--solver", "x", *box],
        ["--sat-solver", "x", *box],
        ["--timeout", "1", *box],
        ["--verify", "--timeout", "0", *box],
        ["--verify", "--solver", "x", "--sat-solver", "x", *box],
        ["--verify", "--only-free", *box],
        ["--qu", "--circuit", path, box[0]],
    ):
        use.expect(f"the words {words}", use.run(TOOL, *words), 2, "", "usage: ")
    missing = use.folder / "missing"
    for words in ([missing, box[1]], [box[0], missing], ["--circuit", missing, box[0]], ["--names", missing, *box]):
        use.expect(f"no file {words}", use.run(TOOL, *words), 2, "", f"{missing} cannot be read: No such file or directory")
    large, limit = use.folder / "large", 200000000
    with open(large, "wb") as file:
        file.truncate(300000000)
    ended = use.run(TOOL, "--circuit", large, box[0], preexec_fn=lambda: resource.setrlimit(resource.RLIMIT_AS, (limit, limit)))
    use.expect("no memory", ended, 2, "", "memory was refused: raise the limit")
    use.expect("a refused proof", use.run(TOOL, box[0], f"{MATCHES}.qrp"), 1, "", "qrp_strategy refuses the proof: REFUSED ")
    script = f'"$@" --circuit <(cat {path}) <(cat {use.write("formula", FORMULA)})'
    piped = use.run("-c", "import subprocess, sys; sys.exit(subprocess.call(sys.argv[1:]))", "bash", "-c", script, "bash", sys.executable, TOOL)
    expect("strategy: pipes", piped.returncode == 0 and piped.stdout.endswith("    3 = !2\n"), piped)
    tools = use.folder / "elsewhere"
    shutil.copytree(ROOT / "tools", tools / "tools")
    (tools / "qrp_cmd").symlink_to(use.program)
    environment = {**use.environment, "QRP_CMD": str(tools / "qrp_cmd"), "PATH": "/usr/bin:/bin"}
    own = tools / "tools" / "explain-strategy"
    ended = use.run(own, *box, env=environment)
    use.expect("no qrp_strategy", ended, 2, "", "there is no bin/qrp_strategy: build it with make, or name it by QRP_STRATEGY")
    wanted = use.shown(*box)
    ended = use.run(own, *box, env={**environment, "QRP_STRATEGY": str(use.strategy)})
    use.expect("qrp_strategy by its name", ended, 0, wanted)
    (tools / "qrp_strategy").symlink_to(use.strategy)
    use.expect("qrp_strategy beside qrp_cmd", use.run(own, *box, env=environment), 0, wanted)
    use.expect(
        "a wrong name of qrp_strategy",
        use.run(own, *box, env={**environment, "QRP_STRATEGY": str(missing)}),
        2,
        "",
        f"the program {missing} cannot be run: ",
    )
    no_circuit = use.write("no_circuit", "#!/bin/sh\necho 'NO CIRCUIT' >&2\nexit 4\n")
    no_circuit.chmod(0o755)
    use.expect("no circuit", use.run(own, *box, env={**environment, "QRP_STRATEGY": str(no_circuit)}), 2, "", "qrp_strategy says: NO CIRCUIT")
    for redirection, reason in (">&-", "it is closed"), (">/dev/full", "No space left on device"):
        done = subprocess.run(
            ["bash", "-c", f'"$@" {redirection}', "bash", sys.executable, str(TOOL), *box],
            capture_output=True,
            text=True,
            check=False,
            env=use.environment,
        )
        expect(
            f"strategy: the output {redirection}",
            (done.returncode, f"the standard output cannot be written: {reason}" in done.stderr) == (2, True),
            done,
        )


def try_gates(use: Use) -> None:
    """The gates of the formula are left out by --only-free: variables of the innermost block that clauses define by variables before them."""
    # 3 is free, 4 the conjunction of 1 and 3, 5 that of 2 and 4; 6 is free, though 7 is its negation.
    clauses = ["4 -1 -3", "-4 1", "-4 3", "5 -2 -4", "-5 2", "-5 4", "6 7", "-6 -7"]
    formula = use.write("formula", f"p cnf 7 {len(clauses)}\na 1 2 0\ne 3 4 5 6 7 0\n" + "".join(f"{clause} 0\n" for clause in clauses))
    names = use.write("names", "1 x\n2 y\n3 z\n4 and\n5 both\n6 free\n7 negated\n")
    path = use.write("circuit", "aag 3 2 0 5 1\n2\n4\n1\n2\n6\n0\n1\n6 4 2\ni0 1\ni1 2\n" + "".join(f"o{at} {at + 3}\n" for at in range(5)))
    head = "the existential player's strategy: {}\nblock 2 (existential)\n"
    wanted: Any
    words: Any
    for words, wanted in (
        (["--only-free"], head.format("2 outputs, 0 inputs, 0 gates") + "    z = true\n    free = false\n"),
        (["--only-free", "--only", "both,z"], head.format("1 output, 0 inputs, 0 gates") + "    z = true\n"),
        (["--only-free", "--only", "both"], "the existential player's strategy: 0 outputs, 0 inputs, 0 gates\n"),
        (["--only-free", "--block", "2", "--format", "verilog"], None),
    ):
        found = use.shown("--names", names, *words, "--circuit", path, formula)
        expect(f"free outputs {words}", found == wanted if wanted else "output z" in found and "both" not in found and "input" not in found, found)
    told = use.write("told", names.read_text() + "# gates: 4 to 5\n")
    for words, wanted in (
        ([], head.format("3 outputs, 2 inputs, 0 gates") + "    z = true\n    free = false\n    negated = true\n"),
        (["--only", "both,z"], head.format("2 outputs, 2 inputs, 1 gate") + "    z = true\n    both = x & y\n"),
        (["--format", "table"], "z free negated\n1    0       1\n"),
    ):
        found = use.shown("--names", told, *words, "--circuit", path, formula)
        expect(f"gates by the names {words}", found == wanted, found)
    for form in "aag", "blif":
        shown = [use.shown("--format", form, "--names", path_of_names, "--circuit", path, formula) for path_of_names in (names, told)]
        expect(f"gates by the names, in {form}", shown[0] == shown[1], shown)
    found = use.shown("--only-free", f"{BOX}.qdimacs", f"{BOX}.qrp") if use.strategy.is_file() else ""
    expect("a universal winner has no gates", not found or found.startswith("the universal player's strategy: 5 outputs,"), found)


def seconds_of(use: Use, *words: Any) -> tuple[float, str]:
    """The seconds of a processor that a command takes, and what it prints."""
    before = resource.getrusage(resource.RUSAGE_CHILDREN)
    ended = use.run(*words)
    after = resource.getrusage(resource.RUSAGE_CHILDREN)
    expect(f"{words[1:3]} of a large circuit: ends well", ended.returncode == 0 and not ended.stderr, ended.stderr)
    return after.ru_utime - before.ru_utime, ended.stdout


def try_large(use: Use) -> None:
    """A large circuit of many blocks is shown and played in a small multiple of the time in which it is read and written, and shown as it is."""
    blocks, size = 400, 150  # of inputs, and gates of each output
    gates: list[Any]
    pick, gates, outputs = random.Random(1), [], []
    literal = lambda block: 2 * (pick.randrange(2 * block) + 1) + pick.randint(0, 1)
    for block in range(1, blocks + 1):
        wire = literal(block)
        for place in range(size):
            wire = 2 * (2 * blocks + len(gates) + 1)
            before = wire - 2 if place else literal(block)
            gates.append((wire, before ^ pick.randint(0, 1), literal(block)))
        outputs.append(wire)
    text = [f"aag {2 * blocks + len(gates)} {2 * blocks} 0 {blocks} {len(gates)}", *map(str, range(2, 4 * blocks + 1, 2)), *map(str, outputs)]
    text += [" ".join(map(str, gate)) for gate in gates]
    inputs = [3 * at + more for at in range(blocks) for more in (1, 2)]
    text += [*(f"i{at} {it}" for at, it in enumerate(inputs)), *(f"o{at} {3 * at + 3}" for at in range(blocks))]
    path = use.write("large.aag", "".join(line + "\n" for line in text))
    prefix = "".join(f"a {3 * at + 1} {3 * at + 2} 0\ne {3 * at + 3} 0\n" for at in range(blocks))
    formula = use.write("large.qdimacs", f"p cnf {3 * blocks} 0\n{prefix}")
    least, found = seconds_of(use, TOOL, "--format", "aag", "--circuit", path, formula)
    expect("a large circuit: all gates are there", found.count("\n") == len(text), found[:100])
    _, _, run = of_text(use.shown("--circuit", path, formula), list(map(str, inputs)))
    for _ in range(5):
        values = {str(variable): pick.randint(0, 1) for variable in inputs}
        known = dict(zip(range(2, 4 * blocks + 1, 2), values.values()))
        for wire, one, other in gates:
            known[wire] = (known[one & ~1] ^ one & 1) & (known[other & ~1] ^ other & 1)
        shown = run(values)
        wanted = {str(3 * at + 3): known[wire] for at, wire in enumerate(outputs)}
        expect("a large circuit: the expressions have its values", {label: shown[label] for label in wanted} == wanted, values)
    for name, words in ("explain-strategy", [TOOL, "--circuit", path, formula]), ("play", [PLAY, "--random", "1", "--strategy", path, formula]):
        seconds, _ = seconds_of(use, *words)
        expect(f"{name} of {len(gates)} gates: at most 4 times the seconds that it takes to write them", seconds <= 4 * least, (seconds, least))


# ---- the tools that use strategies


def try_play(use: Use) -> None:
    """Games by a circuit: the moves are those of the circuit, and the end is that of the matrix."""
    for formula, trace in examples():
        path = use.write("game.aig", made(use, formula, trace))
        given = Given(formula.stem, formula, path)
        winner = {True: "existential", False: "universal"}["\nr SAT" in trace.read_text()]
        for seed in range(3):
            ended = use.run(PLAY, "--json", "--random", seed, "--strategy", path, formula)
            again = use.run(PLAY, "--json", "--random", seed, "--by-strategy", formula, trace)
            expect(
                f"play, {formula.stem}, {seed}: by a file and by the proof",
                (ended.returncode, ended.stdout, ended.stderr) == (0, again.stdout, ""),
                (ended, again),
            )
            found = json.loads(ended.stdout)
            values = {abs(literal): int(literal > 0) for move in found["moves"] for literal in move["values"]}
            own = {abs(literal): int(literal > 0) for move in found["moves"] if move["by"] == "circuit" for literal in move["values"]}
            wanted = given.run({symbol: values[int(symbol)] for symbol in given.runs[0]})
            expect(f"play, {formula.stem}, {seed}: the moves", own == {int(symbol): value for symbol, value in wanted.items()}, (own, wanted))
            end: Any = found["winner"], found["matrix"], found["verified"], bool(found["failing"])
            expect(f"play, {formula.stem}, {seed}: the end", end == (winner, winner == "existential", None, winner == "universal"), found)
    box, path = f"{BOX}.qdimacs", use.write("box.aag", made(use, Path(f"{BOX}.qdimacs"), Path(f"{BOX}.qrp"), ()))
    begun = "the universal player plays by the circuit\nblock 1 (universal), by the circuit: -a0 b0\n"
    stop = 'block 2 (existential) is the other player\'s: box\n    give the values by --reply "..", with - before each variable that is false\n'
    use.expect("play, a circuit", use.run(PLAY, "--names", f"{BOX}.names", "--strategy", path, box), 0, begun + stop)
    lines = path.read_text().splitlines()
    lost = use.write("lost.aag", "".join(line + "\n" for line in [*lines[:26], "1", *lines[27:]]))  # carry_in = true
    ended = use.run(PLAY, "--names", f"{BOX}.names", "--reply", "box", "--random", "1", "--strategy", lost, box)
    end = "no variable is left, and the matrix holds: the universal player has lost\n"
    expect("strategy: play, a circuit that does not win", ended.returncode == 1 and ended.stdout.endswith(end) and not ended.stderr, ended)
    words: Any
    for words in (
        [box],
        ["--strategy", path, box, f"{BOX}.qrp"],
        ["--by-strategy", box],
        ["--by-strategy", "--strategy", path, box],
        ["--qu", "--strategy", path, box],
        ["--write", use.folder / "states", "--strategy", path, box],
        ["--write", use.folder / "states", "--by-strategy", box, f"{BOX}.qrp"],
    ):
        use.expect(f"play, the words {words}", use.run(PLAY, *words), 2, "", "usage: ")
    use.expect("play, not a circuit", use.run(PLAY, "--strategy", box, box), 1, "", f"{box}, line 1: the file is no circuit in AIGER")
    use.expect("play, no file", use.run(PLAY, "--strategy", use.folder / "none", box), 2, "", "none cannot be read: No such file or directory")
    use.expect("play, a formula with a fault", use.run(PLAY, "--strategy", path, path), 1, "", "the formula has F2 in line 1: ")


def try_solve(use: Use) -> None:
    """The strategy that tools/solve writes, as a whole or not at all."""
    solver = use.write("depqbf", f"#!/bin/sh\ncat '{BOX}.qrp'\nexit 20\n")
    solver.chmod(0o755)
    box, first = f"{BOX}.qdimacs", ["--solver", solver]
    for name, flags in ("box.aag", ()), ("box", ()), ("box.aig", ("--binary",)):
        kept = use.folder / name
        use.expect(f"solve, {name}", use.run(SOLVE, *first, "--strategy", kept, box), 20, "s cnf 0 28 80\n")
        expect(f"strategy: solve, {name}: the circuit", kept.read_bytes() == made(use, Path(box), Path(f"{BOX}.qrp"), flags), kept)
    kept, before = use.folder / "box.aag", (use.folder / "box.aag").read_bytes()
    ended = use.run(SOLVE, *first, "--play", "--keep", use.folder / "kept.qrp", "--strategy", kept, box)
    use.expect("solve, with a game", ended, 20, "s cnf 0 28 80\nV -1 0\nV 2 0\n")
    none = "s cnf -1 28 80\n"
    wrong = use.write("wrong", f"#!/bin/sh\nhead -n 9 '{BOX}.qrp'\nexit 20\n")
    failing = use.write("failing", "#!/bin/sh\nhead -c 1000 /dev/zero\nexit 3\n")
    for path in wrong, failing:
        path.chmod(0o755)
    environment = {**use.environment, "QRP_STRATEGY": str(failing)}
    more: Any
    for name, words, status, said, more in (
        ("a proof that is refused", ["--solver", wrong, "--strategy", kept], 1, "the solver answers false, and qrp_cmd says REFUSED", {}),
        ("a program that fails", [*first, "--strategy", kept], 2, "qrp_strategy ended with status 3", {"env": environment}),
        (
            "a folder that is not there",
            [*first, "--strategy", use.folder / "none" / "x"],
            2,
            "none/x cannot be written: No such file or directory",
            {},
        ),
        ("a folder", [*first, "--strategy", use.folder], 2, "is not a file: the strategy is not kept there", {}),
        (
            "no qrp_strategy",
            [*first, "--strategy", kept],
            2,
            "the program /none cannot be run: ",
            {"env": {**use.environment, "QRP_STRATEGY": "/none"}},
        ),
    ):
        use.expect(f"solve, {name}", use.run(SOLVE, *words, box, **more), status, none, said)
        expect(
            f"strategy: solve, {name}: the older circuit stays",
            kept.read_bytes() == before and not list(use.folder.glob("*.new")),
            list(use.folder.iterdir()),
        )
    own = use.write("own.qdimacs", Path(box).read_bytes())
    use.expect(
        "solve, the formula as strategy",
        use.run(SOLVE, *first, "--strategy", own, own),
        2,
        none,
        "own.qdimacs is the formula: name another file for the strategy",
    )
    expect("strategy: solve, the formula stays", own.read_bytes() == Path(box).read_bytes())
    use.expect(
        "solve, one file for both", use.run(SOLVE, *first, "--keep", kept, "--strategy", kept, box), 2, "", "--keep and --strategy name one file"
    )


def try_full_folder(use: Use) -> None:
    """A folder for temporary files that is full. It needs a file system of its own, which a user may make in a name space of its own."""
    make = ["unshare", "--user", "--map-root-user", "--mount", "bash", "-c", 'mount -t tmpfs -o size=16k none "$TMPDIR" && exec "$@"', "bash"]
    if not shutil.which("unshare") or subprocess.run([*make, "true"], env=use.environment, check=False, capture_output=True).returncode:
        skip("strategies with a full TMPDIR", "no file system can be mounted here")
        return
    large = use.write("large", "#!/bin/sh\nhead -c 100000 /dev/zero 2>/dev/null || exit 3\n")
    large.chmod(0o755)
    path = use.write("box.aag", made(use, Path(f"{BOX}.qdimacs"), Path(f"{BOX}.qrp"), ()))
    formula = use.write("formula.qdimacs", Path(f"{BOX}.qdimacs").read_text().replace("p cnf 28 80", "p cnf 28 4080") + "1 2 3 -1 0\n" * 4000)
    environment: Any
    words: Any
    for what, words, environment in (
        ("the circuit", [f"{BOX}.qdimacs", f"{BOX}.qrp"], {"QRP_STRATEGY": str(large)}),
        ("the formula of a lost run", ["--verify", "--circuit", path, formula], {}),
    ):
        words = [*make, sys.executable, str(TOOL), *map(str, words)]
        ended = subprocess.run(words, env={**use.environment, **environment}, capture_output=True, text=True, check=False)
        use.expect(f"{what} and a full TMPDIR", ended, 2, "", f"{what} cannot be written to TMPDIR={use.temporary}: No space left on device")


PARTS = [
    try_examples,
    try_random_circuits,
    try_examples_verified,
    try_solvers,
    try_sat_solvers,
    try_smaller,
    try_wrong_circuits,
    try_no_variables,
    try_expressions,
    try_odd_names,
    try_buses,
    try_choices,
    try_gates,
    try_large,
    try_words,
    try_play,
    try_solve,
    try_full_folder,
]
WITHOUT_PROGRAM = [
    try_random_circuits,
    try_wrong_circuits,
    try_no_variables,
    try_expressions,
    try_odd_names,
    try_buses,
    try_choices,
    try_gates,
    try_large,
]
LEAST = 2065


def main() -> int:
    program = os.path.abspath(sys.argv[1])
    parts = PARTS
    if not (Path(program).parent / "qrp_strategy").is_file():
        skip("the circuits of proofs", "there is no qrp_strategy beside the program: 'make' builds it")
        parts = WITHOUT_PROGRAM
    for part in parts:
        with tempfile.TemporaryDirectory() as folder:
            part(Use(program, folder))
    return finish(LEAST)


if __name__ == "__main__":
    sys.exit(main())
