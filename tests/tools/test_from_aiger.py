"""Tests tools/from-aiger. usage: tests/tools/test_from_aiger.py PROGRAM ..; tests/tools/test-tools calls it.

Random circuits are written as ASCII and as binary AIGER. What their formulas say is compared with what a simulation of the circuit says of all
values of the inputs, for random patterns, roles of constraints and choices of what is asked, and so are their formulas of gates; and the names
that the gates have with the values that the simulation gives to outputs and bad states. The simulation shares no code with the tool. Each formula is read by PROGRAM. Then come the
questions that look like others, files that are wrong, and circuits in Verilog, if yosys is there.
"""

import contextlib
import gzip
import io
import itertools
import os
import random
import re
import runpy
import shutil
import subprocess
import sys
import tempfile
from collections.abc import Iterator, Sequence
from pathlib import Path
from typing import Any, Union

ROOT = Path(__file__).resolve().parents[2]
sys.path[:0] = [str(ROOT / "tests"), str(ROOT / "tools"), str(ROOT / "tests" / "tools")]
sys.dont_write_bytecode = True
from expect import expect, finish, skip  # noqa: E402
from qrptools.circuits.aiger import read_circuit  # noqa: E402
from qrptools.circuits.runs import Run  # noqa: E402
from qrptools.formula import Formula  # noqa: E402
from qrptools.names import Names  # noqa: E402
from gate_formulas import GateFormula  # noqa: E402
from random_proofs import truth  # noqa: E402

Ended = subprocess.CompletedProcess[Any]
Program = Union[str, Path]

TOOL = ROOT / "tools" / "from-aiger"
CIRCUITS = 1000
ALONE = 60  # of them by processes of their own, and in both forms
POOL = [
    ["a[0]", "a[1]", "b"],
    ["a[1]", "a[0]", "hole"],
    ["two words", "a[0]", "a0"],
    ["b", "a", "a[0]"],
    ["a[2]", "a[1]", "two_words"],
    ["*", "b", "a[0]"],
]
# What patterns mean, as one reads them.
MEANT = {
    "*": ["a[0]", "a[1]", "a[2]", "a", "a0", "b", "hole", "two words", "two_words"],
    "a": ["a[0]", "a[1]", "a[2]"],
    "a[0]": ["a[0]"],
    "a[1]": ["a[1]"],
    "a[1:0]": ["a[0]", "a[1]"],
    "a[0:1]": ["a[0]", "a[1]"],
    "a[2:1]": ["a[1]", "a[2]"],
    "a[*]": ["a[0]", "a[1]", "a[2]"],
    "a*": ["a[0]", "a[1]", "a[2]", "a0", "a"],
    "*[0]": ["a[0]"],
    "[abx]": ["a[0]", "a[1]", "a[2]", "a", "b"],
    "a[[]0]": ["a[0]"],
    "?": ["a[0]", "a[1]", "a[2]", "a", "b", "*"],
    "h?le": ["hole"],
    "two_words": ["two words"],
    "two words": ["two words"],
    "t*": ["two words", "two_words"],
    "b": ["b"],
}
WHOLE = {"a[1:0]", "a[0:1]", "a[2:1]"}  # patterns that mean nothing if a bit is missing


def meant_by(pattern: Any, names: Any) -> Any:
    """What a pattern means among these names."""
    if pattern in names:  # a name wins alone
        return {pattern}
    if pattern in WHOLE and not set(MEANT[pattern]) <= set(names):
        return set()
    return set(MEANT[pattern]) & set(names)


class Sample:
    """A random circuit, which can be written and simulated."""

    def __init__(self, seed: int) -> None:
        pick = random.Random(seed)
        self.inputs, self.latches = pick.randint(1, 3), pick.choice((0, 0, 1, 2))
        self.names = pick.choice(POOL)[: self.inputs] if pick.random() < 0.7 else None
        first = 2 * (self.inputs + self.latches + 1)
        self.gates = []
        for literal in range(first, first + 2 * pick.randint(0, 6), 2):
            self.gates.append((literal, *sorted((pick.randrange(literal), pick.randrange(literal)), reverse=True)))
        limit = first + 2 * len(self.gates)
        any_of = lambda most: [pick.randrange(limit) for _ in range(pick.randint(0, most))]
        self.next = [(pick.randrange(limit), pick.choice((0, 0, 1, None))) for _ in range(self.latches)]
        none: list[int] = []
        self.outputs, self.bads, self.constraints = any_of(2), pick.choice((none, any_of(2))), any_of(2)
        if not self.outputs and not self.bads:
            self.outputs = [pick.randrange(limit)]
        self.greatest = limit // 2 - 1

    def latch(self, place: Any) -> Any:
        return 2 * (self.inputs + place + 1)

    def text(self, is_binary: bool) -> bytes:
        counts = [self.greatest, self.inputs, self.latches, len(self.outputs), len(self.gates), len(self.bads), len(self.constraints)]
        counts = counts if counts[5:] != [0, 0] else counts[:5]
        lines = [" ".join(map(str, ["aig" if is_binary else "aag", *counts]))]
        lines += [] if is_binary else [str(2 * (place + 1)) for place in range(self.inputs)]
        for place, (following, reset) in enumerate(self.next):
            first: dict[Any, list[int]] = {0: [], 1: [1], None: [self.latch(place)]}
            words = [following, *first[reset]]
            lines.append(" ".join(map(str, words if is_binary else [self.latch(place), *words])))
        lines += map(str, [*self.outputs, *self.bads, *self.constraints])
        lines += [] if is_binary else [" ".join(map(str, gate)) for gate in self.gates]
        data = "".join(line + "\n" for line in lines).encode()
        if is_binary:
            data += b"".join(coded(gate[0] - gate[1]) + coded(gate[1] - gate[2]) for gate in self.gates)
        symbols = [f"i{place} {name}" for place, name in enumerate(self.names or [])]
        symbols += [f"o{place} good{place}" for place in range(len(self.outputs))] if self.names else []
        symbols += ["c", "i9 a comment"] if self.names else []
        return data + "".join(line + "\n" for line in symbols).encode()

    def input_names(self) -> Any:
        return self.names or [f"i{place}" for place in range(self.inputs)]

    def output_name(self, place: Any) -> Any:
        return f"good{place}" if self.names else f"o{place}"

    def run(self, steps: int, value_of: Any) -> Iterator[Any]:
        """The values of the literals in each step, by the value of an input (name, step)."""
        latches = {self.latch(place): bool(reset) if reset is not None else value_of(f"l{place}", 0) for place, (_, reset) in enumerate(self.next)}
        for step in range(steps):
            values = {0: False, **latches}
            values.update((2 * (place + 1), value_of(name, step)) for place, name in enumerate(self.input_names()))
            value = lambda literal, values=values: values[literal & ~1] != bool(literal & 1)
            for gate, one, other in self.gates:
                values[gate] = value(one) and value(other)
            yield value
            latches = {self.latch(place): value(following) for place, (following, _) in enumerate(self.next)}

    def wanted(self, asked: Any) -> Any:
        """What has to hold, each a literal and its value, by the names that are asked for; by none what is asked without them."""
        outputs = [(self.output_name(place), literal, True) for place, literal in enumerate(self.outputs)]
        bads = [(f"b{place}", literal, False) for place, literal in enumerate(self.bads)]
        return [row for row in outputs + bads if row[0] in asked] if asked else bads or outputs

    def holds(self, steps: int, value_of: Any, asked: Any, demanded: Any) -> bool:
        """Whether the circuit does what it has to do in these steps, if these constraints have to hold and the others are assumed."""
        for value in self.run(steps, value_of):
            if not all(value(literal) for place, literal in enumerate(self.constraints) if place not in demanded):
                return True
            if not all(value(self.constraints[place]) for place in demanded):
                return False
            if not all(value(literal) == right for _, literal, right in self.wanted(asked)):
                return False
        return True


def coded(number: int) -> Any:
    """A number as the binary form has it."""
    data = b""
    while number > 127:
        data, number = data + bytes([number & 127 | 128]), number >> 7
    return data + bytes([number])


def run(*words: object, **options: Any) -> Ended:
    return subprocess.run([sys.executable, TOOL, *map(str, words)], capture_output=True, check=False, timeout=60, **options)


def read_formula(text: str) -> tuple[Any, Any]:
    """The pairs of the prefix and the clauses of a formula."""
    lines = [line.split() for line in text.splitlines() if not line.startswith(("c", "p"))]
    pairs = [(line[0], int(word)) for line in lines if line[0] in "ae" for word in line[1:-1]]
    return pairs, [list(map(int, line[:-1])) for line in lines if line[0] not in "ae"]


MAIN = runpy.run_path(str(TOOL), run_name="from_aiger")["main"]


def called(words: Any) -> tuple[Any, Any, Any]:
    """The same by a call in this process: the status, what it prints, and what it says."""
    before, out, error = sys.argv, io.StringIO(), io.StringIO()
    sys.argv = [str(TOOL), *map(str, words)]
    try:
        with contextlib.redirect_stdout(out), contextlib.redirect_stderr(error):
            try:
                return MAIN(), out.getvalue(), error.getvalue()
            except Exception as fault:  # noqa: B902, a finding has its status
                return getattr(fault, "status", f"{fault!r}"), out.getvalue(), error.getvalue() + str(fault)
    finally:
        sys.argv = before


class Asked:
    """A random question about a sample: the words of the command line, and what they mean."""

    OPTIONS = {
        "--exists": ("e", 0, ""),
        "--forall": ("a", 0, ""),
        "--once": ("e", 1, "one"),
        "--once-forall": ("a", 1, "one"),
        "--blind": ("e", 1, ""),
    }

    def __init__(self, sample: Any, pick: random.Random) -> None:
        self.sample, self.steps = sample, pick.randint(1, 2) if sample.latches else 1
        self.free = [f"l{place}" for place, (_, reset) in enumerate(sample.next) if reset is None]
        self.outer: list[Any]
        self.rows: list[Any]
        self.words, self.rows, self.outer = ["--steps", str(self.steps)] if sample.latches else [], [], []
        for _ in range(pick.randint(0, 3)):
            self.bind(pick.choice([*self.OPTIONS, "--exists", "--forall"]), pick)
        names = [row[0] for row in sample.wanted({*(sample.output_name(place) for place in range(2)), "b0", "b1"})]
        self.asked = pick.sample(names, pick.randint(1, len(names))) if pick.random() < 0.3 else []
        self.words += [word for name in self.asked for word in ("--ask", name)]
        self.prefix = self.prefix_of()

    def bind(self, option: Any, pick: random.Random) -> None:
        names = self.sample.input_names()
        quantifier, is_outer, one = self.OPTIONS[option]
        found = [pattern for pattern in MEANT if meant_by(pattern, names)] if self.sample.names else [*names, "*", "i[0-9]"]
        pattern = pick.choice(found + (self.free if pick.random() < 0.3 else []))
        own = {pattern} if pattern in names or pattern in self.free else meant_by(pattern, names) if self.sample.names else set(names)
        if pattern == "*" and "*" not in names and not is_outer:
            own |= set(self.free)
        self.words += [option, pattern]
        (self.outer if is_outer else self.rows).append((quantifier, one, own))

    def prefix_of(self) -> Any:
        """The inputs in the order in which they have to be bound: quantifier, name and step, None if it has one value for all steps."""
        names, once = [*self.free, *self.sample.input_names()], set().union(*(own for _, one, own in self.outer if one))
        key = lambda name, step: (name, None if name in once else step)
        every = {key(name, step): None for step in range(self.steps) for name in names if step == 0 or name not in self.free}
        found: list[Any] = []
        for quantifier, _, own in self.outer:
            found += [(quantifier, *one) for one in every if one[0] in own and one not in [row[1:] for row in found]]
        for step in range(self.steps):
            for quantifier, _, own in [*self.rows, ("a", "", set(names))]:
                found += [(quantifier, *one) for one in every if one[0] in own and one[1] == step and one not in [row[1:] for row in found]]
        return found

    def value_of(self, values: Any) -> Any:
        return lambda name, step: values[name, None] if (name, None) in values else values[name, step]

    def is_true(self, demanded: Any, values: Any = ()) -> Any:
        """Whether the answer is yes, by trying all values."""
        if len(values) == len(self.prefix):
            given = {row[1:]: value for row, value in zip(self.prefix, values)}
            return self.sample.holds(self.steps, self.value_of(given), self.asked, demanded)
        answers = (self.is_true(demanded, (*values, value)) for value in (False, True))
        return any(answers) if self.prefix[len(values)][0] == "e" else all(answers)

    def players(self, constraint: Any) -> set[Any]:
        """The quantifiers of the inputs that a constraint really depends on, by trying all values."""
        tables = {}
        for values in itertools.product((False, True), repeat=len(self.prefix)):
            given = {row[1:]: value for row, value in zip(self.prefix, values)}
            tables[values] = [value(self.sample.constraints[constraint]) for value in self.sample.run(self.steps, self.value_of(given))]
        changed = lambda values, place: tuple(value != (place == at) for at, value in enumerate(values))
        return {row[0] for place, row in enumerate(self.prefix) for values in tables if tables[values] != tables[changed(values, place)]}


def shown(name: str, step: Any, steps: int) -> Any:
    name = "_".join(name.split())
    if steps == 1 or step is None:
        return name
    base, bracket, rest = name.partition("[")
    return f"{base}@{step}{bracket}{rest}"


def formula_of(words: Any, path: Path, seed: int, folder: Path) -> tuple[Any, Any, Any, Any]:
    """What the tool says of a circuit: the status, the formula, the names, and what it says. Of the first it is asked for both forms."""
    words = [*words, "--names", folder / "names"]
    if seed >= ALONE:
        status, text, said = called([*words, path])
    else:
        ended = run(*words, path)
        status, text, said = ended.returncode, ended.stdout.decode(), ended.stderr.decode()
    names = (folder / "names").read_text() if status == 0 else ""
    gates = re.search(r"exists (\d+) gates?:", said) if status == 0 else None
    rows, _, last = names.partition("# gates: ")
    count = int(gates[1]) if gates else 0
    told = re.search(r"; (\d+) variables?\n", said)
    variables = int(told[1]) if told and status == 0 else 0
    is_told = last == (f"{variables - count + 1} to {variables}\n" if count else "")
    expect(f"circuit {seed}: the names say which variables are gates", is_told, (names, said))
    return status, text, rows, said


def roles_of(question: Any, seed: int, path: Path, folder: Path, pick: random.Random) -> tuple[Any, Any]:
    """What is said of a circuit, with the constraints that have to hold. One that is neither assumed nor demanded by default is so by a word."""
    words, count = question.words, len(question.sample.constraints)
    if pick.random() < 0.2 and count:
        option = pick.choice(("--assume", "--demand"))
        return formula_of([*words, option, "c*"], path, seed, folder), set(range(count)) if option == "--demand" else set()
    found = formula_of(words, path, seed, folder)
    if found[0] == 1 and "which the existential player sets, and on" in found[3]:
        told = re.search(r"the constraint c(\d) depends on", found[3])
        assert told
        constraint = int(told[1])
        expect(f"circuit {seed}: a constraint that is refused has inputs of both players", {row[0] for row in question.prefix} == {"a", "e"}, found)
        option = pick.choice(("--assume", "--demand"))
        return formula_of([*words, option, "c*"], path, seed, folder), set(range(count)) if option == "--demand" else set()
    demanded = {int(place) for place in re.findall(r"the constraint c(\d) depends on \S.* alone, which", found[3])}
    for constraint in range(count):
        players = question.players(constraint)
        wrong = players & ({"a"} if constraint in demanded else {"e"})
        expect(f"circuit {seed}: constraint {constraint} is that of its player", not wrong, (question.words, demanded, players, found))
    return found, demanded


def propagated(clauses: Any, literals: Any) -> Any:
    """What these clauses leave if some literals are true: the literals that are then true."""
    true, is_new = set(literals), True
    while is_new:
        is_new = False
        for clause in clauses:
            left = [literal for literal in clause if -literal not in true]
            if len(left) == 1 and left[0] not in true:
                true.add(left[0])
                is_new = True
    return true


def names_are_right(question: Any, named: Any, pairs: Any, clauses: Any, gates: Any, pick: random.Random) -> tuple[Any, Any, Any, Any]:
    """Whether each gate with a name has the value that the simulation gives to what the name says, for random values of the inputs."""
    given = {row[1:]: pick.random() < 0.5 for row in question.prefix}
    calls = {shown(name, step, question.steps): value for (name, step), value in given.items()}
    inputs = [variable if calls[named[variable]] else -variable for _, variable in pairs if named.get(variable) in calls]
    true = propagated(clauses[: 3 * gates], inputs)
    steps = list(question.sample.run(question.steps, question.value_of(given)))
    sample = question.sample
    literals = {sample.output_name(place): literal for place, literal in enumerate(sample.outputs)}
    literals.update((f"{kind}{place}", literal) for kind, own in (("b", sample.bads), ("c", sample.constraints)) for place, literal in enumerate(own))
    wrong = []
    for variable, name in named.items():
        found = re.fullmatch(r"(not_)?([a-z]+\d)(?:_of_step_(\d))?'*", name)
        if found and name not in calls and found[2] in literals:
            value = steps[int(found[3] or 0)](literals[found[2]]) != bool(found[1])
            wrong += [] if (variable if value else -variable) in true else [name]
    return not wrong and len(true) == len(pairs), (wrong, named, given), given, true


def waves(text: str) -> Any:
    """The values of the signals of a waveform in each step, by the names of their bits."""
    steps: list[Any]
    widths, codes, now, steps = {}, {}, {}, []
    for line in text.splitlines():
        words = line.split()
        if words[0] == "$var" and words[1] == "wire":
            codes[words[3]] = (words[4], list(map(int, re.findall(r"\d+", words[5]))) if len(words) == 7 else None)
            widths[words[3]] = int(words[2])
        elif line.startswith("#"):
            steps.append({})
            assert line == f"#{10 * (len(steps) - 1)}", line
        elif words[0][0] in "01":
            now[codes[line[1:]][0]] = line[0] == "1"
        elif words[0][0] == "b" and words[1] in codes:
            name, ends = codes[words[1]]
            assert ends
            high, low = ends
            assert len(words[0]) == 1 + widths[words[1]] == 2 + high - low, line
            now.update((f"{name}[{high - place}]", value == "1") for place, value in enumerate(words[0][1:]) if value != "x")
        if steps:
            steps[-1] = dict(now)
    return steps[:-1]


def run_is_right(run: Any, question: Any, demanded: Any, used: Any, given: Any) -> tuple[Any, Any]:
    """Whether the files of a run have the values of the simulation, and its sentence says what is so."""
    sample = question.sample
    value_of = question.value_of({key: value and key[0] in used for key, value in given.items()})
    steps = list(sample.run(question.steps, value_of))
    rows = [[value_of(name, step) for name in sample.input_names()] for step in range(question.steps)]
    last, bads = question.steps - 1, []
    for place, value in enumerate(steps):
        if not all(map(value, sample.constraints)):
            break
        if any(map(value, sample.bads)):
            last, bads = place, [number for number, literal in enumerate(sample.bads) if value(literal)]
            break
    line = lambda values: "".join(str(int(value)) for value in values)
    wanted = [
        "1" if bads else "2",
        "".join(f"b{number}" for number in bads) or "b0",
        line(steps[0](sample.latch(place)) for place in range(sample.latches)),
    ]
    wanted += [*map(line, rows[: last + 1]), "."]
    found = waves("\n".join(run.waveform()))
    signals = {"_".join(name.split()): 2 * (place + 1) for place, name in enumerate(sample.input_names())}
    signals.update((f"l{place}", sample.latch(place)) for place in range(sample.latches))
    signals.update((sample.output_name(place), literal) for place, literal in enumerate(sample.outputs))
    signals.update((f"{kind}{place}", literal) for kind, own in (("b", sample.bads), ("c", sample.constraints)) for place, literal in enumerate(own))
    if "a" in signals:  # the bus beside it is called in another way
        signals.pop("a[0]", None)
    shown = [{name: value(literal) for name, literal in signals.items()} for value in steps]
    said, holds = run.sentence(), sample.holds(question.steps, value_of, question.asked, demanded)
    is_fine = "no bad state is reached" in said or "all outputs are true" in said or "the assumption" in said
    holds = list(run.stimulus()) == wanted and [{name: row[name] for name in signals} for row in found] == shown and is_fine == holds
    return holds, (said, list(run.stimulus()), wanted, found, shown)


def try_circuit(seed: int, program: Program, folder: Path, seen: Any) -> None:
    """The formula of a random circuit says what the simulation says, in both forms of the file, and its names are right."""
    sample, pick = Sample(seed), random.Random(-seed)
    question, path = Asked(sample, pick), folder / f"circuit{seed}"
    path.write_bytes(sample.text(False))
    (status, text, names, said), demanded = roles_of(question, seed, path, folder, pick)
    if not expect(f"circuit {seed}: a formula {question.words}", status == 0, (said, sample.text(False))):
        return
    if seed < ALONE:
        words: Any = [word for name in ("--assume", "--demand") for word in (name, "c*")] if not sample.constraints else []
        path.write_bytes(sample.text(True))
        other = ("--demand", "c*") if demanded and len(demanded) == len(sample.constraints) else ("--assume", "c*")
        words = other if sample.constraints and len(demanded) in (0, len(sample.constraints)) else ()
        if words or not sample.constraints:
            binary = formula_of([*question.words, *words], path, seed, folder)
            expect(f"circuit {seed}: both forms give one formula", binary[1:3] == (text, names), (binary, text))
        (folder / "formula").write_text(text)
        read = subprocess.run([program, "format", folder / "formula"], capture_output=True, check=False)
        expect(f"circuit {seed}: a formula for the program", read.returncode == 0, (read, text))
    path.write_bytes(sample.text(seed % 2 == 0))
    pairs, clauses = read_formula(text)
    named = {int(line.split()[0]): line.split()[1] for line in names.splitlines()}
    used = {name for _, name, step in question.prefix if shown(name, step, question.steps) in named.values()}
    prefix = [row for row in question.prefix if row[1] in used]  # an input is left out of all steps, or of none
    seen["dropped"] |= len(prefix) < len(question.prefix)
    found = [(quantifier, named.get(variable)) for quantifier, variable in pairs[: len(prefix)]]
    wanted = [(quantifier, shown(name, step, question.steps)) for quantifier, name, step in prefix]
    expect(f"circuit {seed}: the prefix {question.words}", blocks_in(found) == blocks_in(wanted), (found, wanted))
    expect(f"circuit {seed}: the rest are gates", all(quantifier == "e" for quantifier, _ in pairs[len(prefix) :]), pairs)
    answer = question.is_true(demanded)
    seen["answers"].add((answer, bool(demanded), bool(question.asked), bool(question.outer)))
    expect(f"circuit {seed}: what the formula says", truth(pairs, clauses) == answer, (question.words, text))
    gates = int((re.search(r"exists (\d+) gates?:", said) or [0, 0])[1])
    seen["names"] |= {name[:4] == "not_" for name in named.values()}
    holds, found, given, true = names_are_right(question, named, pairs, clauses, gates, pick)
    expect(f"circuit {seed}: the names", holds, found)
    if prefix:
        (folder / "formula").write_text(text)
        run = Run(read_circuit(str(path), path.read_bytes()), Names(str(folder / "names")), Formula(text.encode()), true)
        expect(f"circuit {seed}: a run", *run_is_right(run, question, demanded, used, given))
    if status == 0:
        expect(f"circuit {seed}: the formula of gates", *gates_are_right(question, demanded, answer, path, folder, given))
    path.unlink()


def gates_are_right(question: Any, demanded: Any, answer: Any, path: Path, folder: Path, given: Any) -> tuple[Any, Any]:
    """Whether the formula of gates of a circuit says what the simulation says, and its names have the values of the simulation."""
    roles = [word for place in range(len(question.sample.constraints)) for word in ("--demand" if place in demanded else "--assume", f"c{place}")]
    status, text, said = called([*question.words, *roles, "--qcir", "--names", folder / "gates", path])
    if status != 0:
        return False, (status, said)
    formula, sample = GateFormula(text), question.sample
    numbers = [name for _, name in formula.prefix] + [name for name, _, _ in formula.gates]
    named = {line.split()[1]: numbers[int(line.split()[0]) - 1] for line in (folder / "gates").read_text().splitlines()}
    inputs = {}  # what the formula calls an input
    for name, step in given:
        if shown(name, step, question.steps) in named:
            inputs[named[shown(name, step, question.steps)]] = given[name, step]
    found = formula.values(inputs)
    steps = list(sample.run(question.steps, question.value_of(given)))
    literals = {sample.output_name(place): literal for place, literal in enumerate(sample.outputs)}
    literals.update((f"{kind}{place}", literal) for kind, own in (("b", sample.bads), ("c", sample.constraints)) for place, literal in enumerate(own))
    wrong = []
    for name, own in named.items():
        called_so = re.fullmatch(r"([a-z]+\d)(?:_of_step_(\d))?'*", name)
        if own not in inputs and called_so and called_so[1] in literals:
            wrong += [] if found[own] == steps[int(called_so[2] or 0)](literals[called_so[1]]) else [name]
    wanted = [(quantifier, named.get(shown(name, step, question.steps))) for quantifier, name, step in question.prefix]
    holds = sample.holds(question.steps, question.value_of(given), question.asked, demanded)
    is_right = not wrong and blocks_in(formula.prefix) == blocks_in([row for row in wanted if row[1]]) and formula.holds(inputs) == holds
    return is_right and formula.truth() == answer, (wrong, text, question.words, given, answer)


def blocks_in(rows: Any) -> list[Any]:
    """The names by block: each a quantifier and a set."""
    return [(quantifier, {name for _, name in own}) for quantifier, own in itertools.groupby(rows, key=lambda row: row[0])]


def try_circuits(program: Program, folder: Path) -> None:
    seen: dict[str, Any] = {"answers": set(), "dropped": False, "names": set()}
    for seed in range(CIRCUITS):
        try_circuit(seed, program, folder, seen)
    expect("there are all kinds of questions, both answers, and inputs that are not used", len(seen["answers"]) == 16 and seen["dropped"], seen)
    expect("there are names of both signs", seen["names"] == {True, False})


HALF = "aag 3 2 0 1 1\n2\n4\n6\n6 4 2\ni0 x\ni1 y\no0 both\n"
LATCH = "aag 2 1 1 1 0\n2\n4 2\n4\n"
WRONG = [
    ("no circuit", "p cnf 1 1\n", "line 1: the file is no circuit in AIGER"),
    ("an empty file", "", "line 0", "byte 0: the file is no circuit"),
    ("a header that is too short", "aag 1 1 0 0\n", "line 1: the file is no circuit"),
    ("a header that is too long", "aag 0 0 0 0 0 0 0 0 0 0\n", "line 1: the file is no circuit"),
    ("too few variables", HALF.replace("aag 3", "aag 2"), "line 1: the header says 2 variables, and the inputs, latches and gates are 3"),
    ("a huge header", "aag 99999999999 0 0 1 0\n0\n", "the header has a number above"),
    ("justice", "aag 1 1 0 0 0 0 0 1\n2\n1\n2\n", "justice or fairness"),
    ("an odd input", HALF.replace("2\n4\n6\n", "3\n4\n6\n"), "line 2: input 0 has the literal 3, which is not an even number above 0"),
    ("an input twice", HALF.replace("2\n4\n6\n", "2\n2\n6\n"), "line 3: the literal 2 is defined twice, as input 0 and as input 1"),
    ("a gate that is an input", HALF.replace("6 4 2", "4 4 2"), "the literal 4 is defined twice, as input 1 and as gate 0"),
    ("an output above the greatest", HALF.replace("4\n6\n", "4\n8\n"), "line 4: the literal 8 is above 7"),
    ("a word in place of a number", HALF.replace("4\n6\n", "4\nx\n"), "line 4: output 0 is wanted, 1 number"),
    ("a gate of two numbers", HALF.replace("6 4 2", "6 4"), "line 5: gate 0 is wanted, 3 numbers"),
    ("a file that is cut", HALF[:20], "the file ends before gate 0"),
    ("an odd symbol", HALF.replace("i0 x", "x0 i"), "line 6: a symbol is wanted, such as 'i0 NAME'"),
    ("a symbol of nothing", HALF.replace("i1 y", "i2 y"), "line 7: there is no input 2"),
    ("two symbols of an input", HALF + "i0 z\n", "line 9: input 0 has two symbols"),
    ("a number of thousands of digits", HALF.replace("aag 3", f"aag {'3' * 5000}"), "line 1: the file is no circuit in AIGER"),
    (
        "a literal that is nothing",
        HALF.replace("aag 3 2", "aag 4 2").replace("6 4 2", "6 8 2"),
        "the literal 8 is used, and neither an input nor a latch nor a gate",
    ),
    ("gates in a circle", "aag 2 0 0 1 2\n2\n2 4 1\n4 2 1\n", "a gate depends on itself"),
    ("a gate of itself", "aag 1 0 0 1 1\n2\n2 2 1\n", "a gate depends on itself"),
    ("an odd beginning of a latch", LATCH.replace("4 2\n", "4 2 3\n"), "latch 0 begins with 3, which is not 0, 1 or its literal 4"),
    ("latches without steps", LATCH, "the circuit has 1 latch: say by --steps N"),
    ("nothing to ask", "aag 1 1 0 0 0\n2\n", "neither outputs nor bad states"),
    ("two inputs of one name", HALF.replace("i1 y", "i1 x"), "two inputs are called 'x'"),
    ("a binary file that is cut", b"aig 3 2 0 1 1\n6\n\x02", "the file ends before gate 0"),
    ("a binary gate of later ones", b"aig 3 2 0 1 1\n6\n\x00\x7f", "gate 0 has an input that comes after it"),
    ("a binary number that is too long", b"aig 3 2 0 1 1\n6\n\xff\xff\xff\xff\xff\xff\xff", "gate 0 has a number that is too long"),
    ("a binary header with more variables", b"aig 4 2 0 1 1\n6\n\x02\x02", "the header says 4 variables"),
]


def try_wrong(folder: Path) -> None:
    """What is no circuit, or not one that is taken, is refused with its place."""
    path = folder / "wrong"
    said: Any
    for name, data, *said in WRONG:
        path.write_bytes(data if isinstance(data, bytes) else str(data).encode())
        ended = run(path)
        holds = ended.returncode == 1 and not ended.stdout and said[-1] in ended.stderr.decode() and b"Traceback" not in ended.stderr
        expect(f"wrong: {name}", holds, ended)
    path.write_text(HALF)
    words: Any
    for words, status, said in (
        (["--exists", "z*"], 1, "no input is called 'z*'; the inputs are x, y"),
        (["--once", "both"], 1, "no input is called 'both'"),
        (["--steps", "0"], 2, "'0' is not a number of steps"),
        (["--steps", "x"], 2, "'x' is not a number of steps"),
        (["--names", folder / "none" / "x"], 2, "none/x cannot be written: No such file or directory"),
        (["--names", folder], 2, "cannot be written: Is a directory"),
        (["--exists"], 2, "the following arguments are required: FILE"),
    ):
        ended = run(*words, path)
        expect(f"wrong: {words}", ended.returncode == status and not ended.stdout and said in ended.stderr.decode(), ended)
    expect("nothing is left beside the names", not list(folder.glob("*.new")), list(folder.iterdir()))


def try_text(folder: Path) -> None:
    """The whole formula of a gate, what is said of it, and what constants leave."""
    path = folder / "half"
    path.write_text(HALF)
    ended = run("--exists", "x", "--names", folder / "names", path)
    expect("the names of a gate", (folder / "names").read_text() == "1 x\n2 y\n3 both\n# gates: 3 to 3\n", (folder / "names").read_text())
    path.write_text(HALF.replace("4\n6\n", "4\n7\n").replace("i1 y", "i1 both").replace("i0 x", "i0 -5 a"))
    run("--names", folder / "names", path)
    expect(
        "names that are taken or no names",
        (folder / "names").read_text() == "1 _-5_a\n2 both\n3 not_both\n# gates: 3 to 3\n",
        (folder / "names").read_text(),
    )
    path.write_text(HALF)
    ended = run("--exists", "x", path)
    wanted = "c 'half': the outputs are true\nc exists x, for all y, exists 1 gate: 1 clause of what has to hold\nc clause 4: both holds\n"
    wanted += "p cnf 3 4\ne 1 0\na 2 0\ne 3 0\n-3 1 0\n-3 2 0\n3 -1 -2 0\n3 0\n"
    expect("the formula of a gate", ended.stdout.decode() == wanted, ended)
    expect(
        "what is said of it",
        ended.stderr.decode() == f"{TOOL}: exists x, for all y, exists 1 gate: 1 clause of what has to hold; 3 variables\n",
        ended,
    )
    for text, wanted, said in (
        ("aag 1 1 0 1 0\n2\n1\n", "p cnf 0 0\n", "no variable: 0 clauses of what has to hold; 0 variables\n"),
        ("aag 1 1 0 1 0\n2\n0\n", "p cnf 0 1\n0\n", "o0 cannot hold, whatever the inputs are\n"),
        ("aag 2 1 0 1 1\n2\n4\n4 3 2\n", "p cnf 0 1\n0\n", "o0 cannot hold"),
        ("aag 2 2 0 1 0\n2\n4\n5\ni0 clk\n", "p cnf 1 1\na 1 0\n-1 0\n", "not used, and left out: clk\n"),
        ("aag 0 0 0 1 0\n1\n", "p cnf 0 0\n", ""),
    ):
        path.write_text(text)
        ended = run(path)
        formula = "".join(line for line in ended.stdout.decode().splitlines(True) if not line.startswith("c"))
        expect(f"the formula of {text!r}", (ended.returncode, formula) == (0, wanted) and said in ended.stderr.decode(), ended)


NOT_BOTH = "aag 3 2 0 0 1 1 0\n2\n4\n7\n6 2 4\ni0 x\ni1 y\nb0 crash\n"
# h[1:0], h0 and a: h[1] and h[0] have to be a, not a
BUS = "aag 6 4 0 1 2\n2\n4\n6\n8\n12\n10 2 8\n12 11 6\ni0 h[0]\ni1 h[1]\ni2 h0\ni3 a\no0 ok\n"
# a register without a first value, p <= p ^ x, which has to be 0 in step 2
PARITY = "aag 8 1 3 0 4 1\n2\n4 14 4\n6 1\n8 6\n16\n10 4 2\n12 5 3\n14 13 11\n16 8 4\ni0 x\nl0 p\n"
# the same by yosys: what x has to be in step 1 is the first value
INITIAL = "aag 8 2 2 0 4 1\n2\n4\n6 4\n8 1\n16\n10 6 2\n12 7 3\n14 13 11\n16 14 8\ni0 x\ni1 init:p\n"
# h must not be 3, and ok is h == 3
ASSUMED = "aag 3 2 0 1 1 0 1\n2\n4\n6\n7\n6 2 4\ni0 h[0]\ni1 h[1]\no0 ok\nc0 allowed\n"
MIXED = "aag 3 2 0 1 1 0 1\n2\n4\n2\n7\n6 2 4\ni0 h\ni1 a\no0 ok\nc0 allowed\n"
TWO = "aag 3 3 0 2 0\n2\n4\n6\n2\n5\ni0 h\ni1 a\ni2 d\no0 ok\no1 debug[0]\n"


def asked(text: str, *words: object, folder: Path) -> tuple[Any, Any, Any, Any]:
    """The status, the formula without comments, the names, and what is said."""
    path = folder / "asked"
    path.write_text(text)
    status, formula, names, said = formula_of(words, path, CIRCUITS, folder)
    return status, "".join(line for line in formula.splitlines(True) if not line.startswith("c")), names, said.replace(f"{TOOL}: ", "")


def answer_of(text: str, *words: object, folder: Path) -> Any:
    """The answer to a question, by trying all values."""
    return truth(*read_formula(asked(text, *words, folder=folder)[1]))


def try_names(folder: Path) -> None:
    """Names say what is so: a gate is called by the bad state that it is, and clauses say that it is false."""
    status, _, names, said = asked(NOT_BOTH, "--exists", "*", folder=folder)
    expect("a bad state that is the negation of a gate", names == "1 x\n2 y\n3 not_crash\n" and "asked: crash is false\n" in said, (names, said))
    names = asked(NOT_BOTH.replace("\n7\n", "\n6\n"), folder=folder)[2]
    expect("a bad state that is a gate", names == "1 x\n2 y\n3 crash\n", names)
    ended: Any = called(["--exists", "*", folder / "asked"])
    expect("the comment on a bad state", "c clause 4: crash is false\n" in ended[1], ended)
    said = asked("aag 1 1 0 0 0 1\n2\n1\n", folder=folder)[3]
    expect("a bad state that is true", "b0 cannot be false, whatever the inputs are" in said, said)
    for name, wanted in (("  ", "i0"), ("my hole", "my_hole"), ("caf\u00e9", "caf\u00e9")):
        path = folder / "named"
        path.write_bytes(f"aag 1 1 0 1 0\n2\n2\ni0 {name}\n".encode())
        variables: Any
        for variables in {}, {"LC_ALL": "POSIX", "PYTHONUTF8": "0", "PYTHONCOERCECLOCALE": "0"}:
            ended = run("--exists", wanted, "--names", folder / "names", path, env={**os.environ, **variables})
            names, formula = (folder / "names").read_bytes().decode(), ended.stdout.decode()
            expect(f"the symbol {name!r} {variables}", (ended.returncode, names) == (0, f"1 {wanted}\n") and "e 1 0" in formula, (ended, names))


def try_patterns(folder: Path) -> None:
    """A pattern with brackets means bits, and a name wins alone."""
    for pattern, sets in (
        ("h[0]", "e 1 0\na 2 3 4 0\n"),
        ("h[1:0]", "e 1 2 0\na 3 4 0\n"),
        ("h[*]", "e 1 2 0\na 3 4 0\n"),
        ("h*[1]", "e 1 0\na 2 3 4 0\n"),
        ("h", "e 1 2 0\na 3 4 0\n"),
        ("h0", "e 1 0\na 2 3 4 0\n"),
        ("h*", "e 1 2 3 0\na 4 0\n"),
        ("[ha]", "e 1 2 3 0\na 4 0\n"),
    ):
        text = (
            BUS.replace("12 11 6", "12 11 4").replace("10 2 8", "10 6 8").replace("6 4 0 1 2", "6 4 0 4 2").replace("\n8\n12\n", "\n8\n12\n2\n4\n6\n")
        )
        found = asked(text, "--exists", pattern, folder=folder)[1].partition("e 5 ")[0].partition("\n")[2]
        expect(f"the pattern {pattern}", found == sets, (pattern, found))
    status, _, _, said = asked(BUS, "--exists", "h[2:0]", folder=folder)
    expect("a slice of bits that are not there", status == 1 and "no input is called 'h[2]'; yosys counts the bits of a bus from 0" in said, said)
    status, _, _, said = asked(BUS, "--exists", "h[7]", folder=folder)
    expect("a bit that is not there", status == 1 and "no input is called 'h[7]'" in said, said)


def try_order(folder: Path) -> None:
    """What is bound outermost: a plan of all steps, values of all steps for either player; and what is said if a plan may see a first value."""
    words = ["--steps", "3"]
    status, _, _, said = asked(PARITY, *words, "--exists", "x", folder=folder)
    expect("a plan that may see a first value is told", "warning: x@1 comes after the first value of p, so it may depend on it" in said, said)
    expect("a plan that sees a first value", answer_of(PARITY, *words, "--exists", "x", folder=folder))
    said = asked(PARITY, *words, "--blind", "x", folder=folder)[3]
    expect("a plan that sees nothing: the prefix", "exists x@0 x@1" in said.split("for all p@0")[0] and "warning" not in said, said)
    expect("a plan that sees nothing", not answer_of(PARITY, *words, "--blind", "x", folder=folder))
    expect("a pattern does not take a first value outermost", not answer_of(PARITY, *words, "--once", "*", folder=folder))
    said = asked(PARITY, *words, "--exists", "*", folder=folder)[3]
    expect("a first value that is existential is told", "warning: the first value of p is existential" in said, said)
    said = asked(INITIAL, "--steps", "2", "--exists", "x", folder=folder)[3]
    expect("an input of yosys is a first value", "warning: x@1 comes after the first value of init:p" in said, said)
    wanted: Any
    for option, wanted in ("--exists", True), ("--blind", False):
        expect(f"an input of yosys: {option}", answer_of(INITIAL, "--steps", "2", option, "x", folder=folder) == wanted)
    for options, wanted in (
        (["--once-forall", "h", "--exists", "a"], "for all h, exists a@0, exists a@1"),
        (["--once", "a", "--once-forall", "h"], "exists a, for all h"),
        (["--once-forall", "h", "--blind", "a"], "for all h, exists a@0 a@1"),
    ):
        text = "aag 5 2 1 1 2\n2\n4\n6 2\n10\n8 4 3\n10 9 7\ni0 h\ni1 a\n"
        said = asked(text, "--steps", "2", *options, folder=folder)[3]
        expect(f"outermost: {options}", said.startswith(wanted), said)


def try_constraints(folder: Path) -> None:
    """A constraint that the existential player alone can break is this player's duty, and one of both players needs a word."""
    status, _, _, said = asked(ASSUMED, "--exists", "h", folder=folder)
    expect("a duty is told", "warning: the constraint allowed depends on h alone, which the existential player sets, so it has to hold" in said, said)
    expect("a duty is no way out", not answer_of(ASSUMED, "--exists", "h", folder=folder))
    expect("a constraint that is assumed is", answer_of(ASSUMED, "--exists", "h", "--assume", "allowed", folder=folder))
    expect("a constraint on universal inputs is assumed", answer_of(ASSUMED.replace("\n6\n7\n", "\n6\n6\n"), folder=folder))
    said = asked(ASSUMED, folder=folder)[3]
    expect("what is assumed is told", "asked: ok is true; as long as allowed holds\n" in said, said)
    status, formula, _, said = asked(MIXED, "--exists", "h", folder=folder)
    wanted: Any = (
        "the constraint allowed depends on h, which the existential player sets, and on a, which the other one sets: say by --demand allowed"
    )
    expect("a constraint of both players is refused", status == 1 and not formula and wanted in said, said)
    for option, wanted in ("--assume", True), ("--demand", False):
        expect(f"a constraint of both players by {option}", answer_of(MIXED, "--exists", "h", option, "allowed", folder=folder) == wanted)
    status, _, _, said = asked(MIXED, "--assume", "allowed", "--demand", "*", folder=folder)
    expect("both roles", status == 1 and "the constraint allowed is both assumed and demanded" in said, said)


def try_asked(folder: Path) -> None:
    """What is asked is chosen and named, and so is what is not."""
    said = asked(TWO, folder=folder)[3]
    expect("all outputs", "asked: ok debug are true\n" in said and "not asked" not in said, said)
    said = asked(TWO, "--ask", "ok", folder=folder)[3]
    expect("one output", "asked: ok is true\n" in said and "not asked: output debug" in said and "1 clause" in said, said)
    text = TWO.replace("2 0\n2\n4", "2 0 1\n2\n4").replace("\n5\n", "\n5\n4\n")
    said = asked(text, folder=folder)[3]
    expect("outputs beside a bad state are told", "asked: b0 is false\n" in said and "not asked: outputs ok debug\n" in said, said)
    said = asked(text, "--ask", "ok", "--ask", "b*", folder=folder)[3]
    expect("an output and a bad state", "asked: ok is true, b0 is false\n" in said, said)
    status, _, _, said = asked(text, "--ask", "no", folder=folder)
    expect("what is not there", status == 1 and "no output or bad state is called 'no'; the output or bad states are b0, ok, debug[0]" in said, said)
    said = asked("aag 1 1 0 1 0 0 0 1 1\n2\n2\n1\n2\n2\n", folder=folder)[3]
    expect("justice and fairness beside an output", "not asked: 1 justice property, 1 fairness constraint\n" in said and "1 clause" in said, said)


def try_summary(folder: Path) -> None:
    """The prefix shows bits of a bus that is split, and all of it if that is asked for."""
    said = asked(BUS.replace("12 11 6", "12 11 4"), "--exists", "h[1]", folder=folder)[3]
    expect("a bus that is split", said.startswith("exists h[1], for all h[0] a, "), said)
    names = "".join(f"i{place} n{place}\n" for place in range(20))
    text = f"aag 20 20 0 20 0\n{''.join(f'{2 * place + 2}{chr(10)}' for place in range(20)) * 2}{names}"
    short, whole = (asked(text, *words, folder=folder)[3] for words in ((), ("--summary",)))
    expect("many names", "n11 and 8 more:" in short and "n19:" in whole, (short, whole))
    short, whole = (asked(LATCH, "--steps", "20", *words, folder=folder)[3] for words in ((), ("--summary",)))
    expect("many blocks", "and 14 more blocks" in short and "i0@19:" in whole, (short, whole))


def try_files(folder: Path) -> None:
    """A circuit may be compressed, and come by the standard input."""
    path = folder / "half.gz"
    path.write_bytes(gzip.compress(HALF.encode()))
    ended, plain = run(path), run("-", input=HALF.encode())
    expect("a compressed circuit", ended.returncode == 0 and b"p cnf 3 4" in ended.stdout, ended)
    expect("the standard input", plain.returncode == 0 and plain.stdout.partition(b"p cnf")[2] == ended.stdout.partition(b"p cnf")[2], plain)
    path.write_bytes(gzip.compress(HALF.encode())[:-6])
    ended = run(path)
    expect("a compressed circuit that is cut", ended.returncode == 2 and not ended.stdout and b"cannot be unpacked" in ended.stderr, ended)


def try_steps(folder: Path) -> None:
    """What is said of many steps is short."""
    path = folder / "latch"
    path.write_text(LATCH)
    for steps, said in (
        (1, "no variable: 1 clause of what has to hold; 0 variables"),
        (3, "for all i0@0, for all i0@1, for all i0@2: 3 clauses of what has to hold; 3 variables"),
        (1000, "for all i0@4, for all i0@5, and 994 more blocks in this way: 1000 clauses of what has to hold; 1000 variables"),
    ):
        ended = run("--steps", steps, path)
        expect(f"{steps} steps", ended.returncode == 0 and ended.stderr.decode().splitlines()[0].endswith(said), ended.stderr)


ARBITER = ROOT / "examples" / "arbiter"
STEPS = ["--steps", "3", "--forall", "r*", "--exists", "g*"]
GRANTS = ["ga@0 !gb@0", "ga@1 !gb@1", "!ga@2 !gb@2"]  # b asks for the bus in step 0 and in step 1
WITNESS = "1\nb3\n00\n01110\n01110\n.\n"


def tool(name: str, *words: object) -> Ended:
    return subprocess.run([sys.executable, ROOT / "tools" / name, *map(str, words)], capture_output=True, text=True, check=False, timeout=60)


def constant_strategy(folder: Path, circuit: Any, *more: Any) -> tuple[Any, Any, Any]:
    """The formula of the arbiter, its names, and as a circuit of the universal player: everybody asks, in each step."""
    formula, names, strategy = folder / "runs.q", folder / "runs.names", folder / "runs.aag"
    formula.write_bytes(run(*STEPS, *more, "--names", names, circuit).stdout)
    pairs, _ = read_formula(formula.read_text())
    inputs, outputs = ([variable for quantifier, variable in pairs if quantifier == wanted] for wanted in "ea")
    lines = [f"aag {len(inputs)} {len(inputs)} 0 {len(outputs)} 0", *(str(2 * place) for place in range(1, len(inputs) + 1)), *["1"] * len(outputs)]
    lines += [f"{kind}{place} {variable}" for kind, variables in (("i", inputs), ("o", outputs)) for place, variable in enumerate(variables)]
    strategy.write_text("".join(f"{line}\n" for line in lines))
    return formula, names, strategy


def try_runs(folder: Path) -> None:
    """A play to the end is run in the circuit: the line says what happens in which step, and the files have it for other programs."""
    circuit = ARBITER / "arbiter.aag"
    formula, names, strategy = constant_strategy(folder, circuit)
    stim, wave = folder / "run.stim", folder / "run.vcd"
    words = ["--names", names, "--model", circuit, "--stim", stim, "--vcd", wave]
    replies = [word for reply in GRANTS for word in ("--reply", reply)]
    ended = tool("play", *words, *replies, "--strategy", strategy, formula)
    said = "in a simulation, in step 1 of 0 to 2: the bad state b3 is true\n"
    expect("a play that is run", ended.returncode == 0 and ended.stdout.endswith(said), ended)
    expect("a play that is run: the witness", stim.read_text() == WITNESS, stim.read_text())
    found = [{name: row[name] for name in ("ga", "gb", "waits_b", "b3")} for row in waves(wave.read_text())]
    wanted: Any = [(True, False, False, False), (True, False, True, True), (False, False, True, False)]
    expect("a play that is run: the wave", [tuple(row.values()) for row in found][:2] == wanted[:2] and len(found) == 3, found)
    as_json = tool("play", "--json", *words, *replies, "--strategy", strategy, formula)
    expect("a play that is run, as JSON", '"run": "in a simulation, in step 1 of 0 to 2: the bad state b3 is true"' in as_json.stdout, as_json)
    before = stim.read_text(), wave.read_text()
    stim.unlink()
    wave.unlink()
    shown_run = tool("explain-strategy", *words, *replies, "--circuit", strategy, formula)
    expect("the run of a strategy", shown_run.returncode == 0 and shown_run.stdout == said, shown_run)
    expect("the run of a strategy: its files", (stim.read_text(), wave.read_text()) == before)
    serving = [word for reply in ("ga@0 !gb@0", "!ga@1 gb@1", "ga@2 !gb@2") for word in ("--reply", reply)]
    ended = tool("play", *words, *serving, "--strategy", strategy, formula)
    expect(
        "a run without a bad state", ended.returncode == 1 and ended.stdout.endswith("in a simulation of 3 steps no bad state is reached\n"), ended
    )
    expect("a run without a bad state: the file", stim.read_text() == "2\nb0\n00\n01110\n01101\n01110\n.\n", stim.read_text())
    name: Any
    options: Any
    for name, options, status, wanted in (
        ("a play that stops", [*words, "--strategy", strategy, formula], 2, "so there is no run of the model: give a --reply for each"),
        ("no names", [*words[2:], "--strategy", strategy, formula], 2, "--model goes with --names"),
        ("no model", ["--vcd", wave, "--strategy", strategy, formula], 2, "--stim, --vcd and --map go with --model"),
        ("no circuit", [*words[:3], names, *replies, "--strategy", strategy, formula], 1, "the file is no circuit"),
        (
            "another circuit",
            [*words[:3], ROOT / "examples/average/average.aag", *replies, "--strategy", strategy, formula],
            1,
            "no input of the circuit is a",
        ),
        ("no folder", [*words[:5], folder / "none" / "x", *replies, "--strategy", strategy, formula], 2, "x cannot be written"),
    ):
        ended = tool("play", *options)
        expect(f"a run: {name}", ended.returncode == status and wanted in ended.stderr and "Traceback" not in ended.stderr, ended)
    for name, options, wanted in (
        ("no value of the other player", [*words, "--reply", "ra@0", "--circuit", strategy, formula], "'ra@0' is no value of the other player"),
        ("no model", ["--reply", "ga@0", "--circuit", strategy, formula], "--reply goes with --model"),
        ("a format", [*words, "--format", "aag", "--circuit", strategy, formula], "--only, --block, --only-free and --format do not go with it"),
    ):
        ended = tool("explain-strategy", *options)
        expect(f"the run of a strategy: {name}", ended.returncode == 2 and wanted in ended.stderr, ended)
    other = folder / "other.aag"
    other.write_text(circuit.read_text().replace("\n8 ", "\n10 ", 0).replace("i1 ra\ni2 rb", "i1 rb\ni2 ra").replace("i3 ga\ni4 gb", "i3 gb\ni4 ga"))
    ended = tool("play", "--names", names, "--model", other, *replies, "--strategy", strategy, formula)
    expect("a run: a circuit with other names", ended.returncode == 1 and "the formula or its names are of another circuit" in ended.stderr, ended)


def try_lost_run(program: Program, folder: Path) -> None:
    """A strategy that does not win is shown to lose in the circuit."""
    if not shutil.which("depqbf"):
        skip("a run that is lost", "there is no depqbf")
        return
    circuit, wave = ARBITER / "arbiter.aag", folder / "lost.vcd"
    formula, names, strategy = constant_strategy(folder, circuit)
    words = ["--verify", "--names", names, "--model", circuit, "--vcd", wave, "--circuit", strategy, formula]
    os.environ["QRP_CMD"] = str(program)
    ended = tool("explain-strategy", *words)
    said = "in a simulation of 3 steps no bad state is reached\n"
    expect("a run that is lost", ended.returncode == 1 and ended.stdout == said and "the circuit does not win: with " in ended.stderr, ended)
    steps = waves(wave.read_text())
    expect("a run that is lost: its wave", len(steps) == 3 and all(row["ra"] and row["rb"] and row["ga"] != row["gb"] for row in steps), steps)


def try_replay(folder: Path) -> None:
    """yosys makes a map with the lines of assertions, and simulates the witness in the Verilog itself; GTKWave's reader takes the wave."""
    if not shutil.which("yosys"):
        skip("a run in the Verilog", "there is no yosys")
        return
    read = f"read_verilog -formal {ARBITER}/arbiter.v"
    made: Any = f"{read}; synth -flatten -top arbiter; async2sync; dffunmap; aigmap; write_aiger -symbols -zinit"
    for option in "-vmap", "-map":
        subprocess.run(["yosys", "-q", "-p", f"{made} {option} {folder}/arbiter{option} {folder}/arbiter.aig"], capture_output=True, check=False)
    lines = ["--map", folder / "arbiter-vmap"]
    formula, names, strategy = constant_strategy(folder, folder / "arbiter.aig", *lines)
    stim, wave = folder / "run.stim", folder / "run.vcd"
    replies = [word for reply in GRANTS for word in ("--reply", reply)]
    words = ["--names", names, "--model", folder / "arbiter.aig", *lines, "--stim", stim, "--vcd", wave, *replies, "--strategy", strategy, formula]
    ended = tool("play", *words)
    expect("the line of an assertion", "in step 1 of 0 to 2: the bad state arbiter.v:13_fails is true\n" in ended.stdout, ended)
    shutil.copy(stim, folder / "run.aiw")
    replay = f"{read}; prep -flatten -top arbiter; sim -clock clk -r {folder}/run.aiw -map {folder}/arbiter-map"
    said = subprocess.run(["yosys", "-p", replay], capture_output=True, text=True, check=False)
    failed = set(re.findall(r"arbiter\.v:(\d+)\S* \(\S*\) failed", said.stdout + said.stderr))
    expect("the witness in the Verilog", failed == {"13"} and stim.read_text() == WITNESS, said)
    ended = run(*STEPS, "--map", names, folder / "arbiter.aig")
    expect("a file that is no map", ended.returncode == 1 and b"is no map of yosys with wires" in ended.stderr, ended)
    source = folder / "assumed.v"
    lines = ["module assumed(input a, input b, input e, input h);", "always @* if (e) assert(a | h);", "always @* assume(a | b);", "endmodule"]
    source.write_text("".join(f"{line}\n" for line in lines))
    script = f"read_verilog -formal {source}; synth -flatten -top assumed; aigmap; write_aiger -symbols -vmap {folder}/vmap {folder}/assumed.aig"
    subprocess.run(["yosys", "-q", "-p", script], capture_output=True, check=False)
    ended = run("--exists", "h", "--map", folder / "vmap", folder / "assumed.aig")
    wanted = b"asked: assumed.v:2_fails is false; as long as assumed.v:3 holds\n"
    expect("the lines of an assertion that is asked at times, and of an assumption", wanted in ended.stderr, ended)
    if not shutil.which("vcd2fst"):
        skip("the wave for GTKWave", "there is no vcd2fst")
        return
    made = subprocess.run(["vcd2fst", wave, folder / "run.fst"], capture_output=True, text=True, check=False)
    again = subprocess.run(["fst2vcd", folder / "run.fst"], capture_output=True, text=True, check=False)
    expect(
        "the wave for GTKWave", made.returncode == 0 and "arbiter.v:13_fails" in again.stdout and "#10\n" in again.stdout, (made, again.stdout[-500:])
    )


def try_verilog(folder: Path) -> None:
    """The circuit of docs/TUTORIAL.md, by yosys: the hole is filled, and the answer is right by a simulation."""
    if not shutil.which("yosys"):
        skip("a circuit in Verilog", "there is no yosys")
        return
    source = ROOT / "examples" / "average" / "average.v"
    script = f"read_verilog {source}; synth -flatten -top average; aigmap; write_aiger -symbols {folder}/average.aig"
    made = subprocess.run(["yosys", "-q", "-p", script], capture_output=True, check=False)
    ended = run("--exists", "h_*", "--names", folder / "average.names", folder / "average.aig")
    expect("yosys, and the formula", made.returncode == 0 and ended.returncode == 0, (made, ended))
    again = run("--exists", "h_*", ROOT / "examples" / "average" / "average.aag")
    sizes = [ended.stdout.decode().partition("p cnf ")[2].split("\n")[1:3] for ended in (ended, again)]
    expect("the stored circuit has the same question", sizes[0] == sizes[1], sizes)
    script = f"read_verilog -formal {ROOT}/examples/arbiter/arbiter.v; synth -flatten -top arbiter; async2sync; dffunmap; aigmap; write_aiger -symbols -zinit {folder}/arbiter.aig"
    made = subprocess.run(["yosys", "-q", "-p", script], capture_output=True, check=False)
    words = ["--steps", "3", "--forall", "r*", "--exists", "g*"]
    paths = folder / "arbiter.aig", ROOT / "examples" / "arbiter" / "arbiter.aag"
    sets = [run(*words, path).stdout.decode().partition("p cnf ")[2].split("\n")[1:6] for path in paths]
    wanted = ["a 1 2 0", "e 3 4 0", "a 5 6 0", "e 7 8 0", "a 9 10 0"]
    expect("yosys, registers and assertions", made.returncode == 0 and sets == [wanted, wanted], (made, sets))


def main() -> int:
    program = os.path.abspath(sys.argv[1])
    with tempfile.TemporaryDirectory() as name:
        folder = Path(name)
        try_circuits(program, folder)
        try_wrong(folder)
        try_text(folder)
        for case in try_names, try_patterns, try_order, try_constraints, try_asked, try_summary, try_files, try_steps:
            case(folder)
        for case in try_runs, try_replay, try_verilog:
            case(folder)
        try_lost_run(program, folder)
    return finish(8736)


if __name__ == "__main__":
    sys.exit(main())
