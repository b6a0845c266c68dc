"""Tests what tools/explain finds of steps, and tools/draw-proof. usage: tests/tools/test_steps.py PROGRAM LIST UNREADABLE

tests/tools/test-tools calls it. LIST has rows of flag, formula, trace and line; of these the ones are tried that refuse a step or verify.
UNREADABLE has the rows that cannot be read, and should be empty.
"""

import os
import random
import re
import shutil
import subprocess
import sys
import tempfile
from collections.abc import Iterable, Iterator, Sequence, Set
from pathlib import Path
from typing import Any, Optional, Union

ROOT = Path(__file__).resolve().parents[2]
sys.path[:0] = [str(ROOT / "tests"), str(ROOT / "tools")]
sys.dont_write_bytecode = True
from expect import expect, finish, skip  # noqa: E402
from qrptools.core import Core, is_needed  # noqa: E402
from qrptools.explaining.find_steps import find_near  # noqa: E402
from qrptools.formula import UNBOUND, Formula  # noqa: E402
from qrptools.explaining.show import find_step  # noqa: E402
from qrptools.step_rules import SIDES, distance, judge, missed_clauses, nearest_clause  # noqa: E402
from qrptools.steps import Trace  # noqa: E402
from random_proofs import random_formula  # noqa: E402

Ended = subprocess.CompletedProcess[Any]
Program = Union[str, Path]

EXPLAIN = ROOT / "tools" / "explain"
DRAW = ROOT / "tools" / "draw-proof"
EXAMPLES = sorted(folder for folder in (ROOT / "examples").iterdir() if (folder / "make-formula").exists())
FAULTS = {f"S{n}" for n in range(1, 13)}
# Of the damages of a proof the first twenty are tried, and every so many of the others.
EVERY = 16


def run(script: Path, *words: object, program: Program) -> Ended:
    environment = dict(os.environ, QRP_CMD=str(program))
    return subprocess.run([sys.executable, script, *map(str, words)], capture_output=True, text=True, env=environment, check=False)


class Kept(Formula):
    """A formula whose clauses are kept, since they are asked for again and again."""

    def __init__(self, path: Any) -> None:
        super().__init__(Path(path).read_bytes())
        self.all_blocks = list(super().blocks())

    def blocks(self) -> Iterator[Any]:
        return iter(self.all_blocks)


def read_trace(path: Any) -> Trace:
    return Trace(Path(path).read_bytes())


def first_fault(formula: Formula, trace: Trace, any_pivot: bool) -> Optional[tuple[int, str]]:
    """The number and the fault of the first needed step that does not follow, None where all do."""
    core = Core(trace)
    before: dict[Any, Any] = {}
    for place, step in enumerate(trace.steps()):
        if core.needed[place]:
            finding = judge(formula, SIDES[trace.result], any_pivot, step, before)
            if finding.fault:
                return step.number, finding.fault
            before[step.number] = step.literals
    return None


def is_core_found(trace: Trace) -> bool:
    """Whether it is found of each step alone whether the proof needs it, as it is of all together."""
    needed = Core(trace).needed
    return all(is_needed(trace, step.number) == bool(needed[place]) for place, step in enumerate(trace.steps()))


def check(program: Program, formula: Any, trace: Any, *flags: str) -> str:
    return subprocess.run([program, "check", *flags, formula, trace], capture_output=True, text=True, check=False).stdout.strip()


def try_rows(program: Program, rows: Iterable[str]) -> None:
    """What the script finds of each row is what the program says, of a refused step with its number and without."""
    seen = set()
    for row in rows:
        flag, formula, trace, line = row.split("\t")
        if not line.startswith(("VERIFIED ", "REFUSED step ")):
            continue
        flags = [flag] if flag else []
        expect(f"{flag} {line}, the first fault", agrees(program, formula, trace, flags, Kept(formula)) == (True, line), row)
        expect(f"{flag} {line}, the needed steps", is_core_found(read_trace(trace)), row)
        if line.startswith("VERIFIED "):
            continue
        place = re.fullmatch(r"REFUSED step (\d+) (S\d+)", line)
        assert place, line
        number, fault = place.groups()
        seen.add(fault)
        shown = run(EXPLAIN, *flags, formula, trace, program=program)
        holds = shown.stdout.startswith(f"qrp_cmd says: {line}\n") and f"\nIt does not follow: {fault}. " in shown.stdout
        expect(f"{flag} {line}", shown.returncode == 0 and holds and not shown.stderr, shown)
        numbered = run(EXPLAIN, *flags, formula, trace, number, program="/nonexistent")
        expect(f"{flag} {line}, by its number", numbered.returncode == 0 and numbered.stdout in shown.stdout, numbered)
        if fault == "S3":
            drawn = run(DRAW, formula, trace, program=program)
            nodes, edges, _ = read_graph(f"{flag} {line}, drawn", drawn.stdout)
            expect(f"{flag} {line}: every step drawn but the last is needed", {n for n, _ in edges} == {n for n, _ in nodes[:-1]}, drawn)
    expect("the rows have all faults of steps", seen == FAULTS, sorted(FAULTS - seen))


def step_damages(steps: Any, place: int, unbound: int) -> Iterator[tuple[Any, Any, Any]]:
    """Other forms of a step: literals and antecedents left out, changed and added."""
    number, literals, antecedents = steps[place]
    for i in range(0, len(literals), max(1, len(literals) // 3)):
        rest = literals[:i] + literals[i + 1 :]
        yield number, rest, antecedents
        yield number, [*rest, -literals[i]], antecedents
        yield number, [*literals, -literals[i]], antecedents
        yield number, [*rest, *rest], antecedents
    yield number, [*literals, unbound], antecedents
    yield number, [*literals, -(place % (unbound - 1) + 1)], antecedents
    yield number, [], antecedents
    others = [steps[p][0] for p in (place, (place + 1) % len(steps), place // 2, place // 3, place - 1)]
    for i in range(len(antecedents)):
        yield number, literals, antecedents[:i] + antecedents[i + 1 :]
        for other in others:
            yield number, literals, [*antecedents[:i], other, *antecedents[i + 1 :]]
    yield number, literals, antecedents[::-1]
    if len(antecedents) < 2:
        for other in others:
            yield number, literals, [*antecedents, other]


def damages(formula: Path, trace: Path) -> Iterator[tuple[str, str]]:
    """The two texts with one thing changed, without the trace's quantifier sets: the result, each quantifier, a clause, each step."""
    kept = read_trace(trace)
    steps = [(step.number, step.literals, step.antecedents) for step in kept.steps()]
    text = formula.read_text()
    header = re.search(r"^p cnf (\d+) (\d+)$", text, re.MULTILINE)
    assert header

    def written(steps: Any, result: str) -> str:
        words = ([number, *literals, 0, *antecedents, 0] for number, literals, antecedents in steps)
        return "p qrp 0 0\n" + "".join(" ".join(map(str, line)) + "\n" for line in words) + f"r {result}\n"

    yield text, written(steps, "sat" if kept.result == "unsat" else "unsat")
    for letter in re.finditer(r"^[ae] ", text, re.MULTILINE):
        other = "a" if letter[0] == "e " else "e"
        yield text[: letter.start()] + other + text[letter.start() + 1 :], written(steps, kept.result)
    more_clauses = text.replace(header[0], f"p cnf {header[1]} {int(header[2]) + 1}")
    yield f"{more_clauses}\n1 -1 0\n", written(steps, kept.result)
    for place in range(len(steps)):
        for step in step_damages(steps, place, int(header[1]) + 1):
            yield text, written([*steps[:place], step, *steps[place + 1 :]], kept.result)


def agrees(program: Program, formula: Any, trace: Any, flags: Sequence[str], read: Formula) -> tuple[bool, str]:
    """Whether the program says of the files what the script finds; and the program's line. `read` is the formula."""
    line = check(program, formula, trace, *flags)
    found = first_fault(read, read_trace(trace), bool(flags))
    if found:
        return line == f"REFUSED step {found[0]} {found[1]}", line
    return line.startswith("VERIFIED ") or (line == "REFUSED trace C4" and Core(read_trace(trace)).goal is None), line


def try_damages(program: Program, pairs: Iterable[Any]) -> None:
    """On damaged proofs the script's first fault is the program's, by both sets of rules."""
    seen = set()
    with tempfile.TemporaryDirectory() as folder:
        changed_formula, changed_trace = Path(folder) / "formula", Path(folder) / "trace"
        for formula, trace in pairs:
            last = None
            for case, (formula_text, trace_text) in enumerate(damages(formula, trace)):
                if case >= 20 and case % EVERY != 0:
                    continue
                if formula_text != last:
                    changed_formula.write_text(formula_text)
                    last, read = formula_text, Kept(changed_formula)
                changed_trace.write_text(trace_text)
                flags: Any
                for flags in [], ["--qu"]:
                    holds, line = agrees(program, changed_formula, changed_trace, flags, read)
                    seen.add(line.split()[-1])
                    expect(f"damage {case} of {trace.name} {flags}: the program says {line}", holds, trace_text)
    expect("the damaged proofs have all faults of steps", FAULTS <= seen, sorted(FAULTS - seen))


def try_proofs(program: Program, pairs: Iterable[Any]) -> None:
    """In real proofs the script finds no fault."""
    for formula, trace in pairs:
        holds, line = agrees(program, formula, trace, [], Kept(formula))
        expect(f"{trace.name}: the program says {line}", holds and line.startswith("VERIFIED "))


def nearest_of_all(formula: Any, literals: Set[int]) -> Any:
    """The clause that gives a step, or else is nearest, by a comparison with each clause."""
    found = [(distance(formula, SIDES["unsat"], literals, clause), clause) for clause in formula.clauses()]
    given = [clause for far, clause in found if not any(far[:3])]
    return given[0] if given else min(found, key=lambda row: row[0], default=(None, None))[1]


def try_nearest() -> None:
    """The clause that is nearest to a step, and those that share no literal with it, are those that a look at each clause finds."""
    draw, seen = random.Random(5), set()
    for case in range(400):
        pairs, clauses = random_formula(draw)
        if case % 4 == 0:  # long clauses that are much alike, some in lines of their own and some not
            pairs = [("ae"[v % 3 == 0], v) for v in range(1, 30)]
            clauses = [[v if draw.random() < 0.95 else -v for v in range(1, 30) if draw.random() < 0.95] for _ in range(40)]
        sets = "".join(f"{quantifier} {variable} 0\n" for quantifier, variable in pairs)
        lines = "".join(" ".join(map(str, [*clause, 0])) + (" " if draw.random() < 0.1 else "\n") for clause in clauses)
        formula = Formula(f"p cnf 30 {len(clauses)}\n{sets}{lines}".encode())
        for _ in range(10):
            base = draw.choice(clauses) if clauses else []
            literals = {literal if draw.random() < 0.9 else -literal for literal in base if draw.random() < 0.9}
            found, wanted = nearest_clause(formula, SIDES["unsat"], literals), nearest_of_all(formula, literals)
            seen.add(wanted and len(literals - wanted.literals))
            expect(f"the nearest clause, case {case}", found == wanted, (found, wanted, literals))
            missed = [clause for clause in formula.clauses() if clause.clean and literals.isdisjoint(clause.literals)]
            expect(f"the clauses without these literals, case {case}", list(missed_clauses(formula, literals)) == missed, literals)
    expect("the nearest clause lacks none, one, and more", {None, 0, 1, 2, 3} <= seen, seen)


def try_places() -> None:
    """The place of a variable is the same whether it is looked for alone or all sets are taken apart."""
    many = "".join(f"{'ae'[v % 2]} {v} 0\n" for v in range(1, 101))
    for name, sets in (
        ("two sets", "e 1 2 30 0\na 300 3 40 0\n"),
        ("one variable", "e 12 0\n"),
        ("no sets", ""),
        ("leading zeros", "e 007 1 0\na 70 0012 0\n"),
        ("zeros in one set", "e 7 1 0\na 070 12 0\n"),
        ("over several lines", "e 1 2\n30 0 a 300\n3 40 0\n"),
        ("empty sets", "e 0\na 5 50 0\n"),
        ("many sets", many),
    ):
        text = f"p cnf 300 0\n{sets}".encode()
        all_places = Formula(text).places
        for variables in range(1, 301), [300, 1, 5, 7, 70, 12, 3, 30, 40, 2, 50]:
            formula = Formula(text)
            found = {variable: formula.place(-variable) for variable in variables}
            expect(f"places: {name}", found == {variable: all_places.get(variable, UNBOUND) for variable in variables}, found)


NODE = re.compile(r"    (\d+) \[shape=(box|ellipse), label=<<B>\1</B><BR/>(?:[-0-9]|<I>&#160;</I>|<U>|</U>|<BR/>|empty (?:clause|cube))+>\];")
STUB = re.compile(r"    (\d+) \[shape=plaintext, label=<\.\.\. <B>\1</B>>\];")
EDGE = re.compile(r'    (\d+) -> (\d+) \[label="(?:-?\d+)?(?:, )?(?:reduced)?"\];')
TEXT = re.compile(r"    (\d+) \[shape=\w+, label=<<B>\d+</B><BR/>(.*)>\];")
LABEL = re.compile(r'    (\d+) -> (\d+) \[label="(.*)"\];')


def marks_of(formula: Any, steps: Any) -> tuple[Any, Any]:
    """What the nodes and the edges of a proof have to show, by steps as lists of words: literals with the universal ones underlined; and of
    an antecedent the literal of the pivot, and whether another literal of it is gone."""
    universal = {word for line in formula.read_text().splitlines() if line.startswith("a") for word in line.split()[1:-1]}
    literals: dict[Any, Any]
    literals, texts, labels = {}, {}, {}
    for step in steps:
        end = step.index("0")
        number, own, parents = step[0], list(dict.fromkeys(step[1:end])), step[end + 1 : -1]
        texts[number] = [f"<U>{literal}</U>" if literal.lstrip("-") in universal else literal for literal in own]
        known = [set(literals[parent]) for parent in parents]
        pivots = (
            {literal.lstrip("-") for literal in known[0] if {literal.lstrip("-"), f"-{literal.lstrip('-')}"} - {literal} <= known[1]}
            if len(known) == 2
            else set()
        )
        for parent, held in zip(parents, known):
            gone = [literal for literal in held if literal not in own and literal.lstrip("-") not in pivots]
            labels[parent, number] = [literal for literal in literals[parent] if literal.lstrip("-") in pivots] + ["reduced"] * bool(gone)
        literals[number] = own
    return texts, labels


def try_marks(program: Program) -> None:
    """What is underlined, the labels of the edges, the warning, and names in their places."""
    for formula, trace in [(f / f"{f.name}.qdimacs", f / f"{f.name}.trimmed.qrp") for f in EXAMPLES]:
        steps: Any = [line.split() for line in trace.read_text().splitlines() if line[0].isdigit()]
        texts, labels = marks_of(formula, steps)
        drawn = run(DRAW, "--force", formula, trace, program=program)
        found: Any = {
            line[1]: [word for word in re.split(r"<I>&#160;</I>| |<BR/>", line[2]) if word]
            for line in map(TEXT.fullmatch, drawn.stdout.splitlines())
            if line
        }
        wanted: Any = {
            number: text or (["empty", "clause"] if trace.read_text().endswith("unsat\n") else ["empty", "cube"]) for number, text in texts.items()
        }
        expect(
            f"{trace.name}: the literals, universal ones underlined", found == wanted, [row for row in found.items() if row[1] != wanted[row[0]]][:3]
        )
        found = {(line[1], line[2]): line[3] for line in map(LABEL.fullmatch, drawn.stdout.splitlines()) if line}
        wanted = {edge: ", ".join(label) for edge, label in labels.items()}
        expect(f"{trace.name}: the labels", found == wanted, [row for row in found.items() if row[1] != wanted[row[0]]][:3])
        said = f"{DRAW}: these are {len(steps)} steps, which is more than a picture shows well: try --last 100\n" if len(steps) > 300 else ""
        expect(f"{trace.name}: the warning", drawn.stderr == said, drawn.stderr)
    with tempfile.TemporaryDirectory() as folder:
        chain, names = Path(folder) / "chain", Path(folder) / "names"
        formula = ROOT / "examples" / "two_clauses.qdimacs"
        for count in 300, 301:
            steps = "".join(f"{n} 1 0 {n - 1} 0\n" for n in range(4, count - 1))
            chain.write_text(
                f"p qrp 2 5\n1 1 2 0 0\n2 -1 2 0 0\n3 1 0 1 0\n{steps}{count - 1} -1 0 2 0\n{count} 0 {count - 2} {count - 1} 0\nr unsat\n"
            )
            expect(f"{count} steps: the warning", (f"these are {count} steps" in run(DRAW, formula, chain, program=program).stderr) == (count > 300))
        words: Any
        for count, words, status in (2000, [], 0), (2001, [], 1), (2001, ["--force"], 0), (2001, ["--last", 2001], 0):
            steps = "".join(f"{n} 1 0 {n - 1} 0\n" for n in range(4, count - 1))
            last = f"{count - 1} -1 0 2 0\n{count} 0 {count - 2} {count - 1} 0\nr unsat\n"
            chain.write_text(f"p qrp 2 5\n1 1 2 0 0\n2 -1 2 0 0\n3 1 0 1 0\n{steps}{last}")
            drawn = run(DRAW, *words, formula, chain, program=program)
            said = "these are 2001 steps, which takes dot very long: draw the end by --last 100, or all by --force"
            expect(
                f"{count} steps {words}", drawn.returncode == status and (said in drawn.stderr) == (status == 1) == (not drawn.stdout), drawn.stderr
            )
        names.write_text('1 a<&\n2 "b"\\\n')
        drawn = run(DRAW, "--names", names, formula, formula.with_suffix(".qrp"), program=program)
        wanted = ["    1 [shape=box, label=<<B>1</B><BR/>a&lt;&amp;<I>&#160;</I><U>&quot;b&quot;\\</U>>];", '    3 -> 5 [label="a<&"];']
        expect("names in a graph", all(line in drawn.stdout.splitlines() for line in wanted), drawn)
        dot = shutil.which("dot")
        if dot:
            made = subprocess.run([dot, "-Tsvg"], input=drawn.stdout, capture_output=True, text=True, check=False)
            expect("names in a picture", made.returncode == 0 and not made.stderr and "a&lt;&amp;" in made.stdout, made)
        else:
            skip("names in a picture", "there is no dot")


def read_graph(name: str, text: str) -> tuple[Any, Any, Any]:
    """The nodes, the edges and the nodes of what is left out of the graph's text, which has to have the form that draw-proof gives it."""
    lines = text.splitlines()
    nodes = [(line[1], line[2]) for line in map(NODE.fullmatch, lines) if line]
    edges = [(line[1], line[2]) for line in map(EDGE.fullmatch, lines) if line]
    expect(f"{name}: the frame", lines[0] == "digraph proof {" and lines[-1] == "}")
    stubs = [line[1] for line in map(STUB.fullmatch, lines) if line]
    expect(f"{name}: no other lines", len(lines) == 4 + len(nodes) + len(edges) + len(stubs), lines)
    expect(f"{name}: tags are closed", text.count("<U>") == text.count("</U>"))
    return nodes, edges, stubs


def try_drawings(program: Program) -> None:
    """The graph of a proof has the steps that `trim` keeps as its nodes, and their antecedents as its edges."""
    pairs = [(f / f"{f.name}.qdimacs", f / f"{f.name}.qrp") for f in EXAMPLES]
    for formula, trace in [*pairs, (ROOT / "examples" / "two_clauses.qdimacs", ROOT / "examples" / "two_clauses.qrp")]:
        drawn = run(DRAW, "--force", formula, trace, program=program)
        nodes, edges, stubs = read_graph(trace.name, drawn.stdout)
        expect(f"{trace.name}: status", drawn.returncode == 0 and not stubs, drawn.stderr)
        expect(f"{trace.name}: a warning where it is large", ("try --last 100" in drawn.stderr) == (len(nodes) > 300), drawn.stderr)
        end = run(DRAW, "--last", 4, formula, trace, program=program)
        last_nodes, last_edges, stubs = read_graph(f"{trace.name}, the last four", end.stdout)
        names = {name for name, _ in nodes[-4:]}
        holds = end.returncode == 0 and not end.stderr and last_nodes == nodes[-4:]
        wanted = [edge for edge in edges if edge[1] in names]
        expect(f"{trace.name}: the last four steps", holds and last_edges == wanted, end)
        expect(f"{trace.name}: what is left out", sorted(stubs) == sorted({one for one, _ in wanted} - names), (stubs, wanted))
        of_all, of_last = ({line[0] for line in map(LABEL.fullmatch, text.splitlines()) if line} for text in (drawn.stdout, end.stdout))
        expect(f"{trace.name}: the labels are those of the whole", of_last <= of_all and of_last, of_last - of_all)
        trimmed = subprocess.run([program, "trim", formula, trace], capture_output=True, text=True, check=False).stdout
        steps = [line.split() for line in trimmed.splitlines() if line[0].isdigit()]
        shapes = [(step[0], "box" if step[-2:] == ["0", "0"] else "ellipse") for step in steps]
        expect(f"{trace.name}: the steps that trim keeps", nodes == shapes)
        wanted = [(n, step[0]) for step in steps for n in step[step.index("0") + 1 : -1]]
        expect(f"{trace.name}: an edge from each antecedent", edges == wanted)
        picture = trace.parent / "proof.svg"
        if picture.exists():
            titles = re.findall(r"<title>(\d+)(?:&#45;&gt;(\d+))?</title>", picture.read_text())
            expect(f"{picture}: the nodes", sorted(a for a, b in titles if not b) == sorted(n for n, _ in nodes))
            expect(f"{picture}: the edges", sorted(pair for pair in titles if pair[1]) == sorted(edges))


def try_blanks(program: Program) -> None:
    """Blanks more than one, leading zeros and lines that hold half a step change nothing of what is drawn and said, of more than one block."""
    formula, steps = ROOT / "examples" / "two_clauses.qdimacs", "".join(f"{number} 1 2 0 0\n" for number in range(6, 30000))
    text = (ROOT / "examples" / "two_clauses.qrp").read_text().replace("r unsat", f"{steps}r unsat")
    with tempfile.TemporaryDirectory() as folder:
        trace, other = Path(folder) / "trace", Path(folder) / "other"
        trace.write_text(text)
        for name, changed in (
            ("blanks", text.replace(" ", "  ")),
            ("zeros", re.sub(r" (-?)([1-9])", r" \g<1>00\2", text)),
            ("lines", text.replace(" 0 ", "\n0 ")),
        ):
            other.write_text(changed)
            for words in [DRAW], [EXPLAIN]:
                wanted, found = (run(*words, formula, path, program=program) for path in (trace, other))
                expect(f"{words}: {name}", changed != text and found.stdout == wanted.stdout and found.returncode == 0 == wanted.returncode, found)


def other_layouts(text: str, dice: random.Random) -> Iterator[tuple[str, str, bool]]:
    """The trace in other layouts, as a name and its text, and whether its steps are lines as DepQBF writes them."""
    parts = re.fullmatch(r"((?:[pae].*\n)+)((?:\d.*\n)*)(r .*\n)", text)
    assert parts
    sets, steps, result = parts.groups()
    lines = steps.splitlines(keepends=True)
    yield "as it is", text, True
    yield "capitals", sets + steps + result.replace("r ", "r").upper().replace("R", "r "), True
    yield "more after the result", text + "".join(dice.sample(lines, len(lines))), True
    yield "no sets", sets.partition("\n")[0] + "\n" + steps + result, True
    yield "a set that goes on in the line of the first step", sets.rstrip("\n") + " " + steps + result, True
    yield "two in a line", sets + re.sub(r"\n(\d.*\n)", r" \1", steps) + result, False
    yield "lists on lines of their own", sets + steps.replace(" 0 ", " 0\n") + result, False
    yield "comments", sets + steps.replace("\n", "\nc 1 2 -3 0 4 0\n", 5) + result, False
    yield "line ends of two bytes", text.replace("\n", "\r\n"), False
    for share in 0.02, 0.1, 0.5:
        broken = "".join("\n" if letter == " " and dice.random() < share else letter for letter in steps)
        yield f"broken at {share}", sets + broken + result, False
        joined = "".join(" " if letter == "\n" and dice.random() < share else letter for letter in broken)
        yield f"broken and joined at {share}", sets + joined + result, False
    yield "no steps", sets + result, False


def try_near(pairs: Iterable[Any]) -> None:
    """A step of a right trace that is found without reading those before it is the step that reading finds, with all that it names."""
    dice, found, all_near = random.Random(2), 0, 0
    for _, path in pairs:
        for name, text, is_usual in other_layouts(path.read_text(), dice):
            numbers = [step.number for step in Trace(text.encode()).steps()]
            for number in [*dice.sample(numbers, min(2, len(numbers))), max(numbers, default=0) + 1]:
                (near, result), (again, wanted) = near_and_read(text, number)
                found += near is not None
                all_near += is_usual
                expect(f"{path.name}, {name}: step {number}", near is None or (near, result) == (again, wanted), (near, result, again, wanted, text))
    expect("many are found so", found > all_near / 2 > 50, (found, all_near))


def long_traces(dice: random.Random) -> Iterator[tuple[str, str, Any]]:
    """Traces that are longer than what is looked through at once, each as a name, its text and some numbers of steps."""
    up = range(1, 5001)
    for name, numbers in (
        ("going up", list(up)),
        ("with gaps", [3 * number + number % 7 for number in up]),
        ("falling", list(reversed(up))),
        ("in no order", dice.sample(range(1, 50001), len(up))),
    ):
        named = [*numbers, *range(10**6, 10**6 + len(up) // 4)]  # the last of these are of no step
        parents = ["".join(f"{number} " for number in dice.sample(named, place % 3)) for place in range(len(up))]
        steps = [f"{number} {-8 - number % 2} {number % 900 + 1} 0 {names}0\n" for number, names in zip(numbers, parents)]
        text, some = f"p qrp 9 9\n{''.join(steps)}r sat\n", [numbers[3 * dice.randrange(len(up) // 3) + 2] for _ in range(6)]
        yield name, text, some
        yield f"{name}, without signs", text.replace("-", ""), some
        yield f"{name}, with some lines that go on", text.replace("5 0 ", "5\n0 "), some[:3]


def try_long_traces() -> None:
    """So is a step of a long trace, also one that names steps that are not there."""
    found = missing = 0
    for name, text, numbers in long_traces(random.Random(3)):
        for number in numbers:
            (near, result), (again, wanted) = near_and_read(text, number)
            found += near is not None
            missing += near is not None and not {*near.step.antecedents} <= {*near.before, *near.later}
            expect(f"a long trace {name}: step {number}", near is None or (near, result) == (again, wanted), (near, result, again, wanted))
    expect("many steps of long traces are found so, and some that name others that are missing", found > 40 and missing > 10, (found, missing))


def try_lines_alike() -> None:
    """So is one in the middle of steps of one literal, and none if each of these lines ends a step and begins the next one."""
    lines = "".join(f"{number} {number % 900 + 1} 0 {number + 10000} {number % 800 + 1} 0\n" for number in range(1, 3001))
    for name, begin, text, is_found in (
        ("alone", "", lines, True),
        ("after a minus", "20000 -4 0 0\n", lines, True),
        ("after a minus that is cut", "20000 -4 0\n", f"{lines}0\n", False),
        ("that are cut", "20000 4 0\n", f"{lines}0\n", False),
        ("that are cut after a minus", "19999 -4 0 0\n20000 4 0\n", f"{lines}0\n", False),
        ("after a zero that begins a line", "20000 4\n0 0\n", lines, False),
        ("after zeros in a row", "20000 0 0 20001 0 0\n", lines, False),
        ("with a tab", "20000 4\t0 0\n", lines, False),
        ("with a number that begins with 0", "20000 04 0 0\n", lines, False),
        ("after a set that is cut", "e 1 2\n0 20000 4 0 0\n", lines, False),
    ):
        for number in 5, 1500, 2999, 11500:
            (near, result), (again, wanted) = near_and_read(f"p qrp 9 9\n{begin}{text}r sat\n", number)
            is_left = near is None and not (is_found and number <= 3000)
            expect(f"lines alike {name}: step {number}", is_left or (near, result) == (again, wanted), (near, result, again, wanted))


def try_odd_steps() -> None:
    """Lines that look like the step that is looked for, and are not it."""
    for name, text, number in (
        ("literals", "p qrp 9 9\n1 -2 3 0 0\n4 -1 5\n7 -2 -3 0 0\n7 8 0 0\nr sat\n", 7),
        ("literals after whole lines", "p qrp 9 9\n1 2 0 0\n4 5\n6 7 0 0\n6 8 0 0\nr sat\n", 6),
        ("antecedents", "p qrp 9 9\n1 -2 3 0 0\n2 3 0\n5 0 7 0\n1 0\n5 1 0 0\nr sat\n", 5),
        ("a set", "p qrp 9 9\ne 1 2\n3 4 5 0 6 0\n3 0\n7 5 0 0\n3 6 0 0\nr sat\n", 3),
        ("antecedents after antecedents", "p qrp 9 9\n1 2 0 0 6 -2 0 0\n2 3 0\n5 0 7 0\n6 0 8 0\n8 0 10 0\n1 0\n5 4 0 0\nr sat\n", 6),
        ("antecedents after two of them", "p qrp 9 9\n1 2 0 0 6 -2 0 0\n2 3 0\n5 1 0 7 0\n6 0 8 0\n8 0 10 0\n1 0\n5 4 0 0\nr sat\n", 6),
        ("the end of a set", "p qrp 9 9\ne 1 2\n3 0 6 0\n6 0 9 0\n4 0 3 5 0 0\n4 1 0 0\nr sat\n", 3),
        ("antecedents after a set", "p qrp 9 9\ne 1 2\n3 4 5 0 6 0\n3 0 7 0\n7 0 9 0\n1 0 3 8 0 0\n1 1 0 0\nr sat\n", 3),
        ("after the result", "p qrp 9 9\n1 -2 3 0 0\n2 3 -4 0 0\nr sat\n5 1 -2 0 0\n7 2 -3 0 0\nr sat\n", 7),
        ("a result in a comment", "p qrp 9 9\n1 -2 3 0 0\n2 3 -4 0 0\nc r unsat\n7 2 -3 0 1 0\nr sat\n", 2),
        ("itself", "p qrp 9 9\n1 -2 3 0 0\n2 3 -4 0 2 0\nr sat\n", 2),
        ("a number that is nowhere", "p qrp 9 9\n1 -2 3 0 0\n2 3 -4 0 7 1 0\nr sat\n", 2),
        ("a number with zeros", "p qrp 9 9\n1 -2 3 0 0\n007 5 0 0\n2 3 -4 0 7 1 0\nr sat\n", 2),
        ("a number within a line", "p qrp 9 9\n1 -2 3 0 0\n4 -1 0 0 7 5 0 0\n2 3 -4 0 7 1 0\nr sat\n", 2),
        ("a number that ends a line", "p qrp 9 9\n1 -2 3 0 0\n4 -1 0 0 7\n5 0 0\n2 3 -4 0 7 1 0\nr sat\n", 2),
        ("a number after a set", "p qrp 9 9\ne 1 0 7 5 0 0\n1 -2 3 0 0\n2 3 -4 0 7 1 0\nr sat\n", 2),
        ("a literal of another step", "p qrp 9 9\n1 -2 3 0 0\n4 -7 7 8 0 1 0\n2 3 -4 0 7 1 0\nr sat\n", 2),
        ("digits of another step", "p qrp 9 9\n1 -2 3 0 0\n77 5 0 1 0\n2 3 -4 0 7 1 0\nr sat\n", 2),
        ("later", "p qrp 9 9\n1 -2 3 0 0\n2 3 -4 0 3 1 0\n3 1 2 4 0 0\nr sat\n", 2),
    ):
        (near, result), (again, wanted) = near_and_read(text, number)
        expect(f"a line that looks like a step: {name}", near is None or (near, result) == (again, wanted), (near, result, again, wanted))


def near_and_read(text: str, number: int) -> Any:
    """A step as it is found without those before it, and as it is read, each with the result that is then known."""
    traces = Trace(text.encode()), Trace(text.encode())
    found = [find(trace, number) for find, trace in zip((find_near, find_step), traces)]
    list(traces[1].steps())
    return zip(found, [trace.result for trace in traces])


def try_words(program: Program) -> None:
    """Command lines that are wrong end with status 2, and a text that is no trace with 1."""
    formula, trace = ROOT / "examples" / "two_clauses.qdimacs", ROOT / "examples" / "two_clauses.qrp"
    words: Any
    for words in (
        [],
        [formula],
        [formula, trace, "1"],
        ["--other", formula, trace],
        [formula, "/nonexistent"],
        ["/nonexistent", trace],
        ["--last", "0", formula, trace],
    ):
        ended = run(DRAW, *words, program=program)
        expect(f"usage: draw-proof {words}", ended.returncode == 2 and not ended.stdout and ended.stderr, ended)
    ended = run(DRAW, formula, formula, program=program)
    expect("no trace", ended.returncode == 1 and ended.stderr, ended)


def main() -> int:
    program, rows, unreadable = sys.argv[1:]
    for row in Path(unreadable).read_text().splitlines():
        expect(row, False)
    folder = ROOT / "tests" / "traces"
    listed = [row.split("\t") for row in (folder / "expected.tsv").read_text().splitlines()[1:]]
    real = [(folder / row[0], folder / row[1]) for row in listed]
    trimmed = [(f / f"{f.name}.qdimacs", f / f"{f.name}.trimmed.qrp") for f in EXAMPLES]
    small = [pair for pair in trimmed if pair[1].stat().st_size < 10000]
    few = [pair for pair in real if pair[1].name in ("kbkf2.trad.qrp", "adder2.lazy.qrp")]
    try_rows(program, Path(rows).read_text().splitlines())
    try_proofs(program, real + trimmed)
    expect("seven proofs to damage", len(small + few) == 7, small + few)
    try_damages(program, small + few)
    try_near([pair for pair in real + trimmed if pair[1].stat().st_size < 2000])
    try_nearest()
    try_places()
    try_long_traces()
    try_lines_alike()
    try_odd_steps()
    try_drawings(program)
    try_marks(program)
    try_blanks(program)
    try_words(program)
    return finish(12412)


if __name__ == "__main__":
    sys.exit(main())
