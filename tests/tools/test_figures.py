"""Tests tools/used-clauses and tools/proof-stats. usage: tests/tools/test_figures.py PROGRAM ..; tests/tools/test-tools calls it."""

import json
import os
import random
import re
import subprocess
import sys
import tempfile
import unittest.mock
from collections.abc import Iterable, Sequence
from pathlib import Path
from typing import Any, Union

ROOT = Path(__file__).resolve().parents[2]
sys.path[:0] = [str(ROOT / "tests"), str(ROOT / "tools")]
sys.dont_write_bytecode = True
from expect import expect, finish  # noqa: E402
from qrptools.formula import EXISTS, Formula  # noqa: E402
from qrptools.given_clauses import Given  # noqa: E402

Ended = subprocess.CompletedProcess[Any]
Program = Union[str, Path]

TRACES = ROOT / "tests" / "traces"
FALSE = ["kbkf2.trad", "kbkf3.lazy", "qparity3.trad", "equality3.lazy", "php3.trad", "rand0.lazy", "rand0.trad"]
TRUE = ["adder2.lazy", "copycat3.trad"]


def run(script: str, *words: object, program: Program, **options: Any) -> Ended:
    environment = dict(os.environ, QRP_CMD=str(program))
    called = [sys.executable, str(ROOT / "tools" / script), *map(str, words)]
    options = {"text": True, **options}
    return subprocess.run(called, capture_output=True, env=environment, check=False, **options)


def ask(program: Program, *words: Program) -> str:
    return subprocess.run([program, *words], capture_output=True, text=True, check=False).stdout


def pair(name: str) -> tuple[Path, Path]:
    return TRACES / f"{name.split('.')[0]}.qdimacs", TRACES / f"{name}.qrp"


def clauses_of(text: str) -> list[str]:
    """The lines of the clauses of a formula in canonical form."""
    return [line for line in text.splitlines() if line[0] not in "pae"]


def try_used(program: Program, formula: Path, trace: Path, folder: str) -> None:
    """The smaller formula has some of the clauses and the same prefix, and none of its clauses can be spared."""
    name = trace.name
    wrote = run("used-clauses", formula, trace, program=program)
    smaller, trimmed = Path(folder) / "smaller", Path(folder) / "trimmed"
    smaller.write_text(wrote.stdout)
    trimmed.write_text(ask(program, "trim", formula, trace))
    whole, text = ask(program, "format", formula), ask(program, "format", smaller)
    used = clauses_of(text)
    expect(f"used-clauses {name}", wrote.returncode == 0 and f"{len(used)} of {len(clauses_of(whole))} clauses are used" in wrote.stderr, wrote)
    prefix = [line for line in whole.splitlines() if line[0] in "ae"]
    expect(f"used-clauses {name}: the prefix", prefix == [line for line in text.splitlines() if line[0] in "ae"], text)
    expect(f"used-clauses {name}: the verdict", ask(program, "check", smaller, trimmed) == "VERIFIED false\n")
    rest = iter(clauses_of(whole))
    expect(f"used-clauses {name}: some clauses in their order", all(clause in rest for clause in used), used)
    for spared in range(0, len(used), max(1, len(used) // 12)):
        lines = text.splitlines()
        lines.remove(used[spared])
        smaller.write_text("\n".join([re.sub(r"\d+$", str(len(used) - 1), lines[0]), *lines[1:]]) + "\n")
        line = ask(program, "check", smaller, trimmed)
        expect(f"used-clauses {name}: without clause {spared}", line.startswith("REFUSED step ") and line.endswith(" S4\n"), line)
    listed = run("used-clauses", "--lines", formula, trace, program=program).stdout.splitlines()
    lines = formula.read_text().splitlines()
    found = [" ".join(lines[int(row.split("\t")[1]) - 1].split()) for row in listed]
    expect(f"used-clauses --lines {name}", found == used, (found, used))


def try_odd_layout(program: Program, folder: str) -> None:
    """A formula in another layout, of whose clauses two give the same step and one is not used."""
    formula, trace = Path(folder) / "odd", Path(folder) / "odd.qrp"
    formula.write_bytes(b"c first\np cnf 3 5\ne 1 0\na 2\n0 e 3 0\n1 2 0 -1 2 0\n3 0\nc between\n1 2 0 1\n-1 0\n")
    trace.write_bytes(b"p qrp 2 5\n1 1 2 0 0\n2 -1 2 0 0\n3 1 0 1 0\n4 -1 0 2 0\n5 0 3 4 0\nr unsat\n")
    wrote = run("used-clauses", formula, trace, program=program)
    expect("used-clauses, an odd layout", wrote.stdout == "p cnf 3 2\ne 1 0\na 2\n0 e 3 0\n1 2 0\n-1 2 0\n", wrote)
    listed = run("used-clauses", "--lines", formula, trace, program=program)
    expect("used-clauses --lines, an odd layout", listed.stdout == "1\t6\n2\t6\n", listed)
    formula.write_bytes(b"p cnf 3 4\r\ne 1 0\r\na 2 0\r\ne 3 0\r\n1 2 0\r\n3 0\r\n1 3 0\r\n-1 2 0\r\n")
    wrote = run("used-clauses", formula, trace, program=program, text=False)
    expect("used-clauses, line ends of two bytes", wrote.stdout == b"p cnf 3 2\ne 1 0\r\na 2 0\r\ne 3 0\n1 2 0\n-1 2 0\n", wrote)
    formula.write_bytes(b"c first\np cnf 3 5\ne 1 0\na 2\n0 e 3 0\n1 2 0 -1 2 0\n3 0\nc between\n1 2 0 1\n-1 0\n")
    reduced = Path(folder) / "reduced.qrp"
    reduced.write_bytes(b"p qrp 2 5\n1 1 0 0\n2 -1 0 0\n3 0 1 2 0\nr unsat\n")
    wrote = run("used-clauses", formula, "/dev/stdin", program=program, input=reduced.read_text())
    expect("used-clauses, reducts of clauses, and a pipe", wrote.returncode == 0 and clauses_of(wrote.stdout)[1:] == ["1 2 0", "-1 2 0"], wrote)


def random_pair(dice: random.Random) -> tuple[bytes, list[bytes]]:
    """A formula with some clauses, and steps that come from some of them: as they are, in another order, or reduced; and some that do not."""
    variables = dice.sample(range(1, 8), 7)
    sets = [(dice.choice("ae"), variables[start : start + 2]) for start in range(0, 7, 2)]
    clauses = [[dice.choice([-1, 1]) * v for v in dice.choices(variables, k=dice.randint(1, 5))] for _ in range(dice.choice([3, 20, 100]))]
    steps = dice.sample(clauses, dice.choice([1, len(clauses) // 3, len(clauses)]))
    if dice.random() < 0.7:
        steps = [dice.sample(step, dice.randint((len(step) + 1) // 2, len(step))) for step in steps]
    lines = [f"p cnf 7 {len(clauses)}", *(" ".join(map(str, [letter, *names, 0])) for letter, names in sets)]
    lines += [" ".join(map(str, [*clause, 0])).replace(" ", dice.choice([" "] * 50 + ["  "])) for clause in clauses]
    return "\n".join([*lines, ""]).encode(), [" ".join(map(str, step)).encode() for step in steps]


def given_plainly(formula: Formula, steps: Iterable[bytes]) -> Any:
    """The numbers of the clauses that give steps which none before gave, found step by step."""
    left, numbers = {step: frozenset(map(int, step.split())) for step in steps}, []
    for number, _, clause, clean in formula.clauses():
        last = max((formula.place(l).block for l in clause if formula.place(l).quantifier == EXISTS), default=0)
        needed = {l for l in clause if formula.place(l).block <= last} if clean else clause
        found = [step for step, literals in left.items() if needed <= literals <= clause]
        numbers += [number] if found else []
        left = {step: literals for step, literals in left.items() if step not in found}
    return numbers


def try_given(cases: int) -> None:
    """Which clauses give steps is found as one by one, whether the clauses are read at once or some at a time."""
    dice, found = random.Random(1), []
    for block in [1 << 18] * cases + [60] * cases:
        data, steps = random_pair(dice)
        with unittest.mock.patch("qrptools.words.BLOCK", block):
            given = [number for numbers, _, _ in Given(Formula(data), iter(steps)).clauses() for number in numbers]
        found.append(len(given))
        expect(f"clauses that give steps {len(found)}", given == given_plainly(Formula(data), steps), (data, steps, given))
    expect("some cases have many such clauses", sum(count > 9 for count in found) > cases // 2, found)


def try_odd_traces(program: Program, folder: str) -> None:
    """The steps of a trace in another layout are counted as those of the same trace."""
    formula, trace = pair("kbkf3.lazy")
    text, odd, last = trace.read_text(), Path(folder) / "odd_trace", len("r unsat\n")
    steps = stats_of(program, formula, trace)["steps"]
    for name, other in (
        ("comments", text.replace("\n", "\nc 0 0\n# r 0\n", 40)),
        ("blanks", text.replace(" 0 0\n", " 0 0 \n").replace(" 0\n", "\t0\r\n")),
        ("zeros", text.replace(" 0", " 00")),
        ("on one line", text[:-last].replace(" 0\n", " 0 ") + text[-last:]),
        ("two lines", text.replace(" 0 ", "\n0 ")),
        ("more after the result", text + "1 2 0 0\n" * 9),
    ):
        odd.write_text(other)
        wrote = run("proof-stats", "--json", formula, odd, program=program)
        expect(f"proof-stats, {name}", wrote.returncode == 0 and json.loads(wrote.stdout)["steps"] == steps, (wrote, steps))


def stats_of(program: Program, formula: Path, trace: Path) -> dict[str, Any]:
    """The figures, computed plainly from what trim prints."""
    lines = [line.split() for line in ask(program, "trim", formula, trace).splitlines()]
    steps = [list(map(int, line)) for line in lines if line[0].isdigit()]
    literals = {step[0]: step[1 : step.index(0)] for step in steps}
    antecedents = {step[0]: step[step.index(0) + 1 : -1] for step in steps}
    depths: dict[Any, Any] = {}
    for number, named in antecedents.items():
        depths[number] = 1 + max(depths[n] for n in named) if named else 0
    counts = [sum(len(named) == n for named in antecedents.values()) for n in range(3)]
    return {
        "result": {"sat": "true", "unsat": "false"}[lines[-1][1]],
        "steps": sum(line[0].isdigit() for line in trace.read_text().splitlines()),
        "needed": len(steps),
        "initial": counts[0],
        "reductions": counts[1],
        "resolutions": counts[2],
        "longest": max(map(len, literals.values())),
        "mean": round(sum(map(len, literals.values())) / len(steps), 2),
        "depth": depths[steps[-1][0]],
        "variables_used": len({abs(l) for step in literals.values() for l in step}),
        "variables": sum(len(line.split()) - 2 for line in ask(program, "format", formula).splitlines() if line[0] in "ae"),
        "bytes": trace.stat().st_size,
        "trimmed_bytes": len(ask(program, "trim", formula, trace)),
    }


def try_stats(program: Program, formula: Path, trace: Path) -> None:
    wanted = stats_of(program, formula, trace)
    wrote = run("proof-stats", "--json", formula, trace, program=program)
    expect(
        f"proof-stats --json {trace.name}",
        wrote.returncode == 0 and wrote.stdout.count("\n") == 1 and json.loads(wrote.stdout) == wanted,
        (wrote, wanted),
    )
    wrote = run("proof-stats", formula, trace, program=program)
    figures = [line.split()[-1] for line in wrote.stdout.splitlines()]
    expect(f"proof-stats {trace.name}", wrote.returncode == 0 and figures == [str(figure) for figure in wanted.values()], wrote)


def write_chain(folder: str, last: int, factor: int) -> tuple[Path, Path]:
    """A formula and its proof: 1, from each variable the next one, and not the last; with the numbers of the steps times a factor."""
    variables = range(1, last)
    clauses = ["1 0", *(f"-{v} {v + 1} 0" for v in variables), f"-{last} 0"]
    steps: list[Any] = [([1, 0], []), *(([-v, v + 1, 0], []) for v in variables), ([-last, 0], [])]
    steps += [([v + 1, 0], [last + v if v > 1 else 1, v + 1]) for v in variables] + [([0], [2 * last, last + 1])]
    lines = [" ".join(map(str, [n * factor, *literals, *(a * factor for a in named), 0])) for n, (literals, named) in enumerate(steps, 1)]
    formula, trace = Path(folder) / "chain.qdimacs", Path(folder) / f"chain_{factor}.qrp"
    formula.write_text("\n".join([f"p cnf {last} {last + 1}", " ".join(map(str, ["e", *variables, last, 0])), *clauses, ""]))
    trace.write_text("\n".join(["p qrp 0 0", *lines, "r unsat", ""]))
    return formula, trace


def try_refusals(program: Program) -> None:
    formula, trace = pair("kbkf3.trad")
    other, proof = pair("adder2.lazy")
    for script in "used-clauses", "proof-stats":
        ended = run(script, formula, proof, program=program)
        expect(f"{script}: a refused proof", ended.returncode == 1 and not ended.stdout and "REFUSED set C2 variable 1" in ended.stderr, ended)
        words: Any
        for words in [], [formula], [formula, trace, "1"], ["--other", formula, trace]:
            ended = run(script, *words, program=program)
            expect(f"{script} {words}", ended.returncode == 2 and not ended.stdout and ended.stderr, ended)
        ended = run(script, formula, trace, program="/nonexistent")
        expect(f"{script}: no program", ended.returncode == 2 and not ended.stdout and ended.stderr, ended)
    ended = run("used-clauses", other, proof, program=program)
    expect("used-clauses: a true formula", ended.returncode == 1 and not ended.stdout and "every clause by definition" in ended.stderr, ended)


def main() -> int:
    program = sys.argv[1]
    with tempfile.TemporaryDirectory() as folder:
        for name in FALSE:
            try_used(program, *pair(name), folder)
        try_odd_layout(program, folder)
        try_odd_traces(program, folder)
        for factor in 1, 10**13:
            formula, trace = write_chain(folder, 20000, factor)
            try_used(program, formula, trace, folder)
            try_stats(program, formula, trace)
    try_given(300)
    for name in FALSE + TRUE:
        try_stats(program, *pair(name))
    try_refusals(program)
    return finish(782)


if __name__ == "__main__":
    sys.exit(main())
