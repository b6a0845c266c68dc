"""Shows a step of a trace with its antecedents, and says whether it follows. A part of tools/explain."""

from collections.abc import Iterable, Iterator, Set
from typing import NamedTuple, Optional

from qrptools.explaining.find_steps import find_near
from qrptools.formula import Formula
from qrptools.names import Names
from qrptools.step_rules import CONDITIONS, SIDES, Finding, Side, judge
from qrptools.steps import Found, Step, Trace

# no more sentences than this on literals; the table has them all
SENTENCES = 6
TO_THE_RIGHT = ("literal", "block")  # the columns of numbers


def find_step(trace: Trace, number: int) -> Optional[Found]:
    """The step with this number and those that it names, if there is such a step."""
    own = next(trace.with_numbers([number]), None)
    if own is None:
        return None
    found, passed = Found(own, {}, {}), False
    # It is among those that are looked for, so that the order of the steps is seen.
    for step in trace.with_numbers([number, *own.antecedents]):
        passed = passed or step.number == number
        if step.number in own.antecedents:
            if passed:
                found.later[step.number] = step.line
            else:
                found.before[step.number] = step.literals
    return found


Columns = list[tuple[str, Set[int]]]  # of a table of literals: the name of each, and the literals that it holds


def table(formula: Formula, columns: Columns, notes: dict[int, str], names: Optional[Names]) -> Iterator[str]:
    """A row for each literal: its name if there are names, its quantifier and block, which of the columns hold it, and a note."""
    literals = dict.fromkeys(literal for _, held in columns for literal in held)
    if not literals:
        return
    known = names if names and names.names else None
    places = formula.places_of(literals)
    ordered = sorted(literals, key=lambda l: (places[l].block, abs(l), -l))
    texts = [
        ["literal", *map(str, ordered)],
        *([["name", *(name_of(literal, known) for literal in ordered)]] if known else []),
        ["quantifier", *(places[literal].quantifier or "unbound" for literal in ordered)],
        ["block", *(str(places[literal].block or "-") for literal in ordered)],
        *([name, *("yes" if literal in held else "-" for literal in ordered)] for name, held in columns),
        ["", *(notes.get(literal, "") for literal in ordered)],
    ]
    widths = [max(map(len, column)) for column in texts]
    line = "  " + "  ".join(f"%{'' if column[0] in TO_THE_RIGHT else '-'}{width}s" for column, width in zip(texts, widths))
    for row in zip(*texts):
        yield (line % row).rstrip()
    yield ""


def name_of(literal: int, names: Names) -> str:
    return names.shown([literal]) if abs(literal) in names.names else "-"


class Judged(NamedTuple):
    """A step as it is found: the step, the literals of the earlier steps that it names, the lines of the later ones, and the finding."""

    step: Step
    before: dict[int, list[int]]
    later: dict[int, int]
    finding: Finding


def judged_step(formula: Formula, trace: Trace, any_pivot: bool, number: int, is_right: bool = False) -> Optional[Judged]:
    """The step with this number, judged; None if the trace has no such step. `is_right` says that the program has read the text to its end."""
    found = is_right and find_near(trace, number) or find_step(trace, number)
    if found is None:
        return None
    return Judged(*found, judge(formula, SIDES[trace.result], any_pivot, *found))


def reasons(judged: Judged) -> list[str]:
    """Sentences on why the step follows or not."""
    own = judged.step.number
    return [
        *judged.finding.reasons,
        *(f"Step {n} " + ("is this step." if n == own else f"comes later, in line {line}.") for n, line in judged.later.items()),
    ]


def lines_of(formula: Formula, side: Side, judged: Judged, names: Optional[Names] = None) -> Iterator[str]:
    """The step and what is found of it, as lines to print."""
    step, before, later, finding = judged
    parents = " and ".join(map(str, step.antecedents))
    from_what = {0: "without antecedents", 1: f"with the antecedent {parents}"}.get(len(step.antecedents), f"with the antecedents {parents}")
    literals = " ".join(map(str, step.literals)) or f"the empty {side.word}"
    yield from (f"Step {step.number}, in line {step.line} of the trace, is a {side.word} {from_what}: {literals}", "")
    columns: Columns = [(f"step {step.number}", set(step.literals))]
    columns += [(f"step {n}", set(before[n])) for n in dict.fromkeys(step.antecedents) if n in before]
    if finding.clause:
        columns.append((f"clause {finding.clause.number}", finding.clause.literals))
        yield from (f"Clause {finding.clause.number} stands in line {finding.clause.line} of the formula.", "")
    yield from table(formula, columns, finding.notes, names)
    if finding.fault:
        yield from (f"It does not follow: {finding.fault}. What must hold:", f"  {CONDITIONS[finding.fault]}", "What is found:")
    else:
        yield "It follows:"
    said = reasons(judged)
    shown, rest = finding.reasons[:SENTENCES], finding.reasons[SENTENCES:]
    yield from (f"  {sentence}" for sentence in shown)
    if rest:
        yield f"  And {len(rest)} more."
    yield from (f"  {sentence}" for sentence in said[len(finding.reasons) :])
