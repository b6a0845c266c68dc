"""Judges single steps by the rules of docs/RULES.md, in its words. A part of tools/explain.

Nothing here is proved: a verdict comes from qrp_cmd alone.
"""

from collections import Counter
from collections.abc import Collection, Iterable, Iterator, Mapping, Set
from typing import NamedTuple, Optional

from qrptools.formula import ADJECTIVES, EXISTS, FOR_ALL, UNBOUND, Clause, Formula, clause_of, is_clean
from qrptools.steps import Step

FEW = 8  # literals that are looked for before all clauses are compared

# What has to hold of a step, as the table of docs/RULES.md says it.
CONDITIONS = {
    "S1": "the step holds no clashing pair",
    "S2": "its variables are bound",
    "S3": "each antecedent is the number of an earlier step",
    "S4": "clauses, no antecedent: some clean clause has the step as a reduct",
    "S5": "cubes, no antecedent: each clause holds a clashing pair or shares a literal with the step",
    "S6": "one antecedent: each literal of the step is in it",
    "S7": "one antecedent: each literal that was left out is reducible in it",
    "S8": "two antecedents: they clash",
    "S9": "they clash in only one variable",
    "S10": "the pivot has the deciding quantifier",
    "S11": "each literal of the step is in the resolvent",
    "S12": "each literal of the resolvent is in the step, or reducible in the resolvent, or reducible in the parents",
}


class Side(NamedTuple):
    """Of what a trace has its steps: clauses or cubes, the quantifier of the pivots, and that of what is reduced."""

    word: str
    deciding: str
    reduced: str


SIDES = {"unsat": Side("clause", EXISTS, FOR_ALL), "sat": Side("cube", FOR_ALL, EXISTS)}


def clashes(a: Iterable[int], b: Collection[int]) -> list[int]:
    """The variables that stand with one sign in a and with the other in b, in the order of a."""
    return list(dict.fromkeys(abs(literal) for literal in a if -literal in b))


def innermost(formula: Formula, side: Side, literals: Collection[int]) -> Optional[int]:
    """The literal with the deciding quantifier whose block comes last, None where there is none."""
    places = formula.places_of(literals)
    deciding = [literal for literal, place in places.items() if place.quantifier == side.deciding]
    return max(deciding, key=lambda l: (places[l].block, -abs(l))) if deciding else None


def what_keeps(formula: Formula, side: Side, last: Optional[int], literal: int) -> Optional[str]:
    """Why the literal is not reducible among literals of which this one is innermost, None where it is reducible."""
    quantifier, block, _ = formula.place(literal)
    if not quantifier:
        return "it is not bound"
    if quantifier != side.reduced:
        return f"it is {ADJECTIVES[quantifier]}, and of {side.word}s only {ADJECTIVES[side.reduced]} literals are reduced"
    if last is not None and formula.place(last).block > block:
        return f"it is in block {block}, and the {ADJECTIVES[side.deciding]} {last} comes later, in block {formula.place(last).block}"
    return None


def all_kept(formula: Formula, side: Side, literals: Collection[int], out: Iterable[int]) -> dict[int, str]:
    """Of the literals that are left out of these, those that are not reducible, with the reason."""
    last = innermost(formula, side, literals)
    return {l: reason for l in sorted(out, key=abs) if (reason := what_keeps(formula, side, last, l))}


class Finding(NamedTuple):
    """What is found of a step: its fault, None if it follows; sentences on why; notes on literals; if the step has no antecedents, the clause
    of the formula that shows it; and which of the causes of docs/REFUSED.md is likely, if there are several."""

    fault: Optional[str]
    reasons: list[str]
    notes: dict[int, str]
    clause: Optional[Clause] = None
    cause: Optional[str] = None


def judge(formula: Formula, side: Side, any_pivot: bool, step: Step, before: Mapping[int, list[int]], later: Collection[int] = ()) -> Finding:
    """Judges a step. `before` gives the literals of the earlier steps that it names, by their numbers; `later` has those of later ones."""
    literals = set(step.literals)
    if not is_clean(literals):
        both = [literal for literal in dict.fromkeys(step.literals) if -literal in literals]
        reasons = [f"The step holds {literal} and {-literal}." for literal in both if literal > 0]
        given = {literal for number in step.antecedents for literal in before.get(number, [])}
        cause = "long" if all(literal in given for literal in both) else "damaged"
        return Finding("S1", reasons, dict.fromkeys(both, "both signs"), cause=cause)
    unbound = [literal for literal, place in formula.places_of(step.literals).items() if place == UNBOUND]
    if unbound:
        reasons = [f"The formula does not bind variable {abs(literal)}." for literal in unbound]
        return Finding("S2", reasons, dict.fromkeys(unbound, "unbound"))
    missing = [number for number in dict.fromkeys(step.antecedents) if number not in before]
    if missing:
        cause = "order" if all(number in later and number != step.number for number in missing) else "missing"
        return Finding("S3", [f"No step before this one has the number {number}." for number in missing], {}, cause=cause)
    if not step.antecedents:
        return initial_clause(formula, side, literals) if side.word == "clause" else initial_cube(formula, side, literals)
    if len(step.antecedents) == 1:
        name = f"step {step.antecedents[0]}"
        return reduct(formula, side, name, set(before[step.antecedents[0]]), literals)
    a, b = step.antecedents[:2]
    parents = [(f"step {a}", set(before[a])), (f"step {b}", set(before[b]))]
    return resolvent(formula, side, any_pivot, parents, literals)


def initial_clause(formula: Formula, side: Side, literals: Set[int], with_cause: bool = True) -> Finding:
    clause = nearest_clause(formula, side, literals)
    if clause and not any(distance(formula, side, literals, clause)[:3]):
        out = clause.literals - literals
        text = ", and what is left out of it is reducible in it" if out else ""
        return Finding(None, [f"It is clause {clause.number} of the formula{text}."], left_out(out, {}), clause)
    cause = of_the_other_side(formula, side, literals) if with_cause else None
    if clause is None:
        return Finding("S4", ["The formula has no clause."], {}, cause=cause)
    wrong, out = sorted(literals - clause.literals, key=abs), clause.literals - literals
    kept = all_kept(formula, side, clause.literals, out)
    reasons = [f"No clause of the formula gives this step. The nearest is clause {clause.number}:"]
    reasons += [f"{l} is not in it." for l in wrong]
    reasons += [f"{l} is left out, and not reducible in it: {kept[l]}." for l in kept]
    if not clause.clean:
        reasons.append("It holds a variable with both signs.")
    return Finding("S4", reasons, left_out(out, kept) | dict.fromkeys(wrong, "not in the clause"), clause, cause)


Distance = tuple[int, bool, int, int]


def distance(formula: Formula, side: Side, literals: Set[int], clause: Clause) -> Distance:
    """How far a clause is from giving an initial step: the literals that it lacks, whether it has a variable with both signs, the literals
    that are left out of it and not reducible, which are looked at if it lacks none, and all that are left out."""
    more, out = literals - clause.literals, clause.literals - literals
    kept = {} if more else all_kept(formula, side, clause.literals, out)
    return (len(more), not clause.clean, len(kept), len(out))


def nearest_clause(formula: Formula, side: Side, literals: Set[int]) -> Optional[Clause]:
    """The first clause that gives an initial step, or else the first of the nearest ones; None if there is no clause.

    A clause that lacks at most some literals of the step has one of any that are one more. So the clauses with the rarest two are looked
    at, and more only if each of them lacks more than one."""
    few = 2
    while few <= min(len(literals), FEW):
        found = nearest_of(formula, side, literals, formula.clauses_with(rarest(formula, literals)[:few]))
        lacks = len(literals - found.literals) if found else FEW
        if lacks < few:
            return found
        few = lacks + 1
    texts = ((number + place, line + place, text) for number, line, some in formula.pieces() for place, text in enumerate(some))
    return nearest_of(formula, side, literals, texts)


def nearest_of(formula: Formula, side: Side, literals: Set[int], texts: Iterable[tuple[int, int, bytes]]) -> Optional[Clause]:
    """The nearest of some clauses, by their numbers, lines and texts. One that gives the step is the last that is looked at."""
    words = {b"%d" % literal for literal in literals}
    nearest: Optional[tuple[Distance, Clause]] = None
    for number, line, text in texts:
        if nearest and len(words.difference(text.split())) > nearest[0][0]:
            continue
        clause = clause_of(number, line, text)
        found = distance(formula, side, literals, clause)
        if nearest is None or found < nearest[0] or not any(found[:3]):
            nearest = (found, clause)
        if not any(found[:3]):
            break
    return nearest[1] if nearest else None


SMALL = 1 << 16  # bytes of clauses in which literals are counted


def rarest(formula: Formula, literals: Set[int]) -> list[int]:
    """These literals by how often the first clauses have them."""
    _, _, block = next(formula.blocks(), (1, 1, b""))
    counts = Counter(block[:SMALL].split())
    return sorted(literals, key=lambda literal: (counts[b"%d" % literal], literal))


def missed_clauses(formula: Formula, literals: Set[int]) -> Iterator[Clause]:
    """The clauses that have no variable with both signs, and share no literal with these."""
    words = {b"%d" % literal for literal in literals}
    for number, line, texts in formula.texts():
        for place, text in enumerate(texts):
            first = text.split(b" ", FEW)  # and the rest of a long clause, most of which share one of the first
            if words.isdisjoint(first) and words.isdisjoint(first[-1].split()):
                clause = clause_of(number + place, line + place, text)
                if clause.clean and clause.literals.isdisjoint(literals):
                    yield clause


def initial_cube(formula: Formula, side: Side, literals: Set[int]) -> Finding:
    missed = list(missed_clauses(formula, literals))
    if not missed:
        return Finding(None, ["Each clause of the formula shares a literal with it, or holds a variable with both signs."], {})
    reasons = [f"Clause {missed[0].number} of the formula shares no literal with the step."]
    if len(missed) > 1:
        reasons.append("Nor does one more." if len(missed) == 2 else f"Nor do {len(missed) - 1} more.")
    return Finding("S5", reasons, {}, missed[0], of_the_other_side(formula, side, literals))


def of_the_other_side(formula: Formula, side: Side, literals: Set[int]) -> str:
    """Whether an initial step that fails would be one where the trace has the other result. The empty step would often be by chance."""
    if not literals:
        return "formula"
    if side.word == "clause":
        return "formula" if next(missed_clauses(formula, literals), None) else "side"
    return "side" if initial_clause(formula, SIDES["unsat"], literals, False).fault is None else "formula"


def why_left_out(formula: Formula, side: Side, kept: Iterable[int]) -> str:
    """A literal of the deciding quantifier is never reduced, so one that is gone was lost."""
    return "lost" if any(formula.place(l).quantifier == side.deciding for l in kept) else "scheme"


def left_out(literals: Iterable[int], kept: Collection[int]) -> dict[int, str]:
    return {l: "left out, not reducible" if l in kept else "left out, reducible" for l in literals}


def reduct(formula: Formula, side: Side, name: str, antecedent: Set[int], literals: Set[int]) -> Finding:
    more = sorted(literals - antecedent, key=abs)
    if more:
        cause = "sign" if any(-l in antecedent for l in more) else "more"
        return Finding("S6", [f"{l} is not in {name}." for l in more], dict.fromkeys(more, f"not in {name}"), cause=cause)
    out = antecedent - literals
    kept = all_kept(formula, side, antecedent, out)
    if kept:
        reasons = [f"{l} is left out, and not reducible in {name}: {kept[l]}." for l in kept]
        return Finding("S7", reasons, left_out(out, kept), cause=why_left_out(formula, side, kept))
    text = f"and what is left out is reducible in {name}" if out else "with nothing left out"
    return Finding(None, [f"It is a reduct of {name}, {text}."], left_out(out, {}))


def resolvent(formula: Formula, side: Side, any_pivot: bool, parents: list[tuple[str, set[int]]], literals: Set[int]) -> Finding:
    (a_name, a), (b_name, b) = parents
    variables = clashes(a, b)
    if not variables:
        return Finding("S8", [f"No variable stands with one sign in {a_name} and with the other in {b_name}."], {})
    if len(variables) > 1:
        among = ", ".join(map(str, sorted(variables)))
        notes = {l: "clash" for l in a | b if abs(l) in variables}
        return Finding("S9", [f"They clash in {len(variables)} variables: {among}."], notes)
    pivot = variables[0]
    notes = {pivot: "pivot", -pivot: "pivot"}
    if not any_pivot and formula.place(pivot).quantifier != side.deciding:
        quantifier = ADJECTIVES.get(formula.place(pivot).quantifier, "not bound")
        reasons = [
            f"The pivot is {pivot}, which is {quantifier}.",
            f"A pivot of {side.word}s is {ADJECTIVES[side.deciding]}; with --qu it may be either.",
        ]
        return Finding("S10", reasons, notes)
    whole = {l for l in a | b if abs(l) != pivot}
    if literals - whole:
        return not_resolved(whole, literals, pivot, notes)
    reasons = []
    out = sorted(whole - literals, key=abs)
    in_resolvent = all_kept(formula, side, whole, out)
    in_parents = [(name, all_kept(formula, side, parent, parent.intersection(out))) for name, parent in parents]
    for l in out:
        in_parent = next(((name, kept[l]) for name, kept in in_parents if l in kept), None)
        if l in in_resolvent and in_parent:
            notes[l] = "left out, not reducible"
            reasons.append(f"{l} is left out, and not reducible in the resolvent: {in_resolvent[l]}.")
            reasons.append(f"Nor is it reducible in {in_parent[0]}: {in_parent[1]}.")
        else:
            notes[l] = f"left out, reducible in the {'parents' if l in in_resolvent else 'resolvent'}"
    if reasons:
        lost = [l for l in out if notes.get(l) == "left out, not reducible"]
        return Finding("S12", reasons, notes, cause=why_left_out(formula, side, lost))
    text = "nothing is left out of it" if whole <= literals else "what is left out of it may be reduced"
    return Finding(None, [f"It is the resolvent of {a_name} and {b_name} on {pivot}, and {text}."], notes)


def not_resolved(whole: Set[int], literals: Set[int], pivot: int, notes: dict[int, str]) -> Finding:
    """What is found of a step with literals that its resolvent does not hold."""
    more = sorted(literals - whole, key=abs)
    reasons = []
    for l in more:
        reasons.append(f"{l} is of the pivot, which the resolvent does not hold." if abs(l) == pivot else f"{l} is in neither antecedent.")
        notes[l] = "pivot, but in the step" if abs(l) == pivot else "not in the resolvent"
    cause = "sign" if any(-l in whole for l in more) else "more"
    return Finding("S11", reasons, notes, cause="pivot" if any(abs(l) == pivot for l in more) else cause)
