"""The rule by which mutants are refused, and the tasks that find what it asks for.

A mutant is refused if the contract of a function that it changes is open with it, and closes whole with the right body under the same
conditions. First both are tried with the function's stored answers. If one of these does not fit either of them, or is asked for by no goal, all
answers of the function are taken out, of both. If the right body needs its answers, the mutant needs a witness: a test in its file, which must
pass with the right body and fail with the mutant. One that has a witness is judged by that, and the right body is not tried without answers.
"""

import time
from collections.abc import Callable, Hashable
from dataclasses import dataclass
from functools import cache, partial
from pathlib import Path
from typing import Optional

from crates import Crates, Lanes, Runs, processors

from .bodies import Bodies, Body, right_name
from .edits import BadEdit, Mutant, read_mutant
from .prover import Prover
from .rounds import MOST, Graph, calls, most_together, reached, rounds
from .said import Check, Said
from .witnesses import Run, Witness

# How a mutant was refused.
FALSE, NOT_SHOWN, WITNESS = "false for the contract", "not shown, and the right body is proved", "not shown, and wrong by a witness"


@dataclass
class Verdict:
    """What was found of a mutant: how it was refused and where, or why not."""

    how: str
    function: str = ""
    goal: str = ""
    why: str = ""


class Outcome:
    """What a check says of a body: of each function that it looks at, or the fault that hides it."""

    def __init__(self, body: Body, functions: dict[str, Said], faults: list[str]) -> None:
        self.fault = faults[0] if faults else ""
        self.said = {body.of(path): functions[path] for path in body.paths() if path in functions}
        self.is_whole = len(self.said) == len(body.paths()) and not faults

    def is_known(self) -> bool:
        """Whether the check looked at the body: at each of its functions, or at one that is open, on which the others rest."""
        waits = any(said.waits for said in self.said.values())
        return self.is_whole and (not waits or any(said.goals for said in self.said.values() if not said.waits))

    def misfits(self) -> list[str]:
        return [misfit for said in self.said.values() for misfit in said.misfits]

    def is_proved(self) -> bool:
        return self.is_whole and all(said.is_proved for said in self.said.values())

    def goals(self, of_contract: bool) -> list[tuple[str, str, bool]]:
        """The goals that are open, those that are false first: the function, the goal, and whether it is false."""
        found = [
            (function, goal, goal in said.false)
            for function, said in sorted(self.said.items())
            for goal in (said.of_contract() if of_contract else said.goals)
        ]
        return sorted(found, key=lambda one: (not one[2], not one[1].startswith("returns")))


class CrateTrial:
    """The mutants of one crate, and what came of them."""

    def __init__(self, name: str, crate: Path, mutants: list[Mutant], reach: Graph) -> None:
        self.name, self.crate, self.mutants, self.reach = name, crate, mutants, reach
        self.bodies = Bodies(name, crate)
        # By whether the stored answers are there, and the name of the body.
        self.outcomes: dict[tuple[bool, str], Outcome] = {}
        self.verdicts: dict[str, Verdict] = {}

    def answered(self) -> list[Body]:
        """The bodies that are tried with stored answers: the mutants, and those right bodies that are not the crate's own."""
        right = [self.bodies.right(mutant, True) for mutant in self.mutants if mutant.rights]
        return [*(self.bodies.wrong(mutant, True) for mutant in self.mutants), *right]

    def unanswered(self) -> list[Body]:
        """The bodies tried without: mutants with which, or with whose right bodies, an answer does not fit, and these unless a witness tells."""
        left = [mutant for mutant in self.mutants if not self.fits(mutant)]
        right = {body.name: body for body in (self.bodies.right(mutant, False) for mutant in left if not mutant.witness)}
        return [*(self.bodies.wrong(mutant, False) for mutant in left), *right.values()]

    def fits(self, mutant: Mutant) -> bool:
        return not any(outcome and outcome.misfits() for outcome in self.pair(mutant, True))

    def pair(self, mutant: Mutant, is_answered: bool) -> tuple[Optional[Outcome], Optional[Outcome]]:
        """What was said of a mutant and of its right body; of the crate's own with its answers nothing, since that is proved."""
        return self.outcomes.get((is_answered, mutant.name)), self.outcomes.get((is_answered, right_name(mutant)))

    def judge(self, mutant: Mutant) -> Verdict:
        """The verdict on a mutant as far as proofs give it: with the how of a witness, if it needs one."""
        is_answered = self.fits(mutant)
        wrong, right = self.pair(mutant, is_answered)
        if wrong is None or wrong.fault:
            return Verdict("", why=f"no check reads it: {wrong.fault if wrong else 'it was not tried'}")
        if not wrong.is_known():
            return Verdict("", why="was not looked at: what it calls is not proved")
        goals, others = wrong.goals(True), wrong.goals(False)
        if not goals:
            why = [f"{function}: {goal}: no goal of its contract is open" for function, goal, _ in others] + wrong.misfits()
            return Verdict("", why=[*why, "no goal is open with this body"][0])
        function, goal, is_false = goals[0]
        is_own = is_answered and not mutant.rights
        if is_own or right is not None and right.is_proved():
            return Verdict(FALSE if is_false else NOT_SHOWN, function, goal)
        return Verdict(WITNESS, function, goal, why_not(right))


def why_not(right: Optional[Outcome]) -> str:
    """Why a right body is not proved whole."""
    goals = right.goals(False) if right else []
    misfits = right.misfits() if right else []
    open_goal = goals[0][1] if goals else misfits[0] if misfits else "it could not be checked"
    return f"the right body is not proved without its stored answers ({open_goal})"


class Trial:
    """The mutants of all crates."""

    def __init__(self, repository: Crates, rt: str, jobs: int, folder: Path, tell: Callable[[str, Mutant, Verdict], None]) -> None:
        self.repository, self.tell = repository, tell
        self.runs = Runs()
        self.lanes = Lanes(jobs, self.runs)
        self.jobs, self.most = jobs, MOST
        self.prover = Prover(repository, rt, self.runs, folder)

    def run(self, mutants: dict[str, list[Mutant]]) -> None:
        """Tries the mutants of each crate, and tells the verdict on each."""
        names = [name for name in mutants if mutants[name]]
        self.most = most_together(sum(len(those) for those in mutants.values()), self.jobs)
        for name in self.repository.on:
            if any(name == above or name in self.repository.below(above) for above in names):
                after = [("proved", below) for below in self.repository.below(name)]
                self.lanes.add(("proved", name), after, partial(self.prover.prove, name), processors())
        # Those with the most mutants take longest, so they come first; and of others those above.
        for name in sorted(reversed(names), key=lambda name: -len(mutants[name])):
            folder = self.repository.folder(name)
            trial = CrateTrial(name, folder, mutants[name], reached(calls(name, folder)))
            self.add(trial, trial.answered(), "", [("proved", name)], partial(self.go_on, trial))
        self.lanes.run()

    def go_on(self, trial: CrateTrial) -> None:
        """What follows once all bodies of a crate were tried with their stored answers."""
        self.judge(trial, [mutant for mutant in trial.mutants if trial.fits(mutant)])
        rest = [mutant for mutant in trial.mutants if not trial.fits(mutant)]
        self.add(trial, trial.unanswered(), "without answers ", [], partial(self.judge, trial, rest))

    def add(self, trial: CrateTrial, bodies: list[Body], label: str, after: list[Hashable], then: Callable[[], None]) -> None:
        """Adds the rounds of some bodies; after them those that a round did not decide, alone and in their places; and what then follows."""
        keys = self.add_rounds(trial, rounds(bodies, trial.reach, self.most), label, after)

        def try_left(_: int) -> None:
            left = [body.in_place() for body in bodies if not trial.outcomes[body.is_answered, body.name].is_known()]
            alone = self.add_rounds(trial, [[body] for body in left], f"{label}alone ", [])
            self.lanes.add((trial.name, label, "end"), alone, lambda _: then())

        self.lanes.add((trial.name, label, "left"), keys, try_left)

    def add_rounds(self, trial: CrateTrial, groups: list[list[Body]], label: str, after: list[Hashable]) -> list[Hashable]:
        # The first rounds come last, so that what was begun of a crate is told, and kept, before the next one is.
        rank = 0 if label else 1
        keys: list[Hashable] = []
        for number, group in enumerate(groups, 1):
            keys.append((trial.name, label, number))
            self.lanes.add(keys[-1], after, partial(self.try_round, trial, f"{label}{number}", group), rank=rank)
        return keys

    def try_round(self, trial: CrateTrial, label: str, bodies: list[Body], _: int) -> None:
        """Tries bodies together. Those that do not compile are named at once, and the others are tried again without them."""
        begun = time.monotonic()
        found = self.prover.check(trial.name, label, bodies)
        while broken := {body.name: fault for body in bodies if (fault := fault_of(body, found)) and len(bodies) > 1}:
            for body in [body for body in bodies if body.name in broken]:
                trial.outcomes[body.is_answered, body.name] = Outcome(body, {}, [broken[body.name]])
                print(f"{trial.name} {label}: {body.name} does not compile: {broken[body.name]}", flush=True)
            bodies = [body for body in bodies if body.name not in broken]
            if not bodies:
                return
            found = self.prover.check(trial.name, label, bodies)
        for body in bodies:
            trial.outcomes[body.is_answered, body.name] = Outcome(body, found.functions, found.faults)
        count = f"{len(bodies)} bodies" if len(bodies) > 1 else bodies[0].name
        print(f"{trial.name} {label}: {count}, {time.monotonic() - begun:.0f} s", flush=True)

    def judge(self, trial: CrateTrial, mutants: list[Mutant]) -> None:
        """Tells the verdicts on mutants of a crate, and adds the task that runs the witnesses of those that need one."""
        needy = []
        for mutant in mutants:
            verdict = trial.judge(mutant)
            if verdict.how == WITNESS and mutant.witness:
                needy.append((mutant, verdict))
            else:
                left = Verdict("", verdict.function, verdict.goal, f"it has no witness, and {verdict.why}")
                self.tell(trial.name, mutant, left if verdict.how == WITNESS else verdict)
        if needy:
            self.lanes.add((trial.name, "witnesses", needy[0][0].name), [], partial(self.ask_witnesses, trial, needy))

    def ask_witnesses(self, trial: CrateTrial, needy: list[tuple[Mutant, Verdict]], _: int) -> None:
        """Runs the witnesses of mutants with both bodies, as many as can in one run, and adds the tasks that run each other one alone."""
        asked = [(witness, mutant, verdict) for mutant, verdict in needy for witness in [Witness(mutant, trial.bodies)]]
        self.run_witnesses(trial, f"witnesses of {needy[0][0].name}", [run for witness, _, _ in asked for run in witness.runs if run.is_beside])
        for witness, mutant, verdict in asked:
            if all(run.passed is not None for run in witness.runs):
                self.tell(trial.name, mutant, judged(witness, verdict))
            else:
                self.lanes.add((trial.name, "witness", mutant.name), [], partial(self.ask_alone, trial, (witness, mutant, verdict)))

    def ask_alone(self, trial: CrateTrial, asked: tuple[Witness, Mutant, Verdict], _: int) -> None:
        """Runs a witness with those bodies with which it was not run yet, each in its place."""
        witness, mutant, verdict = asked
        for number, run in enumerate(witness.runs):
            if run.passed is None:
                self.run_witnesses(trial, f"{mutant.name} {number}", [run.in_place()])
        self.tell(trial.name, mutant, judged(witness, verdict))

    def run_witnesses(self, trial: CrateTrial, label: str, runs: list[Run]) -> None:
        begun = time.monotonic()
        passed = self.prover.passes(trial.name, label, [run.body for run in runs if run.body], [run.test() for run in runs])
        for run, is_passed in zip(runs, passed):
            run.passed = is_passed
        print(f"{trial.name} {label}: {len(runs)} tests, {time.monotonic() - begun:.0f} s", flush=True)


def fault_of(body: Body, found: Check) -> str:
    """The fault of the sources that stands in a body, or nothing."""
    return next((fault for name, fault in found.broken.items() if any(path.rsplit("::", 1)[1] == name for path in body.paths())), "")


def judged(witness: Witness, verdict: Verdict) -> Verdict:
    """The verdict on a mutant that needs a witness, by what that told."""
    right, wrong = (run.passed for run in witness.runs)
    if right is None or wrong is None:
        return Verdict("", why="its witness could not be run")
    if not right or wrong:
        return Verdict("", why=f"its witness {'passes with it too' if right else 'fails with the right body too'}")
    return verdict


@cache
def mutants_of(name: str, crate: Path) -> tuple[list[Mutant], list[tuple[str, str]]]:
    """The mutants of a crate, and those that cannot be applied, each with the reason."""
    found, bad = [], []
    for path in sorted((crate / "must-fail").glob("*.edit")):
        try:
            found.append(read_mutant(path, name, crate))
        except BadEdit as why:
            bad.append((path.stem, str(why)))
    return found, bad
