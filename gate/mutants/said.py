"""What a check of `rt` says, as far as the gate reads it. Of all that it prints these lines are read:

    fn PATH: proved                                 a function that is proved; nothing else is taken for that
    fn PATH: WORDS, did not prove `GOAL`, ..        one that is not: `not proved`, `no proof` or `could not` stand there. If it says
                                                    `it calls` or `it passes`, the function was not looked at
    note: src/FILE:LINE:PLACE: it is not proved that .. (`GOAL`)..     a goal that is open, of the function that stands there; with
                                                    `at which this goal is false` after it, one that is false for some values
    note: src/FILE:LINE:PLACE: `search` found no proof (`GOAL`)..      the same, in other words
    note: `GOAL` of proofs/PATH/Answers.antt may be false ..           the same, of a function without stored answers
    proofs/PATH/FILE:LINE:PLACE: error: TEXT        a stored answer that does not fit, or that no goal asks for
    src/FILE:LINE:PLACE: error: TEXT, error ..      a fault of the sources themselves, so that nothing is said of any function; `error[KIND]`
                                                    may stand there, too

tests/gate/test-proofs has a text of each kind, as the toolchain printed it.
"""

import re
from collections.abc import Callable
from dataclasses import dataclass, field
from pathlib import Path
from typing import Optional

from .bodies import first_line
from .edits import read_file, source_of

# The goals of a contract: of what a function ensures, of the invariants of its loops and of its types. Not of what a function requires that
# is called, of safety, of a `prove!`, or of the end of a loop.
OF_CONTRACT = re.compile(r"(?:returns|loop|invariant_of)(?:-|$)|[\w-]*-(?:init|preserved)(?:-|$)")
OF_OTHERS = re.compile(r"-requires|-smaller(?:-|$)")


@dataclass
class Said:
    """What a check says of a function."""

    goals: list[str] = field(default_factory=list)  # which the prover could not show, of any kind
    false: list[str] = field(default_factory=list)  # those of them that it found to be false for some values
    waits: bool = False  # it was not looked at, since what it calls is not proved
    misfits: list[str] = field(default_factory=list)  # stored answers that do not fit: where and why
    is_proved: bool = False

    def of_contract(self) -> list[str]:
        """The goals that are open of the function's own contract."""
        return [goal for goal in self.goals if OF_CONTRACT.match(goal) and not OF_OTHERS.search(goal)]


@dataclass
class Check:
    """What a check says: of each function that it names, by its path, and faults of the sources, with the names of the functions they are in."""

    functions: dict[str, Said]
    faults: list[str]
    broken: dict[str, str] = field(default_factory=dict)


def function_at(crate: Path, file: str, line: int) -> Optional[str]:
    """The name of the function that a line of a source file is of, from its comments and attributes to the next function; None above all."""
    source, name = source_of("", file, read_file(crate, file)), None
    for function in source.functions:
        if source.line(first_line(function, source.text)) > line:
            break
        name = function.name
    return name


def read_check(text: str, function_at: Callable[[str, int], Optional[str]]) -> Check:
    """Reads what a check prints. An open goal counts for the function that `function_at` finds where the goal stands."""
    found, misfits, faults = Check({}, []), [], []
    broken: dict[str, str] = {}
    notes: list[tuple[str, bool, Optional[str]]] = []
    for line in text.splitlines():
        function = re.match(r"fn (\S+): (\w+ \w+|\w+)(.*)", line)
        note = re.match(r"note: (src/\S+?):(\d+):\d+: (?:it is not proved that .*|`\w+` found no proof )\(`([^`]+)`\)(.*)", line)
        error = re.match(r"(?:\./)?((src|specs|proofs)/\S+?):(\d+):\d+: error(?:\[[\w-]+\])?: (.*)", line)
        if function:
            if function[2] in ("proved", "not proved", "no proof", "could not"):
                found.functions[function[1]] = said_of(function[1], function[3], notes)
                found.functions[function[1]].is_proved = function[2] == "proved"
            notes = []
        elif note:
            notes.append((note[3], "at which this goal is false" in note[4], function_at(note[1], int(note[2]))))
        elif error and error[2] == "proofs":
            misfits += [] if error[4].startswith("`no_answer`") else [f"{error[1]}:{error[3]}: {error[4]}"]
        elif error or re.match(r"error\b", line):
            faults.append(line[:200])
            if name := function_at(error[1], int(error[3])) if error and error[2] == "src" else None:
                broken.setdefault(name, line[:200])
    for path, said in found.functions.items():
        folder = "proofs/" + "/".join(path.split("::")[1:]) + "/"
        said.misfits = [misfit for misfit in misfits if misfit.startswith(folder)]
        said.false += [goal for goal in said.goals if f"`{goal}` of {folder}Answers.antt may be false" in text]
    return Check(found.functions, faults, broken)


def said_of(path: str, words: str, notes: list[tuple[str, bool, Optional[str]]]) -> Said:
    """What the line of a function says, and the notes before it that are of that function."""
    own = [(goal, is_false) for goal, is_false, name in notes if name in re.split(r"::|\+", path)]
    goals = re.findall(r"`([^`]+)`", words.partition("did not prove ")[2])
    goals += [goal for goal, _ in own if goal not in goals]
    return Said(goals, [goal for goal, is_false in own if is_false], " it calls " in words or " it passes " in words)
