"""Bodies that are tried: those of mutants, and right ones that these are compared with.

A body stands as a function of its own after the one that it is a body of, with its contract and its stored answers, and nothing calls it: so
that many go together in one check. It stands in the place of the crate's own if it is of a method of a trait, of `main`, or of a function that
calls itself, or if it changes more than one function.
"""

import re
import shutil
from dataclasses import dataclass, field, replace
from pathlib import Path
from typing import Optional

from rattle_source import Function, blanked

from .edits import Mutant, functions_of, read_file


@dataclass
class Copy:
    """A function of its own with the body of another one."""

    of: str
    path: str
    file: str
    place: int
    text: str
    calls_own: bool  # whether the body calls the crate's own function, as only a copy can


@dataclass
class Body:
    """A body, or several, to be tried in a crate."""

    name: str
    # the changed files by their paths in the crate: none, if it is the crate's own body
    files: dict[str, str]
    functions: frozenset[str]
    # whether the prover is given the stored answers of the changed functions
    is_answered: bool
    is_right: bool
    adds_functions: bool = False
    copy: Optional[Copy] = None

    def paths(self) -> frozenset[str]:
        """The functions that a check looks at for it."""
        return frozenset({self.copy.path}) if self.copy else self.functions

    def of(self, path: str) -> str:
        """The function that a body is of, by the one that a check looks at."""
        return self.copy.of if self.copy else path

    def in_place(self) -> "Body":
        """The body in the place of the crate's own, unless it calls that."""
        return self if self.copy and self.copy.calls_own else replace(self, copy=None)


@dataclass
class Bodies:
    """What makes the bodies of one crate."""

    crate_name: str
    crate: Path
    made: int = field(default=0)

    def wrong(self, mutant: Mutant, is_answered: bool) -> Body:
        return self.body(mutant.name, mutant.files, mutant, (is_answered, False))

    def right(self, mutant: Mutant, is_answered: bool) -> Body:
        """The right body of a mutant: one of its own, if it has right texts, or else that of the crate, which mutants share."""
        return self.body(right_name(mutant), mutant.rights, mutant, (is_answered, True))

    def body(self, name: str, files: dict[str, str], mutant: Mutant, how: tuple[bool, bool]) -> Body:
        self.made += 1
        body = Body(name, files, frozenset(mutant.functions), *how, mutant.adds_functions and files != {})
        if len(mutant.functions) == 1 and not mutant.adds_functions and len(mutant.files) == 1:
            (path,), (file,) = mutant.functions, mutant.files
            body.copy = self.copy(path, file, files.get(file), mutant.files[file])
        return body

    def copy(self, path: str, file: str, text: Optional[str], wrong: str) -> Optional[Copy]:
        """A copy of a function with the body that it has in a text, or with its own; None if the mutant's has to stand in its place."""
        before = read_file(self.crate, file)
        shown = before if text is None else text
        find = lambda text: functions_of(self.crate_name, file, text).get(path)
        old, new, changed = find(before), find(shown), find(wrong)
        if not old or not new or not changed or old.name == "main" or old.is_of_trait:
            return None
        is_alone = is_changed_alone(before, wrong, old, changed) and is_changed_alone(before, shown, old, new)
        # A right text may call the function: in a copy that is a call of the crate's own.
        if calls_itself(wrong, changed) or not is_alone:
            return None
        name = f"{path}_tried_{self.made}"
        return Copy(path, name, file, old.end, "\n\n" + named(shown, new, name.rsplit("::", 1)[1]), calls_itself(shown, new))


def right_name(mutant: Mutant) -> str:
    """The name of the right body of a mutant: the same for all that are compared with the crate's own."""
    return f"right body of {mutant.name if mutant.rights else ' '.join(sorted(mutant.functions))}"


def is_changed_alone(before: str, text: str, old: Function, new: Function) -> bool:
    """Whether two texts of a file differ in one function alone."""
    start, first = first_line(old, before), first_line(new, text)
    return before[:start] == text[:first] and before[old.end :] == text[new.end :]


def calls_itself(text: str, function: Function) -> bool:
    """Whether a function of a text calls itself, so that a copy of it would call another one."""
    call = rf"(?<![.:\w]){function.name}\(|\b[Ss]elf(?:\.|::){function.name}\(|#\[cycle"
    words = text[first_line(function, text) : function.name_end - len(function.name)] + text[function.name_end : function.end]
    return re.search(call, blanked(words)) is not None


def first_line(function: Function, text: str) -> int:
    """Where the lines of a function begin, with its attributes and the comments above them."""
    line = text.rfind("\n", 0, function.first) + 1
    found = re.search(r"(?:^ *///.*\n)*\Z", text[:line], re.M)
    return found.start() if found else line


def named(text: str, function: Function, name: str) -> str:
    """The text of a function under another name."""
    place = function.name_end - len(function.name)
    return text[first_line(function, text) : place] + name + text[function.name_end : function.end]


# ---- in a folder of the crate


def put(bodies: list[Body], crate_name: str, crate: Path) -> None:
    """Puts bodies, which change no place twice, into the crate's folder, with their stored answers or without."""
    for file, text in together(bodies, crate).items():
        (crate / file).write_text(text, encoding="utf-8")
    for body in bodies:
        if body.copy:
            copy_proofs(body.copy, crate_name, crate)
        for path in body.paths():
            put_answers(path, body, crate)


def together(bodies: list[Body], crate: Path) -> dict[str, str]:
    """The files of the crate with all of these bodies."""
    places: dict[str, list[tuple[int, int, str]]] = {}
    for body in bodies:
        if body.copy:
            places.setdefault(body.copy.file, []).append((body.copy.place, body.copy.place, body.copy.text))
            continue
        for file, text in body.files.items():
            places.setdefault(file, []).extend(changes(read_file(crate, file), text))
    files = {}
    for file, changed in places.items():
        files[file] = read_file(crate, file)
        for start, end, new in sorted(set(changed), reverse=True):
            files[file] = files[file][:start] + new + files[file][end:]
    return files


def changes(before: str, after: str) -> list[tuple[int, int, str]]:
    """The lines of a text that are changed, each with its first place, the place after it, and what then stands there. None is added."""
    found, place = [], 0
    for old, new in zip(before.splitlines(True), after.splitlines(True), strict=True):
        found += [(place, place + len(old), new)] if old != new else []
        place += len(old)
    return found


def copy_proofs(copy: Copy, crate_name: str, crate: Path) -> None:
    """Gives the copy of a function the stored proofs of that function."""
    source, target = proofs_of(copy.of, crate), proofs_of(copy.path, crate)
    if source.is_dir():
        shutil.copytree(source, target)
        old, new = (path.split("::", 1)[1].replace("::", ".") for path in (copy.of, copy.path))
        own = rf"(\bRattle\.{crate_name}\.(?:proofs|specs\.contracts)\.){re.escape(old)}(?![\w-])"
        for file in sorted(target.rglob("*.antt")):
            file.write_text(re.sub(own, rf"\g<1>{new}", file.read_text(encoding="utf-8")), encoding="utf-8")


def proofs_of(path: str, crate: Path) -> Path:
    return crate / "proofs" / Path(*path.split("::")[1:])


# A check that cannot prove a function runs once more, to print the goals and a file for their answers: that takes a third of its time.
# If it refuses a stored answer, as this one, it only names the goals that are open. So each wrong body gets it, and no right one: that one is
# proved only if the check says so.
NO_ANSWER = "no_answer : Type 0\nno_answer = Type 0\n"


def put_answers(path: str, body: Body, crate: Path) -> None:
    """Leaves a function its stored answers, or takes all out; and adds one that is refused, if its body is wrong."""
    file = proofs_of(path, crate) / "Answers.antt"
    before = file.read_text(encoding="utf-8") + "\n" if file.exists() and body.is_answered else ""
    file.unlink(missing_ok=True)
    text = before if body.is_right else before + NO_ANSWER
    if text:
        file.parent.mkdir(parents=True, exist_ok=True)
        file.write_text(text, encoding="utf-8")
