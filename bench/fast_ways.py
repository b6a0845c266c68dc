"""The fast ways of the checker, and a tree in which some of them are out of use.

Each has a switch, an edit of bench/switches in the form of those of must-fail (gate/mutants/edits.py reads it): lines `file:`, `old:` and `new:`,
one line for one line. Lines before these name it in plain words (`title:`), say what it is (`is:`), which crate the file is of (`crate:`), which
fast way it is of no use without (`under:`), that it is none but keeps a check linear (`keeps:`), the files at which it begins, if it has some of its
own (`doors:`), on which inputs it is measured (`inputs:`), and on which others it counts too (`also:`).
"""

import hashlib
import os
import shutil
import subprocess
from collections.abc import Callable
from dataclasses import dataclass
from functools import partial
from pathlib import Path

from crates import PARTS, Crates, Stopped, copy, copy_crate
from mutants.edits import BadEdit, applied, functions_of, pairs_of, read_file, words_of

ROOT = Path(__file__).resolve().parent.parent
SWITCHES = ROOT / "bench" / "switches"
BUILT = ROOT / "bench" / "out"
PROGRAM = "qrp_cmd"


@dataclass(frozen=True)
class FastWay:
    """A fast way, as its file describes it, and the changes that put it out of use: file, old text, new text."""

    name: str
    title: str
    says: str
    crate: str
    under: str
    keeps_linear: bool
    doors: tuple[str, ...]
    inputs: tuple[str, ...]
    also: tuple[str, ...]
    changes: tuple[tuple[str, str, str], ...]


def read_fast_way(path: Path) -> FastWay:
    """The fast way of a file. Raises Stopped."""
    lines = [line.partition(":") for line in path.read_text(encoding="utf-8").splitlines()]
    said = {word: text.strip() for word, _, text in lines}
    missing = [word for word in ("title", "is", "crate", "inputs") if not said.get(word)]
    if missing:
        raise Stopped(f"{path.name} has no line {missing[0]}:")
    changes = tuple((file, old, new) for file, old, new, _ in pairs_of(path.read_text(encoding="utf-8")))
    doors, inputs, also = (tuple(said.get(word, "").split()) for word in ("doors", "inputs", "also"))
    return FastWay(path.stem, said["title"], said["is"], said["crate"], said.get("under", ""), "keeps" in said, doors, inputs, also, changes)


def fast_ways() -> dict[str, FastWay]:
    """All of them by name, each after the one that carries it."""
    found = {path.stem: read_fast_way(path) for path in sorted(SWITCHES.glob("*.edit"))}
    ordered: dict[str, FastWay] = {}

    def put(under: str) -> None:
        for name, way in found.items():
            if way.under == under:
                ordered[name] = way
                put(name)

    put("")
    lost = sorted(set(found) - set(ordered))
    if lost:
        raise Stopped(f"{lost[0]}.edit is under {found[lost[0]].under}, which is no fast way")
    return ordered


def lay_out(folder: Path, ways: list[FastWay], kept: bool = True) -> None:
    """Makes a folder a tree of the program's crates in which some fast ways are out of use, with the work that is kept of their proofs, if
    wanted. Raises Stopped."""
    repository = Crates(ROOT)
    names = [*repository.below(PROGRAM), PROGRAM]
    (folder / "crates").mkdir(parents=True)
    (folder / "crates.txt").write_text("".join(f"{repository.lines[name]}\n" for name in names), encoding="utf-8")
    shutil.copytree(ROOT / "gate", folder / "gate", ignore=shutil.ignore_patterns("__pycache__"))
    for name in names:
        copy_crate(repository.folder(name), folder / "crates" / name)
        for part in ("rlib", "incremental") if kept else ():
            copy(repository.folder(name) / "out" / part, folder / "crates" / name / "out" / part, linked=True)
    for way in ways:
        put_out_of_use(folder, way)


def changed_files(root: Path, way: FastWay) -> dict[str, str]:
    """The files that the switch of a fast way changes in a tree, by their paths in the crate, as they are then. Raises Stopped."""
    try:
        return applied(way.changes, partial(read_file, root / "crates" / way.crate))
    except BadEdit as why:
        raise Stopped(f"{way.name}.edit: {why}") from None


def put_out_of_use(root: Path, way: FastWay) -> None:
    """Applies the switch of a fast way to a tree. Raises Stopped."""
    for file, text in changed_files(root, way).items():
        (root / "crates" / way.crate / file).write_text(text, encoding="utf-8")


def switched(way: FastWay) -> list[str]:
    """The functions whose bodies the switch of a fast way changes, or that it leaves out. Raises Stopped, also if it changes a contract."""
    found = []
    for file, text in changed_files(ROOT, way).items():
        text_before = (ROOT / "crates" / way.crate / file).read_text(encoding="utf-8")
        after = functions_of(way.crate, file, text)
        for path, function in functions_of(way.crate, file, text_before).items():
            if path not in after or after[path].contract() != function.contract():
                raise Stopped(f"{way.name}.edit changes the contract of {function.name}")
            if words_of(after[path], text) != words_of(function, text_before):
                found.append(function.name)
    return found


def checksum(root: Path) -> str:
    """A checksum of all that the program of a tree is made of."""
    files = sorted(file for part in PARTS for file in root.glob(f"crates/*/{part}/**/*") if file.is_file())
    found = hashlib.sha256()
    for file in files:
        found.update(str(file.relative_to(root)).encode() + b"\0" + hashlib.sha256(file.read_bytes()).digest())
    return found.hexdigest()[:16]


def built_without(ways: list[FastWay], say: Callable[[str], None] = print) -> Path:
    """The program without some fast ways, proved and built, unless that was done before. Raises Stopped."""
    BUILT.mkdir(exist_ok=True)
    folder = BUILT / f"tree-{os.getpid()}"
    try:
        lay_out(folder, ways)
        program = BUILT / f"{PROGRAM}-{checksum(folder)}"
        if not program.exists():
            say(f"proves and builds the program without {', '.join(way.name for way in ways) or 'nothing'}: ten minutes or more")
            done = subprocess.run(["nice", folder / "gate" / "prove", PROGRAM], check=False)
            if done.returncode:
                raise Stopped("it is not proved")
            shutil.copy2(folder / "crates" / PROGRAM / "out" / PROGRAM, program)
        return program
    finally:
        shutil.rmtree(folder, ignore_errors=True)
