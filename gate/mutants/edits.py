"""The edits of mutants: what a file of must-fail/ changes in its crate.

It has lines `file: PATH`, `old: TEXT` and `new: TEXT`, where each old text stands once in that file as the pairs before it left it. A line
`right: TEXT` after a new text makes another right body than the one of the crate, to compare the mutant with. Lines `witness: TEXT` are the
body of a small test, which passes with the right body and fails with the mutant.
"""

import functools
import re
from collections.abc import Callable, Iterable
from dataclasses import dataclass, field
from pathlib import Path
from typing import Optional

from rattle_source import Function, Source, apart, end_of_group, one_line

# The file, the old text, the new one, and the right one if there is one.
Pair = tuple[str, str, str, Optional[str]]


class BadEdit(Exception):
    """Why an edit cannot be tried."""


@dataclass
class Mutant:
    """What a mutant changes: the changed files by their paths in the crate, and the functions in them."""

    name: str
    files: dict[str, str]
    # the changed files with its right texts, if it has some
    rights: dict[str, str]
    witness: str
    functions: set[str] = field(default_factory=set)
    adds_functions: bool = False


def read_mutant(path: Path, crate_name: str, crate: Path) -> Mutant:
    """The mutant of a file, applied to the files of the crate's folder. Raises BadEdit."""
    text = path.read_text(encoding="utf-8")
    pairs = pairs_of(text)
    if not pairs:
        raise BadEdit("it has no pair of an old and a new text")
    read = functools.partial(read_file, crate)
    files = applied([(file, old, new) for file, old, new, _ in pairs], read)
    if all(read_file(crate, name) == text for name, text in files.items()):
        raise BadEdit("it changes nothing")
    if any(right in (old, new) for _, old, new, right in pairs):
        raise BadEdit("a right text is the old or the new one")
    has_right = any(right is not None for *_, right in pairs)
    rights = applied([(file, old, new if right is None else right) for file, old, new, right in pairs], read) if has_right else {}
    mutant = Mutant(path.stem, files, rights, "\n".join(re.findall(r"(?m)^witness: ?(.*)$", text)))
    find_functions(mutant, crate_name, crate)
    return mutant


def pairs_of(text: str) -> list[Pair]:
    """The pairs of the text of an edit. Raises BadEdit."""
    pairs: list[Pair] = []
    file, old = None, None
    for line in text.split("\n"):
        word, _, rest = line.partition(":")
        if word == "file":
            file = rest.strip()
        elif word == "old":
            old = rest.removeprefix(" ")
        elif word == "new":
            if file is None or old is None:
                raise BadEdit("a new text comes before any file or old text")
            pairs.append((file, old, rest.removeprefix(" "), None))
            old = None
        elif word == "right":
            if not pairs or old is not None or pairs[-1][3] is not None:
                raise BadEdit("a right text does not come after a new text")
            pairs[-1] = (*pairs[-1][:3], rest.removeprefix(" "))
    return pairs


def applied(changes: Iterable[tuple[str, str, str]], read: Callable[[str], str]) -> dict[str, str]:
    """The files that changes of an old text to another one leave, of those that are read by their names. Raises BadEdit."""
    files: dict[str, str] = {}
    for file, old, new in changes:
        files[file] = replaced(file, files.get(file) or read(file), old, new)
    return files


def read_file(crate: Path, file: str) -> str:
    if not re.fullmatch(r"src/([a-z0-9_]+/)*[a-z0-9_]+\.rt", file):
        raise BadEdit(f"{file} is no source file of a crate")
    try:
        return (crate / file).read_text(encoding="utf-8")
    except FileNotFoundError:
        raise BadEdit(f"there is no {file}") from None


def replaced(file: str, text: str, old: str, new: str) -> str:
    found = text.count(old)
    if found != 1:
        raise BadEdit(f"an old text stands {found} times in {file}, and not once")
    return text.replace(old, new)


# ---- functions of a source file


@functools.lru_cache(maxsize=256)
def source_of(crate_name: str, file: str, text: str) -> Source:
    return Source(crate_name, file, text)


def functions_of(crate_name: str, file: str, text: str) -> dict[str, Function]:
    """The functions of a source file by the paths that the prover gives them."""
    return {function.path: function for function in source_of(crate_name, file, text).functions}


def words_of(function: Function, text: str) -> str:
    """What a function is, from its attributes to the end of its body, without comments and layout."""
    return one_line(text[function.first : function.end])


def find_functions(mutant: Mutant, crate_name: str, crate: Path) -> None:
    """Notes which functions of the crate a mutant changes. Raises BadEdit if it changes a contract, a constant, or nothing that is proved."""
    for file, text in mutant.files.items():
        text_before = read_file(crate, file)
        before, after = functions_of(crate_name, file, text_before), functions_of(crate_name, file, text)
        for path, function in before.items():
            if path in after and words_of(after[path], text) != words_of(function, text_before):
                check_contract(function, after[path])
                mutant.functions.add(path)
        mutant.adds_functions |= not set(after) <= set(before)
        for constant in constants_of(source_of(crate_name, file, text_before)) ^ constants_of(source_of(crate_name, file, text)):
            raise BadEdit(f"it changes more than functions: {constant}")
    if not mutant.functions:
        raise BadEdit("it adds a function, and changes none" if mutant.adds_functions else "it changes no function")


def check_contract(before: Function, after: Function) -> None:
    """Raises BadEdit if a function has another contract than before, or a public one other arguments."""
    is_private = not before.signature.startswith("pub fn") and not before.is_of_trait
    if before.contract() != after.contract():
        raise BadEdit(f"it changes the contract of {before.name}")
    if before.signature != after.signature and not (is_private and only_takes_more(before.signature, after.signature)):
        raise BadEdit(f"it changes the signature of {before.name}")


def only_takes_more(before: str, after: str) -> bool:
    """Whether a signature is another one with arguments more."""
    (taken, result), (taken_after, result_after) = parts_of(before), parts_of(after)
    left = iter(taken_after)
    return result == result_after and all(argument in left for argument in taken)


def parts_of(signature: str) -> tuple[list[str], str]:
    """The arguments of a signature, and its result."""
    start = signature.find("(", signature.find("fn "))
    end = end_of_group(signature, start)
    return [" ".join(argument.split()) for argument in apart(signature[start + 1 : end - 1])], signature[end:].strip()


def constants_of(source: Source) -> set[str]:
    """The texts of the constants of a source, and of its definitions for the prover."""
    return {one_line(source.text[item.start : item.end]) for item in source.items if item.kind in ("const", "static", "ghost")}
