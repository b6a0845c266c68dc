"""The requests for memory of the sources: how much each asks for at once, and which of them stand in a loop.

A request that cannot be met is a way to return out of memory, and no clause speaks of it. So each request is written down with the expression
of its size: the names in it with their `let`, assignments, patterns and constants, and where a name is a number that the function is passed, the
same of each call of that function. Of a request in a loop, and of a call in a loop that fails only out of memory, the head of the loop is
written down; and of a file that asks for memory its constant numbers.

Which calls ask for memory is read off the signatures of the toolchain's libraries: those whose error may be that of the allocator. A crate
that names no allocator, and no type or macro that takes memory, has no requests: what its functions are called there takes none.
"""

import os
import re
import subprocess
from collections.abc import Iterable, Iterator
from functools import cache
from pathlib import Path
from typing import Optional

from memory_places import SELF
from mutants.edits import parts_of
from rattle_source import Function, Source, apart, end_of_group, find_outside

Request = tuple[str, str, str]  # the file, the function, and what it asks for

# The libraries of the toolchain that the sources use.
LIBRARIES = ("std", "std_alloc", "std_collections", "std_heap", "std_io", "core", "indexmap", "itoa")
SIGNATURE = re.compile(r"\bpub\s+(?:const\s+|unsafe\s+)*fn\s+(\w+)\b([^;{]*?)(?=\b(?:requires|ensures|ghost)\b|[;{])")
# One of these words is in each source that can ask for memory.
OF_MEMORY = re.compile(r"\b(?:alloc|Alloc\w*|Global|Vec|Box|Rc|Arc|String|IndexMap|IndexSet)\b|\b(?:vec|format)!")
# They make room for one more, and are noted in loops alone.
ONE_MORE = {"push", "push_str", "insert", "insert_full"}
# Methods of traits, whose signatures are not public by a word of their own.
OF_TRAITS = {"clone", "clone_from", "collect", "extend", "from_iter", "partition", "to_owned", "to_string", "unzip"}
# Functions that take no memory have these names too, so they are not seen: `new` and `from` only of the types that put a value on the heap.
COMMON = {"new", "from", "entry", "format", "replace", "write"}
ON_THE_HEAP = r"\b(?:Box|Rc|Arc|String|PathBuf)(?:::<[^()]*?>)?::(?:new|from)(?=\()"
OF_LISTS = {"push", "insert", "get", "pop", "extend", "contains", "position"}
PARAMETERS = r"\s*(?:::\s*<[^()]*?>\s*)?"
LOOP = re.compile(r"\b(?:loop|while|for)\b(?!\s*<)")
NUMBER = re.compile(r"(?:usize|isize|[ui](?:8|16|32|64|128))")
CONSTANT = re.compile(rf"[^:]*:\s*{NUMBER.pattern}\s*=.*")
# A name of a value in an expression: of no method, function, field, type or path.
NAME = re.compile(r"(?<![\w:])(?:(?<!\.)|(?<=\.\.))(?!(?:as|in|mut|self)\b)([a-zA-Z_]\w*)\b(?!\s*(?:\(|::|!))")


@cache
def allocating() -> set[str]:
    """The names of the toolchain's functions and methods that may be refused memory."""
    page = subprocess.run([os.environ.get("RT", "rt"), "doc"], capture_output=True, text=True, check=True).stdout.strip()
    folder, found = Path(page).parent / "rattle", set()
    for path in (path for library in LIBRARIES for path in (folder / library / "src").rglob("*.rt")):
        for name, signature in SIGNATURE.findall(path.read_text(encoding="utf-8")):
            if re.search(r"->.*\bAlloc(?:Error|Failed)\b", words(signature)):
                found.add(name)
    assert {"push", "reserve", "resize_with", "to_vec"} <= found, f"no sources of the toolchain's libraries below {folder}"
    return found | OF_TRAITS


def words(text: str) -> str:
    return " ".join(text.split())


def names_in(*texts: str) -> list[str]:
    """The names of values in some expressions, each once in each."""
    return [name for text in texts for name in dict.fromkeys(NAME.findall(text))]


class Requests:
    """What the functions of some sources ask for."""

    def __init__(self, sources: dict[str, Source], alone: Iterable[str]) -> None:
        takes = {source.crate for source in sources.values() if OF_MEMORY.search(source.plain)}
        taking = [(path, source) for path, source in sources.items() if source.crate in takes]
        self.functions = [(path, one, source.body(one)) for path, source in taking for one in source.functions if not one.is_test]
        self.constants: dict[str, dict[str, str]] = {}
        for path, source in sources.items():
            for item in source.items:
                if item.kind in ("const", "static") and not item.is_test:
                    text = words(source.text[item.start : item.end]).rstrip(";").removeprefix("pub ")
                    self.constants.setdefault(item.name, {})[path] = text
        # the functions and methods that fail only out of memory, by their bare names
        self.alone = {re.split(r"[.:]+", name)[-1] for name in alone} - {"new"}
        self.found: list[Request] = []
        self.followed: set[tuple[str, str]] = set()

    def all(self) -> list[Request]:
        """Each request as (file, function, what it asks for), one for each place."""
        at_once = "|".join(sorted(allocating() - ONE_MORE - COMMON))  # the names that ask for an amount
        request = re.compile(rf"(?<!\w)(?:(?P<name>{at_once}){PARAMETERS}\(|(?P<heap>{ON_THE_HEAP})\(|(?P<macro>vec|format)!\s*[\[(])")
        growing = re.compile(rf"(?<!\w)(?:{at_once}|{'|'.join(sorted({*ONE_MORE, *self.alone}))}){PARAMETERS}\(|\bvec!\s*\[")
        for path, function, body in self.functions:
            for found in request.finditer(body):
                self.ask(path, function, body, found)
            self.ask_in_loops(path, function, body, growing)
        asking = {path for path, _, _ in self.found}
        constants = ((path, text) for texts in self.constants.values() for path, text in texts.items())
        self.found += [(path, "-", text) for path, text in constants if path in asking and CONSTANT.fullmatch(text)]
        return sorted(self.found)

    def ask(self, path: str, function: Function, body: str, found: re.Match[str]) -> None:
        """Notes a request with the expression of its size."""
        name = found["name"] or found["heap"] or f"{found['macro']}!"
        what = words(inside(body, found.end() - 1))
        given = apart(what, ";" if name == "vec!" else ",") or [""]
        size = given[0] if name.removeprefix("try_").startswith(("reserve", "resize")) else given[-1]
        self.note(path, function, f"{name}({what})", size, body[: found.start()])

    def note(self, path: str, function: Function, what: str, size: str, before: str) -> None:
        """Notes a request, or a call that passes its size on, and follows the numbers that the function is passed."""
        known = self.definitions(path, size, before)
        self.found.append((path, function.name, "; ".join([what, *known])))
        for name in dict.fromkeys(names_in(size, *known)):
            self.follow(function, name)

    def definitions(self, path: str, size: str, before: str) -> list[str]:
        """How the names of an expression get their values, down to what the function is passed."""
        found: list[str] = []
        names = names_in(size)
        for name in names:
            more = [text for text in [*values(before, name), *self.constant(path, name)] if text not in found]
            found += more
            names += [one for one in dict.fromkeys(names_in(*more)) if one not in names]
        return found

    def constant(self, path: str, name: str) -> list[str]:
        texts = self.constants.get(name, {})
        return [texts[path]] if path in texts else sorted(set(texts.values()))

    def follow(self, function: Function, name: str) -> None:
        """Notes what each call passes for a number that a function takes. Calls of methods that lists have too are not told apart."""
        position = passed_as(function, name)
        if position is None or (function.path, name) in self.followed:
            return
        self.followed.add((function.path, name))
        called = re.compile(rf"(?<!\w){function.name}{PARAMETERS}\(")
        for path, caller, body in self.functions:
            for found in called.finditer(body) if function.name in body else ():
                given = apart(inside(body, found.end() - 1))
                if may_be_call(function, body, found.start()) and position < len(given):
                    size = words(given[position])
                    self.note(path, caller, f"{name} of {function.name}: {size}", size, body[: found.start()])

    def ask_in_loops(self, path: str, function: Function, body: str, growing: re.Pattern[str]) -> None:
        """Notes the requests and the calls that fail only out of memory that stand in a loop, each with the head of its innermost loop."""
        loops = list(loops_of(body))
        for found in growing.finditer(body) if loops else ():
            around = [(start, head) for start, end, head in loops if start < found.start() < end]
            if around:
                start = len(re.sub(r"[\w.:]*$", "", body[: found.start()]))
                head = max(around)[1]
                times = head.partition(" in ")[2] if head.startswith("for ") else ""
                self.note(path, function, f"{words(body[start : end_of_group(body, found.end() - 1)])} in `{head}`", times, body[:start])


def values(before: str, name: str) -> Iterator[str]:
    """The statements that give a name its value: `let`, assignments, and the heads of loops and matches that bind it."""
    until = lambda found, letters: words(before[found.start() : find_outside(before, found.end(), len(before), letters)])
    for found in re.finditer(rf"(?P<if>\b(?:if|while)\s+)?\blet\b(?P<pattern>[^=;{{}}]*\b{name}\b[^=;{{}}]*)=(?!=)", before):
        text = until(found, "{;" if found["if"] else ";")
        yield text.partition(" else {")[0] if "(" in found["pattern"] else text
    for found in re.finditer(rf"(?<![\w.]){name}(?:\[[^\]]*\])?\s*(?:[-+*/%|&^]|<<|>>)?=(?![=>])", before):
        if not re.search(r"\blet\b[^;{}]*$", before[: found.start()]):
            yield until(found, ";")
    for found in re.finditer(rf"\bfor\b[^;{{}}]*\b{name}\b[^;{{}}]*\bin\b", before):
        yield until(found, "{;")
    for found in re.finditer(rf"(?<=[{{,}}])(?P<pattern>[^,{{}};]*\b{name}\b[^,{{}};]*)=>", before):
        yield words(f"{head_around(before, found.start())} {{ {found['pattern'].strip()} }}")


def head_around(body: str, place: int) -> str:
    """The head of the block in which a place stands."""
    depth = 0
    for start in range(place - 1, -1, -1):
        depth += {"}": 1, "{": -1}.get(body[start], 0)
        if depth < 0:
            return re.split("[;{}]", body[:start])[-1].strip()
    return ""


def loops_of(body: str) -> Iterator[tuple[int, int, str]]:
    """The loops of a body: (where its braces begin and end, its head)."""
    for found in LOOP.finditer(body):
        start = find_outside(body, found.end(), len(body), "{;")
        if body[start : start + 1] == "{":
            yield start, end_of_group(body, start), words(body[found.start() : start])


def inside(text: str, start: int) -> str:
    """What stands in the bracket that begins at a place."""
    return text[start + 1 : end_of_group(text, start) - 1]


def passed_as(function: Function, name: str) -> Optional[int]:
    """The position of a number among the arguments that calls of a function have, or None if it is not passed so."""
    given = [one for one in parts_of(function.signature)[0] if not re.fullmatch(r"(?:&(?:'\w+ )?)?(?:mut )?self", one)]
    for position, one in enumerate(given):
        called, _, kind = one.partition(":")
        if called.strip().removeprefix("mut ") == name and NUMBER.fullmatch(kind.strip()):
            return position
    return None


def may_be_call(function: Function, body: str, place: int) -> bool:
    """Whether a call at a place may be one of a function: of a method by its dot, of one of a type by the type, of a free one by neither."""
    before = body[max(0, place - 80) : place].rstrip()
    owner = function.within if function.within is not None and function.within.kind in ("impl", "trait") else None
    if before.endswith("."):
        return SELF.search(function.signature) is not None and function.name not in OF_LISTS
    if found := re.search(r"(\w+)(?:<[^<>]*>)?\s*::$", before):
        name = found[1]
        is_of_owner = owner is not None and (name == "Self" or re.search(rf"\b{name}\b", owner.head) is not None)
        return is_of_owner if name[0].isupper() else owner is None and name[0].islower()
    return owner is None
