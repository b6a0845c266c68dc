"""Reads sources of Rattle as the compiler reads them: comments and texts first, then items, then each function with its contract and body.

Everything here goes by places in the text as it stands. `blanked` has blanks in place of comments, and of what stands in the two quotes that
are left of a text, so that the places stay.
"""

import re
from bisect import bisect_left
from collections.abc import Collection, Iterable, Iterator
from dataclasses import dataclass, field
from pathlib import Path
from typing import Optional, Union

# A comment or a text: of a block comment its beginning alone, since others may stand in it. The quote of a lifetime begins none.
MARK = re.compile(
    r"""//[^\n]*|/\*|(?<!\w)[bc]?r(?P<hashes>#*)".*?"(?P=hashes)|(?:(?<!\w)[bc])?(?:"(?:[^"\\]|\\.)*"?|'(?:\\(?:u\{[^}']*\}|x[^']{2}|.)|[^'\\\n])')""",
    re.S,
)
BLANKS = re.compile(r"\s*")
OPENING = "([{"


# ---- comments and texts


def marks(text: str) -> Iterator[tuple[bool, int, int]]:
    """Where each comment and each text stands: (is it a comment, place, place after it)."""
    end = 0
    while found := MARK.search(text, end):
        end = end_of_block_comment(text, found.start()) if found[0] == "/*" else found.end()
        yield found[0][:2] in ("//", "/*"), found.start(), end


def end_of_match(pattern: re.Pattern[str], text: str, start: int, end: int) -> int:
    """The place after what a pattern matches from a place on; that place if it matches nothing."""
    found = pattern.match(text, start, end)
    return found.end() if found else start


def end_of_block_comment(text: str, start: int) -> int:
    """The place after a block comment, in which others may stand."""
    depth = 0
    for found in re.compile(r"/\*|\*/").finditer(text, start):
        depth += 1 if found[0] == "/*" else -1
        if depth == 0:
            return found.end()
    return len(text)


def with_blanks(text: str, places: Iterable[tuple[int, int]]) -> str:
    parts, last = [], 0
    for start, end in places:
        parts += [text[last:start], re.sub(r"[^\n]", " ", text[start:end])]
        last = end
    return "".join([*parts, text[last:]])


def blanked(text: str) -> str:
    """The text with blanks in place of comments and within texts; each text begins and ends with a quote."""
    letters, places = list(text), list(marks(text))
    for is_comment, start, end in places:
        if not is_comment:
            letters[start] = letters[end - 1] = '"'
    return with_blanks("".join(letters), [(start, end) if is_comment else (start + 1, end - 1) for is_comment, start, end in places])


def without_comments(text: str) -> str:
    """The text with blanks in place of comments."""
    return with_blanks(text, [(start, end) for is_comment, start, end in marks(text) if is_comment])


def one_line(text: str) -> str:
    """The words of a text, comments left out, with one blank between them."""
    return " ".join(without_comments(text).split())


# ---- brackets, in a text with blanks for comments and texts


BRACKETS = re.compile(r"[(\[{)\]}]")


def end_of_group(plain: str, start: int) -> int:
    """The place after the bracket that closes the one at `start`."""
    depth = 0
    for found in BRACKETS.finditer(plain, start):
        depth += 1 if found[0] in OPENING else -1
        if depth <= 0:
            return found.end()
    return len(plain)


def find_outside(plain: str, start: int, end: int, letters: str) -> int:
    """The first place of one of some letters that stands in no bracket; `end` if there is none."""
    wanted = re.compile(f"[{re.escape(letters + OPENING)}]")
    while (found := wanted.search(plain, start, end)) and found[0] not in letters:
        start = end_of_group(plain, found.start())
    return found.start() if found else end


def apart(words: str, comma: str = ",") -> list[str]:
    """The parts of a text between commas that stand in no bracket; arrows, and `<` and `>` between blanks, are none."""
    plain, parts, depth = re.sub(r"[-=]>| (?:<<?|>>?)=? ", lambda found: " " * len(found[0]), words), [""], 0
    for letter, bracket in zip(words, plain):
        depth += {"<": 1, "(": 1, "[": 1, "{": 1, ">": -1, ")": -1, "]": -1, "}": -1}.get(bracket, 0)
        if letter == comma and depth == 0:
            parts.append("")
        else:
            parts[-1] += letter
    return [part for part in parts if part.strip()]


# ---- items


@dataclass
class Clause:
    """One clause of a contract: `ensures`, `requires` or `ghost`, its name or nothing, and what stands in its braces."""

    kind: str
    name: str
    text: str


@dataclass
class Item:
    """An item of a source file, or one of an `impl` or a trait."""

    kind: str  # fn, impl, trait, struct, enum, const, static, type, use, mod, ghost, macro
    name: str
    attributes: str
    first: int  # where its attributes begin
    start: int  # where it begins after them
    open: int  # where the brace of its body stands; `end` if it has none
    end: int
    head: str  # the text before its body, or all of it; with blanks for comments and texts
    is_test: bool
    within: "Item | None" = None


@dataclass
class Function(Item):
    path: str = ""  # as the prover names it
    word: int = 0  # where `fn` stands
    name_end: int = 0  # after its name
    signature: str = ""
    clauses: list[Clause] = field(default_factory=list)

    @property
    def is_of_trait(self) -> bool:
        return self.within is not None and (self.within.kind == "trait" or trait_and_type(self.within.head)[0] != "")

    def contract(self) -> list[tuple[str, str, str]]:
        """The clauses as words, without comments and layout."""
        return [(clause.kind, clause.name, one_line(clause.text)) for clause in self.clauses]


WORDS = re.compile(r"(?:pub(?:\s*\([^)]*\))?\s+|unsafe\s+|default\s+)*")
HEAD = re.compile(
    r'(?P<fn>(?:(?:const|async|extern(?:\s*"[^"]*")?)\s+)*fn)\b\s*(?P<name>\w+)|(?P<kind>impl|trait|struct|enum|union|const|static|type|use|mod|ghost\s+use|ghost'
    r"|extern|macro_rules)\b!?\s*(?P<other>\w*)"
)
# In a signature: a bracket, or what comes after it.
BEFORE_BODY = re.compile(r"[(\[{;]|\b(?:requires|ensures|ghost)\b(?=\s*\w*\s*\{)")
CLAUSE = re.compile(r"\s*(requires|ensures|ghost)\b\s*(\w*)\s*(?=\{)")


class Source:
    """A source file of a crate: its items, and its functions by the names that the prover gives them."""

    def __init__(self, crate: str, file: str, text: str) -> None:
        self.crate, self.file, self.text = crate, file, text  # the file is told from the crate on: src/..
        self.plain = blanked(text)
        self.ends = [found.start() for found in re.finditer("\n", text)]
        self.items = list(self.read_items(0, len(text), None, False))
        self.functions = [item for item in self.items if isinstance(item, Function)]
        self.name_functions()

    def read_items(self, start: int, end: int, within: Optional[Item], is_test: bool) -> Iterator[Item]:
        place = start
        while place < end:
            found = end_of_match(BLANKS, self.plain, place, end)
            if found >= end:
                return
            item = self.read_item(found, end, within, is_test)
            yield item
            if item.kind in ("impl", "trait", "mod") and item.open < item.end:
                yield from self.read_items(item.open + 1, item.end - 1, item, item.is_test)
            place = max(item.end, found + 1)

    def read_item(self, first: int, end: int, within: Optional[Item], is_test: bool) -> Item:
        start = first
        while attribute := re.compile(r"#!?\s*(?=\[)").match(self.plain, start, end):
            start = end_of_match(BLANKS, self.plain, end_of_group(self.plain, attribute.end()), end)
        attributes = self.text[first:start]
        is_test = is_test or re.search(r"\bcfg\(test\)|#\[test\]", blanked(attributes)) is not None
        word = end_of_match(WORDS, self.plain, start, end)
        head = HEAD.match(self.plain, word, end)
        if head is None:
            stop = min(find_outside(self.plain, start, end, ";{") + 1, end)
            stop = end_of_group(self.plain, stop - 1) if self.plain[stop - 1] == "{" else stop
            return Item("macro", "", attributes, first, start, stop, stop, self.plain[start:stop], is_test, within)
        if head["fn"]:
            return self.read_function(head, attributes, first, start, end, is_test, within)
        kind = head["kind"].split()[0] if head["kind"] != "ghost use" else "use"
        kind = {"macro_rules": "macro", "union": "struct"}.get(kind, kind)
        has_body = kind in ("impl", "trait", "struct", "enum", "mod", "macro", "extern")
        open_ = find_outside(self.plain, head.end(), end, "{;" if has_body else ";")
        if open_ < end and self.plain[open_] == "{":
            stop = end_of_group(self.plain, open_)
        else:
            open_ = stop = min(open_ + 1, end)
        return Item(kind, head["other"], attributes, first, start, open_, stop, self.plain[start:open_], is_test, within)

    def read_function(
        self, head: re.Match[str], attributes: str, first: int, start: int, end: int, is_test: bool, within: Optional[Item]
    ) -> Function:
        plain, place = self.plain, head.end()
        while found := BEFORE_BODY.search(plain, place, end):
            place = end_of_group(plain, found.start()) if found[0] in "([" else found.start()
            if found[0] not in "([":
                break
        signature, clauses = " ".join(plain[start:place].split()), []
        while clause := CLAUSE.match(plain, place, end):
            stop = end_of_group(plain, clause.end())
            clauses.append(Clause(clause[1], clause[2], self.text[clause.end() + 1 : stop - 1]))
            place = stop
        open_ = end_of_match(BLANKS, plain, place, end)
        stop = end_of_group(plain, open_) if open_ < end and plain[open_] == "{" else min(open_ + 1, end)
        open_ = open_ if open_ < end and plain[open_] == "{" else stop
        item = ("fn", head["name"], attributes, first, start, open_, stop, plain[start:open_], is_test, within)
        return Function(*item, word=head.end("fn") - 2, name_end=head.end("name"), signature=signature, clauses=clauses)

    def name_functions(self) -> None:
        inside = self.file[len("src/") : -len(".rt")].split("/")
        here = [] if inside in (["lib"], ["main"]) else inside
        # The methods of a type stand, for the prover, in the module of the type.
        uses = re.findall(r"(?m)^use crate::([a-z_:]+)::\{?([\w,\s]+)\}?;", self.plain)
        imported = {name: module.split("::") for module, names in uses for name in re.findall(r"\b[A-Z]\w*", names)}
        for function in self.functions:
            modules: list[str] = []
            owner, outer = "", function.within
            while outer is not None:
                if outer.kind == "mod":
                    modules.insert(0, outer.name)
                else:
                    owner = owner_of(outer.head)
                outer = outer.within
            owners = [owner] if owner else []
            function.path = "::".join([self.crate, *(imported.get(owner, here) if owner else here), *modules, *owners, function.name])

    def body(self, function: Function) -> str:
        """What stands in the braces of a function, with blanks for comments and texts."""
        return self.plain[function.open + 1 : function.end - 1] if function.open < function.end else ""

    def line(self, place: int) -> int:
        """The number of the line of a place, from 1 on."""
        return bisect_left(self.ends, place) + 1


# ---- names of impls and traits, as the prover has them


def arguments(words: str) -> str:
    """The text between the first `<` and the `>` that closes it."""
    start, depth = words.find("<"), 0
    for found in re.compile("[<>]").finditer(words, start):
        depth += 1 if found[0] == "<" else -1
        if depth == 0:
            return words[start + 1 : found.start()]
    return ""


def type_name(words: str) -> str:
    """`a::Name<..>` without its path and its parameters."""
    name = re.sub(r"^(?:\w+\s*::\s*)*", "", words.strip())
    return re.split(r"\W", name, maxsplit=1)[0]


def prover_name(words: str, generics: Collection[str] = ()) -> str:
    """How the prover names a type: of a reference, a slice or a tuple with the types in it, as far as they are no parameters."""
    words = words.strip()
    if words.startswith("&"):
        return "Ref" + prover_name(re.sub(r"^&\s*(?:'\w+\s+)?", "", words), generics)
    if words.startswith("mut "):
        return "Mut" + prover_name(words[4:], generics)
    if words.startswith("["):
        return "Slice" + prover_name(words[1:-1], generics)
    if words.startswith("("):
        parts = apart(words[1 : words.rindex(")")])
        return f"Tuple{len(parts)}" + "".join(prover_name(part, generics) for part in parts)
    name = type_name(words)
    # a primitive type, too, is written with a capital
    return "" if name in generics else name[:1].upper() + name[1:]


def trait_and_type(head: str) -> tuple[str, str, set[str]]:
    """The trait of the head of an `impl`, or nothing, its type, and its parameters."""
    rest = " ".join(head.split()).removeprefix("unsafe ").removeprefix("impl").strip()
    generics = set()
    if rest.startswith("<"):
        inner = arguments(rest)
        generics = {type_name(one.split(":")[0]) for one in apart(inner)}
        rest = rest[len(inner) + 2 :].strip()
    rest = rest.split(" where ")[0]
    of_trait, _, of_type = rest.rpartition(" for ")
    return of_trait, of_type, generics


def owner_of(head: str) -> str:
    """How the prover names the `impl` or the trait with this head, which stands before its brace."""
    if trait := re.match(r"\s*(?:pub(?:\s*\([^)]*\))?\s+)?(?:unsafe\s+)?trait\s+(\w+)", head):
        return trait[1]
    of_trait, of_type, generics = trait_and_type(head)
    if not of_trait:
        return type_name(of_type)
    given = [one for one in apart(arguments(of_trait)) if type_name(one) not in generics and not one.strip().startswith("'")]
    return prover_name(of_type, generics) + type_name(of_trait) + "".join(prover_name(one, generics) for one in given)


# ---- the sources of a repository


def read_source(root: Union[str, Path], path: str) -> Source:
    """The source file at a path below a repository: crates/NAME/src/.."""
    _, crate, *inside = Path(path).parts
    return Source(crate, "/".join(inside), (Path(root) / path).read_text(encoding="utf-8"))


def sources(root: Union[str, Path]) -> dict[str, Source]:
    """The source files of all crates by their paths, but for those of modules that are read for tests alone."""
    root = Path(root)
    paths = sorted(str(path.relative_to(root)) for path in root.glob("crates/*/src/**/*.rt"))
    found = {path: read_source(root, path) for path in paths}
    tests = set()
    for path, source in found.items():
        folder = path[: -len(".rt")]
        folder = folder.rpartition("/")[0] if folder.endswith(("/src/lib", "/src/main")) else folder
        tests |= {f"{folder}/{item.name}" for item in source.items if item.kind == "mod" and item.is_test and item.open == item.end}
    is_test = lambda path: any(path == f"{test}.rt" or path.startswith(f"{test}/") for test in tests)
    return {path: source for path, source in found.items() if not is_test(path)}
