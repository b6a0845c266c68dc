"""Where the sources return out of memory, each with the reason why it may not stand there.

A place is one of the words below where it is a value and no pattern, or an `Err` of a function that fails only out of memory, unless it hands
on an error under its name, which was made elsewhere. It must stand
  - on an arm whose pattern has one of the words in each of its alternatives, as a variant of its type (a word alone binds a new name);
  - on the arm `Err(_)` or `Err(name)` of a match on a call that fails only out of memory, directly below `if CALL.is_err()`, or in the else
    of `let Ok(..) = CALL else`;
  - as the second argument of `ReadError::fault`, which its contract returns only out of memory;
  - or in a `from` that takes an error of the allocator.
Calls that fail only out of memory: functions and methods of the crates whose error is AllocError, those listed here, and a `write_` call whose
last argument is a local VecSink, which fails only out of memory. A method is found by the type of what stands before it. Anything that is not
understood is refused, and so is a word under another name, as a default, as a name of ours, or from a macro. The files are laid out by `rt fmt`.
"""

import re
from collections.abc import Iterable, Iterator
from dataclasses import dataclass
from typing import Optional, TypeVar

from rattle_source import Function, Item, Source, end_of_group, trait_and_type, type_name

AnyItem = TypeVar("AnyItem", bound=Item)

WORDS = {"F9", "P9", "Q11", "C5", "E3", "B2", "Memory", "NoMemory", "NO_MEMORY", "AllocError", "AllocFailed", "OutOfMemory"}
# These are types, and stand in a pattern without a path.
TYPES = {"AllocError", "AllocFailed"}
OF_ALLOCATOR = {"Vec.push", "Vec.reserve", "IndexSet.insert", "IndexMap.insert", "Vec::from_slice", "Vec::with_capacity", "BufWriter::new"}
# These hand back what they were given.
GIVES_BACK = {"Formula.push_clause", "Trace.push_set", "Trace.push_step"}
# What hides a word: the text, the part of it that has the word, and why that may not stand there. A macro may have any.
HIDES = (
    (r"\buse\s[^;]*;", r"\w+\s+as\s+\w+", "under another name"),
    (r"\btype\s+\w+[^=;]*=\s*(?![\s(])[^;]*;", r"(?s)=.*", "under another name"),
    (r"#\s*\[\s*default\s*\]\s*\w+", r"\w+$", "as a default"),
    (r"\bmacro_rules\b", "", "a macro may hide a word"),
)
# The call of a statement that a place may stand below, and that of a match.
ASKS = re.compile(r"if (.*)\.is_err\(\) \{|let Ok\([a-z_ ]+\) = (.*) else \{")
MATCHES = re.compile(r"(?:.* )?match (.*) \{")
SELF = re.compile(r"\((?:&(?:'\w+ )?|&?(?:'\w+ )?mut )?self\b")


def has_word(text: str) -> bool:
    return any(word in WORDS for word in re.findall(r"\w+", text))


def each_has_word(pattern: str) -> bool:
    """Whether each alternative of a pattern has a word that is a type, or a variant by its path."""
    return all(set(re.findall(r"::(\w+)", one)) & WORDS or set(re.findall(r"\w+", one)) & TYPES for one in pattern.split("|"))


def head_type(words: str) -> str:
    return re.sub(r"^&?(?:mut )?(\w*).*", r"\1", words.strip(), flags=re.DOTALL)


def indent(line: str) -> int:
    return len(line) - len(line.lstrip(" "))


@dataclass
class Place:
    file: str
    line: int
    text: str
    why: str  # why it may not stand there, or nothing

    def __str__(self) -> str:
        return f"{self.file}:{self.line}: {self.why}" + (f": {self.text}" if self.text else "")


class Code:
    """The lines of a source file without comments, texts, contracts, imports and inline tests."""

    def __init__(self, path: str, source: Source) -> None:
        self.path, self.source = path, source
        plain = source.plain
        for item in source.items:
            start, end = item.first, item.end
            if not (item.is_test or item.kind in ("use", "ghost")):
                start, end = (item.name_end, item.open) if isinstance(item, Function) else (end, end)
            plain = plain[:start] + re.sub(r"[^\n]", " ", plain[start:end]) + plain[end:]
        self.lines = [line.rstrip() for line in plain.split("\n")]
        self.functions = [function for function in source.functions if not function.is_test]
        self.function_at = self.by_line(self.functions)
        self.constant_at = self.by_line(item for item in source.items if item.kind in ("const", "static") and not item.is_test)

    def by_line(self, items: Iterable[AnyItem]) -> list[Optional[AnyItem]]:
        """The item that each line is of, or None."""
        found: list[Optional[AnyItem]] = [None] * len(self.lines)
        for item in items:
            for line in range(self.source.line(item.start) - 1, self.source.line(item.end - 1)):
                found[line] = item
        return found

    def holder(self, n: int) -> int:
        """The line that holds a line: the last one before it that stands further left."""
        return next((m for m in range(n - 1, -1, -1) if self.lines[m] and indent(self.lines[m]) < indent(self.lines[n])), 0)

    def statement(self, n: int) -> str:
        """The text of the statement that ends on a line with an opening brace."""
        text = self.lines[n].strip()
        m = n
        while text[:1] in (")", "}") and m > 0:
            m -= 1
            if self.lines[m]:
                text = f"{self.lines[m].strip()} {text}"
                if indent(self.lines[m]) <= indent(self.lines[n]):
                    break
        return text


class Memory:
    """All places of some sources, and what is needed to look at each."""

    def __init__(self, sources: dict[str, Source]) -> None:
        self.files = [Code(path, source) for path, source in sources.items()]
        self.origin: dict[tuple[str, str], str] = {}  # the crate of a name, by the file that uses it
        self.fields: dict[tuple[str, str], str] = {}  # the type of a field, by that of its struct
        # the names of tuples in which one part is out of memory
        self.pairs = {name for code in self.files for name in re.findall(r"\btype\s+(\w+)\s*=\s*\([^;]*AllocError[^;]*;", code.source.plain)}
        self.alone: set[str] = OF_ALLOCATOR | GIVES_BACK
        self.other: set[str] = set()
        for code in self.files:
            self.read_names(code)

    def read_names(self, code: Code) -> None:
        """Which crate each name of a `use` comes from, the types of fields, and which functions fail only out of memory."""
        for item in code.source.items:
            if item.kind == "use" and not item.is_test and "ghost" not in item.head.split():
                words = " ".join(item.head.split()).partition("use ")[2]
                crate = re.split(r"\W", words, maxsplit=1)[0]
                crate = code.source.crate if crate in ("crate", "super", "self") else crate
                self.origin.update({(code.path, name): crate for name in re.findall(r"\w+", words)})
            elif item.kind == "struct" and not item.is_test:
                inside = code.source.plain[item.open : item.end]
                for name, words in re.findall(r"(?m)^ +(?:pub |pub\(crate\) )?([a-z_]+): ([^\n]*)", inside):
                    self.fields[item.name, name] = head_type(words)
        for function in code.functions:
            name = self.name_of(code, function)
            if re.search(r", (?:AllocError|AllocFailed<.*>)>$", function.signature):
                self.alone.add(name)
            elif name not in self.alone:
                self.other.add(name)

    @staticmethod
    def type_within(function: Optional[Item]) -> str:
        """The type of the impl or the trait that a function is of."""
        holder = function.within if function is not None else None
        if holder is None or holder.kind == "mod":
            return ""
        return holder.name if holder.kind == "trait" else type_name(trait_and_type(holder.head)[1])

    def name_of(self, code: Code, function: Function) -> str:
        owner = self.type_within(function)
        dot = "." if SELF.search(function.signature) else "::"
        return f"{owner}{dot}{function.name}" if owner else f"{code.source.crate}:{function.name}"

    # ---- words that are not seen, or that come from elsewhere

    def hidden(self) -> Iterator[Place]:
        """Words under another name, as a default, or from a macro."""
        for code in self.files:
            source = code.source
            for pattern, part, why in HIDES:
                for found in re.finditer(pattern, source.plain):
                    if not part or any(map(has_word, re.findall(part, found[0]))):
                        yield Place(code.path, source.line(found.start()), "", why)
            for item in source.items:
                if item.name in WORDS and item.kind in ("struct", "enum", "trait", "type", "fn"):
                    yield Place(code.path, source.line(item.start), "", "a name of ours")

    # ---- looking

    def places(self) -> Iterator[Place]:
        for code in self.files:
            for n, line in enumerate(code.lines):
                if self.is_place(code, n):
                    yield Place(code.path, n + 1, line.strip(), self.why(code, n))

    def is_place(self, code: Code, n: int) -> bool:
        """Whether a line returns out of memory."""
        line, function, constant = code.lines[n], code.function_at[n], code.constant_at[n]
        if function is None and constant is None:
            return False
        if "=>" in line:
            line = line[line.rindex("=>") + 2 :]
        elif constant is not None and n == code.source.line(constant.start) - 1:
            line = line.partition("=")[2]
        elif any(re.match(r" *[|] ", one) for one in code.lines[n : n + 2]):
            return False
        is_alone = function is not None and (self.name_of(code, function) in self.alone or function.signature.rpartition(" ")[2] in self.pairs)
        return has_word(line) or is_alone and re.search(r"\bErr\((?![a-z_]+\))", line) is not None

    def why(self, code: Code, n: int) -> str:
        """Why out of memory may not be returned on a line, or nothing."""
        found = re.search(r"error\.fault\([A-Za-z0-9:]+, ", code.lines[n])
        if found and not has_word(found[0]):
            return ""
        m = n if "=>" in code.lines[n] else code.holder(n)
        while "=>" not in code.lines[m] and code.lines[m].endswith("("):
            m = code.holder(m)
        if "=>" in code.lines[m] and (m == n or code.lines[m].endswith(("(", "=> {"))):
            return self.why_on_arm(code, m)
        function, why = code.function_at[m], self.why_asked(code, m, ASKS)
        if why is None and function and re.search(r"fn from\([a-z_]+: (AllocError|AllocFailed<[A-Za-z]+>)\)", function.signature):
            return ""
        return "below no failed allocation" if why is None else why

    def why_on_arm(self, code: Code, n: int) -> str:
        text, m = re.sub(r"\s*=>.*", "", code.lines[n].strip()), n
        while code.lines[m].lstrip().startswith("| "):
            m -= 1
            text = f"{code.lines[m].strip()} {text}"
        if " if " not in text and each_has_word(text):
            return ""
        if not re.fullmatch(r"Err\([a-z_]+\)", text):
            return "on an arm that is not for out of memory"
        why = self.why_asked(code, code.holder(n), MATCHES)
        return "on an arm of no match" if why is None else why

    def why_asked(self, code: Code, n: int, form: re.Pattern[str]) -> Optional[str]:
        """Why the call in a statement of some form is none that fails only out of memory, or nothing; None of a statement of another form."""
        found = form.fullmatch(code.statement(n))
        return self.why_call(code, n, "".join(filter(None, found.groups()))) if found else None

    def why_call(self, code: Code, n: int, text: str) -> str:
        """Why an expression is not a call that fails only out of memory, or nothing."""
        start = text.find("(")
        if start < 0:
            return "no call"
        if end_of_group(text, start) < len(text):
            return "more than a call"
        called = self.resolved(code, n, re.sub(r"::<[A-Za-z0-9_<>]+>::", "::", text[:start]))
        # A text that is written to a VecSink.
        written = re.search(r"[ (]&mut ([a-z_]+)\)$", text)
        if re.search(r"[:.]write_[a-z_]+$", called) and written and self.type_of(code, n, written[1]) == "VecSink":
            return ""
        return "" if called in self.alone and called not in self.other else f"the call {called} may be refused for another reason"

    def resolved(self, code: Code, n: int, called: str) -> str:
        """The name of a function with its crate, or of a method with its type."""
        if "::" in called:
            return called
        receiver, dot, name = called.rpartition(".")
        return f"{self.type_of(code, n, receiver)}.{name}" if dot else f"{self.origin.get((code.path, called), code.source.crate)}:{called}"

    def type_of(self, code: Code, n: int, receiver: str) -> str:
        """The type of self, of a parameter or of a local value, or of a field of these."""
        if "." in receiver:
            holder, _, name = receiver.rpartition(".")
            return self.fields.get((self.type_of(code, n, holder), name), "")
        function = code.function_at[n]
        if receiver == "self":
            return self.type_within(function)
        if function is None:
            return "?"
        for m in range(n, code.source.line(function.open) - 1, -1):
            if found := re.match(rf"let (?:mut {receiver}|Ok\(mut {receiver}\)) = (.*)", code.lines[m].strip()):
                break
        found = found or re.search(rf"[(, ]{receiver}: ([^,)]*)", function.signature)
        name = head_type(found[1]) if found else "?"
        # A type parameter stands for its bound.
        bound = re.search(rf"[<, ]{name}: ([A-Za-z]+)", function.signature) if re.fullmatch("[A-Z]", name) else None
        return bound[1] if bound else name
