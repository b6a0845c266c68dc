"""Whether each call that may lack memory hands that on.

Such a call is one of a function of the crates whose result can say so, or of one of the toolchain's libraries. It is found by its name, and
passed over only if it is seen to be a call of another function. It may stand
  - before `?`;
  - where its value is returned: after `return`, or last in the body, or in a branch or an arm that stands there;
  - in `match CALL { .. }`, if each arm that its error can come to hands it on;
  - in `if let Err(name) = CALL { .. }`, `let Ok(..) = CALL else { .. }` or `if CALL.is_err() { .. }`, if the block does;
  - after `let name =`, if the name stands once more, at one of these places;
and nowhere else. An arm or a block hands it on if it ends, without a condition, with `Err(..)`, alone or in a tuple, of the name that the
pattern binds or of a word for out of memory; or if it tells it in another way (`TELLS`), or gives back what was given (`GIVES_BACK`). A value
that an arm does not return has to stand at one of these places, too.
"""

import re
from collections.abc import Iterator
from dataclasses import dataclass
from typing import Optional

from memory_places import GIVES_BACK, Code, Memory, Place, has_word
from memory_requests import OF_TRAITS, allocating
from rattle_source import Function, apart

TOKEN = re.compile(r"\"\s*\"|'\w+|\w+|::|=>|->|==|!=|<=|>=|&&|\|\||\.\.=?|\S")
ERRORS = {"AllocError", "AllocFailed"}
# The toolchain has functions of these names that take no memory; these types have some that do.
COMMON = {"new", "from", "entry", "format", "replace", "write", "sort_unstable_by_key"} | OF_TRAITS
ON_THE_HEAP = {"Box", "Rc", "Arc", "String", "PathBuf", "BufWriter"}
VECTOR = re.compile(r"[ui]\d+x\d+")  # a type of lanes, which takes no memory
THROWN = re.compile(r"\b(?:drop|forget)\(")
# What an arm for a failed allocation may have in place of a word: the status 4, a text, what cannot be reached, a fault in parts.
TELLS = re.compile(r"4|\"\s*\"|unreachable!\(.*\)|with_parts\(.*|\(memory,0\)")
CONTROL = {"if", "match", "while", "for", "loop", "return", "break", "continue"}
LOST = "a failed allocation is not handed on"


class Tokens:
    """The tokens of the body of a function, each with its place, the bracket that it stands in, and the one that it is closed by."""

    def __init__(self, plain: str, function: Function) -> None:
        found = list(TOKEN.finditer(plain, function.open, function.end))
        self.texts = [one[0] for one in found]
        self.places = [one.start() for one in found]
        self.parent = [-1] * len(found)
        self.other = [-1] * len(found)  # of a bracket the one that it goes with
        opened = [-1]
        for i, text in enumerate(self.texts):
            if text in ")]}" and len(opened) > 1:
                self.other[i], self.other[opened[-1]] = opened[-1], i
                opened.pop()
            self.parent[i] = opened[-1]
            if text in "([{":
                opened.append(i)

    def text(self, start: int, end: int) -> str:
        """Some tokens as one text: a blank stands only between words, after a comma and around an arrow."""
        joined = ""
        for one in self.texts[start:end]:
            joined += (" " if re.search(r"[\w,]$", joined) and re.match(r"\w", one) else "") + one
        return joined

    def start_of_operand(self, i: int) -> int:
        """Where the expression begins that the token is the last word, bracket or question mark of: a path, calls, fields, but no operator."""
        while True:
            while self.texts[i] == "?":
                i -= 1
            if self.texts[i] in (")", "]"):
                i = self.other[i]
                if re.fullmatch(r"\w+|>|!", self.texts[i - 1]) and self.texts[i - 1] not in CONTROL | {"in", "else"}:
                    i -= 1
            if self.texts[i] == "!":
                i -= 1
            if self.texts[i] == ">":
                i = self.start_of_types(i)
            if self.texts[i - 1] == "::":
                i -= 2
            elif self.texts[i - 1] == ".":
                i -= 2
            else:
                return i

    def start_of_types(self, i: int) -> int:
        """The token before the `::<` whose `>` this is."""
        depth = 0
        while True:
            depth += {">": 1, "<": -1}.get(self.texts[i], 0)
            if depth == 0:
                return i - 2 if self.texts[i - 1] == "::" else i
            i -= 1


@dataclass
class Reading:
    """How a body uses the results of calls that may lack memory."""

    tokens: Tokens
    gives_back: bool
    is_alone: bool  # the result is an error of memory alone
    takers: set[str]  # the functions that take a result

    def is_kept(self, start: int, end: int) -> bool:
        """Whether a result of these tokens is handed on if it is one of a failed allocation."""
        texts = self.tokens.texts
        before, after = texts[start - 1], texts[end]
        if after == "?" or (before == "return" and after in (";", "}", ",")):
            return True
        if before == "match" and after == "{":
            return self.is_matched(start - 1, end)
        if before == "if" and texts[end : end + 5] == [".", "is_err", "(", ")", "{"]:
            return self.hands_on(end + 4, self.tokens.other[end + 4] + 1, "") is not None
        if before == "=":
            return self.is_bound(start - 1, end)
        if before == "=>" and after in (",", "}"):
            return self.is_value_of_match(start)
        if before in ("{", ";", "}") and after == "}":
            return self.is_value_of_block(self.tokens.parent[start])
        return not self.is_alone and self.is_taken(start, end)

    def is_taken(self, start: int, end: int) -> bool:
        """Whether the value is an argument of a function that takes a result."""
        texts, open_ = self.tokens.texts, self.tokens.parent[start]
        start -= texts[start - 1] == "mut"
        start -= texts[start - 1] == "&"
        is_argument = texts[start - 1] in ("(", ",") and texts[end] in (")", ",") and texts[open_] == "("
        name = self.tokens.start_of_types(open_ - 1) if texts[open_ - 1] == ">" else open_ - 1
        return is_argument and texts[name] in self.takers

    def is_bound(self, equals: int, end: int) -> bool:
        """Whether the result that a pattern before an equals sign takes is handed on."""
        texts = self.tokens.texts
        start = max(i for i in range(equals) if texts[i] == "let" or i == 0)
        pattern, is_if = self.tokens.text(start + 1, equals), texts[start - 1] == "if"
        if is_if:
            name = re.fullmatch(r"Err\(([a-z]\w*)\)", pattern)
            return name is not None and texts[end] == "{" and self.hands_on(end, self.tokens.other[end] + 1, name[1]) is not None
        if pattern.startswith("Ok(") and texts[end] == "else":
            return self.hands_on(end + 1, self.tokens.other[end + 1] + 1, "") is not None
        names = [name for name in re.findall(r"\w+", pattern) if name != "mut"]
        if texts[end] != ";" or not names or not re.fullmatch(r"[\w, ]+|\([\w, ]+\)", pattern):
            return False
        # Of a tuple the last part is the result.
        uses = [i for i in range(end, self.tokens.other[self.tokens.parent[start]]) if texts[i] == names[-1] and texts[i - 1] != "."]
        lent = [i for i in uses if texts[i - 1] == "&"] if not self.is_alone else []
        return len(uses) - len(lent) <= 1 and any(self.is_kept(i, i + 1) for i in uses)

    def is_value_of_match(self, arm: int) -> bool:
        """Whether the value of an arm, as that of its match, is handed on."""
        open_ = self.tokens.parent[arm]
        start = self.keyword_before(open_)
        return start >= 0 and self.tokens.texts[start] == "match" and self.is_kept(start, self.tokens.other[open_] + 1)

    def is_value_of_block(self, open_: int) -> bool:
        """Whether the last value of a block is handed on."""
        texts, other = self.tokens.texts, self.tokens.other
        if open_ == 0:
            return True
        if texts[open_ - 1] == "=>":
            return self.is_value_of_match(open_)
        start = open_
        while texts[start - 1] == "else":
            start = other[start - 2]
        start = self.keyword_before(start)
        while start > 1 and texts[start - 1] == "else":
            start = self.keyword_before(other[start - 2])
        end = other[open_] + 1
        while texts[end] == "else":
            end = other[next(i for i in range(end, len(texts)) if texts[i] == "{" and self.tokens.parent[i] == self.tokens.parent[end])] + 1
        return start >= 0 and texts[start] == "if" and self.is_kept(start, end)

    def keyword_before(self, open_: int) -> int:
        """The `if`, `match` or another word whose block begins at a brace; -1 if there is none."""
        texts, parent = self.tokens.texts, self.tokens.parent
        for i in range(open_ - 1, parent[open_], -1):
            if parent[i] == parent[open_] and texts[i] in CONTROL | {"=>", ";", "}", "unsafe"}:
                return i if texts[i] in CONTROL else -1
        return -1

    def is_matched(self, start: int, open_: int) -> bool:
        """Whether each arm of a match that a failed allocation can come to hands it on."""
        is_value = False
        for pattern, arm, end in self.arms(open_):
            bound = re.search(r"\bErr\(\(?([a-z]\w*)\b", pattern)
            if not (has_word(pattern) or re.search(r"\bErr\((?:[a-z_]\w*|\(.*)\)|^[a-z_]\w*$", pattern)):
                continue
            found = self.hands_on(arm, end, bound[1] if bound else "")
            if found is None:
                return False
            is_value = is_value or found
        return not is_value or self.is_kept(start, self.tokens.other[open_] + 1)

    def arms(self, open_: int) -> Iterator[tuple[str, int, int]]:
        """The arms of a match: the pattern, and where the value begins and ends."""
        texts, parent, i = self.tokens.texts, self.tokens.parent, open_ + 1
        while i < self.tokens.other[open_]:
            arrow = next(k for k in range(i, len(texts)) if texts[k] == "=>" and parent[k] == open_)
            if texts[arrow + 1] == "{":
                end = self.tokens.other[arrow + 1] + 1
            else:
                end = next(k for k in range(arrow, len(texts)) if k == self.tokens.other[open_] or texts[k] == "," and parent[k] == open_)
            yield self.tokens.text(i, arrow), arrow + 1, end
            i = end + (texts[end] == ",")

    def hands_on(self, start: int, end: int, bound: str) -> Optional[bool]:
        """Whether an arm or a block hands on a failed allocation as its value, and not by `return`; None if it does not hand it on."""
        texts, parent = self.tokens.texts, self.tokens.parent
        first = start
        if texts[start] == "{":
            start, end, inside = start + 1, end - 1, start
            ends = [i for i in range(start, end - 1) if texts[i] == ";" and parent[i] == inside]
            last = ends[-1] + 1 if ends else start
            if CONTROL & set(texts[start:last]) or (texts[end - 1] == ";" and texts[last] != "return"):
                return None
            start = last
        returns = texts[start] == "return"
        text = self.tokens.text(start + returns, end).rstrip(";")
        given = re.fullmatch(r"(?:\([^()]*(?:\(\w*\))?, ?)?Err\((.*?)\)+", text)
        names_it = bound != "" and bound in re.findall(r"\w+", text)
        is_told = given is not None and (self.gives_back or has_word(given[1]) or names_it or given[1] == "SinkFault")
        if not is_told and not self.is_alone and bound in texts[first:end] and not THROWN.search(self.tokens.text(first, end)):
            return False
        if not is_told and (given is not None or not (TELLS.fullmatch(text) or has_word(text))):
            return None
        return given is not None and not returns


class Calls:
    """The calls of some sources that may lack memory."""

    def __init__(self, memory: Memory) -> None:
        self.memory = memory
        self.count = 0
        self.types, self.aliases = self.types_of_memory()
        self.functions = [(memory.name_of(code, one), code, one) for code in memory.files for one in code.functions]
        self.alone = {name for name, _, one in self.functions if re.search(r"\bAlloc(?:Error|Failed)\b", one.signature.rpartition("->")[2])}
        self.lacking = self.alone | set(self.telling())
        self.others = {name for name, *_ in self.functions} - self.lacking
        self.bare = {".": allocating() - COMMON, "::": allocating() - COMMON, ":": set[str]()}
        for name in self.lacking:
            mark, bare = re.sub(r"\w", "", name), re.split(r"[.:]+", name)[-1]
            self.bare[mark].add(bare)
        self.told = {re.split("[.:]+", name)[-1] for name in self.lacking - self.alone}
        takes = re.compile(r": (?:&(?:mut )?)?Result<")
        self.takers = {one.name for _, _, one in self.functions if takes.search(one.signature.rpartition("->")[0] or one.signature)}

    def types_of_memory(self) -> tuple[set[str], set[str]]:
        """The types of the sources that can say that memory is lacking, and those of them that are other names."""
        items = [
            (item, code.source) for code in self.memory.files for item in code.source.items if item.kind in ("enum", "type") and not item.is_test
        ]
        words = {item.name: set(re.findall(r"\w+", source.plain[item.start : item.end])) for item, source in items}
        found = ERRORS | {name for name, inside in words.items() if any(map(has_word, inside))}
        while more := {name for name, inside in words.items() if name not in found and inside & found}:
            found |= more
        return found, {item.name for item, _ in items if item.kind == "type"} & found

    def may_tell(self, function: Function) -> bool:
        """Whether the result of a function can say that memory is lacking."""
        result = function.signature.rpartition("->")[2].strip() if "->" in function.signature else ""
        error = apart(result[len("Result<") : -1])[-1] if result.startswith("Result<") else ""
        return bool(set(re.findall(r"\w+", error)) & self.types) or result in self.aliases

    def telling(self) -> list[str]:
        """The functions that can say it, and have a word for it or call one that does."""
        able = {name: (code.source.body(one), one) for name, code, one in self.functions if self.may_tell(one)}
        found = {name for name, (body, one) in able.items() if has_word(body) or one.open >= one.end}
        while True:
            called = re.compile(rf"\b(?:{'|'.join({re.split('[.:]+', name)[-1] for name in found | self.alone})})\b")
            more = {name for name, (body, _) in able.items() if name not in found and called.search(body)}
            if not more:
                return sorted(found)
            found |= more

    def all(self) -> Iterator[tuple[Code, Function, Tokens, int, str]]:
        """Each call that may lack memory: the token of its name, and which function it calls."""
        for code in self.memory.files:
            for function in code.functions:
                tokens = Tokens(code.source.plain, function)
                for i in range(1, len(tokens.texts) - 2):
                    if called := self.called(code, tokens, i):
                        yield code, function, tokens, i, called

    def called(self, code: Code, tokens: Tokens, i: int) -> str:
        """The function that a token names, if it begins a call that may lack memory, or nothing."""
        texts, name = tokens.texts, tokens.texts[i]
        if texts[i + 1] == "!":
            return f"{name}!" if name in ("vec", "format") and texts[i + 3] == "in" else ""
        is_call = texts[i + 1] == "(" or texts[i + 1 : i + 3] == ["::", "<"]
        if not is_call or not re.fullmatch(r"[a-z_]\w*", name) or texts[i - 1] == "fn":
            return ""
        mark, called = ":", name
        line = code.source.line(tokens.places[i]) - 1
        if texts[i - 1] == "::":
            owner = texts[i - 2] if texts[i - 2] != ">" else texts[tokens.start_of_types(i - 2)]
            owner = self.memory.type_within(code.function_at[line]) if owner == "Self" else owner
            if owner in ON_THE_HEAP and name in ("new", "from"):
                return f"{owner}::{name}"
            if VECTOR.fullmatch(owner):
                return ""
            mark, called = ("::", f"{owner}::{name}") if owner[0].isupper() else (":", name)
        elif texts[i - 1] == ".":
            mark, called = ".", tokens.text(tokens.start_of_operand(i), i + 1)
        if re.fullmatch(r"[\w.]+", called):
            called = self.memory.resolved(code, line, called)
        if mark == "::" and name in COMMON and called not in self.lacking:
            return ""
        return called if called in self.lacking or (called not in self.others and name in self.bare[mark]) else ""

    def lost(self) -> Iterator[Place]:
        """The calls whose failed allocation is not handed on. All are counted."""
        for code, function, tokens, i, called in self.all():
            self.count += 1
            open_ = next(k for k in range(i, len(tokens.texts)) if tokens.texts[k] in ("(", "[") and tokens.parent[k] == tokens.parent[i])
            is_known = re.match(r"\w+(?:\.|::)\w", called) is not None
            is_alone = called in self.alone or called not in self.lacking and (is_known or tokens.texts[i] not in self.told)
            reading = Reading(tokens, self.memory.name_of(code, function) in GIVES_BACK, is_alone, self.takers)
            if not reading.is_kept(tokens.start_of_operand(i), tokens.other[open_] + 1):
                line = code.source.line(tokens.places[i])
                yield Place(code.path, line, code.lines[line - 1].strip(), LOST)
