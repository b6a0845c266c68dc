"""The definitions of crates/*/specs, and all that one of them is made of.

A file of definitions has `use` lines and definitions that begin at the left margin. A name in a definition is one of its file, one that a `use`
brings, or none of ours (of std, a type of the code, a parameter). A parameter that is called as a definition is taken for it: that can only
add to what is found.
"""

import re
from collections.abc import Collection, Iterable
from functools import cache
from pathlib import Path
from typing import Optional, Union

WORDS = r"(?:abbrev|pub|record|data|opaque|private|unfolding|unfoldable)\s+"
HEAD = re.compile(rf"(?:{WORDS})*(\S+)")
BEGINS = re.compile(WORDS)
USE = re.compile(r"(pub )?use ([\w.]+?)(?:\.\{([^}]*)\}| as (\w+))?$")
CONSTANTS = ".TheConstants"
# A `use` line: whether it is passed on, the module, the names that it brings, its other name.
Use = tuple[bool, str, list[str], Optional[str]]
Named = tuple[str, str]  # a module, and the name of a definition in it
NAME = re.compile(r"[^\s(){}\[\],;.]+")


def without_comments(text: str) -> str:
    return re.sub(r"(?m)(^|\s)--.*$", r"\1", text)


def use_of(line: str) -> Optional[Use]:
    """A `use` line in parts, or None."""
    use = USE.match(line.strip())
    return (bool(use[1]), use[2], [name.strip() for name in (use[3] or "").split(",") if name.strip()], use[4]) if use else None


def renamed(name: str) -> tuple[str, str]:
    """A name of a `use` line, and the one by which it is called there."""
    given, _, called = name.partition(" as ")
    return given, called or given


class Module:
    """A file of definitions: its own definitions with their texts, and the names that it brings in or passes on."""

    def __init__(self, path: str, text: str) -> None:
        self.path = path  # CRATE/specs/FILE
        self.own: dict[str, str] = {}
        self.uses: list[Use] = []
        self.constructors: dict[str, list[str]] = {}
        self.imports = ""
        self.strays: list[str] = []  # lines at the margin that begin no definition and go on with none
        name: Optional[str] = None
        for line in without_comments(text).split("\n"):
            if use := use_of(line) if not line.startswith(" ") else None:
                self.uses.append(use)
                name = None
            if use or line.startswith("infix"):
                self.imports += line + "\n"
                continue
            if line[:1] not in ("", " "):
                name = self.begun(line, name)
            if name is not None:
                self.own[name] = self.own.get(name, "") + line + "\n"
                if name in self.constructors and (found := re.match(r"\s+(?:pub )?([^:]+) :", line)):
                    self.constructors[name] += found[1].split()

    def begun(self, line: str, name: Optional[str]) -> str:
        """The name of the definition that a line at the margin is of, after one of another name or none."""
        head = HEAD.match(line)
        first = head[1].rstrip(":") if head else ""
        # An equation begins with the name, or with an argument of an infix one.
        if line != "}" and not BEGINS.match(line) and first != name and "◌" not in (name or ""):
            self.strays.append(line)
        name = first if BEGINS.match(line) or name is None else name
        if " data " in f" {line}":
            self.constructors[name] = []
        return name


class Definitions:
    def __init__(self, root: Union[str, Path]) -> None:
        crates = Path(root) / "crates"
        self.modules: dict[str, Module] = {}
        for path in sorted(crates.glob("*/specs/**/*.antt")):
            parts = path.relative_to(crates).with_suffix("").parts
            self.modules[".".join(["Rattle", *parts])] = Module("/".join(parts), path.read_text(encoding="utf-8"))

    def find(self, module: str, name: str) -> Optional[Named]:
        """The definition that a module has or passes on under a name: (its module, its name), or None if it is none of ours.

        A constant of the code, which the module `TheConstants` of its file has, is found so too."""
        if module.endswith(CONSTANTS):
            return module, name
        if module not in self.modules:
            return None
        known = self.modules[module]
        for own in known.own:
            if own == name or name in known.constructors.get(own, ()):
                return module, own
        for passes_on, other, names, _ in known.uses:
            for given, called in map(renamed, names if passes_on else ()):
                if called == name:
                    return self.find(other, given)
        return None

    @cache
    def known_in(self, module: str) -> tuple[dict[str, Named], dict[str, str]]:
        """The names that a module can use: of definitions, and of other modules."""
        names, modules = self.brought_by(self.modules[module].uses)
        return {**names, **{own: (module, own) for own in self.modules[module].own}}, modules

    def brought_by(self, uses: Iterable[Use]) -> tuple[dict[str, Named], dict[str, str]]:
        """The definitions that `use` lines bring by their names, and the modules."""
        names: dict[str, Named] = {}
        modules: dict[str, str] = {}
        for _, module, given, alias in uses:
            first, dot, rest = module.partition(".")
            module = modules.get(first, first) + dot + rest
            if not given:
                modules[alias or module.rpartition(".")[2]] = module
            for name, called in map(renamed, given):
                if found := self.find(module, name):
                    names[called] = found
        return names, modules

    @cache
    def used_by(self, module: str, name: str) -> set[Named]:
        """The definitions that one is made of; a constant of the code is made of none."""
        if module not in self.modules:
            return set()
        return self.used_in(self.modules[module].own[name], *self.known_in(module)) - {(module, name)}

    def used_in(self, text: str, names: dict[str, Named], modules: dict[str, str]) -> set[Named]:
        """The definitions that a text names, under the names and modules that are known there, or by the whole name."""
        # a name with places for its arguments, such as ◌∈◌, by each of its words
        by_word = {word: found for name, found in names.items() for word in name.split("◌") if word}
        used = {by_word[word] for word in NAME.findall(re.sub(r"(?<=[\w)])\.[^\s(){}\[\],;]+", " ", text)) if word in by_word}
        dotted = [(modules[alias], name) for alias, name in re.findall(r"\b(\w+)\.(\w+)", text) if alias in modules]
        dotted += re.findall(r"\b(Rattle\.[\w.]+)\.(\w+)", text)
        return used | {found for module, name in dotted if (found := self.find(module, name))}

    def closure(self, module: str, name: str, without: Collection[str] = ()) -> set[Named]:
        """All definitions that one is made of, and itself; none that only the left-out ones need."""
        found: set[Named] = set()
        left = [(module, name)]
        while left:
            one = left.pop()
            if one not in found and one[1] not in without:
                found.add(one)
                left += self.used_by(*one)
        return found

    def lines(self, found: Iterable[Named]) -> int:
        """How many lines some definitions have, without comments and blank lines."""
        texts = [self.modules[module].own.get(name, "") for module, name in found if module in self.modules]
        return sum(1 for text in texts for line in text.splitlines() if line.strip())

    def files(self, found: Iterable[Named]) -> list[str]:
        """The files of some definitions, without those that only pass names on."""
        return sorted({self.modules[module].path for module, _ in found if module in self.modules})
