"""The files that a part of the repository needs, and those that nothing else needs: what may stay closed while the rest is read.

A file needs another one if it brings in a name from there, if the other one has methods of a type that it declares, or if the other one has
stored proofs of its functions. A part begins at its doors: a file is behind them if it is no longer needed once they are closed.
"""

import re
from collections.abc import Iterable, Iterator
from functools import cached_property
from pathlib import Path

from crates import PARTS, Crates
from rattle_source import without_comments

# A path of code, and one of definitions and lemmas, with the list of names that may follow.
PATH = re.compile(r"\b(crate|[a-z]\w*)::((?:\w+::)*)(\{(?:[^{}]|\{[^{}]*\})*\}|\w+)")
TERM = re.compile(r"\bRattle\.(\w+)\.(specs|proofs)\.([\w.-]+?)(?:\.?\{([^}]*)\})?(?=[\s;,]|\Z)")
OFFERED = re.compile(r"(?m)^pub use ([\w:]+)::(\{[^}]*\}|\w+)")
DECLARED = re.compile(r"(?m)^\s*(?:pub(?:\(crate\))? )?(?:struct|enum|trait|type|union) (\w+)")
METHODS = re.compile(r"(?m)^\s*impl(?:<[^{]*?>)? (?:[\w:<>', ]+? for )?&?(?:'\w+ )?(\w+)")
PASSED_ON = re.compile(r"(?m)^pub use Rattle\.(\w+)\.(specs|proofs)\.([\w.-]+?)\.\{([^}]*)\}")
INSIDE = re.compile(r"(?m)^mod (\w+);")
NAME = re.compile(r"\w+")


class Files:
    """The files of all crates, and which of them each needs."""

    def __init__(self, root: Path) -> None:
        self.root = root
        repository = Crates(root)
        self.crates = list(repository.on)
        self.parts = {name: repository.folder(name) for name in self.crates}
        found = [file for folder in self.parts.values() for part in PARTS for file in sorted((folder / part).rglob("*.*")) if file.is_file()]
        self.texts = {file: file.read_text(encoding="utf-8") for file in found if file.suffix in (".rt", ".antt")}
        self.code = {file: without_comments(text) for file, text in self.texts.items() if file.suffix == ".rt"}

    def lines(self, files: Iterable[Path]) -> int:
        return sum(self.texts[file].count("\n") for file in files)

    def of_crate(self, name: str) -> set[Path]:
        return {file for file in self.texts if self.parts[name] in file.parents}

    def needed(self, roots: Iterable[Path], closed: Iterable[Path] = ()) -> set[Path]:
        """All that these files need, and they themselves, if some files are closed."""
        found: set[Path] = set(closed)
        left = [file for file in roots if file not in found]
        found |= set(left)
        while left:
            new = self.needs[left.pop()] - found
            found |= new
            left += new
        return found - set(closed)

    def behind(self, roots: Iterable[Path], doors: Iterable[Path]) -> set[Path]:
        """The files that these need only by the doors, and the doors."""
        roots = list(roots)
        return self.needed(roots) - self.needed(roots, doors)

    @cached_property
    def needs(self) -> dict[Path, set[Path]]:
        found = {file: {other for other in self.brought_in(file) if other != file} for file in self.texts}
        for file, code in self.code.items():
            for name in METHODS.findall(code):
                for declared in self.declared.get((self.crate(file), name), ()):
                    if declared != file:
                        found[declared].add(file)
        for file in self.texts:
            found[file] |= set(self.contents(file))
            for owner in self.proved(file):
                found[owner].add(file)
        return found

    def contents(self, file: Path) -> Iterator[Path]:
        """The tables of contents that a file stands in, and the modules inside it."""
        folder = self.parts[self.crate(file)] / file.relative_to(self.parts[self.crate(file)]).parts[0]
        yield from (table for name in ("lib.rt", "Lib.antt") if (table := folder / name) in self.texts)
        if file.name != "lib.rt":
            yield from (one for name in INSIDE.findall(self.code.get(file, "")) if (one := file.with_suffix("") / f"{name}.rt") in self.texts)

    def crate(self, file: Path) -> str:
        return file.relative_to(self.root / "crates").parts[0]

    @cached_property
    def declared(self) -> dict[tuple[str, str], list[Path]]:
        found: dict[tuple[str, str], list[Path]] = {}
        for file, code in self.code.items():
            for name in DECLARED.findall(code):
                found.setdefault((self.crate(file), name), []).append(file)
        return found

    def brought_in(self, file: Path) -> Iterator[Path]:
        """The files that a file names names of."""
        for crate, kind, path, names in TERM.findall(self.texts[file]):
            if crate in self.parts:
                yield from self.of_terms(crate, kind, path, names)
        for first, path, names in PATH.findall(self.code.get(file, "")):
            crate = self.crate(file) if first == "crate" else first
            if crate in self.parts:
                for name in NAME.findall(names):
                    yield from self.of_name(crate, [*path.split("::")[:-1], name])

    def of_terms(self, crate: str, kind: str, path: str, names: str) -> Iterator[Path]:
        """The file of a definition or of a lemma; of one that only passes the names on, those that it has them from."""
        parts = path.split(".")
        if parts[0] == "declared":
            yield from self.module(crate, "src", parts[1:], ".rt")
            return
        for file in self.module(crate, kind, parts, ".antt"):
            wanted = {name.split(" as ")[0].strip() for name in names.split(",")}
            for other, part, module, given in PASSED_ON.findall(self.texts[file]):
                same = wanted & {name.strip() for name in given.split(",")} if other in self.parts else set()
                if same:
                    yield from self.of_terms(other, part, module, ",".join(sorted(same)))
                wanted -= same
            if wanted:
                yield file

    def module(self, crate: str, part: str, names: list[str], suffix: str) -> Iterator[Path]:
        """The file of a module, which is the longest beginning of these names that has one."""
        for count in range(len(names), 0, -1):
            file = (self.parts[crate] / part / Path(*names[:count])).with_suffix(suffix)
            if file in self.texts:
                yield file
                return

    def of_name(self, crate: str, names: list[str]) -> Iterator[Path]:
        """The file that has a name of code: a module of the crate, or what it offers."""
        if names[0] == "proofs":
            yield from self.module(crate, "proofs", names[1:], ".antt")
            return
        inside = list(self.module(crate, "src", names, ".rt"))
        yield from inside
        for module, offered in OFFERED.findall(self.code.get(self.parts[crate] / "src" / "lib.rt", "")) if not inside else ():
            if names[0] in NAME.findall(offered):
                first, *rest = module.split("::")
                yield from self.of_name(first if first in self.parts else crate, [*([] if first in self.parts else [first]), *rest, names[0]])

    def proved(self, file: Path) -> Iterator[Path]:
        """The files of code that a file has a stored proof of."""
        crate, part, *names = file.relative_to(self.root / "crates").parts
        if part != "proofs" or len(names) < 2:
            return
        owners = list(self.module(crate, "src", names[:-1], ".rt"))
        function = re.compile(rf"\bfn {re.escape(names[-2])}\b")
        having = [owner for owner in owners if function.search(self.code[owner])]
        yield from having or [one for one in self.code if self.crate(one) == crate and function.search(self.code[one])] or owners
