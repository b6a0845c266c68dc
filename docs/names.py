"""The names that the pages give: files, modules, functions, definitions, commands. Each has to be there.

Pages name them between backquotes. A name with a slash or with an ending is a file, below the repository, below crates/ or below the src/ of a
crate; `a::b` and a name of several words (`read_trace`, `NextItem`) are declared in a source. What is not such a name, as a line of a shell or
a literal, is not looked at.
"""

import re
import subprocess
from collections.abc import Iterator
from functools import cached_property
from pathlib import Path
from typing import Union

PAGES = ("README.md", "CONTRIBUTING.md", "docs/*.md", "examples/README.md")
# Pages that tell what was: their names need not be there any more.
PAST = ("CHANGELOG.md", "docs/DECISIONS.md")
ENDINGS = (".rt", ".antt", ".py", ".c", ".h", ".rows", ".md", ".svg", ".tsv", ".edit", ".txt")
# These tests have names that are wrong on purpose.
WRONG = ("tests/gate/", "tests/documents/", "tests/bench/")
QUOTED = re.compile(r"`([^`\n]+)`")
WORD = re.compile(r"[A-Za-z_][\w-]*")
# Names of files that a user makes, or that the toolchain makes.
MADE = re.compile(r"(^|/)(out|dist|bin|lib|build|work)(/|$)|FILE|FORMULA|TRACE|NAME|CRATE|DIR|^~|^/|\$|<|\*\*|=|\s")


class Names:
    """What the repository has names for."""

    def __init__(self, root: Union[str, Path]) -> None:
        self.root = Path(root)

    @cached_property
    def files(self) -> list[str]:
        """The files that git knows, and those that it would."""
        words = ["git", "ls-files", "--cached", "--others", "--exclude-standard"]
        done = subprocess.run(words, cwd=self.root, capture_output=True, text=True, check=False)
        if done.returncode == 0 and done.stdout:
            return [path for path in done.stdout.splitlines() if (self.root / path).exists()]
        return [str(path.relative_to(self.root)) for path in self.root.rglob("*") if path.is_file() and "/out/" not in str(path)]

    @cached_property
    def paths(self) -> set[str]:
        """Each file and folder, by every way in which a page may name it: from the root on, from crates/ on, from a crate on."""
        found = set()
        for file in self.files:
            parts = file.split("/")
            for end in range(1, len(parts) + 1):
                for begin in range(0, end):
                    found.add("/".join(parts[begin:end]))
        return found | {str(Path(path).with_suffix("")) for path in found}

    @cached_property
    def declared(self) -> set[str]:
        """The words of all sources: what a page names must be one of them."""
        found = set()
        for file in self.files:
            if file.endswith((".md", ".svg", ".qrp", ".qdimacs", ".rows")) or file.startswith(WRONG):
                continue
            try:
                text = (self.root / file).read_text(encoding="utf-8")
            except (UnicodeDecodeError, OSError):
                continue
            code = re.sub(r"(?m)^\s*(//|--|#(?!define|include|!)).*$", "", text)
            found.update(WORD.findall(code))
            found.update(file.split("/"))
            found.add(Path(file).stem)
        return found

    def pages(self) -> Iterator[Path]:
        for pattern in PAGES:
            for path in sorted(self.root.glob(pattern)):
                if str(path.relative_to(self.root)) not in PAST:
                    yield path

    def is_path(self, name: str) -> bool:
        return not MADE.search(name) and bool(re.fullmatch(r"[\w./*-]+", name)) and ("/" in name or name.endswith(ENDINGS))

    def is_name(self, name: str) -> bool:
        """Whether it is a name of several words, or a path of names."""
        return bool(re.fullmatch(r"[A-Za-z]\w*(::[A-Za-z]\w*)+|[a-z]+(_[a-z0-9]+)+|([A-Z][a-z]+){2,}", name))

    def is_there(self, name: str) -> bool:
        if "*" in name:
            pattern = re.compile(re.escape(name).replace(r"\*", "[^/]*") + "$")
            return any(pattern.match(path) for path in self.paths)
        return name.strip("/") in self.paths

    def unknown(self) -> Iterator[str]:
        """A line for each name of a page that is not there."""
        for page in self.pages():
            inside = False
            for number, line in enumerate(page.read_text(encoding="utf-8").splitlines(), 1):
                if line.startswith("```"):
                    inside = not inside
                for name in () if inside else QUOTED.findall(line):
                    if self.is_path(name):
                        if not self.is_there(name):
                            yield f"{page.relative_to(self.root)}:{number}: there is no file `{name}`"
                    elif self.is_name(name) and not all(part in self.declared for part in name.split("::")):
                        yield f"{page.relative_to(self.root)}:{number}: no source has the name `{name}`"
