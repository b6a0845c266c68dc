"""gate/wrong-bodies.tsv: each mutant, and which of the promised ones it is, if it is one. Above them lines of comment say what is promised."""

from collections.abc import Iterator
from pathlib import Path

import commands
from crates import Crates, Stopped


class Table(commands.Table):
    """The mutants that are written down, by CRATE/EDIT, each with the promised one that it is, or '-'."""

    def __init__(self, path: Path) -> None:
        comments = [line for line in path.read_text(encoding="utf-8").splitlines() if line.startswith("#")]
        super().__init__(path, "\n".join(comments).removeprefix("# "))
        self.promised = [line.removeprefix("#   ") for line in comments if line.startswith("#   ")]
        if wrong := [" | ".join(row) for row in self.rows() if len(row) != 2]:
            raise Stopped(f"gate/{path.name}: this line has other columns than it must: {wrong[0]}")
        self.kinds: dict[str, str] = dict(self.rows())

    def store_all(self, repository: Crates) -> None:
        """Writes down the mutants that there are."""
        found, _ = there(repository)
        self.store((name, self.kinds.get(name, "-")) for name in sorted(found))

    def lost(self, repository: Crates, crates: list[str]) -> Iterator[str]:
        """What differs between the mutants of some crates and those that are written down."""
        found, others = there(repository)
        is_asked = lambda name: name.split("/")[0] in crates
        table = f"gate/{self.path.name}"
        yield from (f"{name} is written down in {table}, and there is no such file" for name in self.kinds if is_asked(name) and name not in found)
        more = (name for name in found if is_asked(name) and name not in self.kinds)
        yield from (f"{name} is not written down in {table} (gate/try-wrong-bodies --store)" for name in more)
        yield from (f"{name} is not a mutant: its name does not end in .edit" for name in others if is_asked(name))
        kinds = set(self.kinds.values()) - {"-"}
        yield from (f"{table}: there is no mutant of the promised kind: {kind}" for kind in self.promised if kind not in kinds)
        yield from (f"{table}: it is not a promised kind: {kind}" for kind in sorted(kinds) if kind not in self.promised)


def there(repository: Crates) -> tuple[list[str], list[str]]:
    """The mutants that there are, and files beside them that are none."""
    files = [f"{name}/{path.name}" for name in repository.on for path in sorted((repository.folder(name) / "must-fail").glob("*"))]
    return [file.removesuffix(".edit") for file in files if file.endswith(".edit")], [file for file in files if not file.endswith(".edit")]
