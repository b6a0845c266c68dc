"""What earlier runs on this machine found of wrong bodies and definitions that were refused, by a checksum of all that it was found from.

That is the edit, the sources, definitions and proofs of its crate and of those below it without comments, the toolchain, and the files of the
gate that judge. A caller learns what a contract says and not how the body does it, so the bodies of functions below with a contract are left
out, but for a witness, which runs them, and for a wrong definition, with which they are proved again. What is kept lies in the folder
qrp_cmd/refused below that of the user's caches (XDG_CACHE_HOME, or ~/.cache).
"""

import functools
import hashlib
import os
from pathlib import Path

from crates import Crates, Runs
from definitions import without_comments
from rattle_source import Source, one_line

JUDGES = ("try-wrong-*", "mutants/*.py", "rattle_source.py", "crates.py", "definitions.py")
PARTS = ("src", "specs", "proofs")


def read(file: Path, has_bodies: bool) -> bytes:
    """The text of a source without comments; of a definition or a proof with its layout, which says what belongs together."""
    text = file.read_text(encoding="utf-8")
    if file.suffix == ".rt":
        return one_line(text if has_bodies else without_bodies(text)).encode()
    return "\n".join(line for line in map(str.rstrip, without_comments(text).splitlines()) if line).encode()


def without_bodies(text: str) -> str:
    """A source without the bodies of functions whose contract ensures something: all that a caller learns of these is in the contract."""
    parts, place = [], 0
    for function in Source("", "src/lib.rt", text).functions:
        if function.open >= place and any(clause.kind == "ensures" for clause in function.clauses):
            parts.append(text[place : function.open])
            place = function.end
    return "".join([*parts, text[place:]])


def checksum(*texts: bytes) -> str:
    return hashlib.sha256(b"".join(b"%d:" % len(text) + text for text in texts)).hexdigest()


class Kept:
    """The refusals that are kept of the edits of a repository: those of one folder of each crate."""

    def __init__(self, repository: Crates, rt: str, judges: Path, edits: str = "must-fail") -> None:
        self.repository, self.edits = repository, edits
        self.folder = Path(os.environ.get("XDG_CACHE_HOME") or Path.home() / ".cache") / "qrp_cmd" / "refused"
        _, version, _ = Runs().run([rt, "version"], repository.root)
        files = sorted(path for pattern in JUDGES for path in judges.glob(pattern))
        self.judged_by = checksum(version.encode(), *(file.read_bytes() for file in files if file.exists()))

    @functools.cache
    def of_crate(self, name: str, has_bodies: bool, has_those_below: bool) -> bytes:
        """The checksum of a crate's files and of those of the crates below it, with the bodies that a caller does not see or without."""
        folder = self.repository.folder(name)
        files = sorted(file for part in PARTS for file in (folder / part).rglob("*") if file.is_file())
        texts = [text for file in files for text in (str(file.relative_to(folder)).encode(), read(file, has_bodies))]
        below = [self.of_crate(dep, has_those_below, has_those_below) for dep in self.repository.on[name]]
        return checksum(self.repository.lines[name].encode(), *below, *texts).encode()

    def file(self, name: str, edit: str, has_bodies: bool) -> Path:
        text = (self.repository.folder(name) / self.edits / f"{edit}.edit").read_bytes()
        return self.folder / checksum(self.judged_by.encode(), self.of_crate(name, True, has_bodies), edit.encode(), text)

    def find(self, name: str, edit: str) -> str:
        """The line that an earlier run said of a refusal, or nothing."""
        files = (self.file(name, edit, has_bodies) for has_bodies in (False, True))
        return next((file.read_text(encoding="utf-8").strip() for file in files if file.exists()), "")

    def put(self, name: str, edit: str, line: str, has_bodies: bool) -> None:
        """Keeps the line of a refusal; a folder that cannot be written to keeps nothing."""
        try:
            self.folder.mkdir(parents=True, exist_ok=True)
            file = self.file(name, edit, has_bodies)
            part = file.with_suffix(f".{os.getpid()}")
            part.write_text(f"{line}\n", encoding="utf-8")
            part.replace(file)
        except OSError:
            pass
