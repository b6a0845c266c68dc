"""Crates that are proved as they are, and checks and tests over copies of them with other bodies."""

import re
import shutil
import time
from pathlib import Path
from typing import Optional

from crates import Crates, Runs, Stopped, copy

from .bodies import Body, put, together
from .said import Check, function_at, read_check


class Prover:
    """The crates of a repository, each proved in a folder of its own."""

    def __init__(self, repository: Crates, rt: str, runs: Runs, folder: Path) -> None:
        self.repository, self.rt, self.runs, self.folder = repository, rt, runs, folder
        self.proved: dict[str, Crates] = {}

    def prove(self, name: str, jobs: int) -> None:
        """Proves a crate as it is over the crates below it, and keeps it for what follows."""
        begun = time.monotonic()
        room = self.repository.lay_out(name, self.folder / "proved" / name)
        for below in self.repository.below(name):
            shutil.rmtree(room.folder(below) / "out", ignore_errors=True)
            copy(self.proved[below].folder(below) / "out" / "rlib", room.folder(below) / "out" / "rlib", linked=True)
        verb = "check" if self.repository.is_program(name) else "lib"
        status, text, _ = self.runs.run([self.rt, verb, "--jobs", str(jobs)], room.folder(name))
        if status:
            last = [line for line in text.splitlines() if line.strip()] or ["it said nothing"]
            raise Stopped(f"{name} is not proved as it is, so no mutant of it was tried: {last[-1][:300]}")
        self.proved[name] = room
        print(f"{name}: proved as it is, {time.monotonic() - begun:.0f} s", flush=True)

    def check(self, name: str, label: str, bodies: list[Body]) -> Check:
        """Checks bodies over a copy of a crate."""
        room = self.proved[name].lay_out(name, self.folder / f"{name}-{label}")
        crate = room.folder(name)
        put(bodies, name, crate)
        only = [word for path in sorted({path for body in bodies for path in body.paths()}) for word in ("--only", path)]
        status, text, _ = self.runs.run([self.rt, "check", "--jobs", "1", *only], crate)
        found = read_check(text, lambda file, line: function_at(crate, file, line))
        if status not in (0, 1) or status and not found.functions:
            found.faults = found.faults or [line for line in text.splitlines() if line.strip()][-1:] or ["it said nothing"]
        shutil.rmtree(room.root, ignore_errors=True)
        return found

    def passes(self, name: str, label: str, bodies: list[Body], tests: list[tuple[str, str]]) -> list[Optional[bool]]:
        """Which of some tests, each at the end of a file, pass over a copy of a crate with these bodies; None of one that was not run."""
        room = self.repository.lay_out(name, self.folder / f"{name}-{label}", kept=False)
        crate = room.folder(name)
        for file, text in together(bodies, crate).items():
            (crate / file).write_text(text, encoding="utf-8")
        for number, (file, test) in enumerate(tests):
            head = f"#[cfg(test)]\nmod witness_{number} {{\n    use super::*;\n\n    #[test]\n    fn differs(rt: HostRuntime) {{"
            with (crate / file).open("a", encoding="utf-8") as end:
                end.write(f"\n{head}\n{test}\n    }}\n}}\n")
        _, text, _ = self.runs.run([self.rt, "try", "--test"], crate)
        shutil.rmtree(room.root, ignore_errors=True)
        ended = dict(re.findall(r"(?m)^test \S*\bwitness_(\d+)::differs \.\.\. (ok|FAILED)$", text))
        return [{"ok": True, "FAILED": False}.get(ended.get(str(number), "")) for number in range(len(tests))]
