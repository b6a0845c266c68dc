"""The crates of crates.txt, folders in which one crate is worked on alone, and work on several crates at once.

`rt` lets one run at a time into a crate and into those below it. To prove several crates at once, each gets a folder of its own with a
copy of the crate and of the libraries below it, which `rt` takes as they were proved.
"""

import os
import shutil
import signal
import subprocess
import threading
import time
from collections.abc import Callable, Hashable, Iterable
from concurrent.futures import FIRST_COMPLETED, Future, ThreadPoolExecutor, wait
from pathlib import Path
from typing import Any, Union

PARTS = ("src", "specs", "proofs", "data", "args", "stdin", "stdout", "status")
# What one run of `rt` may take beside others, in bytes.
ROOM = 4_000_000_000
# A task: its name, what it waits for, its work, the most jobs that are of use to it, and its rank.
Task = tuple[Hashable, list[Hashable], Callable[[int], object], int, int]


class Stopped(Exception):
    """Why the work cannot go on, in one line for the user."""


class Crates:
    """The crates of a repository, each with the crates of the repository that it stands on, lowest first."""

    def __init__(self, root: Union[str, Path]) -> None:
        self.root = Path(root)
        self.on: dict[str, list[str]] = {}
        self.lines: dict[str, str] = {}
        for line in (self.root / "crates.txt").read_text(encoding="utf-8").splitlines():
            words, _, deps = line.partition("#")[0].partition(":")
            if words.split():
                name = words.split()[0]
                self.lines[name] = line
                self.on[name] = deps.split()
        self.on = {name: [dep for dep in deps if dep in self.on] for name, deps in self.on.items()}

    def folder(self, name: str) -> Path:
        return self.root / "crates" / name

    def below(self, name: str) -> list[str]:
        """The crates below one, each once, lowest first."""
        found: list[str] = []
        for dep in self.on[name]:
            found += [below for below in [*self.below(dep), dep] if below not in found]
        return found

    def is_program(self, name: str) -> bool:
        return (self.folder(name) / "src" / "main.rt").exists()

    def lay_out(self, name: str, room: Union[str, Path], kept: bool = True) -> "Crates":
        """Makes the folder `room` a repository of one crate and those below it. What was kept of its proofs goes along, unless
        `kept` says otherwise; of those below it only the built libraries do."""
        room = Path(room)
        (room / "crates").mkdir(parents=True)
        names = [*self.below(name), name]
        (room / "crates.txt").write_text("".join(f"{self.lines[one]}\n" for one in names), encoding="utf-8")
        for one in names:
            copy_crate(self.folder(one), room / "crates" / one)
        for below in self.below(name):
            copy(self.folder(below) / "out" / "rlib", room / "crates" / below / "out" / "rlib", linked=True)
        if kept:
            copy(self.folder(name) / "out" / "rlib", room / "crates" / name / "out" / "rlib", linked=True)
            copy(self.folder(name) / "out" / "incremental", room / "crates" / name / "out" / "incremental", linked=True)
        return Crates(room)


def copy_crate(source: Path, target: Path) -> None:
    for part in PARTS:
        copy(source / part, target / part)


def copy(source: Path, target: Path, linked: bool = False) -> None:
    """Copies a file or folder, if it is there, with its times; or links its files, where the toolchain only reads or replaces them."""
    if source.exists():
        target.parent.mkdir(parents=True, exist_ok=True)
        how = "-al" if linked and source.stat().st_dev == target.parent.stat().st_dev else "-a"
        done = subprocess.run(["cp", how, str(source), str(target)], capture_output=True, text=True)
        if done.returncode:
            raise Stopped(f"cannot copy {source.name}: {(done.stderr.strip() or 'the disk may be full').splitlines()[-1]}")


def processors() -> int:
    return len(os.sched_getaffinity(0))


def free_memory() -> int:
    with open("/proc/meminfo", encoding="ascii") as lines:
        return next(int(line.split()[1]) * 1024 for line in lines if line.startswith("MemAvailable"))


class Runs:
    """Commands that run at once, and all end when the first of them must not go on."""

    def __init__(self) -> None:
        self.running: set[subprocess.Popen[str]] = set()
        self.lock, self.ended = threading.Lock(), False

    def run(self, words: list[str], folder: Path, **more: Any) -> tuple[int, str, str]:
        """Runs a command to its end; gives its status, and what it wrote to its two outputs, or else to both."""
        with self.lock:
            if self.ended:
                raise Stopped("interrupted")
            how: dict[str, Any] = {"stdin": subprocess.DEVNULL, "stdout": subprocess.PIPE, "stderr": subprocess.STDOUT, "errors": "replace"}
            try:
                # A group of its own, which can be ended as a whole, and no session: the system shares processors among sessions.
                child = subprocess.Popen(words, cwd=folder, text=True, preexec_fn=os.setpgrp, **{**how, **more})
            except FileNotFoundError as error:
                raise Stopped(f"there is no {words[0]} on this machine: the Rattle toolchain has it (README, 'Getting it')") from error
            self.running.add(child)
        out, err = child.communicate()
        with self.lock:
            self.running.discard(child)
        if self.ended:
            raise Stopped("interrupted")
        return child.returncode, out, err or out

    def end(self) -> None:
        """Ends every command that still runs."""
        with self.lock:
            self.ended = True
            for child in self.running:
                try:
                    os.killpg(child.pid, signal.SIGKILL)
                except ProcessLookupError:
                    pass


class Lanes:
    """Tasks that wait for others, on so many lanes, those of the lowest rank first; a task may add more. The first that fails ends all."""

    def __init__(self, lanes: int, runs: Runs) -> None:
        self.lanes, self.runs = lanes, runs
        self.waiting: list[Task] = []
        self.done: set[Hashable] = set()
        self.running: dict[Future[object], tuple[Hashable, int]] = {}

    def add(self, key: Hashable, after: Iterable[Hashable], work: Callable[[int], object], jobs: int = 1, rank: int = 0) -> None:
        """Adds a task: what it waits for, its work, which is given how many jobs it may use, the most that are of use to it, and its rank."""
        self.waiting.append((key, list(after), work, jobs, rank))

    def ready(self) -> list[Task]:
        return sorted((task for task in self.waiting if all(key in self.done for key in task[1])), key=lambda task: task[4])

    def start(self, pool: ThreadPoolExecutor) -> None:
        ready = self.ready()
        for number, task in enumerate(ready):
            idle = self.lanes - sum(jobs for _, jobs in self.running.values())
            if idle < 1 or (self.running and free_memory() < ROOM):
                return
            jobs = max(1, min(task[3], idle // (len(ready) - number)))
            self.waiting.remove(task)
            self.running[pool.submit(task[2], jobs)] = task[0], jobs
            if jobs > 1:
                time.sleep(0.1)

    def run(self) -> None:
        with ThreadPoolExecutor(self.lanes) as pool:
            try:
                while self.waiting or self.running:
                    self.start(pool)
                    for future in wait(self.running, timeout=2, return_when=FIRST_COMPLETED).done:
                        key, _ = self.running.pop(future)
                        future.result()
                        self.done.add(key)
            except BaseException:
                self.runs.end()
                raise
