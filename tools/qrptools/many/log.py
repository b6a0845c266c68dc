"""The log of tools/check-many: each row as soon as it is known. A part of tools/check-many.

Its first line says what it is. Each line after it has the words of a line of the list, with the whole paths of the files, the size and the time
of the formula, the trace and both programs, and then the result. So a row counts for a line of the list only if all these agree, wherever that
line stands now. A run holds a lock on the log as long as it may write there.
"""

import fcntl
import os
import re
from collections import defaultdict
from collections.abc import Iterator
from contextlib import contextmanager
from functools import lru_cache
from typing import BinaryIO, Optional

from qrptools.command import Ends, not_read, unusable, version
from qrptools.many.rows import Pair, Result, lines_of
from qrptools.signals import held_signals

TITLE = "# log of check-many, format 3, qrp_cmd "
Key = tuple[str, str, str, str, str]  # what a row is known by: the words, and the stamps
FIGURE = re.compile(r"[0-9]+(\.[0-9]+)?")
KEYS = 5  # fields of a key


@lru_cache(maxsize=None)
def stamp(path: str) -> str:
    """The size of a file and the time in nanoseconds at which it was written, when it was first asked for; a minus if it is not on this
    machine."""
    try:
        status = os.stat(path)
    except (OSError, ValueError):
        return "-"
    return f"{status.st_size}:{status.st_mtime_ns}"


def first_line() -> str:
    return f"{TITLE}{version() or 'of an unknown version'}"


def is_result(fields: list[str]) -> bool:
    """Whether these are the fields of a result."""
    return len(fields) == 5 and fields[1].isdecimal() and all(FIGURE.fullmatch(field) for field in fields[2:])


class Log:
    """The log of the checks by this program and that for formulas of gates, by the name of its file, which is open as long as `opened` lasts."""

    file: BinaryIO

    def __init__(self, path: str, program: str, gates: str) -> None:
        self.path, self.program, self.gates = path, program, gates
        self.known: defaultdict[Key, list[Result]] = defaultdict(list)  # by what their pairs are known by, in the order in which they came

    def key_of(self, pair: Pair) -> Key:
        """What a row is known by."""
        stamps = ",".join(map(stamp, (pair.formula, pair.trace, self.program, self.gates)))
        return (pair.name, os.path.abspath(pair.formula), os.path.abspath(pair.trace), pair.flag, stamps)

    def results(self, pairs: list[Pair]) -> list[Optional[Result]]:
        """The result of each pair, None where it is not known. Of several equal pairs each has its own, as long as there are some."""
        rest = {key: iter(results) for key, results in self.known.items()}
        return [next(rest.get(self.key_of(pair), iter(())), None) for pair in pairs]

    @contextmanager
    def opened(self, is_resumed: bool) -> Iterator[None]:
        """Opens the log for more rows. One that is there has to be a log, and counts if the command goes on."""
        with held_signals():
            with self.written():
                self.file = self.open()
            try:
                self.lock()
                if self.is_new:
                    self.begin()
            except Ends:
                self.file.close()
                raise
        try:
            if not self.is_new:
                self.read(is_resumed)
            yield
        finally:
            with self.written():  # what could not be written is tried once more
                self.file.close()

    def open(self) -> BinaryIO:
        """The file, which is new if there is none of this name."""
        self.is_new = not os.path.lexists(self.path)
        if not self.is_new and not os.path.isdir(self.path) and not os.path.isfile(self.path):
            raise unusable(f"{self.path} is not a file: name another one by --log")
        try:
            return open(self.path, "x+b" if self.is_new else "r+b")
        except FileExistsError:  # another run was faster
            self.is_new = False
            return open(self.path, "r+b")
        except OSError as fault:
            if self.is_new:
                raise
            raise unusable(not_read(f"the log {self.path}", fault)) from fault

    def lock(self) -> None:
        """Ends the command if another run is at work on this log. A file system that has no locks has none here."""
        try:
            fcntl.flock(self.file, fcntl.LOCK_EX | fcntl.LOCK_NB)
        except BlockingIOError as fault:
            raise unusable(f"another check-many is at work on {self.path}: wait for it, or name another log by --log") from fault
        except OSError:
            pass

    def begin(self) -> None:
        """Writes the first line of a new log, or takes it away."""
        try:
            with self.written():
                self.file.write(os.fsencode(first_line()) + b"\n")
                self.file.flush()
        except Ends:
            os.unlink(self.path)
            raise

    def read(self, is_resumed: bool) -> None:
        """Takes the rows of a log that is there, if the command goes on. A last line that was cut off is taken away; another file is refused."""
        line = self.file.readline(len(first_line()) + 1)
        first = os.fsdecode(line.rstrip(b"\n"))
        if first != first_line():
            what = "is of another version" if first.startswith(TITLE.partition(",")[0]) else "is no log of check-many"
            raise unusable(f"{self.path} {what}, and was not changed: name another file by --log, or take it away")
        if not is_resumed:
            raise unusable(f"{self.path} is there already: go on with --resume, or take it away")
        data = self.file.read()
        for row in lines_of(data)[:-1]:
            fields = row.split("\t")
            if is_result(fields[KEYS:]):
                name, formula, trace, flag, stamps = fields[:KEYS]
                self.known[name, formula, trace, flag, stamps].append(Result(*fields[KEYS:]))
        with self.written():
            self.file.seek(data.rfind(b"\n") + 1 - len(data), os.SEEK_END)
            self.file.truncate()
            self.file.write(b"" if line.endswith(b"\n") else b"\n")

    @contextmanager
    def written(self) -> Iterator[None]:
        try:
            yield
        except OSError as fault:
            raise unusable(f"the log {self.path} cannot be written: {fault.strerror}") from fault

    def add(self, pair: Pair, result: Result) -> None:
        """Writes a row."""
        self.known[self.key_of(pair)].append(result)
        with self.written():
            self.file.write(os.fsencode("\t".join((*self.key_of(pair), *result)) + "\n"))
            self.file.flush()
