"""The files of a check: plain ones, compressed ones that are unpacked by a pipe, and the standard input. A part of tools/check.

A compressed file is known by its first bytes. The standard program unpacks it, and qrp_cmd reads what it writes, so that neither a copy is
made nor the whole is in memory.
"""

import os
import re
import shutil
import stat
import subprocess
from collections.abc import Iterator
from contextlib import contextmanager
from typing import IO, BinaryIO, Callable, Optional

from qrptools.command import not_read, read_file, started, unusable
from qrptools.compressed import PACKAGES, is_unpacked, unpacker_of

STANDARD_INPUT = "/dev/stdin"
DESCRIPTOR = re.compile(r"/(?:dev|proc/self)/fd/([0-9]{1,6})")  # the name of a file that is open already, such as a pipe of the shell


class Source:
    """A file of a check: its name, whether its bytes can be read again, and how it is compressed, if it is."""

    def __init__(self, path: str) -> None:
        self.path = STANDARD_INPUT if path == "-" else path
        self.unpacker: Optional[str] = None
        self.process: Optional[subprocess.Popen[bytes]] = None
        self.pipe: Optional[IO[bytes]] = None  # of what unpacks the file
        self.errors: Optional[IO[bytes]] = None
        self.file: Optional[BinaryIO] = None
        self.is_regular = self.has_mode(stat.S_ISREG)
        if self.is_regular:
            self.unpacker = unpacker_of(self.path)

    def has_mode(self, test: Callable[[int], bool]) -> bool:
        try:
            return test(os.stat(self.path).st_mode)
        except OSError:
            return False

    @contextmanager
    def opened(self) -> Iterator[tuple[str, tuple[int, ...]]]:
        """While this holds, the program can read the file by the name that is yielded, and by these descriptors."""
        if not self.unpacker:
            own = DESCRIPTOR.fullmatch(self.path)
            yield self.path, (int(own[1]),) if own else ()
            return
        if not shutil.which(self.unpacker):
            package = PACKAGES.get(self.unpacker, self.unpacker)
            raise unusable(f"{self.path} is compressed, and there is no {self.unpacker} on this machine (on Debian: apt-get install {package})")
        try:
            self.file = open(self.path, "rb", buffering=0)
        except OSError as fault:
            raise unusable(not_read(self.path, fault)) from fault
        with self.file, started([self.unpacker, "-dc"], stdin=self.file, stdout=subprocess.PIPE, stderr=subprocess.PIPE) as process:
            self.process, self.pipe, self.errors = process, process.stdout, process.stderr
            number = self.pipe.fileno() if self.pipe else -1  # there is a pipe, since one was asked for
            yield f"/dev/fd/{number}", (number,)

    def close_pipe(self) -> None:
        """Lets the program be the only reader, so that what unpacks ends with it."""
        if self.pipe:
            self.pipe.close()

    def complaint(self) -> Optional[str]:
        """Why the file could not be unpacked to its end, None if it could, or if its end was not asked for."""
        if not self.process or not self.errors:
            return None
        said = self.errors.read().decode(errors="replace").strip().split("\n")
        status = self.process.wait()
        return None if is_unpacked(self.unpacker or "", status) else said[-1] or f"{self.unpacker} ended with status {status}"

    def place(self, program: int) -> tuple[int, int]:
        """How many bytes of the file were read so far, by this process of the program, and how many it has; zeros if that is not known."""
        try:
            size = os.stat(self.path).st_size if self.is_regular else 0
            place = os.lseek(self.file.fileno(), 0, os.SEEK_CUR) if self.file else place_of(program, os.path.realpath(self.path))
            return (min(place, size), size) if place is not None else (0, 0)
        except (OSError, ValueError):
            return 0, 0

    def whole(self) -> bytes:
        """All bytes, unpacked. The command ends if they cannot be unpacked to their end."""
        if not self.unpacker:
            return read_file(self.path)
        with self.opened():
            data = self.pipe.read() if self.pipe else b""
            fault = self.complaint()
        if fault:
            raise unusable(f"{self.path} cannot be unpacked: {fault}")
        return data

    def head(self, size: int) -> bytes:
        """The first bytes, unpacked, of a file that can be read again; else none."""
        if not self.is_regular:
            return b""
        if not self.unpacker:
            with open(self.path, "rb") as file:
                return file.read(size)
        with self.opened():
            return self.pipe.read(size) if self.pipe else b""

    def read(self) -> bytes:
        """All bytes, unpacked."""
        if not self.unpacker:
            return read_file(self.path)
        with self.opened():
            return self.pipe.read() if self.pipe else b""


def place_of(process: int, path: str) -> Optional[int]:
    """Where a process is in a file that it has open, None if it has not."""
    folder = f"/proc/{process}/fd"
    for number in os.listdir(folder):
        if os.readlink(f"{folder}/{number}") == path:
            with open(f"/proc/{process}/fdinfo/{number}") as about:
                return int(about.readline().split()[1])
    return None
