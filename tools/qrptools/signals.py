"""How signals end a command, and how what it started ends with it. A part of the tools, for command.py and for what begins often: to read
this takes far less time."""

from __future__ import annotations

import ctypes
import os
import signal
from collections.abc import Iterator
from contextlib import contextmanager
from types import FrameType

SIGNALS = (signal.SIGINT, signal.SIGTERM, signal.SIGHUP)
PR_SET_PDEATHSIG, PR_SET_CHILD_SUBREAPER = 1, 36  # of prctl(2)
SYSTEM = ctypes.CDLL(None)


class Signalled(BaseException):
    """A signal that ends the command."""

    def __init__(self, number: int) -> None:
        super().__init__(number)
        self.status = 128 + number


class Waiting:
    """The signals that came while they were held back."""

    depth = 0
    came: int | None = None


def on_signal(number: int, _frame: FrameType | None) -> None:
    if Waiting.depth:
        Waiting.came = number
    else:
        end_by(number)


def end_by(number: int) -> None:
    """Raises the end. Another signal does not disturb what is then cleaned up."""
    for other in SIGNALS:
        signal.signal(other, signal.SIG_IGN)
    raise Signalled(number)


def take_signals() -> None:
    """Signals end the command from here on, but for those that it was started to ignore."""
    for number in SIGNALS:
        if signal.getsignal(number) != signal.SIG_IGN:
            signal.signal(number, on_signal)


@contextmanager
def held_signals() -> Iterator[None]:
    """A signal that comes meanwhile is seen at the end."""
    Waiting.depth += 1
    try:
        yield
    finally:
        Waiting.depth -= 1
    if Waiting.came and not Waiting.depth:
        number, Waiting.came = Waiting.came, None
        end_by(number)


def end_with_parent(parent: int, number: int) -> None:
    """Has this process, which was just made, get a signal if the one that made it ends."""
    if hasattr(SYSTEM, "prctl"):
        SYSTEM.prctl(PR_SET_PDEATHSIG, number)
        if os.getppid() != parent:  # it has ended meanwhile
            os.kill(os.getpid(), number)


def adopt_orphans() -> None:
    """Makes this process the parent of what a process that it started leaves behind."""
    if hasattr(SYSTEM, "prctl"):
        SYSTEM.prctl(PR_SET_CHILD_SUBREAPER, 1, 0, 0, 0)


def kill_group(process: int) -> None:
    """Kills the group of a process, if there still is one."""
    try:
        os.killpg(process, signal.SIGKILL)
    except (ProcessLookupError, PermissionError):
        pass
