"""What a job does, on this machine or on another: some checks. A part of tools/check-many, whose jobs read this and not the command.

A small check takes less time than Python takes to begin. So a job reads few modules, and one process makes all its checks. That one is not
copied for each check, which would take longer than the check: the program is started by posix_spawn.
"""

from __future__ import annotations

import os
import resource
import select
import signal
import sys
import time

from qrptools.compressed import is_unpacked, unpacker_of
from qrptools.signals import adopt_orphans, end_with_parent, held_signals, kill_group, take_signals

TIMEOUT, DEVICE = 124, 3
GATES, HEAD = b"#QCIR-", 64  # how a formula of gates begins, and bytes of a file in which that is seen
LAST = 10.0  # seconds that what unpacks has to end after its reader
NEVER = float("inf")
LIMITED = ["/bin/sh", "-c", 'ulimit -v "$0" && exec "$@"']  # a limit of kilobytes, and the program in the place of the shell
IGNORED = [signal.SIGPIPE, signal.SIGXFSZ]  # by Python


def job(seconds: str, kilobytes: str, program: str, gates: str, *fields: str) -> int:
    """Checks the proofs of some lines one after the other: an index, a formula, a trace and a flag each, separated by tabs. A process of
    this one does it. If that one is killed, the check that it made is lost, and another process goes on."""
    adopt_orphans()
    checker = Checker(seconds, kilobytes, program, gates)
    words = "\t".join(fields).split("\t")
    lines = list(zip(*[iter(words)] * 4))
    while lines:
        lines = lines[checked_apart(checker, lines) + 1 :]
    return 0


def checked_apart(checker: Checker, lines: list[tuple[str, ...]]) -> int:
    """Checks the proofs of these lines in a process of its own, and says of how many there is a row. What it tells is looked at when it has
    ended, since each word would wake this process; the pipe has room for all."""
    own, (reading, writing) = os.getpid(), os.pipe()
    child = os.fork()
    if not child:
        try:
            end_with_parent(own, signal.SIGTERM)
            take_signals()
            for line in lines:
                checker.check(line, writing)
                os.write(writing, b".")
        finally:
            os._exit(0)
    os.close(writing)
    os.waitpid(child, 0)
    told = read_until(reading, NEVER) or b""
    os.close(reading)
    end_orphan(told.rpartition(b".")[2])
    return told.count(b".")


def end_orphan(process: bytes) -> None:
    """Ends the process with this number, if it is one that a killed process has left to this one."""
    try:
        if process and os.waitid(os.P_PID, int(process), os.WEXITED | os.WNOWAIT | os.WNOHANG) is None:
            end(int(process))
    except ChildProcessError:
        pass


class Checker:
    """A program, and that for formulas of gates, with the limits of each of their runs, 0 if there is none."""

    def __init__(self, seconds: str, kilobytes: str, program: str, gates: str) -> None:
        self.seconds = float(seconds)
        self.limits = [] if kilobytes == "0" else [*LIMITED, kilobytes]
        self.program, self.gates = program, gates

    def check(self, fields: tuple[str, ...], told: int) -> None:
        """Runs the program once and prints the row: index, line, status, seconds, those of the processor, and peak memory. The number of its
        process is told as soon as there is one."""
        index, formula, trace, flag = fields
        began = time.monotonic()
        until = began + self.seconds if self.seconds else NEVER
        sources = [Source(at_hand(formula)), Source(at_hand(trace))]
        program = self.gates if self.gates and sources[0].is_of_gates() else self.program
        words = [*self.limits, program, "check", *([] if flag == "-" else [flag]), *(source.name for source in sources)]
        process, (reading, writing) = 0, os.pipe()
        try:
            with held_signals():
                process = started(words, writing)
            os.write(told, b"%d" % process)
            os.close(writing)
            for source in sources:
                source.close_pipe()
            printed = read_until(reading, until)
            in_time = printed is not None and is_over(process, until)
            os.close(reading)
        finally:
            if process:
                status, used = end(process)
            damaged = [source.ended() for source in sources]
        line, status = result(printed if in_time else None, status)
        if in_time and any(damaged) and status in (0, 1):  # a file that cannot be read to its end
            line, status = f"DEVICE {'formula' if damaged[0] else 'trace'}", DEVICE
        took = time.monotonic() - began
        row = (index, line, str(status), f"{took:.3f}", f"{used.ru_utime + used.ru_stime:.3f}", str(used.ru_maxrss))
        sys.stdout.buffer.write("\t".join(row).encode() + b"\n")
        sys.stdout.buffer.flush()


class Source:
    """A file of a check. One that is compressed is unpacked by a process into a pipe, which the program reads."""

    def __init__(self, path: str) -> None:
        self.path, self.name, self.pipe, self.process, self.status = path, path, -1, 0, 0
        self.unpacker = unpacker_of(path)
        if self.unpacker:
            reading, writing = os.pipe()
            actions = [
                (os.POSIX_SPAWN_OPEN, 0, path, os.O_RDONLY, 0),
                (os.POSIX_SPAWN_DUP2, writing, 1),
                (os.POSIX_SPAWN_OPEN, 2, os.devnull, os.O_WRONLY, 0),
            ]
            with held_signals():
                self.process = os.posix_spawnp(
                    self.unpacker, [self.unpacker, "-dc"], os.environ, file_actions=actions, setpgroup=0, setsigdef=IGNORED
                )
            os.close(writing)
            os.set_inheritable(reading, True)
            self.name, self.pipe = f"/dev/fd/{reading}", reading

    def is_of_gates(self) -> bool:
        """Whether the file begins as a formula of gates does."""
        return self.head().lstrip(b" \t\r").startswith(GATES)

    def head(self) -> bytes:
        """The first bytes of the file, unpacked; none if it cannot be read, or is no regular one."""
        try:
            if not os.path.isfile(self.path):
                return b""
            if self.unpacker:
                import subprocess  # which takes as long as all other modules, and is seldom needed

                with subprocess.Popen([self.unpacker, "-dc", self.path], stdout=subprocess.PIPE, stderr=subprocess.DEVNULL) as process:
                    data = process.stdout.read(HEAD) if process.stdout else b""
                    process.kill()
                return data
            with open(self.path, "rb") as file:
                return file.read(HEAD)
        except OSError:
            return b""

    def close_pipe(self) -> None:
        """Lets the program be the only reader, so that what unpacks ends with it."""
        if self.pipe >= 0:
            os.close(self.pipe)
            self.pipe = -1

    def ended(self) -> bool:
        """Ends what unpacks, and says whether the file could not be unpacked."""
        self.close_pipe()
        if not self.process:
            return False
        until = time.monotonic() + LAST
        if not is_over(self.process, until):
            os.kill(self.process, signal.SIGKILL)
        _, ended = os.waitpid(self.process, 0)
        status = os.waitstatus_to_exitcode(ended)
        return status != -signal.SIGKILL and not is_unpacked(self.unpacker or "", status)


def started(words: list[str], output: int) -> int:
    """A process that runs this command, in a group of its own."""
    outputs = [(os.POSIX_SPAWN_DUP2, output, number) for number in (1, 2)]
    return os.posix_spawn(words[0], words, os.environ, file_actions=outputs, setpgroup=0, setsigdef=IGNORED)


def read_until(source: int, until: float) -> bytes | None:
    """All bytes of a pipe, None if it is still open at this time."""
    parts, poll = [], select.poll()
    poll.register(source)
    while until == NEVER or poll.poll(max(0, until - time.monotonic()) * 1000):
        parts.append(os.read(source, 1 << 16))
        if not parts[-1]:
            return b"".join(parts)
    return None


def is_over(process: int, until: float) -> bool:
    """Whether a process has ended at this time. It is still to be waited for."""
    if until == NEVER:
        return bool(os.waitid(os.P_PID, process, os.WEXITED | os.WNOWAIT))
    pause = 0.0005
    while not os.waitid(os.P_PID, process, os.WEXITED | os.WNOWAIT | os.WNOHANG):
        if time.monotonic() >= until:
            return False
        time.sleep(pause)
        pause = min(2 * pause, 0.05)
    return True


def end(process: int) -> tuple[int, resource.struct_rusage]:
    """Kills what still runs of a process and its group; its status, -N after signal N, and what it used."""
    os.kill(process, signal.SIGKILL)
    kill_group(process)
    _, ended, used = os.wait4(process, 0)
    return os.waitstatus_to_exitcode(ended), used


def result(printed: bytes | None, status: int) -> tuple[str, int]:
    """The line and the status of a row, of what a program printed and of its status: none is printed if it was not in time."""
    if printed is None:
        return "TIMEOUT", TIMEOUT
    if status < 0:
        return "KILLED", 128 - status
    return printed.decode(errors="replace").strip(), status


def at_hand(path: str) -> str:
    """A file that was copied is below the job's folder; on the machine that has it, it has its whole path."""
    return path if os.path.exists(path) else os.path.join("/", path)
