"""What single processes take: CPU seconds, and the peak of memory."""

import os
import re
import resource
from pathlib import Path


def started(program: str, words: list[str], output: str) -> int:
    """A process of a program that prints into this file."""
    to_file = [(os.POSIX_SPAWN_OPEN, 1, output, os.O_WRONLY | os.O_CREAT | os.O_TRUNC, 0o644)]
    return os.posix_spawn(program, [program, *words], os.environ, file_actions=to_file)


def seconds(program: str, words: list[str], output: str) -> float:
    """The CPU seconds of a run."""
    used = os.wait4(started(program, words, output), 0)[2]
    return used.ru_utime + used.ru_stime


def peak(program: str, words: list[str], output: str) -> float:
    """The peak of memory of a run in megabytes. What a process is said to have used at its end begins with what the script had that started it,
    so less than that is looked at again and again while it runs."""
    process, highest = started(program, words, output), 1
    status = Path("/proc", str(process), "status")
    while found := re.search(r"^VmHWM:\s*(\d+) kB", status.read_text(), re.MULTILINE):
        highest = max(highest, int(found[1]))
    used = os.wait4(process, 0)[2].ru_maxrss
    return max(highest, used if used > resource.getrusage(resource.RUSAGE_SELF).ru_maxrss else 0) / 1024
