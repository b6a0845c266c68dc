"""CPU seconds of commands."""

import resource
import subprocess
from collections.abc import Mapping, Sequence


def seconds(words: Sequence, environment: Mapping[str, str] | None = None) -> float:
    """The CPU seconds of a command and of all that it runs."""
    before = resource.getrusage(resource.RUSAGE_CHILDREN)
    subprocess.run(words, stdout=subprocess.DEVNULL, stderr=subprocess.DEVNULL, env=environment, check=False)
    after = resource.getrusage(resource.RUSAGE_CHILDREN)
    return after.ru_utime + after.ru_stime - before.ru_utime - before.ru_stime


def least_by_turns(jobs: Mapping[str, Sequence[Sequence]], runs: int, environment: Mapping[str, str] | None = None) -> dict[str, float]:
    """The least CPU seconds of so many runs of each job, which is a list of commands: a run of each in turn, so that what else the machine
    does falls on all of them."""
    least = dict.fromkeys(jobs, float("inf"))
    for _ in range(runs):
        for name, commands in jobs.items():
            least[name] = min(least[name], sum(seconds(words, environment) for words in commands))
    return least
