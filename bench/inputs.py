"""Inputs on which programs are measured: a list of commands each, on files that are made, or on real traces of tests/traces."""

import subprocess
from collections.abc import Callable
from dataclasses import dataclass
from pathlib import Path

from slow_inputs import alike_clauses, chain, gaps, random_numbers, reducts_of_one, repeated_literal, with_comments, write_pair

ROOT = Path(__file__).resolve().parent.parent
MAKERS = ROOT / "bench" / "makers"
TRACES = ROOT / "tests" / "traces"
# How many of the real traces are taken, the largest of all.
MOST_TRACES = 10


@dataclass(frozen=True)
class Input:
    """What an input is, and the words after the program's name that it makes in a folder, for each run."""

    says: str
    make: Callable[[Path], list[list[str]]]


def made(job: str, maker: str, megabytes: int) -> Callable[[Path], list[list[str]]]:
    """An input of a function of bench/makers."""

    def make(folder: Path) -> list[list[str]]:
        subprocess.run(["bash", "-c", f'. "{MAKERS}"; make_{maker} {megabytes}'], cwd=folder, check=True)
        files = [str(folder / f"{maker}.qdimacs"), str(folder / f"{maker}.qrp")]
        return [[job, *files[: 1 if job == "format" else 2]]]

    return make


def slow(function: Callable, size: int) -> Callable[[Path], list[list[str]]]:
    """An input of a function of slow_inputs.py."""
    return lambda folder: [["check", *map(str, write_pair(function, size, folder))]]


def commented(folder: Path) -> list[list[str]]:
    """A chain of resolutions with a comment line after each line."""
    pair = write_pair(chain, 20_000, folder)
    for path, mark in zip(pair, (b"c", b"#")):
        path.write_bytes(with_comments(path.read_bytes(), mark))
    return [["check", *map(str, pair)]]


def real(job: str) -> Callable[[Path], list[list[str]]]:
    """A job on each of the largest real traces."""
    largest = sorted(TRACES.glob("*.qrp"), key=lambda path: (-path.stat().st_size, path.name))[:MOST_TRACES]
    return lambda _: [[job, str(TRACES / f"{path.name.split('.')[0]}.qdimacs"), str(path)] for path in largest]


INPUTS = {
    "real": Input(f"`check` of the {MOST_TRACES} largest traces of tests/traces, one after the other", real("check")),
    "trimmed": Input("`trim` of the same traces", real("trim")),
    "read": Input("`check` of steps of three literals that nothing uses: they are only read", made("check", "read", 4)),
    "reducts": Input("`check` of steps that each repeat the ten literals of the one before", made("check", "reducts", 4)),
    "chain": Input("`check` of a chain of implications: each second step is initial, and each other one a resolvent", made("check", "chain", 4)),
    "format": Input("`format` of random clauses of three literals", made("format", "format", 4)),
    "trim": Input("`trim` of that chain: all of it is written", made("trim", "chain", 4)),
    "gaps": Input("as `read`, with gaps between the numbers of the steps", made("check", "gaps", 4)),
    "long": Input("as `read`, with step numbers of nineteen digits", made("check", "long", 4)),
    "linked": Input("`check` of a chain of 20,000 resolutions whose step numbers have gaps", slow(gaps, 20_000)),
    "scattered": Input("`check` of 300,000 steps whose numbers are random", slow(random_numbers, 300_000)),
    "commented": Input("`check` of a chain of 20,000 resolutions with a comment line after each line", commented),
    "cubes": Input("`check` of initial cubes over as many clauses, and the resolutions over them", made("check", "cubes", 1)),
    "alike": Input(
        "`check` of 2,000 clauses that differ in reducible literals alone, with their initial steps in the reverse order", slow(alike_clauses, 2_000)
    ),
    "short": Input("`check` of 2,000 reducts, each of one literal, of a clause with 2,000 universal literals", slow(reducts_of_one, 2_000)),
    "repeated": Input("`check` of a step that writes a literal 1,000 times, with which 1,000 steps are resolved", slow(repeated_literal, 1_000)),
}
