"""Finds and runs qrp_cmd, qrp_strategy and qrp_gates. A part of tools/explain and the tools beside it."""

import functools
import os
import shutil
import signal
import stat
import subprocess
import sys
from pathlib import Path
from typing import IO, Optional, Union

from qrptools.command import PLACE, called_as, finding, not_read, not_written, started, unusable, writing

AS_THE_TRACE = "it needs up to the size of the trace"
AS_THE_FORMULA = "it needs up to the size of the formula"

CHECKER, STRATEGY, GATES = "qrp_cmd", "qrp_strategy", "qrp_gates"
BUILT_BY = {CHECKER: "make", STRATEGY: "make", GATES: "make"}
WRITTEN = {CHECKER: ("the trimmed trace", AS_THE_TRACE), STRATEGY: ("the circuit", ""), GATES: ("the clauses", "")}  # and the room that it needs
USAGE = 5  # the status of a program without arguments


def find_program(name: str = CHECKER) -> str:
    """The program that QRP_CMD names, else bin/qrp_cmd above the tools, else the one beside this command, else the one on the PATH. If the
    system is too old for that of a release, it is the static one beside it. qrp_strategy and qrp_gates are looked for in the same way, by QRP_STRATEGY
    and QRP_GATES; after that, and before the others, it is the one beside the program that QRP_CMD names."""
    if os.environ.get(name.upper()):
        return os.environ[name.upper()]
    checker = os.environ.get(CHECKER.upper())
    beside = [Path(shutil.which(checker) or checker).absolute().parent] if checker else []
    beside += [PLACE / "bin", Path(sys.argv[0]).absolute().parent]
    program = next((str(folder / name) for folder in beside if (folder / name).is_file()), None) or shutil.which(name)
    if not program:
        raise unusable(f"there is no bin/{name}: build it with {BUILT_BY[name]}, or name it by {name.upper()}")
    static = f"{program}.static"
    return static if os.path.isfile(static) and not can_run(program) and can_run(static) else program


@functools.lru_cache(maxsize=None)
def can_run(program: str) -> bool:
    """Whether this system can load the program."""
    try:
        with started([program], stdin=subprocess.DEVNULL, stdout=subprocess.DEVNULL, stderr=subprocess.DEVNULL) as process:
            return process.wait() == USAGE
    except OSError:
        return False


def run_program(words: list[str], out: Union[int, IO[bytes]] = subprocess.PIPE, name: str = CHECKER) -> tuple[str, int]:
    """What it prints as its one line, empty where it prints none, and its status."""
    program = find_program(name)
    try:
        with started([program, *words], stdout=out, stderr=subprocess.PIPE) as process:
            printed, complained = process.communicate()
    except OSError as fault:
        raise unusable(f"the program {program} cannot be run: {fault.strerror}") from fault
    return ((printed or b"") + complained).decode(errors="replace").strip(), process.returncode


def keep(path: str, folder: str) -> str:
    """A file that is no regular one, such as a pipe, gives its bytes once: they are kept in the folder."""
    if not os.path.exists(path) or stat.S_ISREG(os.stat(path).st_mode) or os.path.isdir(path):
        return path
    kept = os.path.join(folder, os.path.basename(path))
    try:
        source = open(path, "rb")
    except OSError as fault:
        raise unusable(not_read(path, fault)) from fault
    with source, writing(f"a copy of {path}", "it needs the size of the file"), open(kept, "wb") as copy:
        shutil.copyfileobj(source, copy)
    return kept


def trimmed(formula: str, trace: str, flags: list[str], folder: str) -> str:
    """The file of the trimmed trace, in this folder."""
    path = os.path.join(folder, "trimmed.qrp")
    with writing(*WRITTEN[CHECKER]):
        write_output(path, CHECKER, ["trim", *flags], formula, trace)
    return path


def circuit_of(formula: str, trace: str, flags: list[str], folder: str, name: str) -> str:
    """The file of the circuit by which the winner wins, in this folder, as qrp_strategy makes it, or for a formula of gates qrp_gates."""
    path = os.path.join(folder, "strategy.aig")
    with writing(*WRITTEN[STRATEGY]):
        write_circuit(path, name, ["--binary", *flags], formula, trace)
    return path


def write_circuit(path: str, name: str, flags: list[str], formula: str, trace: str) -> None:
    """Writes the winner's circuit to a file, as one of the programs makes it."""
    write_output(path, name, ["strategy", *flags] if name == GATES else flags, formula, trace)


def write_output(path: str, name: str, words: list[str], formula: str, trace: str) -> None:
    """Writes what the program makes of the proof to a file. The command ends where it refuses the proof, or cannot do it."""
    with open(path, "wb") as out:
        line, status = run_program([*words, formula, trace], out, name)
        if not line and status > 0:
            out.write(bytes(1 << 16))  # fails as the program's output did
    if line.startswith("REFUSED "):
        raise finding(f"{name} refuses the proof: {line}; '{called_as('explain')} FORMULA TRACE' says why")
    if status:
        raise unusable(why_not(line, status, formula, trace, name, STRATEGY if "strategy" in words else name))


def why_not(line: str, status: int, formula: str, trace: str, name: str = CHECKER, made: Optional[str] = None) -> str:
    """Why the program wrote nothing, where it does not refuse the proof. It may write what another program is for, which is named too."""
    if line in ("DEVICE formula", "DEVICE trace"):
        path = formula if line == "DEVICE formula" else trace
        return f"{line}: {reason_not_read(path)}"
    if line == "NO MEMORY":
        return f"{line}: raise the limit (`ulimit -v`), or take a machine with more memory"
    if status < 0:
        return f"{signal_of(status)} ended {name}"
    what, needs = WRITTEN[made or name]
    return f"{name} says: {line}" if line else not_written(what, f"{name} ended with status {status}", needs)


def signal_of(status: int) -> str:
    """The signal of a negative status, by number and name; of that by which a system ends what takes too much memory, that too."""
    known = {one.value: one.name for one in signal.Signals}
    named = f"signal {-status}" + (f" ({known[-status]})" if -status in known else "")
    return f"{named}, which the system sends if it is out of memory," if status == -signal.SIGKILL else named


def reason_not_read(path: str) -> str:
    try:
        with open(path, "rb") as file:
            file.read(1)
    except OSError as fault:
        return not_read(path, fault)
    return f"the program cannot read {path}"
