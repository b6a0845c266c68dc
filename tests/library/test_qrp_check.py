"""The tests of the module; tests/library/test-library runs them. usage: test_qrp_check.py LIST, or test_qrp_check.py gates LIST,
or test_qrp_check.py times LIST

A line of the list is the flag (0 or 1), the status, the files of the formula, of the trace, of what `trim` and `format` print for them, of
what `qrp_strategy` prints in both formats (each a `-`, if that program is not there), and the line, with tabs between them. The last line
that is printed has two numbers, how many cases passed and failed. With `gates` the cases are formulas of gates: their clauses are in the
place of what `format` prints, and the circuits are those of `qrp_gates strategy`; no trace is trimmed. With `times` the last line is how many
microseconds the cases of the list take, the best of twenty runs.
"""

import array
import concurrent.futures
import copy
import ctypes
import dataclasses
import doctest
import functools
import gc
import mmap
import multiprocessing
import os
import pathlib
import pickle
import pydoc
import re
import signal
import subprocess
import sys
import tempfile
import time
import typing
import unittest.mock
import warnings
from collections.abc import Callable, Iterator
from typing import Any

try:
    import numpy
except ImportError:
    numpy = None  # type: ignore[assignment]

ROOT = pathlib.Path(__file__).resolve().parents[2]
sys.path.insert(0, str(ROOT / "python"))
import qrp_check  # noqa: E402

LOOSE: Any = qrp_check  # for calls that its types do not allow, and that it refuses itself


@dataclasses.dataclass
class Example:
    """A case of the list, with what the program printed for it."""

    any_pivot: bool
    status: int
    files: "tuple[str, str]"
    formula: bytes
    trace: bytes
    trimmed: bytes
    formatted: bytes
    circuit: "bytes | None"
    binary: "bytes | None"
    line: str


def examples(path: str) -> Iterator[Example]:
    """The cases of the list."""
    for row in pathlib.Path(path).read_text().splitlines():
        flag, status, *files, line = row.split("\t")
        texts: list[Any] = [None if file == "-" else pathlib.Path(file).read_bytes() for file in files]
        formula, trace, trimmed, formatted, circuit, binary = texts
        yield Example(flag == "1", int(status), (files[0], files[1]), formula, trace, trimmed, formatted, circuit, binary, line)


def is_verdict(verdict: Any, example: Example) -> bool:
    """Whether the verdict is the one that the list says."""
    truth = {"VERIFIED true": True, "VERIFIED false": False}.get(example.line)
    words = example.line.split()
    fault = None if example.status == 0 else words[-1] if words[1] == "step" else words[2]
    number = [int(word) for word in words if word.isdigit()]
    position = number[0] if number else None
    found = (verdict.status, verdict.truth, verdict.fault, verdict.position, str(verdict), verdict.verified)
    return found == (example.status, truth, fault, position, example.line, truth is not None) and (verdict.meaning is None) == verdict.verified


def text_or_verdict(call: Callable[..., Any], *words: Any, **flags: Any) -> Any:
    """What the call returns, or the verdict with which it refuses."""
    try:
        return call(*words, **flags)
    except qrp_check.Refused as error:
        assert str(error) == f"{error.verdict}: {error.verdict.meaning}"
        return error.verdict


def numbers(trimmed: bytes) -> list[int]:
    """The numbers of the steps of a trimmed trace."""
    lines = trimmed.decode().splitlines()
    return [int(line.split()[0]) for line in lines if line[0].isdigit()]


def is_circuit(example: Example, binary: bool, wanted: Any) -> bool:
    """Whether the circuit in this format is that of the program, from bytes and from files, or is refused as the list says."""
    flags = {"any_pivot": example.any_pivot, "binary": binary}
    found = text_or_verdict(qrp_check.strategy, example.formula, example.trace, **flags)
    if found != text_or_verdict(qrp_check.strategy_files, *example.files, **flags):
        return False
    return found == wanted if example.status == 0 else is_verdict(found, example)


def is_answered(example: Example) -> bool:
    """Whether each call of the module answers this case as the list says."""
    texts, flag = (example.formula, example.trace), {"any_pivot": example.any_pivot}
    by_name = LOOSE.verify_files(*example.files, **flag)
    if not is_verdict(LOOSE.verify(*texts, **flag), example) or not is_verdict(by_name, example):
        return False
    trimmed = text_or_verdict(qrp_check.trim, *texts, **flag)
    core = text_or_verdict(qrp_check.core, *texts, **flag)
    if trimmed != text_or_verdict(qrp_check.trim_files, *example.files, **flag) or core != text_or_verdict(
        qrp_check.core_files, *example.files, **flag
    ):
        return False
    formatted = text_or_verdict(qrp_check.format, example.formula)
    if example.circuit is not None and not (is_circuit(example, False, example.circuit) and is_circuit(example, True, example.binary)):
        return False
    if example.formatted != (formatted if isinstance(formatted, bytes) else b""):
        return False
    if example.status == 0:
        return trimmed == example.trimmed and core == numbers(trimmed)
    return is_verdict(trimmed, example) and is_verdict(core, example) and (bool(example.formatted) or is_verdict(formatted, example))


def is_gates_circuit(example: Example, binary: bool, wanted: "bytes | None") -> bool:
    """Whether the circuit of a formula of gates in this format is that of the program, from bytes and from files, or is refused."""
    flags: dict[str, Any] = {"any_pivot": example.any_pivot, "binary": binary}
    found = text_or_verdict(qrp_check.gates_strategy, example.formula, example.trace, **flags)
    if found != text_or_verdict(qrp_check.gates_strategy_files, *example.files, **flags):
        return False
    return bool(found == wanted) if example.status == 0 else is_verdict(found, example)


def is_gates_answered(example: Example) -> bool:
    """Whether each call on formulas of gates answers this case as the list says."""
    flag: dict[str, Any] = {"any_pivot": example.any_pivot}
    found = qrp_check.gates_verify(example.formula, example.trace, **flag), qrp_check.gates_verify_files(*example.files, **flag)
    clauses = text_or_verdict(qrp_check.gates_clauses, example.formula)
    return (
        all(is_verdict(verdict, example) for verdict in found)
        and (clauses == example.formatted if example.formatted else is_verdict(clauses, example))
        and is_gates_circuit(example, False, example.circuit)
        and is_gates_circuit(example, True, example.binary)
    )


def is_lent(example: Example) -> bool:
    """Whether each kind of buffer is read as bytes are, and can be changed again after the call."""
    with tempfile.TemporaryFile() as file:
        file.write(example.trace)
        file.flush()
        with mmap.mmap(file.fileno(), 0) as mapped:
            kinds: list[Any] = [bytearray(example.trace), memoryview(example.trace), memoryview(b"xx" + example.trace)[2:], mapped]
            right = all(is_verdict(qrp_check.verify(example.formula, kind, any_pivot=example.any_pivot), example) for kind in kinds)
    kinds[0].extend(b"more")
    return right


def says(kind: Any, words: Any, call: Callable[..., Any]) -> bool:
    """Whether the call raises an error of this kind that has these words."""
    try:
        call()
    except kind as error:
        return all(word in str(error) for word in words)
    return False


def imports(library: Any) -> Any:
    """What importing the module prints where the library is this file."""
    environment = {**os.environ, "QRP_LIBRARY": str(library), "PYTHONPATH": str(ROOT / "python")}
    return subprocess.run([sys.executable, "-c", "import qrp_check"], env=environment, capture_output=True, text=True, check=False).stderr


def errors(example: Example) -> list[Any]:
    """Whether each error says what to do."""
    verdict = qrp_check.verify(example.formula, example.trace)
    text = memoryview(b"a b c ")[::2]
    another = imports(next(pathlib.Path("/usr/lib").rglob("libm.so.6"), "/lib64/libm.so.6"))
    return [
        says(TypeError, ["formula", "str", ".encode()", "verify_files"], lambda: LOOSE.verify("p cnf 0 0\n", b"")),
        says(TypeError, ["trace", "NoneType", "bytearray"], lambda: LOOSE.verify(b"", None)),
        says(TypeError, ["formula", "Path", "read_bytes", "trim_files"], lambda: LOOSE.trim(pathlib.Path("x"), b"")),
        says(TypeError, ["trace", "str", "strategy_files"], lambda: LOOSE.strategy(b"", "p qrp 0 0\n")),
        *(
            says(TypeError, ["binary", "True or False", "1"], lambda call=call: call(b"", b"", binary=1))
            for call in (qrp_check.strategy, qrp_check.strategy_files, qrp_check.gates_strategy, qrp_check.gates_strategy_files)
        ),
        says(OverflowError, ["verified", "no circuit", "2147483647"], lambda: without_circuit(example)),
        *gates_errors(),
        *(says(TypeError, ["positional argument"], lambda call=call: call(b"", b"", True)) for call in with_flag()),
        *(
            says(TypeError, ["any_pivot", "True or False", repr(flag)], lambda call=call, flag=flag: call(b"", b"", any_pivot=flag))
            for call in with_flag()
            for flag in ("no", 1, None)
        ),
        says(TypeError, ["trace", "bytes(..)"], lambda: qrp_check.verify(b"", text)),
        says(TypeError, ["verdict.verified"], lambda: bool(verdict)),
        says(FileNotFoundError, ["none.qdimacs"], lambda: qrp_check.verify_files("none.qdimacs", "none.qrp")),
        "ImportError" in imports("/none/libqrp.so") and "make lib" in imports("/none/libqrp.so"),
        "ImportError" in another and "QRP_LIBRARY" in another,
        qrp_check.__version__ == (ROOT / "VERSION").read_text().strip(),
        doctest.testmod(qrp_check).attempted >= 9 and doctest.testmod(qrp_check).failed == 0,
    ]


class NoCircuit:
    """The library as it is if a trace is verified, and AIGER has no numbers for the gates of its circuit."""

    def __init__(self, library: Any) -> None:
        self.library = library

    def __getattr__(self, name: str) -> Any:
        return getattr(self.library, name)

    def qrp_strategy(
        self, formula: Any, formula_length: Any, trace: Any, trace_length: Any, any_pivot: bool, _binary: Any, _buffer: Any, _room: Any, out: Any
    ) -> int:
        self.library.qrp_verify(formula, formula_length, trace, trace_length, any_pivot, out)
        return 0

    def qrp_gates_strategy(
        self, formula: Any, formula_length: Any, trace: Any, trace_length: Any, any_pivot: bool, _binary: Any, _buffer: Any, _room: Any, out: Any
    ) -> int:
        self.library.qrp_gates_verify(formula, formula_length, trace, trace_length, any_pivot, out)
        return 0


class TooManyClauses:
    """The library as it is if a formula of gates has more clauses than QDIMACS can count."""

    def __getattr__(self, name: str) -> Callable[..., int]:
        def call(*words: Any) -> int:
            found = words[-1]._obj
            found.status, found.letter, found.number = 4, ord("Q"), 13
            return 4 if name == "qrp_gates_verify" else 0

        return call


def with_library(library: Any, call: Callable[[], Any]) -> Any:
    """What a call does with another library."""
    kept, LOOSE._library = qrp_check._library, library
    try:
        return call()
    finally:
        LOOSE._library = kept


def without_circuit(example: Example) -> Any:
    """What the module does if no circuit is made."""
    return with_library(NoCircuit(qrp_check._library), lambda: qrp_check.strategy(example.formula, example.trace, any_pivot=example.any_pivot))


GATES = b"#QCIR-14\noutput(g)\ng = and()\n"
PROOF_OF_GATES = b"p qrp 1 2\n1 1 0 0\n2 0 1 0\nr sat\n"


def gates_errors() -> list[Any]:
    """Whether each error of a formula of gates says what to do."""
    texts = (GATES, PROOF_OF_GATES)
    without, many = NoCircuit(qrp_check._library), TooManyClauses()
    calls = [lambda: qrp_check.gates_verify(*texts), lambda: qrp_check.gates_clauses(GATES)]
    calls.append(lambda: qrp_check.gates_strategy(*texts))
    return [
        says(OverflowError, ["verified", "no circuit", "2147483647"], lambda: with_library(without, lambda: qrp_check.gates_strategy(*texts))),
        *(says(OverflowError, ["more clauses", "2147483647"], lambda call=call: with_library(many, call)) for call in calls),
        says(qrp_check.Refused, ["REFUSED formula Q2 line 1", "QCIR-14"], lambda: qrp_check.gates_clauses(b"")),
        says(TypeError, ["formula", "str", "gates_verify_files"], lambda: LOOSE.gates_verify("#QCIR-14\n", b"")),
        says(FileNotFoundError, ["none.qcir"], lambda: qrp_check.gates_verify_files("none.qcir", "none.qrp")),
    ]


def from_pipe(example: Example) -> Any:
    """Whether a file that cannot be mapped is read."""
    reader, writer = os.pipe()
    os.write(writer, example.trace)
    os.close(writer)
    try:
        return is_verdict(qrp_check.verify_files(example.files[0], f"/dev/fd/{reader}", any_pivot=example.any_pivot), example)
    finally:
        os.close(reader)


def struct_of(fault: Any) -> Any:
    """The struct that the library writes for a fault on line, at step or for variable 1, by its name."""
    letter, number = fault[0], int(fault[1:])
    rule = number if letter == "S" else 0
    letter, number = ("C", 6) if rule else (letter, number)
    device = letter in "FPQ" and number == 1
    memory = (letter, number) in (("F", 9), ("P", 9), ("C", 5), ("Q", 11), ("Q", 13))
    position = 0 if device or memory or (letter, number) == ("C", 4) else 1
    return qrp_check._Verdict(position=position, status=status_of(letter, device, memory), truth=0, letter=ord(letter), number=number, rule=rule)


def status_of(letter: str, device: bool, memory: bool) -> Any:
    """The status of a fault."""
    if device or memory:
        return 3 if device else 4
    return 1 if letter == "C" else 2


def sentence_of(fault: Any) -> Any:
    """What `qrp_fault_text` writes for a fault."""
    room = ctypes.create_string_buffer(qrp_check._FAULT_ROOM)
    verdict = struct_of(fault)
    length = qrp_check._library.qrp_fault_text(ctypes.byref(verdict), room, len(room))
    return room.raw[:length].decode() if room.raw[length] == 0 else ""


def meanings() -> list[Any]:
    """Whether each fault has the sentence that tests/meanings.tsv has for it, and each name stands there once."""
    rows = [line.split("\t") for line in (ROOT / "tests" / "meanings.tsv").read_text().splitlines()]
    names = [f"{letter}{number}" for letter, last in (("F", 9), ("P", 9), ("C", 5), ("S", 12), ("Q", 13)) for number in range(1, last + 1)]
    wrong = [f"{fault}: {sentence_of(fault)}" for fault, wanted in rows[1:] if sentence_of(fault) != wanted]
    for line in wrong:
        print(f"FAILED: the sentence of {line}")
    return [
        rows[0] == ["fault", "sentence"] and [fault for fault, _ in rows[1:]] == names,
        *[True] * (len(rows) - 1 - len(wrong)),
        *[False] * len(wrong),
    ]


def with_flag() -> list[Any]:
    names = [name for name in qrp_check.__all__ if name[0].islower() and name != "gates_clauses"]
    return [getattr(qrp_check, name) for name in names]


def trimmed_of(example: Example) -> Any:
    """The trimmed trace, or Refused: what another process is asked for."""
    return qrp_check.trim(example.formula, example.trace, any_pivot=example.any_pivot)


def raised_or_returned(ask: Callable[[], Any]) -> Any:
    """What is asked for, or the Refused that it raises, as its text and verdict."""
    try:
        return ask()
    except qrp_check.Refused as error:
        return str(error), error.verdict


def in_processes(verified: Any, refused: Any) -> list[bool]:
    """Whether verdicts and refusals come from other processes and threads as they are here."""
    wanted = [raised_or_returned(functools.partial(trimmed_of, case)) for case in (verified, refused)]
    verdict = qrp_check.verify(refused.formula, refused.trace, any_pivot=refused.any_pivot)
    copies = [pickle.loads(pickle.dumps(qrp_check.Refused(verdict), protocol)) for protocol in range(pickle.HIGHEST_PROTOCOL + 1)]
    answers = [pickle.loads(pickle.dumps(verdict)) == verdict, all((str(copy), copy.verdict) == wanted[1] for copy in copies)]
    with multiprocessing.Pool(2) as pool:
        begun = [pool.apply_async(trimmed_of, [case]) for case in (verified, refused)]
        answers.append([raised_or_returned(functools.partial(one.get, 60)) for one in begun] == wanted)
    for executor in concurrent.futures.ProcessPoolExecutor, concurrent.futures.ThreadPoolExecutor:
        with executor(2) as pool:
            asked = [pool.submit(trimmed_of, case) for case in (verified, refused)]
            answers.append([raised_or_returned(functools.partial(one.result, 60)) for one in asked] == wanted)
    return answers


def names() -> list[Any]:
    """Whether the names for users are all that is seen, and what they mean is told."""
    calls = {name + of for name in ("core", "gates_strategy", "gates_verify", "strategy", "trim", "verify") for of in ("", "_files")}
    wanted = {"PieceRefused", "Proof", "Refused", "Verdict", "format", "gates_clauses", *calls}
    starred: dict[Any, Any] = {}
    exec("from qrp_check import *", starred)
    text = pydoc.plain(pydoc.render_doc(qrp_check.Verdict))
    fields = [field.name for field in dataclasses.fields(qrp_check.Verdict)]
    return [
        {name for name in dir(qrp_check) if not name.startswith("__")} == wanted,
        set(starred) - {"__builtins__"} == wanted - {"format"},
        all(f"\n |  {field.ljust(8)}  " in text for field in [*fields, "verified"]),
    ]


def while_cut(example: Example) -> Any:
    """Whether a file that is cut while it is checked does no harm, and a large one is mapped."""
    with tempfile.TemporaryDirectory() as folder:
        path = pathlib.Path(folder, "trace")
        path.write_bytes(example.trace)
        with qrp_check._File(path) as text:
            os.truncate(path, 0)
            cut = is_verdict(qrp_check.verify(example.formula, text, any_pivot=example.any_pivot), example)
    before, qrp_check._READ_UP_TO = qrp_check._READ_UP_TO, 0
    try:
        with qrp_check._File(example.files[1]) as text:
            mapped = isinstance(text, mmap.mmap)
        return cut and mapped and is_verdict(qrp_check.verify_files(*example.files, any_pivot=example.any_pivot), example)
    finally:
        qrp_check._READ_UP_TO = before


def as_program(cases: list[Any]) -> list[Any]:
    """Whether `python -m qrp_check` prints the line and ends with the status of the program."""
    environment = {**os.environ, "PYTHONPATH": str(ROOT / "python")}

    def ask(*words: Any) -> tuple[Any, Any, Any]:
        ended = subprocess.run([sys.executable, "-m", "qrp_check", *words], env=environment, check=False, text=True, capture_output=True)
        return ended.stdout, ended.stderr, ended.returncode

    def ask_shell(redirection: str, files: Any) -> tuple[Any, Any]:
        words = ["bash", "-c", f'"$@" {redirection}', "bash", sys.executable, "-m", "qrp_check", *files]
        ended = subprocess.run(words, env=environment, check=False, capture_output=True, text=True)
        return ended.stderr, ended.returncode

    answers = []
    for case in cases:
        flag, wanted = ["--qu"] if case.any_pivot else [], (f"{case.line}\n", "", case.status)
        answers += [ask(*flag, *case.files) == wanted, ask(*case.files, *flag) == wanted]
    files = cases[0].files
    return [
        *answers,
        ask("/none", files[1]) == ("DEVICE formula\n", "", 3),
        ask(files[0], "/") == ("DEVICE trace\n", "", 3),
        ask(files[0], "/proc/self/mem") == ("DEVICE trace\n", "", 3),
        ask("/proc/self/mem", files[1]) == ("DEVICE formula\n", "", 3),
        *((ended[0], ended[1][:5], ended[2]) == ("", "USAGE", 5) for ended in (ask(), ask(files[0]), ask(*files, "x"), ask("--qu", *files, "--qu"))),
        (ask(files[0], "--qu", files[1])[0], ask(files[0], "--qu", files[1])[2]) == ("", 5),
        ask("--qu", "--qu", files[1]) == ("DEVICE formula\n", "", 3),
        *interrupted(files, environment),
        ask_shell(">/dev/full", files) == ("", 3) == ask_shell(">&-", files),
    ]


def interrupted(files: Any, environment: Any) -> list[Any]:
    """Whether an interrupt ends `python -m qrp_check` at once and without a word, while it reads a pipe into which nobody writes."""
    with tempfile.TemporaryDirectory() as folder:
        pipe = os.path.join(folder, "pipe")
        os.mkfifo(pipe)
        words = [sys.executable, "-m", "qrp_check", files[0], pipe]
        with subprocess.Popen(words, env=environment, stdout=subprocess.PIPE, stderr=subprocess.PIPE, text=True) as process:
            end, until = None, time.monotonic() + 30
            while end is None and time.monotonic() < until:
                try:
                    end = os.open(pipe, os.O_WRONLY | os.O_NONBLOCK)
                except OSError:  # nobody reads yet
                    time.sleep(0.02)
            process.send_signal(signal.SIGINT)
            said = process.communicate(timeout=30)
            if end is not None:
                os.close(end)
        return [end is not None, said == ("", ""), process.returncode == -signal.SIGINT]


# The calls of the library write what they write if memory is refused.
WITHOUT_MEMORY = """
import sys
import qrp_check
import qrp_check.__main__ as program

class Refusing:
    def __init__(self, library):
        self.library = library

    def __getattr__(self, name):
        def call(*words):
            words[-1]._obj.status = 4
            return 0
        return getattr(self.library, name) if name.startswith("qrp_verdict") or name == "qrp_fault_text" else call

qrp_check._library = Refusing(qrp_check._library)
texts = [open(name, "rb").read() for name in sys.argv[1:]]
names = ("verify", "trim", "core", "strategy", "gates_verify", "gates_strategy")
calls = [(getattr(qrp_check, name), texts) for name in names] + [(call, texts[:1]) for call in (qrp_check.format, qrp_check.gates_clauses)]
calls += [(getattr(qrp_check, name + "_files"), sys.argv[1:]) for name in names]
for call, words in calls:
    try:
        print(call(*words))
    except MemoryError as error:
        print(error)
sys.exit(program.main())
"""


def without_memory(example: Example) -> list[Any]:
    """Whether each call raises MemoryError if memory is refused, and `python -m qrp_check` says NO MEMORY."""
    environment = {**os.environ, "PYTHONPATH": str(ROOT / "python")}
    ended = subprocess.run([sys.executable, "-c", WITHOUT_MEMORY, *example.files], env=environment, capture_output=True, text=True, check=False)
    wanted = ["out of memory, so nothing is known: check again with more"] * 14 + ["NO MEMORY"]
    return [ended.stdout.splitlines() == wanted, ended.returncode == 4, ended.stderr == ""]


# The module is imported as by a Python that has no calls of C for buffers, as PyPy has none.
WITHOUT_C = """
import array, ctypes, sys
vars(ctypes).pop("pythonapi", None)
import qrp_check
formula, trace = (open(name, "rb").read() for name in sys.argv[1:])
for kind in bytes, bytearray, memoryview:
    print(qrp_check.verify(formula, kind(trace)), qrp_check.core(kind(formula), trace))
print(qrp_check.verify_files(*sys.argv[1:]), qrp_check.trim(formula, trace) == qrp_check.trim_files(*sys.argv[1:]), len(qrp_check.format(formula)))
with qrp_check.Proof() as proof:
    proof.add_variables([1, 2], universal=False)
    for number, clause in enumerate([[1, 2], [-1, 2], [-2]], 1):
        proof.add_clause(array.array("i", clause))
        proof.add_step(number, memoryview(b"x" + bytes(array.array("i", clause)))[1:].cast("i"))
    proof.add_step(4, [2], array.array("Q", [1, 2]))
    proof.add_step(5, [], (3, 4))
    print(proof.check(sat=False))
for text in memoryview(trace)[::2], None, "p":
    try:
        qrp_check.verify(formula, text)
    except TypeError as error:
        print(error)
"""


def without_c(example: Example) -> Any:
    """Whether the module gives its answers without the calls of C for buffers."""
    environment = {**os.environ, "PYTHONPATH": str(ROOT / "python")}
    ended = subprocess.run([sys.executable, "-c", WITHOUT_C, *example.files], env=environment, capture_output=True, text=True, check=False)
    wanted = [f"{example.line} {numbers(example.trimmed)}"] * 3 + [f"{example.line} True {len(example.formatted)}", "VERIFIED false"]
    lines = ended.stdout.splitlines()
    said = len(lines) == 8 and "bytes(..)" in lines[5] and "NoneType" in lines[6] and ".encode()" in lines[7]
    return lines[:5] == wanted and said and not ended.stderr


class Pieces:
    """The pieces of a formula in canonical form and of a trace that is read: blocks, clauses, steps, and whether it ends in sat."""

    def __init__(self, example: Example) -> None:
        words = iter(example.formatted.partition(b"\n")[2].split())
        self.blocks, self.clauses, self.steps = [], [], []
        for word in words:
            if word in (b"a", b"e"):
                self.blocks.append((word == b"a", up_to_zero(words)))
            else:
                self.clauses.append([] if word == b"0" else [int(word), *up_to_zero(words)])
        words = iter(re.sub(rb"(^|(?<=[ \t\r\n]))[c#][^\n]*", b"", example.trace).split()[4:])
        for word in words:
            if word in (b"a", b"e"):
                up_to_zero(words)
            elif word == b"r":
                self.sat = next(words).lower() == b"sat"
                break
            else:
                self.steps.append((int(word), up_to_zero(words), up_to_zero(words)))

    def add_to(
        self, proof: Any, kind: Any = list, kind_of_antecedents: Any = list, attempt: Any = lambda call, *words, **flags: call(*words, **flags)
    ) -> None:
        """Hands all pieces over, their numbers as these kinds of lists; `attempt` makes the calls."""
        for universal, variables in self.blocks:
            for variable in variables:
                attempt(proof.add_variables, [variable], universal=universal)
        for clause in self.clauses:
            attempt(proof.add_clause, kind(clause))
        for number, literals, antecedents in self.steps:
            attempt(proof.add_step, number, kind(literals), kind_of_antecedents(antecedents))

    def add_at_once(self, proof: Any, kind: Any = list) -> None:
        """Hands all pieces over, the clauses in one call, as a list of this kind; the last clause lacks its 0, if it is not empty."""
        ended = [literal for clause in self.clauses for literal in (*clause, 0)]
        for universal, variables in self.blocks:
            proof.add_variables(variables, universal=universal)
        proof.add_clauses(kind(ended[:-1] if self.clauses and self.clauses[-1] else ended))
        for number, literals, antecedents in self.steps:
            proof.add_step(number, literals, antecedents)

    def texts(self) -> Any:
        """The two texts as a proof writes them: the formula with its greatest variable, and the trace without sets."""
        bound = [variable for _, variables in self.blocks for variable in variables]
        last = max(bound, default=0)

        def line(*numbers: object) -> str:
            return " ".join(map(str, numbers))

        formula = [line("p cnf", last, len(self.clauses)), *(line("ea"[universal], *variables, 0) for universal, variables in self.blocks)]
        formula += [line(*clause, 0) for clause in self.clauses]
        trace = [line("p qrp", last, len(self.steps)), *(line(number, *literals, 0, *ants, 0) for number, literals, ants in self.steps)]
        trace.append("r sat" if self.sat else "r unsat")
        return tuple("\n".join([*lines, ""]).encode() for lines in (formula, trace))


def up_to_zero(words: Any) -> list[Any]:
    """The numbers before the next 0."""
    return [int(word) for word in iter(lambda: next(words), b"0")]


def has_pieces(example: Example) -> bool:
    """Whether both texts are read, and the sets of the trace, which are not handed over, agree with the prefix."""
    return example.status <= 1 and not example.line.startswith("REFUSED set")


def core_of(call: Callable[..., Any], *words: Any, **flags: Any) -> Any:
    """The core that a call gives, or the line of its refusal."""
    try:
        return call(*words, **flags)
    except qrp_check.Refused as error:
        return error.verdict.line


def is_handed_over(example: Example) -> bool:
    """Whether the pieces get the verdict and the core of the texts, a second time too, and with more steps that nothing needs."""
    pieces = Pieces(example)
    with qrp_check.Proof() as proof:
        pieces.add_to(proof)
        verdicts = [proof.check(sat=pieces.sat, any_pivot=example.any_pivot) for _ in range(2)]
        cores = [core_of(proof.core, sat=pieces.sat, any_pivot=example.any_pivot)]
        unused = next(number for number in range(1, len(pieces.steps) + 2) if number not in {step[0] for step in pieces.steps})
        proof.add_step(unused, [2**31 - 1, -(2**31 - 1)], [2**64 - 1])
        verdicts.append(proof.check(sat=pieces.sat, any_pivot=example.any_pivot))
        cores.append(core_of(proof.core, sat=pieces.sat, any_pivot=example.any_pivot))
    if any(core != core_of(qrp_check.core, example.formula, example.trace, any_pivot=example.any_pivot) for core in cores):
        return False
    return all(is_verdict(verdict, example) for verdict in verdicts) and verdicts[0] == qrp_check.verify(
        example.formula, example.trace, any_pivot=example.any_pivot
    )


def is_written(example: Example) -> bool:
    """Whether the texts that a proof writes are those of its pieces, with the verdict and the trimmed trace of the example's texts.

    The proof's clauses are handed over in one call.
    """
    pieces, flags = Pieces(example), {"any_pivot": example.any_pivot}
    with qrp_check.Proof() as proof:
        pieces.add_at_once(proof, functools.partial(array.array, "i"))
        formula, trace = proof.formula_text(), proof.trace_text(sat=pieces.sat)
        trimmed = core_of(proof.trimmed_text, sat=pieces.sat, **flags)
        other = core_of(proof.trimmed_text, sat=not pieces.sat, **flags)
        verdicts = [proof.check(sat=pieces.sat, **flags), qrp_check.verify(formula, trace, **flags)]
        verdicts.append(qrp_check.verify(example.formula, example.trace, **flags))
        is_right = (formula, trace) == pieces.texts() and proof.clauses == len(pieces.clauses)
        is_right = is_right and other == core_of(qrp_check.trim, formula, proof.trace_text(sat=not pieces.sat), **flags)
    is_right = is_right and trimmed == core_of(qrp_check.trim, formula, trace, **flags) and qrp_check.format(formula) == formula
    return is_right and len(set(verdicts)) == 1 and is_verdict(verdicts[0], example)


def many_clauses() -> list[bool]:
    """Whether many clauses in one call are those of many calls, those before a refused one are added, and none out of range is an end."""
    wide, answers = "OUT_OF_RANGE", []
    kind: Any
    rows: list[Any] = [([1, 2, 0, -1, 0], None, [[1, 2], [-1]]), ([1, 2, 0, -1], None, [[1, 2], [-1]]), ([0, 0, 1], None, [[], [], [1]])]
    rows += [([], None, []), ([1, 0, 3, 0, 2, 0], (2, "NOT_BOUND"), [[1]]), ([1, 0, -2, 0, 2**31, 0], (3, wide), [[1], [-2]])]
    rows += [([-(2**31), 0, 1], (1, wide), []), ([1, 2**32 + 1, 0, 2], (1, wide), []), ([2, 0, 1, -(2**40)], (2, wide), [[2]])]
    for literals, fault, clauses in rows:
        for kind in (list, iter, tuple, functools.partial(array.array, "q")):
            with LOOSE.Proof() as proof:
                proof.add_variables([1, 2], universal=False)
                if fault is None:
                    answers.append(proof.add_clauses(kind(literals)) is None)
                else:
                    answers.append(refuses("clause", *fault, proof.add_clauses, kind(literals)))
                lines = ["p cnf 2 %d" % len(clauses), "e 1 2 0", *(" ".join(map(str, [*clause, 0])) for clause in clauses), ""]
                answers.append(proof.clauses == len(clauses) and proof.formula_text() == "\n".join(lines).encode())
    kinds = kinds_of_numbers("i")[0]
    with unittest.mock.patch.multiple(qrp_check._LentNumbers, _array=no_copy, _copied=no_copy), qrp_check.Proof() as proof:
        proof.add_variables([1], universal=False)
        for count, kind in enumerate(kinds, 1):
            proof.add_clauses(kind([1, 0, -1]))
            answers.append(proof.clauses == 2 * count)
        proof.add_clauses([])
        answers.append(proof.formula_text() == b"p cnf 1 %d\ne 1 0\n" % (2 * len(kinds)) + b"1 0\n-1 0\n" * len(kinds))
    with qrp_check.Proof() as proof:
        # More than the room of the first call.
        proof.add_variables(range(1, 20001), universal=True)
        proof.add_step(7, range(1, 20001))
        numbers = " ".join(map(str, range(1, 20001))).encode()
        answers.append(proof.formula_text() == b"p cnf 20000 0\na %b 0\n" % numbers)
        answers.append(proof.trace_text(sat=True) == b"p qrp 20000 1\n7 %b 0 0\nr sat\n" % numbers)
    return answers


def unaligned(code: str) -> Any:
    """A kind of buffers of numbers that do not lie at a multiple of their size."""
    return lambda numbers: memoryview(b"x" + bytes(array.array(code, numbers)))[1:].cast(code)


def kinds_of_numbers(code: str) -> tuple[Any, Any]:
    """The kinds of lists that are taken for numbers of a type of C, those first that are not copied, and how many these are."""
    of_c: Any = {"i": ctypes.c_int32, "Q": ctypes.c_uint64}[code]
    arrays: list[Any] = [lambda numbers: array.array(code, numbers), lambda numbers: memoryview(array.array(code, numbers))]
    arrays.append(lambda numbers: memoryview(bytes(array.array(code, numbers))).cast(code))
    arrays.append(lambda numbers: (of_c * len(numbers))(*numbers))
    others: list[Any] = [tuple, iter, set, lambda numbers: array.array("q", numbers), unaligned(code)]
    others.append(lambda numbers: memoryview(array.array(code, [number for one in numbers for number in (one, 0)]))[::2])
    if numpy:
        arrays.append(lambda numbers: numpy.array(numbers, {"i": numpy.int32, "Q": numpy.uint64}[code]))
        others.append(lambda numbers: numpy.array(numbers, numpy.int64))
        others.append(lambda numbers: numpy.repeat(numpy.array(numbers, {"i": numpy.int32, "Q": numpy.uint64}[code]), 2)[::2])
    return arrays, others


def no_copy(_: Any, name: str = "", numbers: Any = (0,), kind: Any = None) -> Any:
    """Stands in for what copies numbers. Only an empty list may be: Python 3.9 gives an empty array of ctypes items of no size."""
    if len(numbers):
        raise AssertionError(f"{name} of the type of C are copied")
    return array.array(kind.code)


def numbers_lent(example: Example) -> list[Any]:
    """Whether each kind of list gives the verdict, and numbers of the type of C are not copied."""
    pieces, answers = Pieces(example), []

    def verdict(kind: Any, kind_of_antecedents: Any) -> Any:
        with qrp_check.Proof() as proof:
            pieces.add_to(proof, kind, kind_of_antecedents)
            return is_verdict(proof.check(sat=pieces.sat, any_pivot=example.any_pivot), example)

    literals, antecedents = kinds_of_numbers("i"), kinds_of_numbers("Q")
    with unittest.mock.patch.multiple(qrp_check._LentNumbers, _array=no_copy, _copied=no_copy):
        answers += [verdict(*kinds) for kinds in zip(literals[0], antecedents[0])]
    return [*answers, *(verdict(*kinds) for kinds in zip(literals[1], antecedents[1]))]


def refuses(piece: Any, position: Any, fault: Any, call: Callable[..., Any], *words: Any, **flags: Any) -> bool:
    """Whether the call raises PieceRefused with these fields, which another process would get too."""
    try:
        call(*words, **flags)
    except qrp_check.PieceRefused as error:
        copied = pickle.loads(pickle.dumps(error))
        place = piece if position is None else f"{piece} {position}"
        told = str(error) == str(copied) == f"REFUSED {place} {fault}: {error.meaning}" and error.meaning.endswith(".")
        return told and all((one.piece, one.position, one.fault) == (piece, position, fault) for one in (error, copied))
    return False


def pieces_refused() -> list[bool]:
    """Whether each piece that the library refuses is told with its fault and its place, and changes nothing."""
    least, most, wide = -(2**31), 2**64 - 1, "OUT_OF_RANGE"
    with qrp_check.Proof() as proof:
        proof.add_variables([1], universal=False)
        answers = [refuses("variable", one, wide, proof.add_variables, [one], universal=True) for one in (0, -2, 2**31, 2**32 + 2)]
        answers.append(refuses("variable", 1, "BOUND_TWICE", proof.add_variables, [2, 1, 3], universal=True))
        answers.append(refuses("clause", 1, "NOT_BOUND", proof.add_clause, [1, 3]))
        proof.add_clause([1])
        answers += [refuses("clause", 2, wide, proof.add_clause, [1, wrong]) for wrong in (0, least, 2**31, 2**32 + 1)]
        answers.append(refuses("clause", 2, wide, proof.add_clause, array.array("i", [0])))
        proof.add_clause([-1, -2])
        answers += [refuses("step", wrong, wide, proof.add_step, wrong, [1]) for wrong in (0, -1, most + 1)]
        answers.append(refuses("step", 1, wide, proof.add_step, 1, [least]))
        answers += [refuses("step", 1, wide, proof.add_step, 1, [1], [wrong]) for wrong in (0, -1, most + 1)]
        answers.append(refuses("step", 0, "TOO_MANY_ANTECEDENTS", proof.add_step, 0, [0], [0, 1, 2]))
        proof.add_step(1, [1])
        answers.append(refuses("step", 1, "NUMBER_USED", proof.add_step, 1, [-1]))
        proof.add_step(2, [-1], ())
        answers.append(proof.check(sat=False).fault == "C4")
        proof.add_step(most, [], (1, 2))
        answers.append((proof.check(sat=False).line, proof.check(sat=True).fault) == ("VERIFIED false", "S5"))
    return answers


def closed_proof() -> list[Any]:
    """Whether a closed proof refuses each call but `close`, and the faults are those of the header, by their numbers."""
    proof = qrp_check.Proof()
    proof.close()
    proof.close()
    calls: list[Any] = [(proof.add_variables, [[]], {"universal": True}), (proof.add_clause, [[]], {}), (proof.add_step, [3, []], {})]
    calls.append((proof.add_clauses, [[1]], {}))
    calls += [(call, [], {"sat": False}) for call in (proof.check, proof.core, proof.trace_text, proof.trimmed_text)]
    calls.append((proof.formula_text, [], {}))
    answers = [refuses("proof", None, "NO_PROOF", call, *words, **flags) for call, words, flags in calls]
    added = (ROOT / "include" / "qrp_check.h").read_text().partition("enum qrp_added {")[2].partition("}")[0]
    faults = [(int(number), fault) for fault, number in re.findall(r"QRP_([A-Z_]+) = (\d+)[,\s]", added) if number != "0"]
    return [*answers, faults == [(number, fault) for number, (fault, _) in qrp_check._PIECE_FAULTS.items()]]


def wrong_pieces() -> list[Any]:
    """Whether the wrong use of a proof is refused with words that say what to do, and changes nothing."""
    with LOOSE.Proof() as proof:
        rows: list[Any] = [
            (["universal", "True or False", "1"], proof.add_variables, [[1]], {"universal": 1}),
            (["variables", "whole numbers"], proof.add_variables, [[1, "2"]], {"universal": True}),
            (["variables", "not iterable"], proof.add_variables, [1], {"universal": True}),
            *((["literals", type(one).__name__, "list"], proof.add_clause, [one], {}) for one in ("1", b"1", bytearray(b"1"), {1: 2})),
            *((["literals", "whole numbers"], proof.add_clause, [one], {}) for one in (None, 1, [1.0], [[1]], [True], array.array("d", [1]))),
            (["antecedents", "whole numbers"], proof.add_step, [1, [], 1], {}),
            (["number of the step", "whole numbers"], proof.add_step, ["1", []], {}),
            (["positional argument"], proof.check, [False], {}),
            (["sat"], proof.check, [], {}),
            (["sat", "True or False", "None"], proof.check, [], {"sat": None}),
            (["any_pivot", "True or False", "'no'"], proof.check, [], {"sat": False, "any_pivot": "no"}),
            (["any_pivot", "True or False", "0"], proof.trimmed_text, [], {"sat": False, "any_pivot": 0}),
            *((["sat", "True or False", "1"], call, [], {"sat": 1}) for call in (proof.trace_text, proof.trimmed_text)),
            *((["literals", "whole numbers"], proof.add_clauses, [one], {}) for one in (None, [1.0], [[1]])),
            *((["copied or pickled"], call, [proof], {}) for call in (copy.copy, copy.deepcopy, pickle.dumps)),
            (["argument"], qrp_check.Proof, [b"p cnf 0 0\n"], {}),
        ]
        answers = [says(TypeError, said, functools.partial(call, *words, **flags)) for said, call, words, flags in rows]
        return [*answers, proof.add_clause([]) is None and proof.check(sat=False).fault == "C4"]


def on_its_thread() -> list[Any]:
    """Whether a proof refuses each call from another thread, which changes nothing, and is not freed there."""
    with qrp_check.Proof() as proof, concurrent.futures.ThreadPoolExecutor(1) as pool:
        variables, check = functools.partial(proof.add_variables, [1], universal=True), functools.partial(proof.check, sat=False)
        calls: list[Callable[[], object]] = [
            variables,
            functools.partial(proof.add_clause, []),
            functools.partial(proof.add_step, 1, []),
            check,
            proof.close,
        ]
        calls += [functools.partial(proof.add_clauses, [0]), proof.formula_text, functools.partial(proof.trace_text, sat=True)]
        calls += [functools.partial(proof.trimmed_text, sat=False)]
        answers = [pool.submit(says, RuntimeError, ["thread"], call).result(60) for call in calls]
        made_there = pool.submit(qrp_check.Proof)
        answers.append(says(RuntimeError, ["thread"], lambda: made_there.result(60).close()))
        with warnings.catch_warnings(record=True) as told:
            warnings.simplefilter("always")
            del made_there
            gc.collect()
        answers.append([warning.category for warning in told] == [ResourceWarning])
        proof.add_clause([])
        proof.add_step(1, [])
        return [*answers, proof.check(sat=False).verified]


# Each call on a proof is refused memory in turn, and made again. A proof that is not closed ends with the program, without a word.
REFUSED_IN_TURN = """
import sys
sys.path.insert(0, sys.argv[1])
import qrp_check
import test_qrp_check as tests

class Refusing:
    def __init__(self, library):
        self.library, self.calls, self.refused = library, 0, None

    def __getattr__(self, name):
        is_refused = name.startswith("qrp_proof") and name != "qrp_proof_free"
        return (lambda *words: self.call(name, words)) if is_refused else getattr(self.library, name)

    def call(self, name, words):
        self.calls += 1
        if self.calls != self.refused:
            return getattr(self.library, name)(*words)
        if name == "qrp_proof_clauses":
            words[-1]._obj.value = 0
        if name == "qrp_proof_check" or name.startswith("qrp_proof_write"):
            words[-1]._obj.status = 4
        return 0 if name.startswith("qrp_proof_write") else 4

def attempt(call, *words, **flags):
    try:
        return call(*words, **flags)
    except MemoryError as error:
        print(error)
        return call(*words, **flags)

def verdict(pieces, refused):
    qrp_check._library.calls, qrp_check._library.refused = 0, refused
    proof = attempt(qrp_check.Proof)
    pieces.add_to(proof, attempt=attempt)
    attempt(proof.add_clauses, [])
    print(attempt(proof.check, sat=pieces.sat))
    texts = attempt(proof.formula_text), attempt(proof.trace_text, sat=pieces.sat)
    print(texts == pieces.texts(), attempt(proof.trimmed_text, sat=pieces.sat) == qrp_check.trim(*texts))
    return proof

qrp_check._library = Refusing(qrp_check._library)
pieces = tests.Pieces(next(tests.examples(sys.argv[2])))
verdict(pieces, None)
for at in range(1, qrp_check._library.calls + 1):
    last = verdict(pieces, at)
last.itself = last
"""


def refused_in_turn(example: Example, row: Any) -> list[Any]:
    """Whether each call of the library on a proof that is refused memory raises MemoryError and can be made again, to the same verdict."""
    environment = {**os.environ, "PYTHONPATH": str(ROOT / "python")}
    with tempfile.NamedTemporaryFile("w") as file:
        file.write(row)
        file.flush()
        words = [sys.executable, "-c", REFUSED_IN_TURN, str(pathlib.Path(__file__).parent), file.name]
        ended = subprocess.run(words, env=environment, capture_output=True, text=True, check=False)
    pieces = Pieces(example)
    before_clauses = 1 + sum(len(variables) for _, variables in pieces.blocks) + len(pieces.clauses) + len(pieces.steps)
    undone = "out of memory, so nothing was done: the same call can be made again"
    unknown = "out of memory, so nothing is known: check again with more"
    many, end = "out of memory after 0 of the clauses, which are added: hand over the others again", [example.line, "True True"]
    wanted = end + [undone, *end] * before_clauses + [many, *end] + [unknown, *end] + [example.line, unknown, "True True"] * 3
    return [ended.stdout.splitlines() == wanted, ended.stderr == "", ended.returncode == 0]


def best_time(cases: list[Example]) -> int:
    """The best of twenty runs over all cases, in microseconds."""
    best = float("inf")
    for _ in range(20):
        began = time.perf_counter()
        for case in cases:
            qrp_check.verify(case.formula, case.trace, any_pivot=case.any_pivot)
        took = time.perf_counter() - began
        best = min(best, took)
    return round(best * 1e6)


def main(words: Any) -> None:
    cases = list(examples(words[-1]))
    if words[0] == "gates":
        answers = [bool(is_gates_answered(case)) for case in cases]
        for case in (case for case, is_right in zip(cases, answers) if not is_right):
            print(f"FAILED: in Python, of gates: wanted {case.status} {case.line}")
        print(f"in Python: {len(cases)} cases of gates")
        print(answers.count(True), answers.count(False))
        return
    if len(words) > 1:
        print(best_time(cases))
        return
    results = [(bool(is_answered(case)), case) for case in cases]
    results += [(bool(call(case)), case) for call in (is_handed_over, is_written) for case in cases if has_pieces(case)]
    for is_right, case in results:
        if not is_right:
            print(f"FAILED: in Python: wanted {case.status} {case.line}")
    verified, *_ = small = [case for case in cases if case.status == 0 and len(case.trace) < 4096]
    with_antecedents = next(case for case in small if any(len(step[2]) == 2 for step in Pieces(case).steps))
    refused, faulty = (next(case for case in cases if case.status == status) for status in (1, 2))
    rest = [*meanings(), *errors(verified), from_pipe(verified), all(is_lent(case) for case in cases if case.trace)]
    rest += [*in_processes(verified, refused), *names(), while_cut(verified), without_c(verified)]
    rest += without_memory(verified)
    rest += [*pieces_refused(), *many_clauses(), *closed_proof(), *wrong_pieces(), *on_its_thread()]
    rest += [answer for case in (verified, with_antecedents) for answer in numbers_lent(case)]
    rest += refused_in_turn(with_antecedents, pathlib.Path(words[0]).read_text().splitlines()[cases.index(with_antecedents)])
    rest += [typing.get_type_hints(qrp_check.Verdict.__bool__) == {"return": typing.NoReturn}]
    rest += as_program([verified, refused, faulty, next(case for case in cases if case.any_pivot and case.status == 0)])
    with concurrent.futures.ThreadPoolExecutor(8) as pool:
        rest.append(all(pool.map(is_answered, cases * 8)))
    if not all(rest):
        parts = "meanings, errors, pipes, buffers, processes, names, files that are cut, pieces, python -m, and eight threads at once"
        print(f"FAILED: in Python: {parts}: {rest}")
    answers = [is_right for is_right, _ in results] + rest
    print(f"in Python: {len(cases)} cases{'' if numpy else ', without arrays of NumPy, which is not there'}")
    print(answers.count(True), answers.count(False))


if __name__ == "__main__":
    main(sys.argv[1:])
