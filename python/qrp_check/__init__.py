r"""The proved checker of QBF proofs, in process: a formula (QDIMACS 1.1) and a trace (QRP), as bytes or from files.

    >>> import qrp_check
    >>> formula = b"p cnf 1 2\ne 1 0\n1 0\n-1 0\n"
    >>> trace = b"p qrp 1 4\n1 1 0 0\n2 -1 0 0\n3 1 0 0\n4 0 1 2 0\nr unsat\n"
    >>> verdict = qrp_check.verify(formula, trace)
    >>> verdict.verified, verdict.truth, str(verdict)
    (True, False, 'VERIFIED false')
    >>> qrp_check.core(formula, trace)
    [1, 2, 4]
    >>> qrp_check.verify(formula, b"p qrp 1 0\nr unsat\n").meaning
    'The trace has no step without literals, so it proves nothing.'

A solver need not write texts: a `Proof` takes its formula and its steps piece by piece, as they are made.

    >>> with qrp_check.Proof() as proof:
    ...     proof.add_variables([1], universal=False)
    ...     for number, clause in enumerate([[1], [-1]], 1):
    ...         proof.add_clause(clause)
    ...         proof.add_step(number, clause)
    ...     proof.add_step(3, [], [1, 2])
    ...     str(proof.check(sat=False))
    'VERIFIED false'

A text is anything whose bytes lie together in memory (bytes, bytearray, memoryview, mmap); it is not copied, and must not change during
the call. Other threads run meanwhile, and a Verdict or a Refused can be sent from a process to another.

`strategy` gives the winner's whole strategy as a circuit in AIGER's ASCII or binary format. Each run of it is proved to win. Here the
output is variable 2, and it has the value of the input, which is variable 1:

    >>> formula = b"p cnf 2 2\na 1 0\ne 2 0\n-1 2 0\n1 -2 0\n"
    >>> trace = b"p qrp 2 5\n1 1 2 0 0\n2 -1 -2 0 0\n3 1 0 1 0\n4 -1 0 2 0\n5 0 3 4 0\nr sat\n"
    >>> qrp_check.strategy(formula, trace)
    b'aag 1 1 0 1 0\n2\n2\ni0 1\no0 2\n'

A formula of gates, in QCIR-14, has calls of its own. A trace of it is one of the clauses that `gates_clauses` gives:

    >>> gates = b"#QCIR-14\nforall(a)\nexists(b)\noutput(g)\ng = xor(a, b)\n"
    >>> trace = b"p qrp 3 5\n1 1 -2 3 0 0\n2 1 0 1 0\n3 -1 2 3 0 0\n4 -1 0 3 0\n5 0 2 4 0\nr sat\n"
    >>> str(qrp_check.gates_verify(gates, trace))
    'VERIFIED true'
    >>> qrp_check.gates_clauses(gates)
    b'p cnf 3 5\na 1 0\ne 2 3 0\n-3 1 2 0\n-3 -1 -2 0\n3 -1 2 0\n3 1 -2 0\n3 0\n'
    >>> qrp_check.gates_strategy(gates, trace)
    b'aag 1 1 0 1 0\n2\n3\ni0 a\no0 b\n'

`verify_files`, `trim_files`, `core_files`, `strategy_files`, `gates_verify_files` and `gates_strategy_files` take names of files. A file of up to 1 GB is read, so another process may
write or cut it meanwhile. A larger one is mapped: if it is cut meanwhile, the system ends this process (SIGBUS).

`python -m qrp_check [--qu] FORMULA TRACE` prints the line of 'qrp_cmd check' and ends with its status.

Python sees an interrupt (Ctrl-C) only when a call returns, which may take minutes on a trace of 10 GB. A process of its own can be ended
at any time, and can have a time limit:

    words = [sys.executable, "-m", "qrp_check", "FORMULA", "TRACE"]
    line = subprocess.run(words, timeout=60, capture_output=True, text=True).stdout  # or subprocess.TimeoutExpired

`from qrp_check import *` does not bring `format`, which would hide Python's own; `qrp_check.format` is there all the same.

The module calls the library libqrp: the file that the environment variable QRP_LIBRARY names, or the one beside this file (in a wheel),
or lib/libqrp.so.1 in a folder above this file (of the sources after `make lib`, of an unpacked release, or of the prefix where it is
installed), or the one that the system's loader finds.
"""

import array
import ctypes
import dataclasses
import mmap
import operator
import os
import pathlib
import threading
import typing
import warnings

__all__ = [
    *("PieceRefused", "Proof", "Refused", "Verdict", "core", "core_files", "gates_clauses", "gates_strategy", "gates_strategy_files"),
    *("gates_verify", "gates_verify_files", "strategy", "strategy_files", "trim", "trim_files", "verify", "verify_files"),
]

_LINE_ROOM = 48  # QRP_LINE_ROOM
_FAULT_ROOM = 128  # QRP_FAULT_ROOM
_NO_MEMORY = 4  # QRP_NO_MEMORY
_TOO_MANY_CLAUSES = (ord("Q"), 13)  # the letter and the number of a verdict with QRP_NO_MEMORY
_NO_PROOF = 11  # QRP_NO_PROOF
_SOME = 1 << 16  # How much room the text of a proof gets at first; if it is not enough, the call is made again.
_MORE = 32  # A canonical text is at most so much longer, since its header has the right numbers; if not, the call is made again.
_READ_UP_TO = 1 << 30  # Larger files are mapped.

# Anything with a buffer; `collections.abc.Buffer` names it from Python 3.12 on.
_Text = typing.Union[bytes, bytearray, memoryview, mmap.mmap]
# Numbers: a list, a set, a generator, an array, an array of NumPy; of the latter two those of the type of C are not copied.
_Numbers = typing.Iterable[typing.SupportsIndex]
_Path = typing.Union[str, "os.PathLike[str]"]
_T = typing.TypeVar("_T")


def __dir__() -> "list[str]":
    """The names for users."""
    return sorted([*__all__, "format", *(name for name in globals() if name.startswith("__"))])


class _Verdict(ctypes.Structure):
    """`struct qrp_verdict` of qrp_check.h."""

    position: int
    status: int
    truth: int
    letter: int
    number: int
    rule: int
    reserved: bytes
    _fields_ = [
        ("position", ctypes.c_uint64),
        ("status", ctypes.c_uint8),
        ("truth", ctypes.c_uint8),
        ("letter", ctypes.c_uint8),
        ("number", ctypes.c_uint8),
        ("rule", ctypes.c_uint8),
        ("reserved", ctypes.c_uint8 * 3),
    ]


class _Held(ctypes.Structure):
    """`struct qrp_proof` of qrp_check.h."""

    _fields_ = [("held", ctypes.c_void_p), ("present", ctypes.c_uint32)]


@dataclasses.dataclass(frozen=True)
class Verdict:
    """What was found. `str()` is the line that the program prints. Ask for `verified`: a verdict has no truth value of its own.

    status    0: verified. 1: the proof is refused. 2: a text is refused. These are the program's exit statuses.
    truth     The truth of the formula if it was verified, else None.
    fault     The name of the fault, for example 'F6', 'P7', 'C4' or 'S10', else None.
    position  The line of a fault in a text, the variable of C1 to C3, or the number of the step of S1 to S12, else None.
    meaning   What the fault means, in one sentence, else None.
    line      The line that the program prints, without its end.
    verified  Whether the trace proves its result of the formula.
    """

    status: int
    truth: typing.Optional[bool]
    fault: typing.Optional[str]
    position: typing.Optional[int]
    meaning: typing.Optional[str] = dataclasses.field(repr=False)
    line: str = dataclasses.field(repr=False)

    @property
    def verified(self) -> bool:
        """Whether the trace proves its result of the formula."""
        return self.status == 0

    def __str__(self) -> str:
        return self.line

    def __bool__(self) -> typing.NoReturn:
        raise TypeError("a verdict is neither true nor false: ask for verdict.verified, or for verdict.truth, the truth of the formula")


class Refused(ValueError):
    """A formula or a proof is refused, so there is no text or core of it. `verdict` says why."""

    def __init__(self, verdict: Verdict) -> None:
        super().__init__(f"{verdict}: {verdict.meaning}")
        self.verdict = verdict

    def __reduce__(self) -> "tuple[type[Refused], tuple[Verdict]]":
        return Refused, (self.verdict,)


# The names of `enum qrp_added` without QRP_, by their numbers, and what each means.
_PIECE_FAULTS = {
    5: ("OUT_OF_RANGE", "A variable and the magnitude of a literal are 1 to 2147483647, and the numbers of steps 1 to 2^64 - 1."),
    6: ("BOUND_TWICE", "The variable is bound already."),
    7: ("NOT_BOUND", "A variable of the clause is not bound."),
    8: ("TOO_MANY_CLAUSES", "There are 2147483647 clauses already."),
    9: ("NUMBER_USED", "A step has this number already."),
    10: ("TOO_MANY_ANTECEDENTS", "A step has at most two antecedents."),
    _NO_PROOF: ("NO_PROOF", "The proof is closed."),
}


class PieceRefused(ValueError):
    """A piece is refused, so the `Proof` holds what it held before, and what `add_variables` or `add_clauses` added before the piece.

    piece     'variable', 'clause' or 'step', or 'proof' for a check of a closed one.
    position  The variable, the place of the clause counted from 1, or the number of the step, as it was given; None for a check.
    fault     The name of the fault in qrp_check.h without QRP_, for example 'NOT_BOUND'.
    meaning   What the fault means, in one sentence.
    """

    def __init__(self, piece: str, position: typing.Optional[int], fault: str, meaning: str) -> None:
        place = piece if position is None else f"{piece} {position}"
        super().__init__(f"REFUSED {place} {fault}: {meaning}")
        self.piece = piece
        self.position = position
        self.fault = fault
        self.meaning = meaning

    def __reduce__(self) -> "tuple[type[PieceRefused], tuple[str, typing.Optional[int], str, str]]":
        return PieceRefused, (self.piece, self.position, self.fault, self.meaning)


def _load() -> ctypes.CDLL:
    here = pathlib.Path(__file__).resolve()
    beside = [here.with_name("libqrp.so.1"), *(folder / "lib" / "libqrp.so.1" for folder in here.parents)]
    path = os.environ.get("QRP_LIBRARY") or next((str(file) for file in beside if file.exists()), "libqrp.so.1")
    advice = "build it by `make lib`, install it, or name its file in the environment variable QRP_LIBRARY"
    try:
        library = ctypes.CDLL(path)
        library.qrp_version.restype = ctypes.c_uint32
    except OSError as error:
        raise ImportError(f"the library libqrp was not found or cannot be loaded ({error}): {advice}") from error
    except AttributeError as error:
        raise ImportError(f"{path} is another library, or an older libqrp ({error}): {advice}") from error
    text = [ctypes.c_void_p, ctypes.c_size_t]
    verdict = ctypes.POINTER(_Verdict)
    written = [ctypes.c_void_p, ctypes.c_size_t]
    proof = ctypes.POINTER(_Held)
    for name, result, types in [
        ("qrp_verify", ctypes.c_int32, [*text, *text, ctypes.c_bool, verdict]),
        ("qrp_trim", ctypes.c_size_t, [*text, *text, ctypes.c_bool, *written, verdict]),
        ("qrp_core", ctypes.c_size_t, [*text, *text, ctypes.c_bool, *written, verdict]),
        ("qrp_strategy", ctypes.c_size_t, [*text, *text, ctypes.c_bool, ctypes.c_bool, *written, verdict]),
        ("qrp_format", ctypes.c_size_t, [*text, *written, verdict]),
        ("qrp_gates_verify", ctypes.c_int32, [*text, *text, ctypes.c_bool, verdict]),
        ("qrp_gates_clauses", ctypes.c_size_t, [*text, *written, verdict]),
        ("qrp_gates_strategy", ctypes.c_size_t, [*text, *text, ctypes.c_bool, ctypes.c_bool, *written, verdict]),
        ("qrp_verdict_line", ctypes.c_size_t, [verdict, *written]),
        ("qrp_fault_text", ctypes.c_size_t, [verdict, *written]),
        ("qrp_proof_new", ctypes.c_int32, [proof]),
        ("qrp_proof_variable", ctypes.c_int32, [proof, ctypes.c_bool, ctypes.c_uint32]),
        ("qrp_proof_clause", ctypes.c_int32, [proof, *text]),
        ("qrp_proof_clauses", ctypes.c_int32, [proof, *text, ctypes.POINTER(ctypes.c_size_t)]),
        ("qrp_proof_step", ctypes.c_int32, [proof, ctypes.c_uint64, *text, *text]),
        ("qrp_proof_check", ctypes.c_int32, [proof, ctypes.c_bool, ctypes.c_bool, verdict]),
        ("qrp_proof_core", ctypes.c_size_t, [proof, ctypes.c_bool, ctypes.c_bool, *written, verdict]),
        ("qrp_proof_write_formula", ctypes.c_size_t, [proof, *written, verdict]),
        ("qrp_proof_write_trace", ctypes.c_size_t, [proof, ctypes.c_bool, *written, verdict]),
        ("qrp_proof_write_trimmed", ctypes.c_size_t, [proof, ctypes.c_bool, ctypes.c_bool, *written, verdict]),
        ("qrp_proof_free", None, [proof]),
    ]:
        call = getattr(library, name)
        call.argtypes = types
        call.restype = result
    return library


_library = _load()


def _version(number: int) -> str:
    return f"{number // 10000}.{number // 100 % 100}.{number % 100}"


__version__ = _version(_library.qrp_version())


class _Lent:
    """The address and length of a text's bytes, in a `with`: as long as it lasts, their owner cannot move or free them.

    A Python without the calls of C for buffers, such as PyPy, gets a copy of the bytes.
    """

    def __init__(self, name: str, text: _Text) -> None:
        self._name = name
        self._text = text
        self._buffer = _Buffer()

    def __enter__(self) -> "tuple[object, int]":
        if isinstance(self._text, (str, os.PathLike)):
            files = "the names of files to verify_files, trim_files, core_files, strategy_files, gates_verify_files or gates_strategy_files"
            raise TypeError(f"the {self._name} is a {type(self._text).__name__}: pass its bytes (text.encode(), path.read_bytes()), or {files}")
        try:
            if _get_buffer is None:
                return self._copied()
            _get_buffer(self._text, self._buffer, 0)
        except BufferError:
            raise TypeError(f"the bytes of the {self._name} do not lie together in memory: pass bytes(..) of it") from None
        except TypeError:
            kind = type(self._text).__name__
            raise TypeError(f"the {self._name} has to be bytes, a bytearray, a memoryview or an mmap, not {kind}") from None
        return self._buffer.address or _nowhere, self._buffer.length

    def _copied(self) -> "tuple[object, int]":
        with memoryview(self._text) as view:
            if not view.c_contiguous:
                raise BufferError
            return ctypes.create_string_buffer(bytes(view), view.nbytes + 1), view.nbytes

    def __exit__(self, *_: object) -> None:
        if _release_buffer is not None:
            _release_buffer(self._buffer)


class _Buffer(ctypes.Structure):
    """The first fields of `Py_buffer`, and room for the others."""

    address: int
    length: int
    _fields_ = [("address", ctypes.c_void_p), ("owner", ctypes.py_object), ("length", ctypes.c_ssize_t), ("others", ctypes.c_void_p * 16)]


_get_buffer = _release_buffer = None
if hasattr(ctypes, "pythonapi"):
    _get_buffer = ctypes.pythonapi.PyObject_GetBuffer
    _get_buffer.argtypes = [ctypes.py_object, ctypes.POINTER(_Buffer), ctypes.c_int]
    _get_buffer.restype = ctypes.c_int
    _release_buffer = ctypes.pythonapi.PyBuffer_Release
    _release_buffer.argtypes = [ctypes.POINTER(_Buffer)]
    _release_buffer.restype = None
# An address for a text of no bytes, since no pointer may be null.
_nowhere = ctypes.cast(ctypes.create_string_buffer(1), ctypes.c_void_p)


def _written(call: "typing.Callable[..., int]", found: _Verdict, room: int) -> str:
    buffer = ctypes.create_string_buffer(room)
    call(ctypes.byref(found), buffer, room)
    return buffer.value.decode("ascii")


def _verdict(found: _Verdict) -> Verdict:
    """What a call wrote. Raises MemoryError, or OverflowError if a formula of gates has too many clauses."""
    if found.status == _NO_MEMORY:
        if (found.letter, found.number) == _TOO_MANY_CLAUSES:
            raise OverflowError("the formula of gates has more clauses than the 2147483647 that QDIMACS can count")
        raise MemoryError("out of memory, so nothing is known: check again with more")
    line = _written(_library.qrp_verdict_line, found, _LINE_ROOM).rstrip("\n")
    if found.status == 0:
        return Verdict(0, bool(found.truth), None, None, None, line)
    fault = chr(found.letter) + str(found.number)
    if fault == "C6":
        fault = f"S{found.rule}"
    position = None if fault == "C4" else found.position
    return Verdict(found.status, None, fault, position, _written(_library.qrp_fault_text, found, _FAULT_ROOM), line)


def _check_flags(**flags: bool) -> None:
    """Raises TypeError unless each flag is a bool: one chooses the calculus, so nothing else is taken for it."""
    for name, flag in flags.items():
        if not isinstance(flag, bool):
            raise TypeError(f"{name} has to be True or False, not {flag!r}")


def verify(formula: _Text, trace: _Text, *, any_pivot: bool = False) -> Verdict:
    """Checks the trace against the formula; with `any_pivot` resolution may be on variables of either quantifier.

    Raises MemoryError if it is out of memory, and TypeError if a text is no buffer or the flag is no bool.
    """
    _check_flags(any_pivot=any_pivot)
    found = _Verdict()
    with _Lent("formula", formula) as lent_formula, _Lent("trace", trace) as lent_trace:
        _library.qrp_verify(*lent_formula, *lent_trace, any_pivot, ctypes.byref(found))
    return _verdict(found)


def verify_files(formula: _Path, trace: _Path, *, any_pivot: bool = False) -> Verdict:
    """Checks as `verify` does, with the files of these names. One of more than 1 GB must not be cut meanwhile.

    Raises OSError as `open` does, and else as `verify` does.
    """
    return _of_files(verify, formula, trace, any_pivot=any_pivot)


def _of_files(call: "typing.Callable[..., _T]", formula: _Path, trace: _Path, **flags: bool) -> _T:
    _check_flags(**flags)
    with _File(formula) as formula_text, _File(trace) as trace_text:
        return call(formula_text, trace_text, **flags)


class _File:
    """The bytes of a file, in a `with`: read, and if there are very many mapped."""

    def __init__(self, path: _Path) -> None:
        self._path = path
        self._map: "mmap.mmap | None" = None

    def __enter__(self) -> _Text:
        with open(self._path, "rb") as file:
            if os.fstat(file.fileno()).st_size > _READ_UP_TO:
                self._map = mmap.mmap(file.fileno(), 0, access=mmap.ACCESS_READ)
                return self._map
            try:
                return file.read()
            except OSError as error:
                error.filename = os.fspath(self._path)
                raise

    def __exit__(self, *_: object) -> None:
        if self._map is not None:
            self._map.close()


def trim_files(formula: _Path, trace: _Path, *, any_pivot: bool = False) -> bytes:
    """The trace as `trim` gives it, with the files of these names. Raises as `trim` and `verify_files` do."""
    return _of_files(trim, formula, trace, any_pivot=any_pivot)


def core_files(formula: _Path, trace: _Path, *, any_pivot: bool = False) -> "list[int]":
    """The numbers as `core` gives them, with the files of these names. Raises as `core` and `verify_files` do."""
    return _of_files(core, formula, trace, any_pivot=any_pivot)


def strategy_files(formula: _Path, trace: _Path, *, any_pivot: bool = False, binary: bool = False) -> bytes:
    """The circuit as `strategy` gives it, with the files of these names. Raises as `strategy` and `verify_files` do."""
    return _of_files(strategy, formula, trace, any_pivot=any_pivot, binary=binary)


def trim(formula: _Text, trace: _Text, *, any_pivot: bool = False) -> bytes:
    """The trace with only the steps that its proof needs, in canonical form.

    Raises Refused if the trace does not prove its result, and else as `verify` does.
    """
    _check_flags(any_pivot=any_pivot)
    found = _Verdict()
    with _Lent("formula", formula) as lent_formula, _Lent("trace", trace) as lent_trace:

        def call(buffer: "ctypes.Array[ctypes.c_char]", room: int) -> int:
            return int(_library.qrp_trim(*lent_formula, *lent_trace, any_pivot, buffer, room, ctypes.byref(found)))

        return _text(call, found, lent_trace[1] + _MORE)


def strategy(formula: _Text, trace: _Text, *, any_pivot: bool = False, binary: bool = False) -> bytes:
    """The winner's whole strategy as a circuit, in AIGER's ASCII format; with `binary` in its binary format.

    The existential player wins a true formula, and the universal player a false one. The inputs are the variables of the other player, and
    the outputs those of the winner; docs/STRATEGY.md says more. Raises Refused if the trace does not prove its result, OverflowError if it
    does and AIGER has no numbers for the gates, and else as `verify` does.
    """
    _check_flags(any_pivot=any_pivot, binary=binary)
    found = _Verdict()
    with _Lent("formula", formula) as lent_formula, _Lent("trace", trace) as lent_trace:

        def call(buffer: "ctypes.Array[ctypes.c_char]", room: int) -> int:
            return int(_library.qrp_strategy(*lent_formula, *lent_trace, any_pivot, binary, buffer, room, ctypes.byref(found)))

        return _text(call, found, lent_formula[1] + lent_trace[1] + _MORE)


def format(formula: _Text) -> bytes:
    """The formula in canonical form.

    Raises Refused if it is no closed prenex formula, and else as `verify` does.
    """
    found = _Verdict()
    with _Lent("formula", formula) as lent:

        def call(buffer: "ctypes.Array[ctypes.c_char]", room: int) -> int:
            return int(_library.qrp_format(*lent, buffer, room, ctypes.byref(found)))

        return _text(call, found, lent[1] + _MORE)


def gates_verify(formula: _Text, trace: _Text, *, any_pivot: bool = False) -> Verdict:
    """Checks the trace against the clauses of the formula of gates, and else does as `verify`.

    Raises OverflowError if there are more clauses than QDIMACS can count, and else as `verify` does.
    """
    _check_flags(any_pivot=any_pivot)
    found = _Verdict()
    with _Lent("formula", formula) as lent_formula, _Lent("trace", trace) as lent_trace:
        _library.qrp_gates_verify(*lent_formula, *lent_trace, any_pivot, ctypes.byref(found))
    return _verdict(found)


def gates_verify_files(formula: _Path, trace: _Path, *, any_pivot: bool = False) -> Verdict:
    """Checks as `gates_verify` does, with the files of these names. Raises as `gates_verify` and `verify_files` do."""
    return _of_files(gates_verify, formula, trace, any_pivot=any_pivot)


def gates_clauses(formula: _Text) -> bytes:
    """The clauses of the formula of gates, as a formula in canonical form, of which a trace of it is a proof.

    Raises Refused if it is no formula of gates, OverflowError if it has more clauses than QDIMACS can count, and else as `verify` does.
    """
    found = _Verdict()
    with _Lent("formula", formula) as lent:

        def call(buffer: "ctypes.Array[ctypes.c_char]", room: int) -> int:
            return int(_library.qrp_gates_clauses(*lent, buffer, room, ctypes.byref(found)))

        return _text(call, found, 4 * lent[1] + _MORE)


def gates_strategy(formula: _Text, trace: _Text, *, any_pivot: bool = False, binary: bool = False) -> bytes:
    """The whole strategy of the winner of the formula of gates as a circuit, and else as `strategy` does: of its bound variables alone.

    Raises OverflowError if there are more clauses than QDIMACS can count, and else as `strategy` does.
    """
    _check_flags(any_pivot=any_pivot, binary=binary)
    found = _Verdict()
    with _Lent("formula", formula) as lent_formula, _Lent("trace", trace) as lent_trace:

        def call(buffer: "ctypes.Array[ctypes.c_char]", room: int) -> int:
            return int(_library.qrp_gates_strategy(*lent_formula, *lent_trace, any_pivot, binary, buffer, room, ctypes.byref(found)))

        return _text(call, found, lent_formula[1] + lent_trace[1] + _MORE)


def gates_strategy_files(formula: _Path, trace: _Path, *, any_pivot: bool = False, binary: bool = False) -> bytes:
    """The circuit as `gates_strategy` gives it, with the files of these names. Raises as `gates_strategy` and `verify_files` do."""
    return _of_files(gates_strategy, formula, trace, any_pivot=any_pivot, binary=binary)


def _text(call: "typing.Callable[[ctypes.Array[ctypes.c_char], int], int]", found: _Verdict, room: int) -> bytes:
    """The text that a call writes, in a second call if the first had no room for it. Raises Refused, or OverflowError if there is none."""
    buffer = ctypes.create_string_buffer(room)
    length = call(buffer, room)
    if length >= room:
        buffer = ctypes.create_string_buffer(length + 1)
        length = call(buffer, length + 1)
    if length == 0:
        verdict = _verdict(found)
        if verdict.verified:
            raise OverflowError("the trace is verified, and no circuit is made of it: AIGER has numbers for 2147483647 inputs and gates")
        raise Refused(verdict)
    return buffer.raw[:length]


def core(formula: _Text, trace: _Text, *, any_pivot: bool = False) -> "list[int]":
    """The numbers of the steps that the proof needs, in the order of the trace.

    Raises Refused if the trace does not prove its result, and else as `verify` does.
    """
    _check_flags(any_pivot=any_pivot)
    found = _Verdict()
    with _Lent("formula", formula) as lent_formula, _Lent("trace", trace) as lent_trace:
        # A step takes at least six bytes: its number, two zeros, and what comes after each.
        room = lent_trace[1] // 6 + 1
        steps = (ctypes.c_uint64 * room)()
        count = _library.qrp_core(*lent_formula, *lent_trace, any_pivot, steps, room, ctypes.byref(found))
        if count > room:
            steps = (ctypes.c_uint64 * count)()
            _library.qrp_core(*lent_formula, *lent_trace, any_pivot, steps, count, ctypes.byref(found))
    if count == 0:
        raise Refused(_verdict(found))
    return list(steps[:count])


def _whole(name: str, numbers: _Numbers) -> "list[int]":
    """The numbers as a list. Raises TypeError if they are not whole numbers; bytes are a text, and not a list of numbers."""
    if isinstance(numbers, (str, bytes, bytearray, dict)):
        raise TypeError(f"the {name} are a {type(numbers).__name__}: pass the numbers, for example as a list")
    try:
        whole = list(numbers)
        if bool in map(type, whole):
            raise TypeError("a bool is not a number here")
        return list(map(operator.index, whole))
    except TypeError as error:
        raise TypeError(f"{name}: whole numbers are wanted: {error}") from error


def _within(number: int, least: int, greatest: int) -> int:
    """The number if it is in this range, and else 0, which the library refuses as out of range."""
    return number if least <= number <= greatest else 0


class _Type(typing.NamedTuple):
    """A type of C whose numbers are handed over: how `array` and `memoryview` call it and those that may be alike, and its numbers."""

    code: str
    alike: "tuple[str, str]"
    size: int
    least: int
    greatest: int


_INT32 = _Type("i", ("i", "l"), 4, -(2**31), 2**31 - 1)
_UINT64 = _Type("Q", ("Q", "L"), 8, 0, 2**64 - 1)


class _LentNumbers(_Lent):
    """The address of numbers of one type of C and how many they are, in a `with`. Those that lie in memory in this way are not copied."""

    def __init__(self, name: str, numbers: _Numbers, kind: _Type) -> None:
        self._size = kind.size
        super().__init__(name, typing.cast(_Text, numbers if self._is_of(numbers, kind) else self._array(name, numbers, kind)))

    @staticmethod
    def _is_of(numbers: object, kind: _Type) -> bool:
        if isinstance(numbers, (list, tuple)):
            return False
        try:
            with memoryview(typing.cast(_Text, numbers)) as view:
                is_alike = view.format.lstrip("@=<") in kind.alike and view.itemsize == kind.size
                return is_alike and view.ndim == 1 and view.c_contiguous
        except TypeError:
            return False

    @staticmethod
    def _array(name: str, numbers: _Numbers, kind: _Type) -> "array.array[int]":
        whole = _whole(name, numbers)
        try:
            return array.array(kind.code, whole)
        except OverflowError:
            # The least number of each type is refused as out of range.
            return array.array(kind.code, [number if kind.least <= number <= kind.greatest else kind.least for number in whole])

    def __enter__(self) -> "tuple[object, int]":
        address, length = super().__enter__()
        if length and isinstance(address, int) and address % self._size:
            address, length = self._copied()
        return address, length // self._size


class Proof:
    """A formula and its proof that are handed over piece by piece, as a solver makes them, in place of two texts.

    It begins with no variable, no clause and no step. A literal is a variable, or its negative if it is negated. Literals and antecedents
    are any iterables of whole numbers. An array, a memoryview or an array of NumPy with literals of 32 bits, or antecedents of 64 bits
    without sign, is not copied.

    A refused piece changes nothing and raises PieceRefused; so does each call on a closed proof but `close`. Only the pieces before it,
    which `add_variables` or `add_clauses` took, are added. MemoryError says that memory was refused, so nothing was done, but for
    `add_clauses`, which says how many clauses it added. A proof stays on the thread that made it: a call from another one raises
    RuntimeError. It cannot be copied or pickled.

    Close it, or use it in a `with`: it holds memory that Python does not see. It is also closed when it is collected on its thread; if it
    is collected on another one, its memory stays taken, and a ResourceWarning says so.
    """

    def __init__(self) -> None:
        self._thread = threading.get_ident()
        self._clauses = 0
        self._steps = 0
        self._is_open = False
        self._held = _Held()
        self._settle(_library.qrp_proof_new(self._held), "proof", None)
        self._is_open = True

    def _own(self) -> _Held:
        if threading.get_ident() != self._thread:
            raise RuntimeError("a proof stays on the thread that made it: this is another one")
        return self._held

    def _opened(self) -> _Held:
        held = self._own()
        if not self._is_open:
            self._settle(_NO_PROOF, "proof", None)
        return held

    @staticmethod
    def _settle(status: int, piece: str, position: typing.Optional[int]) -> None:
        if status == _NO_MEMORY:
            raise MemoryError("out of memory, so nothing was done: the same call can be made again")
        if status in _PIECE_FAULTS:
            raise PieceRefused(piece, position, *_PIECE_FAULTS[status])

    def add_variables(self, variables: _Numbers, *, universal: bool) -> None:
        """Binds more variables, each inside of those that are bound: neighbours of one quantifier make a block.

        If one is refused, those before it are bound.
        """
        held = self._opened()
        _check_flags(universal=universal)
        for variable in _whole("variables", variables):
            self._settle(_library.qrp_proof_variable(held, universal, _within(variable, 0, 2**32 - 1)), "variable", variable)

    def add_clause(self, literals: _Numbers) -> None:
        """Adds a clause of the formula. Its variables are bound."""
        held = self._opened()
        with _LentNumbers("literals", literals, _INT32) as lent:
            self._settle(_library.qrp_proof_clause(held, *lent), "clause", self._clauses + 1)
        self._clauses += 1

    def add_clauses(self, literals: _Numbers) -> None:
        """Adds many clauses at once: the literals of one after the other, and a 0 after each; the last may lack its 0.

        If one is refused, or if memory is, those before it are added, and `clauses` says how many there are.
        """
        held = self._opened()
        added = ctypes.c_size_t()
        with _LentNumbers("literals", literals, _INT32) as lent:
            status = _library.qrp_proof_clauses(held, *lent, ctypes.byref(added))
        self._clauses += added.value
        if status == _NO_MEMORY:
            raise MemoryError(f"out of memory after {added.value} of the clauses, which are added: hand over the others again")
        self._settle(status, "clause", self._clauses + 1)

    @property
    def clauses(self) -> int:
        """How many clauses the formula has so far."""
        return self._clauses

    def add_step(self, number: typing.SupportsIndex, literals: _Numbers, antecedents: _Numbers = ()) -> None:
        """Adds a step: its number, its literals, and the numbers of its antecedents: none of an initial step, one of a reduction, two of a
        resolution."""
        held = self._opened()
        (place,) = _whole("number of the step", [number])
        with _LentNumbers("literals", literals, _INT32) as lent, _LentNumbers("antecedents", antecedents, _UINT64) as lent_antecedents:
            self._settle(_library.qrp_proof_step(held, _within(place, 0, 2**64 - 1), *lent, *lent_antecedents), "step", place)
        self._steps += 1

    def check(self, *, sat: bool, any_pivot: bool = False) -> Verdict:
        """Checks the steps so far as a proof that the formula is true, if `sat`, or false; `any_pivot` is as for `verify`.

        The verdict is that of `verify` on the same formula and steps as texts. More can be added and checked afterwards.
        """
        _check_flags(sat=sat, any_pivot=any_pivot)
        found = _Verdict()
        _library.qrp_proof_check(self._opened(), sat, any_pivot, ctypes.byref(found))
        return _verdict(found)

    def core(self, *, sat: bool, any_pivot: bool = False) -> "list[int]":
        """The numbers of the steps that the proof needs, in the order in which they were added; `sat` and `any_pivot` are as for `check`.

        Raises Refused if the steps do not prove the result.
        """
        _check_flags(sat=sat, any_pivot=any_pivot)
        found = _Verdict()
        steps = (ctypes.c_uint64 * max(self._steps, 1))()
        count = _library.qrp_proof_core(self._opened(), sat, any_pivot, steps, len(steps), ctypes.byref(found))
        if count == 0:
            raise Refused(_verdict(found))
        return list(steps[:count])

    def formula_text(self) -> bytes:
        """The formula that was handed over, in canonical form. Its header has the greatest variable that is bound."""
        held, found = self._opened(), _Verdict()

        def call(buffer: "ctypes.Array[ctypes.c_char]", room: int) -> int:
            return int(_library.qrp_proof_write_formula(held, buffer, room, ctypes.byref(found)))

        return _text(call, found, _SOME)

    def trace_text(self, *, sat: bool) -> bytes:
        """The steps as a trace that says that the formula is true, if `sat`, or false, in canonical form. It has no sets.

        Nothing is checked: `verify` of the two texts gives the verdict of `check`.
        """
        _check_flags(sat=sat)
        held, found = self._opened(), _Verdict()

        def call(buffer: "ctypes.Array[ctypes.c_char]", room: int) -> int:
            return int(_library.qrp_proof_write_trace(held, sat, buffer, room, ctypes.byref(found)))

        return _text(call, found, _SOME)

    def trimmed_text(self, *, sat: bool, any_pivot: bool = False) -> bytes:
        """The same trace with only the steps that the proof needs; `sat` and `any_pivot` are as for `check`.

        Raises Refused if the steps do not prove the result.
        """
        _check_flags(sat=sat, any_pivot=any_pivot)
        held, found = self._opened(), _Verdict()

        def call(buffer: "ctypes.Array[ctypes.c_char]", room: int) -> int:
            return int(_library.qrp_proof_write_trimmed(held, sat, any_pivot, buffer, room, ctypes.byref(found)))

        return _text(call, found, _SOME)

    def close(self) -> None:
        """Gives back what the proof holds. It may be called again."""
        _library.qrp_proof_free(self._own())
        self._is_open = False

    def __enter__(self) -> "Proof":
        return self

    def __exit__(self, *_: object) -> None:
        self.close()

    def __del__(self) -> None:
        if not getattr(self, "_is_open", False):
            return
        if threading.get_ident() == self._thread:
            self.close()
        else:
            warnings.warn("a qrp_check.Proof was collected on another thread without having been closed", ResourceWarning, source=self)

    def __reduce__(self) -> typing.NoReturn:
        raise TypeError("a proof cannot be copied or pickled")
