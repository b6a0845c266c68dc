"""What is said of a line that qrp_cmd prints: the fault, its place, what was found and what you can do. A part of tools/explain and
tools/check."""

import argparse
import errno
import json
import os
import re
import resource
import signal
from typing import Callable, Optional, Union

from qrptools.explaining.advice import advice_for
from qrptools.command import Ends, finding, not_read, read_file, unusable
from qrptools.formula import Formula
from qrptools.explaining.looks import NO_TEXTS, looks
from qrptools.names import Names
from qrptools.program import CHECKER, GATES
from qrptools.questions.files import QuestionNames, clauses_of
from qrptools.questions.reader import WORD, QuestionFault, read_question
from qrptools.explaining.refusals import (
    empty_clause,
    explain_no_goal,
    explain_sets,
    explain_text,
    free_variables,
    SHOWN,
    likely_cause,
    listed,
    marked_line,
    other_order,
)
from qrptools.explaining.show import Judged, judged_step, lines_of, reasons
from qrptools.step_rules import SIDES
from qrptools.steps import Trace
from qrptools.words import Data, Fault, read

PLACES = ("fault", "file", "line", "column", "step", "variable")
Place = Union[str, int, None]
# What an advice is for: a fault and its cause, or "kind", the kind of a file and the number of its sentence.
Topic = tuple[str, Optional[str], Optional[int]]


class Explanation:
    """What is found: sentences, the lines that are printed if there are others, what the advice is for, and PLACES."""

    def __init__(self, found: list[str], printed: Optional[list[str]] = None, topic: Optional[Topic] = None, **places: Place) -> None:
        self.found, self.printed, self.topic = found, found if printed is None else printed, topic
        self.places: dict[str, Place] = {**dict.fromkeys(PLACES), **places}

    def advice(self) -> Optional[str]:
        return advice_for(*self.topic) if self.topic else None

    def text(self) -> list[str]:
        """The lines to print."""
        return [*self.printed, *(["What you can do:", f"  {self.advice()}."] if self.advice() else [])]

    def as_json(self, line: Optional[str], status: Optional[int]) -> str:
        """A line of JSON."""
        return json.dumps({"says": line, "status": status, **self.places, "found": self.found, "advice": self.advice()})


def mapped(path: str) -> Data:
    """The bytes of a file, of which only those are in memory that are looked at."""
    try:
        return read(path)
    except OSError as fault:
        if fault.errno == errno.ENOMEM:
            raise MemoryError from fault
        raise unusable(not_read(path, fault)) from fault


class Explainer:
    """What explains a line. The files are read once, by the first function; by the second one, if there is one, a trace is of which little is
    looked at."""

    def __init__(
        self,
        arguments: argparse.Namespace,
        read: Callable[[str], bytes] = read_file,
        look: Optional[Callable[[str], Data]] = None,
        program: str = CHECKER,
    ) -> None:
        self.arguments, self.read, self.look, self.program = arguments, read, look or read, program

    def formula(self) -> bytes:
        """The formula in clauses. Those of a formula of gates are made, and then it has its names."""
        data = self.read(self.arguments.formula)
        if self.program == CHECKER:
            return data
        self.arguments.names = QuestionNames(read_question(data), None, self.arguments.names)
        return clauses_of(data)

    def trace(self) -> bytes:
        return self.read(self.arguments.trace)

    def explain(self, line: str, status: int) -> Explanation:
        """The explanation of a line, and of no line with this status. A verdict with another status than its own is none."""
        if line.startswith("VERIFIED") and status != 0:
            raise finding(f"qrp_cmd ended with status {status} and the line '{line}': one of them is wrong")
        methods: tuple[tuple[str, Callable[..., Explanation]], ...] = (
            (r"VERIFIED (true|false)", self.verified),
            (r"REFUSED step (\d+) (S\d+)", self.step),
            (r"REFUSED set (C\d) variable (\d+)", self.set),
            (r"REFUSED trace (C4)", self.no_goal),
            (r"REFUSED (formula|trace) ([FP]\d) line (\d+)", self.text),
            (r"REFUSED formula (Q\d+) line (\d+)", self.question),
            (r"DEVICE (formula|trace)", self.device),
            (r"NO MEMORY", self.no_memory),
            (r"USAGE", self.usage),
        )
        for pattern, method in methods:
            found = re.fullmatch(pattern, line)
            if found:
                return method(*found.groups())
        return self.formatted() if not line and status == 0 else self.nothing(status)

    def question(self, fault: str, line: str) -> Explanation:
        """Why a formula of gates is refused."""
        try:
            read_question(self.read(self.arguments.formula))
        except QuestionFault as found:
            if str(found) == f"{fault} in line {line}":
                return explanation_of_question(found)
            raise disagree(f"{fault} in line {line}", str(found)) from found
        raise disagree(f"{fault} in line {line}", "no fault")

    def verified(self, truth: str) -> Explanation:
        more = empty_clause(self.formula()) if truth == "false" else []
        return Explanation([f"The trace proves that the formula is {truth}. Nothing is refused.", *more], topic=("VERIFIED", truth, None))

    def formatted(self) -> Explanation:
        if self.program == GATES:
            question = read_question(self.read(self.arguments.formula))
            sizes = f"it binds {len(question.places)} variables, and has {len(question.gates)} gates"
            return Explanation([f"The formula is closed and has no fault: {sizes}."])
        data = self.formula()
        formula = Formula(data)
        found = f"The formula is closed and has no fault: it binds {len(formula.places)} variables, and has {formula.count} clauses."
        return Explanation([found, *empty_clause(data)])

    def step(self, number: str, fault: str) -> Explanation:
        formula, trace = Formula(self.formula()), Trace(self.look(self.arguments.trace))
        judged = judged_step(formula, trace, self.arguments.qu, int(number), True)
        if judged is None or judged.finding.fault != fault:
            raise disagree(fault, judged.finding.fault if judged else "no such step")
        return self.about_clauses(explanation_of_step(formula, trace, judged, self.arguments.names))

    def about_clauses(self, found: Explanation) -> Explanation:
        """The same with a sentence on the clauses, if they were made of gates."""
        if self.program == GATES:
            said = "The formula has gates: its clauses and their lines are those that `qrp_gates clauses FORMULA` writes."
            found.found, found.printed = [*found.found, said], [*found.printed, said]
        return found

    def set(self, fault: str, variable: str) -> Explanation:
        data = self.trace()
        explained = explain_sets(Formula(self.formula()), Trace(data))
        if explained is None:
            raise disagree(f"{fault} of {variable}", "no fault")
        first, named, sentences = explained
        if (first, str(named.variable)) != (fault, variable):
            raise disagree(f"{fault} of {variable}", f"{first} of {named.variable}")
        order = other_order(data) if fault == "C3" else []
        topic = (fault, "order" if order else None, None)
        found = Explanation(sentences + order, fault=fault, file="trace", line=named.line, variable=named.variable, topic=topic)
        return self.about_clauses(found)

    def no_goal(self, fault: str) -> Explanation:
        data = self.trace()
        has_none, sentences = explain_no_goal(Trace(data))
        if not has_none:
            raise disagree(fault, "an empty step")
        order = other_order(data)
        return Explanation(sentences + order, fault=fault, file="trace", topic=(fault, "order" if order else None, None))

    def text(self, kind: str, fault: str, line: str) -> Explanation:
        data = self.formula() if kind == "formula" else self.trace()
        found = text_fault(kind, data, int(line) - 1)
        if found is None or str(found) != f"{fault} in line {line}":
            raise disagree(f"{fault} in line {line}", str(found or "no fault"))
        look = looks(data, "cnf" if kind == "formula" else "qrp")
        sentences = explain_text(found, data, look) + (more_free(found, data) if fault == "F6" else [])
        topic: Topic = ("kind", *look) if look[0] else (fault, likely_cause(found, data), None)
        variable = found.known.get("number") if fault == "F6" else None
        marked = [] if found.index is None or look[0] in NO_TEXTS else [f"Line {line} of the {kind}:", *marked_line(found)]
        place: dict[str, Place] = {"file": kind, "line": found.line, "column": found.column}
        return Explanation(sentences, marked + sentences, topic, fault=fault, variable=variable, **place)

    def device(self, kind: str) -> Explanation:
        path = self.arguments.formula if kind == "formula" else self.arguments.trace
        try:
            with open(path, "rb") as file:
                file.read(1)
            why = "It can be opened and read now; another user may not, or the device failed in the middle."
        except OSError as fault:
            why = f"It cannot be opened and read: {fault.strerror}."
        topic = ("DEVICE", "minus" if path == "-" else None, None)
        return Explanation([f"The {kind} is the file {path}.", why], fault="DEVICE", file=kind, topic=topic)

    def no_memory(self) -> Explanation:
        found = [f"The program had up to {resource.getrusage(resource.RUSAGE_CHILDREN).ru_maxrss // 1024} MB when a request for more was refused."]
        paths = [path for path in (self.arguments.formula, self.arguments.trace) if path]
        size = sum(os.path.getsize(path) for path in paths) / 1000000
        found.append(
            f"The files have {size:.1f} MB. In docs/BENCHMARKS.md a check took 0.7 to 2 times that: here it would be {0.7 * size:.0f} to {2 * size:.0f} MB."
        )
        limit = resource.getrlimit(resource.RLIMIT_AS)[0]
        if limit != resource.RLIM_INFINITY:
            found.append(f"The limit of this shell (ulimit -v) is {limit // 1024} KB.")
        return Explanation(found, fault="NO MEMORY", topic=("NO MEMORY", None, None))

    def usage(self) -> Explanation:
        paths = [path for path in (self.arguments.formula, self.arguments.trace) if path and not is_text(path)]
        found = [f"The name of the file is not valid UTF-8 text: {os.fsencode(path)!r}." for path in paths]
        return Explanation(found, fault="USAGE", topic=("USAGE", None, None))

    def nothing(self, status: int) -> Explanation:
        if status >= 0:
            raise finding(f"qrp_cmd ended with status {status} and an unknown line")
        found = [f"The program printed no line: signal {-status} ({signal.Signals(-status).name}) ended it."]
        if status != -signal.SIGKILL:
            return Explanation([*found, "This should not happen."])
        return Explanation([*found, "The system sends this signal when it is out of memory."], topic=("NO MEMORY", None, None))


def explanation_of_question(fault: QuestionFault) -> Explanation:
    """The line of a formula of gates, with what is not allowed marked, and why."""
    text = "".join(chr(byte) if 32 <= byte < 127 else "?" for byte in fault.text.rstrip(b"\r").replace(b"\t", b" "))
    word = WORD.match(fault.text, fault.place) if fault.place is not None else None
    first = 0 if fault.place is None else max(0, fault.place - SHOWN)
    shown = f"    {'.. ' if first else ''}{text[first : first + 2 * SHOWN]}"
    marked = [] if fault.place is None else [" " * (fault.place - first + (7 if first else 4)) + "^" * (len(word[0]) if word else 1)]
    lines = [f"Line {fault.line} of the formula:", shown, *marked] if text else []
    why = f"{fault.why[:1].upper()}{fault.why[1:]}."
    column = None if fault.place is None else fault.place + 1
    return Explanation([why], [*lines, why], (fault.name, None, None), fault=fault.name, file="formula", line=fault.line, column=column)


def disagree(said: str, found: Optional[str]) -> Ends:
    """Ends the command since the program and this script say different things."""
    return finding(f"qrp_cmd found {said} and this script {found}: one of them is wrong")


def explanation_of_step(formula: Formula, trace: Trace, judged: Judged, names: Names) -> Explanation:
    found, step = judged.finding, judged.step
    printed = list(lines_of(formula, SIDES[trace.result], judged, names))
    topic: Optional[Topic] = (found.fault, found.cause, None) if found.fault else None
    return Explanation(reasons(judged), printed, topic, fault=found.fault, file="trace", line=step.line, step=step.number)


def more_free(found: Fault, data: bytes) -> list[str]:
    free = [v for v in free_variables(Formula(data, found.line - 1)) if v != found.known["number"]]
    return [f"So {'is' if len(free) == 1 else 'are'} {listed(free)}."] if free else []


def is_text(path: str) -> bool:
    try:
        os.fsencode(path).decode()
        return True
    except UnicodeDecodeError:
        return False


def text_fault(kind: str, data: bytes, good: int) -> Optional[Fault]:
    """The fault of a text whose first lines are known to be right, None if it has none."""
    try:
        text: Union[Formula, Trace] = Formula(data, good) if kind == "formula" else Trace(data, good)
        for _ in text.pieces():
            pass
    except Fault as fault:
        return fault
    return None
