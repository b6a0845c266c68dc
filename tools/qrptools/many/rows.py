"""The list of proofs and the table of their checks. A part of tools/check-many."""

import json
import os
from collections import Counter
from collections.abc import Iterator
from typing import NamedTuple
from xml.sax.saxutils import escape, quoteattr

from qrptools.command import read_file, unusable, version

FLAG, TRUTHS = "--qu", ("true", "false")
LOST = 255  # the status of what is not known


class Pair(NamedTuple):
    """A line of the list. The files are as they are written there; the flag is a minus if there is none, and so is the expected truth."""

    name: str
    formula: str
    trace: str
    flag: str
    expected: str


class Result(NamedTuple):
    """What a check came to, as text: the program's line or TIMEOUT, KILLED or LOST, and figures, each a minus if it is not known."""

    line: str
    status: str
    seconds: str
    cpu_seconds: str
    kilobytes: str


UNKNOWN = Result("LOST", str(LOST), "-", "-", "-")


def lines_of(data: bytes) -> list[str]:
    """The lines of a file, with names of any bytes."""
    return [os.fsdecode(line) for line in data.replace(b"\r\n", b"\n").split(b"\n")]


def read_list(path: str) -> tuple[list[Pair], int]:
    """The lines of a list as pairs, and how many are passed over since they begin with #."""
    pairs, passed_over = [], 0
    for number, line in enumerate(lines_of(read_file(path, "the list")), 1):
        passed_over += line.startswith("#")
        if line.strip() and not line.startswith("#"):
            pairs.append(pair_of(line.split("\t"), f"line {number} of {path}"))
    return pairs, passed_over


def pair_of(fields: list[str], where: str) -> Pair:
    """The pair of a line's fields: after the files a flag and a truth, each at most once, in any order; blank fields say nothing."""
    more = [field for field in fields[3:] if field not in ("", "-")]
    truths = [field for field in more if field in TRUTHS]
    flags = [field for field in more if field == FLAG]
    if len(fields) < 3 or not all(fields[:3]) or len(truths) > 1 or len(flags) > 1 or len(truths) + len(flags) < len(more):
        raise unusable(f"{where} is not a name, a formula, a trace and perhaps {FLAG}, and true or false, separated by tabs")
    name, formula, trace = fields[:3]
    return Pair(name, formula, trace, flags[0] if flags else "-", truths[0] if truths else "-")


def is_as_expected(pair: Pair, result: Result) -> bool:
    """Whether a proof was verified, and of the truth that the list expects, if it does."""
    return is_verified(result) and pair.expected in ("-", result.line.split()[1])


def is_verified(result: Result) -> bool:
    """Whether the program gave a verdict: by its line and by its status."""
    return result.line.startswith("VERIFIED ") and result.status == "0"


def text_row(pair: Pair, result: Result) -> str:
    """The row of the table as text."""
    return "\t".join([pair.name, *result[:3], result.kilobytes, result.cpu_seconds, pair.expected])


def json_row(pair: Pair, result: Result) -> str:
    """The row of the table as JSON. What is not known is null."""
    lost = result.seconds == "-"
    files = {"formula": as_text(pair.formula), "trace": as_text(pair.trace), "qu": pair.flag == FLAG}
    figures: list[object] = [None, None, None] if lost else [float(result.seconds), float(result.cpu_seconds), int(result.kilobytes)]
    return json.dumps(
        {
            "name": as_text(pair.name),
            **files,
            "expected": {"true": True, "false": False}.get(pair.expected),
            "line": result.line,
            "status": int(result.status),
            **dict(zip(("seconds", "cpu_seconds", "kilobytes"), figures)),
            "version": version(),
        }
    )


def junit(name: str, pairs: list[Pair], results: list[Result]) -> Iterator[str]:
    """The lines of a report as JUnit writes it: a proof that is not verified, or not of the truth that is expected, is a failure, and a
    lost one an error."""
    lost = sum(result.status == str(LOST) for result in results)
    failures = sum(not is_as_expected(pair, result) for pair, result in zip(pairs, results)) - lost
    took = sum(float(result.seconds) for result in results if result.seconds != "-")
    counts = f'tests="{len(pairs)}" failures="{failures}" errors="{lost}" skipped="0" time="{took:.3f}"'
    yield '<?xml version="1.0" encoding="UTF-8"?>'
    yield f"<testsuites {counts}>"
    yield f"  <testsuite name={attribute(name)} {counts}>"
    for pair, result in zip(pairs, results):
        seconds = result.seconds if result.seconds != "-" else "0"
        case = f'<testcase classname={attribute(name)} name={attribute(pair.name)} time="{seconds}"'
        if is_as_expected(pair, result):
            yield f"    {case}/>"
        else:
            kind = "error" if result.status == str(LOST) else "failure"
            said = result.line if not is_verified(result) else f"{result.line}, and expected is {pair.expected}"
            text = escape(printable(f"{pair.formula} {pair.trace}: status {result.status}"))
            yield f"    {case}><{kind} message={attribute(said)}>{text}</{kind}></testcase>"
    yield "  </testsuite>"
    yield "</testsuites>"


def attribute(text: str) -> str:
    return quoteattr(printable(text))


def printable(text: str) -> str:
    """A text without what XML has no way to write."""
    return "".join(letter if letter.isprintable() else f"\\x{ord(letter):02x}" for letter in as_text(text))


def as_text(name: str) -> str:
    """A name as text, also one of bytes that are no text: those are written as \\xff, so that other names stay other ones."""
    return os.fsencode(name).decode(errors="backslashreplace")


def summary(pairs: list[Pair], results: list[Result]) -> str:
    """One line on all rows: how many were verified, what became of the others, and what it took."""
    verified = [result.line for result in results if is_verified(result)]
    truths = ", ".join(f"{verified.count(f'VERIFIED {truth}')} {truth}" for truth in TRUTHS)
    line = f"{len(verified)} of {len(pairs)} proofs were verified ({truths})"
    others = Counter(kind_of(result.line) for result in results if not is_verified(result))
    line += "".join(f", {count} {kind}" for kind, count in sorted(others.items()))
    known = [result for result in results if result.seconds != "-"]
    seconds, peak = sum(float(result.cpu_seconds) for result in known), max((int(result.kilobytes) for result in known), default=0)
    line += f"; {seconds:.1f} s of CPU time, at most {peak / 1000:.0f} MB"
    wrong = [pair.name for pair, result in zip(pairs, results) if is_verified(result) and not is_as_expected(pair, result)]
    if wrong:
        line += f"; {len(wrong)} not of the truth that the list expects: {', '.join(wrong[:5])}" + (" .." if len(wrong) > 5 else "")
    return line


def kind_of(line: str) -> str:
    """The first word of a line, or the two of NO MEMORY. A verdict that has another status than it is none."""
    if line == "NO MEMORY":
        return line
    first = (line.split() or ["nothing"])[0]
    return "with another status" if first == "VERIFIED" else first
