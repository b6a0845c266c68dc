"""Tests tools/explain. usage: tests/tools/test_explain.py PROGRAM LIST UNREADABLE

tests/tools/test-tools calls it. LIST has rows of flag, formula, trace and line, where a row without a trace is of `format`. UNREADABLE has
the rows that cannot be read, and should be empty.
"""

import contextlib
import gzip
import importlib.machinery
import importlib.util
import io
import json
import os
import re
import subprocess
import sys
import tempfile
from collections.abc import Collection, Iterable, Iterator, Sequence
from pathlib import Path
from types import ModuleType
from typing import Any, Optional, Union

ROOT = Path(__file__).resolve().parents[2]
sys.path[:0] = [str(ROOT / "tests"), str(ROOT / "tools")]
sys.dont_write_bytecode = True
from damaged_pairs import damaged_pairs  # noqa: E402
from expect import expect, finish, skip  # noqa: E402
from pages import blocks  # noqa: E402
from qrptools.explaining import explanation  # noqa: E402
from qrptools.explaining.advice import ADVICE, ROWS, advice_for  # noqa: E402
from qrptools.step_rules import CONDITIONS  # noqa: E402
from random_proofs import truth  # noqa: E402

Ended = subprocess.CompletedProcess[Any]
Program = Union[str, Path]
Steps = Sequence[tuple[Collection[int], Sequence[int]]]

EXPLAIN = ROOT / "tools" / "explain"
LINES = {*(f"F{n}" for n in range(2, 9)), *(f"P{n}" for n in range(2, 9)), *(f"C{n}" for n in range(1, 5)), *(f"S{n}" for n in range(1, 13))}

# What the explanation of a damaged pair has to say, by its name: read by hand once.
SENTENCES = {
    "empty as formula": "The formula is empty.",
    "gzip as formula": "It is compressed by gzip",
    "gzip as trace": "It is compressed by gzip",
    "bzip2 as trace": "It is compressed by bzip2",
    "xz as trace": "It is compressed by xz",
    "zstd as formula": "It is compressed by zstd",
    "QCIR as trace": "It is a formula in QCIR",
    "AIGER as formula": "It is a circuit in AIGER",
    "UTF-16 as formula": "It is in UTF-16",
    "binary QRP as trace": "It is a trace in the binary form of QRP.",
    "DRAT as trace": "It looks like a proof in DRAT",
    "binary DRAT as trace": "It is not a text: it has zero bytes, as a proof in the binary form of DRAT.",
    "QRAT as trace": "It looks like a proof in QRAT",
    "an answer as trace": "It is the solver's answer, not a trace",
    "exchanged": "It is a trace, not a formula. Were the two files exchanged?",
    "the formula twice": "It is a formula, and so is the first file: was the same one given twice?",
    "a byte order mark before the trace": "It begins with a byte order mark",
    "a banner before the trace": "Its header is in line 3.",
    "no header of the formula": "The header `p cnf VARIABLES CLAUSES` is missing",
    "no header of the trace": "The header `p qrp` is missing",
    "trace without its last 2 bytes": "it seems to be cut.",
    "trace without its result": "before the line `r sat` or `r unsat`.",
    "'%' before a clause": "Some collections end their files with a line of %",
    "'p' before a step": "It looks like another header",
    "'-0' in a clause": "A number has no plus sign, and 0 no minus.",
    "'0' in a set": "an earlier 0 closes: is that 0 one too many?",
    "'0' among antecedents": " has 3 zeros where a step has 2: is a 0 one too many?",
    "'0' in a trace's set": " has 2 zeros where a set has 1: is a 0 one too many?",
    "step 1 without a 0": " has 1 zero where a step has 2: is a 0 missing?",
    "1 clauses in the header": "and the text has ",
    "-1 clauses in the header": "and here begins one more.",
    "set 0 with the other quantifier": "in line 2 of the trace, and ",
    "set 0 last": "further out than ",
    "set 0 binds its first variable twice": " is bound already, as ",
    "set 0 without its last variable": " is in no quantifier set, so it is free.",
    "clause 0 without its 0": "does not end with 0, so the next line belongs to it too",
    "no quantifier set": f"as solvers read such a text: `{EXPLAIN} --close FORMULA > CLOSED` does that.",
    "the other result": "its result is wrong",
    "the result UNKNOWN": "a limit of the solver was reached",
    "the result of --qdo": "leave out `--qdo`",
    "no empty step": "so nothing is proved.",
    "no step": " and has no step, so nothing is proved.",
    "a set of the trace names one more": "Variable 999 is ",
    "a formula after the sets, as of --pretty-print": "the formula that --pretty-print writes.",
    "CRLF": "The trace proves that the formula is ",
}


def load() -> ModuleType:
    """The script as a module, so that it need not be started a thousand times."""
    loader = importlib.machinery.SourceFileLoader("explain", str(EXPLAIN))
    spec = importlib.util.spec_from_loader("explain", loader)
    assert spec
    module = importlib.util.module_from_spec(spec)
    loader.exec_module(module)
    return module


def explained(module: ModuleType, *words: object) -> tuple[int, str, str]:
    """The status, and what is printed."""
    sys.argv = [str(EXPLAIN), *map(str, words)]
    out, err = io.StringIO(), io.StringIO()
    with contextlib.redirect_stdout(out), contextlib.redirect_stderr(err):
        status = module.main()
    return status, out.getvalue(), err.getvalue()


def note_topics() -> set[tuple[str, Optional[str]]]:
    """The topics of the advice that is given from here on."""
    topics = set()

    def noted(fault: str, cause: Optional[str], number: Optional[int] = None) -> Optional[str]:
        topics.add((fault, cause))
        return advice_for(fault, cause, number)

    explanation.advice_for = noted
    return topics


def ends_with_advice(out: str, fault: Optional[str]) -> bool:
    """Whether a text ends with an advice for this fault, or for a kind of file; or if nothing is refused, for what is next."""
    texts = [advice for (named, _), advice in ADVICE.items() if named in ((fault, "kind") if fault else ("VERIFIED",))]
    patterns = (
        re.sub(r"\bN\b", r"\\d+", re.escape(text.replace("tools/", f"{EXPLAIN.parent}/").replace("docs/", f"{ROOT}/docs/"))) for text in texts
    )
    return any(re.search(f"What you can do:\n  {pattern}\\.\n\\Z", out) for pattern in patterns)


def run(*words: object, program: Program, **options: Any) -> Ended:
    environment = dict(os.environ, QRP_CMD=str(program))
    return subprocess.run([sys.executable, EXPLAIN, *map(str, words)], capture_output=True, text=True, env=environment, check=False, **options)


def fault_of(line: str) -> Optional[str]:
    """The name of the fault of a line, as the tables of docs/REFUSED.md have it."""
    found = re.search(r"\b([SFPCQ]\d+)\b", line)
    return found[1] if found else None


def reads_alike(module: ModuleType, line: str, formula: Any, trace: Any) -> bool:
    """Whether the script finds the fault of a text without knowing that any line of it is right."""
    found = re.fullmatch(r"REFUSED (formula|trace) ([FP]\d) line (\d+)", line)
    if not found:
        return True
    fault = explanation.text_fault(found[1], Path(formula if found[1] == "formula" else trace).read_bytes(), 0)
    return str(fault) == f"{found[2]} in line {found[3]}"


def try_line(module: ModuleType, name: str, line: str, flags: Sequence[str], files: Sequence[Any]) -> str:
    """One explanation: it begins with the program's line and ends with the advice for its fault."""
    status, out, err = explained(module, *flags, *files)
    first = f"qrp_cmd says: {line}\n\n" if line else "qrp_cmd prints no line.\n\n"
    expect(f"{name}: {line}", status == 0 and out.startswith(first) and not err, (status, out, err))
    expect(f"{name}: {line}, read from the beginning", reads_alike(module, line, files[0], files[-1]))
    expect(f"{name}: {line}, the advice", ends_with_advice(out, fault_of(line)) if line else "What you" not in out, out)
    return out


def try_json(module: ModuleType, name: str, line: str, files: Sequence[Any]) -> None:
    """The explanation as JSON says what the text says, and the place that the program names."""
    _, text, _ = explained(module, *files)
    status, out, err = explained(module, "--json", *files)
    found = json.loads(out)
    expect(f"{name}: JSON", status == 0 and out.count("\n") == 1 and not err and found["says"] == line, (status, out, err))
    advice = text.rpartition("What you can do:\n  ")[2][:-2]
    expect(f"{name}: JSON, what is said", found["advice"] == advice and all(sentence in text for sentence in found["found"][:6]), (text, out))
    words = line.split()
    wanted: dict[str, Any] = {"fault": fault_of(line)}
    if words[1:2] in (["formula"], ["trace"]) and "line" in words:
        wanted |= {"file": words[1], "line": int(words[-1])}
    elif words[1:2] == ["step"]:
        lines = Path(files[1]).read_text().split("\n")
        wanted |= {"file": "trace", "step": int(words[2]), "line": 1 + [text.split(" ")[0] for text in lines].index(words[2]), "column": None}
    elif words[1:2] == ["set"]:
        wanted |= {"file": "trace", "variable": int(words[-1]), "column": None}
    expect(f"{name}: JSON, the place", wanted.items() <= found.items(), (wanted, found))
    if found["column"] and "^" in text:
        shown, marks = text.split("\n")[3:5]
        shown = shown[marks.index("^") : marks.rindex("^") + 1].partition("?")[0]
        there = Path(files[0 if found["file"] == "formula" else 1]).read_bytes().split(b"\n")[found["line"] - 1][found["column"] - 1 :]
        expect(f"{name}: JSON, the column", there.startswith(shown.encode()), (text, found))


def try_rows(module: ModuleType, rows: Iterable[Any]) -> None:
    """Each row is explained, and the program's fault found."""
    seen = set()
    for row in rows:
        flag, formula, trace, line = row.split("\t")
        try_line(module, "row", line, [flag] if flag else [], [formula, trace] if trace else [formula])
        seen.add(fault_of(line))
    expect("the rows have all faults", LINES <= seen, sorted(LINES - seen))


def try_damages(module: ModuleType, program: Program, pairs: Iterable[Any]) -> None:
    """Damaged proofs are explained as the program refuses them."""
    seen, tried, said = set(), 0, set()
    with tempfile.TemporaryDirectory() as folder:
        files = Path(folder) / "formula", Path(folder) / "trace"
        for formula, trace in pairs:
            for name, *texts in damaged_pairs(formula.read_bytes(), trace.read_bytes()):
                for file, text in zip(files, texts):
                    file.write_bytes(text)
                line = subprocess.run([program, "check", *files], capture_output=True, text=True, check=False).stdout.strip()
                out = try_line(module, f"{trace.name}, {name}", line, [], files)
                if tried % 8 == 0:
                    try_json(module, f"{trace.name}, {name}", line, files)
                if name in SENTENCES:
                    said.add(name)
                    expect(f"{trace.name}, {name}: '{SENTENCES[name]}'", SENTENCES[name] in out, out)
                seen.add(fault_of(line))
                tried += 1
    expect("more than a thousand damaged pairs", tried > 1000, tried)
    expect("the damaged pairs have most faults", len(LINES & seen) >= 24, sorted(LINES - seen))
    expect("each sentence was looked for", said == set(SENTENCES), set(SENTENCES) - said)


def advised(module: ModuleType, fault: str, cause: Optional[str]) -> str:
    """The end of a text with this advice, which is noted as given."""
    return f"What you can do:\n  {explanation.advice_for(fault, cause)}.\n"


def try_devices(program: Program, module: ModuleType) -> None:
    """Files that cannot be read, names that are no text, and memory that is refused."""
    formula, trace = ROOT / "examples" / "two_clauses.qdimacs", ROOT / "examples" / "two_clauses.qrp"
    with tempfile.TemporaryDirectory() as folder:
        words: Any
        for name, words, line, sentence, cause in (
            ("no formula", ["/nonexistent", trace], "DEVICE formula", "No such file or directory.", None),
            ("a folder", [formula, folder], "DEVICE trace", "Is a directory.", None),
            ("a folder to be formatted", [folder], "DEVICE formula", "Is a directory.", None),
            ("a minus", [formula, "-"], "DEVICE trace", "No such file or directory.", "minus"),
        ):
            ended = run(*words, program=program)
            holds = ended.stdout.startswith(f"qrp_cmd says: {line}\n") and f"It cannot be opened and read: {sentence}\n" in ended.stdout
            expect(name, ended.returncode == 0 and holds and ended.stdout.endswith(advised(module, "DEVICE", cause)), ended)
            found = json.loads(run("--json", *words, program=program).stdout)
            expect(f"{name}: JSON", (found["fault"], found["file"], found["line"]) == ("DEVICE", line.split()[1], None), found)
        odd = os.fsencode(folder) + b"/\xff"
        Path(os.fsdecode(odd)).write_bytes(formula.read_bytes())
        environment = dict(os.environ, QRP_CMD=str(program))
        ended = subprocess.run([sys.executable, EXPLAIN, odd, trace], capture_output=True, env=environment, check=False)
        holds = ended.stdout.startswith(b"qrp_cmd says: USAGE\n") and b"is not valid UTF-8 text: b'" in ended.stdout
        expect("a name that is no text", ended.returncode == 0 and holds and ended.stdout.endswith(advised(module, "USAGE", None).encode()), ended)
        limited = Path(folder) / "limited"
        limited.write_text(f'#!/bin/sh\nulimit -v 10000\nexec "{program}" "$@"\n')
        limited.chmod(0o755)
        large = Path(folder) / "large"
        large.write_text("p qrp 0 0\n" + "".join(f"{n} 1 2 3 4 5 6 7 8 9 0 0\n" for n in range(1, 500000)) + "r unsat\n")
        ended = run(formula, large, program=limited)
        holds = ended.stdout.startswith("qrp_cmd says: NO MEMORY\n\nThe program had up to ")
        expect("memory is refused", ended.returncode == 0 and holds and ended.stdout.endswith(advised(module, "NO MEMORY", None)), ended)
        killed = Path(folder) / "killed"
        killed.write_text("#!/bin/sh\nkill -KILL $$\n")
        killed.chmod(0o755)
        ended = run(formula, trace, program=killed)
        expect("the program is killed", ended.returncode == 0 and "signal 9 (SIGKILL) ended it" in ended.stdout, ended)


def try_disagreement(program: Program) -> None:
    """A program that names another fault than the script finds is not believed, and neither is the script."""
    formula, trace = ROOT / "examples" / "two_clauses.qdimacs", ROOT / "examples" / "two_clauses.qrp"
    refused = ["step 5 S8", "step 9 S8", "set C2 variable 1", "trace C4", "formula F6 line 3", "trace P7 line 2"]
    for line in [*(f"REFUSED {rest}" for rest in refused), "VERIFIED", "VERIFIED true", "VERIFIED false"]:
        with tempfile.TemporaryDirectory() as folder:
            liar = Path(folder) / "liar"
            liar.write_text(f"#!/bin/sh\necho '{line}'\nexit 1\n")
            liar.chmod(0o755)
            ended = run(formula, trace, program=liar)
            expect(f"a program that says {line}", ended.returncode == 1 and ended.stderr.startswith(f"{EXPLAIN}: qrp_cmd "), ended)


def try_words(program: Program) -> None:
    """Command lines that are wrong end with status 2, and a step that is not there with 1."""
    formula, trace = ROOT / "examples" / "two_clauses.qdimacs", ROOT / "examples" / "two_clauses.qrp"
    wrong = [
        [],
        [formula, trace, "1", "2"],
        ["--other", formula, trace],
        [formula, trace, "one"],
        [formula, trace, "-1"],
        ["--close", formula, trace],
    ]
    wrong += [
        ["--mend", formula, trace],
        ["--mend", "--json", formula],
        ["--close", "--mend", formula],
        ["--close"],
        ["--close", "innermost"],
        ["--mend", "/nonexistent"],
    ]
    wrong += [[formula, "/nonexistent", "1"], ["/nonexistent", trace, "1"], ["--close", "/nonexistent"]]
    words: Any
    for words in wrong:
        ended = run(*words, program=program)
        expect(f"usage: {words}", ended.returncode == 2 and not ended.stdout and ended.stderr, ended)
    ended = run(formula, trace, program="/nonexistent")
    expect("no program", ended.returncode == 2 and not ended.stdout, ended)
    ended = run(formula, trace, program=program)
    wanted = "qrp_cmd says: VERIFIED false\n\nThe trace proves that the formula is false."
    expect("nothing is refused", ended.returncode == 0 and ended.stdout.startswith(wanted), ended)
    ended = run(formula, trace, "6", program=program)
    expect("no such step", ended.returncode == 1 and not ended.stdout and ended.stderr == f"{EXPLAIN}: the trace has no step 6\n", ended)
    ended = run(trace, formula, "1", program=program)
    expect("a step of no formula", ended.returncode == 1 and not ended.stdout and ended.stderr, ended)
    ended = run(formula, "/dev/stdin", program=program, input=trace.read_text().replace("3 1 0 1 0", "3 2 0 1 0"))
    expect("a pipe", ended.returncode == 0 and ended.stdout.startswith("qrp_cmd says: REFUSED step 3 S7\n"), ended)


def try_closing(program: Program) -> None:
    """The closed formula has its free variables outermost, and is read."""
    texts = [
        (b"p cnf 3 2\n1 2 0\n-1 3 0\n", "p cnf 3 2\ne 1 2 3 0\n1 2 0\n-1 3 0\n"),
        (b"c\np cnf 3 2 a 2 0\nc x\n1 2 0 -1\n03 0", "p cnf 3 2\ne 1 3 0\na 2 0\n1 2 0\n-1 3 0\n"),
        (b"p cnf 2 1\ne 1 0\n1 2 0\n", "p cnf 2 1\ne 2 1 0\n1 2 0\n"),
        (b"p cnf 1 1\na 1 0\n1 0\n", "p cnf 1 1\na 1 0\n1 0\n"),
        (b"p cnf 0 0", "p cnf 0 0\n"),
    ]
    with tempfile.TemporaryDirectory() as folder:
        free, closed = Path(folder) / "free", Path(folder) / "closed"
        for text, wanted in texts:
            free.write_bytes(text)
            ended = run("--close", free, program="/nonexistent")
            closed.write_text(ended.stdout)
            printed = subprocess.run([program, "format", closed], capture_output=True, text=True, check=False).stdout
            expect(f"{text!r} closed", ended.returncode == 0 and printed == wanted, (ended, printed))


def try_innermost(program: Program) -> None:
    """A forgotten gate goes into the last set; a verdict on the other formula is one on another question. What was bound is said."""
    text = b"p cnf 3 3\na 1 2 0\n-3 1 0\n-3 2 0\n3 -1 -2 0\n"
    more = b"p cnf 4 3\na 1 0\ne 2 0 -3 1 0\n3 -1 2 0\n4 3 0\n"
    with tempfile.TemporaryDirectory() as folder:
        file, closed = Path(folder) / "gate", Path(folder) / "closed"
        place: Any
        for data, place, wanted, said in (
            (
                text,
                [],
                "p cnf 3 3\ne 3 0\na 1 2 0\n",
                "variable 3 is bound outermost by e, as solvers read the formula; if they are outputs of gates, ",
            ),
            (text, ["outermost"], "p cnf 3 3\ne 3 0\na 1 2 0\n", "variable 3 is bound outermost by e"),
            (
                text,
                ["innermost"],
                "p cnf 3 3\na 1 2 0\ne 3 0\n",
                "variable 3 is bound in the last set, by e: solvers read them as bound outermost, so this is another formula",
            ),
            (more, ["innermost"], "p cnf 4 3\na 1 0\ne 2 3 4 0\n", "variables 3, 4 are bound in the last set"),
            (b"p cnf 2 1\n1 2 0\n", ["innermost"], "p cnf 2 1\ne 1 2 0\n", "variables 1, 2 are bound outermost by e, as solvers read the formula\n"),
            (b"p cnf 1 1\na 1 0\n1 0\n", ["innermost"], "p cnf 1 1\na 1 0\n", "no variable is free: the formula is written as it is\n"),
        ):
            file.write_bytes(data)
            ended = run("--close", *place, file, program="/nonexistent")
            closed.write_text(ended.stdout)
            printed = subprocess.run([program, "format", closed], capture_output=True, text=True, check=False).stdout
            expect(f"--close {place} of {data!r}", ended.returncode == 0 and printed.startswith(wanted) and said in ended.stderr, (ended, printed))
        truths = [truth([("e", 3), ("a", 1), ("a", 2)], CLAUSES), truth([("a", 1), ("a", 2), ("e", 3)], CLAUSES)]
        expect("the two formulas of the page have other truths", truths == [False, True], truths)
        (Path(folder) / "innermost").write_bytes(text)
        ended = subprocess.run([sys.executable, EXPLAIN, "--close", "./innermost"], cwd=folder, capture_output=True, check=False)
        expect("a formula that is called innermost", ended.returncode == 0 and ended.stdout.startswith(b"p cnf 3 3\ne 3 0\n"), ended)


CLAUSES = [[-3, 1], [-3, 2], [3, -1, -2]]


def try_mending(program: Program) -> None:
    """A header that lies is mended, and nothing else is changed; a text with another fault is not written."""
    with tempfile.TemporaryDirectory() as folder:
        file = Path(folder) / "f"
        ended: Ended
        for text, wanted, said in (
            (
                b"c p cnf 9 9\np cnf 1 1\ne 1 2 0\n1 2 0\n-1 -2 0\n",
                b"c p cnf 9 9\np cnf 2 2\ne 1 2 0\n1 2 0\n-1 -2 0\n",
                "the formula has 2 variables (1 in its header) and 2 clauses (1 in its header)\n",
            ),
            (b"p  cnf\t2 7\ne 1 2 0\n1 2 0 -1\n0", b"p cnf 2 2\ne 1 2 0\n1 2 0 -1\n0", "the formula has 2 clauses (7 in its header)\n"),
            (b"p cnf 5 1\ne 1 0 1 0\n", b"p cnf 5 1\ne 1 0 1 0\n", "the header fits: the formula is written as it is\n"),
            (b"p cnf 1 0\n1 3 0\n", b"p cnf 3 1\n1 3 0\n", "3 variables (1 in its header) and 1 clause (0 in its header)\n"),
        ):
            file.write_bytes(text)
            ended = subprocess.run([sys.executable, EXPLAIN, "--mend", file], capture_output=True, check=False)
            expect(f"--mend of {text!r}", (ended.returncode, ended.stdout) == (0, wanted) and said in ended.stderr.decode(), ended)
        for text, fault in (
            (b"p cnf 2 2\ne 1 2 0\n1 2 0\n-1", "F7 in line 4"),
            (b"p cnf 2 1\ne 1 1 0\n1 0\n", "F5 in line 2"),
            (b"q", "F2 in line 1"),
            (b"p cnf 1 1\ne 1 0\n1 x 0\n", "F3 in line 3"),
            (b"", "F7 in line 1"),
            (b"c only a comment\n", "F7 in line 2"),
        ):
            file.write_bytes(text)
            ended = run("--mend", file, program="/nonexistent")
            expect(
                f"--mend of {text!r}",
                ended.returncode == 1 and not ended.stdout and f"the formula has {fault}: '{EXPLAIN} FORMULA' says why" in ended.stderr,
                ended,
            )


def try_needed(program: Program) -> None:
    """Whether the proof needs a step that is asked for, in words and in JSON; and what a refusal of memory says of the sizes."""
    files = ROOT / "examples" / "blind-box" / "blind-box.qdimacs", ROOT / "examples" / "blind-box" / "blind-box.qrp"
    trimmed = {line.split()[0] for line in (ROOT / "examples" / "blind-box" / "blind-box.trimmed.qrp").read_text().splitlines() if line[:1].isdigit()}
    sentence = "The proof does not need this step, so qrp_cmd does not judge it.\n"
    for number in range(1, 127):
        needed = str(number) in trimmed
        if number % 9 == 0 or number in (1, 11, 126):
            told, found = run(*files, number, program=program), json.loads(run("--json", *files, number, program=program).stdout)
            expect(f"step {number}: needed", found["needed"] is needed and (sentence in told.stdout) is not needed, (told, found))
    with tempfile.TemporaryDirectory() as folder:
        full = Path(folder) / "full"
        full.write_text("#!/bin/sh\necho 'NO MEMORY'\nexit 4\n")
        full.chmod(0o755)
        (Path(folder) / "f").write_bytes(b"x" * 2000000)
        (Path(folder) / "t").write_bytes(b"x" * 8000000)
        ended = run(f"{folder}/f", f"{folder}/t", program=full)
        said = "The files have 10.0 MB. In docs/BENCHMARKS.md a check took 0.7 to 2 times that: here it would be 7 to 20 MB.\n"
        expect("memory is refused: the sizes", said in ended.stdout, ended)


def try_step_names(program: Program) -> None:
    """The table of a step has the user's names."""
    box = ROOT / "examples" / "blind-box" / "blind-box"
    ended = run("--names", f"{box}.names", f"{box}.qdimacs", f"{box}.qrp", "124", program=program)
    rows = [line.split() for line in ended.stdout.splitlines() if line.startswith("  ")]
    expect(
        "a step with names",
        ["-4", "-carry_in", "for", "all", "3"] in [row[:5] for row in rows] and rows[0][:3] == ["literal", "name", "quantifier"],
        rows,
    )
    ended = run("--names", "/nonexistent", f"{box}.qdimacs", program=program)
    expect("no names", ended.returncode == 2 and "/nonexistent cannot be read" in ended.stderr, ended)


def try_pages(program: Program) -> None:
    """docs/REFUSED.md has the faults of the script, its commands print what the page says, and the conditions are those of docs/RULES.md."""
    text = (ROOT / "docs" / "REFUSED.md").read_text()
    shared = re.findall(r"^\| ((?:[SFPCQ]\d+|, )+|DEVICE|NO MEMORY|USAGE) \| (.*) \| (.*) \|$", text, re.MULTILINE)
    rows = [(fault, found, advice) for faults, found, advice in shared for fault in faults.split(", ")]
    expect("docs/REFUSED.md: the tables", sorted(rows) == sorted((fault, found, advice) for fault, _, found, advice in ROWS), rows)
    rules = (ROOT / "docs" / "RULES.md").read_text()
    for fault, condition in CONDITIONS.items():
        expect(f"docs/RULES.md: {fault}", re.search(rf"^\| {fault} \| {re.escape(condition)}(;.*)? \|$", rules, re.MULTILINE))
    sessions = [block for block in blocks(ROOT / "docs" / "REFUSED.md") if block.startswith("$ ")]
    environment = dict(os.environ, QRP_CMD=str(program), ROOT=str(ROOT))
    with tempfile.TemporaryDirectory() as folder:
        for name in "tools", "examples":
            (Path(folder) / name).symlink_to(ROOT / name)
        (Path(folder) / "bin").mkdir()
        (Path(folder) / "bin" / "qrp_cmd").symlink_to(program)
        for block in sessions:
            lines = block.rstrip().splitlines()
            commands = [line[2:] for line in lines if line.startswith("$ ")]
            page = "\n".join(line for line in lines if not line.startswith("$ "))
            words = ["bash", "-c", "\n".join(commands)]
            printed = subprocess.run(words, cwd=folder, check=False, stdout=subprocess.PIPE, stderr=subprocess.STDOUT, text=True, env=environment)
            expect("docs/REFUSED.md, a block of commands", page == printed.stdout.rstrip(), (page, printed))
    expect("docs/REFUSED.md: four blocks of commands", len(sessions) == 4, sessions)


# A formula that is false with its proof, and what users do to them: a name, the bytes of both, what is said, and what is not.
FORMULA = b"c a formula\np cnf 3 2\ne 1 2 3 0\n1 2 0\n-1 3 0\n"
GOOD = b"p cnf 1 2\ne 1 0\n1 0\n-1 0\n"
TRACE = b"p qrp 1 3\ne 1 0\n1 1 0 0\n2 -1 0 0\n3 0 1 2 0\nr unsat\n"
LONG = b"p cnf 3 2\ne 1 3 0\na 2 0\n1 2 0\n-1 -2 0\n"
LONG_STEPS = b"p qrp 3 4\n1 1 2 0 0\n2 -1 -2 0 0\n%b\n4 0 3 0\nr unsat\n"
GIVE = ["give a formula in QDIMACS", "give a trace in the text form of QRP"]
MISTAKES = [
    (
        "the solver's default options",
        GOOD,
        b"",
        ["DepQBF writes a trace only with `--trace=qrp --dep-man=simple --no-qbce-dynamic`", "docs/DEPQBF.md"],
        GIVE,
    ),
    (
        "messages before the header",
        GOOD,
        b"DM simple: init-time: 0.0\ns cnf 0\n" + TRACE,
        ["Its header is in line 3.", "take out what comes before line 3, and do not join the standard error", "`2>&1`"],
        GIVE,
    ),
    (
        "messages before the formula",
        b"reading\n" + GOOD,
        TRACE,
        ["Its header is in line 2.", "take out what comes before line 2,"],
        GIVE,
    ),
    (
        "clauses without their 0",
        b"p cnf 2 2\ne 1 2 0\n1 2\n-1 2\n",
        TRACE,
        ["The clause in line 3 does not end with 0, so the next line belongs to it too: is a 0 missing there?", "close each clause by 0"],
        [],
    ),
    ("a formula that is cut", b"p cnf 2 2\ne 1 2 0\n1 2 0\n-1 2\n", TRACE, ["What you can do:\n  give the whole file.\n"], ["is a 0 missing"]),
    (
        "line ends of an old system",
        FORMULA.replace(b"\n", b"\r"),
        TRACE,
        [f"It has no byte 10, and {FORMULA.count(10)} bytes 13 that end no line here.", "turn the line ends: `tr '\\r' '\\n' < FILE > NEW`"],
        ["give the whole file"],
    ),
    (
        "such line ends of a trace",
        GOOD,
        b"c one\r" + TRACE.replace(b"\n", b"\r"),
        ["It has no byte 10, and 7 bytes 13", "turn the line ends"],
        ["the trace was cut"],
    ),
    (
        "a trace appended to one that is cut",
        GOOD,
        TRACE[:-9] + TRACE,
        ["'0p' is not allowed", "two traces are in one file, and the first was cut", "`>>`"],
        ["messages"],
    ),
    ("a trace appended to one without its result", GOOD, TRACE[:-8] + TRACE, ["two traces are in one file"], ["messages"]),
    ("a trace appended to a part of the result", GOOD, TRACE[:-3] + TRACE, ["here it is 'unsp qrp", "two traces are in one file"], ["damaged"]),
    ("a list of clauses as trace", GOOD, b"1 2 0\n0\n", ["It looks like a list of clauses", "`--trace=qrp`"], GIVE),
    ("another alphabet", b"\xe4\xf6\xfc\n", TRACE, ["It is not a plain text.", "give the file as plain ASCII"], [*GIVE, "^"]),
    ("gzip", gzip.compress(GOOD), TRACE, ["It is compressed by gzip.\nWhat you can do:\n  unpack it, or give `<(zcat FILE)`; `"], [*GIVE, "^", "?"]),
    ("UTF-16", GOOD.decode().encode("utf-16"), TRACE, ["It is in UTF-16.\nWhat you can do:\n  write it as plain ASCII"], [*GIVE, "^", "?"]),
    ("a byte order mark", b"\xef\xbb\xbf" + GOOD, TRACE, ["It begins with a byte order mark", "take out the first three bytes"], GIVE),
    ("exchanged", TRACE, GOOD, ["Were the two files exchanged?", "give the formula first, and then the trace"], GIVE),
    ("the formula twice", GOOD, GOOD, ["was the same one given twice?", "give the solver's trace as the second file"], ["exchanged", *GIVE]),
    (
        "a formula with a trace after it",
        GOOD,
        b"c one\n" + GOOD + TRACE,
        ["whose header is in line 6.", "take out what comes before line 6:"],
        ["exchanged", *GIVE],
    ),
    (
        "a set without its 0",
        GOOD.replace(b"e 1 0", b"a 1\ne 1 0"),
        TRACE,
        ["is a 0 missing?", "close the quantifier set, or the clause, before it by 0"],
        ["take the word out", *GIVE],
    ),
    (
        "a set without its 0 before a clause",
        b"p cnf 2 1\ne 1 2\n-1 2 0\n",
        TRACE,
        ["is the 0 missing that closes the set before it?", "close the quantifier set before it by 0"],
        ["correct"],
    ),
    (
        "a quantifier in a capital letter",
        GOOD.replace(b"e", b"E"),
        TRACE,
        ["The quantifiers are small letters.", "write `a` and `e` as small letters"],
        ["take the word out"],
    ),
    (
        "DQDIMACS",
        b"p cnf 2 1\na 1 0\nd 2 1 0\n1 2 0\n",
        TRACE,
        ["Lines of this letter belong to other formats", "the formula is a DQBF, which qrp_cmd does not check"],
        ["take the word out"],
    ),
    ("a deleted clause", b"p cnf 2 2\ne 1 2 0\n1 2 0\nd 1 2 0\n", TRACE, ["take the word out, or give a formula in QDIMACS"], ["DQBF"]),
    (
        "a forgotten gate",
        LONG.replace(b"1 3 0", b"1 0", 1).replace(b"-1 -2 0", b"-1 -3 0"),
        TRACE,
        ["--close innermost FORMULA > CLOSED`", "with a forgotten gate that is another question"],
        ["keeps the meaning"],
    ),
    (
        "a 0 in the middle of a set",
        b"p cnf 2 1\ne 1 0 2 0\n1 2 0\n",
        TRACE,
        ["is that 0 one too many?", "take the 0 out that stands in the middle of the set"],
        ["--close"],
    ),
    (
        "a step without a 0",
        GOOD,
        TRACE.replace(b"2 -1 0 0", b"2 -1 0"),
        ["Line 4 has 1 zero where a step has 2: is a 0 missing?", "correct the zeros of that line"],
        ["as several"],
    ),
    (
        "a 0 in a set of the trace",
        GOOD,
        TRACE.replace(b"e 1 0", b"e 1 0 0"),
        ["Line 2 has 2 zeros where a set has 1", "correct the zeros of that line"],
        [],
    ),
    ("a set of the trace without its 0", GOOD, TRACE.replace(b"e 1 0", b"e 1"), ["is a 0 missing?", "correct the zeros of that line"], ["messages"]),
    (
        "a first step without a 0",
        GOOD,
        TRACE.replace(b"1 1 0 0", b"1 1 0"),
        ["Line 3 has 1 zero where", "correct the zeros of that line"],
        ["have the solver"],
    ),
    ("a number twice by a 0", GOOD, TRACE.replace(b"1 1 0 0", b"2 0 0 1 0"), ["zeros"], []),
    (
        "UTF-16 without a mark",
        GOOD.decode().encode("utf-16-le"),
        TRACE,
        ["It is in UTF-16, without the mark", "`iconv -f UTF-16LE -t ASCII FILE > NEW`"],
        ["DRAT", *GIVE],
    ),
    (
        "zero bytes as formula",
        b"\1\0\0\7\0\3\2\1" * 9,
        TRACE,
        ["It is not a text: it has zero bytes.", "give a formula in QDIMACS, which is plain ASCII"],
        ["DRAT"],
    ),
    (
        "constants written as literals",
        b"p cnf 2 2\ne 1 2 0\n1 2 0\n-1 0 0\n2 0\n0\n",
        TRACE,
        ["2 of them are empty, the first in line 4: is a 0 one too many there?", "take the 0 out that is one too many"],
        [],
    ),
    (
        "an empty clause that fits",
        b"p cnf 2 3\ne 1 2 0\n1 2 0\n-1 0 0\n",
        b"p qrp 0 0\n1 0 0\nr unsat\n",
        ["The formula has an empty clause, in line 4, and is false by it alone"],
        [],
    ),
    ("long-distance resolution", LONG, LONG_STEPS % b"3 2 -2 0 1 2 0", ["It does not follow: S1", "(`--long-dist-res`)"], []),
    ("a literal too many in a reduct", LONG, LONG_STEPS % b"3 1 2 3 0 1 0", ["It does not follow: S6", "weakening is not a rule here"], []),
    (
        "a pivot that stays",
        GOOD,
        b"p qrp 1 4\n1 1 0 0\n2 -1 0 0\n3 1 0 1 2 0\n4 0 3 2 0\nr unsat\n",
        ["It does not follow: S11", "the resolvent does not hold the pivot"],
        [],
    ),
    (
        "a set whose 0 stands on its own line",
        b"p cnf 2 2\ne 1\n0\na 2 0\n1 2 0\n-1 2 0\n",
        b"p qrp 2 4\n1 1 2 0 0\n2 -1 2 0 0\n3 1 0 1 0\n4 -1 0 2 0\n5 0 3 4 0\nr unsat\n",
        ["proves that the formula is false"],
        ["empty clause"],
    ),
    (
        "such a set, and a wrong number of clauses",
        b"p cnf 2 1\ne 1\n0\na 2 0 e\n 0\n1 2 0\n-1 2 0\n",
        TRACE,
        ["The text has 2.", "--mend FORMULA > MENDED"],
        ["empty", "too many"],
    ),
    (
        "not prenex",
        b"p cnf 2 2\ne 1 0\n1 0\na 2 0\n1 2 0\n",
        TRACE,
        ["so the formula is not prenex", "in prenex form: put all"],
        ["missing", "close the"],
    ),
    (
        "a third number in the header",
        b"p cnf 2 2 0\ne 1 2 0\n1 2 0\n1 0\n",
        TRACE,
        ["The header has more than two numbers", "take out what follows the two numbers"],
        ["missing"],
    ),
    ("a 0 too many in a set", b"p cnf 2 2\ne 1 0 0\na 2 0\n1 2 0\n1 0\n", TRACE, ["a 0 too many closes it", "take the 0 out"], ["missing", "prenex"]),
    ("a damaged letter", GOOD, TRACE.replace(b"2 -1 0 0", b"2 x-1 0 0"), ["the trace is damaged: have the solver write it again"], ["messages"]),
    ("a damaged sign", GOOD, TRACE.replace(b"1 1 0 0", b"1 +1 0 0"), ["the trace is damaged: have the solver write it again"], ["messages"]),
    ("a hole of the disk", GOOD, TRACE.replace(b"-1 0 0\n", bytes(7)), ["the trace is damaged: have the solver write it again"], ["messages"]),
    ("a message in a trace", GOOD, TRACE.replace(b"2 -1", b"restart\n2 -1"), ["such as messages"], ["damaged"]),
    (
        "sorted lines",
        GOOD,
        b"p qrp 1 3\n1 1 0 0\n2 -1 0 0\n3 0 1 2 0\ne 1 0\nr unsat\n",
        ["in another order", "as after `sort`"],
        ["messages", "missing"],
    ),
    (
        "lines sorted by number",
        GOOD,
        b"p qrp 1 3\ne 1 0\nr unsat\n1 1 0 0\n2 -1 0 0\n3 0 1 2 0\n",
        ["Steps come after the line `r unsat`, and are not read", "as after `sort`"],
        ["let the solver finish"],
    ),
    (
        "lines sorted by number, with sets",
        b"p cnf 2 1\ne 2 0\na 1 0\n1 2 0\n",
        b"p qrp 2 3\na 1 0\ne 2 0\nr UNSAT\n1 1 2 0 0\n",
        ["further out than 1 in block 2", "Steps come after the line `r UNSAT`, and are not read", "as after `sort`"],
        ["another one"],
    ),
    ("a time in a line", GOOD, TRACE.replace(b"2 -1", b"[0.5s] 2 -1"), ["take out what a log puts before each line"], ["damaged"]),
    ("a tar archive", GOOD, b"f.qrp".ljust(257, b"\0") + b"ustar\x0000" + bytes(200), ["It is a tar archive", "`tar xf FILE`"], ["DRAT", *GIVE]),
    (
        "a pointer of git-lfs",
        GOOD,
        b"version https://git-lfs.github.com/spec/v1\noid sha256:00\nsize 9\n",
        ["It is a pointer of git-lfs", "`git lfs pull`"],
        GIVE,
    ),
    (
        "a time before each line",
        GOOD,
        b"".join(b"[00:00:01] " + line for line in TRACE.splitlines(True)),
        ["Its header is in line 1, after something that a log puts", "take that out of each line"],
        GIVE,
    ),
    ("nothing is refused", GOOD, TRACE, ["is false", "`qrp_cmd trim`", "/proof-stats`", "/used-clauses`", "/play`"], ["nothing to explain"]),
]


# What is wrong with a formula of gates: its text, after the header if there is none; and what is said.
GATES = [
    ("of an odd version", b"#QCIR-15\nexists(a)\noutput(a)\n", ["The first line has to be '#QCIR-14'", "begin the text with `#QCIR-14`"]),
    (
        "with a gate of an odd kind",
        b"exists(a)\noutput(g)\ng = nand(a, a)\n",
        ["And, or, xor or ite is wanted.", "        ^^^^\n", "correct the line"],
    ),
    ("with a comma too many", b"exists(a, )\noutput(a)\n", ["The name of a variable is wanted.", "correct the line"]),
    ("with a name given twice", b"exists(a)\nforall(b, a)\noutput(a)\n", ["The name 'a' is given already.", "another name"]),
    (
        "with a gate before its inputs",
        b"exists(a)\noutput(g)\ng = and(a, -h)\nh = or(a)\n",
        ["No line before gives the name 'h', but line 5 does.", "put the gate before"],
    ),
    ("with a gate that is its own input", b"exists(a)\noutput(g)\ng = and(g)\n", ["the name 'g', but line 4 does.", "put the gate before"]),
    ("with a variable that is nowhere", b"exists(a)\noutput(g)\ng = and(a, b)\n", ["No line gives the name 'b'.", "bind the variable"]),
    ("with an output that is nowhere", b"exists(a)\noutput(g)\n", ["The text ends, and no line gives the output 'g'.", "define the gate"]),
    ("with free variables", b"free(a)\noutput(a)\n", ["Free variables: a closed formula has none.", "bind them in a set"]),
    ("with a gate that has a quantifier", b"exists(a)\noutput(g)\ng = exists(b; a)\n", ["has to be prenex", "write the formula in prenex form"]),
    ("with a choice of two", b"exists(a)\noutput(g)\ng = ite(a, a)\n", ["Ite has 3 inputs, and here it has 2.", "give `xor` two inputs"]),
    ("without an output", b"exists(a)\n", ["The text ends, and no line 'output(..)' was there.", "give the whole file"]),
]


def gates_of_mistakes() -> Iterator[Any]:
    """The same as mistakes, if there is the program for them."""
    for name, text, said in GATES if Path(os.environ["QRP_CMD"]).with_name("qrp_gates").is_file() else []:
        yield f"a formula of gates {name}", text if text.startswith(b"#") else b"#QCIR-14\n" + text, TRACE, said, ["Traceback"]


def try_mistakes(module: ModuleType) -> None:
    """What a user does wrong is said, and what is said is of use."""
    with tempfile.TemporaryDirectory() as folder:
        files = Path(folder) / "formula", Path(folder) / "trace"
        for name, formula, trace, said, unsaid in [*MISTAKES, *gates_of_mistakes()]:
            files[0].write_bytes(formula)
            files[1].write_bytes(trace)
            status, out, err = explained(module, *files)
            expect(f"mistake: {name}", status == 0 and not err and all(text in out for text in said), (out, said))
            expect(f"mistake: {name}: no more than that", not any(text in out for text in unsaid), (out, unsaid))


def try_names(program: Program) -> None:
    """What is advised is written as the command is called: from the sources, by a whole path, installed, and by a link."""
    free = b"p cnf 1 1\n1 0\n"
    with tempfile.TemporaryDirectory() as name:
        folder = Path(name)
        (folder / "free").write_bytes(free)
        (folder / "bin").mkdir()
        (folder / "tools").symlink_to(EXPLAIN.parent)
        for tool in "explain", "used-clauses":
            (folder / "bin" / f"qrp-{tool}").symlink_to(f"../tools/{tool}")
        (folder / "bin" / "why").symlink_to("../tools/explain")
        environment = dict(os.environ, QRP_CMD=str(program), PATH=f"{folder}/bin:{os.environ['PATH']}")

        def ask(*words: str) -> Ended:
            return subprocess.run(words, cwd=folder, capture_output=True, text=True, env=environment, check=False)

        for words, wanted in (
            (["tools/explain"], "tools/explain"),
            (["./tools/explain"], "./tools/explain"),
            (["qrp-explain"], "qrp-explain"),
            ([f"{folder}/bin/qrp-explain"], "qrp-explain"),
            (["bin/qrp-explain"], "bin/qrp-explain"),
        ):
            expect(f"{words}: the advice", f"`{wanted} --close FORMULA > CLOSED`" in ask(*words, "free").stdout, ask(*words, "free"))
            expect(f"{words}: the usage", f"\n    {wanted} --close FORMULA  " in ask(*words, "--help").stdout, ask(*words, "--help"))
            expect(
                f"{words}: the message",
                ask(*words, "--close", "none").stderr.startswith(f"{wanted}: none cannot be read"),
                ask(*words, "--close", "none"),
            )
        for words, wanted in (["qrp-used-clauses"], "'qrp-explain FORMULA TRACE' says why"), (
            ["tools/used-clauses"],
            "'tools/explain FORMULA TRACE' says why",
        ):
            expect(f"{words}: another tool", wanted in ask(*words, "free", "free").stderr, ask(*words, "free", "free"))
        (folder / "bad").write_bytes(b"p cnf 1 1\ne 2 0\n1 0\n")
        ended = ask("qrp-explain", "--close", "bad")
        expect(
            "--close of a fault",
            (ended.returncode, ended.stderr) == (1, "qrp-explain: the formula has F4 in line 2: 'qrp-explain FORMULA' says why\n"),
            ended,
        )


def main() -> int:
    program, rows, unreadable = sys.argv[1:]
    for row in Path(unreadable).read_text().splitlines():
        expect(row, False)
    os.environ["QRP_CMD"] = program
    module = load()
    topics = note_topics()
    folder = ROOT / "tests" / "traces"
    try_rows(module, Path(rows).read_text().splitlines())
    try_damages(module, program, [(folder / "kbkf2.qdimacs", folder / "kbkf2.trad.qrp"), (folder / "adder1.qdimacs", folder / "adder1.lazy.qrp")])
    try_mistakes(module)
    try_devices(program, module)
    if not list(gates_of_mistakes()):
        skip("what is wrong with formulas of gates", "there is no qrp_gates beside qrp_cmd")
    wanted = {topic for topic in ADVICE if topic[0][0] != "Q" or list(gates_of_mistakes())}
    expect("each advice is given", topics == wanted, wanted ^ topics)
    try_names(program)
    try_disagreement(program)
    try_words(program)
    try_closing(program)
    try_innermost(program)
    try_mending(program)
    try_needed(program)
    try_step_names(program)
    try_pages(program)
    return finish(6283)


if __name__ == "__main__":
    sys.exit(main())
