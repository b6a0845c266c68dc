"""Tests tools/solve, and what BenchExec makes of it. usage: tests/tools/test_solve.py PROGRAM ..; tests/tools/test-tools calls it.

The solver is a script that gives the stored traces; its name says what it does wrong. If depqbf is there, it is tried too.
"""

import os
import shutil
import signal
import subprocess
import sys
import tempfile
import time
import types
from collections.abc import Callable, Sequence
from pathlib import Path
from types import ModuleType
from typing import Any, Union

ROOT = Path(__file__).resolve().parents[2]
sys.path[:0] = [str(ROOT / "tests"), str(ROOT / "tools")]
sys.dont_write_bytecode = True
from expect import expect, finish, skip  # noqa: E402

Ended = subprocess.CompletedProcess[Any]
Program = Union[str, Path]

SOLVE = ROOT / "tools" / "solve"
TRACES = ROOT / "tests" / "traces"
FALSE, TRUE = TRACES / "kbkf3.qdimacs", TRACES / "adder2.qdimacs"
ROBOT, BOX, MATCHES = (ROOT / "examples" / name / f"{name}.qdimacs" for name in ("blind-robot", "blind-box", "eight-matches"))
SOLVER = """#!/bin/sh
for formula; do :; done
mode=lazy
for word; do [ "$word" != --traditional-qcdcl ] || mode=trad; done
trace=${formula%.qdimacs}.$mode.qrp
[ -f "$trace" ] || trace=${formula%.qdimacs}.qrp
case $0 in
*slow) echo $$ >"${0%/*}/pid"; exec sleep 60 ;;
*silent) exit 0 ;;
*broken) echo 'it is broken' >&2; exit 134 ;;
*killed) kill -9 $$ ;;
*aborted) ulimit -c 0; kill -6 $$ ;;
*wrapper) "${0%/*}/slow" "$@"; exit $? ;;
*told) echo "$@" >"${0%/*}/words" ;;
*cut) head -n 3 "$trace"; exit 20 ;;
esac
cat "$trace"
case $(tail -n 1 "$trace") in 'r SAT'*) status=10 ;; *) status=20 ;; esac
case $0 in *liar) status=$((30 - status)) ;; esac
exit $status
"""


class Use:
    """Uses of the tool with a folder for its temporary files."""

    def __init__(self, folder: Any, program: Program) -> None:
        self.folder, self.temporary = Path(folder), Path(folder) / "temporary"
        self.temporary.mkdir()
        self.environment = dict(os.environ, QRP_CMD=str(program), TMPDIR=str(self.temporary), PYTHONDONTWRITEBYTECODE="1")
        self.environment.pop("PYTHONPATH", None)
        for name in "depqbf", "slow", "silent", "broken", "killed", "cut", "liar", "aborted", "wrapper", "told":
            path = self.folder / name
            path.write_text(SOLVER)
            path.chmod(0o755)

    def words(self, solver: str, *words: object) -> list[str]:
        return [sys.executable, str(SOLVE), "--solver", str(self.folder / solver), *map(str, words)]

    def run(self, words: Sequence[Any], **options: Any) -> Ended:
        options = {"env": self.environment, **options}
        return subprocess.run(words, capture_output=True, text=True, check=False, timeout=60, **options)

    def expect(self, name: str, ended: Ended, status: int, out: str, said: str = "") -> None:
        """Expects a status, the output and words on the standard error; no traceback, and no temporary file."""
        holds = ended.returncode == status and ended.stdout == out and said in ended.stderr and "Traceback" not in ended.stderr
        expect(f"solve, {name}", holds and bool(ended.stderr) == bool(said), (status, out, said, ended))
        left = list(self.temporary.iterdir())
        expect(f"solve, {name}: nothing is left", not left, left)


def try_answers(use: Use) -> None:
    false, true = "s cnf 0 12 13\n", "s cnf 1 9 33\n"
    mode: Any
    for mode in [], ["--mode", "traditional"], ["--mode=lazy"]:
        use.expect(f"false {mode}", use.run(use.words("depqbf", *mode, FALSE)), 20, false)
        use.expect(f"true {mode}", use.run(use.words("depqbf", *mode, TRUE)), 10, true)
    none = "s cnf -1 12 13\n"
    for solver, status, said in (
        ("liar", 1, "the solver answers true, and qrp_cmd says VERIFIED false of its proof"),
        ("silent", 0, "the solver has no answer, but status 0"),
        ("aborted", 1, "the solver has no answer, but was ended by signal 6 (SIGABRT)"),
        ("broken", 1, "the solver has no answer, but status 134: it is broken"),
        ("killed", 1, "the solver has no answer, but was ended by signal 9 (SIGKILL), which the system sends if it is out of memory"),
        ("cut", 1, "the solver answers false, and qrp_cmd says REFUSED trace P7 line 4 of its proof"),
        ("none", 2, "cannot be run (No such file or directory): install it"),
    ):
        use.expect(solver, use.run(use.words(solver, FALSE)), status, none, said)
    use.expect("a time", use.run(use.words("slow", "--timeout", "0.5", FALSE)), 0, none, "the solver was given up after 0.5 seconds")
    pid = int((use.folder / "pid").read_text())
    expect("solve, a time: the solver has ended", not runs(pid), pid)
    use.expect("not in the way", use.run(use.words("depqbf", "--timeout", "50", FALSE)), 20, false)


def try_moves(use: Use) -> None:
    """--play adds the first move, which has to be verified."""
    plan = "".join(f"V {literal} 0\n" for literal in (1, -2, -3, 4, 5, -6, 7, -8, -9, -10, -11, -12))
    use.expect("the winner's block", use.run(use.words("depqbf", "--play", ROBOT)), 10, "s cnf 1 71 217\n" + plan)
    use.expect("the winner's block, false", use.run(use.words("depqbf", "--play", BOX)), 20, "s cnf 0 28 80\nV -1 0\nV 2 0\n")
    ended = use.run(use.words("depqbf", "--play", MATCHES))
    advice = f"c give the values by --reply, or keep the proof by --keep TRACE and go on by '{ROOT}/tools/play FORMULA TRACE'\n"
    use.expect("the other player's block", ended, 20, f"s cnf 0 46 76\nc block 1 (existential) is the other player's: 1 2\n{advice}")
    game = (
        "s cnf 0 46 76\nc block 1 (existential), the other player: -1 -2\nV 3 0\nV -4 0\nc block 3 (existential) is the other player's: 5 6\n"
        + advice
    )
    use.expect("the game goes on", use.run(use.words("depqbf", "--play", "--reply", "-1 -2", MATCHES)), 20, game)
    names = MATCHES.with_suffix(".names")
    ended = use.run(use.words("depqbf", "--play", "--names", names, "--reply", "-three1 -two1", MATCHES))
    named = game.replace("-1 -2", "-three1 -two1").replace("5 6", "three3 two3")
    move = "c block 2 (universal), by the proof: three2 -two2\nc left open by the proof: two2\nV 3 0\n"
    use.expect("the game by names", ended, 20, named.replace("V 3 0\n", move))
    ended = use.run(use.words("depqbf", "--play", "--reply", "box", "--names", BOX.with_suffix(".names"), BOX))
    end = "c block 4 (existential), the other player: 22 gates as defined\nc no variable is left, and the matrix does not hold: the universal player has won\nc clause "
    expect("solve, the game to its end", ended.returncode == 20 and end in ended.stdout and not ended.stderr, ended)
    wrong = use.run(use.words("depqbf", "--play", "--reply", "1 x", MATCHES))
    use.expect("a wrong reply", wrong, 2, "s cnf -1 46 76\n", "'x' is not a literal of block 1")
    use.expect("a reply without --play", use.run(use.words("depqbf", "--reply", "1", MATCHES)), 2, "", "--reply, --random and --names go with --play")
    program = use.folder / "program"
    program.write_text('#!/bin/sh\ncase $3 in */state1.qrp) echo REFUSED step 1 S4; exit 1 ;; esac\nexec "$REAL" "$@"\n')
    program.chmod(0o755)
    environment = dict(use.environment, QRP_CMD=str(program), REAL=use.environment["QRP_CMD"])
    ended = use.run(use.words("depqbf", "--play", ROBOT), env=environment)
    holds = (ended.returncode, ended.stdout) == (3, "s cnf -1 71 217\n") and "this is a fault of this tool" in ended.stderr
    expect("solve, a move that is not verified", holds and list(use.temporary.glob("*/state1.qrp")), ended)
    shutil.rmtree(use.temporary)
    use.temporary.mkdir()


def try_files(use: Use) -> None:
    kept = use.folder / "kept.qrp"
    use.expect("a proof that is kept", use.run(use.words("depqbf", "--keep", kept, FALSE)), 20, "s cnf 0 12 13\n")
    expect("solve, the kept proof", kept.read_bytes() == (TRACES / "kbkf3.trad.qrp").read_bytes())
    ended = use.run(use.words("depqbf", "--keep", use.folder / "none" / "x", FALSE))
    try_keeping(use, kept)
    use.expect("a proof that cannot be kept", ended, 2, "s cnf -1 12 13\n", "none/x cannot be written: No such file or directory")
    use.expect(
        "a device",
        use.run(use.words("depqbf", "--keep", "/dev/full", FALSE)),
        2,
        "s cnf -1 12 13\n",
        "/dev/full is not a file: the proof is not kept there",
    )
    missing = use.folder / "none.qdimacs"
    use.expect("no file", use.run(use.words("depqbf", missing)), 2, "", f"{missing} cannot be read: No such file or directory")
    use.expect("a folder", use.run(use.words("depqbf", use.folder)), 2, "", f"{use.folder} cannot be read: Is a directory")
    formula = use.folder / "formula"
    formula.write_text("p cnf 2 1\ne 1 0\n1 2 0\n")
    use.expect(
        "a free variable", use.run(use.words("depqbf", formula)), 1, "s cnf -1 2 1\n", "qrp_cmd refuses the formula: REFUSED formula F6 line 3; "
    )
    formula.write_text("no formula\n")
    use.expect("no formula", use.run(use.words("depqbf", formula)), 1, "", "REFUSED formula F2 line 1")
    piped = use.run(["bash", "-c", f'"$@" <(cat {FALSE})', "bash", *use.words("silent")])
    use.expect("a pipe", piped, 0, "s cnf -1 12 13\n", "no answer")


def try_keeping(use: Use, kept: Path) -> None:
    """The file that is kept is the formula in no case, and an older proof stays if there is no new one."""
    formula = use.folder / "own.qdimacs"
    formula.write_bytes(FALSE.read_bytes())
    (use.folder / "link.qrp").symlink_to(formula)
    for name in formula, use.folder / "link.qrp":
        ended = use.run(use.words("depqbf", "--keep", name, formula))
        use.expect(f"the formula as proof, {name.name}", ended, 2, "s cnf -1 12 13\n", f"{name} is the formula: name another file for the proof")
        expect("solve, the formula as proof: it stays", formula.read_bytes() == FALSE.read_bytes())
    before = kept.read_bytes()
    words: Any
    for solver, words, status in ("slow", ["--timeout", "0.5"], 0), ("silent", [], 0), ("broken", [], 1), ("none", [], 2):
        ended = use.run(use.words(solver, *words, "--keep", kept, FALSE))
        expect(f"solve, {solver}: the older proof stays", ended.returncode == status and kept.read_bytes() == before, ended)
    ended = use.run(use.words("cut", "--keep", kept, FALSE))
    expect("solve, a proof that is refused is kept", ended.returncode == 1 and kept.read_bytes() == b"".join(before.splitlines(True)[:3]), ended)
    expect("solve, nothing is left beside it", not list(use.folder.glob("*.new")), list(use.folder.iterdir()))
    (use.folder / "to_be.qrp").touch()
    (use.folder / "leads.qrp").symlink_to("to_be.qrp")
    use.run(use.words("depqbf", "--keep", use.folder / "leads.qrp", FALSE))
    expect("solve, a link leads to the proof", (use.folder / "leads.qrp").is_symlink() and (use.folder / "to_be.qrp").read_bytes() == before)
    (use.folder / "-f.qdimacs").write_bytes(FALSE.read_bytes())
    use.run(use.words("told", "--solver-option=-v", "--solver-option", "--max-dec=3", "--", "-f.qdimacs"), cwd=use.folder)
    told = (use.folder / "words").read_text()
    expect(
        "solve, options of the solver, and a formula that looks like one", told.endswith("--traditional-qcdcl -v --max-dec=3 ./-f.qdimacs\n"), told
    )


def try_status(use: Use) -> None:
    """The program's line with another status is no verdict."""
    program = use.folder / "odd"
    program.write_text('#!/bin/sh\n[ "$1" = format ] && exit 0\necho VERIFIED false\nexit 1\n')
    program.chmod(0o755)
    ended = use.run(use.words("depqbf", FALSE), env=dict(use.environment, QRP_CMD=str(program)))
    said = "the solver answers false, and qrp_cmd says VERIFIED false of its proof, with status 1"
    use.expect("VERIFIED with another status", ended, 1, "s cnf -1 12 13\n", said)


def try_wrapped(use: Use) -> None:
    """A solver that a script starts ends with the tool, after a time and a signal."""
    pid = use.folder / "pid"
    ended = use.run(use.words("wrapper", "--timeout", "1", FALSE))
    use.expect("a wrapper and a time", ended, 0, "s cnf -1 12 13\n", "the solver was given up after 1 seconds")
    expect("solve, a wrapper and a time: the solver has ended", wait_until(lambda: not runs(int(pid.read_text()))))
    for solver, number in ("wrapper", signal.SIGTERM), ("slow", signal.SIGKILL):
        pid.unlink(missing_ok=True)
        with subprocess.Popen(use.words(solver, FALSE), stdout=subprocess.PIPE, stderr=subprocess.PIPE, text=True, env=use.environment) as process:
            ready = wait_until(lambda: pid.exists() and pid.read_text())
            process.send_signal(number)
            process.communicate(timeout=50)
        expect(f"solve, {solver} and {number.name}: the solver has ended", ready and wait_until(lambda: not runs(int(pid.read_text()))))
    shutil.rmtree(use.temporary)  # of SIGKILL
    use.temporary.mkdir()


def wait_until(condition: Callable[[], object]) -> object:
    """Whether this holds within half a minute."""
    until = time.monotonic() + 30
    while not condition() and time.monotonic() < until:
        time.sleep(0.02)
    return condition()


def try_full_folder(use: Use) -> None:
    """A folder for temporary files that is full. It needs a file system of its own, which a user may make in a name space of its own."""
    make = ["unshare", "--user", "--map-root-user", "--mount", "bash", "-c", 'mount -t tmpfs -o size=16k none "$TMPDIR" && exec "$@"', "bash"]
    if not shutil.which("unshare") or subprocess.run([*make, "true"], env=use.environment, check=False, capture_output=True).returncode:
        skip("solve with a full TMPDIR", "no file system can be mounted here")
        return
    ended = use.run([*make, *use.words("depqbf", TRACES / "kbkf6.qdimacs")])
    use.expect("a full TMPDIR", ended, 2, "s cnf -1 24 25\n", "the proof cannot be written to ")


def try_words(use: Use) -> None:
    words: Any
    for words in (
        [],
        ["--mode", "other", FALSE],
        ["--timeout", "-1", FALSE],
        ["--timeout", "inf", FALSE],
        ["--timeout", "x", FALSE],
        [FALSE, TRUE],
        ["--other", FALSE],
    ):
        ended = use.run(use.words("depqbf", *words))
        use.expect(f"usage {words}", ended, 2, "", "usage: ")
    for word in "0", "-1", "x", "nan", "1e9":
        ended = use.run(use.words("depqbf", f"--timeout={word}", FALSE))
        use.expect(f"the seconds {word}", ended, 2, "", f"argument --timeout: '{word}' is not a number of seconds above 0")
    ended = use.run(use.words("depqbf", "--help"))
    said = ["Exit status: 10 if", "20 if", "0 if", "2 if", "the output cannot be written; 130, 143 after an interrupt and after SIGTERM"]
    text: Any = " ".join(ended.stdout.split())
    expect("solve --help", ended.returncode == 0 and all(word in text for word in said), ended)
    for redirection, status, reason in (">&-", 2, "it is closed"), (">/dev/full", 2, "No space left on device"), ("<&- >/dev/null", 20, ""):
        ended = use.run(["bash", "-c", f'"$@" {redirection}', "bash", *use.words("depqbf", FALSE)])
        use.expect(redirection, ended, status, "", reason)
    for name, text in ("killed", "#!/bin/sh\nkill -KILL $$\n"), ("no program", None):
        program = use.folder / "other"
        program.unlink(missing_ok=True)
        if text:
            program.write_text(text)
            program.chmod(0o755)
        ended = use.run(use.words("depqbf", FALSE), env=dict(use.environment, QRP_CMD=str(program)))
        use.expect(f"the program: {name}", ended, 2, "s cnf -1 12 13\n", "SIGKILL" if text else "cannot be run")


def runs(pid: int) -> bool:
    """Whether a process runs; one that has ended and was not waited for does not."""
    try:
        return Path(f"/proc/{pid}/stat").read_text().rpartition(")")[2].split()[0] != "Z"
    except OSError:
        return False


def try_signals(use: Use) -> None:
    """A signal while the solver runs ends both without a word."""
    for number in signal.SIGINT, signal.SIGTERM, signal.SIGHUP:
        pid = use.folder / "pid"
        pid.unlink(missing_ok=True)
        with subprocess.Popen(use.words("slow", FALSE), stdout=subprocess.PIPE, stderr=subprocess.PIPE, text=True, env=use.environment) as process:
            waited = time.monotonic() + 30
            while not (pid.exists() and pid.read_text()) and time.monotonic() < waited:
                time.sleep(0.02)
            process.send_signal(number)
            out, said = process.communicate(timeout=50)
        use.expect(number.name, subprocess.CompletedProcess([], process.returncode, out, said), 128 + number, "")
        solver = int(pid.read_text())
        while runs(solver) and time.monotonic() < waited + 10:
            time.sleep(0.02)
        expect(f"solve, {number.name}: the solver has ended", not runs(solver), solver)


def try_depqbf(use: Use) -> None:
    """The solver itself."""
    if not shutil.which("depqbf"):
        skip("solve with the solver", "there is no depqbf")
        return
    for mode in "traditional", "lazy":
        for formula, status, line in (FALSE, 20, "s cnf 0 12 13\n"), (TRUE, 10, "s cnf 1 9 33\n"), (MATCHES, 20, "s cnf 0 46 76\n"):
            ended = use.run([sys.executable, str(SOLVE), "--mode", mode, str(formula)])
            use.expect(f"depqbf, {mode}, {formula.name}", ended, status, line)
    ended = use.run([sys.executable, str(SOLVE), "--play", str(BOX)])
    use.expect("depqbf, --play", ended, 20, "s cnf 0 28 80\nV -1 0\nV 2 0\n")


def try_benchexec(use: Use) -> None:
    """The module for BenchExec over a stand-in for it: the answer is that of the first line, and only with its status."""
    result: Any = types.ModuleType("benchexec.result")
    result.RESULT_TRUE_PROP, result.RESULT_FALSE_PROP, result.RESULT_UNKNOWN, result.RESULT_ERROR = "true", "false", "unknown", "ERROR"
    template: Any = types.ModuleType("benchexec.tools.template")
    template.BaseTool2 = object
    expected = (ROOT / "VERSION").read_text().strip()
    package: Any = types.ModuleType("benchexec")
    tools: Any = types.ModuleType("benchexec.tools")
    package.result, package.tools, tools.template = result, tools, template
    sys.modules.update({"benchexec": package, "benchexec.result": result, "benchexec.tools": tools, "benchexec.tools.template": template})
    from qrptools.benchexec_solve import Tool  # noqa: PLC0415

    tool = Tool()
    command = tool.cmdline(str(SOLVE), ["--mode", "lazy"], types.SimpleNamespace(single_input_file=str(FALSE)), None)
    expect("BenchExec, the command", command == [str(SOLVE), "--mode", "lazy", str(FALSE)], command)
    expect("BenchExec, the version", tool.version("") == expected, tool.version(""))
    for there, wanted in ({"tools/solve": "x/tools/solve"}, "x/tools/solve"), ({"bin/qrp-solve": "/usr/bin/qrp-solve"}, "/usr/bin/qrp-solve"):
        found = tool.executable(types.SimpleNamespace(find_executable=lambda name, subdir="", there=there: there[f"{subdir}/{name}"]))
        expect(f"BenchExec, the tool is {wanted}", found == wanted, found)
    try_benchexec_check(expected)
    for output, status, wanted in (
        (["s cnf 1 9 33\n"], 10, "true"),
        (["s cnf 0 12 13\n", "V -1 0\n"], 20, "false"),
        (["s cnf -1 12 13\n"], 0, "unknown"),
        (["s cnf -1 12 13\n"], 1, "unknown"),
        (["s cnf 1 9 33\n"], 20, "ERROR"),
        (["s cnf 1 9 33\n"], 0, "ERROR"),
        (["hello\n"], 0, "ERROR"),
        ([], 2, "ERROR"),
    ):
        run = types.SimpleNamespace(output=output, exit_code=types.SimpleNamespace(value=status))
        expect(f"BenchExec, {output} {status}", tool.determine_result(run) == wanted, tool.determine_result(run))


def try_benchexec_check(expected: Any) -> None:
    """The module for 'qrp_cmd check': a verdict is that of the line, and only with its status."""
    from qrptools.benchexec_check import Tool  # noqa: PLC0415

    tool = Tool()
    command = tool.cmdline("qrp_cmd", ["--qu"], types.SimpleNamespace(input_files=["f", "t"]), None)
    expect("BenchExec, the command of a check", command == ["qrp_cmd", "check", "--qu", "f", "t"] and tool.version("") == expected, command)
    for output, status, wanted in (
        (["VERIFIED true\n"], 0, "true"),
        (["VERIFIED false\n"], 0, "false"),
        (["VERIFIED true\n"], 1, "ERROR"),
        (["REFUSED step 5 S8\n"], 1, "unknown"),
        (["REFUSED trace P7 line 9\n"], 2, "unknown"),
        (["REFUSED step 5 S8\n"], 0, "ERROR"),
        (["DEVICE trace\n"], 3, "ERROR"),
        (["NO MEMORY\n"], 4, "ERROR"),
        ([], 0, "ERROR"),
    ):
        run = types.SimpleNamespace(output=output, exit_code=types.SimpleNamespace(value=status))
        expect(f"BenchExec, a check, {output} {status}", tool.determine_result(run) == wanted, tool.determine_result(run))


def main() -> int:
    signal.signal(signal.SIGINT, signal.default_int_handler)  # a run in the background ignores interrupts, and so would all that it starts
    for part in try_answers, try_moves, try_files, try_status, try_wrapped, try_full_folder, try_words, try_signals, try_depqbf, try_benchexec:
        with tempfile.TemporaryDirectory() as folder:
            part(Use(folder, os.path.abspath(sys.argv[1])))
    return finish(167)


if __name__ == "__main__":
    sys.exit(main())
