"""Uses each tool in wrong ways. usage: tests/tools/test_wrong_use.py PROGRAM ..; tests/tools/test-tools calls it.

Each of them has to end with the status that its --help says, with a line on the standard error, without a traceback, and with no file and
no process left behind. TOOLS says of each tool how it is used; the rest is tried on all of them.
"""

import ast
import contextlib
import os
import resource
import shutil
import signal
import socket
import subprocess
import sys
import tempfile
import time
from collections import namedtuple
from collections.abc import Callable, Iterator, Sequence
from pathlib import Path
from types import SimpleNamespace
from typing import Any, Optional, Union

ROOT = Path(__file__).resolve().parents[2]
sys.path[:0] = [str(ROOT / "tests")]
sys.dont_write_bytecode = True
from expect import expect, finish, skip  # noqa: E402

Ended = subprocess.CompletedProcess[Any]
Program = Union[str, Path]

FORMULA, TRACE = ROOT / "examples" / "two_clauses.qdimacs", ROOT / "examples" / "two_clauses.qrp"
REFUSED = "p qrp 0 0\nr unsat\n"  # by C4

CIRCUIT = "aag 3 2 0 1 1\n2\n4\n6\n6 4 2\n"
STRATEGY = "aag 1 1 0 1 0\n2\n0\ni0 1\no0 2\n"  # of FORMULA

PLAIN, PROOF = "p cnf 1 2\ne 1 0\n1 0\n-1 0\n", "0\n"  # a formula without universal variables, and its refutation

# A tool: its words after the name, in which FORMULA, TRACE, LIST, CIRCUIT, STRATEGY, SOLVER and PROOF are files; the statuses of a file that cannot be read, of
# a refused proof, and of the formula in the place of the trace; whether it runs the program, and keeps pipes; the status of right use, that
# of a wrong command line, and that of an output that cannot be written.
Tool = namedtuple("Tool", "name words unread refused mistaken runs keeps right usage output", defaults=[0, 2, 2])
TOOLS = [
    Tool("explain", ["FORMULA", "TRACE"], 0, 0, 0, True, True),
    Tool("explain", ["FORMULA", "TRACE", "1"], 2, 0, 1, False, True),
    Tool("explain", ["--json", "FORMULA", "TRACE"], 0, 0, 0, True, True),
    Tool("explain", ["--close", "FORMULA"], 2, None, None, False, True),
    Tool("draw-proof", ["FORMULA", "TRACE"], 2, 1, 1, False, False),
    Tool("used-clauses", ["FORMULA", "TRACE"], 2, 1, 1, True, True),
    Tool("used-clauses", ["--lines", "FORMULA", "TRACE"], 2, 1, 1, True, True),
    Tool("proof-stats", ["FORMULA", "TRACE"], 2, 1, 1, True, True),
    Tool("proof-stats", ["--json", "FORMULA", "TRACE"], 2, 1, 1, True, True),
    Tool("play", ["FORMULA", "TRACE"], 2, 1, 1, True, True),
    Tool("play", ["--json", "--random", "1", "FORMULA", "TRACE"], 2, 1, 1, True, True),
    Tool("solve", ["--solver", "SOLVER", "FORMULA"], 2, None, None, True, False, 20),
    Tool("check", ["FORMULA", "TRACE"], 3, 1, 2, True, False, 0, 5, 3),
    Tool("check", ["--json", "FORMULA", "TRACE"], 3, 1, 2, True, False, 0, 5, 3),
    Tool("from-aiger", ["CIRCUIT"], 2, None, None, False, False),
    Tool("explain-strategy", ["FORMULA", "TRACE"], 2, 1, 1, True, True),
    Tool("explain-strategy", ["--circuit", "STRATEGY", "FORMULA"], 2, None, None, False, True),
    Tool("drat-to-qrp", ["FORMULA", "PROOF"], 2, None, None, False, True),
    Tool("check-many", ["LIST"], 2, 1, 1, True, False),
    Tool("check-many", ["--json", "LIST"], 2, 1, 1, True, False),
]


class Trial:
    """One use of a tool in a folder of its own, where its temporary files are too."""

    def __init__(self, tool: Tool, program: Program, folder: Path) -> None:
        self.tool, self.program, self.folder = tool, program, Path(folder)
        self.temporary = self.folder / "temporary"
        self.temporary.mkdir()
        self.environment = dict(os.environ, TMPDIR=str(self.temporary), PYTHONDONTWRITEBYTECODE="1")
        self.take(program)

    def take(self, program: Program) -> None:
        """Has the tool run this program: in place of both, unless it is the one that is tested."""
        self.environment.update(QRP_CMD=str(program), QRP_STRATEGY=str(program))
        if program == self.program:
            del self.environment["QRP_STRATEGY"]  # which is beside it

    def words(self, formula: Any = FORMULA, trace: Any = TRACE, rows: Optional[Path] = None) -> list[str]:
        """The command line, with these files. A circuit stands in the place of the formula."""
        if "LIST" in self.tool.words and rows is None:
            rows = self.folder / "list"
            rows.write_text(f"name\t{formula}\t{trace}\n")
        circuit = self.write("circuit", CIRCUIT) if formula == FORMULA else formula
        if "PROOF" in self.tool.words and formula == FORMULA:
            formula = self.write("plain", PLAIN)
        files = {
            "FORMULA": formula,
            "CIRCUIT": circuit,
            "TRACE": trace,
            "LIST": rows,
            "SOLVER": self.solver(),
            "STRATEGY": self.write("strategy", STRATEGY),
            "PROOF": self.write("proof", PROOF),
        }
        return [sys.executable, str(ROOT / "tools" / self.tool.name), *(str(files.get(word, word)) for word in self.tool.words)]

    def write(self, name: str, text: str) -> Path:
        path = self.folder / name
        path.write_text(text)
        return path

    def solver(self) -> Path:
        """A solver that writes the proof of the formula."""
        path = self.folder / "solver"
        if not path.exists():
            path.write_text(f"#!/bin/sh\ncat '{TRACE}'\nexit 20\n")
            path.chmod(0o755)
        return path

    def run(self, words: Sequence[Any], **options: Any) -> Ended:
        """What it ends with, without what a list left for the next use."""
        options = {"stdout": subprocess.PIPE, "stderr": subprocess.PIPE, **options}
        ended = subprocess.run(words, env=self.environment, check=False, text=True, timeout=60, **options)
        for log in self.folder.glob("list*.log"):
            log.unlink()
        return ended

    def in_shell(self, redirection: str) -> Ended:
        """The right command line with a redirection of the shell."""
        return self.run(["bash", "-c", f'"$@" {redirection}', "bash", *self.words()])

    def expect(self, name: str, ended: Ended, status: int, said: Sequence[str] = ()) -> None:
        """Expects a status and words on the standard error, no traceback, and no temporary file."""
        err = ended.stderr or ""
        holds = ended.returncode == status and all(word in err for word in said) and "Traceback" not in err and "Exception" not in err
        expect(f"{self.tool.name} {self.tool.words}: {name}", holds, (status, said, ended))
        left = list(self.temporary.iterdir())
        expect(f"{self.tool.name} {self.tool.words}: {name}: nothing is left", not left, left)


def own(trial: Trial) -> str:
    """How a message of the tool begins."""
    return f"{trial.words()[1]}: "


def try_arguments(trial: Trial) -> None:
    words = trial.words()
    for name, wrong in ("no argument", words[:2]), ("a wrong option", [*words, "--other"]), ("one file too many", [*words, "1", "2", "3"]):
        ended = trial.run(wrong)
        trial.expect(name, ended, trial.tool.usage, ["usage: ", own(trial) + "error: "])
        expect(f"{trial.tool.name}: {name}: no output", not ended.stdout, ended)
    ended = trial.run([*words[:2], "--help"])
    trial.expect("--help", ended, 0)
    said = ["usage: " + words[1], "Exit status: 0 if", "2 if", "the output cannot be written", "130, 143 after an interrupt and after SIGTERM"]
    text = " ".join(ended.stdout.split())
    expect(f"{trial.tool.name}: --help has the statuses", all(word in text for word in said) and not ended.stderr, ended)

    version = (ROOT / "VERSION").read_text().strip() if (ROOT / "VERSION").exists() else None
    ended = trial.run([*words[:2], "--version"])
    trial.expect("--version", ended, 0)
    expect(f"{trial.tool.name}: --version", ended.stdout.startswith(f"{words[1]} of qrp_cmd {version or ''}") and not ended.stderr, ended)


def unreadable(folder: Path) -> list[tuple[str, Path, str]]:
    """Names of files that cannot be opened or read, with the reason."""
    (folder / "loop").symlink_to(folder / "loop")
    with socket.socket(socket.AF_UNIX) as bound:
        bound.bind(str(folder / "socket"))
    (folder / "locked").touch(mode=0)
    # root may read it
    locked = [] if os.access(folder / "locked", os.R_OK) else [("a file that may not be read", folder / "locked", "Permission denied")]
    return [
        *locked,
        ("a missing file", folder / "none", "No such file or directory"),
        ("a folder", folder, "Is a directory"),
        ("a link to itself", folder / "loop", "Too many levels of symbolic links"),
        ("a name too long", folder / ("n" * 300), "File name too long"),
        ("a file in a file", FORMULA / "x", "Not a directory"),
        ("a socket", folder / "socket", "No such device or address"),
    ]


def try_files(trial: Trial) -> None:
    tool = trial.tool
    for name, path, reason in unreadable(trial.folder):
        if "LIST" in tool.words:
            trial.expect(f"{name} as list", trial.run(trial.words(rows=path)), 2, [f"{own(trial)}the list {path} cannot be read: {reason}\n"])
            continue
        for place in "formula", "trace":
            if place.upper() not in tool.words and not (place == "formula" and "CIRCUIT" in tool.words):
                continue
            ended = trial.run(trial.words(**{place: path}))
            if tool.name == "check":
                trial.expect(f"{name} as {place}", ended, 3)
                expect(f"check: {name} is explained", reason in ended.stderr + ended.stdout and f"DEVICE {place}" in ended.stdout, ended)
                continue
            status = 2 if name == "a socket" and tool.keeps else tool.unread
            trial.expect(f"{name} as {place}", ended, status, [own(trial), f"{path} cannot be read: {reason}\n"] if status else [])
            if not status:
                expect(f"{tool.name}: {name} is explained", reason in ended.stdout, ended)
    if "TRACE" not in tool.words and "LIST" not in tool.words:
        return
    refused = trial.folder / "refused"
    refused.write_text(REFUSED)
    if tool.refused != 0:
        trial.expect("a refused proof", trial.run(trial.words(trace=refused)), tool.refused)
    trial.expect("the formula as trace", trial.run(trial.words(trace=FORMULA)), tool.mistaken)
    trial.expect("the files exchanged", trial.run(trial.words(TRACE, FORMULA)), tool.mistaken)


def try_outputs(trial: Trial) -> None:
    """An output that is closed, full, or read by nobody."""
    cannot = own(trial) + "the standard output cannot be written: "
    wrong = trial.tool.output
    trial.expect("a closed output", trial.in_shell(">&-"), wrong, [cannot + "it is closed\n"])
    trial.expect("a full output", trial.in_shell(">/dev/full"), wrong, [cannot + "No space left on device\n"])
    trial.expect(
        "a pipe that nobody reads", trial.in_shell("> >(exec <&-; sleep 0.1) ; status=$?; wait; exit $status"), wrong, [cannot + "Broken pipe\n"]
    )
    trial.expect("a closed input", trial.in_shell("<&- >/dev/null"), trial.tool.right)
    trial.expect("a closed standard error", trial.in_shell("2>&-"), trial.tool.right)
    ended = trial.run(["bash", "-c", '"$@" 2>&-', "bash", *trial.words(), "--other"])
    trial.expect("a wrong option and a closed standard error", ended, trial.tool.usage)
    expect(f"{trial.tool.name}: what is for the standard error stays out of the output", not ended.stdout, ended)
    ended = trial.run(["bash", "-c", '"$@" --help >/dev/full', "bash", *trial.words()[:2]])
    trial.expect("--help to a full output", ended, wrong, [cannot + "No space left on device\n"])


def sleeper(folder: Path) -> Path:
    """A program that does not end by itself, and says in a file which process it is."""
    path = folder / "sleeper"
    path.write_text(f"#!/bin/sh\necho $$ >{folder}/pid.new\nmv {folder}/pid.new {folder}/pid\nexec sleep 100\n")
    path.chmod(0o755)
    return path


def runs(pid: int) -> bool:
    """Whether a process runs; one that has ended and was not waited for does not."""
    try:
        return Path(f"/proc/{pid}/stat").read_text().rpartition(")")[2].split()[0] != "Z"
    except OSError:
        return False


def wait_for(condition: Callable[[], object]) -> bool:
    """Whether this holds within some seconds."""
    for _ in range(400):
        if condition():
            return True
        time.sleep(0.02)
    return False


def try_signals(trial: Trial) -> None:
    """A signal in the middle: while the program runs, or while a pipe is read into which nobody writes."""
    if trial.tool.runs:
        trial.take(sleeper(trial.folder))
        try_signals_on(trial, "the program runs", trial.words(), (trial.folder / "pid").exists)
        trial.take(trial.program)
    pipe = trial.folder / "pipe"
    os.mkfifo(pipe)
    words = trial.words(rows=pipe) if "LIST" in trial.tool.words else trial.words(formula=pipe)
    with open_ends() as ends:
        try_signals_on(trial, "a pipe is read", words, lambda: ends.open(pipe))
    try_early(trial)


@contextlib.contextmanager
def open_ends() -> Iterator[SimpleNamespace]:
    """Opens the ends of pipes to write, which can be done as soon as another process reads."""
    ends = []

    def attempt(path: Path) -> bool:
        try:
            ends.append(os.open(path, os.O_WRONLY | os.O_NONBLOCK))
            return True
        except OSError:
            return False

    try:
        yield SimpleNamespace(open=attempt)
    finally:
        for end in ends:
            os.close(end)


def try_early(trial: Trial) -> None:
    """A signal while the tool still imports its modules, of which one is made slow."""
    slow = trial.folder / "slow"
    slow.mkdir()
    (slow / "argparse.py").write_text(f"import pathlib, time\npathlib.Path({str(slow / 'begun')!r}).touch()\ntime.sleep(100)\n")
    trial.environment["PYTHONPATH"] = str(slow)
    for number in signal.SIGTERM, signal.SIGINT:
        with subprocess.Popen(trial.words(), env=trial.environment, stdout=subprocess.PIPE, stderr=subprocess.PIPE, text=True) as process:
            ready = wait_for((slow / "begun").exists)
            process.send_signal(number)
            out, err = process.communicate(timeout=60)
        (slow / "begun").unlink()
        expect(f"{trial.tool.name}: {number.name} at once", ready and process.returncode == -number and not out + err, (process.returncode, out, err))
    del trial.environment["PYTHONPATH"]


def end_by(process: subprocess.Popen[str], number: int) -> tuple[str, str]:
    """What a process prints that a signal ends. Python sees a signal that comes just before a call of the system that waits only when that
    returns: then it is sent once more."""
    for _ in range(5):
        process.send_signal(number)
        try:
            return process.communicate(timeout=12)
        except subprocess.TimeoutExpired:
            pass
    process.kill()
    return process.communicate()


def try_signals_on(trial: Trial, name: str, words: Sequence[Any], begun: Any) -> None:
    pid = trial.folder / "pid"
    for number in signal.SIGTERM, signal.SIGINT, signal.SIGHUP:
        pid.unlink(missing_ok=True)
        with subprocess.Popen(words, env=trial.environment, stdout=subprocess.PIPE, stderr=subprocess.PIPE, text=True) as process:
            ready = wait_for(begun)
            out, err = end_by(process, number)
        for log in trial.folder.glob("list*.log"):
            log.unlink()
        ended = subprocess.CompletedProcess(words, process.returncode, out, err)
        said = own(trial) + "interrupted; --resume goes on\n" if "LIST" in trial.tool.words and pid.exists() else ""
        title = f"{number.name} while {name}"
        trial.expect(title, ended, 128 + number)
        expect(f"{trial.tool.name} {trial.tool.words}: {title}: no word but that", ready and not out and err == said, ended)
        if pid.exists():
            left = int(pid.read_text())
            expect(f"{trial.tool.name} {trial.tool.words}: {title}: no process is left", wait_for(lambda: not runs(left)), left)


def try_program(trial: Trial) -> None:
    """A program that is not there, is none, is killed, has no memory, or says what no program says."""
    name_of_program = "qrp_strategy" if trial.tool.name == "explain-strategy" else "qrp_cmd"
    for name, text, status, said in (
        ("no program", None, 2, "cannot be run: "),
        ("a program that is none", "", 2, "cannot be run: "),
        (
            "a program that is killed",
            "#!/bin/sh\nkill -KILL $$\n",
            2,
            f"signal 9 (SIGKILL), which the system sends if it is out of memory, ended {name_of_program}",
        ),
        ("a program without memory", "#!/bin/sh\necho 'NO MEMORY' >&2\nexit 4\n", 2, "NO MEMORY: "),
        ("a program that says something else", "#!/bin/sh\necho 'hello' >&2\nexit 7\n", 2, "hello"),
    ):
        other = trial.folder / "other"
        other.unlink(missing_ok=True)
        if text is not None:
            other.write_text(text)
            other.chmod(0o755 if text else 0o644)
        trial.take(other)
        if trial.tool.name == "explain" and text:  # which explains it
            status, said = (1, "unknown line") if "hello" in text else (0, "")
        if trial.tool.name == "check-many" and text:  # which makes a row of it
            status, said = 1, ""
        if trial.tool.name == "check":  # which has the program's statuses
            status = {"cannot be run: ": 3, "NO MEMORY: ": 4, "hello": 7}.get(said, 137)
            said = said.rstrip(": ") if status != 4 and status != 7 else ""
        trial.expect(name, trial.run(trial.words()), status, [said])
    trial.take(trial.program)


def try_memory(trial: Trial) -> None:
    """Memory that is refused to a tool that reads a file as a whole."""
    large = trial.folder / "large"
    with open(large, "wb") as file:
        file.truncate(300000000)
    limit = 200000000
    words = trial.words(rows=large) if "LIST" in trial.tool.words else trial.words(formula=large)
    ended = trial.run(words, preexec_fn=lambda: resource.setrlimit(resource.RLIMIT_AS, (limit, limit)))
    trial.expect("no memory", ended, 2, [own(trial) + "memory was refused: raise the limit (`ulimit -v`), or take a machine with more memory\n"])


def try_full_folder(trial: Trial) -> None:
    """A folder for temporary files that is full. It needs a file system of its own, which a user may make in a name space of its own."""
    trace = trial.folder / "large"
    trace.write_text(
        "p qrp 0 0\n1 1 2 0 0\n2 1 0 1 0\n3 -1 0 0\n" + "".join(f"{n} -1 0 {n - 1} 0\n" for n in range(4, 3000)) + "3000 0 2 2999 0\nr unsat\n"
    )
    mount = 'mount -t tmpfs -o size=16k none "$TMPDIR" && exec "$@"'
    make = ["unshare", "--user", "--map-root-user", "--mount", "bash", "-c", mount, "bash"]
    if not shutil.which("unshare") or subprocess.run([*make, "true"], env=trial.environment, check=False, capture_output=True).returncode:
        skip(f"{trial.tool.name}: a full TMPDIR", "no file system can be mounted here")
        return
    full = f"cannot be written to TMPDIR={trial.temporary}: No space left on device ("
    ended = trial.run([*make, *trial.words(trace=trace)])
    if trial.tool.name in ("explain", "explain-strategy"):
        trial.expect("a full TMPDIR that is not needed", ended, 0)
    else:
        trial.expect("a full TMPDIR", ended, 2, [f"{own(trial)}the trimmed trace {full}it needs up to the size of the trace)\n"])
    piped = [*make, "bash", "-c", f'cat "{trace}" | "$@"', "bash", *trial.words(trace="/dev/stdin")]
    trial.expect("a pipe and a full TMPDIR", trial.run(piped), 2, [f"{own(trial)}a copy of /dev/stdin {full}it needs the size of the file)\n"])


def try_old_systems(program: Program) -> None:
    """The tools ask for a later Python in words that older ones read, and take the static program if the system cannot load the other."""
    old = 'import sys; sys.version_info = (3, 8, 18); sys.version = "3.8.18 (main)"; exec(open(sys.argv[1]).read())'
    ended = subprocess.run([sys.executable, "-c", old, ROOT / "tools" / "qrptools" / "early.py"], capture_output=True, text=True, check=False)
    expect("an old Python", (ended.returncode, ended.stderr) == (2, "-c: Python 3.9 or later is needed, and this is 3.8.18\n"), ended)
    for tool in sorted({tool.name for tool in TOOLS}):
        text = (ROOT / "tools" / tool).read_text()
        try:
            first = next(part for part in ast.parse(text, feature_version=(3, 6)).body if isinstance(part, (ast.Import, ast.ImportFrom)))
            expect(f"{tool}: an old Python comes to the module that asks", ast.unparse(first) == "import qrptools.early", ast.unparse(first))
        except SyntaxError as fault:
            expect(f"{tool}: an old Python can read it", False, fault)
    with tempfile.TemporaryDirectory() as name:
        folder = Path(name)
        shutil.copytree(ROOT / "tools", folder / "tools")
        (folder / "bin").mkdir()
        loader = folder / "bin" / "qrp_cmd"
        loader.write_text("#!/bin/sh\necho \"$0: version 'GLIBC_2.34' not found\" >&2\nexit 1\n")
        loader.chmod(0o755)
        environment = {name: value for name, value in os.environ.items() if name != "QRP_CMD"}
        words = [sys.executable, str(folder / "tools" / "explain"), str(FORMULA), str(TRACE)]
        for static, status, said in (False, 1, "unknown line"), (True, 0, "qrp_cmd says: VERIFIED false\n"):
            if static:
                (folder / "bin" / "qrp_cmd.static").symlink_to(program)
            ended = subprocess.run(words, env=environment, capture_output=True, text=True, check=False)
            expect(f"a program that cannot be loaded, static {static}", ended.returncode == status and said in ended.stdout + ended.stderr, ended)
        ended = subprocess.run(words, env={**environment, "QRP_CMD": str(loader)}, capture_output=True, text=True, check=False)
        expect("a program that is named is taken", ended.returncode == 1 and "unknown line" in ended.stderr, ended)


# Each function says its types, and each body is looked at.
MYPY = ["mypy", "--disallow-untyped-defs", "--check-untyped-defs", "--scripts-are-modules"]
# The folders whose modules the tests use, beside those of their own.
TYPED = ["bench", "gate", "python", "tests", "tests/gate", "tests/gates", "tests/tools", "tests/strategy", "tools"]


def try_types() -> None:
    """The tools, the commands of the gate and of bench, their modules and the tests agree with their types."""
    if not shutil.which("mypy"):
        skip("the types of the modules", "there is no mypy")
        return
    commands = ["check-adapters", "check-memory-faults", "check-promises", "check-wall", "prove", "try-wrong-bodies", "try-wrong-definitions"]
    tools = ["qrptools", *sorted({tool.name for tool in TOOLS})]
    measurements = sorted(path.name for path in (ROOT / "bench").iterdir() if path.is_file() and is_python(path))
    others = os.pathsep.join(str(ROOT / name) for name in ("gate", "tests", "tests/tools"))  # whose modules those of bench use
    for name, version, modules in (("tools", "3.9", tools), ("gate", "3.10", commands), ("bench", "3.10", measurements)):
        with tempfile.TemporaryDirectory() as folder:
            words = [
                *MYPY,
                "--follow-imports",
                "silent" if name == "bench" else "normal",
                "--python-version",
                version,
                "--cache-dir",
                folder,
                *modules,
            ]
            environment = {**os.environ, "MYPYPATH": others} if name == "bench" else None
            ended = subprocess.run(words, cwd=ROOT / name, env=environment, capture_output=True, text=True, check=False)
        expect(f"the types of the modules of {name}", ended.returncode == 0, ended.stdout)
    tests: dict[Path, list[str]] = {}
    for path in sorted((ROOT / "tests").rglob("*")):
        if path.is_file() and is_python(path):
            tests.setdefault(path.parent, []).append(str(path))
    with tempfile.TemporaryDirectory() as folder:
        for place, files in tests.items():  # two of them have modules of one name
            words = [*MYPY, "--follow-imports", "silent", "--python-version", "3.10", "--cache-dir", folder, *files]
            others = os.pathsep.join([str(place), *(str(ROOT / name) for name in TYPED)])
            ended = subprocess.run(words, cwd=ROOT, env={**os.environ, "MYPYPATH": others}, capture_output=True, text=True, check=False)
            expect(f"the types of {place.relative_to(ROOT)}", ended.returncode == 0, ended.stdout)


def is_python(path: Path) -> bool:
    """Whether a file is a module or a script of Python."""
    if path.suffix == ".py":
        return True
    with path.open("rb") as file:
        return b"python3" in file.readline(60)


def try_layout() -> None:
    """All of Python is laid out by black, of the version that Debian 12 has: another one may differ in small things."""
    version = subprocess.run(["black", "--version"], capture_output=True, text=True, check=False).stdout if shutil.which("black") else ""
    if not version.startswith("black, 23.1"):
        skip("the layout of Python", "there is no black 23.1")
        return
    folders = ("bench", "docs", "examples", "gate", "packaging", "python", "tests", "tools")
    files = [path for folder in folders for path in sorted((ROOT / folder).rglob("*")) if path.is_file() and is_python(path)]
    ended = subprocess.run(["black", "--check", "-l", "150", *files], capture_output=True, text=True, check=False)
    expect("the layout of Python", ended.returncode == 0, ended.stderr)


def main() -> int:
    program = os.path.abspath(sys.argv[1])
    # A run in the background ignores interrupts, and so would all that it starts: these are tested here.
    signal.signal(signal.SIGINT, signal.default_int_handler)
    seen = set()
    for tool in TOOLS:
        if tool.name == "check-many" and not shutil.which("parallel"):
            skip(tool.name, "there is no parallel on this machine")
            continue
        if tool.name == "explain-strategy" and tool.runs and not (Path(program).parent / "qrp_strategy").is_file():
            skip(tool.name, "there is no qrp_strategy: 'make' builds it")
            continue
        trials = [try_files, try_outputs]
        if tool.name not in seen:
            trials += [try_arguments, try_signals]
            trials += [try_memory] if tool.name in ("explain", "draw-proof", "check-many", "from-aiger") else []
            trials += [try_program] if tool.runs else []
            trials += [try_full_folder] if tool.runs and "TRACE" in tool.words and tool.name != "check" else []
        seen.add(tool.name)
        for trial in trials:
            with tempfile.TemporaryDirectory() as folder:
                trial(Trial(tool, program, Path(folder)))
    try_old_systems(program)
    try_types()
    try_layout()
    return finish(1320)


if __name__ == "__main__":
    sys.exit(main())
