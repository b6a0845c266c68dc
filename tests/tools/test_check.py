"""Tests tools/check. usage: tests/tools/test_check.py PROGRAM ..; tests/tools/test-tools calls it.

Its line and its status are compared with those of PROGRAM, over plain, compressed and piped files; then what it says beside them.
"""

import bz2
import gzip
import json
import lzma
import os
import pty
import re
import shutil
import signal
import subprocess
import sys
import tempfile
from collections.abc import Callable, Sequence
from pathlib import Path
from typing import Any, Union

ROOT = Path(__file__).resolve().parents[2]
sys.path[:0] = [str(ROOT / "tests"), str(ROOT / "tools")]
sys.dont_write_bytecode = True
from damaged_pairs import damaged_pairs  # noqa: E402
from expect import expect, finish, skip  # noqa: E402

Program = Union[str, Path]

CHECK, EXPLAIN = ROOT / "tools" / "check", ROOT / "tools" / "explain"
TRACES = ROOT / "tests" / "traces"
FORMULA, TRACE = TRACES / "kbkf3.qdimacs", TRACES / "kbkf3.trad.qrp"
TRUE = TRACES / "adder2.qdimacs", TRACES / "adder2.trad.qrp"
UNPACKED = {"gz": gzip.compress, "bz2": bz2.compress, "xz": lzma.compress}


class Use:
    """Uses of the tool with a folder of its own, in which nothing may be left behind."""

    def __init__(self, folder: str, program: Program) -> None:
        self.folder, self.program, self.temporary = Path(folder), program, Path(folder) / "temporary"
        self.temporary.mkdir()
        self.environment = dict(os.environ, QRP_CMD=str(program), TMPDIR=str(self.temporary), PYTHONDONTWRITEBYTECODE="1")

    def run(self, *words: object, **options: Any) -> tuple[int, str, str]:
        options = {"stdin": subprocess.DEVNULL, "env": self.environment, **options}
        if "input" in options:
            del options["stdin"]
        ended = subprocess.run(
            [sys.executable, CHECK, *map(str, words)], stdout=subprocess.PIPE, stderr=subprocess.PIPE, check=False, timeout=60, **options
        )
        said = ended.stdout.decode(errors="replace"), ended.stderr.decode(errors="replace")
        expect(f"check {words}: no traceback, and nothing is left", "Traceback" not in said[1] and not list(self.temporary.iterdir()), said)
        return ended.returncode, *said

    def program_says(self, *words: object) -> tuple[int, str]:
        ended = subprocess.run([self.program, "check", *map(str, words)], capture_output=True, check=False)
        return ended.returncode, ended.stdout.decode()

    def file(self, name: str, data: bytes) -> Path:
        path = self.folder / name
        path.write_bytes(data)
        return path


def try_lines(use: Use) -> None:
    """The line and the status of the program, and the words of explain on the standard error if it is not VERIFIED."""
    pairs = [pair for pair in damaged_pairs(FORMULA.read_bytes(), TRACE.read_bytes()) if pair[0].split()[0] not in ("gzip", "bzip2", "xz", "zstd")]
    for number, (name, formula, trace) in enumerate([("whole", FORMULA.read_bytes(), TRACE.read_bytes()), *pairs[:: max(1, len(pairs) // 30)]]):
        files = use.file("formula", formula), use.file("trace", trace)
        flags = ["--qu"] if number % 3 == 2 else []
        status, out, said = use.run(*flags, *files)
        expect(f"{name}: line and status", (status, out) == use.program_says(*flags, *files), (status, out, said))
        explained = subprocess.run([sys.executable, EXPLAIN, *flags, *files], capture_output=True, text=True, env=use.environment, check=False).stdout
        wanted = "" if out.startswith("VERIFIED") else explained.partition("\n\n")[2].replace(str(EXPLAIN.parent), str(CHECK.parent))
        expect(f"{name}: what is explained", said == wanted, (said, wanted))
        _, found, _ = use.run("--json", *flags, *files)
        as_json = json.loads(
            subprocess.run(
                [sys.executable, EXPLAIN, "--json", *flags, *files], capture_output=True, text=True, env=use.environment, check=False
            ).stdout
        )
        expect(f"{name}: JSON", json.loads(found) == {**as_json, "expected": None}, (found, as_json))


def try_compressed(use: Use) -> None:
    """Compressed files are unpacked by a pipe, by their first bytes and not by their names."""
    names: dict[str, Callable[[bytes], bytes]] = {"gz": gzip.compress, "bz2": bz2.compress, "xz": lzma.compress}
    if shutil.which("zstd"):
        names["zst"] = lambda data: subprocess.run(["zstd", "-qc"], input=data, capture_output=True, check=True).stdout
    else:
        skip("files of zstd", "there is no zstd")
    refused = TRACE.read_bytes().replace(b"r UNSAT", b"r SAT").replace(b"r unsat", b"r sat")
    for ending, pack in names.items():
        formula = use.file(f"f.qdimacs.{ending}", pack(FORMULA.read_bytes()))
        for trace, name in (use.file(f"t.qrp.{ending}", pack(TRACE.read_bytes())), ending), (TRACE, "plain"):
            expect(f"{ending} and {name}", use.run(formula, trace) == (0, "VERIFIED false\n", ""), use.run(formula, trace))
        odd = use.file("without an ending", pack(TRACE.read_bytes()))
        expect(f"{ending} without its ending", use.run(FORMULA, odd)[1] == "VERIFIED false\n")
        plain = use.file(f"plain.{ending}", TRACE.read_bytes())
        expect(f"a plain file that is called {ending}", use.run(FORMULA, plain)[1] == "VERIFIED false\n")
        bad = use.file(f"bad.qrp.{ending}", pack(refused))
        status, out, said = use.run(formula, bad)
        plain_bad = use.run(FORMULA, use.file("bad.qrp", refused))
        expect(
            f"{ending}: a refused proof is explained",
            (status, out, said) == plain_bad and status == 1 and "does not follow" in said,
            (status, out, said),
        )
        packed = pack(TRACE.read_bytes())
        for name, data in ("cut", packed[: len(packed) // 2]), ("damaged", packed[:40] + bytes(byte ^ 0x55 for byte in packed[40:60]) + packed[60:]):
            status, out, said = use.run(FORMULA, use.file(f"{name}.{ending}", data))
            wanted = f"{use.folder}/{name}.{ending} cannot be unpacked: "
            expect(
                f"{ending}: a file that is {name}",
                status == 3 and not out and wanted in said and "ended with status" not in said,
                (status, out, said),
            )
        more = use.file(f"more.{ending}", pack(TRACE.read_bytes() + b"c a word that comes later\n" * 100000))
        expect(f"{ending}: more than the program reads", use.run(FORMULA, more)[:2] == (0, "VERIFIED false\n"), use.run(FORMULA, more))
        status, _, said = use.run(FORMULA, odd, env={**use.environment, "PATH": str(use.folder)})
        expect(f"{ending}: nothing that unpacks it", status == 3 and "is compressed, and there is no " in said and "apt-get install " in said, said)


def try_input(use: Use) -> None:
    """The standard input, and pipes."""
    words: Any
    for name, words, data in (
        ("the trace", [FORMULA, "-"], TRACE.read_bytes()),
        ("the formula", ["-", TRACE], FORMULA.read_bytes()),
    ):
        expect(f"{name} by a pipe", use.run(*words, input=data) == (0, "VERIFIED false\n", ""))
        status, out, said = use.run(*words, input=b"p cnf 1 1\n")
        expect(
            f"{name} by a pipe, refused",
            status in (1, 2) and out.startswith("REFUSED ") and "/dev/stdin is no file that can be read again" in said,
            (status, out, said),
        )
    with open(TRACE, "rb") as file:
        expect("a file as standard input", use.run(FORMULA, "-", stdin=file) == (0, "VERIFIED false\n", ""))
    with open(use.file("t.gz", gzip.compress(TRACE.read_bytes())), "rb") as file:
        expect("a compressed file as standard input", use.run(FORMULA, "-", stdin=file) == (0, "VERIFIED false\n", ""))
    with open(FORMULA, "rb") as file:
        status, out, said = use.run(FORMULA, "-", stdin=file)
        expect(
            "a refused file as standard input",
            status == 2 and out.startswith("REFUSED trace P2") and "was the same one given twice?" in said,
            (status, out, said),
        )
    status, out, said = use.run("-", "-")
    expect("twice the standard input", (status, out) == (5, "") and "one of the two files alone" in said, said)
    words = f'"$@" <(cat {FORMULA}) <(cat {TRACE})'
    ended = subprocess.run(["bash", "-c", words, "bash", sys.executable, CHECK], capture_output=True, text=True, env=use.environment, check=False)
    expect("two pipes", (ended.returncode, ended.stdout, ended.stderr) == (0, "VERIFIED false\n", ""), ended)


def try_expected(use: Use) -> None:
    for files, truth in ((FORMULA, TRACE), "false"), (TRUE, "true"):
        for wanted in "true", "false":
            status, out, said = use.run("--expect", wanted, *files)
            holds = (status, said == "") == ((0, True) if wanted == truth else (1, False))
            expect(f"{wanted} is expected of a formula that is {truth}", holds and out == f"VERIFIED {truth}\n", (status, out, said))
        found = json.loads(use.run("--json", "--expect", "true", *files)[1])
        expect(f"JSON of a truth that is expected: {truth}", (found["says"], found["expected"]) == (f"VERIFIED {truth}", "true"), found)
    refused = use.file("refused", b"p qrp 0 0\nr unsat\n")
    expect("a refused proof with a truth that is expected", use.run("--expect", "false", FORMULA, refused)[:2] == (1, "REFUSED trace C4\n"))


def try_statuses(use: Use) -> None:
    """The statuses are those of the program, also for what is wrong with the tool's own words and output."""
    missing = use.folder / "none"
    words: Any
    for words, status, line, said in (
        ([missing, TRACE], 3, "DEVICE formula\n", "No such file or directory."),
        ([FORMULA, use.folder], 3, "DEVICE trace\n", "Is a directory."),
        ([], 5, "", "usage: "),
        ([FORMULA], 5, "", "usage: "),
        ([FORMULA, TRACE, "x"], 5, "", "usage: "),
        (["--other", FORMULA, TRACE], 5, "", "usage: "),
        (["--expect", "maybe", FORMULA, TRACE], 5, "", "usage: "),
        (["--names", missing, FORMULA, TRACE], 3, "", f"{missing} cannot be read"),
    ):
        ended = use.run(*words)
        expect(f"check {words}", ended[:2] == (status, line) and said in ended[2], ended)
    for text, status, line, said in (
        ("kill -KILL $$", 137, "", "signal 9 (SIGKILL)"),
        ("echo NO MEMORY; exit 4", 4, "NO MEMORY\n", "raise the limit"),
        ("echo hello; exit 7", 7, "hello\n", "it cannot be said why"),
        ("echo VERIFIED true; exit 1", 3, "", "qrp_cmd ended with status 1 and the line 'VERIFIED true', which is no verdict"),
        ("echo VERIFIED false >&2; kill -TERM $$", 3, "", "which is no verdict"),
        ("echo REFUSED step 1 S4", 3, "", "qrp_cmd ended with status 0 and the line 'REFUSED step 1 S4', which is no verdict"),
        ("exit 0", 3, "", "qrp_cmd ended with status 0 and the line '', which is no verdict"),
        ("echo REFUSED step 1 S4; exit 1", 1, "REFUSED step 1 S4\n", "it cannot be said why: qrp_cmd found S4 and this script"),
    ):
        program = use.file("program", f"#!/bin/sh\n{text}\n".encode())
        program.chmod(0o755)
        ended = use.run(FORMULA, TRACE, env={**use.environment, "QRP_CMD": str(program)})
        expect(f"a program that does {text}", ended[:2] == (status, line) and said in ended[2], ended)
    ended = use.run(FORMULA, TRACE, env={**use.environment, "QRP_CMD": str(missing)})
    expect("no program", ended[:2] == (3, "") and "cannot be run" in ended[2], ended)
    names = ROOT / "examples" / "blind-box" / "blind-box.names"
    box = ROOT / "examples" / "blind-box" / "blind-box.qdimacs"
    damaged = use.file("damaged", (box.with_suffix(".trimmed.qrp")).read_bytes().replace(b"\n117 -4 ", b"\n117 "))
    ended = use.run("--names", names, box, damaged)
    expect("a step with names", ended[:2] == (1, "REFUSED step 117 S12\n") and "-carry_in" in ended[2], ended)


def try_progress(use: Use) -> None:
    """At a terminal it is shown how much was read, if the check takes long; nowhere else, and not if it is short."""
    slow = use.file("slow", b'#!/bin/sh\nexec 3<"$2"\nhead -c 100 <&3 >/dev/null\nsleep 3\necho VERIFIED false\n')
    slow.chmod(0o755)
    for name, program, files, shown in (
        ("a long check", slow, [FORMULA, TRACE], r"read: \d+ % of the formula \(0\.\d of 0\.\d MB\)"),
        ("a long check of a compressed file", slow, [use.file("f.gz", gzip.compress(FORMULA.read_bytes())), TRACE], r"read: 100 % of the formula"),
        ("a short check", use.program, [FORMULA, TRACE], None),
    ):
        master, slave = pty.openpty()
        environment = {**use.environment, "QRP_CMD": str(program)}
        with subprocess.Popen([sys.executable, CHECK, *files], stdin=slave, stdout=subprocess.PIPE, stderr=slave, env=environment) as process:
            os.close(slave)
            out, _ = process.communicate(timeout=60)
        try:
            said = os.read(master, 65536).decode()
        except OSError:
            said = ""
        os.close(master)
        holds = bool(re.search(shown, said)) and said.endswith("\r\x1b[K") if shown else said == ""
        expect(f"{name} at a terminal", out == b"VERIFIED false\n" and process.returncode == 0 and holds, (said, out))
    ended = use.run(FORMULA, TRACE, env={**use.environment, "QRP_CMD": str(slow)})
    expect("a long check without a terminal", ended == (0, "VERIFIED false\n", ""), ended)


def try_typed(use: Use) -> None:
    """What is typed at a terminal is read."""
    master, slave = pty.openpty()
    os.write(master, TRACE.read_bytes() + b"\x04")
    words = ["setsid", "--ctty", sys.executable, str(CHECK), str(FORMULA), "-"]
    with subprocess.Popen(words, stdin=slave, stdout=subprocess.PIPE, stderr=subprocess.PIPE, env=use.environment) as process:
        os.close(slave)
        try:
            out, said = process.communicate(timeout=30)
        except subprocess.TimeoutExpired:
            process.kill()
            out, said = b"", b"it does not end"
    os.close(master)
    expect("a trace that is typed", (out, said) == (b"VERIFIED false\n", b""), (out, said))


def main() -> int:
    signal.signal(signal.SIGINT, signal.default_int_handler)
    for part in try_lines, try_compressed, try_input, try_expected, try_statuses, try_progress, try_typed:
        with tempfile.TemporaryDirectory() as folder:
            part(Use(folder, os.path.abspath(sys.argv[1])))
    return finish(321)


if __name__ == "__main__":
    sys.exit(main())
