"""Writes the cases of formulas of gates that tests/library/library.c and test_qrp_check.py run. usage: gate_cases.py GATES FOLDER LIST

GATES is qrp_gates. Each row of tests/gates/*.rows becomes a case of LIST, with its texts and what the program prints for them as files of FOLDER;
a row of clauses has an empty trace. The last line that is printed has two numbers: how many rows got the line and the status that they name,
and how many did not.
"""

import pathlib
import subprocess
import sys
from collections.abc import Iterator

ROWS = pathlib.Path(__file__).resolve().parents[1] / "gates"


def bytes_of(text: str) -> bytes:
    """The bytes of a column of rows, as printf writes them."""
    return b"" if text == "-" else text.encode().decode("unicode_escape").encode("latin-1")


def rows(name: str) -> list[list[str]]:
    """The columns of each row."""
    lines = (ROWS / name).read_text(encoding="utf-8").splitlines()
    return [line.split("\t") for line in lines if line and not line.startswith("#")]


def cases() -> Iterator[tuple[bool, bytes, bytes, str, tuple[int, bytes]]]:
    """The flag, the two texts, and what the row says of which job: the status, and the answer."""
    for _, status, text, answer in rows("clauses.rows"):
        yield False, bytes_of(text), b"", "clauses", (int(status), bytes_of(answer))
    for _, flag, status, text, trace, answer in rows("check.rows"):
        for any_pivot in (False, True):
            if flag in ("either", "--qu" if any_pivot else "-"):
                yield any_pivot, bytes_of(text), bytes_of(trace), "check", (int(status), bytes_of(answer))
    for _, flags, status, text, trace, answer in rows("strategy.rows"):
        job = "binary" if "--binary" in flags else "strategy"
        yield "--qu" in flags, bytes_of(text), bytes_of(trace), job, (int(status), bytes_of(answer))


def main(words: list[str]) -> None:
    program, folder = words[0], pathlib.Path(words[1])
    right = wrong = 0
    with open(words[2], "w", encoding="ascii") as listed:
        for number, (any_pivot, text, trace, job, wanted) in enumerate(cases()):
            names = {kind: str(folder / f"gates-{number}.{kind}") for kind in ("qcir", "qrp", "trimmed", "clauses", "aag", "aig")}
            flag, texts = ["--qu"] * any_pivot, [names["qcir"], names["qrp"]]
            for kind, written in (("qcir", text), ("qrp", trace), ("trimmed", b"")):
                pathlib.Path(names[kind]).write_bytes(written)
            jobs = {"check": ["check", *flag, *texts], "clauses": ["clauses", texts[0]]}
            jobs |= {"strategy": ["strategy", *flag, *texts], "binary": ["strategy", "--binary", *flag, *texts]}
            ended = {name: subprocess.run([program, *its], capture_output=True, check=False) for name, its in jobs.items()}
            for kind, name in (("clauses", "clauses"), ("aag", "strategy"), ("aig", "binary")):
                pathlib.Path(names[kind]).write_bytes(ended[name].stdout)
            found = ended[job].returncode, ended[job].stdout or ended[job].stderr
            right, wrong = right + (found == wanted), wrong + (found != wanted)
            if found != wanted:
                print(f"FAILED: {job} of row {number}: {found}, where the row says {wanted}")
            checked = ended["check"]
            line = checked.stdout.decode("ascii").rstrip("\n")
            print(int(any_pivot), checked.returncode, *names.values(), line, sep="\t", file=listed)
    print(right, wrong)


if __name__ == "__main__":
    main(sys.argv[1:])
