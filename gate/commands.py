"""What the commands of the gate have in common: a table that is stored beside them, a folder to work in, and what they print at the end."""

import shutil
import signal
import sys
import tempfile
from collections.abc import Callable, Iterable
from pathlib import Path

from crates import Stopped


class Table:
    """A stored table: rows of words with tabs between them, below a line that says what they are."""

    def __init__(self, path: Path, head: str) -> None:
        self.path, self.head = path, head

    def rows(self) -> list[list[str]]:
        lines = self.path.read_text(encoding="utf-8").splitlines() if self.path.exists() else []
        return [line.split("\t") for line in lines if line and not line.startswith("#")]

    def store(self, rows: Iterable[Iterable[str]]) -> None:
        self.path.write_text(f"# {self.head}\n" + "".join("\t".join(row) + "\n" for row in rows), encoding="utf-8")


def is_to_store(text: str) -> bool:
    """Whether the command line has the word --store, and no other one; the text is that which tells of the command."""
    if set(sys.argv[1:]) - {"--store"}:
        tell_of_it(text)
    return len(sys.argv) > 1


def tell_of_it(text: str) -> None:
    """Ends a command that is asked for help, or in a way that it does not know, with the text that tells of it."""
    print(text)
    sys.exit(0 if sys.argv[1] in ("-h", "--help") else 2)


def told(looked_at: int, wrong: list[str]) -> int:
    """Prints what is wrong, and how much is not; the status of the command."""
    for line in wrong:
        print(line)
    print(f"{max(0, looked_at - len(wrong))} passed, {len(wrong)} failed")
    return 1 if wrong or not looked_at else 0


def in_a_folder(name: str, work: Callable[[Path], int], at_an_interrupt: str = "interrupted") -> int:
    """Does some work in a folder that is removed after it; the status: that of the work, or 2 and a line that says why it had to stop."""
    signal.signal(signal.SIGTERM, signal.default_int_handler)
    folder = None
    try:
        folder = Path(tempfile.mkdtemp(prefix=f"{name}-"))
        return work(folder)
    except KeyboardInterrupt:
        print(f"{name}: {at_an_interrupt}", file=sys.stderr)
    except (Stopped, OSError) as error:
        print(f"{name}: {error}", file=sys.stderr)
    finally:
        if folder:
            shutil.rmtree(folder, ignore_errors=True)
    return 2
