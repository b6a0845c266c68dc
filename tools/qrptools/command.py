"""One entry for all tools: how a command is called, how it ends, what it starts, and where it keeps files. A part of the tools.

A tool ends with `sys.exit(run(main))`. Then each of them keeps this:

    status 2         the output, a file or the program cannot be used, or memory was refused; and a line on the standard error says so
    status 130       after an interrupt (SIGINT), without a word
    status 128 + N   after the signals SIGTERM (143) and SIGHUP (129), without a word

A process that `started` gives, with all that it starts itself, and a folder that `temporary_folder` gives do not outlive the command. After
SIGKILL the folder is left; the process gets SIGKILL too, but not what it has started.
"""

import argparse
import codecs
import io
import os
import re
import shutil
import signal
import subprocess
import sys
import tempfile
from collections.abc import Iterator
from contextlib import contextmanager
from pathlib import Path
from typing import Any, Callable, Optional

from qrptools.signals import Signalled, end_with_parent, held_signals, kill_group, take_signals

PLACE = Path(__file__).resolve().parents[2]  # of the tools: the sources, a release, or share/qrp_cmd of a prefix


class Ends(Exception):
    """Ends the command: a line for the standard error, and the status."""

    def __init__(self, line: str, status: int) -> None:
        super().__init__(line)
        self.status = status


def finding(line: str) -> Ends:
    """Ends the command since what it was asked for is not so."""
    return Ends(line, 1)


def unusable(line: str) -> Ends:
    """Ends the command since a file, the program or the machine cannot be used."""
    return Ends(line, 2)


def counted(count: int, word: str) -> str:
    """So many of what the word says, in a message."""
    return f"{count} {word}" + ("" if count == 1 else "s")


def called_as(tool: Optional[str] = None) -> str:
    """This command, or another tool beside it, as a user types it: `tools/explain`, or `qrp-explain` where it is installed."""
    folder, own = os.path.split(sys.argv[0])
    prefix = "qrp-" if own.startswith("qrp-") else ""
    name = prefix + (tool or own[len(prefix) :])
    if prefix and folder in os.environ.get("PATH", "").split(os.pathsep):
        return name
    if not os.path.exists(os.path.join(folder, name)):
        folder, name = os.path.dirname(os.path.realpath(sys.argv[0])), name[len(prefix) :]
    return os.path.join(folder, name)


def version() -> Optional[str]:
    """The version of these tools and of the program that came with them; None if there is no file that says it."""
    try:
        return (PLACE / "VERSION").read_text().strip()
    except OSError:
        return None


def page(name: str) -> str:
    """Where a page such as docs/DEPQBF.md is, as a user of this command finds it: beside the tools, or installed."""
    beside = os.path.join(os.path.dirname(os.path.dirname(called_as())), name)
    installed = [str(PLACE.parent / "doc" / package / name) for package in ("qrp_cmd", "qrp-cmd")]
    return next((path for path in (beside, *installed) if os.path.exists(path)), name)


def as_called(text: str) -> str:
    """A text with the names of tools and of pages as a user of this command types them."""
    text = re.sub(r"\btools/([a-z-]+)", lambda tool: called_as(tool[1]), text)
    return re.sub(r"\bdocs/[A-Z]+\.md", lambda named: page(named[0]), text)


def parser_for(text: Optional[str], kind: type[argparse.ArgumentParser] = argparse.ArgumentParser) -> argparse.ArgumentParser:
    """The start of a parser of arguments, with the text of a tool as its help: in rows that begin with the tool's name it is as called."""
    own = os.path.basename(sys.argv[0])
    own = own[len("qrp-") :] if own.startswith("qrp-") else own
    summary, _, rest = (text or "").replace(f"\n    {own} ", f"\n    {called_as()} ").partition("\n")
    form = argparse.RawDescriptionHelpFormatter
    parser = kind(prog=called_as(), description=summary, epilog=rest, formatter_class=form)
    parser.add_argument("--version", action="version", version=f"{called_as()} of qrp_cmd {version() or 'of an unknown version'}")
    return parser


def joined(words: list[str], *options: str) -> Iterator[str]:
    """The words of a command line; what follows one of these options, which may begin with -, is made a part of that word."""
    rest = iter(words)
    for word in rest:
        following = next(rest, None) if word in options else None
        yield word if following is None else f"{word}={following}"
        if word == "--":
            yield from rest


# What must not outlive the command


@contextmanager
def started(words: list[str], grouped: bool = True, **options: Any) -> "Iterator[subprocess.Popen[bytes]]":
    """A process, with what it starts itself in a group of its own. What still runs of the group is killed at the end. Of one that is
    not grouped, such as one that asks at the terminal, only the process is."""
    process: "Optional[subprocess.Popen[bytes]]" = None
    own = os.getpid()

    def begin() -> None:
        if grouped:
            os.setpgid(0, 0)
        end_with_parent(own, signal.SIGKILL if grouped else signal.SIGTERM)

    try:
        with held_signals():
            process = subprocess.Popen(words, preexec_fn=begin, **options)
        yield process
    finally:
        if process:
            end(process, grouped)
            for stream in filter(None, (process.stdin, process.stdout, process.stderr)):
                stream.close()
            process.wait()


def end(process: "subprocess.Popen[bytes]", grouped: bool) -> None:
    """Kills a process, with its group. One that was waited for leaves its group behind, if others are in it."""
    process.kill()
    if grouped:
        kill_group(process.pid)


@contextmanager
def temporary_folder() -> Iterator[str]:
    """A folder for files that are needed no longer than this."""
    path = None
    try:
        with writing("a temporary folder"), held_signals():
            path = tempfile.mkdtemp(prefix="qrp-")
        yield path
    finally:
        if path:
            shutil.rmtree(path, ignore_errors=True)


@contextmanager
def writing(what: str, needs: str = "") -> Iterator[None]:
    """Says of an error that this cannot be written to the temporary folder, and which folder that is."""
    try:
        yield
    except OSError as fault:
        raise unusable(not_written(what, fault.strerror, needs)) from fault


def not_written(what: str, why: Optional[str], needs: str = "") -> str:
    return f"{what} cannot be written to TMPDIR={temporary_place()}: {why}" + (f" ({needs})" if needs else "")


def temporary_place() -> str:
    """Where temporary folders are made, also if none can be."""
    try:
        return tempfile.gettempdir()
    except OSError:
        return os.environ.get("TMPDIR", "/tmp")


# Files


def read_file(path: str, kind: str = "") -> bytes:
    """The bytes of a file, of this kind."""
    try:
        return Path(path).read_bytes()
    except OSError as fault:
        raise unusable(not_read(f"{kind} {path}".strip(), fault)) from fault


@contextmanager
def replaced(path: str) -> Iterator[str]:
    """The name of a new file beside this one, which it replaces if all goes well. An error is that this one cannot be written."""
    target = os.path.realpath(path)
    new = f"{target}.{os.urandom(4).hex()}.new"
    try:
        yield new
        os.replace(new, target)
    except OSError as fault:
        raise unusable(f"{path} cannot be written: {fault.strerror}") from fault
    finally:
        if os.path.exists(new):
            os.unlink(new)


def not_read(path: str, fault: OSError) -> str:
    return f"{path} cannot be read: {fault.strerror}"


# The output


class NoOutput(Exception):
    """The standard output cannot be written."""


class Output(io.FileIO):
    """The standard output. Its errors are told from those of other files."""

    def write(self, data: Any) -> int:
        try:
            return super().write(data)
        except OSError as fault:
            raise NoOutput(f"the standard output cannot be written: {fault.strerror}") from fault


def encoded(fault: UnicodeError) -> tuple[bytes, int]:
    """What the encoding of the system has no bytes for: the byte that was read, or UTF-8."""
    if not isinstance(fault, UnicodeEncodeError):
        raise fault
    return fault.object[fault.start : fault.end].encode("utf-8", "surrogateescape"), fault.end


def open_output() -> io.TextIOWrapper:
    """Opens the standard output, for names of files with any bytes too."""
    codecs.register_error("qrptools", encoded)
    raw = Output(1, "w", closefd=False)
    return io.TextIOWrapper(io.BufferedWriter(raw), sys.getfilesystemencoding(), "qrptools", line_buffering=raw.isatty())


def fill_closed() -> bool:
    """Opens what is closed of the three standard files, so that no other file takes its number; and whether the output was."""
    closed = []
    for number in range(3):
        try:
            os.fstat(number)
        except OSError:
            os.set_inheritable(os.open(os.devnull, os.O_RDWR), True)
            closed.append(number)
    if 2 in closed:
        sys.stderr = open(2, "w", closefd=False)
    return 1 in closed


def drop_output() -> None:
    """What is still to be written goes nowhere."""
    os.dup2(os.open(os.devnull, os.O_WRONLY), 1)


def complain(line: object) -> None:
    try:
        print(f"{called_as()}: {line}", file=sys.stderr, flush=True)
    except OSError:
        os.dup2(os.open(os.devnull, os.O_WRONLY), 2)


# The entry


def run(main: Callable[[], Optional[int]], device: int = 2, memory: int = 2) -> int:
    """The status of a command, whose main takes nothing and returns its status. Each way to end is caught here. The numbers are the statuses
    if a file or the output cannot be used, and if memory is refused."""
    is_closed = fill_closed()
    sys.stdout = open_output()
    try:
        take_signals()
        if is_closed:
            raise NoOutput("the standard output cannot be written: it is closed")
        return ended(main, device, memory)
    except (Signalled, KeyboardInterrupt) as fault:
        drop_output()
        return getattr(fault, "status", 128 + signal.SIGINT)
    except NoOutput as fault:
        drop_output()
        complain(fault)
        return device


def ended(main: Callable[[], Optional[int]], device: int, memory: int) -> int:
    """The status of a command, after its line if it has one, with all of its output written."""
    line: Optional[str] = None
    try:
        status = main() or 0
    except SystemExit as fault:  # of the parser of arguments, which has said what it has to say
        status = int(fault.code or 0)
    except Ends as fault:
        line, status = str(fault), fault.status
    except OSError as fault:
        line, status = f"{fault.filename}: {fault.strerror}" if fault.filename else str(fault), device
    except MemoryError:
        line, status = "memory was refused: raise the limit (`ulimit -v`), or take a machine with more memory", memory
    sys.stdout.flush()
    if line:
        complain(line)
    return status
