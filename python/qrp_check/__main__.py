"""`python -m qrp_check [--qu] FORMULA TRACE`: prints the line of 'qrp_cmd check', and ends with its status.

0: VERIFIED. 1: the proof is refused. 2: a text is refused. 3: a file cannot be read, or the line not written. 4: out of memory.
5: wrong words.
"""

import contextlib
import os
import signal
import sys

import qrp_check


def check(words: "list[str]") -> "tuple[str, int]":
    """The line and the status. The flag is the first or the last of three words, as it is for the program."""
    any_pivot = len(words) == 3 and "--qu" in (words[0], words[2])
    names = words if not any_pivot else words[1:] if words[0] == "--qu" else words[:2]
    if len(names) != 2:
        return "USAGE: python -m qrp_check [--qu] FORMULA TRACE", 5
    try:
        verdict = qrp_check.verify_files(names[0], names[1], any_pivot=any_pivot)
    except OSError as error:
        return f"DEVICE {'formula' if error.filename == names[0] else 'trace'}", 3
    except MemoryError:
        return "NO MEMORY", 4
    return str(verdict), verdict.status


def main() -> int:
    signal.signal(signal.SIGINT, signal.SIG_DFL)  # else it would be seen only when the check returns
    line, status = check(sys.argv[1:])
    if sys.stdout is None:  # it is closed
        return 3
    try:
        print(line, file=sys.stderr if status == 5 else sys.stdout, flush=True)
    except OSError:
        with contextlib.suppress(OSError):
            os.dup2(os.open(os.devnull, os.O_WRONLY), 1)
        return 3
    return status


if __name__ == "__main__":
    sys.exit(main())
