"""Counts the cases of a test and names those that fail.

A test calls `expect` for each case, and `skip` for cases that this machine has no tool for. It ends with `sys.exit(finish(LEAST))`, which
prints 'N passed, M failed' and gives the status: 1 if a case failed, and also if nothing was skipped and fewer than LEAST passed. That number
goes up with each case.
"""

import signal

passed = failed = skipped = 0

# A command that a shell starts in the background ignores an interrupt, and so would each command that a test starts. The tests want what
# a user has: each signal ends the command.
for number in (signal.SIGINT, signal.SIGTERM, signal.SIGHUP):
    if signal.getsignal(number) == signal.SIG_IGN:
        signal.signal(number, signal.default_int_handler if number == signal.SIGINT else signal.SIG_DFL)


def expect(name: str, holds: object, found: object = "") -> bool:
    """Counts a case, and names it and shows what was found if it does not hold."""
    global passed, failed
    if holds:
        passed += 1
    else:
        failed += 1
        print(f"FAILED: {name} {str(found)[:800]}", flush=True)
    return bool(holds)


def skip(name: str, why: str) -> None:
    """Counts a case that cannot be tried here, and says why."""
    global skipped
    skipped += 1
    print(f"skipped: {name}: {why}", flush=True)


def finish(least: int) -> int:
    """Prints how many cases passed, failed and were skipped; the status of the test."""
    global failed
    if not skipped and not failed and passed < least:
        failed += 1
        print(f"FAILED: only {passed} passed, where there were {least}")
    print(f"{passed} passed, {failed} failed" + (f", {skipped} skipped" if skipped else ""))
    return 1 if failed else 0
