"""The first module that each tool imports: it asks for the version of Python, in words that each Python reads. Until `run` of command.py
takes the signals, an interrupt ends the tool without a word."""

import signal
import sys

if sys.version_info < (3, 9):
    sys.stderr.write("%s: Python 3.9 or later is needed, and this is %s\n" % (sys.argv[0], sys.version.split()[0]))
    sys.exit(2)

if signal.getsignal(signal.SIGINT) == signal.default_int_handler:
    signal.signal(signal.SIGINT, signal.SIG_DFL)
