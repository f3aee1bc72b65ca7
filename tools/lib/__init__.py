"""What several tools share. Its first import: from then on an interrupt leaves no traceback, also while what takes longer is imported. No byte code is
kept in the repository, whichever way a tool is called.
"""
import signal
import sys

sys.dont_write_bytecode = True

# a shell ignores interrupts for what it runs in the background
INTERRUPTS = signal.getsignal(signal.SIGINT) is signal.default_int_handler
if INTERRUPTS:
    signal.signal(signal.SIGINT, signal.SIG_DFL)
