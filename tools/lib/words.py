"""How a tool begins and ends: its words, its help, its exit code, and one line for whatever may go wrong outside of it.

    words.run("check-plan", __doc__, main)

`main` gets the words of the command line and returns the exit code, or nothing for 0. `--help` prints the tool's own text to standard output
and ends with 0; `Wrong` ends with 2, `Failed` with 1 or its own code. No traceback reaches a user: a fault of a file, of memory or of
standard output is one line, and an interrupt ends the tool by its signal, so that a loop in a shell ends with it. A tool imports this module
before what takes longer to import (lib/__init__.py).
"""
import os
import shutil
import signal
import subprocess
import sys
from typing import Callable, List, Optional

from lib import INTERRUPTS

# a reader that has had enough ends the tool, as it ends others
signal.signal(signal.SIGPIPE, signal.SIG_DFL)

Main = Callable[[List[str]], Optional[int]]
# whether `--force` was among the words, which every tool takes that writes files: outputs that aren't its own are overwritten
forced = False


class Wrong(Exception):
    """Words that a tool doesn't take: a line, and exit code 2. Without a line the usage is said."""


class Failed(Exception):
    """Why a tool can't do what it is to do: a line, and its exit code."""

    def __init__(self, line: object, code: int = 1):
        super().__init__(line)
        self.code = code


def say(tool: str, line: object) -> None:
    """A line on standard error, which may be closed or full."""
    try:
        print(f"{tool}: {line}\n", end="", file=sys.stderr, flush=True)
    except (OSError, ValueError):
        pass


def usage_of(about: str) -> str:
    """The lines of a tool's text that show how it is called, or else its first."""
    shown = [line for line in about.splitlines() if line.startswith(("    tools/", "    lqtx-"))]
    return "\n".join(shown) if shown else about.partition("\n")[0]


def line_of(fault: OSError) -> str:
    """A fault of a file, as a line: its name, where it is known, and what the system says."""
    said = fault.strerror or str(fault)
    names = [str(name) for name in (fault.filename, fault.filename2) if name is not None]
    return ": ".join([*(names or ["standard output"]), said])


def counted(count: int, one: str, many: str) -> str:
    """So many of something, in words: `counted(1, "packet was", "packets were")`."""
    return f"{count:,} {one if count == 1 else many}"


def ending_of(fault):
    """How a command that was called ended, in words."""
    if isinstance(fault, subprocess.TimeoutExpired):
        return f"it hasn't ended in {fault.timeout:g} s"
    return f"it was ended by signal {-fault.returncode}" if fault.returncode < 0 else f"it ended with {fault.returncode}"


def need_program(name: str) -> None:
    """Ends where a program that is to be measured or compared can't be run."""
    if not shutil.which(name):
        raise Failed(f"{name} can't be run: a built program is one in build/ after `./lqtx`, or crates/lqtx/out/lqtx after `rt ci`")


def leave_output() -> None:
    """What couldn't be written isn't tried again when the interpreter ends."""
    with open(os.devnull, "wb") as nothing:
        for number in (1, 2):
            try:
                os.dup2(nothing.fileno(), number)
            except OSError:
                pass


def end_by(number: int) -> None:
    """Ends by a signal itself: a shell's loop goes on behind a mere exit code."""
    sys.stdout = sys.stderr = None
    signal.signal(number, signal.SIG_DFL)
    os.kill(os.getpid(), number)


def end_with_parent(number: int) -> None:
    """This process gets a signal once its parent has ended, however that ended."""
    import ctypes  # takes long to import, and few need it

    pdeathsig = 1
    ctypes.CDLL(None).prctl(pdeathsig, number)


SIGNALS = (signal.SIGHUP, signal.SIGINT, signal.SIGQUIT, signal.SIGTERM)


def ignore_signals() -> None:
    for number in SIGNALS:
        signal.signal(number, lambda *_: None)


def heed_signals() -> None:
    """From now on a signal ends what is under way, and is known by its number. One is enough: a terminal's goes to all, and a caller sends its own besides."""

    def on_signal(number, _):
        ignore_signals()
        raise KeyboardInterrupt(number)

    for number in SIGNALS:
        signal.signal(number, on_signal)


def options_of(given: List[str]) -> List[str]:
    """The words before the one that ends the options."""
    return given[: given.index("--")] if "--" in given else given


def without_force(given: List[str]) -> List[str]:
    global forced
    options = options_of(given)
    forced = "--force" in options
    return [option for option in options if option != "--force"] + given[len(options) :]


def code_of(tool: str, about: str, main: Main, given: List[str]) -> int:
    """The exit code of a tool, once what it printed is written."""
    try:
        # a name may have bytes that aren't UTF-8: it goes out as it came
        sys.stdout.reconfigure(errors="surrogateescape")
        given = without_force(given)
        if {"--help", "-h"}.intersection(options_of(given)):
            print(about.strip())
            code = 0
        else:
            code = main(given)
        sys.stdout.flush()
        return code or 0
    except Wrong as fault:
        if str(fault):
            say(tool, fault)
        else:
            print(usage_of(about), file=sys.stderr)
        return 2
    except Failed as fault:
        say(tool, fault)
        return fault.code
    except BrokenPipeError:
        leave_output()
        return 128 + signal.SIGPIPE
    except OSError as fault:
        say(tool, line_of(fault))
        leave_output()
        return 1
    except UnicodeError as fault:
        say(tool, f"a text isn't UTF-8: {fault}")
        return 1
    except (subprocess.CalledProcessError, subprocess.TimeoutExpired) as fault:
        say(tool, f"{fault.cmd if isinstance(fault.cmd, str) else ' '.join(map(str, fault.cmd))}: {ending_of(fault)}")
        return 1
    except MemoryError:
        say(tool, "not enough memory")
        return 6


def run(tool: str, about: str, main: Main) -> None:
    """Runs a tool on the words of the command line, and ends with its exit code."""
    try:
        if INTERRUPTS and signal.getsignal(signal.SIGINT) is signal.SIG_DFL:
            # what is open is closed, and what is of use only to this run is removed
            signal.signal(signal.SIGINT, signal.default_int_handler)
        code = code_of(tool, about, main, sys.argv[1:])
        if INTERRUPTS:
            # nothing is left to be closed but by the interpreter's end
            signal.signal(signal.SIGINT, signal.SIG_DFL)
    except KeyboardInterrupt as interrupt:
        # a tool that catches other signals says which
        end_by(interrupt.args[0] if interrupt.args else signal.SIGINT)
    sys.exit(code)
