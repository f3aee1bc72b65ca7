"""What an exit code of `lqtx` is about, on standard error: which word or file, and what mends it. The wrapper and the installed program say it."""
import functools
import os
import pathlib
import re
import signal
import subprocess
import sys

from lib import ways_out, words

TOOLS = pathlib.Path(__file__).resolve().parent.parent
MEANINGS = {6: "not enough memory (exit code 6)", 9: "a word isn't UTF-8 (exit code 9)"}
say = functools.partial(words.say, "lqtx")


def why_not_read(file):
    if os.access(file, os.R_OK) and not os.path.isdir(file):
        return None
    return f"a folder, not a file: {file}" if os.path.isdir(file) else f"can't be read: {file}" if os.path.exists(file) else f"there is no file {file}"


def why_not_written(file):
    folder = os.path.dirname(file) or "."
    if not os.path.isdir(folder) or os.path.isdir(file):
        return f"a folder, not a file: {file}" if os.path.isdir(file) else f"there is no folder {folder}"
    return None if os.access(file if os.path.exists(file) else folder, os.W_OK) else f"can't be written: {file}"


def say_signal(number):
    name = {int(known): known.name[3:] for known in signal.Signals}.get(number, "")
    say(f"ended by signal {number} ({name}); the outputs may not be whole")


def explain_fault(command):
    """Which file a fault is about, as far as that can be seen from outside."""
    say("a file or standard output can't be opened, read or written (exit code 5)")
    faults = filter(None, [*map(why_not_read, command.inputs), *map(why_not_written, command.files())])
    say(next(faults, None) or full_disk(command) or "its files can be opened: the disk may be full, or standard output closed")


def full_disk(command):
    """The file for which there was no room: the last one that was written."""
    if command.out is None:
        return None
    room = os.statvfs(os.path.dirname(command.out) or ".")
    if room.f_bavail * room.f_frsize > 65536 and (room.f_favail or not room.f_files):
        return None
    files = [f"{command.out}{tail}" for tail in command.written()]
    return f"the disk is full: {max(files, key=os.path.getmtime) if files else command.names}"


def say_found(command, found, code):
    """What is found of the capture of a run: of a plan that is refused only that the two are exchanged, and of a capture that is refused `explain` says why."""
    for finding in found if code == 0 else [finding for finding in found if finding.is_refused and code == 3]:
        say(f"{command.inputs[-1]}: {finding}")


def told_by(tool, *given):
    return subprocess.run([sys.executable, "-B", TOOLS / tool, *given], stdin=subprocess.DEVNULL, capture_output=True, encoding="utf-8", errors="replace")


def explain_capture(command, program):
    """The line with the reason has gone to the caller: it is asked for once more, where the program can be run again."""
    capture = next(iter(command.words[{"run": 2, "tap": 4}.get(command.words[0], len(command.words)) :]), "")
    if os.path.isfile(capture) and program:
        said = subprocess.run([program, *command.words], stdin=subprocess.DEVNULL, stdout=subprocess.PIPE, stderr=subprocess.DEVNULL).stdout
        reason = re.search(rb"^capture refused: (\d+) ", said, re.M)
        say(ways_out.way_out(int(reason[1]) if reason else None, capture))


def explain(command, program, code, pages):
    """PAGES say where the words and the reasons for refusing a plan are explained, by their exit codes."""
    meanings = MEANINGS | pages
    if code == 3:
        said = told_by("check-plan", command.words[1])
        print(said.stdout, end="", file=sys.stderr)
        # it ends with 3 where it found what is wrong
        if said.returncode != 3:
            say(meanings[3])
    elif code in meanings:
        say(meanings[code])
    elif code == 4:
        explain_capture(command, program)
    elif code == 5:
        explain_fault(command)
    elif code == 7 and os.path.isfile(command.words[1]):
        # which step failed, where the seat stood, and what can be done there
        print(re.sub("^show-schedule: ", "lqtx: ", told_by("show-schedule", "--why", command.words[1]).stderr, flags=re.M), end="", file=sys.stderr)
    elif code > 128:
        say_signal(code - 128)
