"""`lqtx` as tools/install puts it: the proved program, with what is said on standard error of its inputs. It builds nothing."""
import os
import pathlib
import signal
import subprocess
import sys

from lib import ends, findings, outputs, words
from lib.words import Failed

TOP = pathlib.Path(__file__).resolve().parent.parent.parent
PROGRAM, MANUAL = TOP / "program", "the manual: man lqtx"


def judge_outputs(command):
    """Refuses outputs that are inputs or the user's own files, and makes their folder where the inputs can be read."""
    outputs.refuse_inputs(command.inputs, command.files())
    folder = os.path.dirname(command.out or "")
    if folder and not os.path.exists(folder) and all(map(os.path.isfile, command.inputs)):
        os.makedirs(folder)
        outputs.refuse_inputs(command.inputs, command.files())
    if command.out is not None:
        command.refuse_foreign()


def main(given):
    if not PROGRAM.exists():
        raise Failed("the proved program wasn't there when this was installed: in the repository, ./lqtx proves and builds it, and then tools/install puts it here")
    if os.environ.get("LQTX_SHOW_PROGRAM"):
        print(PROGRAM)
        return 0
    command = outputs.Command(given)
    judge_outputs(command)
    found = findings.found_of(*reversed(command.inputs)) if given[:1] == ["run"] and command.inputs else []
    before = command.written()
    code = subprocess.run([PROGRAM, *given], preexec_fn=lambda: words.end_with_parent(signal.SIGTERM)).returncode
    command.leave(before)
    ends.say_found(command, found, code)
    ends.explain(command, PROGRAM, code, {2: MANUAL, 3: MANUAL})
    if code < 0:
        words.end_by(-code)
    return code


def run():
    try:
        # help is asked of the program
        sys.exit(words.code_of("lqtx", __doc__, lambda given: main(given[1:]), ["--", *sys.argv[1:]]))
    except KeyboardInterrupt:
        words.end_by(signal.SIGINT)
