"""What `./lqtx` does unless a built program can be started at once: it judges words and outputs, builds the program, runs it, and explains its exit code.

    python3 tools WORD...                           as ./lqtx
    python3 tools --after STATUS SIGNAL WORD...     explains the program's end once the shell has run it with these words; SIGNAL is the one that it got, or 0
    python3 tools --answer PROGRAM NOTE WORD...     the answer of the program without its proof, on standard error, while the proof is under way
"""
import contextlib
import itertools
import os
import pathlib
import re
import shutil
import subprocess
import sys

from lib import answers, ends, kept, outputs, without_proof, words
from lib.crates import NoKit
from lib.words import Failed, Wrong

TOP, say = kept.TOP, answers.tell
PAGES = {
    2: f"the manual: man {TOP}/docs/lqtx.1, and {TOP}/README.md", 3: "docs/FORMATS.md, 'Plans', explains each reason",
}  # fmt: skip


class Call:
    """A call of the wrapper: its options, and the words of the program with its outputs."""

    def __init__(self, given, ending=".unproved"):
        options = list(itertools.takewhile(("--lqtx", "--unproved", "--force").__contains__, given))
        self.is_proved, words.forced = "--unproved" not in options, "--force" in options
        self.given = given[len(options) :]
        self.command = outputs.Command(self.given, "" if self.is_proved else ending)
        self.kind = kept.PROVED if self.is_proved else kept.UNPROVED
        # whether `rt try` runs the program, and the note of the answer before the proof
        self.is_tried, self.note = False, kept.KEPT / f"answer.{os.getpid()}"
        # what is found of the capture, once that was looked for; and the state in which its inputs are clean
        self.found, self.looked_at = None, ""

    def look(self):
        """Looks for what is to be known of the capture. A fault of this tells nothing of the run."""
        if self.found is None:
            self.found = []
            if self.given[:1] in (["run"], ["tap"]) and self.command.inputs:
                with contextlib.suppress(Exception):
                    from lib import findings

                    state = self.command.state_of_inputs()
                    self.found = findings.found_of(*reversed(self.command.inputs)) if self.given[0] == "run" else []
                    self.looked_at = state if not self.found else ""

    def say_found(self, code=0):
        """Says it, once."""
        ends.say_found(self.command, self.found or [], code)
        self.found = []


def judge_outputs(call):
    """Wrong where an output has no name of its own, is an input, or is there and isn't as it was left."""
    command = call.command
    if command.out is None:
        return
    given = call.given[command.place]
    if re.search(r"(^|/)\.{0,2}\Z", given):
        raise Wrong(f"OUT is the beginning of the outputs' names, and {given} is a folder: write for example {given.rstrip('/') if given.strip('/') else ''}/o")
    outputs.refuse_inputs(command.inputs, command.files())
    try:
        command.refuse_foreign()
    except Wrong:
        counts = ()
        # where the tools can read the plan, only the files of its units count
        with contextlib.suppress(Exception):
            from lib import plans

            plan = plans.read(command.words[1])
            counts = plan.units, len(plan.station)
        command.refuse_foreign(*counts)


def judge_words(given):
    """Ends where it can't be that words or inputs are right, by the usage line as the program has it: nothing has to be built for that."""
    try:
        text = (TOP / "crates/lq_files/src/refusal.rt").read_text(encoding="utf-8")
        usage = re.search(r'^ *"(usage: lqtx .*)\\n"$', text, re.M)[1]
    except (OSError, TypeError):
        return
    forms = {(form.split()[1], len(form.split()) - 1) for form in usage[len("usage: ") :].split(" | ")}
    if (given[0] if given else "", len(given)) not in forms or any(word[:1] in ("", "-") for word in given):
        print(usage)
        say(PAGES[2])
        raise SystemExit(2)
    fault = next(filter(None, map(ends.why_not_read, outputs.Command(given).inputs)), None) if given[0] in ("run", "trace") else None
    if fault:
        say(fault)
        raise SystemExit(5)


def ended(command, meanwhile=lambda: None, **how):
    """The exit code of a command, which a signal to this process ends too."""
    process = subprocess.Popen(command, **how)
    try:
        meanwhile()
        code = process.wait()
    except KeyboardInterrupt:
        process.terminate()
        process.wait()
        raise
    return code if code >= 0 else 128 - code


def build(call, sources):
    """Proves and builds the program. Where there are words, the program without its proof answers them meanwhile."""
    program = sources.program(kept.PROVED)
    part = program.with_name(f"{program.name}.{os.getpid()}")
    try:
        with contextlib.ExitStack() as stack:
            if call.given:
                unproved = sources.program(answers.kind_for(outputs.Command(call.given), sources))
                command = [sys.executable, "-S", "-B", TOP / "tools", "--answer", unproved, call.note, *call.given]
                beside = subprocess.Popen(command, stdout=subprocess.DEVNULL)
                stack.callback(beside.wait)
                stack.callback(beside.terminate)
            code = ended([TOP / "tools/build", part], stdin=subprocess.DEVNULL, stdout=subprocess.DEVNULL)
    except KeyboardInterrupt:
        if call.command.out is not None and call.note.exists():
            say(f"{outputs.Command(call.given, '.unproved').names} is what the program without its proof wrote; the proved program wrote nothing")
        raise
    if code:
        raise SystemExit(1)
    # what changed meanwhile wasn't proved
    if kept.Sources().checksum != sources.checksum:
        part.unlink()
        raise Failed("not built: the sources changed meanwhile")
    part.replace(program)
    kept.drop_old(kept.PROVED)


def make_unproved(call, sources):
    """Compiles the program without its proof. With a kit by which it can't be kept `rt try` runs it."""
    again = sources.program(kept.MODULE).is_file()
    say(f"compiling the program without its proof, once: {'half a minute' if again else 'one or two minutes'} of a processor")
    try:
        answers.make(sources.program(call.kind))
    except without_proof.FormRefused as fault:
        say(f"this kit doesn't make a program that can be kept, so `rt try` runs it each time: {str(fault).splitlines()[0][:300]}")
        call.is_tried = True
    except (without_proof.NotMade, NoKit) as fault:
        print(fault, file=sys.stderr)
        raise Failed("the program wasn't compiled without its proof") from fault


def run_once(call, program):
    """Runs the program; notes which outputs it left."""
    before = call.command.written()
    try:
        return answers.try_itself(call.command) if call.is_tried else ended([program, *call.command.words], call.look)
    except KeyboardInterrupt as interrupt:
        ends.say_signal(interrupt.args[0])
        raise
    finally:
        call.command.leave(before, call.looked_at)


def run_program(call, program):
    """Runs it again where it came to its outputs, whose folder isn't there: it reads its inputs before it makes one."""
    code, command = run_once(call, program), call.command
    folder = os.path.dirname(command.out) if command.out is not None else ""
    if code != 5 or not folder or os.path.exists(folder) or any(not os.path.isfile(name) or ends.why_not_read(name) for name in command.inputs):
        return code
    try:
        os.makedirs(folder)
    except OSError:
        return code
    judge_outputs(call)
    return run_once(call, program)


def built(call, sources):
    """The program, made unless it is there."""
    if not call.is_proved:
        call.kind = answers.kind_for(call.command, sources)
    program = sources.program(call.kind)
    if not kept.is_made(program):
        if not os.environ.get("LQTX_SHOW_PROGRAM"):
            judge_words(call.given)
        call.look()
        call.say_found()
        if not shutil.which("rt"):
            made, make = ("built", "build") if call.is_proved else ("compiled", "compile")
            raise Failed(f"the program isn't {made}, and there is no 'rt' on the PATH to {make} it")
        build(call, sources) if call.is_proved else make_unproved(call, sources)
    sources.tell_shell(call.kind)
    return program


def answer_of(call, program):
    """Runs the program and explains its exit code; the exit code of the whole."""
    if not call.is_proved:
        writes = f"; it writes {call.command.names}" if call.command.out is not None else ""
        say(f"this program is not proved: checks stop it at an overflow or an index out of bounds, and nothing else is known of it{writes}")
    code = run_program(call, program)
    call.say_found(code)
    ends.explain(call.command, None if call.is_tried else program, code, PAGES)
    # with one sender both write the same, byte for byte
    if call.note.exists():
        try:
            return answers.compare(call.note, program, code, call.given) or code
        except OSError as fault:
            say(f"the answers aren't compared: {words.line_of(fault)}")
    return code


def main(given):
    if given[:1] == ["--after"]:
        call, code, number = Call(given[3:], ""), int(given[1]), int(given[2])
        if number:
            ends.say_signal(number)
            raise KeyboardInterrupt(number)
        ends.explain(call.command, kept.KEPT / (kept.KEPT / f"current.{call.kind}").read_text(encoding="utf-8").split("\n")[0], code, PAGES)
        return code
    if given[:1] == ["--answer"]:
        try:
            return answers.answer(pathlib.Path(given[1]), pathlib.Path(given[2]), given[3:])
        except OSError as fault:
            say(f"there is no answer before the proof: {words.line_of(fault)}")
            return 0
    call = Call(given)
    judge_outputs(call)
    try:
        program = built(call, kept.Sources())
        if not os.environ.get("LQTX_SHOW_PROGRAM"):
            return answer_of(call, program)
        if call.is_tried:
            raise Failed("there is no program to run many times")
        print(program)
    finally:
        with contextlib.suppress(OSError):
            call.note.unlink()


def run():
    words.heed_signals()
    try:
        # help is asked of the program
        sys.exit(words.code_of("lqtx", __doc__, lambda given: main(given[1:]), ["--", *sys.argv[1:]]))
    except KeyboardInterrupt as interrupt:
        words.end_by(interrupt.args[0])
