"""The program of the same sources without its proof: how it is made, what it answers while the proof is under way, and whether the proved one agrees.

Checks at run time stop it at an index out of bounds, an overflow, a cast that loses bits or a zero divisor. Its outputs are OUT.unproved.* and never OUT.*.
"""
import contextlib
import functools
import hashlib
import json
import os
import pathlib
import re
import signal
import subprocess
import sys
import tempfile

from lib import kept, without_proof
from lib.crates import alone_in
from lib.outputs import Command, file_of, is_foreign
from lib.words import Failed, ignore_signals, say

NOT_COMPARED = {5: "a file can't be opened, read or written", 6: "not enough memory"}
SMALL = 4 * 2**20  # bytes of inputs
FREE = 3 * 2**30  # bytes of memory that are to be free where the proof is under way too
tell = functools.partial(say, "lqtx")


def digest(path):
    return hashlib.sha256(pathlib.Path(path).read_bytes()).hexdigest()


def digests(command):
    """The outputs that are there, by what follows OUT in their names."""
    return {tail: digest(f"{command.out}{tail}") for tail in command.written()}


def kind_for(command, sources):
    """Which program without a proof is to answer: for small inputs that whose compiling takes less time, unless the other is there."""
    sizes = [os.path.getsize(name) if os.path.isfile(name) else SMALL + 1 for name in command.inputs]
    return kept.FOR_SMALL if command.words and sum(sizes) <= SMALL and not kept.is_made(sources.program(kept.UNPROVED)) else kept.UNPROVED


def make(program):
    """Makes it unless it is there. Only one is made at a time: a second call waits, and takes what the first made."""
    if kept.is_made(program):
        return
    try:
        program.parent.mkdir(parents=True, exist_ok=True)
        with alone_in(program.parent, tell, "program without a proof is compiled"):
            if not kept.is_made(program):
                kind, _, sums = program.name.partition(".")
                level = "-O0" if kind == kept.FOR_SMALL else "-O1"
                without_proof.make("lqtx", program, level=level, module=program.with_name(f"{kept.MODULE}.{sums}"))
                for old in (kept.UNPROVED, kept.FOR_SMALL, kept.MODULE):
                    kept.drop_old(old)
    except OSError as fault:
        raise without_proof.NotMade(f"{program.parent} can't be written; it would be kept there ({fault.strerror})") from fault


def run(program, words):
    """Runs a program on the caller's standard input: its exit code and what it wrote to standard output. It ends with this one."""
    said = subprocess.run([program, *words], stdout=subprocess.PIPE, stderr=subprocess.DEVNULL)
    return said.returncode if said.returncode >= 0 else 128 - said.returncode, said.stdout


def run_apart(program, command):
    """Runs a program: its exit code, what it wrote to standard output, and a digest of each output. These are moved once they are whole."""
    if command.out is None:
        return (*run(program, command.words), {})
    folder = pathlib.Path(command.out).parent
    if not folder.is_dir():
        # inputs are read before an output is made: the folder is made once they were accepted
        code, wrote = run(program, command.words)
        if code != 5:
            return code, wrote, {}
        with contextlib.suppress(OSError):
            folder.mkdir(parents=True)
    try:
        room = tempfile.TemporaryDirectory(prefix=".lqtx.", dir=folder)
    except OSError:
        return (*run(program, command.words), {})
    with room:
        own = command.with_out(os.path.join(room.name, os.path.basename(command.out)))
        code, wrote = run(program, own.words)
        # the rest takes no time, and an answer that is said has its note
        ignore_signals()
        written, before = digests(own), command.written()
        for tail in written:
            os.replace(f"{own.out}{tail}", f"{command.out}{tail}")
        command.leave(before)
    return code, wrote, written


def why_not(command):
    """Why there is no answer before the proof, if there is none."""
    files = {file_of(file) for file in command.files()}
    for name in command.inputs:
        if not os.path.isfile(name):
            return f"{name} is no regular file and is read once, by the proved program"
        if file_of(name) in files:
            return f"{name} has the name of an output of the program without its proof"
    foreign = [file for file in command.files() if is_foreign(file, command.note)]
    if foreign:
        return f"{foreign[0]} is there, and wasn't left so by an earlier call"
    return f"less than {FREE / 2**30:.0f} GB of memory are free beside the proof" if without_proof.free_memory(FREE) < FREE else None


def answer(program, noted, given):
    """Answers on standard error; NOTED is what `compare` reads."""
    command = Command(given, ".unproved")
    reason = why_not(command)
    if reason:
        tell(f"{reason}: there is no answer before the proof")
        return
    try:
        make(program)
    except (without_proof.NotMade, without_proof.NoKit) as fault:
        tell(f"there is no answer before the proof, since the program wasn't compiled without it: {str(fault).splitlines()[0][:300]}")
        return
    before, inputs = sorted(command.written()), {name: digest(name) for name in command.inputs}
    code, wrote, written = run_apart(program, command)
    ignore_signals()
    wrote = wrote.decode("utf-8", "replace")
    for line in [*wrote.splitlines(), *[f"it ends with exit code {code}"] * bool(code)]:
        print(f"not proved yet: {line}", file=sys.stderr)
    beside = f"; it wrote {command.names}" if written else ""
    tell(f"that is the answer of the program without its proof, which has checks at run time{beside}. The proof goes on, and then the proved program answers")
    part = noted.with_name(f"{noted.name}.part")
    part.write_text(json.dumps({"code": code, "wrote": wrote, "inputs": inputs, "written": written, "old": before}), encoding="utf-8")
    part.rename(noted)


def has_one_sender(words):
    """Whether the words have one answer alone: with several senders, and in a tap, fates vary from run to run."""
    if words[0] != "run":
        return words[0] in ("trace", "gen")
    try:
        import tomllib

        senders = tomllib.loads(pathlib.Path(words[1]).read_text(encoding="utf-8")).get("senders", 1)
    except (ImportError, OSError, ValueError):
        return False
    return senders == 1


def difference(was, proved, status, command):
    """How the two answers differ. The proved program answers once more, in a folder of its own: its standard output has gone to the caller."""
    with tempfile.TemporaryDirectory(prefix="compare.", dir=kept.KEPT) as folder:
        own = command.with_out(os.path.join(folder, "o"))
        code, wrote = run(proved, own.words)
        wrote, written = wrote.decode("utf-8", "replace"), digests(own)
    if was["code"] != status:
        return f"its exit code was {was['code']}, and the proved program's {status}"
    if was["wrote"] != wrote:
        return f"on standard output it wrote {was['wrote']!r}, and the proved program {wrote!r}"
    names = sorted(tail for tail in {*was["written"], *written} if was["written"].get(tail) != written.get(tail))
    return f"its outputs differ: {', '.join(names)}" if names or code != status else None


def compare(noted, proved, status, given):
    """Says how the two answers differ; 1 where they must not."""
    was, command, unproved = json.loads(noted.read_text(encoding="utf-8")), Command(given), Command(given, ".unproved")
    if any(not os.path.isfile(name) or digest(name) != before for name, before in was["inputs"].items()):
        stay = f"; {unproved.names} stay" if was["written"] else ""
        tell(f"an input changed since the answer before the proof: the two aren't compared{stay}")
        return 0
    for code in (was["code"], status):
        if code in NOT_COMPARED or code > 128 and code != 128 + signal.SIGABRT:
            tell(f"the answer before the proof isn't compared with the proved program's: exit code {code} ({NOT_COMPARED.get(code, 'ended by a signal')})")
            return 0
    what = difference(was, proved, status, command) if has_one_sender(given) else None
    if what:
        tell(f"the program without its proof gave another answer than the proved program, which must not happen with one sender: {what} (exit code 1)")
        return 1
    left = []
    # what the proved program made alike goes, unless it was there before
    for tail, before in sorted(was["written"].items()):
        with contextlib.suppress(OSError):
            if digest(f"{command.out}{tail}") != before:
                left.append(tail)
            elif tail not in was["old"] and digest(f"{unproved.out}{tail}") == before:
                os.unlink(f"{unproved.out}{tail}")
    if left:
        tell(f"{unproved.names} of the program without its proof stay, since they differ from those of the proved program, "
             f"as they may with several senders: {', '.join(left)}")  # fmt: skip
    return 0


def try_itself(command):
    """Runs the program by `rt try`, which keeps nothing: on the caller's paths, within its limits."""
    files = [*command.inputs, command.out]
    given = [os.path.abspath(word) if word in files and place else word for place, word in enumerate(command.words)]
    how = {"cwd": kept.TOP / "crates/lqtx", "stderr": subprocess.PIPE, "text": True, "start_new_session": True}
    process = subprocess.Popen(["rt", "try", "--steps", "0", "--", *given], **how)
    try:
        said = process.communicate()[1]
    finally:
        without_proof.end_group(process)
    if "checked: ended" in said or re.search(r"^run=ended", said, re.M):
        return process.returncode
    if "within the time limit" in said:
        # of plan and capture the last is the long one
        what = [f"{name} is too large for it" for name in command.inputs[-1:]] or ["that is too much for it"]
        tell(f"{what[0]}: it didn't end within 60 seconds, which is the limit of `rt try`")
    else:
        print("\n".join(without_proof.faults_in(said)[:20]), file=sys.stderr)
    raise Failed("the program without its proof gave no answer")
