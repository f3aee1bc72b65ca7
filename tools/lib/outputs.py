"""The files that are written. None is one of the inputs, and what isn't as it was left here is replaced only with `--force`.

    outputs.claim([plan, capture], [csv, outputs.picture(svg)])     before any of them is opened to write
    with outputs.writing(csv) as out: ...                           a new file, which takes the name once it is whole

Files are compared by device and inode, so that neither a link nor another spelling hides one. Of an output that is left `.lqtx/NAME` beside it
keeps inode, length and time. A file that has others now is the user's: one that was put there, or changed. The wrapper's shell reads and writes
these notes too, for the outputs of a run together: `.lqtx/OUT.run`. There the states of plan and capture come first, where they were looked at and nothing
was found that is to be said of them (lib/findings.py).
"""
import contextlib
import os
import shutil
import stat
import time
from typing import IO, Dict, Iterable, Iterator, List, Optional, Tuple

from lib import words
from lib.words import Wrong

# the units that a plan may have, and its groups
UNITS, GROUPS = 16, 8
# of each command of the program, by its number of words: where they name files that are read, and what the outputs' names begin with
COMMANDS = {("run", 4): ([1, 2], 3), ("tap", 6): ([4], 5), ("gen", 4): ([], 3), ("trace", 2): ([1], None)}


class Command:
    """The words of a call of the program: which files it reads, and which it may write."""

    def __init__(self, given: List[str], ending: str = ""):
        places, self.place = COMMANDS.get((given[0] if given else "", len(given)), ([], None))
        self.words = list(given)
        self.inputs = [given[place] for place in places]
        self.out = None if self.place is None else given[self.place] + ending
        if self.out is not None:
            self.words[self.place] = self.out

    def with_out(self, out: str) -> "Command":
        """The same with outputs whose names begin otherwise."""
        return Command([*self.words[: self.place], str(out), *self.words[self.place + 1 :]] if self.out is not None else self.words)

    def tails(self, units: int = UNITS, groups: int = GROUPS) -> List[str]:
        """What follows OUT in the names of the files that it may write: `gen` writes its capture to the very name."""
        of_run = [*(f".{number}.pcap" for number in range(units)), *(f".mq{number}.pcap" for number in range(groups)), ".fates", ".times"]
        return {"run": of_run, "tap": [".pcap", ".fates"], "gen": [""]}[self.words[0]] if self.out is not None else []

    def files(self, *counts: int) -> List[str]:
        return [f"{self.out}{tail}" for tail in self.tails(*counts)]

    @property
    def names(self) -> str:
        """The names of its outputs, as they are said."""
        return self.out if self.words[0] == "gen" else f"{self.out}.*"

    note = property(lambda self: f"{self.out}.run")

    def written(self) -> Dict[str, str]:
        """The outputs that are there, by what follows OUT in their names, each with its state."""
        states = {tail: state_of(f"{self.out}{tail}") for tail in self.tails()}
        return {tail: state for tail, state in states.items() if state}

    def refuse_foreign(self, *counts: int) -> None:
        refuse_foreign(self.files(*counts), self.note)

    def state_of_inputs(self) -> str:
        """Of each input the device and the state; nothing where one is no file."""
        states = [(name, state_of(name)) for name in self.inputs]
        return "".join(f"{os.stat(name).st_dev}.{state} " for name, state in states) if all(state for _, state in states) else ""

    def leave(self, before: Dict[str, str], looked_at: str = "") -> None:
        """Notes which outputs a run left: those that were others before, and those that an earlier one left. LOOKED_AT is the state of its inputs."""
        own = noted(self.note) if self.out is not None else []
        left = [f"{self.out}{tail}" for tail, state in self.written().items() if state != before.get(tail) or state in own]
        if left:
            note(self.note, left, looked_at)


def picture(path: str) -> str:
    """A picture, which is SVG: another ending would be that of another format."""
    if not str(path).endswith(".svg"):
        raise Wrong(f"{path}: a picture is written as SVG, so its name ends in .svg")
    return str(path)


def file_of(path: str) -> Optional[Tuple]:
    """What tells a file from others, also one that isn't there yet: then by its folder. None of a terminal or a pipe, which have no bytes to lose."""
    try:
        of = os.stat(path)
        return (of.st_dev, of.st_ino) if stat.S_ISREG(of.st_mode) or stat.S_ISBLK(of.st_mode) else None
    except (OSError, ValueError):
        # where it would be once its folder is made
        real = os.path.realpath(path)
    if os.path.exists(real):
        return file_of(real)
    folder, name = os.path.split(real)
    try:
        of = os.stat(folder)
        return (of.st_dev, of.st_ino, name)
    except (OSError, ValueError):
        return (folder, name)


def spelled(path: str) -> str:
    """A path as its folders spell it: where names of another case are the same file, FUSE may give each an inode of its own."""
    folder, name = os.path.split(os.path.realpath(path))
    with contextlib.suppress(OSError):
        names = os.listdir(folder)
        name = name if name in names else next((other for other in names if other.casefold() == name.casefold()), name)
    return os.path.join(spelled(folder), name) if name else folder


def file_exists_as(path: str, opened: int) -> bool:
    """Whether a name is still that of a file or folder that was opened."""
    try:
        one, other = os.stat(path), os.fstat(opened)
    except OSError:
        return False
    return (one.st_dev, one.st_ino) == (other.st_dev, other.st_ino)


def refuse_inputs(inputs: Iterable[str], files: Iterable[str]) -> None:
    """Wrong where an output is one of the inputs, or one of the other outputs."""
    inputs = list(map(str, inputs))
    read, taken, small = {file_of(name): name for name in inputs}, {}, {os.path.realpath(name).casefold(): name for name in inputs}
    for output in map(str, files):
        file = file_of(output)
        if file is None:
            continue
        found, other = read.get(file), small.get(os.path.realpath(output).casefold())
        if not found and other and os.path.exists(output) and spelled(output) == spelled(other):
            found = other
        if found:
            raise Wrong(f"{output} is an input" + (f", {found}" if output != found else "") + ": the outputs need another name")
        if file in taken:
            raise Wrong(f"{output} and {taken[file]} are one file: each output needs a name of its own")
        taken[file] = output


def state_of(path: str) -> Optional[str]:
    """Inode, length and time of a file, as `stat --printf %i.%s.%.9Y` has them; nothing of what has no bytes to lose."""
    try:
        of = os.stat(path)
    except (OSError, ValueError):
        return None
    if not stat.S_ISREG(of.st_mode) and not stat.S_ISBLK(of.st_mode):
        return None
    return f"{of.st_ino}.{of.st_size}.{of.st_mtime_ns // 10**9}.{of.st_mtime_ns % 10**9:09}"


def note_of(name: str) -> str:
    folder, base = os.path.split(str(name))
    return os.path.join(folder, ".lqtx", base)


def noted(name: str) -> List[str]:
    try:
        with open(note_of(name), encoding="ascii") as file:
            return file.read().split()
    except (OSError, ValueError):
        return []


def note(name: str, files: Iterable[str], looked_at: str = "") -> None:
    """Notes how files are left. Where that can't be written they count as the user's."""
    with contextlib.suppress(OSError):
        os.makedirs(os.path.dirname(note_of(name)), exist_ok=True)
        with open(note_of(name), "w", encoding="ascii") as file:
            file.write(looked_at + "".join(f"{state} " for state in map(state_of, files) if state) + "\n")


def is_foreign(path: str, name: str) -> bool:
    """Whether a file is there that has bytes, and isn't as it was left here."""
    state = state_of(path)
    return state is not None and not (os.path.isfile(path) and not os.path.getsize(path)) and state not in noted(name)


def refuse_foreign(files: Iterable[str], name: Optional[str] = None) -> None:
    found = [] if words.forced else [str(file) for file in files if is_foreign(file, name or file)]
    if found:
        are = "is there, and wasn't" if len(found) == 1 else "are there, and weren't"
        raise Wrong(f"{', '.join(found)} {are} left so by an earlier call: --force overwrites {'it' if len(found) == 1 else 'them'}")


def claim(inputs: Iterable[str], files: Iterable[str]) -> None:
    """Refuses outputs that are inputs or foreign."""
    files = list(files)
    refuse_inputs(inputs, files)
    refuse_foreign(files)


@contextlib.contextmanager
def writing(path: str, mode: str = "w", newline: Optional[str] = None) -> Iterator[IO]:
    """A file that is written. A new one beside it is renamed once it is whole; a terminal or a pipe is written itself. A fault names it, also a full disk."""
    path, target = str(path), os.path.realpath(path)
    folder, is_there = os.path.dirname(target), os.path.exists(target)
    is_beside = os.access(folder, os.W_OK) and (os.path.isfile(target) or not is_there)
    place = os.path.join(folder, f".lqtx.{os.getpid()}.{time.monotonic_ns()}") if is_beside else target
    try:
        with open(place, mode.replace("w", "x") if is_beside else mode, encoding=None if "b" in mode else "utf-8", newline=newline) as file:
            yield file
        if is_beside:
            if is_there:
                shutil.copymode(target, place)
            os.replace(place, target)
        note(path, [path])
    except BaseException as fault:
        if is_beside:
            with contextlib.suppress(OSError):
                os.unlink(place)
        if isinstance(fault, OSError) and fault.filename in (None, place):
            fault.filename, fault.filename2 = path, None
        raise


def write(path: str, whole) -> None:
    """Writes a text, or bytes."""
    with writing(path, "wb" if isinstance(whole, bytes) else "w") as file:
        file.write(whole)
