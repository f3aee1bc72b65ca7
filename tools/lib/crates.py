"""The crates of the repository, as crates.txt has them, and the toolchain that proves them."""
import contextlib
import fcntl
import hashlib
import os
import pathlib
import shutil
import subprocess

from lib.words import Failed

TOP = pathlib.Path(__file__).resolve().parent.parent.parent
CRATES = TOP / "crates.txt"


class NoKit(Exception):
    """There is no `rt`, or its kit lacks a program."""


def uses_of_crates():
    """What each crate may use."""
    uses = {}
    for line in CRATES.read_text(encoding="utf-8").splitlines():
        head, colon, tail = line.partition("#")[0].partition(":")
        if colon and head.split():
            uses[head.split()[0]] = tail.split()
    return uses


def in_order(uses, crate):
    """A crate and those of the repository below it, lowest first."""
    found = []

    def visit(name):
        for below in uses[name]:
            if below in uses and below not in found:
                visit(below)
        found.append(name)

    visit(crate)
    return found


def kit():
    """The folder of the toolchain that `rt` is of."""
    found = shutil.which("rt")
    if not found:
        raise NoKit("there is no 'rt' on the PATH")
    return pathlib.Path(os.path.realpath(found)).parent.parent


def link_command(code, program):
    """What makes a program of its code."""
    top = kit()
    words = [f"{top}/bin/rattle-link", "--target", "x86_64-unknown-linux-gnu", "--toolchain", f"{top}/toolchain", "-o", str(program)]
    return [*words, str(code), f"{top}/c/libos_c.a", f"{top}/c/liblibc_c.a"]


def rattle_words(verb, crate, uses, library_of, folders, at_once):
    """What checks or builds a crate in its folder, by so many processes. LIBRARY_OF says where a library is, and FOLDERS where those below are."""
    top, has_main = kit(), (TOP / "crates" / crate / "src/main.rt").is_file()
    words = [f"{top}/bin/rattle", verb, "--crate-name", crate, "src/main.rt" if has_main else "src/lib.rt"]
    for used in ["std", *uses[crate]]:
        words += ["--extern", f"{used}={library_of(used) if used in uses else f'{top}/rlibs/{used}.rlib'}"]
    for folder in [f"{top}/rlibs", *folders]:
        words += ["-L", f"dependency={folder}"]
    words += ["--links", f"{crate}=", "--antt-project", f"{top}/rattle/logic/antt-project.json", "--logic-built", f"{top}/logic_built"]
    return [*words, "--jobs", str(at_once)]


@contextlib.contextmanager
def alone_in(folder, tell, what):
    """Waits until no other process has a folder for itself, and keeps others waiting."""
    lock = os.open(folder, os.O_RDONLY)
    try:
        try:
            fcntl.flock(lock, fcntl.LOCK_EX | fcntl.LOCK_NB)
        except BlockingIOError:
            tell(f"another {what} here: this one waits for its end")
            fcntl.flock(lock, fcntl.LOCK_EX)
        yield
    finally:
        os.close(lock)


def folders_of(crate):
    """The folders in which its sources and proofs are."""
    for folder, folders, _ in os.walk(TOP / "crates" / crate):
        folders[:] = [folder for folder in folders if folder != "out"]
        yield pathlib.Path(folder)


def files_of(crate):
    """The sources and proofs of a crate; files of editors don't count."""
    files = (path for folder in folders_of(crate) for path in folder.iterdir() if path.suffix in (".rt", ".antt") and path.name[0] != ".")
    return sorted(file for file in files if file.is_file() and not file.is_symlink())


def crates_below(crate):
    """A crate and those of the repository below it, lowest first, as crates.txt has them."""
    try:
        return in_order(uses_of_crates(), crate)
    except KeyError:
        raise Failed(f"no crate {crate} in {CRATES}") from None


def checksum_of_sources(crate="lqtx"):
    """The checksum of all that a crate is built from: sources, crates and what they may use."""
    order = crates_below(crate)
    lines = [line for line in CRATES.read_bytes().splitlines(True) if line.replace(b":", b" ").split(b" ")[0].decode() in order]
    sums = [f"{hashlib.sha256(file.read_bytes()).hexdigest()}  {file.relative_to(TOP / 'crates')}\n".encode() for below in order for file in files_of(below)]
    handles = [file.read_bytes() for file in [TOP / "HANDLES"] if file.exists()]
    return hashlib.sha256(b"".join(["\n".join(order).encode() + b"\n", *lines, *handles, *sorted(sums)])).hexdigest()[:32]


def told_by_toolchain():
    """The file that says which toolchain it is, where there is one."""
    try:
        return [kit() / "KIT-ID"]
    except NoKit:
        return []


def checksum_of_toolchain():
    """The toolchain in a few letters, or nothing where there is none."""
    found = told_by_toolchain()
    if not found:
        return ""
    if os.access(found[0], os.R_OK):
        return hashlib.sha256(found[0].read_bytes()).hexdigest()[:8]
    said = subprocess.run(["rt", "version"], stdin=subprocess.DEVNULL, stdout=subprocess.PIPE, stderr=subprocess.DEVNULL)
    return hashlib.sha256(said.stdout).hexdigest()[:8]
