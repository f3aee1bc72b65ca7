"""The programs that `./lqtx` keeps in build/: each under the checksum of all that it is built from, and of the toolchain.

So nothing is built twice, and a program whose sources have changed is never run. `build/current.*` tells the wrapper's shell which program is that of
the sources as they are, as long as none of the files in `build/sources.*` has changed since.
"""
import contextlib
import os
import subprocess

from lib.crates import CRATES, TOP, NoKit, checksum_of_sources, checksum_of_toolchain, crates_below, files_of, folders_of, kit, told_by_toolchain
from lib.words import Failed, say

KEPT = TOP / "build"
# the unproved one for small inputs is compiled in less time; of a module the other is made
PROVED, UNPROVED, FOR_SMALL, MODULE = "lqtx", "unproved", "small", "module"
STAYING = {PROVED: 5, UNPROVED: 2, FOR_SMALL: 2, MODULE: 2}  # the newest ones stay, for going back and forth between states of the sources


def is_made(program):
    # a file of no bytes is what a crash may leave
    return program.is_file() and program.stat().st_size > 0 and os.access(program, os.X_OK)


class Sources:
    """The sources as they are: their checksum, and where their programs are kept."""

    def __init__(self):
        # before they are summed: what changes meanwhile counts as changed afterwards
        of_crates = [path for crate in crates_below("lqtx") for path in [*folders_of(crate), *files_of(crate)]]
        self.parts = [CRATES, TOP / "HANDLES", *told_by_toolchain(), *of_crates]
        self.last_change = max(os.lstat(part).st_ctime_ns for part in self.parts if os.path.lexists(part))
        self.checksum, self.toolchain = checksum_of_sources(), checksum_of_toolchain()

    def program(self, kind):
        if self.toolchain:
            return KEPT / f"{kind}.{self.checksum}.{self.toolchain}"
        # with no toolchain a program of these sources stands for what any would build
        found = sorted(KEPT.glob(f"{kind}.{self.checksum}.*"), key=lambda path: path.stat().st_mtime)
        return found[-1] if found else KEPT / f"{kind}.{self.checksum}.none"

    def tell_shell(self, kind):
        """Notes that this program is that of the sources as they are, and the files and folders of which none may have changed since their last change."""
        with contextlib.suppress(OSError, NoKit):
            names = "".join(f"{os.path.relpath(part, TOP)}\0" for part in self.parts)
            for name, text in (("sources", names), ("current", f"{self.program(kind).name}\n{kit()}/bin/rt\n")):
                whole = KEPT / f"{name}.{PROVED if kind == PROVED else UNPROVED}"
                part = whole.with_name(f"{whole.name}.{os.getpid()}")
                part.write_text(text, encoding="utf-8")
                os.utime(part, ns=(self.last_change, self.last_change))
                part.replace(whole)


def drop_old(kind):
    kept = sorted((path for path in KEPT.glob(f"{kind}.*.*") if path.is_file()), key=lambda path: path.stat().st_mtime, reverse=True)
    for old in kept[STAYING[kind] :]:
        old.unlink()


def program_for(tool, is_unproved):
    """The program that a tool runs: one that is kept, or the one that tools/install put beside the tools. A proof isn't begun here: it takes too long for that."""
    if not CRATES.exists():
        if not (TOP / "program").exists():
            raise Failed("the proved program wasn't there when this was installed: --program PATH names one")
        return TOP / "program"
    sources = Sources()
    proved, unproved = sources.program(PROVED), sources.program(UNPROVED)
    if not is_unproved and is_made(proved):
        return proved
    if not is_unproved and not any(is_made(sources.program(kind)) for kind in (UNPROVED, FOR_SMALL)):
        raise Failed("no program is built: --unproved compiles one without its proof, in a minute or two; `./lqtx run PLAN CAPTURE OUT` proves and builds one")
    if not is_made(unproved):
        said = subprocess.run([TOP / "lqtx", "--unproved"], env=os.environ | {"LQTX_SHOW_PROGRAM": "1"}, stdout=subprocess.DEVNULL, stdin=subprocess.DEVNULL)
        if said.returncode:
            raise Failed("the program isn't compiled")
    say(tool, "the runs are those of the program without its proof" + ("" if is_unproved else ": the proved one isn't built"))
    return unproved
