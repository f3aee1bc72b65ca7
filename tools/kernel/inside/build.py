"""Compiles a kernel's text with its accesses announced, and links it with the search."""
import hashlib
import subprocess
from pathlib import Path

from lib.words import Failed

from . import extract

HERE = Path(__file__).resolve().parent
# with version 5 of the debugging data addr2line gives the first functions of a text to another file
TEXT_WORDS = ["gcc", "-std=gnu11", "-O1", "-gdwarf-4", "-w", "-Werror=implicit-function-declaration", "-fno-strict-aliasing", "-fno-pie", "-fsanitize=thread",
              "--param", "tsan-distinguish-volatile=1", "--param", "tsan-instrument-func-entry-exit=0"]
SEARCH_WORDS = ["g++", "-std=gnu++17", "-gdwarf-4", "-w", "-fno-pie"]

# what differs between versions, and a text that a version has it by
OF_VERSIONS = {
    "NET_TX_ACTION_TAKES_NOTHING": "net_tx_action(void)", "DEACTIVATION_MAY_KEEP": "bool reset_needed", "RUNNING_IS_A_BIT": "__QDISC_STATE2_RUNNING",
    "MAY_DEFER": "defer_list",
}  # fmt: skip


def files(worlds=("path", "tap")):
    """The files of a tree from which something is cut."""
    return sorted({file for world in worlds for file in extract.read_names(HERE / f"{world}.names").files})


def compile_with(words):
    done = subprocess.run(list(map(str, words)), capture_output=True, text=True, check=False)
    if done.returncode:
        errors = [line for line in done.stderr.splitlines() if "error" in line or "undefined reference" in line] or done.stderr.splitlines()
        raise Failed("\n".join(["the text isn't compiled; a kernel of another version may need more in tools/kernel/inside/stub.h", *errors[:8]]), 3)


def checksum(*texts):
    return hashlib.sha256("\0".join(map(str, texts)).encode()).hexdigest()[:16]


class Builder:
    """Programs that search a text: one for each size that is compiled another way; what was built before is used again."""

    def __init__(self, tree, folder, worlds=HERE, level=2):
        self.tree, self.folder, self.worlds, self.level = Path(tree), Path(folder), Path(worlds), level
        self.folder.mkdir(parents=True, exist_ok=True)
        steps = [HERE.parent / "orders" / name for name in ("state.h", "steps.h")]
        ours = [*sorted(HERE.glob("*.h")), *sorted(HERE.glob("*.c")), HERE / "search.cc", *steps, *sorted(self.worlds.glob("*.[ch]"))]
        self.sources = checksum(*(file.read_text(encoding="utf-8") for file in ours))

    def cut(self, world, changes=()):
        return extract.cut(self.tree, self.worlds / f"{world}.names", changes)

    def _search(self, world):
        """The search, with the machine where the world is the transmit path."""
        defines = ["-DWITH_MACHINE"] if world == "path" else []
        out = self.folder / f"search{self.level}-{checksum(self.sources, defines)}.o"
        if not out.exists():
            compile_with([*SEARCH_WORDS, f"-O{self.level}", *defines, f"-I{HERE}", "-c", HERE / "search.cc", "-o", f"{out}.new"])
            Path(f"{out}.new").rename(out)
        return out

    def program(self, size, cut):
        """The program that searches this text at the sizes that are compiled alike."""
        values = size.compiled()
        defines = [f"-D{name.upper()}={value}" for name, value in values.items()]
        if size.world == "path":
            defines.append(f"-DPACKETS={values['seats'] * size.options()['sends'] + size.options()['waiting']}")
        defines += [f"-D{name}=1" for name, text in OF_VERSIONS.items() if text in cut.text]
        out = self.folder / f"{size.world}{self.level}-{checksum(self.sources, cut.text, defines)}"
        if out.exists():
            return out
        room = Path(f"{out}.d")
        room.mkdir(exist_ok=True)
        (room / "ktext.inc").write_text(cut.text, encoding="utf-8")
        compile_with([*TEXT_WORDS, *defines, f"-I{room}", f"-I{self.worlds}", f"-I{HERE}", "-c", self.worlds / f"{size.world}.c", "-o", room / "text.o"])
        compile_with(["g++", "-no-pie", "-o", f"{out}.new", room / "text.o", self._search(size.world)])
        Path(f"{out}.new").rename(out)
        for file in room.iterdir():
            file.unlink()
        room.rmdir()
        return out
