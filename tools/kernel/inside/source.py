"""The source of Debian's kernels, and the programs that a search needs. Nothing is installed, and nothing of a kernel is kept in the repository."""
import re
import shutil
from pathlib import Path

from kernel.linux.packages import NEWER, Lists, Missing, fetch as fetch_packages, run

PROGRAMS = {"gcc": "gcc", "g++": "g++", "addr2line": "binutils"}
# the lines of kernels: the system's package lists have those of Debian 12 alone, the first two
LINES = ("6.1", "6.12", "7.2", "7.3")


def need_programs():
    """Ends where a program isn't there, with the package that has it."""
    missing = {name: package for name, package in PROGRAMS.items() if not shutil.which(name)}
    if missing:
        raise Missing(f"no {', '.join(missing)}: Debian has {'it' if len(missing) == 1 else 'them'} in {' '.join(dict.fromkeys(missing.values()))}")


def why_not(package, lists, fault):
    """Why a package can't be had: the lists haven't it any more, or apt's own words."""
    if not lists.words:
        return f"the package {package} can't be had ({fault}); `apt-get update` as root fetches the package lists"
    offered = sorted(name for name in lists.names("^linux-source-[0-9]") if re.fullmatch("linux-source-[0-9.]+", name))
    if package in offered:
        return f"the package {package} can't be had ({fault})"
    return f"Debian's {' and '.join(NEWER)} offer no {package} any more; they have {', '.join(offered) or 'none'}"


def fetch(line, files, folder, tell):
    """The tree of a line's source, with these files alone; it is fetched once, and unpacked into a folder of the user's."""
    package, room = f"linux-source-{line}", Path(folder) / f"source-{line}"
    done, tree = room / "complete", room / package
    if done.exists() and all((tree / file).exists() for file in files):
        return tree, done.read_text(encoding="utf-8").strip()
    shutil.rmtree(room, ignore_errors=True)
    if line in LINES[2:]:
        tell(f"looking at the package lists of Debian's {' and '.join(NEWER)}")
    lists = Lists(folder if line in LINES[2:] else None)
    tell(f"fetching the package {package} (about 150 MB)")
    try:
        archive, = fetch_packages([package], room, lists)
    except Missing as fault:
        raise Missing(why_not(package, lists, fault)) from None
    version = re.sub(r"^[^_]*_|_all\.deb$", "", archive)
    tell(f"unpacking the source {version}")
    run(["tar", "xJf", f"root/usr/src/{package}.tar.xz", *(f"{package}/{file}" for file in files)], room)
    shutil.rmtree(room / "root")
    done.write_text(version + "\n", encoding="utf-8")
    return tree, version
