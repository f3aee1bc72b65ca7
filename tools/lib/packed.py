"""Libraries that nothing but a next build needs: once the program is built each is one file, an eighth of its size.

While a build is under way they are folders outside of the checkout: they have `.rt` and `.antt` files, and in a checkout in which a build was ended
`rt ci` would refuse these.
"""
import contextlib
import filecmp
import hashlib
import os
import pathlib
import shutil
import tarfile
from concurrent.futures import ThreadPoolExecutor

from lib.crates import TOP

FILES = TOP / "build/libraries"
FOLDERS = pathlib.Path(os.environ.get("XDG_CACHE_HOME") or "~/.cache").expanduser() / "lqtx" / f"{TOP.name}-{hashlib.sha256(bytes(TOP)).hexdigest()[:12]}"


def file_of(library):
    """The file of a packed library. Where it is there, it counts, and not the folder: that may be there in part."""
    return FILES / f"{library.stem}.packed"


def is_there(library):
    return library.is_dir() or file_of(library).is_file()


def forget(library):
    """Removes a library that is to be made anew."""
    file_of(library).unlink(missing_ok=True)
    shutil.rmtree(library, ignore_errors=True)


def _pack(library):
    part = file_of(library).with_suffix(".part")
    with tarfile.open(part, "w:gz", compresslevel=1) as file:
        file.add(library, library.name)
    part.rename(file_of(library))
    shutil.rmtree(library)


def _unpack(library):
    shutil.rmtree(library, ignore_errors=True)
    with tarfile.open(file_of(library)) as file:
        file.extractall(library.parent)
    file_of(library).unlink()


def pack(libraries):
    with ThreadPoolExecutor(os.cpu_count()) as pool:
        list(pool.map(_pack, (library for library in libraries if library.is_dir() and not file_of(library).is_file())))
    with contextlib.suppress(OSError):
        FOLDERS.rmdir()
        FOLDERS.parent.rmdir()


def unpack(libraries):
    libraries = list(libraries)
    FOLDERS.mkdir(parents=True, exist_ok=True)
    with ThreadPoolExecutor(os.cpu_count()) as pool:
        list(pool.map(_unpack, (library for library in libraries if file_of(library).is_file())))
    for at, library in enumerate(libraries):
        share(library, libraries[:at])


def share(library, others):
    """Each library has the interfaces of those below it: the files that another library has too become one file with it."""
    for file in filter(pathlib.Path.is_file, library.glob("below/**/*")):
        same = (other / file.relative_to(library) for other in others)
        found = next((other for other in same if other.is_file() and filecmp.cmp(other, file, shallow=False)), None)
        if found and not found.samefile(file):
            file.unlink()
            os.link(found, file)
