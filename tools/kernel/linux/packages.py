"""Debian's packages: what the emulator and a kernel need, fetched by name and unpacked into a folder of their own.

Nothing is installed. Programs that the system has are used as they are; the others run from the folder.
"""
import os
import re
import shutil
import struct
import subprocess
import time
from pathlib import Path

from lib.words import Failed

# programs, and the packages that have them
PROGRAMS = {"qemu-system-x86_64": "qemu-system-x86", "busybox": "busybox-static", "cpio": "cpio", "gcc": "gcc", "make": "make"}
# what building needs beside programs: a file that shows that it is there, and its package
FILES = {"/usr/include/stdio.h": "libc6-dev", "/usr/lib/x86_64-linux-gnu/libelf.so.1": "libelf1"}
# stands in a folder into which everything was unpacked
COMPLETE = "complete"
HERE = Path(__file__).resolve().parent
# where Debian has kernels that are newer than the system's own lists; these are fetched again after a day. What their programs for building need
NEWER = ("unstable", "trixie-backports")
MIRROR, KEYS = "http://deb.debian.org/debian", "/usr/share/keyrings/debian-archive-keyring.gpg"
A_DAY = 86_400
LIBRARIES = ("libc6", "libelf1t64", "libssl3t64", "zlib1g", "libzstd1")


class Missing(Failed):
    """A package that can't be had, or a program that failed; the text says which."""

    def __init__(self, line):
        super().__init__(line, 3)


def run(words, folder=None, environment=None):
    """What a program wrote to standard output."""
    try:
        done = subprocess.run(words, cwd=folder, env=environment, capture_output=True, text=True, check=False)
    except FileNotFoundError:
        raise Missing(f"there is no program '{words[0]}', which Debian has") from None
    if done.returncode:
        said = (done.stderr.strip() or done.stdout.strip()).splitlines()
        raise Missing(f"{' '.join(words[:3])} failed: " + "\n".join(said[-5:]))
    return done.stdout


def numbers_of(version):
    return [int(number) for number in re.findall(r"\d+", version)]


class Lists:
    """The package lists that apt looks at: the system's, or those of newer releases, which are kept in a folder."""

    def __init__(self, folder=None):
        self.words = []
        if folder:
            room = Path(folder).resolve() / "apt"
            for part in ("state/lists/partial", "cache/archives/partial"):
                (room / part).mkdir(parents=True, exist_ok=True)
            sources, text = room / "sources.list", "".join(f"deb [signed-by={KEYS}] {MIRROR} {suite} main\n" for suite in NEWER)
            is_fresh = sources.exists() and sources.read_text(encoding="utf-8") == text and time.time() - sources.stat().st_mtime < A_DAY
            if not is_fresh:
                sources.write_text(text, encoding="utf-8")
            options = (f"Dir::State={room}/state", f"Dir::Cache={room}/cache", f"Dir::Etc::sourcelist={sources}", "Dir::Etc::sourceparts=/dev/null",
                       "APT::Sandbox::User=root", "Acquire::Languages=none")  # fmt: skip
            self.words = [word for option in options for word in ("-o", option)]
            if not is_fresh or not any((room / "state/lists").glob("*_Packages*")):
                run(["apt-get", *self.words, "update"])

    def ask(self, *words):
        return run(["apt-cache", *self.words, *words])

    def names(self, pattern):
        return [line.split()[0] for line in self.ask("search", "--names-only", pattern).splitlines()]


def versions_of(line, lists):
    """The kernels of a line among the lists, or of all lines, oldest first."""
    names = lists.names(rf"^linux-image-{re.escape(line) or '[0-9]+[.][0-9]+'}[.][0-9.+a-z-]*-amd64$")
    plain = [name.removeprefix("linux-image-") for name in names if re.fullmatch(r"linux-image-\d+(\.\d+)*(\+deb\d+)?(-\d+)?-amd64", name)]
    return sorted(plain, key=numbers_of)


def find(word, lists):
    """The version of a kernel that a word names, a line as 7.2 or a whole version, or None."""
    whole = [word] if word.endswith("-amd64") and lists.names(f"^linux-image-{re.escape(word)}$") else []
    return next(reversed(whole or versions_of(word.removesuffix("-amd64"), lists)), None)


def named(word, folder, tell):
    """The version of a kernel that a word names, and the lists that have it."""
    own = Lists()
    version = find(word, own)
    if version:
        return version, own
    tell(f"the system's package lists have no kernel {word}: looking at those of {' and '.join(NEWER)}")
    newer = Lists(folder)
    version = find(word, newer)
    if not version:
        raise Missing(f"no package list has a kernel {word}: neither the system's nor those of {' and '.join(NEWER)}")
    return version, newer


def fetch(names, folder, lists=Lists()):
    """Downloads packages and unpacks them into a folder; answers their files' names. Where one can't be had, apt's words name it."""
    kept = folder / "packages"
    kept.mkdir(parents=True, exist_ok=True)
    run(["apt-get", *lists.words, "download", *names], folder=kept)
    packages = sorted(kept.glob("*.deb"))
    for package in packages:
        run(["dpkg-deb", "-x", str(package), str(folder / "root")])
        package.unlink()
    kept.rmdir()
    return [package.name for package in packages]


PT_INTERP = 3


def is_static(file):
    """Whether a program of 64 bits needs no other file: none of its segments names an interpreter."""
    head = Path(file).read_bytes()[:4096]
    if head[:6] != b"\x7fELF\x02\x01":
        return False
    at, size, count = (*struct.unpack_from("<Q", head, 32), *struct.unpack_from("<HH", head, 54))
    return all(struct.unpack_from("<I", head, at + size * number)[0] != PT_INTERP for number in range(count))


class Tools:
    """The programs: those of the system, and beside them those that had to be fetched."""

    def __init__(self, folder, tell):
        self.root = folder / "tools" / "root"
        if self.root.exists() and not (self.root / COMPLETE).exists():
            shutil.rmtree(self.root)
        wanted = [package for name, package in PROGRAMS.items() if not self._found(name)]
        wanted += [package for file, package in FILES.items() if not os.path.exists(file) and not (self.root / file.lstrip("/")).exists()]
        if wanted:
            # those that an installation would bring, in apt's order
            names = re.findall(r"^Inst (\S+)", run(["apt-get", "install", "--simulate", "--no-install-recommends", *wanted]), flags=re.M)
            if not names:
                raise Missing(f"{' '.join(wanted)}: installed, and yet not found")
            tell(f"fetching {len(names)} packages for {' '.join(wanted)}")
            fetch(names, folder / "tools")
            (self.root / COMPLETE).touch()

    def _folders(self, *below):
        return [str(self.root / name) for name in below if (self.root / name).is_dir()]

    def _found(self, name):
        # the guest needs a static one: Debian's busybox-static, or else the one that was fetched
        if name == "busybox":
            places = [shutil.which(name), *(f"{folder}/{name}" for folder in self._folders("bin", "usr/bin"))]
            return next((place for place in places if place and os.path.exists(place) and is_static(place)), None)
        return shutil.which(name, path=self.environment()["PATH"])

    def path(self, name):
        return Path(self._found(name))

    def environment(self):
        """The environment in which the fetched programs run; the system's own come first."""
        variables = dict(os.environ, LC_ALL="C")
        variables["PATH"] = os.pathsep.join([variables.get("PATH", ""), *self._folders("usr/bin", "bin", "usr/sbin", "sbin")])
        libraries = self._folders("usr/lib/x86_64-linux-gnu", "lib/x86_64-linux-gnu", "usr/lib/x86_64-linux-gnu/pulseaudio")
        if libraries:
            variables["LD_LIBRARY_PATH"] = os.pathsep.join(libraries)
        return variables

    def compiler(self):
        """The words that call the compiler, with the fetched headers where the system has none."""
        return ["gcc"] if os.path.exists("/usr/include/stdio.h") else ["gcc", f"--sysroot={self.root}"]

    def firmware(self):
        """The words that tell the emulator where its firmware is."""
        return [word for folder in self._folders("usr/share/qemu", "usr/share/seabios") for word in ("-L", folder)]


class Kernel:
    """A kernel's image, modules and headers. Newer packages have the image and the modules apart; `alone` leaves the modules out."""

    def __init__(self, version, folder, tell, lists=None, alone=False):
        self.version, self.lists = version, lists or Lists()
        self.root = folder / f"kernel-{version}{'-alone' if alone else ''}" / "root"
        if not (self.root / COMPLETE).exists():
            tell(f"fetching the kernel {version} and its headers")
            below = re.findall(r"Depends: (linux-(?:headers|kbuild)-\S+)", self.lists.ask("depends", f"linux-headers-{version}"))
            apart = re.findall(r"Depends: (linux-(?:binary|modules)-\S+)", self.lists.ask("depends", f"linux-image-{version}"))
            parts = [part for part in apart if not (alone and "-modules-" in part)]
            fetch([*(parts or [f"linux-image-{version}"]), f"linux-headers-{version}", *below], self.root.parent, self.lists)
            self._mend_headers()
            self._mend_programs(tell)
            (self.root / COMPLETE).touch()

    def _mend_headers(self):
        """The headers name the places at which they would be installed: those become places in the folder."""
        for headers in (self.root / "usr/src").glob("linux-headers-*"):
            for file in [headers, *headers.iterdir()]:
                if file.is_symlink() and str(file.readlink()).startswith("/"):
                    target = self.root / str(file.readlink()).lstrip("/")
                    file.unlink()
                    file.symlink_to(target)
            make = headers / "Makefile"
            if "common" not in headers.name and make.exists():
                make.write_text(re.sub(r"(?<=[ =])/usr/(src|lib)/", rf"{self.root}/usr/\1/", make.read_text(encoding="utf-8")), encoding="utf-8")

    def _mend_programs(self, tell):
        """Programs for building that need a newer C library than the system's are called with that library."""
        programs = [file for file in (self.root / "usr/lib").glob("linux-kbuild-*/**/*") if file.is_file() and file.read_bytes()[:4] == b"\x7fELF"]
        chosen = next((file for file in programs if file.name == "modpost.real-lsb-64"), None)
        if not chosen or b"not found" not in subprocess.run([chosen], capture_output=True, check=False).stderr:
            return
        tell("its programs for building need a newer C library, which is fetched for them")
        fetch(LIBRARIES, self.root.parent / "libraries", self.lists)
        folder = self.root.parent / "libraries/root/usr/lib/x86_64-linux-gnu"
        names = {file: file.rename(file.with_name(f"{file.name}.program")) for file in programs}
        for file, own in names.items():
            # some only choose the one for this machine
            chosen = [file.with_name(f"{file.name}.{kind}") for kind in ("real-x86", "real-lsb-64")]
            real = next((names[other] for other in chosen if other in names), own)
            file.write_text(f'#!/bin/sh\nexec {folder}/ld-linux-x86-64.so.2 --library-path {folder} "{real}" "$@"\n', encoding="utf-8")
            file.chmod(0o755)

    def compiler(self):
        """What kbuild is told of the compiler: a kernel that was built by another one names options that the host's may not know."""
        text = (self.headers() / "include/config/auto.conf").read_text(encoding="utf-8")
        found = re.search(r'^CONFIG_CC_VERSION_TEXT="?([^ "]+)', text, flags=re.M)
        return [f"CC={HERE / 'host-gcc'}"] if found and not shutil.which(found[1]) else []

    def image(self):
        apart = self.root / "usr/lib/modules" / self.version / "vmlinuz"
        return apart if apart.exists() else self.root / "boot" / f"vmlinuz-{self.version}"

    def headers(self):
        return self.root / "usr/src" / f"linux-headers-{self.version}"

    def modules(self):
        # the newer packages have no folder /lib of their own
        return next(folder for folder in (self.root / "lib/modules", self.root / "usr/lib/modules") if folder.is_dir()) / self.version
