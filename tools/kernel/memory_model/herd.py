"""Asks herd7, the reference for litmus tests, with the memory model of a kernel's own folder tools/memory-model."""
import re
import shutil
import subprocess
from pathlib import Path

from kernel.inside import source
from lib.words import Failed

TOP = Path(__file__).resolve().parents[3]
MODEL = ("linux-kernel.cfg", "linux-kernel.bell", "linux-kernel.cat", "linux-kernel.def", "lock.cat")


def models():
    """The models that are there: those that were fetched, and those of a kernel's source that is installed."""
    places = [*(TOP / "build/memory-model").glob("*/*/tools/memory-model"), *Path("/usr/src").glob("*/tools/memory-model")]
    return sorted(folder for folder in places if (folder / MODEL[0]).exists())


def model_of(word, tell):
    """The folder of a model: itself, or that of a line of Debian's packages of the kernel's source, which are fetched once."""
    if Path(word).is_dir():
        folder = Path(word)
    elif re.fullmatch(r"\d+\.\d+", word):
        tree, _ = source.fetch(word, [f"tools/memory-model/{file}" for file in MODEL], TOP / "build/memory-model", tell)
        folder = tree / "tools/memory-model"
    else:
        raise Failed(f"{word}: no such folder, and no line of kernels as 6.12", 3)
    if not (folder / MODEL[0]).exists():
        raise Failed(f"{word} has no {MODEL[0]}: the model is in a kernel's tools/memory-model", 3)
    return folder


def is_installed():
    return shutil.which("herd7") is not None


def need():
    if not is_installed():
        raise Failed("herd7 isn't installed: Debian has it in the package herdtools7, of unstable", 3)


def ask(folder, path):
    """What herd7 says of a file: Never, Sometimes or Always; or why it refuses it."""
    said = subprocess.run(["herd7", "-conf", MODEL[0], str(Path(path).resolve())], cwd=folder, capture_output=True, text=True, check=False)
    found = re.search(r"^Observation \S+ (\w+)", said.stdout, flags=re.M)
    if found:
        return found[1]
    lines = (said.stderr.strip() or "nothing").splitlines()
    return "that it can't read it: " + re.sub(r'^(Warning: )?File "[^"]*"[,:] *', "", lines[0])
