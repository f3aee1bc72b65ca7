"""What the cases of tools/test-tools and tools/test-wrapper share: how they are run, what is expected of a tool, and the files that it is given."""
import importlib.machinery
import importlib.util
import pathlib
import shutil
import signal
import subprocess
import sys
import tempfile
import xml.etree.ElementTree

from lib import captures, plans
from lib.alone import Run
from lib.places import Places
from lib.words import Wrong

HERE = pathlib.Path(__file__).resolve().parent.parent
TOP = HERE.parent
ROOM = pathlib.Path(tempfile.mkdtemp())
CASES, FAULTS = [], []


def fault(text):
    FAULTS.append(text)
    print(f"tools: {text}")


def fault_if(is_wrong, text):
    if is_wrong:
        fault(text)


def main(what, folders, wanted, try_case=lambda function: function()):
    """Tries the cases of folders, each file of which has those of one topic as functions test_NAME, or those whose names have one of these words; whether any failed."""
    for file in sorted(file for folder in folders for file in folder.glob("*.py")):
        module = importlib.import_module(".".join(file.relative_to(HERE).with_suffix("").parts))
        CASES.extend(function for name, function in vars(module).items() if name.startswith("test_"))
    cases = [function for function in CASES if not wanted or any(word in function.__name__.removeprefix("test_") for word in wanted)]
    if not cases or any(word.startswith("-") for word in wanted):
        raise Wrong("no case has such a name: " + " ".join(wanted))
    try:
        for function in cases:
            try_case(function)
    finally:
        shutil.rmtree(ROOM, ignore_errors=True)
    print(f"{what}: {len(FAULTS)} faults" if FAULTS else f"{what}: all {len(cases)} cases pass")
    return bool(FAULTS)


def write(path, text):
    """Writes a file, of a text or of bytes, in a folder that may be new; a script can be run."""
    path.parent.mkdir(parents=True, exist_ok=True)
    path.write_bytes(text if isinstance(text, bytes) else text.encode())
    if text[:2] in ("#!", b"#!"):
        path.chmod(0o755)


def room_of(name, files=()):
    """A folder of a case, with these files."""
    room = ROOM / name
    room.mkdir(parents=True, exist_ok=True)
    for path, text in dict(files).items():
        write(room / path, text)
    return room


def run(*words, cwd=None, env=None):
    """A tool's exit code, and what it wrote to standard output and to standard error."""
    said = subprocess.run([str(word) for word in words], cwd=cwd, env=env, capture_output=True, text=True, timeout=300)
    return said.returncode, said.stdout, said.stderr


def heeding():
    """For a process that is to be interrupted: a shell that started this in the background has it ignore interrupts."""
    for number in (signal.SIGINT, signal.SIGQUIT):
        signal.signal(number, signal.SIG_DFL)


def expect(name, said, code, *parts):
    """Faults where a tool ended otherwise, or what it said lacks one of these parts."""
    fault_if(said[0] != code, f"{name}: ends with {said[0]}, not {code}: {said[1][-300:]}{said[2][-300:]}")
    for part in parts:
        fault_if(part not in said[1] + said[2], f"{name}: says nothing of {part!r}: {(said[1] + said[2])[-600:]!r}")


def is_equal(name, found, wanted):
    """Faults where something isn't what was worked out by hand."""
    fault_if(found != wanted, f"{name}: {found!r}, not {wanted!r}")


def load(name):
    """A tool as a module, for parts of it that can be called alone."""
    loader = importlib.machinery.SourceFileLoader(f"tool_{name}".replace("-", "_"), str(HERE / name))
    module = importlib.util.module_from_spec(importlib.util.spec_from_loader(loader.name, loader))
    sys.modules[loader.name] = module
    loader.exec_module(module)
    return module


def expect_none(name, said, *parts):
    for part in parts:
        fault_if(part in said[1] + said[2], f"{name}: says {part!r}")


def repository(name, files):
    """A repository with these files and the tools."""
    top = ROOM / name
    (top / "tools").mkdir(parents=True)
    for tool in HERE.iterdir():
        if tool.is_file():
            shutil.copy(tool, top / "tools" / tool.name)
    shutil.copytree(HERE / "lib", top / "tools/lib")
    for path, text in files.items():
        write(top / path, text)
    return top


def fates_of(plan, capture):
    """The fates that the run of one sender gives, as the program would write them; the plan is a document."""
    return Run(Places(plans.plan_of(plan), captures.read(capture))).go().trail.text()


def frame(tos, source, route, head=b"\x08\x00\x45"):
    """A frame of 34 bytes, or of 38 where it has a tag."""
    return b"\2" * 12 + head + bytes([tos]) + bytes(13) + bytes([source]) + bytes(3) + bytes([route])


def capture_of(*frames):
    return captures.ethernet(frames)


def expect_picture(name, file, *parts):
    """Faults where a picture isn't well formed, or lacks one of these texts."""
    text = file.read_text(encoding="utf-8")
    try:
        xml.etree.ElementTree.fromstring(text)
    except xml.etree.ElementTree.ParseError as wrong:
        fault(f"{name}: the picture is no XML: {wrong}")
    for part in parts:
        fault_if(part not in text, f"{name}: the picture lacks {part!r}")
