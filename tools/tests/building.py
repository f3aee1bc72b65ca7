"""Tools that build, measure and compare: beside C, the first build, what the gate costs, and a kernel's tree."""
import contextlib
import io
import os
import re
import shutil
import subprocess
import sys

from lib import packed
from tests.bench import HERE, ROOM, TOP, expect, fault_if, is_equal, load, repository, room_of, run, write


def test_compare_with_c():
    tool = HERE / "compare-with-c"
    expect("compare-with-c, no program", run(tool), 2, "the following arguments are required: PROGRAM")
    expect("compare-with-c, none there", run(tool, ROOM / "nothing"), 1, "nothing can't be run")
    if shutil.which("cc"):
        for words in ([], ["--tap"]):
            expect("compare-with-c, no header", run(tool, *words, "--header", ROOM / "ptr_ring.h", sys.executable), 1, "no such file")


def test_first_build():
    """A clone, proved and built by a stand-in, and nothing left behind."""
    room = room_of("first")
    low = "lqtx: proved low by 12 s of a processor, 1 of 1 crates, 0 min 00 s so far, done; under way: none"
    stand_in = f'#!/bin/sh\n[ "$1" != --chain ] || exec echo chain\nmkdir build\necho built >"$1"\necho "{low}"\npwd\n'
    top = repository("cloned", {"crates/low/src/lib.rt": "", "tools/build": stand_in})
    for words in (["init", "-q"], ["add", "-A"], ["-c", "user.name=a", "-c", "user.email=a", "commit", "-q", "-m", "all"]):
        subprocess.run(["git", *words], cwd=top, check=True)
    (room / "rt").symlink_to("/bin/true")
    build = lambda *words, path=f"{room}:{os.environ['PATH']}": run(top / "tools/first-build", *words, env=os.environ | {"PATH": path})
    expect("first-build", build("--chain", room), 0, " processors, ", f"{room}/first-build.",
           "it took 0 min 00 s; ", "build/: ", "the program: 6 bytes", "chain")
    expect("first-build, two at the same time", build("--beside", "HEAD", room), 0, "low                           12      12",
           "1 crates of both              12      12")
    expect("first-build, no such commit", build("--beside", "no-such-commit", room), 1, "no-such-commit")
    expect("first-build, no commit", build("--beside"), 2, "tools/first-build --beside COMMIT")
    is_equal("first-build: what it leaves", [path.name for path in room.iterdir()], ["rt"])
    if not shutil.which("rt", path="/usr/bin:/bin"):
        expect("first-build, no rt", build(room, path="/usr/bin:/bin"), 1, "there is no 'rt' on the PATH")


def test_packed_libraries():
    """Equal interfaces are one file, others aren't; a packed library comes back as it was, and counts where a part of its folder is there too."""
    room, texts = ROOM / "libraries", {"low": "a", "high": "a", "other": "b"}
    packed.FILES = packed.FOLDERS = room
    libraries = [room / f"{text}.rlib" for text in texts]
    for library, text in zip(libraries, texts.values()):
        write(library / "below/std/interface/toolchain/mir.json", text)
        packed.share(library, libraries)
    is_equal("equal interfaces", sorted(path.stat().st_nlink for path in room.rglob("mir.json")), [1, 2, 2])
    packed.pack(libraries)
    is_equal("packed libraries", sorted(path.name for path in room.iterdir()), ["high.packed", "low.packed", "other.packed"])
    (libraries[0] / "part").mkdir(parents=True)
    packed.unpack(libraries)
    is_equal("unpacked libraries", {path.parts[-6]: path.read_text(encoding="utf-8") for path in room.rglob("*.json")}, {library.name: text for library, text in zip(libraries, texts.values())})
    is_equal("equal interfaces, unpacked", sorted(path.stat().st_nlink for path in room.rglob("mir.json")), [1, 2, 2])
    is_equal("what a packing left in part", [*room.rglob("part"), *room.glob("*.packed")], [])
    packed.pack(libraries)
    packed.forget(libraries[0])
    is_equal("libraries that are there", [packed.is_there(library) for library in libraries], [False, True, True])


# a stand-in for the gate: provers of two crates, with tests and edits, that take some processor time
GATE = """#!/usr/bin/env python3
import os, pathlib, subprocess, sys, tempfile
busy = "import time\\nuntil = time.process_time() + {}\\nwhile time.process_time() < until: pass"
def prove(seconds, *words, cwd=None):
    subprocess.run([sys.executable, "-c", busy.format(seconds), *words], cwd=cwd)
print("== low", flush=True)
prove(0.9, "build", "--crate-name", "low", "src/lib.rt", "--statements")
print("rt: low proved", flush=True)
prove(0.6, "check", "--crate-name", "high", "src/lib.rt")
prove(0.6, "build", "--crate-name", "high", "src/lib.rt", "--test")
room = tempfile.mkdtemp(prefix="rt-edits-1-")
for number in ("seed", "0", "1"):
    prove(0.5, "check", "--crate-name", "low", "src/lib.rt", "--incremental", f"{room}/{number}")
print("5 passed, 0 failed", flush=True)
sys.exit(3)
"""


def test_gate_cost():
    files = {"crates.txt": "low:\nhigh: low\n", "crates/low/must-fail/a_first.edit": "", "crates/low/must-fail/b_second.edit": "", "gate": GATE}
    top = repository("gate", files)
    said = run(top / "tools/gate-cost", "./gate", cwd=top)
    expect("gate-cost", said, 3, "   0.0 == low\n", "rt: low proved\n", "5 passed, 0 failed\n", "processor minutes: proofs ", "low/b_second", "the longest chain of proofs: ", ": low ")
    low = re.search(r"^low +(\d+) +(\d+) +(\d+) ", said[1], re.M)
    fault_if(not low or (low[1], low[2]) != ("1", "0") or low[3] not in ("1", "2"), f"gate-cost: the line of low is {low and low[0]!r}")
    expect("gate-cost --read", run(top / "tools/gate-cost", "--read", top / "build/gate-cost.json"), 0, " min; processor seconds of each crate")
    expect("gate-cost, no file", run(top / "tools/gate-cost", "--read", top / "none"), 1, "gate-cost: ")


# it is called with the tree; its answers are those of a row
STAND_IN = """#!/bin/sh
echo "$1" >>"{called}"
[ {cut} = 0 ] || exit {cut}
for order; do :; done
[ {finds} = 0 ] || echo "{order}" >"$order"
exit {finds}
"""
# of a row: what the stand-in answers, the exit code, and what is said
ORDER = "seats 2 len 2 bypass 0\n0 send 1\n0 step 3"
ROWS = [
    ({}, 0, "the order of the text without its second try, as a schedule: the program works it as the model does\n"),
    ({"cut": 3}, 1, "the kernel's text isn't compared"),
    ({"finds": 0}, 1, "the text without its second try leaves no packet"),
    ({"order": ORDER + "\n0 send 1"}, 1, "as a schedule: differs"),
]


def test_compare_tree():
    """With a stand-in for tools/kernel/inside-calls: by itself it takes minutes, and a tree."""
    compare, room = load("compare"), room_of("compared", {"tree/file": ""})
    compare.TOP, compare.PARTS = room, ()
    called, stand_in = room / "called", room / "tools/kernel/inside-calls"
    for row, code, said in ROWS:
        write(stand_in, STAND_IN.format(**{"called": called, "cut": 0, "finds": 1, "order": ORDER} | row))
        with contextlib.redirect_stdout(io.StringIO()) as told:
            ended = compare.main([str(HERE / "tests/by-the-rules"), "0", "--tree", str(room / "tree")])
        expect(f"compare --tree, {row}", (int(ended), told.getvalue(), ""), code, said)
    is_equal("the tree that compare names", set(called.read_text(encoding="utf-8").split()), {str(room / "tree")})
    expect("inside-calls of no tree", run(TOP / "tools/kernel/inside-calls", room / "none"), 3, "none is no folder")
