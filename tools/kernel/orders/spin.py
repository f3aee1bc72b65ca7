"""SPIN as a second engine: it searches the same steps (steps.h, in its embedded C) by its own means, with the seats told apart."""
import pathlib
import re
import shutil
import subprocess
from typing import NamedTuple

from kernel.orders.search import HERE, Size, Undecided
from kernel.orders.text import Fault


class Answer(NamedTuple):
    """What SPIN says: the states that it stored, and whether it found an order that goes wrong."""

    states: int
    is_wrong: bool


def model_of(size: Size, steps: pathlib.Path) -> str:
    """The machine for SPIN: an option for each move of each seat, and of control."""
    kinds = 6 + size.queues + size.bands * size.queues + 2
    places = size.seats + (size.downs + size.swaps > 0)
    # pan.c has a PUT of its own
    lines = ["c_decl {", f'\\#define STEPS "{steps}"', "\\#define PUT PUTS_", f'\\#include "{HERE}/moves.h"', "\\#undef PUT"]
    lines += ["struct state machine = FIRST_STATE, after;", "static int may(int seat, int kind) { why = 0; return moved(&machine, seat, kind, &after); }", "}"]
    lines += ['c_track "&machine" "sizeof(struct state)"', "active proctype seats()", "{", "end: do"]
    move = "    :: d_step {{ c_expr {{ may({}, {}) }} -> c_code {{ machine = after; }}; assert(c_expr {{ !why }}) }}"
    lines += [move.format(seat, kind) for seat in range(places) for kind in range(kinds)]
    lines += ["    :: c_expr { wrong(&machine) } -> assert(false)", "    od", "}"]
    lines += ["#ifdef LIVE", "never {", "    do :: true :: c_expr { is_served(&machine) } -> break od;"]
    lines += ["accept: do :: c_expr { is_served(&machine) } od", "}", "#endif"]
    return "\n".join(lines) + "\n"


def search(steps: str, size: Size, live: bool, room: pathlib.Path, megabytes: int, seconds: float) -> Answer:
    """The first question, or with `live` the second one."""
    for tool, package in (("spin", "spin"), ("gcc", "gcc libc6-dev")):
        if not shutil.which(tool):
            raise Undecided(f"there is no {tool}: apt-get install {package}")
    source = room / "steps.h"
    source.write_text(steps, encoding="utf-8")
    (room / "machine.pml").write_text(model_of(size, source), encoding="utf-8")
    run = lambda *words: subprocess.run(list(map(str, words)), cwd=room, capture_output=True, text=True)
    made = run("spin", *["-DLIVE"] * live, "-a", "machine.pml")
    # with one seat an order may end; with several, one that ends goes on for ever as it is
    options = ["-DNOSTUTTER"] * (size.seats == 1) if live else ["-DSAFETY"]
    # a small machine is searched faster than it is compiled well
    optimize = "-O0" if size.seats * size.sends <= 4 else "-O2"
    done = run("gcc", optimize, "-w", *options, "-DNOREDUCE", f"-DMEMLIM={megabytes}", "-DAPART", f"-I{HERE}", *size.defines(), "-o", "pan", "pan.c")
    if done.returncode:
        raise Fault(f"SPIN's program doesn't compile:\n{made.stdout}{done.stderr[-2000:]}")
    try:
        said = subprocess.run(["./pan", "-m3000000", *["-a"] * live], cwd=room, capture_output=True, text=True, timeout=seconds).stdout
    except subprocess.TimeoutExpired:
        raise Undecided("SPIN's time is up: give --seconds") from None
    states = re.search(r"(\d\S*) states, stored", said)
    errors = re.search(r"errors: (\d+)", said)
    if not states or not errors or re.search("out of memory|MEMLIM|too small|max search depth", said) and errors[1] == "0":
        raise Undecided("SPIN had no memory for all states: give --memory")
    return Answer(int(float(states[1])), errors[1] != "0")
