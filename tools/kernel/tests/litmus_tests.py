"""The checker of litmus tests: published answers, the orders of the run lock, and what it refuses."""
import os

from kernel.memory_model import answer, herd, language
from tests.bench import HERE, ROOM, TOP, expect, fault, fault_if, room_of, run, write

SHAPES = sorted((TOP / "examples/litmus/shapes").glob("*.litmus"))
ROWS = sorted((TOP / "examples/litmus").glob("*.litmus"))


def wrong(files, without=()):
    """The files whose answer isn't the one that they say."""
    texts = {file.stem: file.read_text(encoding="utf-8") for file in files}
    return [name for name, text in texts.items() if f"Result: {answer.decide(language.read(text), without).word}" not in text]


def test_published_litmus_answers():
    """The well-known tests have the published answers, and the orders of the run lock those that docs/BARRIERS.md has."""
    fault_if(len(SHAPES) < 50 or len(ROWS) < 18, f"there are {len(SHAPES)} well-known litmus tests and {len(ROWS)} of the run lock")
    for name in wrong([*SHAPES, *ROWS]):
        fault(f"litmus: {name} isn't decided as its file says")


def test_wrong_axioms_are_noticed():
    """A model without atomicity, or whose full barrier orders nothing, gives other answers."""
    if not {"atomicity+incs", "atomicity+trylocks"} <= set(wrong([file for file in SHAPES if "atomicity" in file.stem], ("atomicity",))):
        fault("litmus: a model without atomicity isn't noticed")
    if not {"SB+fencembonceonces", "IRIW+fencembonceonces+OnceOnce"} <= set(wrong(SHAPES, ("mb",))):
        fault("litmus: a barrier that orders nothing isn't noticed")


def test_litmus_beside_herd7():
    """Every example is decided as herd7 decides it, by each model that is there; where it isn't installed, this says so."""
    if not herd.is_installed() or not herd.models():
        print(f"the tools: no litmus test is compared with herd7: {'no model of a kernel is there' if herd.is_installed() else 'it is not installed'}")
        return
    for path in [*SHAPES, *ROWS]:
        word = answer.decide(language.read(path.read_text(encoding="utf-8"))).word
        for model, other in ((known, herd.ask(known, path)) for known in herd.models()):
            fault_if(word != other, f"litmus: {path.stem} is {word}, and herd7 with {model} says {other}")


def test_litmus_with_a_herd7_of_our_own():
    """What --herd prints of another program's answers."""
    test, model, room = ROOM / "herd.litmus", room_of("model", {"linux-kernel.cfg": ""}), room_of("bin")
    test.write_text("C ONE\n\n{}\n\nP0(int *x)\n{\n\tWRITE_ONCE(*x, 1);\n}\n\nexists (x=1)\n", encoding="utf-8")
    command, path = [HERE / "kernel/litmus", "--quiet", "--herd", model, test], {**os.environ, "PATH": f"{room}:{os.environ['PATH']}"}
    for said, code, line in (
        ("echo 'Observation ONE Always 1 0'", 0, "ONE: Always, and herd7 too"),
        ("echo 'Observation ONE Never 0 1'", 1, "ONE: Always, and herd7 says Never"),
        ("echo 'Warning: File \"a\": Unknown macro f (User error)' >&2", 1, "ONE: Always, and herd7 says that it can't read it: Unknown macro f"),
    ):
        write(room / "herd7", f"#!/bin/sh\n{said}\n")
        expect("litmus --herd", run(*command, env=path), code, line)
    expect("litmus --herd, no model", run(HERE / "kernel/litmus", "--herd", ROOM, test, env=path), 3, "has no linux-kernel.cfg")
    expect("litmus --herd, no folder", run(HERE / "kernel/litmus", "--herd", "nosuch", test, env=path), 3, "nosuch: no such folder")
    expect("litmus --herd alone", run(HERE / "kernel/litmus", "--herd", env=path), 2, "--herd: expected one argument")


def test_litmus_command():
    """What it prints, and what it refuses: nothing is decided that it doesn't know."""
    test = ROOM / "one.litmus"
    body = "{}\n\nP0(int *x, int *y)\n{\n\tint r0;\n\n\tWRITE_ONCE(*x, 1);\n\tr0 = READ_ONCE(*y);\n}\n\nP1(int *x, int *y)\n{\n\tWRITE_ONCE(*y, 1);\n}\n\n"
    test.write_text(f"C ONE\n\n(* Result: Never *)\n{body}exists (0:r0=1)\n", encoding="utf-8")
    expect("litmus", run(HERE / "kernel/litmus", test), 0, "ONE: Sometimes", "a:   writes x = 1", "b:   reads y = 1, which c wrote")
    expect("litmus --check", run(HERE / "kernel/litmus", "--check", "--quiet", test), 1, "ONE: Sometimes, and the file says Never")
    test.write_text(f"C ONE\n\n{body}exists (0:r0=2)\n", encoding="utf-8")
    expect("litmus Never", run(HERE / "kernel/litmus", test), 0, "ONE: Never", "no execution has these values")
    for text, said in (
        (body.replace("WRITE_ONCE(*x, 1)", "*x = 1"), "line 9: a plain access isn't decided here"),
        (body.replace("WRITE_ONCE(*x, 1)", "synchronize_srcu(x)"), "line 9: synchronize_srcu with 1 arguments isn't read here"),
        (body.replace("P1", "P2"), "line 13: P1 is missing"),
        (body, "'exists', '~exists' or 'forall' is missing"),
    ):
        test.write_text(f"C ONE\n\n{text}", encoding="utf-8")
        expect("litmus refuses", run(HERE / "kernel/litmus", test), 3, said)
    expect("litmus nofile", run(HERE / "kernel/litmus", ROOM / "nofile.litmus"), 3, "nofile.litmus: No such file")
    expect("litmus words", run(HERE / "kernel/litmus"), 2, "a file is missing")
    expect("litmus option", run(HERE / "kernel/litmus", "--nosuch", test), 2, "unrecognized arguments: --nosuch")
