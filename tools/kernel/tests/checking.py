"""One command for a kernel's tree: what differs in its text, and the table of its searches, which stand-ins make here."""
import argparse
import contextlib
import io
import shutil

from kernel.inside import extract, sizes
from tests.bench import HERE, ROOM, TOP, expect, fault, fault_if, is_equal, load, room_of, run

TOOL = HERE / "kernel/check-kernel"
NAMES = "file a.h\nmacro LETTER\nfunction post\nfunction take?\nfunction gone?\n"
TEXT = "#define LETTER 1\nint post(void)\n{\n\treturn LETTER; /* once */\n}\nint take(void)\n{\n\treturn 0;\n}\n"


def printed(function, *given):
    said = io.StringIO()
    with contextlib.redirect_stdout(said):
        answer = function(*given)
    return answer, said.getvalue()


def test_check_kernel_words():
    expect("check-kernel --help", run(TOOL, "--help"), 0, "tools/kernel/check-kernel TREE [--base TREE]", "Exit codes: 0 nothing goes wrong")
    expect("check-kernel, no words", run(TOOL), 2, "a TREE, or --source 6.1, 6.12, 7.2, 7.3")
    expect("check-kernel, both", run(TOOL, ROOM, "--source", "7.2"), 2, "a TREE, or --source")
    expect("check-kernel, no processor", run(TOOL, ROOM, "--jobs", "0"), 2, "--jobs is a number from 1 on")
    expect("check-kernel, no folder", run(TOOL, ROOM / "none"), 3, "none is no folder")
    expect("check-kernel, no base", run(TOOL, ROOM, "--base", ROOM / "none"), 3, "none is no folder")


def test_check_kernel_differences():
    """A comment or a blank is no difference; a word is, and so is a definition that only one tree has."""
    tool, texts = load("kernel/check-kernel"), {}
    for name, text in {"old": TEXT, "comment": TEXT.replace("once", "twice").replace("\treturn", "\treturn "), "word": TEXT.replace("take", "gone").replace("LETTER;", "LETTER + 1;")}.items():
        room = room_of(f"texts-{name}", {"a.h": text, "a.names": NAMES})
        texts[name] = extract.code_of(room, room / "a.names")
    is_equal("another comment", printed(tool.differences, "it", texts["old"], texts["comment"])[1], "of 3 definitions that it has, too, 0 differ\n")
    wanted = "of 2 definitions that it has, too, 1 differ: post\nonly this tree has: gone\nonly it has: take\n"
    is_equal("another word", printed(tool.differences, "it", texts["old"], texts["word"])[1], wanted)


def test_check_kernel_table():
    """What is said of each row, its files, and the exit code, with a stand-in for the searches."""
    tool, out = load("kernel/check-kernel"), ROOM / "check-kernel"
    wrong = (1, ["== a size", "WRONG: 1 packet is left, and nobody comes; a shortest order, of 28 steps:", "  seat 0  spin_trylock(seqlock): got"])
    right, asked = (0, ["nothing goes wrong: 7 states, 9 steps between them"]), []

    def call(row, tree, words, *more):
        asked.append((row.model, *map(str, more[:1])))
        if more[:1] == ("--schedule",):
            shutil.copy(TOP / "examples/schedules/second-try.schedule", more[1])
        return right if row.model == "x86" or more[:1] == ("--change",) else wrong

    tool.call, tool.compare, tool.litmus = call, lambda *_: None, lambda: 0
    models = ["as written", "x86", "weak"]
    tool.rows_of = lambda: [tool.Row(number, model, sizes.Size("a size", {})) for number, model in enumerate(models, 1)]
    words = argparse.Namespace(tree=ROOM, base=None, source=None, out=out, folder=ROOM, jobs=2)
    code, said = printed(tool.check, words)
    parts = ("as written  WRONG           a size: 1 packet is left, and nobody comes, in 28 steps", "x86         right           a size: 7 states",
             "weak        with a barrier  a size: 1 packet is left, and nobody comes, in 28 steps; with the barrier nothing: 7 states",
             f"the order: {out}/check-kernel.1.txt", f"{out}/check-kernel.1.svg", "docs/play.html#schedule=%23", "3 sizes: 1 right, 1 WRONG, 1 with a barrier")  # fmt: skip
    for part in parts:
        fault_if(part not in said, f"check-kernel says nothing of {part!r}: {said}")
    is_equal("check-kernel's exit code", code, 1)
    if not all((out / name).is_file() for name in ("check-kernel.1.txt", "check-kernel.1.svg", "check-kernel.1.schedule")) or ("weak", "--change") not in asked:
        fault(f"check-kernel: {asked}, {sorted(out.iterdir())}")
    models.remove("as written")
    is_equal("check-kernel's exit code, with the barrier", printed(tool.check, words)[0], 0)
