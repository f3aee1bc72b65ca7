"""What tools/test-docs looks for in docs/CHANGING.md, on a page and a repository of this test's own; and the crates that docs/LIBRARY.md names."""
import re

from lib import crates
from tests import exemplars
from tests.bench import TOP, is_equal, room_of

CHAPTER = """# Changing it

## A fate

Exemplar: `Gone`, in texts and tools `gone`; some 6 files. Not tried yet.

- `lq_low/src/fate.rt`, `words.rt`, `specs/Words.antt`: the variant, and
  its word
- `lq_low/proofs/`: a case in each
- `tools/draw`: its colour

Left alone: `docs/HISTORY.md`
(it tells what was).
"""
FILES = {
    "docs/CHANGING.md": CHAPTER,
    "docs/HISTORY.md": "It was gone.\n",
    "crates/lq_low/src/fate.rt": "pub enum Fate { Gone }\n",
    "crates/lq_low/src/words.rt": "// nothing\n",
    "crates/lq_low/specs/Words.antt": "word Gone = 3\n",
    "crates/lq_low/proofs/words/word/Answers.antt": "answer Gone\n",
    "crates/lq_low/proofs/Lemmas.antt": "-- what is Gone\n",
    "crates/lq_low/out/left.rt": "Gone\n",
    "tools/draw": "colour = {'gone': 1}\n",
    "tools/other": "goner\n",
}


def faults_with(name, changes):
    """What is found in the repository with some files changed."""
    return [fault.removeprefix("docs/CHANGING.md: A fate: ") for fault in exemplars.faults(room_of(f"exemplars-{name}", FILES | changes))]


def test_files_that_a_chapter_leaves_out():
    """A file is missed wherever it is: in the crate of another path, in a folder beside one that is named, and among the tools."""
    is_equal("all files are named", faults_with("right", {}), [])
    lacks = "names Gone or gone, and the chapter doesn't name it"
    for path in ("tools/other", "crates/lq_low/src/lib.rt", "crates/lq_low/specs/Lib.antt", "crates/lq_low/README.md", "lqtx"):
        named = faults_with("more-" + path.replace("/", "-"), {path: "Gone\n"})
        is_equal(f"{path} is left out", named, [f"{path} {lacks}", "7 files name Gone or gone, not some 6"])
    for path, cell in (("tools/draw", "`tools/draw`"), ("docs/HISTORY.md", "`docs/HISTORY.md`"), ("crates/lq_low/specs/Words.antt", ", `specs/Words.antt`")):
        fewer = {"docs/CHANGING.md": CHAPTER.replace(cell, "")}
        is_equal(f"without {cell}", faults_with("less-" + path.replace("/", "-"), fewer), [f"{path} {lacks}"])


def test_chapters_without_an_exemplar():
    """A chapter that lists files has an exemplar, and one that lists none needs none."""
    without = CHAPTER.replace("Exemplar: ", "It goes by ")
    wanted = ["it has a list of files, and no line 'Exemplar: `NAME`; some N files.'"]
    is_equal("a list without an exemplar", faults_with("no-exemplar", {"docs/CHANGING.md": without}), wanted)
    is_equal("neither", faults_with("no-list", {"docs/CHANGING.md": without.replace("`: ", "`, ")}), [])


def test_other_spellings_of_a_number():
    """With a value each line that has the name in any spelling, and the value, is found."""
    page = CHAPTER.replace("Exemplar: `Gone`, in texts and tools `gone`; some 6 files.", "Exemplar: `GONE`, in any spelling beside `64`; some 0 files.")
    for line, found in (("gone: int = 64", True), ("if (path_gone < 64)", True), ("64 are gone", True), ("GONE", True), ("gone = 640", False),
                        ("gone\n64", False), ("went = 64", False)):  # fmt: skip
        has = faults_with("spelled", {"docs/CHANGING.md": page, "tools/other": line + "\n"})
        is_equal(f"a line {line!r}", any(named.startswith("tools/other names GONE") for named in has), found)


def test_catch_alls():
    """A catch-all in which a new case goes without a word is found where it is code, a definition or a tool."""
    page = CHAPTER.replace("Not tried yet.", "Not tried yet.\nA catch-all takes a new `Fate`, in tools beside `lost`.")
    arm, definition = "fn f(fate: Fate) {\n        Fate::Lost => 1,\n", "pub of : ℕ → Fate → ℕ\n"
    files = {
        "crates/lq_low/src/other.rt": [(arm + "        _ => 0,\n", True), (arm + "        (true, _) => 0,\n", True), (arm, False), ("        _ => 0,\n", False)],
        "crates/lq_low/specs/Other.antt": [(definition + "of n Lost = n\nof n _ = 0\n", True), (definition + "of _ Lost = 0\n", False),
                                           ("abbrev pub of : (n : ℕ) → Option ℕ → ℕ\nof n _ = 0\n", False), ("pub of : List Fate → ℕ\nof _ = 0\n", True)],
        "tools/other": [('if it.kind == "lost":\n', True), ("if kind != lost:\n", True), ('if it.kind == "found":\n', False), ('kind = "lost"\n', False)],
    }  # fmt: skip
    for path, texts in files.items():
        for text, found in texts:
            wanted = [f"a catch-all in {path} takes a new Fate, and the chapter doesn't name it"] if found else []
            is_equal(f"{path}: {text!r}", faults_with("catch-" + path.replace("/", "-"), {"docs/CHANGING.md": page, path: text}), wanted)
            folder = page.replace("`lq_low/proofs/`", f"`{path.rpartition('/')[0]}/`, `lq_low/proofs/`")
            is_equal(f"{path}, by its folder: {text!r}", faults_with("catch-" + path.replace("/", "-"), {"docs/CHANGING.md": folder, path: text}), wanted)


def test_crates_of_the_library_page():
    """docs/LIBRARY.md names the crates that each example stands on, all of them."""
    page, uses = (TOP / "docs/LIBRARY.md").read_text(encoding="utf-8"), crates.uses_of_crates()
    copied = re.search(r"cp -r (.*) mine/crates/", page)[1].replace("crates/", "").split()
    lines = re.search(r"grep -E '\^\((.*)\):'", page)[1].split("|")
    named = re.findall(r"`(\w+)`", re.search(r"For the second one copy (.*?), and the file", page, re.S)[1])
    for found, example in ((copied, "lq_example_ring"), (lines, "lq_example_ring"), (named, "lq_example_tap")):
        is_equal(f"LIBRARY.md: the crates of {example}", sorted(found), sorted(crate for crate in crates.in_order(uses, example)))
