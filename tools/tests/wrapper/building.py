"""The program is built where it isn't there, and started at once where it is."""
import hashlib
import os
import re
import shutil
import time

from tests.bench import TOP
from tests.wrapper.bench import COOKED_CAPTURE, EMPTY_CAPTURE, cases, do

PROCESSORS = len(os.sched_getaffinity(0))
MANY = min(PROCESSORS, 8)
NO_PYTHON = "#!/bin/sh\necho python is called >&2\nexit 99\n"
# of each case its steps
CASES = {
    "first build": [
        do.run("words 8", 8, "one low: words 8", [
            "building, which proves the program first: 1 to 3 min by machine on ", " idle processors, longer beside other work, and 0.9 GB",
            "it can be interrupted, and goes on from there", "proved low by 0 s of a processor, 1 of 2 crates, 0 min 0", "min in all; under way: none",
            "proved lqtx by 0 s of a processor, 2 of 2 crates", "built in 0 min"]),
        do.calls("low", "lqtx")],
    # for tools that run it many times
    "where the program is": [do.run("", 0, LQTX_SHOW_PROGRAM="1"), do.shows_a_program(), do.calls("low", "lqtx"), do.tried(0)],
    "built already": [do.run("words"), do.run("words", prints="one low: words", silent=True), do.calls("low", "lqtx")],
    "there and back": [
        do.run("words"), do.source("low", "two low"), do.run("words", prints="two low: words"), do.source("low", "one low"),
        do.run("words", prints="one low: words", silent=True), do.calls("low", "lqtx", "low", "lqtx")],
    "a changed library that is not proved": [
        do.run("words"), do.source("low", "broken"),
        *[do.run("words", 1, "", ["fn low::wrong: no proof", "not built: low isn't proved", "@build/log"], hides=["low::sound", "low::above"])] * 2],
    "another kit": [
        do.run("words"), do.write("../KIT-ID", "another kit\n"), do.run("words"), do.calls("low", "lqtx", "low", "lqtx"),
        do.run_without_rt("words", prints="one low: words")],
    "an empty program is not run": [do.run("words"), do.replace_programs(""), do.run("words 8", 8, "one low: words 8"), do.calls("low", "lqtx", "lqtx")],
    "a build that was interrupted goes on": [
        do.run("words"), do.forget_programs(), do.forget("build/libraries/low.sum"), do.run("words"), do.calls("low", "lqtx", "low", "lqtx"),
        do.forget_programs(), do.run("words"), do.calls("low", "lqtx", "low", "lqtx", "lqtx")],
    "a program that is not proved": [do.source("lqtx", "broken"), do.run("words", 1, "", "lqtx isn't proved")],
    "sources that change during the build": [do.write("../edit", ""), do.run("words", 1, "", "the sources changed meanwhile")],
    "a link from another folder and the caller's paths": [
        do.link("link", "../repo/lqtx"), do.run(["words", "0", "a b"], prints="one low: words 0 a b", tool="../here/link"),
        do.run_piped("read", "a line\n", None, "a line\none low: read", tool="../here/link")],
    "no rt": [do.run_without_rt("words", 1, tells="no 'rt' on the PATH")],
    "a copy of the wrapper": [
        do.write("lqtx", (TOP / "lqtx").read_bytes()),
        do.run("run plan capture out", 1, tool="../here/lqtx", tells="needs its checkout around it: link to the checkout's, or call its tools/install\n")],
}  # fmt: skip
cases(CASES)


def test_sources_that_are_only_newer_or_not_the_program_s(lqtx):
    lqtx.run("words")
    time.sleep(0.01)
    for path in lqtx.repo.glob("crates/*/src/lib.rt"):
        path.touch()
    lqtx.source("other", "two other")
    lqtx.write(lqtx.repo / "crates.txt", lqtx.read(lqtx.repo / "crates.txt") + "\nanother:\n")
    lqtx.source("low", "an editor's", ".#lib.rt")
    lqtx.run("words", silent=True)
    lqtx.calls("low", "lqtx")


def test_crates_side_by_side_the_longest_chain_first(lqtx):
    lqtx.write(lqtx.repo / "crates.txt", "lqtx: high left\nhigh: low\nlow:\nleft:\n")
    for crate in ("high", "left"):
        lqtx.source(crate, f"one {crate}")
    for crate in ("low", "high"):
        lqtx.source(crate, "\0" * 40000, "long.rt")
    lqtx.run("words", 0, tells="so far, about ", SLOW="0.8", PARTS="yes", LQTX_TELL_EVERY="0.1")
    log = lqtx.read(lqtx.room / "rattle.log").split("\n")
    lqtx.check(PROCESSORS < 2 or set(log[:2]) == {"low", "left"} and log[2].startswith("end l"), f"not side by side: {log}")
    repo, libraries = lqtx.repo, f"{lqtx.room}/cache/lqtx/repo-[0-9a-f]*"
    for wanted in (f"^left in {repo}/crates/left: .* --jobs 1 --statements -o {libraries}/left.rlib$", f"^low in {repo}/crates/low: .* --jobs {MANY} ",
                   f"--extern std={lqtx.room}/rlibs/std.rlib --extern low={libraries}/low.rlib "):  # fmt: skip
        lqtx.check(re.search(wanted, lqtx.read(lqtx.room / "rattle.words"), re.M), f"no call is {wanted}")
    lqtx.check(not list(repo.glob("crates/**/*.rlib")), "writes to crates/")
    lqtx.run("--chain", tool="tools/build", tells=["left by itself: ", "the longest chain: 0 min 0", f" s on {PROCESSORS} processors: l"])
    lqtx.check(not [*lqtx.build.rglob("alone.*"), *lqtx.room.glob("cache/**/alone.*")], "a measurement leaves files")
    lqtx.forget_programs()
    (lqtx.build / "libraries/left.sum").unlink()
    lqtx.run("words")
    lqtx.check(re.search(f"^left in {repo}/crates/left: .* --jobs {MANY} ", lqtx.read(lqtx.room / "rattle.words"), re.M),
               "the longest chain of what is left hasn't all processors")


def test_libraries_are_packed_once_the_program_is_built(lqtx):
    lqtx.run("words")
    kept = lqtx.build / "libraries"
    lqtx.check((kept / "low.packed").is_file() and not list((lqtx.room / "cache").iterdir()), f"not packed: {list(kept.iterdir())}")
    lqtx.forget_programs()
    # as a packing leaves it that is interrupted
    folder = lqtx.room / f"cache/lqtx/repo-{hashlib.sha256(bytes(lqtx.repo)).hexdigest()[:12]}/low.rlib"
    folder.mkdir(parents=True)
    lqtx.write(kept / "low.part", "")
    lqtx.run("words", prints="one low: words")
    lqtx.calls("low", "lqtx", "lqtx")
    lqtx.lists(kept, "low.packed", "low.sum")
    lqtx.source("lqtx", "broken")
    lqtx.run("words")
    lqtx.check(folder.is_dir() and not (kept / "low.packed").exists(), "packed though the program isn't built")


def test_no_room_on_the_disk(lqtx):
    tool = lqtx.repo / "tools/build"
    lqtx.write(tool, re.sub(r"^NEEDS = [^#]*", "NEEDS = 2**60 ", tool.read_text(encoding="utf-8"), flags=re.M))
    lqtx.run("words", 1, tells="not built: a build takes")
    lqtx.calls()


def test_words_and_inputs_are_judged_before_anything_is_built(lqtx):
    refusal = "crates/lq_files/src/refusal.rt"
    lqtx.write(lqtx.repo / refusal, (TOP / refusal).read_text(encoding="utf-8"))
    lqtx.write("plan", "")
    for words in ("", "--help", "run", "run plan", "run plan capture out more", "run plan capture -o", "trace", "go plan"):
        lqtx.run(words, 2, tells=f"the manual: man {lqtx.repo}/docs/lqtx.1")
        lqtx.check(lqtx.out.startswith("usage: lqtx run PLAN CAPTURE OUT | lqtx gen NUMBER COUNT OUT | lqtx trace FILE"), f"no usage line for {words}")
    for words, missing in (("run plan capture out", "capture"), ("run none capture out", "none"), ("trace none", "none")):
        lqtx.run(words, 5, tells=f"there is no file {missing}")
    lqtx.calls()
    lqtx.write("capture", "2 Magic\n")
    lqtx.run("run plan capture out")
    lqtx.calls("low", "lqtx")


def test_a_checkout_that_can_not_be_written(lqtx):
    lqtx.write(lqtx.build, "")
    lqtx.run("words", 1, tells="can't be written")
    lqtx.calls()
    lqtx.build.unlink()
    lqtx.run("words")
    paths = [lqtx.repo, *lqtx.repo.rglob("*")]
    for path in paths:
        path.chmod(path.stat().st_mode & ~0o222)
    lqtx.run("words", 0, silent=True)
    for path in paths:
        path.chmod(path.stat().st_mode | 0o200)


# what may change what a program that is there answers: then Python looks, and not the shell alone
CHANGES = {
    "another capture": lambda lqtx: lqtx.write("capture", COOKED_CAPTURE),
    "a touched plan": lambda lqtx: (lqtx.here / "plan").touch(),
    "a touched source": lambda lqtx: (lqtx.repo / "crates/low/src/lib.rt").touch(),
    "a new source": lambda lqtx: lqtx.source("low", "", "new.rt"),
    "another kit": lambda lqtx: (lqtx.room / "KIT-ID").touch(),
    "other crates": lambda lqtx: (lqtx.repo / "crates.txt").touch(),
    "a source of another name": lambda lqtx: (lqtx.repo / "crates/low/src/lib.rt").rename(lqtx.repo / "crates/low/src/other.rt"),
    "a source with an earlier time": lambda lqtx: shutil.copystat("/etc/passwd", lqtx.repo / "crates/low/src/lib.rt"),
}


def test_a_program_that_is_there_is_started_by_the_shell_alone(lqtx):
    lqtx.run("words")
    lqtx.plans()
    lqtx.write("capture", EMPTY_CAPTURE)
    lqtx.run("run plan capture out/o")
    lqtx.write(lqtx.room / "bin/python3", NO_PYTHON)
    for words, prints in [("run plan capture out/o", "unit 0 sent one low"), ("gen 1 writes out/g", "")] * 2:
        lqtx.run(words, 0, prints, silent=True)
    # where there is more to do Python is called
    shutil.copy(lqtx.here / "capture", lqtx.here / "out/o.fates")
    lqtx.run("run plan capture out/o", 99)
    lqtx.remove("out/*")
    lqtx.run("run plan capture out/o", 0)
    lqtx.run("run plan out/o.0.pcap out/o", 99)


def test_a_program_is_started_by_python_once_sources_or_inputs_may_have_changed(lqtx):
    lqtx.plans()
    for change, do in CHANGES.items():
        (lqtx.room / "bin/python3").unlink(missing_ok=True)
        shutil.rmtree(lqtx.repo / "crates/low/src")
        lqtx.source("low", "one low")
        lqtx.write("capture", EMPTY_CAPTURE)
        time.sleep(0.03)
        lqtx.run("run plan capture out/o")
        lqtx.write(lqtx.room / "bin/python3", NO_PYTHON)
        lqtx.run("run plan capture out/o", 0)
        do(lqtx)
        lqtx.run("run plan capture out/o", 99)
        lqtx.check(lqtx.code == 99, change)
