"""Signals, while the program is built and while it runs, and two builds at once."""
import os
import pathlib
import signal
import subprocess
import time

from tests import bench
from tests.wrapper.bench import cases, do, ended_by

cases({"a signal": [do.run("words"), do.run("kill", 137, tells="ended by signal 9 (KILL)")]})


def heeding(lqtx, words, **how):
    """Starts the wrapper so that it heeds all signals."""
    return subprocess.Popen([lqtx.repo / "lqtx", *words.split()], cwd=lqtx.here, env=lqtx.env,
                            stdout=subprocess.DEVNULL, stderr=subprocess.PIPE, text=True, preexec_fn=bench.heeding, **how)


def test_it_ends_by_the_signal_itself(lqtx):
    """So a loop of runs ends with it; and the program ends, too."""
    lqtx.run("words")
    for number in (signal.SIGHUP, signal.SIGINT, signal.SIGQUIT, signal.SIGTERM):
        lqtx.name = f"it ends by {number.name} itself"
        lqtx.remove("pid")
        process = heeding(lqtx, "wait")
        lqtx.until(lambda: lqtx.read("pid"))
        process.send_signal(number)
        lqtx.out, lqtx.err = "", process.communicate()[1]
        lqtx.check(ended_by(process) == number, f"ends by {ended_by(process)}")
        lqtx.judge(tells=f"ended by signal {int(number)} ({number.name[3:]}); the outputs may not be whole", hides="Terminated")
        # where much else runs the program's end may take a moment
        own = pathlib.Path("/proc") / lqtx.read("pid")
        lqtx.until(lambda: not own.exists(), 10)
        lqtx.check(not own.exists(), "the program goes on")


def test_a_signal_during_the_build(lqtx):
    process = lqtx.start("words", SLOW="5")
    lqtx.until(lambda: lqtx.read(lqtx.room / "rattle.log"))
    process.terminate()
    lqtx.end(process, 143, tells="the build was interrupted by signal 15 (TERM); the crates that were proved are kept")
    lqtx.leaves_nothing()


def test_a_signal_to_all_during_the_build(lqtx):
    """As a terminal sends it."""
    lqtx.env["SLOW"] = "5"
    process = heeding(lqtx, "words", start_new_session=True)
    lqtx.until(lambda: lqtx.read(lqtx.room / "rattle.log"))
    os.killpg(process.pid, signal.SIGINT)
    lqtx.out, lqtx.err = "", process.communicate()[1]
    lqtx.check(ended_by(process) == signal.SIGINT, f"ends by {ended_by(process)}")
    lqtx.judge(tells="the build was interrupted by signal")
    time.sleep(0.2)
    lqtx.leaves_nothing()


def test_a_build_that_is_killed_leaves_nothing_in_the_checkout_that_the_gate_refuses(lqtx):
    # a library of its own, so that one is there and another under way
    lqtx.write(lqtx.repo / "crates.txt", "lqtx: high\nhigh: low\nlow:\n")
    lqtx.source("high", "one high")
    lqtx.write("plan", "")
    for tool, words, log, text in (("tools/build", f"{lqtx.room}/killed-build", "rattle.log", "high"), ("lqtx", "--unproved trace none", "try.log", "")):
        process = lqtx.start(words, tool=tool, TMPDIR=str(lqtx.here), SLOW="1", TRY_SLOW="3")
        lqtx.until(lambda: (found := lqtx.read(lqtx.room / log)) and text in found)
        process.kill()
        lqtx.end(process)
        refused = [path for path in lqtx.repo.rglob("*") if "crates" not in path.parts and (path.suffix in (".rt", ".antt") or path.is_symlink())]
        lqtx.check(not refused, f"{tool} leaves {refused}")
    lqtx.check(list((lqtx.room / "cache").rglob("low.rlib")), "no library was there")
    time.sleep(3)


def test_two_first_builds_at_once(lqtx):
    other = lqtx.start("words 4", out="other", SLOW="0.2")
    lqtx.run("words 3", 3, "one low: words 3", SLOW="0.2")
    lqtx.end(other, 4, "one low: words 4", out="other")
    programs = list(lqtx.build.glob("lqtx.*"))
    lqtx.check(len(programs) == 1, f"leaves files behind: {programs}")
