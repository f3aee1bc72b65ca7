"""What holds of every tool: its help, wrong words, outputs that are inputs, and how it ends when something outside goes wrong."""
import functools
import os
import re
import resource
import shutil
import signal
import subprocess
import sys
from concurrent.futures import ThreadPoolExecutor

from tests.bench import HERE, TOP, expect, expect_none, expect_picture, fates_of, fault, fault_if, heeding, repository, room_of, run
from lib import toml_text

TOOLS = sorted(path for path in [*HERE.iterdir(), *(HERE / "kernel").iterdir()] if path.is_file() and os.access(path, os.X_OK))


def test_help_and_wrong_words():
    """`--help` goes to standard output and ends with 0; words that a tool doesn't have end with 2, and say so on standard error."""
    fault_if(len(TOOLS) < 20, f"there are {len(TOOLS)} tools")
    with ThreadPoolExecutor(4) as pool:
        for tool, said in zip(TOOLS, pool.map(lambda tool: run(tool, "--help"), TOOLS)):
            if said[0] or len(said[1]) < 60 or said[2]:
                fault(f"{tool.name} --help: ends with {said[0]}, {len(said[1])} bytes on standard output, on standard error {said[2][:200]!r}")
        for tool, said in zip(TOOLS, pool.map(lambda tool: run(tool, "--no-such-word"), TOOLS)):
            if said[0] != 2 or said[1] or not said[2] or "Traceback" in said[2]:
                fault(f"{tool.name} --no-such-word: ends with {said[0]}, says {said[1][:200]!r} and {said[2][:200]!r}")


# of each tool that writes files its calls: the words, with the output and each input in braces, the ending of all names, and the inputs
CALLS = [
    ("sweep", "{plan} {capture} irq_every=1..2 {out} --program {program} --sshloginfile {hosts}", ".csv", "plan capture program hosts"),
    ("sweep", "{plan} {capture} irq_every=1..2 a.csv {out} --program {program}", ".svg", "plan capture"),
    ("show-schedule", "{schedule} {out}", ".svg", "schedule"),
    ("show-schedule", "--mistake begin_gives_up_after_one_try {schedule} {out}", ".svg", "schedule"),
    ("show-run", "{plan} {capture} run {out}", ".svg", "capture plan fates"),
    ("show-run", "{plan} {capture} run other.svg {out}", ".svg", "capture plan fates"),
    ("show-run", "{plan} {capture} run --dropped {out}", ".pcap", "capture plan fates"),
    ("show-run", "{plan} {capture} run --table {out}", ".csv", "capture plan fates"),
    ("how-long", "{capture} 1mbit {out} --program {program}", ".csv", "capture program"),
    ("how-long", "{capture} 1mbit a.csv {out} --program {program}", ".svg", "capture"),
    ("show-run", "{plan} {capture} run --html {out}", ".html", "capture plan fates"),
    ("show-run", "{plan} {capture} run --marked {out}", ".pcapng", "capture plan fates"),
    ("show-run", "tap 1 4 4 {capture} run {out}", ".svg", "capture fates"),
    ("check-capture", "{capture} --ip {out}", ".pcap", "capture"),
    ("kernel/beside-link", "{capture} 1mbit --keep {out} --program {program}", ".pcap", "capture program"),
    ("gate-cost", "--to {out} {program}", ".json", "program"),
]
WAYS = [".", "link", "hard link", "link to a link", "new/..", "new/deep/../..", "way"]
# the tools that write files besides, and where: none of these names is the caller's
OTHERS = {
    "beside-linux": "in folders of its own, and OUT.*, which is tried below", "build": "below build/, and PROGRAM, which is tried below", "compare": "in a folder of its own",
    "compare-with-c": "in a folder of its own", "first-build": "in a folder of its own", "install": "below DIR, which tools/tests/installing.py tries",
    "check-kernel": "in --out, of its own", "inside-calls": "below --folder, and --schedule FILE, which is tried in tests/inside.py",
    "wrong-bodies": "crates/NAME/wrong-bodies/refused",
    "refused-growths": "in a folder of its own",
    "test": "in folders of its own", "test-wrapper": "in a folder of its own",
    "test-beside-linux": "in a folder of its own", "test-docs": "in a folder of its own", "test-play": "in a folder of its own",
    "explore": "OUT.schedule and OUT.svg, which tools/kernel/tests/exploring.py tries", "make-play": "docs/play.html, or OUT.html",
}  # fmt: skip
WRITES = re.compile(r'write_text\(|write_bytes\(|writing\(|open\([^)\n]*"[wa]b?"|mktemp')


def inputs_of(name, ending):
    """A folder with fresh inputs of each kind, and these by what they are."""
    example = lambda path: (TOP / "examples" / path).read_bytes()
    texts = {"plan": example("drops.toml"), "capture": example("loopback.pcap"), "schedule": example("schedules/second-try.schedule"),
             "program": "#!/bin/sh\nexit 0\n", "hosts": "1/:\n"}
    room = room_of(name, {f"{kind}{ending}": text for kind, text in texts.items()} | {"run.fates": example_fates()})
    return room, {kind: room / f"{kind}{ending}" for kind in texts} | {"fates": room / "run.fates"}


@functools.cache
def example_fates():
    """What the program would write of the inputs' plan and capture."""
    return fates_of(toml_text.loads((TOP / "examples/drops.toml").read_text(encoding="utf-8")), TOP / "examples/loopback.pcap")


def contents(room):
    return {str(path.relative_to(room)): path.read_bytes() for path in room.rglob("*") if path.is_file()}


def try_output(job):
    """A call whose output is an input, by one way of naming it: it ends with 2, says one line and changes no file."""
    number, tool, call, ending, which, how = job
    room, files = inputs_of(f"outputs{number}", ending)
    out = room / f"out{ending}"
    (room / "way").symlink_to(".")
    if how == "hard link":
        os.link(files[which], out)
    elif how == "link":
        out.symlink_to(files[which])
    elif how == "link to a link":
        (room / "link").symlink_to(files[which].name)
        out.symlink_to("link")
    else:
        out = room / how / files[which].name
    before = contents(room)
    said = run(HERE / tool, *(word.format(out=out, **files) for word in call.split()), cwd=room)
    return f"{tool}: {call}, {out.name} is the {which} by {how}", said, before == contents(room)


def test_every_tool_is_listed():
    for tool in TOOLS:
        fault_if(f"`{tool.name}`" not in (tool.parent / "README.md").read_text(encoding="utf-8"), f"{tool.parent}/README.md doesn't list {tool.name}")


def test_no_output_is_an_input():
    jobs = []
    for tool, call, ending, inputs in CALLS:
        for place, which in enumerate(inputs.split()):
            is_first = tool not in {job[0] for job in jobs}
            jobs += [(tool, call, ending, which, how) for how in (WAYS if is_first else WAYS[:3] if place == 0 else WAYS[2:3])]
    with ThreadPoolExecutor(4) as pool:
        for name, said, is_kept in pool.map(try_output, ((number, *job) for number, job in enumerate(jobs))):
            expect(name, said, 2, " is an input")
            if said[1] or said[2].count("\n") != 1 or not is_kept:
                fault(f"{name}: says {said[1]!r} and {said[2]!r}, the files are {'as before' if is_kept else 'others'}")
    told = {call[0].rpartition("/")[2] for call in CALLS} | set(OTHERS)
    for tool in TOOLS:
        fault_if(WRITES.search(tool.read_text(encoding="utf-8")) and tool.name not in told, f"{tool.name} writes files, and none of its outputs is tried")


def test_outputs_of_a_run_and_of_a_build():
    """Outputs whose names are made of a word: none of them is an input either."""
    room, files = inputs_of("prefixes", "")
    for name in ("run.0.pcap", "run.15.pcap", "run.mq7.pcap", "run.fates", "run.linux.fates", "run.linux.answers"):
        (room / name).unlink(missing_ok=True)
        os.link(files["capture"], room / name)
        said = run(HERE / "kernel/beside-linux", "--rules-alone", files["plan"], files["capture"], room / "run", cwd=room)
        expect(f"beside-linux, {name} is the capture", said, 2, f"{name} is an input")
        (room / name).unlink()
    top = repository("sources", {"crates.txt": "lqtx: low\n", "crates/lqtx/src/main.rt": "fn main() {}\n"})
    for name in ("crates.txt", "crates/lqtx/src/main.rt"):
        before = (top / name).read_bytes()
        expect(f"build, PROGRAM is {name}", run(top / "tools/build", top / name, cwd=top), 2, f"{name} is an input")
        fault_if((top / name).read_bytes() != before, f"build overwrites {name}")


def test_outputs_that_are_the_user_s():
    """A file that isn't as a tool left it is overwritten only with --force, and then it is the tool's."""
    for number, (tool, call, ending, _) in enumerate(CALLS):
        room, files = inputs_of(f"own{number}", ending)
        (room / "run.pcap").write_bytes(b"")
        out = room / f"out{ending}"
        shutil.copy(files["capture"], out)
        words = [HERE / tool, *(word.format(out=out, **files) for word in call.split())]
        before = contents(room)
        said = run(*words, cwd=room)
        expect(f"{tool}: {call}, a file of the user's", said, 2, "out" + ending + " is there, and wasn't left so by an earlier call: --force overwrites it")
        fault_if(said[2].count("\n") != 1 or contents(room) != before, f"{tool}: {call}, a file of the user's: files have changed")
        if tool == "show-schedule" or tool == "show-run" and " tap " not in f" {call}":
            expect(f"{tool}: {call}, with --force", run(*words, "--force", cwd=room), 0)
            said = run(*words, cwd=room)
            expect(f"{tool}: {call}, once more", said, 0)
            fault_if(said[2] or out.read_bytes() == before[out.name], f"{tool}: {call}, once more: says {said[2]!r}")
            with open(out, "ab") as file:
                file.write(b"\n")
            expect(f"{tool}: {call}, once the file is changed", run(*words, cwd=room), 2, "--force")


def test_outputs_of_the_program_without_its_proof():
    """They are shown where there are no others, which is said, and none of them is written."""
    room, files = inputs_of("unproved", "")
    call = [HERE / "show-run", files["plan"], files["capture"], "run"]
    expect_none("show-run, outputs of the proved program", run(*call, cwd=room), "unproved")
    files["fates"].rename(room / "run.unproved.fates")
    said = run(*call, cwd=room)
    expect("show-run, outputs without a proof", said, 0, "dropped 117", "show-run: there is no run.fates: run.unproved.* are shown, which the program without its proof wrote\n")
    for name in ("run.unproved.fates", "run.unproved.0.pcap"):
        expect(f"show-run, {name} as an output", run(*call, "--dropped", name, cwd=room), 2, f"{name} is an input")


def test_no_room_for_an_output():
    """A fault of the disk names the output. What was there is there still, and no part of the new file is left."""
    short_of_room = lambda: resource.setrlimit(resource.RLIMIT_FSIZE, (100, 100))
    room, files = inputs_of("no room", "")
    for words in ("out.svg", "--dropped out.pcap", "--table out.csv", "--html out.html", "--marked out.pcapng"):
        call = [HERE / "show-run", files["plan"], files["capture"], room / "run", *words.split()]
        name = words.split()[-1]
        expect(f"show-run {words}", run(*call, cwd=room), 0)
        before = contents(room)
        said = subprocess.run(call, cwd=room, capture_output=True, text=True, preexec_fn=short_of_room)
        if said.returncode != 1 or said.stderr != f"show-run: {name}: File too large\n" or contents(room) != before:
            fault(f"show-run {words}, no room: ends with {said.returncode}, says {said.stderr!r}, and leaves {sorted(contents(room))}")


def test_names_that_are_no_text():
    """Names with a control character, or with bytes that aren't UTF-8: pictures and pages are well formed."""
    for number, name in enumerate(("a\x1bb", os.fsdecode(b"a\xffb"), "a\nb")):
        room, files = inputs_of(f"names{number}", "")
        plan, capture = files["plan"].rename(room / f"{name}.toml"), files["capture"].rename(room / f"{name}.pcap")
        said = subprocess.run([HERE / "show-run", plan, capture, room / "run", room / f"{name}.svg", "--html", room / f"{name}.html"], capture_output=True)
        fault_if(said.returncode or said.stderr, f"show-run, a name {name!r}: ends with {said.returncode} and says {said.stderr!r}")
        expect_picture(f"a name {name!r}", room / f"{name}.svg")
        (room / f"{name}.html").read_text(encoding="utf-8")
        said = subprocess.run([HERE / "check-plan", plan], capture_output=True)
        fault_if(said.returncode or not said.stdout.startswith(os.fsencode(plan)), f"check-plan, a name {name!r}: says {said.stdout + said.stderr!r}")


def test_outputs_that_are_there():
    """A tool's own outputs are replaced; pictures are SVG and named so; two outputs are two files."""
    room, files = inputs_of("there", "")
    show = lambda *words: run(HERE / "show-schedule", files["schedule"], *words, cwd=room)
    for again in ("a picture", "a picture again"):
        said = show("a.svg")
        expect(again, said, 0)
        fault_if(said[2], f"{again}: says {said[2]!r}")
    (room / "a.svg").write_text("<?xml version='1.0'?><svg/>", encoding="utf-8")
    said = show("a.svg")
    expect("a picture over another's", said, 2, "show-schedule: a.svg is there, and wasn't left so by an earlier call: --force overwrites it\n")
    expect("a picture of another name", show("a.png"), 2, "a.png: a picture is written as SVG, so its name ends in .svg")
    sweep = lambda *words: run(HERE / "sweep", files["plan"], files["capture"], "irq_every=1..2", *words, "--program", files["program"], cwd=room)
    expect("a sweep's picture of another name", sweep("b.csv", "b.png"), 2, "a picture is written as SVG")
    expect("a table and a picture of one name", sweep("b.svg", "./b.svg"), 2, "./b.svg and b.svg are one file")
    fault_if((room / "b.svg").exists() or (room / "a.png").exists() or (room / "b.csv").exists(), "an output that is refused is made")


def test_what_goes_wrong_outside():
    """A full disk, a closed pipe, a file that isn't there and an interrupt: a line or nothing, an exit code, and no traceback."""
    room, files = inputs_of("outside", "")
    calls = {
        "check-plan": [files["plan"]], "show-schedule": [files["schedule"]], "show-run": [files["plan"], files["capture"], room / "run"], "reading-list": ["--help"],
        "dead": ["--help"], "compare": ["--help"], "sweep": ["--help"], "gate-cost": ["--help"],
    }  # fmt: skip
    for tool, words in calls.items():
        with open("/dev/full", "w") as full:
            said = subprocess.run([HERE / tool, *words], stdout=full, stderr=subprocess.PIPE, text=True)
        if said.returncode != 1 or "No space left on device" not in said.stderr or "Traceback" in said.stderr:
            fault(f"{tool}, a full disk: ends with {said.returncode} and says {said.stderr[-300:]!r}")
    # a reader that goes away
    for tool in ("show-schedule", "check-plan"):
        process = subprocess.Popen([HERE / tool, *calls[tool]], stdout=subprocess.PIPE, stderr=subprocess.PIPE)
        process.stdout.close()
        said = process.stderr.read().decode()
        fault_if(process.wait() != -signal.SIGPIPE or said, f"{tool}, a closed pipe: ends with {process.returncode} and says {said!r}")
    none = room / "none"
    for words in (["check-plan", none], ["show-schedule", none], ["sweep", none, none, "irq_every=1..2", "a.csv", "--program", files["program"]],
                  ["gate-cost", "--read", none], ["refused-growths", none], ["compare", none], ["compare-with-c", none], ["kernel/beside-linux", "--rules-alone", none, none],
                  ["show-run", none, none, none]):  # fmt: skip
        said = run(HERE / words[0], *words[1:], cwd=room)
        if said[0] not in (1, 4) or "Traceback" in said[2] or "none" not in said[2]:
            fault(f"{words[0]}, a file that isn't there: ends with {said[0]} and says {said[2][-300:]!r}")
    process = subprocess.Popen([HERE / "kernel/explore", "--large"], stdout=subprocess.PIPE, stderr=subprocess.PIPE, preexec_fn=heeding)
    # what it says first comes after a first search
    process.stdout.readline()
    process.send_signal(signal.SIGINT)
    said = process.communicate()[1].decode()
    fault_if(process.returncode != -signal.SIGINT or "Traceback" in said, f"explore, an interrupt: ends with {process.returncode} and says {said[-300:]!r}")


def test_interrupts_before_and_after():
    """An interrupt while a tool still imports, and one while the interpreter ends: by the signal, and nothing is said."""
    kill = "os.kill(os.getpid(), signal.SIGINT)"
    for text in (f"import lib, os, signal; {kill}", f"from lib import words; import atexit, os, signal; atexit.register(lambda: {kill}); words.run('none', 'none', len)"):
        said = subprocess.run([sys.executable, "-c", text], cwd=HERE, capture_output=True, text=True, preexec_fn=heeding)
        if said.returncode != -signal.SIGINT or said.stdout or said.stderr:
            fault(f"an interrupt, {text}: ends with {said.returncode} and says {said.stderr[-300:]!r}")
