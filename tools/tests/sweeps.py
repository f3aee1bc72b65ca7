"""A plan at many values of a key."""
import os
import shutil
import signal
import subprocess
import sys
import time

from lib import toml_text
from tests.bench import HERE, ROOM, TOP, capture_of, expect, expect_none, expect_picture, fates_of, fault, fault_if, frame, heeding, is_equal, repository, room_of, run, write

CAPTURE = TOP / "examples/loopback.pcap"
# a stand-in for the program: of each 50 packets so many are sent as the rings have slots, or as `irq_every` says; with SLOW it takes its time
PROGRAM = """#!/usr/bin/env python3
import os, sys, time, tomllib
time.sleep(float(os.environ.get("SLOW", "0")))
plan = tomllib.load(open(sys.argv[2], "rb"))
many = plan["station"][0].get("len", 1000) // plan.get("irq_every", 1)
if many == 13:
    sys.exit("a fault of 13")
late = os.getpid() % 3 if plan.get("senders", 1) > 1 else 0
open(sys.argv[4] + ".fates", "w").write("".join(f"{n} sent 0 {n}\\n" if n % 50 < many - late else f"{n} full 0\\n" for n in range(270)))
"""
FILES = {"program": PROGRAM, "plan.toml": "# a plan\n[[station]]\nlen = 20\n", "several.toml": "version = 3\n[[station]]\nmq = 6\nlen = 20\n[[station]]\n"}


def words_of(room, *words, plan="plan.toml"):
    return [HERE / "sweep", plan, CAPTURE, *words, "--program", room / "program"]


def swept(room, *words, **how):
    return run(*words_of(room, *words, **how), cwd=room)


def lines_of(file):
    return file.read_text(encoding="utf-8").splitlines()


def started(room, *words, **more):
    """A sweep under way."""
    how = {"stdout": subprocess.PIPE, "stderr": subprocess.PIPE, "text": True, "preexec_fn": heeding}
    return subprocess.Popen(words_of(room, *words), cwd=room, env=os.environ | more, **how)


def wait_until(is_so):
    until = time.monotonic() + 60
    while not is_so() and time.monotonic() < until:
        time.sleep(0.02)


def has_results(room, many):
    """Whether so many runs of a sweep under way are done."""
    results = next(room.glob("*.runs/results"), None)
    return results is not None and results.read_text(encoding="utf-8").count("\n") >= many


def test_sweep():
    room = room_of("sweep", FILES)
    expect("sweep", swept(room, "station.0.len=10..50:10", "a.csv", "a.svg"), 0, "fewest not sent: 0, first at station.0.len=50\n")
    rows = lines_of(room / "a.csv")
    head = "station.0.len,station,band,sent,full,shrunk,purged,refused,sent_after_last"
    fault_if(rows[0] != head or len(rows) != 21 or not {"10,0,all,60,210,0,0,0,0", "50,0,0,40,0,0,0,0,0"} <= set(rows), f"sweep: the table is {rows}")
    expect_picture("sweep", room / "a.svg", "plan.toml over loopback.pcap, 270 packets", "station.0.len", "band 2", "packets not sent")
    is_equal("sweep: its folder is left behind", (room / "a.csv.runs").exists(), False)
    expect("sweep, two keys", swept(room, "station.0.len=10..40:10", "irq_every=1,2", "b.csv", "b.svg"), 0, "fewest not sent: 50, first at station.0.len=40, irq_every=1")
    expect_picture("sweep, two keys", room / "b.svg", "<title>station.0.len=10 irq_every=2: 240</title>", "irq_every")
    expect("sweep, a group", swept(room, "station.0.len=10..40:10", "s.csv", "s.svg", plan="several.toml"), 0, "first at station.0.len=40")
    expect_picture("sweep, a group", room / "s.svg", "station 6, band 1", "stations and bands without a line sent all")
    expect("sweep, several senders", swept(room, "senders=2..3", "c.csv", "--repeat", "3"), 0, "fewest not sent: ")
    head, row, *_ = lines_of(room / "c.csv")
    # what was sent after the last packet isn't told of several senders
    if "full,shrunk,purged,refused,sent_after_last,sent_least,sent_greatest,full_least,full_greatest" not in head or row.count(",,") != 2:
        fault(f"sweep, several senders: the table begins with {head}, {row}")
    for words, code, part in [
        ("station.0.len=0..3", 1, "with station.0.len=0: station 0, `len`: 0 isn't a whole number from 1 to 4096 (5 Range)"),
        ("station.1.len=1..3", 2, "station.1.len: the plan has 1 stations, from 0 on"),
        ("station.0.lne=1..3", 1, "no such key; did you mean `len`?"),
        ("len", 2, "tools/sweep PLAN CAPTURE KEY=FROM..TO"),
        ("station.0.len=12..14", 1, "exit code 1: a fault of 13, with station.0.len=13"),
    ]:
        expect(f"sweep {words}", swept(room, words, "d.csv"), code, part)
    if shutil.which("parallel"):
        write(room / "hosts", "2/:\n")
        expect("sweep, by GNU parallel", swept(room, "station.0.len=21..32", "g.csv", "g.svg", "--sshloginfile", "hosts"), 0, "first at station.0.len=32")
        is_equal("sweep, by GNU parallel: lines", len(lines_of(room / "g.csv")), 49)


def test_an_interrupted_sweep_goes_on():
    room = room_of("goes on", FILES)
    process = started(room, "station.0.len=21..40", "f.csv", "--jobs", "2", SLOW="0.5")
    wait_until(lambda: has_results(room, 3))
    process.send_signal(signal.SIGINT)
    said = process.communicate()[1]
    if "the same call goes on" not in said or "Traceback" in said or process.returncode != -signal.SIGINT:
        fault(f"sweep, interrupted: ends with {process.returncode} and says {said!r}")
    expect("sweep, that goes on", swept(room, "station.0.len=21..40", "f.csv"), 0, "sweep: goes on, ", " of 20 runs are there already", "first at station.0.len=40")
    is_equal("sweep, that goes on: lines", len(lines_of(room / "f.csv")), 81)


# a stand-in for GNU parallel, which does the runs one after the other as a shell takes its words, and writes down that it was called
PARALLEL = """#!/usr/bin/env python3
import os, subprocess, sys
open(os.environ["CALLED"], "a").write("called\\n")
for line in sys.stdin:
    subprocess.run(sys.argv[-1].replace("{}", line.strip()).replace("{%}", "1"), shell=True)
"""


def test_sweep_by_itself():
    """One host's runs are done by Python, in folders with blanks; those of other hosts by GNU parallel, in such folders too."""
    room = room_of("a sweep's room", FILES | {"parallel": PARALLEL, "hosts": "1/:\n"})
    top = repository("with a blank", {"lqtx": "", "capture.pcap": CAPTURE.read_bytes()})
    env, tables = {**os.environ, "PATH": f"{room}:{os.environ['PATH']}", "CALLED": str(room / "called")}, []
    words = [top / "tools/sweep", "plan.toml", top / "capture.pcap", "station.0.len=36..40", "many.csv", "--program", room / "program"]
    for name, more, is_called in (("by itself", [], False), ("over hosts", ["--sshloginfile", "hosts"], True)):
        expect(f"sweep, {name}", run(*words, *more, cwd=room, env=env), 0, "first at station.0.len=40")
        is_equal(f"sweep, {name}: it calls GNU parallel", (room / "called").exists(), is_called)
        tables.append(lines_of(room / "many.csv"))
    is_equal("sweep: the table of hosts", tables[1], tables[0])


def test_the_program_of_a_sweep():
    """The built one, or else the one without its proof, which is said; a proof isn't begun."""
    files = {"lqtx": "#!/bin/sh\nexit 9\n", "crates.txt": "lqtx:\n", "crates/lqtx/src/main.rt": "fn main() {}\n",
             "capture.pcap": CAPTURE.read_bytes(), "plan.toml": FILES["plan.toml"]}
    top = repository("programs", files)
    words = [top / "tools/sweep", "plan.toml", "capture.pcap", "station.0.len=39..40", "a.csv"]
    expect("sweep, no program", run(*words, cwd=top), 1, "no program is built: --unproved compiles one without its proof",
           "./lqtx run PLAN CAPTURE OUT` proves and builds one")
    told = "sweep: the runs are those of the program without its proof"
    for kind, more in (("UNPROVED", f"{told}: the proved one isn't built\n"), ("PROVED", None)):
        place = f"from lib import kept; kept.KEPT.mkdir(exist_ok=True); print(kept.Sources().program(kept.{kind}))"
        write(top / run(sys.executable, "-B", "-c", place, cwd=top / "tools")[1].strip(), PROGRAM)
        said = run(*words, cwd=top)
        expect(f"sweep, by {kind}", said, 0, "first at station.0.len=40", *filter(None, [more]))
        is_equal(f"sweep, by {kind}: what is said of it", told in said[2], bool(more))
    expect("sweep --unproved", run(*words, "--unproved", cwd=top), 0, f"{told}\n")


def test_an_interrupt_of_a_sweep():
    """It ends within a second, and with it the programs that it runs; beside much other work it may take longer."""
    room = room_of("interrupt", FILES)
    process = started(room, "station.0.len=21..40", "f.csv", "--jobs", "2", SLOW="60")
    is_idle = lambda: subprocess.run(["pgrep", "-f", f"^[^ ]*python3 {room}/program run"], stdout=subprocess.DEVNULL).returncode
    wait_until(lambda: not is_idle())
    began, most = time.monotonic(), 1 if os.getloadavg()[0] < 3 * os.cpu_count() else 5
    process.send_signal(signal.SIGINT)
    said = process.communicate()[1]
    if process.returncode != -signal.SIGINT or time.monotonic() - began > most or "the same call goes on" not in said or "Traceback" in said:
        fault(f"sweep, an interrupt: ends with {process.returncode} after {time.monotonic() - began:.1f} s, and says {said!r}")
    time.sleep(0.1)
    fault_if(not is_idle(), "sweep, an interrupt: a program goes on")


def test_two_sweeps_into_one_file():
    room = room_of("two", FILES | {"b.csv.runs/notes": "mine"})
    first = started(room, "station.0.len=30..40", "a.csv", "--jobs", "1", SLOW="2")
    wait_until(lambda: has_results(room, 1))
    for keys in ("station.0.len=30..40", "station.0.len=1..3"):
        expect(f"a second sweep of {keys}", swept(room, keys, "a.csv"), 1, "another sweep is under way in ")
    first.terminate()
    first.communicate()
    expect("a sweep once the other has ended", swept(room, "station.0.len=30..40", "a.csv"), 0, " of 11 runs are there already", "first at station.0.len=40")
    expect("a sweep beside a folder of the user's", swept(room, "station.0.len=1..3", "b.csv"), 2, "isn't the folder of a sweep")
    is_equal("a folder of the user's", (room / "b.csv.runs/notes").read_text(encoding="utf-8"), "mine")


# plans of one sender, the bands of its packets, and how many of each band are sent after the last one came, by hand
AFTER = {
    # the device takes the first packet, and the second once it is opened after the fourth: three wait
    "irq_every = 4\n[[station]]\nburst = 1\n": ([0] * 5, [3, 0, 0]),
    # all that wait are purged by an event behind the capture
    "irq_every = 9\n[[station]]\nburst = 1\n[[event]]\nbefore = 9\nkind = \"down\"\nstation = 0\n": ([0] * 5, [0, 0, 0]),
    # the device hangs at the second packet
    "[[station]]\nhang_after = 2\n": ([0] * 5, [0, 0, 0]),
    # two of band 0 and one of band 2 wait behind the first
    "irq_every = 9\n[[station]]\nburst = 1\n": ([2, 2, 0, 0], [2, 0, 1]),
    # nothing waits
    "[[station]]\n": ([0] * 5, [0, 0, 0]),
}  # fmt: skip


def test_sent_after_the_last_packet():
    for number, (text, (bands, wanted)) in enumerate(AFTER.items()):
        room = room_of(f"after{number}", {"plan.toml": text, "c.pcap": capture_of(*(frame([16, 0, 8][band], 0, 0) for band in bands))})
        fates = fates_of(toml_text.loads(text), room / "c.pcap")
        write(room / "program", f"#!/usr/bin/env python3\nimport sys\nopen(sys.argv[4] + '.fates', 'w').write({fates!r})\n")
        said = run(HERE / "sweep", "plan.toml", "c.pcap", "station.0.len=100,101", "a.csv", "a.svg", "--program", room / "program", cwd=room)
        expect(f"sweep, after the last packet of {text!r}", said, 0, *[f"there {sum(wanted)} packets were sent after the last one came"] * any(wanted))
        found = [line.split(",")[-1] for line in lines_of(room / "a.csv")[1:5]]
        is_equal(f"sweep, after the last packet of {text!r}", found, [*map(str, wanted), str(sum(wanted))])
        expect_picture("sweep, after the last packet", room / "a.svg", *["dotted: packets that waited when the last one came"] * any(wanted))
        if not any(wanted):
            expect_none("sweep, nothing after the last packet", said, "after the last one")


def test_bursts():
    """The example whose answer doesn't come of where the capture ends: it is the same for one burst and for eight."""
    make, plan = TOP / "examples/make-bursts", toml_text.loads((TOP / "examples/bursts.toml").read_text(encoding="utf-8"))
    is_equal("examples/bursts.pcap is what examples/make-bursts makes", subprocess.run([make], capture_output=True).stdout ==
             (TOP / "examples/bursts.pcap").read_bytes(), True)
    for cycles in (1, 3, 8):
        write(ROOM / "bursts.pcap", subprocess.run([make, str(cycles)], capture_output=True).stdout)
        lost = []
        for length in (25, 26, 31, 32, 40, 41):
            plan["station"][0]["len"] = length
            lost.append(" full " in fates_of(plan, ROOM / "bursts.pcap"))
        is_equal(f"{cycles} bursts: whether packets are dropped", lost, [True, False, False, True, True, False])
