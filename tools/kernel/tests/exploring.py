"""All orders of steps: what is right, what goes wrong, what isn't decided, and that the steps are those of the machine."""
import os
import shutil
import subprocess
import sys
import xml.etree.ElementTree

from lib import machine
from kernel.orders import search, text as steps_text
from tests.bench import HERE, ROOM, TOP, expect, expect_none, fault, fault_if, room_of, run

EXPLORE = HERE / "kernel/explore"


def test_explore_right():
    """The right machine, in sizes that take no time; the longest order of the first is that of another search, in C++."""
    said = run(EXPLORE, "--bands", 2)
    expect("explore", said, 0, "2 seats, 2 transmits of each", "no packet is left or lost", "43 moves at most", "right in this size; not searched: more seats")
    expect("explore, one seat", run(EXPLORE, "--seats", 1, "--stops", 1), 0, "every order ends")
    expect("explore, a deactivation, a swap and two queues", run(EXPLORE, "--sends", 1, "--downs", 1, "--swaps", 1, "--hangs", 1, "--queues", 2, "--quick"), 0, "no packet is left or lost")


def test_explore_mistakes():
    """Mistakes are found, and what is written of the order is taken by the other tools. `tools/kernel/explore --try-edits` tries all."""
    found, picture = ROOM / "found.schedule", ROOM / "found.svg"
    rows = {"begin_gives_up_after_one_try": (25, "held 1, nobody comes: packet 1 in band 0"), "end_looks_before_it_releases": (25, "held 1, nobody comes: packet 1 in band 0")}
    for edit, (moves, left) in rows.items():
        said = run(EXPLORE, "--edit", edit, "--seats", 2, "--quick", found, picture)
        expect(f"explore {edit}", said, 1, f"a packet is left, and nobody comes: held 1; {moves} moves, no order has fewer", "qdisc_run_begin(): spin_trylock(&qdisc->seqlock)")
        expect("the order that was found, on the right machine", run(HERE / "show-schedule", found), 0, "held 0: nothing is left")
        expect("the order that was found, with the mistake", run(HERE / "show-schedule", "--mistake", edit, found), 0, left)
        if "a packet is left, and nobody comes" not in "".join(xml.etree.ElementTree.parse(picture).getroot().itertext()):
            fault(f"explore {edit}: the picture doesn't say what is wrong")
    said = run(EXPLORE, "--edit", "begin_waits_for_the_lock", "--seats", 2, found)
    expect("explore, for ever", said, 1, "an order goes on for ever while a packet is held", "11 moves to a round of 1", "from here on, over and over:\n   12  seat 1   try2")
    expect("the round, on the right machine", run(HERE / "show-schedule", found), 0, "held 0: nothing is left")
    said = run(EXPLORE, "--edit", "bypass_without_looking_under_the_lock", "--bypass", 1, "--busys", 2, "--quick")
    expect("explore, lost", said, 1, "goes wrong: a second packet is requeued: the slot has room for one; Linux's gso_skb is a list, which loses none, but their order")


def test_explore_deactivation():
    """An order with a deactivation in its steps; a schedule has a comment in their place."""
    edit, found = "soft_interrupt_gives_up_when_deactivated", ROOM / "found.schedule"
    said = run(EXPLORE, "--edit", edit, "--sends", 1, "--downs", 1, "--stops", 1, "--busys", 1, "--quick", found)
    expect(f"explore {edit}", said, 1, "a packet is left, and nobody comes", "control  quiet", "dev_reset_queue(): spin_lock_bh(&qdisc->seqlock)")
    fault_if("# here control deactivates the station" not in found.read_text(encoding="utf-8"), "explore: the schedule doesn't say where control deactivates")
    expect("the order with a deactivation, with the mistake", run(HERE / "show-schedule", "--mistake", edit, found), 0, "held 1, nobody comes: packet 1 in the requeue slot")


# a deactivation as Linux's (--waits 1): what its soft interrupt does is right there, a wake's call is inside, and what each later kernel made of it
DOWN = ("--sends", 1, "--bypass", 1, "--stops", 1, "--busys", 1, "--downs", 1, "--waits", 1)
LINUX = {
    "soft_interrupt_gives_up_when_deactivated": None,
    "soft_interrupt_leaves_sched_set": "a deactivation waits for what nobody will do",
    "deactivation_waits_for_nobody": "a packet is left, and nobody comes: held 1; 48 moves",
    "deactivation_keeps_the_packets": "a packet is left, and nobody comes: held 1; 25 moves",
    "kept_packets_scheduled": None,
    "kept_packets_scheduled_as_in_7_3": None,
    "kept_packets_scheduled_and_seen_late": "a packet is left, and nobody comes: held 1; 39 moves",
}


def test_explore_linux_deactivation():
    for edit, wrong in LINUX.items():
        said = run(EXPLORE, *DOWN, "--edit", edit, "--quick")
        expect(f"explore {edit}", said, 1 if wrong else 0, "which waits until SCHED is clear, as Linux's", wrong or "no packet is left or lost")
    # with one seat nothing but the wake is lost: it finds noop_qdisc
    wake = run(EXPLORE, "--edit", "deactivation_keeps_the_packets", "--seats", 1, "--stops", 1, "--downs", 1, "--waits", 1, "--quick")
    expect("explore, a wake alone", wake, 1, "held 1; 40 moves", "finds noop_qdisc, and schedules that", "netif_tx_wake_queue(): rcu_dereference(dev_queue->qdisc)")


def test_explore_own_steps():
    """A text of one's own: a change that goes wrong, a step that waits for ever, and texts that can't be used."""
    steps, mine = (HERE / "kernel/orders/steps.h").read_text(encoding="utf-8"), ROOM / "mine.h"
    mine.write_text(steps.replace("        q->MISSED = 1;\n        return to(s, TRY2", "        return to(s, TRY2"), encoding="utf-8")
    expect("explore --steps", run(EXPLORE, "--steps", mine, "--seats", 2, "--quick"), 1, f"all orders of the steps of {mine}", "a packet is left")
    mine.write_text(steps.replace("    case RELEASE:", "    case RELEASE: return 0;"), encoding="utf-8")
    said = run(EXPLORE, "--steps", mine, "--seats", 2, "--sends", 1, "--downs", 1, "--quick")
    expect("explore, a deactivation that doesn't end", said, 1, "a deactivation waits for what nobody will do")
    mine.write_text(steps.replace("q->MISSED = 1;", "q->MISED = 1;"), encoding="utf-8")
    expect("explore, no member", run(EXPLORE, "--steps", mine, "--seats", 2), 2, "the steps don't compile", "steps.h:", "MISED")
    expect("explore, an edit of a line that is gone", run(EXPLORE, "--steps", mine, "--edit", "miss_sets_nothing"), 2, "miss_sets_nothing changes a line of MISS that isn't in this text")
    expect("explore, no text", run(EXPLORE, "--steps", ROOM / "none.h"), 2, "none.h: No such file or directory")


def test_explore_buffers():
    """Stores that wait in buffers: each order of docs/BARRIERS.md that is left out leaves a packet, and x86 as it is doesn't."""
    expect("explore --plain put", run(EXPLORE, "--plain", "put", "--seats", 2), 0, "these stores wait in buffers: put", "no packet is left or lost")
    said = run(EXPLORE, "--plain", "unlock", "--seats", 2)
    expect("explore --plain unlock", said, 1, "a packet is left, and nobody comes", "its buffer     seen by all: the lock is free")
    expect("explore --plain, both bits", run(EXPLORE, "--plain", "clearm,cleard", "--seats", 2), 1, "a packet is left, and nobody comes")
    expect("explore --plain, one bit", run(EXPLORE, "--plain", "cleard", "--seats", 2), 0, "no packet is left or lost")
    expect("explore --plain, no such store", run(EXPLORE, "--plain", "put,none"), 2, "no store is called none: --plain takes put, unlock")
    expect("explore --plain with two queues", run(EXPLORE, "--plain", "put", "--queues", 2), 2, "--plain goes with one queue")


def test_explore_words():
    rows = {
        ("--seats", "9"): "--seats is a whole number from 1 to 8",
        ("--sends", "many"): "--sends",
        ("--edit", "nothing"): "no change is called nothing: --edits lists them",
        ("OUT.png",): "an order is written as OUT.schedule or as OUT.svg",
        (ROOM / "none/OUT.svg",): "there is no such folder",
        ("--memory", "0"): "--memory and --seconds are above 0",
        ("--engine", "none"): "--engine",
        ("--seat", "2"): "--seat",
    }
    for words, part in rows.items():
        said = run(EXPLORE, *words)
        expect(f"explore {words}", said, 2, part)
        expect_none(f"explore {words}", said, "Traceback")
    mine = ROOM / "mine.svg"
    shutil.copy(HERE / "kernel/orders/steps.h", mine)
    expect("explore, an output that is the input", run(EXPLORE, "--steps", mine, mine), 2, f"{mine} is an input")
    with open("/dev/full", "w", encoding="utf-8") as full:
        said = subprocess.run([EXPLORE, "--edits"], stdout=full, stderr=subprocess.PIPE, text=True)
    expect("explore, a full disk", (said.returncode, "", said.stderr), 3, "explore: standard output: No space left on device")
    expect("explore --help", run(EXPLORE, "--help"), 0, "tools/kernel/explore [--steps MINE.h]", "Exit codes: 0 right in these sizes", "--bypass N")


def test_explore_undecided():
    """No room, no compiler, no SPIN: that nothing is decided is said, with a code of its own."""
    expect("explore, no room", run(EXPLORE, "--memory", 1, "--seats", 3, "--sends", 3), 3, "not decided: ", "there is no memory for more: give --memory")
    tools = room_of("without")
    (tools / "python3").symlink_to(sys.executable)
    without = os.environ | {"PATH": str(tools)}
    expect("explore, no compiler", run(EXPLORE, "--seats", 2, env=without), 3, "there is no C compiler: apt-get install gcc")
    expect("explore, no SPIN", run(EXPLORE, "--engine", "spin", env=without), 3, "there is no spin: apt-get install spin")


def test_explore_spin():
    """SPIN finds as many states by the same steps, and the same mistake."""
    if shutil.which("spin"):
        expect("explore, SPIN", run(EXPLORE, "--engine", "spin", "--seats", 2, "--sends", 1, "--quick"), 0, f"SPIN: {states_apart(2, 1):,} states, seats told apart; no packet is left or lost")
        said = run(EXPLORE, "--engine", "spin", "--edit", "begin_gives_up_after_one_try", "--seats", 2, "--quick")
        expect("explore, SPIN and a mistake", said, 1, "an order goes wrong", "25 moves, no order has fewer")


def states_apart(seats, sends):
    """How many states there are by a search in Python over tools/lib/machine.py, which has the steps once more."""
    start = machine.first_machine(seats, 8, False), (sends,) * seats
    seen, layer = {start}, [start]
    while layer:
        m, left = layer.pop()
        for i, s in enumerate(m.seats):
            after = []
            if s.at != "idle":
                after = [(machine.step(m, i), left)] if not machine.why_not_step(m, i, "plain") else []
            else:
                after += [(machine.begin(m, i, ("send", 0), 0), left[:i] + (left[i] - 1,) + left[i + 1 :])] if left[i] else []
                after += [(machine.begin(m, i, ("softirq",), 0), left)] if s.raised else []
            for n, rest in after:
                key = plain(n), rest
                if key not in seen:
                    seen.add(key)
                    layer.append((plain(n), rest))
    return len(seen)


def plain(m):
    """A machine by all that decides what comes next: the numbers and owners of packets are nothing to a step."""
    unnumbered = lambda packet: packet and machine.Packet(0, 0, packet.band)
    q = m.qdisc._replace(ring=tuple(machine.Ring(map(unnumbered, ring)) for ring in m.qdisc.ring), gso_skb=unnumbered(m.qdisc.gso_skb), sent=0, full=0)
    return m._replace(qdisc=q, seats=tuple(s._replace(run=0, packet=unnumbered(s.packet)) for s in m.seats))


def test_explore_table():
    """The table of positions has each that `trace` prints, and each change that has a name is one of the text."""
    said = run(EXPLORE, "--positions")
    expect("explore --positions", said, 0, "miss\tsets MISSED\tqdisc_run_begin()\tinclude/net/sch_generic.h\ttest_and_set_bit(__QDISC_STATE_MISSED, &qdisc->state)\t")
    names = [line.split("\t")[0] for line in said[1].splitlines()]
    for name in ("enter", "check", "put", "try1", "miss", "try2", "recheck", "gate", "xmit", "stop", "post", "deq", "test", "clearm", "cleard", "cclear", "cload", "cmiss", "cdrain", "again", "quota", "unlock", "tail", "sched", "leave", "soft", "sclear", "late", "wake"):
        fault_if(name not in names, f"explore --positions: no {name}")
    steps = steps_text.STEPS.read_text(encoding="utf-8")
    for edit in steps_text.edits().values():
        fault_if(steps_text.edited(steps, edit) == steps, f"{edit.name} changes nothing")
    expect("explore --edits", run(EXPLORE, "--edits"), 0, *(f"{name}: " for name in machine.MISTAKES))


def test_play_page():
    """The page to play is what the steps make of it, and its machine leaves of schedules by dice what the steps do."""
    expect("make-play --check", run(HERE / "make-play", "--check"), 0)
    expect("make-play, wrong words", run(HERE / "make-play", "--none"), 2, "tools/make-play [--check] [OUT.html]")
    expect("make-play, no folder", run(HERE / "make-play", ROOM / "none/page.html"), 1, "none/page.html: No such file or directory")
    expect("test-play, wrong words", run(HERE / "test-play", "--picture", "OUT.svg"), 2, "tools/test-play [--picture OUT.png]")
    if shutil.which("node"):
        walks, file = search.walks(steps_text.STEPS.read_text(encoding="utf-8"), 9, 100, ROOM), ROOM / "walks"
        file.write_text("".join(f"{schedule}--\n{left}==\n" for schedule, left in walks), encoding="utf-8")
        expect("the page's machine", run("node", HERE / "play/agree.js", TOP / "docs/play.html", file), 0, "100 schedules by the page's machine: 0 differ")


def test_explore_walks():
    """Random schedules by the steps, and by the model that draws; with the program, by `lqtx trace`."""
    program = next(iter(sorted((TOP / "build").glob("lqtx.*"))), None) if (TOP / "build").is_dir() else None
    count, file = 0, ROOM / "walk.schedule"
    for schedule, left in search.walks(steps_text.STEPS.read_text(encoding="utf-8"), 7, 60, ROOM):
        count += 1
        fault_if(len(schedule) < 8000 and machine.trace(schedule.encode()) != (0, left), f"explore: the steps and tools/lib/machine.py part over\n{schedule}")
        file.write_text(schedule, encoding="utf-8")
        if program and os.access(program, os.X_OK) and run(program, "trace", file)[1] != left:
            fault(f"explore: the steps and the program part over\n{schedule}")
    fault_if(count != 60, f"explore: {count} schedules by dice, and not 60")
