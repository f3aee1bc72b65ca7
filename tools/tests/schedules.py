"""Orders of steps: shown, and refused."""
import random

from lib import machine
from tests.bench import HERE, ROOM, TOP, expect, expect_none, fault, fault_if, run

SCHEDULES = {"second-try": 41, "second-try-finds-nothing": 58, "release-then-look": 47, "clear-then-look": 53, "look-at-the-stop-word-again": 55,
             "wake-after-the-second-look": 48, "soft-interrupt-clears-first": 53, "bypass-looks-under-the-lock": 49}  # fmt: skip
# each mistake, a schedule in which it shows, and what it leaves there (all but the first: crates/lq_run_core/specs/Mistakes.antt)
LEFT = {
    "begin_sets_no_missed": ("second-try", "packet 1 in band 1, state clear"),
    "begin_gives_up_after_one_try": ("second-try", "packet 1 in band 1, state MISSED"),
    "end_looks_before_it_releases": ("release-then-look", "packet 1 in band 1, state MISSED"),
    "missed_cleared_after_the_second_look": ("clear-then-look", "packet 0 in band 1, state clear"),
    "draining_set_without_looking_again": ("look-at-the-stop-word-again", "packet 1 in band 1, state DRAINING"),
    "soft_interrupt_gives_up_when_deactivated": ("soft-interrupt-clears-first", "packet 1 in the requeue slot, state MISSED"),
}


def schedule(name):
    return TOP / "examples/schedules" / f"{name}.schedule"


def test_show_schedule():
    for name, steps in SCHEDULES.items():
        said = run(HERE / "show-schedule", schedule(name))
        expect(f"show-schedule {name}", said, 0, f"\n{steps:5}  ", "held 0: nothing is left")
        expect_none(f"show-schedule {name}", said, f"\n{steps + 1:5}  ")
    said = run(HERE / "show-schedule", schedule("second-try"))
    expect("show-schedule, a third packet in a band", run(HERE / "show-schedule", schedule("second-try-finds-nothing")), 0, "packet 2 into band 1\n")
    expect("show-schedule, a line", said, 0, "   22    16     1  miss              try2                 1    27  MISSED set\n", "          9     1  begins send 1")
    picture = ROOM / "picture.svg"
    for mistake, (name, left) in LEFT.items():
        said = run(HERE / "show-schedule", "--mistake", mistake, schedule(name), picture)
        expect(f"show-schedule --mistake {mistake}", said, 0, f"held 1, nobody comes: {left}, lock free", "the right machine is elsewhere")
        fault_if("nobody comes" not in picture.read_text(encoding="utf-8"), f"the picture of {mistake} doesn't tell the end")
    said = run(HERE / "show-schedule", "--mistake", "begin_gives_up_after_one_try", schedule("release-then-look"))
    expect("a mistake that doesn't show", said, 0, "held 0: nothing is left", "the mistake doesn't show in this order")
    expect("show-schedule --mistakes", run(HERE / "show-schedule", "--mistakes"), 0, *LEFT)
    expect("show-schedule, a wrong mistake", run(HERE / "show-schedule", "--mistake", "none", schedule("second-try")), 2, "no mistake is called none")
    expect("show-schedule, no file", run(HERE / "show-schedule", ROOM / "none"), 1, "No such file")
    expect("show-schedule, no folder", run(HERE / "show-schedule", schedule("second-try"), ROOM / "none/a.svg"), 1, "No such file")


# the two that come back to where their round began: how many steps, how many moves the round has, and what the end is
CHASES = {"chase": (87, 42, "held 0: nothing is left"), "stopped-chase": (65, 30, "held 1: packet 1 in band 0; seats are still on their way, or the queue is stopped")}


def test_chases():
    """The machine after the round is the one before it, and within it nothing bounds the steps."""
    for name, (steps, moves, end) in CHASES.items():
        said = run(HERE / "show-schedule", schedule(name))
        expect(f"show-schedule {name}", said, 0, f"\n{steps:5}  ", end)
        expect_none(f"show-schedule {name}", said, f"\n{steps + 1:5}  ")
        states = [event.after for event in machine.work(schedule(name).read_bytes())]
        rounds = [place for place, state in enumerate(states) if state == states[-1]]
        fault_if(len(rounds) != 2 or rounds[1] - rounds[0] != moves, f"{name} comes to its last machine at {rounds}")
        fault_if(any(machine.left(state) is not None for state in states[rounds[0] :]), f"{name}: the round has a bound")


# a packet's way with nobody else about, and how many steps may still come at each of its steps: 20 for it, and the seat's way (docs/NO-PACKET-LEFT.md)
WAY_OF_ONE = ["3     8     0  put               try1                 1    29", "4     8     0  try1              deq                  1    26", "7     8     0  scan 1 first      gate                 0    22",
              "8     8     0  gate              xmit                 0    21", "9     8     0  xmit              deq                  0     -"]  # fmt: skip
# what a move may add: one less than it costs
MAY_ADD = {"busy": 18, "send": 35, "wake": 17}


def random_moves(of, seats):
    """Machines and moves, as they come in some order: each seat goes on, begins a call, or takes a soft interrupt."""
    m = machine.first_machine(seats, of.choice((1, 2, 8)), of.randrange(2))
    for number in range(200):
        moves = [("step", i, answer) for i, s in enumerate(m.seats) for answer in ("plain", "full", "busy", "stop") if s.at != "idle" and not machine.why_not_step(m, i, answer)]
        moves += [("softirq", i, ("softirq",)) for i, s in enumerate(m.seats) if s.at == "idle" and s.raised]
        if not moves or of.random() < 0.1:
            moves += [(start[0], i, start) for i, s in enumerate(m.seats) if s.at == "idle" for start in (("send", of.randrange(3)), ("wake",))]
        if not moves:
            continue
        what, i, how = of.choice(moves)
        after = machine.step(m, i, how) if what == "step" else machine.begin(m, i, how, number)
        yield m, how if what == "step" else what, after
        m = after


def test_steps_left():
    said = run(HERE / "show-schedule", schedule("second-try"), ROOM / "left.svg")
    expect("show-schedule, steps left", said, 0, *WAY_OF_ONE)
    picture = (ROOM / "left.svg").read_text(encoding="utf-8")
    fault_if(">left</text>" not in picture or ">47</text>" not in picture, "the picture doesn't draw how many steps are left")
    said = run(HERE / "show-schedule", "--mistake", "begin_gives_up_after_one_try", schedule("second-try"))
    expect("show-schedule, steps left and nobody", said, 0, "   24    21     1  leave             idle                 1    20  inside 0\nheld 1, nobody comes")
    of, bounded = random.Random(1), 0
    for number in range(100):
        for before, what, after in random_moves(of, 2 + number % 3):
            a, b = machine.left(before), machine.left(after)
            if a is not None and b is not None:
                bounded += 1
                if b > a + MAY_ADD.get(what, -1):
                    fault(f"a move doesn't come nearer: {before}, {what}: {a}, then {b}")
                    return
    fault_if(bounded < 5000, f"only {bounded} moves had a bound")


def test_why_a_schedule_is_refused():
    rows = {
        "seats 3 len 1 bypass 0\n0 send 1\n0 step 4\n1 send 1\n1 step 3\n": "line 5: seat 1 can't do step 3 of 3: it is at put, and band 1 has 1 of 1 packets: write `1 full`",
        "seats 2 len 4 bypass 0\n0 step 1\n": "line 2: seat 0 can't do step 1 of 1: it is idle: it can begin `0 send B`, `0 wake`",
        "seats 2 len 4 bypass 0\n0 softirq\n": "line 2: seat 0 can't begin `softirq`: no soft interrupt is scheduled on it",
        "seats 2 len 4 bypass 0\n0 send 1\n0 busy\n": "line 3: seat 0 can't do `busy`: it is at enter, and only at xmit",
        "seats 2 len 4 bypass 0\n0 send 1\n0 wake\n": "line 3: seat 0 can't begin `wake`: it is in a call, at enter",
        "seats 2 len 4 bypass 0\n0 send 1 # one\n": "line 2: a comment has a line of its own",
        "seats 2 len 4 bypass 0\n0  send 1\n": "line 2: there is one space between two words",
        "seats 2 len 4 bypass 0\n0 down\n": "line 2: a schedule begins no deactivation",
        "seats 2 len 4 bypass 0\n2 wake\n": "line 2: there are the seats 0 to 1",
        "seats 2 len 4\n": "line 1: the first line is `seats N len L bypass B`",
        "# nothing\n": "line 2: there is no first line",
    }
    for text, why in rows.items():
        file = ROOM / "refused.schedule"
        file.write_text(text, encoding="utf-8")
        said = run(HERE / "show-schedule", "--why", file)
        expect(f"why {text!r}", said, 7, why)
        fault_if(said[1], "show-schedule --why writes to standard output")
