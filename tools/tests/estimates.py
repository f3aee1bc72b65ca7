"""How long a build takes: the plan, what is said of it, and a first build played again."""
import os
import subprocess
import sys
import time

from lib import estimate
from tests.bench import HERE, ROOM, fault_if, is_equal, load, run


def test_estimates():
    """Two processors check `low`, 60 s by one, in 36 s: 72 s of a processor. Then one checks `high` in 30 s, while the other is idle."""
    starts = lambda ended, under_way: [name for name in ("low", "high") if name not in ended and name not in under_way and (name == "low" or "low" in ended)]
    plan = estimate.simulate({"low": 60, "high": 30}, {"low"}, 2, starts)
    is_equal("the plan's ends", {crate: round(at, 3) for crate, at in plan.ends.items()}, {"low": 36, "high": 66})
    is_equal("the plan's processor time", [round(seconds, 3) for seconds in plan.work], [0, 72, 102])
    is_equal("half of it", round(plan.time_of(36), 3), 18)
    is_equal("more than all of it", round(plan.time_of(1000), 3), 66)
    known = estimate.Estimate(plan)
    is_equal("before a crate has ended", known.in_all(10), "1 to 3 min by machine")
    known.under_way({"low": 100})
    is_equal("the same with a crate under way", known.in_all(10), "1 to 3 min by machine")
    is_equal("no crate has ended when all were to", known.in_all(100), "about 3 min in all, 1 on idle processors")
    known.ended("low", 144)
    # 2.55 s of a processor are taken as known beforehand, at 1.3 times: (144 + 3.3) / (72 + 2.55). Of the pace 5.28 planned seconds: (72 + 10.4) / (36 + 5.28)
    is_equal("twice as slow", (round(known.slower(), 2), round(known.whole(72)), known.in_all(72)), (1.98, 132, "about 2 min in all"))
    is_equal("it is said", known.on_this_machine(72), "this machine takes 2.0 times the processor time of the one that these minutes are of: 2 to 3 min in all")
    is_equal("a third of the processors is at other work", (round(known.whole(108)), known.in_all(108)), (189, "about 3 min in all, 2 on idle processors"))
    known.under_way({"high": 30})
    # 72 and 15.2 planned seconds are done: second 51.2 of 66
    is_equal("half of the last crate", round(known.whole(102)), 131)
    known.under_way({"high": 1000})
    is_equal("a crate that takes longer than planned", round(known.whole(500)), 500)


def test_several_processes():
    """The largest crates of a chain have several, until it takes at most 1.4 times what all crates take beside each other: here 73.5 s.

    The chain takes 81 s if two check `middle` in 36 s, and 69 if two check `high` in 18, too.
    """
    build = load("build")
    build.SHARES, build.Kit = {"low": 10, "middle": 60, "high": 30, "lqtx": 5}, type("Kit", (), {"__init__": lambda *_: None, "has": lambda *_: False})
    work = build.Build({"low": [], "middle": ["low"], "high": ["middle"], "lqtx": ["high"]}, 2)
    is_equal("crates with several processes", work.several, {"middle", "high"})
    is_equal("the first crate", work.rank("low"), (build.NEAR_ONE, 1))
    is_equal("the second", work.rank("middle"), (build.NEAR_ONE, 2))


# a first build of this program: when each crate began and ended, on four processors that had nothing else to do for four minutes, and then up to
# thirty processes at other work
ONCE = {
    "lq_gate": (0, 14), "lq_model": (0, 53), "lq_host": (0, 258), "lq_run_laws": (53, 143), "lq_pcap": (53, 153), "lq_class": (53, 109),
    "lq_device": (53, 130), "lq_ring_core": (53, 189), "lq_account_laws": (53, 94), "lq_fates": (53, 179), "lq_mq": (53, 110),
    "lq_run_core": (143, 505), "lq_plan": (153, 525), "lq_pcapng": (153, 247), "lq_band_laws": (189, 237),
    "lq_table": (237, 850), "lq_tap": (237, 1035), "lq_files": (525, 1673), "lq_ring": (850, 1259), "lq_run": (850, 1210),
    "lq_tap_run": (1035, 1498), "lq_qdisc": (1259, 1538), "lq_control": (1538, 1647), "lq_seat": (1647, 1704), "lq_senders": (1704, 1885),
    "lq_top": (1885, 2046), "lqtx": (2046, 2189),
}  # fmt: skip
QUIET = 947  # seconds that a first build took on this machine with nothing else at work: 52 processor minutes


def estimate_of(build, crates):
    """The estimate of a build of these crates alone: others of the program came later."""
    build.Kit = type("Kit", (), {"__init__": lambda *_: None, "has": lambda *_: False})
    uses = build.crates_of_program()
    return build.Build({crate: [low for low in uses[crate] if low in crates or low not in uses] for crate in uses if crate in crates}, 4).estimate


def play_again(known, crates, step, took):
    """A build's crates again, each with when it began and ended, and its processor time: from the first minute on the estimate is right within a third."""
    for now in range(60, max(end for _, end, _ in crates.values()), step):
        for crate, (_, end, used) in crates.items():
            if end <= now and crate not in known.used:
                known.ended(crate, used)
        known.under_way({crate: used * (now - began) / (end - began) for crate, (began, end, used) in crates.items() if began < now < end})
        fault_if(took(now) and abs(known.whole(now) / took(now) - 1) > 1 / 3, f"the estimate at {now} s: {known.whole(now):.0f} s, where it took {took(now)} s")


def test_estimate_of_a_first_build():
    """Right for a machine that stays as it is, and soon after other work came."""
    known = estimate_of(load("build"), ONCE)
    took, slower = max(end for _, end in ONCE.values()), 52 * 60 / sum(known.plan.seconds.values())
    crates = {crate: (began, end, slower * known.plan.seconds.get(crate, 5)) for crate, (began, end) in ONCE.items()}
    play_again(known, crates, 30, lambda now: QUIET if now <= 240 else took if now >= 570 else None)


# another: when each crate began and ended, and its processor time, on four processors of half the speed with nothing else to do but the unproved build
# (from second 1 to 78)
SLOW = {
    "lq_gate": (0, 47, 9), "lq_log": (0, 56, 41), "lq_model": (0, 80, 103), "lq_account_laws": (95, 120, 16), "lq_class": (95, 131, 23),
    "lq_mq": (95, 132, 23), "lq_device": (95, 151, 34), "lq_run_laws": (95, 159, 40), "lq_pcap": (95, 175, 50), "lq_fates": (95, 196, 61),
    "lq_ring_core": (95, 206, 65), "lq_host": (0, 212, 134), "lq_band_laws": (197, 224, 11), "lq_pcapng": (180, 230, 41),
    "lq_run_core": (160, 318, 134), "lq_plan": (180, 318, 124), "lq_table": (215, 399, 345), "lq_run": (414, 436, 34), "lq_ring": (414, 478, 111),
    "lq_tap": (215, 520, 83), "lq_qdisc": (493, 581, 180), "lq_files": (333, 598, 256), "lq_control": (583, 639, 139), "lq_tap_run": (535, 654, 74),
    "lq_seat": (639, 665, 51), "lq_senders": (680, 756, 244), "lq_top": (771, 826, 164), "lqtx": (826, 897, 88),
}  # fmt: skip


def test_estimate_of_a_slow_first_build():
    """Right though the first crates are small and the unproved build has a processor meanwhile."""
    build = load("build")
    build.SHARES["lq_model"] = 42  # which it took then
    play_again(estimate_of(build, SLOW), SLOW, 20, lambda now: max(end for _, end, _ in SLOW.values()))


def test_said_beside_took():
    log = ROOM / "log"
    lines = ["building, which proves the program first: 9 to 16 min by machine"]
    lines += ["proved low by 14 s of a processor, 1 of 2 crates, 0 min 14 s so far, about 3 min in all; under way: high"]
    lines += ["1 of 2 crates, 1 min 00 s so far, about 4 min in all, 2 on idle processors; under way: high"]
    lines += ["proved high by 60 s of a processor, 2 of 2 crates, 5 min 00 s so far, done; under way: none"]
    log.write_text("".join(f"lqtx: {line}\n" for line in lines), encoding="utf-8")
    of_lib = [sys.executable, "-m", "lib.estimate"]
    said = run(*of_lib, log, cwd=HERE)
    wanted = "at 0 min 14 s it said 3 min, -40% of what it took\nat 1 min 00 s it said 4 min, -20% of what it took\n"
    wanted += "it took 5 min 00 s; from the first minute on 1 of 1 lines were within a third\n"
    is_equal("said beside took", said, (0, wanted, ""))
    is_equal("no log", run(*of_lib, ROOM / "none", cwd=HERE)[0], 1)
    is_equal("no words", run(*of_lib, cwd=HERE)[0], 2)


def test_time_of_processes():
    """The processor time of a group of processes, as of one that has worked for half a second, and of one that has ended."""
    build = load("build")
    works = "import time\nwhile time.process_time() < 0.5: pass\nprint(flush=True)\ntime.sleep(30)"
    process = subprocess.Popen([sys.executable, "-c", works], stdout=subprocess.PIPE, preexec_fn=os.setpgrp)
    process.stdout.readline()
    used = build.used_so_far({"low": process.pid})
    fault_if(not 0.4 <= used["low"] < 5, f"a process that has worked for half a second: {used}")
    is_equal("it is under way", build.processor_time(process), None)
    process.kill()
    while (used := build.processor_time(process)) is None:
        time.sleep(0.01)
    fault_if(not 0.4 <= used < 5, f"the same once it has ended: {used}")
    is_equal("how it ended", process.returncode, -9)
