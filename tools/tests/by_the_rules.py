"""A stand-in for the program, where it isn't built: `run` with one sender, `gen`, `trace`, and `tap` through a ring with room for all.

It goes by the tools' own restatement of the rules, which `tools/compare PROGRAM` compares with the program. Nothing of it is proved.
"""
import collections
import pathlib
import struct
import sys

from lib import captures, machine, plans
from lib.alone import Run
from lib.places import Places
from lib.trail import KINDS, SENT, joint_lists, sent_by_units
from lib.wire import times_text

GENERATED_PLAN = plans.plan_of({"irq_every": 64, "station": [{"len": 32, "burst": 48}]})


def counts_of(plan, stations, trail):
    """What is printed of a run."""
    units = collections.Counter(unit for kind, unit in zip(trail.kinds, trail.names) if kind == SENT)
    kinds = collections.Counter((station, KINDS[kind]) for station, kind in zip(stations, trail.kinds))
    drops = KINDS[1:]
    lines = [f"unit {unit} sent {units[unit]}" for unit in range(plan.units)]
    lines += [f"station {station} " + " ".join(f"{drop} {kinds[station, drop]}" for drop in drops) for station in range(len(plan.tables))]
    every = " ".join(f"{drop} {sum(kinds[station, drop] for station in range(plans.CHILDREN))}" for drop in drops)
    lines.append(f"total {len(trail.kinds)} sent {sum(units.values())} {every}")
    lines += [f"mq {at} queues {len(children)} sent {sum(units[child] for child in children)}" for at, children in plan.groups]
    return "".join(f"{line}\n" for line in lines)


def run_of(plan, capture):
    """A run of one sender: its trail, what is printed of it, and the text of its times, which only a plan with a link has."""
    places = Places(plan, capture)
    run = Run(places).go()
    times = times_text(run.wire.flights, run.wire.card.rate_kbit) if run.wire else ""
    return run.trail, counts_of(plan, places.stations, run.trail), times


def run_files(plan_file, capture_file, out):
    root, faults = plans.judge(pathlib.Path(plan_file).read_bytes())
    if faults:
        print(f"plan refused: {faults[0].reason} {plans.REASONS[faults[0].reason]}")
        return 3
    plan, capture = plans.plan_of(root), captures.read(capture_file)
    back = Places(plan, capture).back
    if back is not None:
        print(f"capture refused: 16 TimeBack at {back}")
        return 4
    trail, counts, times = run_of(plan, capture)
    for unit, numbers in enumerate(sent_by_units(trail, plan.units)):
        pathlib.Path(f"{out}.{unit}.pcap").write_bytes(capture.written(numbers))
    for at, numbers in joint_lists(plan, trail).items():
        pathlib.Path(f"{out}.mq{at}.pcap").write_bytes(capture.written(numbers))
    pathlib.Path(f"{out}.fates").write_text(trail.text(), encoding="utf-8")
    if plan.station[0].card:
        pathlib.Path(f"{out}.times").write_text(times, encoding="utf-8")
    print(counts, end="")
    return 0


def generated(number, count):
    """The capture that `gen` makes, as docs/FORMATS.md has it."""
    yield bytes.fromhex("d4c3b2a102000400000000000000000000000400" + "01000000")
    for i in range(count):
        v = (number + 40503 * i) % 65536
        yield struct.pack("<IIII", i // 1000, i % 1000 * 1000, 34, 34)
        yield bytes.fromhex("0200000000020200000000010800") + struct.pack(">BBHHHHH", 0x45, 2 * (v % 16), 20, i % 65536, 0, 0x40FD, 0)
        yield bytes([10, 0, 0, v // 16 % 256, 10, 0, 1, i % 256])


def tap(senders, length, capture_file, out):
    capture = captures.read(capture_file)
    count = len(capture)
    if count > length:
        sys.exit("the stand-in has no ring that is too short")
    pathlib.Path(f"{out}.pcap").write_bytes(capture.written(range(count)))
    pathlib.Path(f"{out}.fates").write_text("".join(f"{n} read {n}\n" for n in range(count)), encoding="utf-8")
    print(f"total {count} read {count} full 0 lost 0")
    return 0


def main(words):
    if words[:1] == ["run"]:
        return run_files(*words[1:])
    if words[:1] == ["trace"]:
        code, said = machine.trace(pathlib.Path(words[1]).read_bytes())
        print(said, end="")
        return code
    if words[:1] == ["gen"]:
        data = b"".join(generated(int(words[1]), int(words[2])))
        pathlib.Path(words[3]).write_bytes(data)
        print(run_of(GENERATED_PLAN, captures.Capture(data))[1], end="")
        return 0
    return tap(int(words[1]), int(words[2]), words[4], words[5])


if __name__ == "__main__":
    sys.exit(main(sys.argv[1:]))
