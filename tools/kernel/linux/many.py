"""Many plans in a few boots: random ones, all small ones, all types of service, and several senders."""
import random
import shutil
import time
from collections import Counter
from datetime import datetime, timezone
from itertools import islice
from pathlib import Path

from lib import captures, plans
from lib.alone import Endless
from kernel.linux import classes, guest, together
from kernel.linux.cases import Answers, Run, answers_of, case_of
from kernel.linux.compare import judge, tell_difference
from kernel.linux.plans import Sent, link_plan, random_plan, small_plans, text_of, timed_plan
from kernel.linux.wrong import NOT_SHOWN, OF_CARDS, SHOWN

A_BOOT = 2000
# how many of the plans are tried with each wrong rule
SHARPNESS = 400
SECONDS_A_PLAN = 3
# the priority of a guest that works for long
LOWEST = 19
EXAMPLES = Path(__file__).resolve().parent.parent.parent.parent / "examples"
# the captures of the repository's own plans, by the stems of their names; those of examples/linux have five packets, and the others the loopback's
CAPTURES = {"link": "link.pcap", "reordered": "linux/four.pcap"}


def examples():
    """The repository's own plans of one sender, each over the capture that it is for."""
    for file in sorted(EXAMPLES.glob("**/*.toml")):
        plan = plans.read(file)
        capture = CAPTURES.get(file.stem, "loopback.pcap" if file.parent == EXAMPLES else "linux/five.pcap")
        if plan.senders == 1:
            yield f"example-{file.stem}", Sent(plan, captures.read(EXAMPLES / capture))


def sent(plan, frames, times=None):
    return Sent(plan, captures.Capture(captures.ethernet(frames, times)))


def plans_of_one_sender(seed, count, small, timed, links):
    """Names, and the packets of a plan. Each kind of random plans begins with the seed."""
    chance = random.Random(seed)
    kinds = lambda: chance.choices(["one", "long", "mq", "queues"], [60, 5, 15, 20])[0]
    yield from examples() if count else []
    yield from ((f"small-{i}", sent(*of)) for i, of in enumerate(small_plans() if small else []))
    yield from ((f"{kind}-{i}", sent(*random_plan(chance, kind))) for i in range(count) for kind in [kinds()])
    for name, number, make in (("timed", timed, timed_plan), ("link", links, link_plan)):
        chance = random.Random(seed)
        yield from ((f"{name}-{i}", sent(*make(chance))) for i in range(number))


class Many:
    """One series of runs on one kernel; `tell` says what goes on."""

    def __init__(self, tools, kernel, image, folder, seed, program, tell):
        self.tools, self.kernel, self.image = tools, kernel, image
        self.folder, self.seed, self.program, self.tell = folder, seed, program, tell
        self.kinds, self.counts, self.totals, self.fates = Counter(), Counter(), Counter(), Counter()
        self.noticed, self.tried = Counter(), Counter()
        self.told, self.classes, self.unexplained = None, (0, 0, []), []
        shutil.rmtree(folder, ignore_errors=True)
        folder.mkdir(parents=True)

    def boot(self, name, lines, cases, processors=1):
        share = self.folder / name
        share.mkdir()
        (share / "all.cases").write_text("\n".join(lines) + "\n", encoding="utf-8")
        self.told = guest.boot(self.tools, self.kernel, self.image, share, processors, 300 + SECONDS_A_PLAN * cases, nice=LOWEST)
        found = answers_of((share / "all.answers").read_text(encoding="utf-8"))
        shutil.rmtree(share)
        return found

    def keep(self, name, packets, lines, said):
        """Keeps what no known cause explains in a folder of its own."""
        folder = self.folder / name
        folder.mkdir()
        for file, text in (("plan.toml", text_of(packets.plan)), ("answers", "\n".join(lines) + "\n"), ("difference", "\n".join(said) + "\n")):
            (folder / file).write_text(text, encoding="utf-8")
        (folder / "capture.pcap").write_bytes(packets.capture.data)
        self.unexplained.append(str(folder))

    # One sender

    def one_sender(self, count, small=True, timed=0, links=0):
        named = plans_of_one_sender(self.seed, count, small, timed, links)
        while batch := dict(islice(named, A_BOOT)):
            found = self.boot("boot", [line for name, packets in batch.items() for line in case_of(name, packets)], len(batch))
            for name, packets in batch.items():
                self.judge_one(name, packets, found.get(name))
            self.tell(f"{sum(self.kinds.values())} plans, {len(self.unexplained)} differences without a known cause")

    def judge_one(self, name, packets, lines):
        kind = name.split("-")[0]
        self.kinds[kind] += 1
        if lines is None:
            self.keep(name, packets, [], ["the guest gave no answer"])
            return
        answers = Answers(lines, packets.card)
        verdict = judge(packets, answers)
        if verdict.agrees:
            self.counts[kind, "agree"] += 1
        elif verdict.causes:
            fates = "" if verdict.kernel != verdict.here else ", words alone"
            self.counts[kind, " and ".join(cause.name for cause in verdict.causes) + fates] += 1
        else:
            self.keep(name, packets, lines, [*answers.faults, *tell_difference(verdict)])
        if verdict.kernel_fates:
            self.add_totals(verdict, packets, lines)
        self.ask_program(name, packets, verdict, lines)
        if verdict.agrees and kind not in ("small", "example") and self.tried[bool(packets.card)] < SHARPNESS:
            self.try_wrong_rules(packets, answers)

    def add_totals(self, verdict, packets, lines):
        self.totals["packets"] += len(packets)
        self.totals["words"] += sum(line.startswith("W ") for line in lines)
        self.totals["soft interrupts"] += verdict.kernel_fates.softirqs
        self.totals["purges that took the bands first"] += verdict.kernel_fates.purged_bands_first
        self.fates.update(line.split(" ")[1] for line in verdict.kernel.splitlines())

    def ask_program(self, name, packets, verdict, lines):
        if self.program is None:
            return
        text = self.program.fates(text_of(packets.plan), packets.capture.data)
        if text == verdict.here:
            self.totals["texts of fates that are the program's"] += 1
        else:
            self.keep(f"{name}-program", packets, lines, ["the program's fates aren't those of the rules:", text])

    def try_wrong_rules(self, packets, answers):
        self.tried[bool(packets.card)] += 1
        for rule in OF_CARDS if packets.card else [*SHOWN, *NOT_SHOWN]:
            try:
                run = Run(packets, **{"wire" if packets.card else "station": rule}, endless=1000)
                self.noticed[rule] += run.steps != answers.steps or run.last != answers.last
            except Endless:
                self.noticed[rule] += 1

    # Classes and several senders

    def types_of_service(self):
        self.classes = classes.judge(self.boot("classes", classes.case_lines(), 17))

    def several_senders(self, count):
        chance = random.Random(self.seed)
        cases = {f"senders-{i}": sent(*together.random_plan(chance)) for i in range(count)}
        lines = [line for name, packets in cases.items() for line in together.case_of(name, packets)]
        found = self.boot("senders", lines, 10 * count, processors=3) if cases else {}
        for name, packets in cases.items():
            of_run = together.Together(packets, found.get(name, ["! no answer"]))
            self.kinds["senders"] += 1
            self.counts["senders", "with each property"] += not of_run.faults
            self.totals["packets of several senders"] += len(packets)
            self.totals["quiet queues of several senders"] += of_run.quiet
            self.totals["packets sent behind one of a higher number"] += of_run.overtaking
            self.totals["packets that bulk dequeue took out of their sender's order"] += of_run.by_bulk
            if of_run.faults:
                self.keep(name, packets, found.get(name, []), of_run.faults)
        self.tell(f"{count} runs of several senders")

    # The summary

    def summary(self, began):
        yield f"{self.told}, dev_weight {self.told.weight}, seed {self.seed}, {datetime.now(timezone.utc):%Y-%m-%d %H:%M} UTC, {time.time() - began:.0f} s"
        for kind, count in self.kinds.items():
            said = ", ".join(f"{number} {what}" for (of, what), number in sorted(self.counts.items()) if of == kind)
            yield f"{kind}: {count} plans; {said}"
        yield from (f"{what}: {number}" for what, number in sorted(self.totals.items()))
        yield "fates of one sender's packets: " + ", ".join(f"{number} {what}" for what, number in self.fates.most_common())
        good, total, faults = self.classes
        if total:
            yield f"classification: {good} of {total} as the rules say"
        yield from faults[:10]
        for has_card, rules in ((False, SHOWN), (True, OF_CARDS)):
            if self.tried[has_card]:
                yield f"wrong rules{' of a card' * has_card}, of {self.tried[has_card]} plans that agree each is noticed in:"
                yield from self.noticed_in(rules)
        if self.tried[False]:
            yield "changed rules that one sender can't show:"
            yield from self.noticed_in(NOT_SHOWN)
        yield f"differences without a known cause: {len(self.unexplained)}"
        yield from (f"  kept in {folder}" for folder in self.unexplained[:50])

    def noticed_in(self, rules):
        return (f"  {self.noticed[rule]:4}  {rule.__doc__}" for rule in rules)
