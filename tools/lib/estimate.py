"""How long a build takes on this machine, by what it took so far.

    PYTHONPATH=tools python3 -m lib.estimate LOG              what the log of a build said it would take, beside what it took
    PYTHONPATH=tools python3 -m lib.estimate BEFORE AFTER     what each crate took, by the logs of two builds

The build's schedule is simulated once over the shares of its crates. That gives the second at which each would end on idle processors of the machine
whose shares they are, and how much processor time the whole has had at each second. The processor time of the crates that have ended, over their
shares, is by how much this machine is slower, whatever else is at work. With it the processor time so far, of the crates under way too, is a second
of the plan; and the seconds of the clock until now over that second are the pace, which has the other work in it. The first small crates say little
of either, so a part of the whole is taken as known beforehand: a machine in the middle of those that were measured, and a pace as slow as it.
"""
import bisect
import pathlib
import re
from dataclasses import dataclass
from typing import Dict, List

from lib import words

SERIAL = 0.2  # of a crate's time, which several processes don't shorten: what each loads for itself, and what one alone writes
RANGE = (0.95, 3.0)  # of the planned time, on idle processors of the machines that were measured
KNOWN, USUAL = 0.025, 1.3  # of the planned processor time, that is taken as known beforehand, and how many times it such a machine takes
STEADY = 0.08  # of the planned seconds, that are taken to go on as slowly as the machine is
SLOWER = 1.2  # times the processor time, from which on it is said that the machine is slower
BUSY = 1.25  # times the time on idle processors, from which on that time is said too


@dataclass
class Plan:
    """What a simulation gives: the second at which each crate ends, its processor time, and after each second of TIMES the WORK that is done."""

    ends: Dict[str, float]
    seconds: Dict[str, float]
    times: List[float]
    work: List[float]

    def whole(self):
        return self.times[-1]

    def time_of(self, work):
        """The second at which so much processor time was used."""
        at = min(bisect.bisect_left(self.work, work), len(self.work) - 1)
        if at == 0:
            return self.times[0]
        part = (work - self.work[at - 1]) / (self.work[at] - self.work[at - 1])
        return self.times[at - 1] + min(part, 1) * (self.times[at] - self.times[at - 1])


def simulate(share, several, processors, starts):
    """The plan of a build on idle processors, which share themselves out evenly among the processes under way.

    SHARE is each crate's time by one process, SEVERAL those that as many check as there are processors, and STARTS(ended, under way) those that may start.
    """
    seconds = {crate: share[crate] * widened(crate in several, processors) for crate in share}
    left, under_way = dict(seconds), {}
    plan = Plan({}, seconds, [0.0], [0.0])
    while len(plan.ends) < len(left):
        for crate in starts(plan.ends, under_way):
            under_way[crate] = processors if crate in several else 1
        many = sum(under_way.values())
        speed = {crate: under_way[crate] * min(1, processors / many) for crate in under_way}
        step = max(min(left[crate] / speed[crate] for crate in under_way), 1e-6)
        plan.times.append(plan.times[-1] + step)
        plan.work.append(plan.work[-1] + step * sum(speed.values()))
        for running in list(under_way):
            left[running] -= speed[running] * step
            if left[running] <= 1e-6:
                plan.ends[running] = plan.times[-1]
                del under_way[running]
    return plan


def widened(is_several, processors):
    """How much more processor time a crate takes by several processes, each of which loads what it needs."""
    return 1 + SERIAL * (processors - 1) if is_several else 1


class Estimate:
    """What is known of a build: its plan, and the processor time of the crates that ended and of those under way."""

    def __init__(self, plan):
        self.plan, self.used, self.running = plan, {}, {}

    def ended(self, crate, used):
        """Notes the processor time that a crate took."""
        self.running.pop(crate, None)
        self.used[crate] = used

    def under_way(self, running):
        """Notes the processor time that each crate under way took so far."""
        self.running = running

    def slower(self):
        """This machine's processor time for a planned second, by the crates that ended."""
        if not self.used:
            return 1
        known = KNOWN * self.plan.work[-1]
        planned = sum(self.plan.seconds[crate] for crate in self.used)
        return (sum(self.used.values()) + USUAL * known) / (planned + known)

    def pace(self, now):
        """Seconds of the clock for a planned one, so far."""
        planned = {**self.plan.seconds}
        done = sum(planned[crate] for crate in self.used)
        done += sum(min(used / self.slower(), planned[crate]) for crate, used in self.running.items())
        steady = STEADY * self.plan.whole()
        return (now + steady * self.slower()) / (self.plan.time_of(done) + steady)

    def whole(self, now):
        """About how many seconds the build takes from its beginning to its end."""
        return max(self.pace(now) * self.plan.whole(), now)

    def idle(self):
        """The same on idle processors of this machine."""
        return self.slower() * self.plan.whole()

    def before(self):
        """What is said before a crate has ended."""
        low, high = (minutes(self.plan.whole() * share) for share in RANGE)
        return f"{low} to {high} min by machine" if low < high else f"about {low} min"

    def in_all(self, now):
        """What is said from the first crate on."""
        if not self.used and now <= self.plan.whole():
            return self.before()
        whole, idle = self.whole(now), self.idle()
        is_busy = whole > BUSY * idle and minutes(whole) > minutes(idle)
        beside = f", {minutes(idle)} on idle processors" if is_busy else ""
        return f"about {minutes(whole)} min in all{beside}"

    def is_slower(self):
        return bool(self.used) and self.slower() > SLOWER

    def on_this_machine(self, now):
        """What is said at once where this machine is slower."""
        low = minutes(self.idle())
        high = max(minutes(self.whole(now)), minutes(self.idle() * 4 / 3))
        return f"this machine takes {self.slower():.1f} times the processor time of the one that these minutes are of: {low} to {high} min in all"


def minutes(seconds):
    return max(round(seconds / 60), 1)


def seconds_of(found):
    return int(found[1]) * 60 + int(found[2])


def lines_of_log(text):
    """Of each line of a build's log that says how far it is: the second, the crate that it says is proved, its processor time, and the minutes in all."""
    for line in text.splitlines():
        clock = re.search(r"(\d+) min (\d+) s so far", line)
        if clock:
            proved = re.search(r"proved (\w+)(?: by (\d+) s of a processor)?,", line)
            whole = re.search(r"about (\d+) min in all", line)
            left = re.search(r"about (\d+) min left", line)
            said = int(whole[1]) * 60 if whole else seconds_of(clock) + int(left[1]) * 60 if left else None
            yield seconds_of(clock), proved and proved[1], proved and proved[2] and int(proved[2]), said


def beside(text):
    """What a log said beside what it took, a line each; and of how many from the first minute on it was within a third."""
    rows = list(lines_of_log(text))
    took = max((at for at, *_ in rows), default=0)
    said = [(at, told) for at, _, _, told in rows if told]
    for at, told in said:
        yield f"at {at // 60} min {at % 60:02} s it said {told / 60:.0f} min, {told / took - 1:+.0%} of what it took"
    later = [told for at, told in said if at >= 60]
    near = sum(abs(told / took - 1) <= 1 / 3 for told in later)
    yield f"it took {took // 60} min {took % 60:02} s; from the first minute on {near} of {len(later)} lines were within a third"


def side_by_side(before, after):
    """A line for each crate, with its seconds before and after; then their sums, over the crates of both and over all."""
    before, after = ({crate: used for _, crate, used, _ in lines_of_log(text) if crate and used is not None} for text in (before, after))
    yield f"{'seconds of a processor':24}{'before':>8}{'after':>8}"
    yield from (f"{crate:24}{before.get(crate, ''):>8}{after.get(crate, ''):>8}" for crate in sorted({*before, *after}))
    both = [crate for crate in before if crate in after]
    yield f"{f'{len(both)} crates of both':24}{sum(before[crate] for crate in both):>8}{sum(after[crate] for crate in both):>8}"
    yield f"{'all':24}{sum(before.values()):>8}{sum(after.values()):>8}"


def main(given):
    if not 1 <= len(given) <= 2 or any(word.startswith("-") for word in given):
        raise words.Wrong("usage: PYTHONPATH=tools python3 -m lib.estimate LOG, or BEFORE AFTER")
    texts = [pathlib.Path(log).read_text(encoding="utf-8", errors="replace") for log in given]
    print("\n".join(beside(*texts) if len(texts) == 1 else side_by_side(*texts)))


if __name__ == "__main__":
    words.run("estimate", __doc__, main)
