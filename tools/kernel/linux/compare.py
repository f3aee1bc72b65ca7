"""A guest's answers beside the rules: where they part, and by which known cause."""
from collections import namedtuple
from itertools import combinations

from lib.alone import Linux
from kernel.linux.cases import KernelFates, Run, moves_of

Cause = namedtuple("Cause", "name may_come text")

CAUSES = [
    Cause("same_length", lambda plan: any(event.kind == "tx_queue_len" for event in plan.event),
          "same length: a change of tx_queue_len to the length that the device has already is nothing to Linux, since "
          "dev_change_tx_queue_len (net/core/dev.c) compares first; the rules deactivate, purge and activate"),
    Cause("too_long", lambda plan: any((event.len or 0) > 32767 for event in plan.event),
          "too long: a tx_queue_len above 32,767 is refused by dev_change_tx_queue_len (net/core/dev.c) since 6.1.189; the rules take it"),
    Cause("bulk", lambda plan: any(station.queues > 1 for station in plan.station),
          "bulk dequeue: where several queues share a qdisc, try_bulk_dequeue_skb_slow (net/sched/sch_generic.c) takes up to "
          "eight more packets of the same queue with one; the rules take one at a time"),
    Cause("put_ahead", lambda plan: any(station.queues > 1 for station in plan.station),
          "put ahead: what bulk dequeue took and the device didn't get goes back ahead of what waits in the requeue list, by "
          "dev_requeue_skb (net/sched/sch_generic.c) of 6.12.117; 6.1.192 appends it, so that a busy device is given such packets out of order"),
]

# agrees: nothing parts. causes: the fewest that explain all that does, or None
Verdict = namedtuple("Verdict", "agrees causes kernel here kernel_fates first_step")


def equals(answers, fates, run):
    return not answers.faults and answers.steps == run.steps and answers.last == run.last and fates == run.trail.text()


def causes_of(packets, answers, fates):
    """The fewest known causes that explain all that parts; none where nothing does, and None where none do."""
    may_come = [cause for cause in CAUSES if cause.may_come(packets.plan)]
    for count in range(len(may_come) + 1):
        for causes in combinations(may_come, count):
            if equals(answers, fates, Run(packets, linux=Linux(**{cause.name: True for cause in causes}))):
                return list(causes)
    return None


def judge(packets, answers):
    here = Run(packets)
    ours = here.trail.text()
    try:
        kernel = KernelFates(packets, answers)
    except (StopIteration, IndexError, KeyError, ValueError) as fault:
        answers.faults.append(f"! answers that can't be read: {type(fault).__name__} {fault}")
        return Verdict(False, None, "", ours, None, None)
    causes = causes_of(packets, answers, kernel.text())
    return Verdict(causes == [], causes, kernel.text(), ours, kernel, None if causes == [] else first_difference(packets, answers, here))


def names_of_steps(packets):
    plan = packets.plan
    yield from (f"station {j} is made" for j in range(len(plan.station)))
    for what, number in moves_of(packets):
        if what == "event":
            yield f"event {number} ({plan.event[number].kind})"
        elif what == "ended":
            yield f"{number} frames have left"
        else:
            yield f"packet {number} is sent" if what == "send" else "the queues are opened"
    yield "the end"


def first_difference(packets, answers, run):
    """The first step after which the words differ, with both sides, or None."""
    return next((step for step in zip(names_of_steps(packets), answers.steps, run.steps) if step[1] != step[2]), None)


def tell_difference(verdict, most=20):
    """The lines that tell where the fates part."""
    pairs = [(ours, theirs) for ours, theirs in zip(verdict.here.splitlines(), verdict.kernel.splitlines()) if ours != theirs]
    total = len(verdict.here.splitlines())
    yield f"fates: {total - len(pairs)} of {total} agree"
    for ours, theirs in pairs[:most]:
        number, fate = ours.split(" ", 1)
        yield f"  packet {number}: here {fate}, Linux {theirs.split(' ', 1)[1]}"
    if len(pairs) > most:
        yield f"  and {len(pairs) - most} more"
    if verdict.first_step:
        name, theirs, ours = verdict.first_step
        yield f"words: they part first after: {name}"
        for a, b in zip(ours, theirs):
            if a != b:
                yield f"  here  {a}"
                yield f"  Linux {b}"
