"""Several senders: a guest's answers are judged by properties, since their order of steps isn't known."""
from collections import Counter

from lib.alone import DEACTIVATED, SCHED
from lib.places import steps_of
from lib.plans import Event, Plan, Station
from kernel.linux.cases import Answers, event_line, marks_of, new_line, read_words, send_line
from kernel.linux.plans import Refused, frame, params, random_length


def case_of(name, packets):
    plan = packets.plan
    if any(event.kind in ("resize", "swap") for event in plan.event):
        raise Refused("a kernel has no live resize and no swap of a device beside running senders; with several senders a "
                      "plan may have down, up and tx_queue_len")
    yield f"case {name}"
    yield from (new_line(plan, j, len(packets)) for j in range(len(plan.station)))
    for sender in range(plan.senders):
        yield f"sender {sender}"
        for what, number in steps_of(packets, sender):
            if what == "send":
                yield send_line(number, packets)
            else:
                yield f"kick {(number + sender) % 2}" if what == "wake" else event_line(plan.event[number])
    yield "together"
    yield f"finish {len(packets) + 2}"
    yield "end"


class Together:
    """What came of a run of several senders; `faults` are the properties that it hasn't."""

    def __init__(self, packets, lines):
        self.plan, self.packets = packets.plan, packets
        self.results = {int(n): int(result) for n, result in (line.split(" ")[1:] for line in lines if line.startswith("S "))}
        answers = Answers([line for line in lines if not line.startswith("S ")])
        self.faults, self.counts, self.quiet, self.overtaking = list(answers.faults), Counter(), 0, 0
        self.by_bulk, self.left = 0, []
        self.sent = [[int(number) for number, *_ in marks_of(line)] for line in answers.last]
        self.dropped = Counter(n for drops in answers.drops.values() for n, _ in drops)
        self.judge_fates()
        self.judge_order()
        for step in answers.steps[-2:]:
            self.judge_quiet(step)
        self.faults += self.left

    def judge_fates(self):
        sent, dropped = Counter(n for serials in self.sent for n in serials), self.dropped
        for n in range(len(self.packets)):
            result = self.results.get(n)
            # a packet that meets the qdisc of a device that goes down is dropped, and its sender isn't told
            allowed = {0: [(1, 0), (0, 1)], 105: [(0, 1)], 100: [(0, 0)]}.get(result, [])
            if (sent[n], dropped[n]) not in allowed:
                self.faults.append(f"packet {n}: result {result}, sent {sent[n]} times and dropped {dropped[n]} times")
            self.counts["sent" if sent[n] else {100: "refused", 105: "full"}.get(result, "purged")] += 1

    def judge_order(self):
        for unit, serials in enumerate(self.sent):
            last, highest = {}, -1
            for n in serials:
                station = self.packets.stations[n]
                key = self.packets.senders[n], station, self.packets.bands[n]
                # where several queues share a qdisc, a busy device is given the packets that were taken at once out of order: each one that it doesn't
                # take goes behind the others (dev_requeue_skb of net/sched/sch_generic.c, up to 6.1.192)
                if last.get(key, -1) > n and self.plan.tables[station].queues > 1:
                    self.by_bulk += 1
                elif last.get(key, -1) > n:
                    self.faults.append(f"unit {unit}: packet {n} after packet {last[key]} of the same sender and band")
                self.overtaking += n < highest
                last[key], highest = n, max(highest, n)

    def judge_quiet(self, step):
        for line in (line for line in step if line.startswith("W ")):
            words = read_words(line)
            if words.state & (SCHED | DEACTIVATED) or words.lock or words.stops.strip("0"):
                continue
            self.quiet += 1
            held = words.held()
            if held:
                self.left.append(f"a quiet queue holds {held} packet{'s' * (held > 1)}: {line}")


def random_plan(chance):
    stations = []
    for _ in range(chance.choice([1, 1, 2])):
        mq = chance.choice([1, 1, 1, 2, 3])
        queues = chance.choice([1, 1, 1, 2, 3]) if mq == 1 else 1
        device = params(chance.choice([0, 1, 2, 5, 16, 63]), *chance.choice([(0, 0), (1, 20), (3, 30)]))
        stations.append(Station(len=random_length(chance), queues=queues, mq=mq, bypass=chance.random() < 0.8, **device))
    count, senders = chance.randint(50, 800), chance.randint(2, 6)
    events, active = [], [True] * len(stations)
    for before in sorted(chance.randint(0, count) for _ in range(chance.choice([0, 0, 1, 2, 4]))):
        j = chance.randrange(len(stations))
        kind = chance.choice(["down", "tx_queue_len"]) if active[j] else "up"
        active[j] = kind != "down"
        events.append(Event(before, kind, j, random_length(chance) if kind == "tx_queue_len" else None))
    frames = [frame(chance.choice([0, 8, 16]), chance.randrange(4), chance.randrange(256), i) for i in range(count)]
    return Plan(station=stations, event=events, senders=senders, irq_every=chance.choice([1, 2, 3, 10, 50])), frames
