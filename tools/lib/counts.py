"""The counts of a run as text, as `tc -s qdisc` has them."""
import pathlib
from collections import Counter

from lib.fates import joint_file
from lib.packets import SECOND, seconds
from lib.waits import microseconds, percentile
from lib.wire import bytes_of_wire


def busy_answers(params, sent):
    """How often the built-in device was busy before it had sent so many packets."""
    every, limit, busy, calls = params.busy_every, params.busy_limit, 0, 0
    while every and calls - busy < sent and (busy < limit or not calls):
        calls += 1
        busy += calls % every == 0 and busy < limit
    return busy


def words_of(run, packets):
    """What was dropped, as words."""
    return ", ".join(f"{kind} {packets[kind]}" for kind in run.KINDS[1:] if packets[kind])


def line_of(run, packets, octets):
    """How much was sent or read, and how much dropped of each kind."""
    done, lost = run.KINDS[0], words_of(run, packets)
    return f"{done} {octets[done]} bytes {packets[done]} pkt, dropped {sum(packets.values()) - packets[done]}" + (f" ({lost})" if lost else "")


def tell_counts(run, head, wanted):
    """A line of the packets whose columns are wanted: of a plan's run the station, band and queue, of a tap's the sender."""
    print(f" {head}{line_of(run, *run.of_kinds(wanted))}")


def tell_late(run, waits, wanted):
    """How many of these were sent only because the capture had ended."""
    late = waits.late_of(wanted) if waits else 0
    if late:
        packets, _ = run.of_kinds(wanted)
        print(f" {packets['sent'] - late} sent while packets came, and {late} after the last packet")


def requeues(run, station):
    """How many packets its busy devices gave back."""
    params = [*run.tables, *(event for event in run.plan.event if event.kind == "swap")]
    return sum(busy_answers(params[unit], len(run.numbers[unit])) for unit, _ in run.units[station])


def tell_group(run, waits, at, children, out):
    """The root of a group as a whole, with a line a queue."""
    print(f"mq {at}: {len(children)} queues, each with a pfifo_fast of its own: stations {children[0]} to {children[-1]}")
    tell_counts(run, "", lambda station, band, queue: station in children)
    tell_late(run, waits, lambda station, band, queue: station in children)
    for number, child in enumerate(children):
        tell_counts(run, f"queue {number}: ", lambda station, band, queue: station == child)
    print(f" requeues {sum(requeues(run, child) for child in children)}")
    if pathlib.Path(joint_file(out, at)).exists():
        print(f" {joint_file(out, at)}: the packets that they sent, by serial")


def name_of(run, station):
    """A station, with what it is of its group."""
    return f"station {station}" + "".join(f", queue {station - children[0]} of mq {at}" for at, children in run.groups if station in children)


def wait_words(packets, time, digits):
    return f"{packets} pkt" + (f" ({seconds(time, digits)} s)" if time is not None else "")


def times_words(times):
    """The middle, the one that 99 of 100 don't exceed, and the greatest."""
    return ", ".join(f"{microseconds(time)} {name}" for time, name in zip(times, ("in the middle", "for 99 of 100", "at most")))


def passage_words(of):
    """How long packets waited for a card."""
    return f"wait {times_words((of.middle_time, of.most_time, of.greatest_time))}"


def tell_waits(waits, station, band):
    """The greatest backlog of a band, and how long the packets waited that were sent."""
    greatest, of = waits.greatest(station, [band]), waits.of_sent(station, band)
    if waits.wire:
        print(f"  backlog at most {greatest} pkt, {waits.greatest(station, [band], True)} bytes" + (f"; {passage_words(of)}" if of else ""))
        return
    middle, most = ((wait_words(*wait, waits.digits) for wait in ((of.middle, of.middle_time), (of.greatest, of.greatest_time)))) if of else ("", "")
    waited = f"; wait {middle} in the middle, {most} at most" if of else ""
    late = waits.late_of(lambda at, its, queue: (at, its) == (station, band))
    print(f"  backlog at most {greatest} pkt{waited}" + (f"; {late} sent after the last packet" if late else ""))


def tell_station(run, waits, station):
    """The counts of a station, with a line a band, and a line a queue where there are several."""
    of = run.tables[station]
    units, many = " ".join(str(unit) for unit, _ in run.units[station] if run.numbers[unit]) or "none", of.queues
    print(f"{name_of(run, station)}: pfifo_fast, 3 bands of {of.len} slots{f', {many} queues' if many > 1 else ''}; units that sent: {units}")
    tell_counts(run, "", lambda at, band, queue: at == station)
    tell_late(run, waits, lambda at, band, queue: at == station)
    for wanted in range(3):
        tell_counts(run, f"band {wanted}: ", lambda at, band, queue: (at, band) == (station, wanted))
        if waits:
            tell_waits(waits, station, wanted)
    for wanted in range(many) if many > 1 else []:
        tell_counts(run, f"queue {wanted}: ", lambda at, band, queue: (at, queue) == (station, wanted))
    print(f" requeues {requeues(run, station)}")


def tell(run, waits, out):
    """The counts of each group and each station."""
    for station in range(len(run.tables)):
        for at, children in run.groups:
            if station == children[0]:
                tell_group(run, waits, at, children, out)
        tell_station(run, waits, station)
    if run.capture.without_header:
        print(f"{run.capture.without_header} of {len(run.capture)} packets have no IPv4 header that is looked at: band 1 of station 0")
    if waits and waits.wire:
        tell_link(waits.wire, min(waits.times, default=0))
    if not waits:
        print("backlog, waits, and what was sent after the last packet aren't known: with several senders, fates don't say when a packet left")


def tell_link(wire, start):
    """How busy the wire was from the first packet on, and how long after it came a packet had left."""
    flights, rate = wire.flights, wire.card.rate_kbit
    if not flights:
        return
    after, busy = sorted(flight.ends // rate - wire.times[flight.number] for flight in flights), sum(flight.ends - flight.begins for flight in flights)
    span, octets = wire.free - start * rate, sum(bytes_of_wire(wire.card, flight.length) for flight in flights)
    print(f"link of {rate} kbit/s: {octets} bytes of the wire, busy for {busy / span:.1%} of {span / rate / SECOND:.6f} s")
    print(f" from a packet's coming to the end of its frame {times_words([percentile(after, number) for number in (50, 99, 100)])}")


def tell_tap(run, batch):
    print(f"tap: a ring of {run.len} slots, {run.many} senders, batches of {batch}")
    tell_counts(run, "", lambda sender: True)
    for wanted in range(run.many):
        tell_counts(run, f"sender {wanted}: ", lambda sender: sender == wanted)


def words_of_flow(flow):
    """A flow in words: the protocol, and from where to where."""
    if flow.protocol is None:
        return "no IP header"
    with_port = lambda address, port: address if port is None else f"[{address}]:{port}" if ":" in address else f"{address}:{port}"
    return f"{flow.protocol} {with_port(flow.source, flow.source_port)} > {with_port(flow.destination, flow.destination_port)}"


def waits_of_flows(flows, waits):
    """How long the packets of each flow waited for a card that were sent, in words; nothing where none was."""
    held, many = [[] for _ in flows.flows], Counter(flows.of[n] for n in waits.accepted)
    for n in (n for of in waits.held.values() for n in of if n in waits.accepted):
        held[flows.of[n]].append(n)
    return [f"; {passage_words(waits.waited(of, many[flow]))}" if many[flow] else "" for flow, of in enumerate(held)]


def tell_flows(run, flows, waits):
    """A line for each flow, those first that have the most packets dropped, and then those with the most packets."""
    waited = waits_of_flows(flows, waits) if waits and waits.wire else [""] * len(flows.flows)
    counts = [[0] * (2 * len(run.KINDS)) for _ in flows.flows]
    for flow, kind, length in zip(flows.of, run.kinds, run.capture.lengths):
        of = counts[flow]
        of[2 * kind] += 1
        of[2 * kind + 1] += length
    print(f"{len(counts)} flows:")
    dropped = [sum(of[2::2]) for of in counts]
    for at in sorted(range(len(counts)), key=lambda flow: (-dropped[flow], -counts[flow][0], flow)):
        packets, octets = ({kind: counts[at][2 * code + part] for code, kind in enumerate(run.KINDS)} for part in (0, 1))
        print(f" {words_of_flow(flows.flows[at])}: {line_of(run, packets, octets)}{waited[at]}")
