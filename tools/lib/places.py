"""Where a plan puts the packets of a capture: the sender, station, queue and band of each, and when stopped queues are opened.

All that docs/RULES.md says of this, under 'Classification' and 'Senders', is here alone.
"""
from array import array
from collections import Counter
from functools import cached_property

from lib.captures import BAND
from lib.flow_hash import flow_of
from lib.times import moments_of

# queues are opened so often at most between two packets, however far apart these are
MOST_OPENINGS = 65535


class Places:
    """Of each packet its station, which is a child of the plan's, the transmit queue of its device, and its band."""

    def __init__(self, plan, capture):
        self.plan, self.capture = plan, capture
        self.bands = capture.bands if plan.classify == "tos" else bytes(BAND[:1]) * len(capture)
        self.routes, self.sources = self.numbers()
        self.stations = self.stations_of()
        self.queues = self.queues_of()

    def __len__(self):
        return len(self.capture)

    @cached_property
    def hashes(self):
        """The hash of each packet's flow; None where it has none."""
        of = self.capture
        return [flow_of(bytes(of.data[at : at + captured]), link) for at, captured, link in zip(of.frames, of.captured, of.types)]

    def numbers(self):
        """The numbers that choose a packet's station, and its child and queue: bytes of its addresses, or the lower and the upper half of its flow's hash."""
        routes, sources = self.capture.routes, self.capture.sources
        if self.plan.spread == "bytes":
            return routes, sources
        halves = [(route, source) if flow is None else (flow & 0xFFFF, flow >> 16) for flow, route, source in zip(self.hashes, routes, sources)]
        return array("H", (half[0] for half in halves)), array("H", (half[1] for half in halves))

    def stations_of(self):
        """By the route number the plan's station, and by the source number its child."""
        children = self.plan.children
        if len(children) == 1 and len(children[0]) == 1:
            return bytearray(len(self))
        groups = [children[route % len(children)] for route in self.routes]
        return bytearray(group[source % len(group)] for group, source in zip(groups, self.sources))

    def queues_of(self):
        """By the source number, of the queues that share the rings of a station."""
        many = [table.queues for table in self.plan.tables]
        if max(many) == 1:
            return bytearray(len(self))
        return bytearray(source % many[station] for source, station in zip(self.sources, self.stations))

    @cached_property
    def senders(self):
        """The sender of each packet, which is its owner: by its number, its source byte, or its flow's hash."""
        many, sources = self.plan.senders, self.capture.sources
        if self.plan.split == "source":
            return sources.translate(bytes(byte % many for byte in range(256)))
        if self.plan.split == "flow":
            return bytes((source if flow is None else flow) % many for flow, source in zip(self.hashes, sources))
        return bytes(range(many)) * (len(self) // many) + bytes(range(len(self) % many))

    @cached_property
    def turns(self):
        """How many packets the sender of each packet sent before it."""
        if self.plan.senders == 1:
            return range(len(self))
        sent, turns = Counter(), array("I")
        for sender in self.senders:
            turns.append(sent[sender])
            sent[sender] += 1
        return turns

    @cached_property
    def times(self):
        """When each packet came, in nanoseconds."""
        try:
            return array("Q", moments_of(self.capture))
        except OverflowError:
            return list(moments_of(self.capture))

    @cached_property
    def back(self):
        """The first packet whose time is before that of the one before it, if the plan takes no such capture; or None."""
        times = self.times if self.plan.wants_order else []
        return next((n for n, (one, other) in enumerate(zip(times, times[1:]), 1) if other < one), None)

    def period_of(self, n):
        """In which period of the plan a packet came."""
        return self.times[n] // (1000 * self.plan.irq_us)

    def time_of_opening(self, n, which):
        """When one of the openings after packet n is, by time; they are counted from 1."""
        return (self.period_of(n) + which) * 1000 * self.plan.irq_us

    @cached_property
    def opened(self):
        """How often a card opens the queue after each packet: as in the run of one sender."""
        from lib.alone import Run

        return Run(Places(self.plan._replace(senders=1), self.capture)).go().wire.opened

    def openings(self, n):
        """How often the sender of packet n opens stopped queues once it has sent it: after each so many packets, once for each period that ends until the next packet, or as a card does."""
        if self.plan.station[0].card:
            return self.opened[n]
        if self.plan.irq_us is None:
            return int((self.turns[n] + 1) % self.plan.irq_every == 0)
        return min(MOST_OPENINGS, max(0, self.period_of(n + 1) - self.period_of(n))) if n + 1 < len(self) else 0


def steps_of(places, sender=0, is_open=lambda: False, openings=None):
    """What a sender does, in order: an event, by its number, a packet that it sends, or an opening, by how many came before it. Events are the first sender's.

    Where no queue is stopped, as `is_open` may say, an opening does nothing, and those that are left before the next packet are passed over.
    """
    events, opened = list(enumerate(places.plan.event)) if sender == 0 else [], 0
    own = range(len(places)) if places.plan.senders == 1 else [n for n, owner in enumerate(places.senders) if owner == sender]
    events.reverse()
    for n in own:
        while events and events[-1][1].before <= n:
            yield "event", events.pop()[0]
        yield "send", n
        for _ in range((openings or places.openings)(n)):
            if is_open():
                break
            yield "wake", opened
            opened += 1
    yield from (("event", number) for number, _ in reversed(events))
