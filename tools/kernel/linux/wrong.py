"""Rules that are wrong on purpose, each by one change: how sharp the comparison is."""
from lib.alone import DRAINING, MISSED, OPEN, Ring, Station
from lib.wire import bytes_of_wire
from kernel.linux.cases import ToldWire, moves_of


def rule(about, of=Station, **changed):
    """The rules of a station, or of a part of one, with these members in place of its own."""
    return type("Rule", (of,), {"__doc__": about, **changed})


def batch_of(size, least):
    return staticmethod(lambda slots: size if slots >= least else 1)


def nothing(station):
    pass


def clear_missed(station):
    station.state &= ~MISSED


def set_missed_alone(station, queue):
    station.state &= ~MISSED
    if station.stops[queue] == OPEN:
        station.state |= MISSED


def set_without_clearing(station, queue):
    station.state |= MISSED if station.stops[queue] == OPEN else DRAINING


def requeue_behind_its_band(station, taken):
    done = Station.direct_transmit(station, taken)
    while station.requeued:
        n = station.requeued.popleft()
        if station.rings[station.band_of[n]].produce(n) is not None:
            station.requeued.append(n)
            break
    return done


def keep_the_last(ring, size, batch):
    resized, entries = type(ring)(size, batch), ring.entries()
    kept = max(len(entries) - size, 0)
    for n in entries[kept:]:
        resized.produce(n)
    return resized, entries[:kept]


def keep_the_head(ring, size, batch):
    resized, gone = Ring.resized(ring, size, batch)
    if size > ring.size and not resized.held:
        resized.producer = resized.head = resized.tail = ring.head
    return resized, gone


def always_schedule(station):
    Station.wake(station)
    if OPEN in station.stops:
        station.schedule()


def look_once(station):
    n = station.first_of_bands()
    if n is None and station.is_non_empty():
        station.clear_before_second_look()
    return n


def run_unless_full(station, n):
    if station.enqueue(n):
        station.run()


SHOWN = [
    rule("the quota is 63", QUOTA=63),
    rule("the quota is 65", QUOTA=65),
    rule("MISSED isn't set where the quota ends a run", after_quota=nothing),
    rule("the batch is 16 from 31 slots on", batch=batch_of(16, 31)),
    rule("the batch is 15", batch=batch_of(15, 32)),
    rule("the slots before a ring's end are emptied by the batch alone", RING=rule("", Ring, empties=lambda ring, after: after - ring.tail >= ring.batch)),
    rule("DRAINING isn't set where a queue is stopped", maybe_clear_missed=set_missed_alone),
    rule("MISSED isn't set where a packet goes into the requeue slot", after_busy=nothing),
    rule("DRAINING isn't cleared before the second look at the bands", clear_before_second_look=clear_missed),
    rule("MISSED isn't cleared where a queue is stopped", maybe_clear_missed=set_without_clearing),
    rule("a run follows each bypass", runs_after_bypass=lambda station: True),
    rule("a packet that the device didn't get goes back to its band", direct_transmit=requeue_behind_its_band),
    rule("a resize keeps the last packets", RING=rule("", Ring, resized=keep_the_last)),
    rule("a resize to more slots leaves head and tail where they were", RING=rule("", Ring, resized=keep_the_head)),
    rule("a deactivation leaves DRAINING", clear_after_purge=clear_missed),
    rule("the bands are served backwards", BANDS=(2, 1, 0)),
    rule("band 2 is served before band 1", BANDS=(0, 2, 1)),
    rule("a wake schedules a queue that is open too", wake=always_schedule),
]
# with one sender these change nothing
NOT_SHOWN = [
    rule("no second look at the bands", bands_dequeue=look_once),
    rule("no run where the band was full", enqueue_and_run=run_unless_full),
]


class WrongWire(ToldWire):
    """A wire whose frames leave as a guest was told."""

    def __init__(self, wire, run):
        super().__init__(wire, run)
        self.told = [[]]
        for what, number in moves_of(run.places):
            if what == "send":
                self.told.append([])
            elif what == "ended":
                self.told[-1].append(number)

    def interrupt_until(self, limit):
        for frames in self.told[-1 if limit is None else len(self.opened) + 1]:
            for _ in range(min(frames, len(self.ring))):
                self.bytes -= self.ring.popleft().length
            self.open_while_room(0)


def room(about, has_room):
    """A wire that takes a packet where it has room by the rules and by the bytes out, or by those alone."""
    return rule(about, WrongWire, has_room=lambda wire: has_room(wire, WrongWire.has_room(wire)))


class BytesOfTheWire(WrongWire):
    """the limit counts the bytes that a frame takes on the wire"""

    def __init__(self, wire, run):
        super().__init__(wire, run)
        self.lengths = [bytes_of_wire(self.card, length) for length in self.lengths]


OF_CARDS = [
    room("the ring has one descriptor more", lambda wire, has: has or wire.card.bql is None and len(wire.ring) == wire.card.ring),
    room("one byte more than the limit may be out", lambda wire, has: has or wire.card.bql is not None and wire.bytes == wire.card.bql + 1),
    room("no packet is taken where as many bytes are out as the limit", lambda wire, has: has and wire.bytes != wire.card.bql),
    BytesOfTheWire,
]
