"""The run of one sender over the built-in devices, by docs/RULES.md, with all words of a station; written apart from the definitions and the program.

With one sender no try of the run lock fails, so each call here does what the steps of one seat come to. `tools/kernel/beside-linux` compares each word with kernels,
and `tools/compare` the fates with a built program; nothing of it is proved. `Linux` says in which known ways a kernel does otherwise.
"""
from collections import deque
from typing import NamedTuple

from lib.places import steps_of
from lib.trail import FULL, HANGS, PURGED, REFUSED, SENT, SHRUNK, Trail
from lib.wire import Wire
from lib.words import Failed

SCHED, DEACTIVATED, MISSED, DRAINING = 1, 2, 4, 8
NON_EMPTY = MISSED | DRAINING
OPEN, STOPPED, HUNG = 0, 1, 2
# what a slot counts as whose packet was taken and that isn't empty yet (tools/kernel/linux/lqtx_bench.c)
STALE = 0xFFFFFFFF
POWERS = [1]
while len(POWERS) < 65536:
    POWERS.append(POWERS[-1] * 31 % 2**64)


class Linux(NamedTuple):
    """Known ways in which a kernel does otherwise; see `tools/kernel/linux/compare.py`."""

    same_length: bool = False
    too_long: bool = False
    bulk: bool = False
    put_ahead: bool = False


# more soft interrupts of one drain than any limit of a plan allows
ENDLESS = 2_000_000


class Endless(Exception):
    """A run by wrong rules that doesn't end."""


class Ring:
    """A pointer ring; `total` is the sum of its slots as lqtx_bench.c makes it."""

    def __init__(self, size, batch):
        self.size, self.batch = size, batch
        self.slots = [0] * size
        self.producer = self.head = self.tail = self.held = self.total = 0

    def produce(self, n):
        """None, or the packet in whose slot there was no room."""
        at = self.producer
        if self.slots[at]:
            return self.slots[at] - 1
        self.slots[at] = n + 1
        self.total += (n + 1) * POWERS[at]
        self.producer = at + 1 if at + 1 < self.size else 0
        self.held += 1
        return None

    def consume(self):
        entry = self.slots[self.head]
        if not entry:
            return None
        self.total += (STALE - entry) * POWERS[self.head]
        self.held -= 1
        after = self.head + 1
        if self.empties(after):
            for at in range(self.head, self.tail - 1, -1):
                self.slots[at] = 0
                self.total -= STALE * POWERS[at]
            self.tail = after
        self.head = after
        if after == self.size:
            self.head = self.tail = 0
        return entry - 1

    def empties(self, after):
        """Whether the slots that were taken are emptied, where the head comes to stand behind `after`."""
        return after - self.tail >= self.batch or after == self.size

    def entries(self):
        places = (self.head + i if self.head + i < self.size else self.head + i - self.size for i in range(self.held))
        return [self.slots[at] - 1 for at in places]

    def resized(self, size, batch):
        """The ring with another size, and what it dropped."""
        ring, entries = type(self)(size, batch), self.entries()
        for n in entries[:size]:
            ring.produce(n)
        return ring, entries[size:]


class Station:
    """A queueing discipline with its device."""

    QUOTA = 64
    RING = Ring
    BANDS = (0, 1, 2)

    def __init__(self, of, unit, places, trail, linux):
        self.band_of, self.queue_of, self.trail, self.linux = places.bands, places.queues, trail, linux
        self.bypass, self.length = of.bypass, of.len
        self.state, self.stops = 0, [OPEN] * of.queues
        self.requeued, self.other_queue = deque(), deque()
        self.rings = [self.RING(of.len, self.batch(of.len)) for _ in range(3)]
        self.raised, self.down_by, self.dropped = False, None, 0
        self.configure(unit, of)

    # The device

    def configure(self, unit, params):
        """A device by the keys of a station, or of a swap."""
        self.unit, self.params = unit, params
        self.calls = self.busy = 0
        self.accepted, self.hung = [], False

    def is_busy(self):
        self.calls += 1
        every = self.params.busy_every
        if not every or self.calls % every or self.busy >= self.params.busy_limit:
            return False
        self.busy += 1
        return True

    def hand_over(self, taken):
        """Hands packets of one queue to the device, and answers those that it didn't get."""
        queue = self.queue_of[taken[0]]
        for place, n in enumerate(taken):
            if self.is_busy():
                return taken[place:]
            self.trail.put(n, SENT, self.unit, len(self.accepted))
            self.accepted.append(n)
            count = len(self.accepted)
            if count == self.params.hang_after:
                self.hung = True
                self.stops = [HUNG] * len(self.stops)
            elif self.params.burst and count % self.params.burst == 0:
                self.stops[queue] = STOPPED
            # a list of more than one comes with bulk dequeue alone
            if self.stops[queue] and place + 1 < len(taken):
                return taken[place + 1:]
        return []

    # Rules

    @staticmethod
    def batch(size):
        return 16 if size >= 32 else 1

    def is_non_empty(self):
        return self.state & NON_EMPTY

    def maybe_clear_missed(self, queue):
        self.state &= ~MISSED
        self.state |= MISSED if self.stops[queue] == OPEN else DRAINING

    def first_of_bands(self):
        return next((n for n in (self.rings[band].consume() for band in self.BANDS) if n is not None), None)

    def clear_before_second_look(self):
        self.state &= ~NON_EMPTY

    def bands_dequeue(self):
        n = self.first_of_bands()
        if n is None and self.is_non_empty():
            self.clear_before_second_look()
            n = self.first_of_bands()
        return n

    def dequeue(self):
        if self.requeued:
            queue = self.queue_of[self.requeued[0]]
            if self.stops[queue]:
                self.maybe_clear_missed(queue)
                return []
            return [self.requeued.popleft()]
        if len(self.stops) == 1 and self.stops[0]:
            self.maybe_clear_missed(0)
            return []
        if self.linux.bulk and len(self.stops) > 1:
            return self.bulk_dequeue()
        n = self.bands_dequeue()
        return [] if n is None else [n]

    def bulk_dequeue(self):
        """As dequeue_skb and try_bulk_dequeue_skb_slow: up to eight more packets of the first one's queue."""
        if self.other_queue:
            queue = self.queue_of[self.other_queue[0]]
            if self.stops[queue]:
                self.maybe_clear_missed(queue)
                return []
            first = self.other_queue.popleft()
        else:
            first = self.bands_dequeue()
        if first is None:
            return []
        taken = [first]
        while len(taken) <= 8:
            n = self.bands_dequeue()
            if n is None:
                break
            if self.queue_of[n] != self.queue_of[first]:
                self.other_queue.append(n)
                break
            taken.append(n)
        return taken

    def after_busy(self):
        self.state |= MISSED

    def direct_transmit(self, taken):
        queue = self.queue_of[taken[0]]
        if self.stops[queue]:
            self.maybe_clear_missed(queue)
        else:
            taken = self.hand_over(taken)
        if not taken:
            return True
        # the requeue slot has more than one packet with bulk dequeue alone
        if self.linux.put_ahead:
            self.requeued.extendleft(reversed(taken))
        else:
            self.requeued.extend(taken)
        self.after_busy()
        return False

    def after_quota(self):
        self.state |= MISSED

    def run(self):
        left = self.QUOTA
        while taken := self.dequeue():
            if not self.direct_transmit(taken):
                return
            left -= len(taken)
            if left <= 0:
                self.after_quota()
                return

    def schedule(self):
        if not self.state & SCHED:
            self.state |= SCHED
            self.raised = True

    def run_end(self):
        if self.state & MISSED:
            self.schedule()

    def soft_interrupt(self):
        self.raised = False
        self.state &= ~SCHED
        if not self.state & DEACTIVATED:
            self.run()
            self.run_end()

    def drop(self, n, kind, name):
        self.trail.put(n, kind, name)
        self.dropped += 1

    def enqueue(self, n):
        seen = self.rings[self.band_of[n]].produce(n)
        if seen is not None:
            self.drop(n, FULL, seen)
        return seen is None

    def runs_after_bypass(self):
        return self.is_non_empty()

    def transmit(self, n):
        if self.state & DEACTIVATED:
            self.trail.put(n, REFUSED, self.down_by)
        elif self.bypass and not self.is_non_empty():
            if self.direct_transmit([n]) and self.runs_after_bypass():
                self.run()
            self.run_end()
        else:
            self.enqueue_and_run(n)
            self.run_end()

    def enqueue_and_run(self, n):
        self.enqueue(n)
        self.run()

    def wake(self):
        if STOPPED in self.stops:
            for queue, stop in enumerate(self.stops):
                if stop == STOPPED:
                    self.stops[queue] = OPEN
                    self.schedule()

    def held(self):
        return len(self.requeued) + len(self.other_queue) + sum(ring.held for ring in self.rings)

    # Control

    def purge(self, cause):
        for waiting in (self.requeued, self.other_queue):
            while waiting:
                self.drop(waiting.popleft(), PURGED, cause)
        for ring in self.rings:
            while (n := ring.consume()) is not None:
                self.drop(n, PURGED, cause)

    def clear_after_purge(self):
        self.state &= ~NON_EMPTY

    def down(self, event):
        """Answers whether the watchdog of the kernel makes a soft interrupt, which the rules leave out."""
        self.state |= DEACTIVATED
        self.down_by = event
        self.purge(event)
        self.clear_after_purge()
        return OPEN in self.stops

    def up(self):
        self.state &= ~DEACTIVATED

    def set_length(self, length, event):
        self.length = length
        for band, ring in enumerate(self.rings):
            self.rings[band], gone = ring.resized(length, self.batch(length))
            for n in gone:
                self.drop(n, SHRUNK, event)

    def resize(self, length, event):
        self.set_length(length, event)
        self.run_end()

    def swap(self, unit, params):
        self.configure(unit, params)
        self.stops = [OPEN] * len(self.stops)

    def is_done(self):
        return self.state & DEACTIVATED or self.hung or not any(self.stops) and not self.held()


class Device:
    """A device: one station, or one for each of its queues."""

    def __init__(self, stations, endless):
        self.stations, self.softirqs, self.endless = stations, 0, endless

    def drain(self):
        # one soft interrupt of the kernel serves all qdiscs that were scheduled before it
        begun = self.softirqs
        while raised := [station for station in self.stations if station.raised]:
            self.softirqs += 1
            if self.softirqs - begun > self.endless:
                raise Endless
            for station in raised:
                station.soft_interrupt()

    def wake(self):
        for station in self.stations:
            station.wake()
        self.drain()

    def finish(self, most):
        rounds = 0
        while not all(station.is_done() for station in self.stations):
            rounds += 1
            if rounds > most:
                raise Endless
            self.wake()
        return rounds

    def down(self, event):
        # a list, so that each station goes down
        if any([station.down(event) for station in self.stations]):
            self.softirqs += 1

    def up(self):
        for station in self.stations:
            station.up()

    def tx_queue_len(self, length, event):
        """The number of the error that a kernel answers."""
        linux = self.stations[0].linux
        if linux.too_long and length > 32767:
            return 34
        if not linux.same_length or length != self.stations[0].length:
            self.down(event)
            for station in self.stations:
                station.set_length(length, event)
            self.up()
        return 0

    def resize(self, length, event):
        for station in self.stations:
            station.resize(length, event)
        self.drain()

    def swap(self, event, unit, params):
        self.down(event)
        self.stations[0].swap(unit, params)
        self.up()


class Run:
    """The run of a plan. What became of each packet is in `trail`; `wire` is that of the plan's card, or None."""

    def __init__(self, places, linux=Linux(), station=Station, endless=ENDLESS):
        if places.back is not None:
            raise Failed(f"packet {places.back} has an earlier time than the one before it, and the plan takes no such capture")
        self.places, self.plan, self.trail = places, places.plan, Trail(len(places))
        self.next_unit, self.devices, self.at = 0, [], []
        for of in self.plan.station:
            stations = [station(of, self.next_unit + child, places, self.trail, linux) for child in range(of.mq)]
            self.devices.append(Device(stations, endless))
            self.at += [(self.devices[-1], station) for station in stations]
            self.next_unit += of.mq
        card = self.plan.station[0].card
        self.wire = Wire(card, self.at[0][1], places) if card else None

    def go(self):
        """Does all that the plan has; the run itself."""
        for what, number in steps_of(self.places, is_open=self.is_open, openings=self.openings):
            self.step(what, number)
            if self.wire and what == "send":
                self.wire.go_on(number)
        self.trail.is_at(self.trail.end)
        if self.wire:
            self.wire.finish()
        self.open_until_done()
        for _, station in self.at:
            if station.hung:
                station.purge(HANGS)
        return self

    def openings(self, n):
        """How often queues are opened behind packet n, but for what a card does itself."""
        return 0 if self.wire else self.places.openings(n)

    def is_open(self):
        """Whether no queue is stopped; a queue of a device that hangs is never opened."""
        return not any(STOPPED in station.stops for _, station in self.at)

    def step(self, what, number):
        """One step of the sender; the number of the error that a kernel answers to an event, or 0."""
        if what == "send":
            self.trail.is_at(2 * number + 1)
            device, station = self.at[self.places.stations[number]]
            station.transmit(number)
            device.drain()
        elif what == "wake":
            self.trail.opening += self.plan.irq_us is not None
            for device in self.devices:
                device.wake()
        else:
            # what is done before the next packet
            self.trail.is_at(self.trail.now + self.trail.now % 2)
            return self.event(number)
        return 0

    def event(self, number):
        event = self.plan.event[number]
        device = self.devices[event.station]
        if event.kind == "down":
            device.down(number)
        elif event.kind == "up":
            device.up()
        elif event.kind == "resize":
            device.resize(event.len, number)
        elif event.kind == "tx_queue_len":
            return device.tx_queue_len(event.len, number)
        else:
            device.swap(number, self.next_unit, event)
            self.next_unit += 1
        return 0

    def open_until_done(self):
        """Opens the queues of each device until nothing is held; how often."""
        return [device.finish(len(self.places) + 2) for device in self.devices]
