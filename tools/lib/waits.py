"""When the packets of one sender's run left: how long each waited, how many wait at once, and which are sent only after the last packet."""
from array import array
from itertools import accumulate
from typing import NamedTuple, Optional

from lib.packets import NO_TIME
from lib.trail import SENT


def percentile(values, part, zeros=0):
    """Of sorted values behind so many zeros the one at so many hundredths of all: the middle one at 50, and the greatest at 100; 0 of none."""
    many = zeros + len(values)
    at = min(many * part // 100, many - 1) - zeros
    return values[at] if at >= 0 else 0


def microseconds(time):
    """Nanoseconds in words."""
    return f"{time / 1000:.1f} us"


class Waited(NamedTuple):
    """Of some packets that were sent: the middle and the greatest wait, in packets that came meanwhile and in nanoseconds of the capture; and what 99 of 100 waited at most."""

    middle: int
    greatest: int
    middle_time: Optional[int]
    most_time: Optional[int]
    greatest_time: Optional[int]


class Waits:
    """The waits of a run that was worked out. Where a card opens the queue, `accepted` has when it accepted each packet."""

    def __init__(self, run, packets):
        self.run, self.trail, self.left, self.end = run, run.trail, run.trail.left, run.trail.end
        self.by_time, self.wire = run.plan.by_time, run.wire
        self.times, self.digits = run.placed.times if self.by_time else packets.times, 9 if self.wire else packets.digits
        self.accepted = {flight.number: flight.accepted // self.wire.card.rate_kbit for flight in self.wire.flights} if self.wire else {}
        self.waiting_of, self.sent_of = {}, {}
        # the packets that didn't leave when they came, by station and band
        self.held = {(station, band): array("I") for station in range(len(run.tables)) for band in range(3)}
        for n in filter(self.trail.waited, range(len(self.left))):
            self.held[run.stations[n], run.bands[n]].append(n)
        # those that were sent only when nothing came any more, and queues were opened until nothing was held
        self.late = sorted(n for held in self.held.values() for n in held if run.kinds[n] == SENT and self.is_late(n))

    def is_late(self, n):
        """Whether a packet left after the last packet of the capture."""
        return self.left[n] == self.end

    def packets(self, n):
        """How many packets came while a packet waited."""
        return (self.left[n] + 1) // 2 - 1 - n

    def time(self, n):
        """How long a packet waited; None where the capture has no times. Where queues aren't opened by time, until the last packet came that came while it waited."""
        first, last = self.times[n], self.time_left(n)
        return None if NO_TIME in (first, last) else last - first

    def time_left(self, n):
        """When a packet left: as a card accepted it, or an event of the next packet's moment dropped it; at an opening of its queue; or with the packet that came last."""
        if self.wire:
            return self.accepted[n] if n in self.accepted else self.times[min(self.left[n] // 2, len(self.times) - 1)]
        opening, last = self.trail.openings[n], n + self.packets(n)
        return self.run.placed.time_of_opening(last, opening) if opening else self.times[last]

    def late_of(self, wanted):
        """How many packets were sent after the last packet, of those whose station, band and queue are wanted."""
        run = self.run
        return sum(wanted(run.stations[n], run.bands[n], run.queues[n]) for n in self.late)

    def waiting(self, station, bands=(0, 1, 2)):
        """How many packets of these bands of a station wait after each packet. The slot's packet counts with its band."""
        key = station, tuple(bands)
        if key not in self.waiting_of:
            changes = array("i", bytes(4 * (len(self.left) + 1)))
            for band in bands:
                for n in self.held[station, band]:
                    changes[n] += 1
                    changes[self.left[n] // 2] -= 1
            self.waiting_of[key] = array("I", accumulate(changes[:-1]))
        return self.waiting_of[key]

    def changes(self, station, bands=(0, 1, 2), of_bytes=False):
        """When packets of these bands of a station begin to wait and cease to, and how many more of them, or of their bytes, wait then, in order; where queues are opened by time."""
        found, lengths = [], self.run.capture.lengths
        for n in (n for band in bands for n in self.held[station, band]):
            many = lengths[n] if of_bytes else 1
            found.append((2 * n + 1, 0, self.times[n], many))
            if self.wire or not self.is_late(n):
                found.append((self.left[n], self.trail.openings[n], self.time_left(n), -many))
        return [change[2:] for change in sorted(found)]

    def greatest(self, station, bands=(0, 1, 2), of_bytes=False):
        """The most packets of these bands that wait at once, or the most bytes."""
        waiting = accumulate(change for _, change in self.changes(station, bands, of_bytes)) if self.by_time else self.waiting(station, bands)
        return max(waiting, default=0)

    def of_sent(self, station, band):
        """How long the packets waited that were sent of a band; None where there are none."""
        if (station, band) not in self.sent_of:
            many = sum(packets for (at, of, _, kind), (packets, _) in self.run.counts.items() if (at, of, kind) == (station, band, SENT))
            self.sent_of[station, band] = self.waited([n for n in self.held[station, band] if self.run.kinds[n] == SENT], many)
        return self.sent_of[station, band]

    def waited(self, held, many):
        """How long so many packets waited that were sent, of which those that are given didn't leave when they came; None of none."""
        if not many:
            return None
        packets, times, zeros = sorted(map(self.packets, held)), list(map(self.time, held)), many - len(held)
        known = None not in times
        times = sorted(times) if known else []
        return Waited(*(percentile(packets, number, zeros) for number in (50, 100)), *(percentile(times, number, zeros) if known else None for number in (50, 99, 100)))
