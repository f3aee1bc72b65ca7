"""A card on a wire, beside the station of a run of one sender: when it opens the queue, and when each frame leaves (docs/RULES.md, 'A link').

Times are scaled, nanoseconds times the rate in thousand bits a second: so a byte takes 8,000,000, and nothing is rounded.
"""
from array import array
from collections import deque
from typing import NamedTuple

from lib.packets import ETHERNET_HEADER

BYTE = 8_000_000
# a later time counts as this one
LAST_TIME = 2**64 - 1
RAW_IP = 101


class Flight(NamedTuple):
    """A packet that the card accepted: when it did, and when its frame begins and ends."""

    number: int
    accepted: int
    begins: int
    ends: int
    length: int


def frame_lengths(capture):
    """The length of each packet's frame by the capture; one of raw IP has no header of Ethernet, and gets one."""
    return array("Q", (length + ETHERNET_HEADER * (link == RAW_IP) for length, link in zip(capture.lengths, capture.types)))


def bytes_of_wire(card, length):
    """How many bytes of the wire's time a frame takes."""
    return max(length + card.overhead, card.mpu)


class Wire:
    """A card with its driver's ring, and the wire. `opened` has how often the queue was opened behind each packet."""

    def __init__(self, card, station, places):
        self.card, self.station, self.trail, self.times = card, station, station.trail, places.times
        self.lengths = frame_lengths(places.capture)
        self.ring, self.bytes, self.free, self.flights = deque(), 0, 0, []
        self.opened, self.count = array("I"), 0

    def moment(self, n):
        return min(self.times[n], LAST_TIME) * self.card.rate_kbit

    def accept(self, now):
        """What the device has accepted since, at this moment."""
        for n in self.station.accepted[len(self.flights) :]:
            begins, length = max(now, self.free), self.lengths[n]
            self.free = begins + BYTE * bytes_of_wire(self.card, length)
            flight = Flight(n, now, begins, self.free, length)
            self.ring.append(flight)
            self.flights.append(flight)
            self.bytes += length

    def has_room(self):
        return len(self.ring) < self.card.ring if self.card.bql is None else self.bytes <= self.card.bql

    def open_while_room(self, now):
        """As often as the queue is stopped and there is room it is opened, and the station is served."""
        while any(self.station.stops) and self.has_room():
            self.count += 1
            self.trail.opening += 1
            self.station.wake()
            while self.station.raised:
                self.station.soft_interrupt()
            self.accept(now)

    def interrupt_until(self, limit):
        """The interrupts up to a moment; all that there are if it is None."""
        delay = self.card.coalesce_us * 1000 * self.card.rate_kbit
        while self.ring and (limit is None or self.ring[0].ends + delay <= limit):
            now = self.ring[0].ends + delay
            while self.ring and self.ring[0].ends <= now:
                self.bytes -= self.ring.popleft().length
            self.open_while_room(now)

    def go_on(self, n):
        """What follows packet n, up to the moment of the next one."""
        self.count = 0
        self.accept(self.moment(n))
        self.open_while_room(self.moment(n))
        if n + 1 < len(self.times):
            self.interrupt_until(self.moment(n + 1))
        else:
            self.count = 0
        self.opened.append(self.count)

    def finish(self):
        """Behind the last packet and the events that are left: all interrupts."""
        if len(self.times):
            self.accept(self.moment(len(self.times) - 1))
        self.interrupt_until(None)


def times_text(flights, rate_kbit):
    """The text of OUT.times."""
    return "".join(f"{flight.number} {flight.accepted // rate_kbit} {flight.ends // rate_kbit}\n" for flight in flights)
