"""When each packet of a capture came, in nanoseconds since the start of 1970."""
import struct
from typing import NamedTuple

SECOND = 10**9
# magic numbers of classic captures whose times have nanoseconds
NANOSECONDS = (b"\x4d\x3c\xb2\xa1", b"\xa1\xb2\x3c\x4d")
ENHANCED = 6
RESOLUTION, OFFSET = 9, 14  # options of an interface: if_tsresol and if_tsoffset


def options_of(data, order, at, end):
    """The options of a block between two places: the number of each and its value."""
    while at + 4 <= end:
        number, length = struct.unpack_from(order + "HH", data, at)
        if number == 0 or at + 4 + length > end:
            return
        yield number, bytes(data[at + 4 : at + 4 + length])
        at += 4 + length + -length % 4


class Clock(NamedTuple):
    """How an interface tells time: ticks a second, and the seconds to be added."""

    ticks: int = 10**6
    offset: int = 0

    def nanoseconds(self, ticks):
        return ticks * SECOND // self.ticks + self.offset * SECOND


def clock_of(block, order):
    """The clock that an interface description block tells; of an option that comes twice the first counts."""
    found = {}
    for number, value in options_of(block, order, 16, len(block) - 4):
        found.setdefault(number, value)
    ticks, offset = found.get(RESOLUTION, b"\6"), found.get(OFFSET, bytes(8))
    power = ticks[0] if ticks else 6
    return Clock(2 ** (power & 127) if power & 128 else 10**power, struct.unpack(order + "q", offset)[0] if len(offset) == 8 else 0)


def clocks_of(capture):
    """The clock of each interface of a pcapng capture."""
    return [clock_of(block, capture.order) for block in capture.head[1:]]


def times_of(capture):
    """The time of each packet; None of a simple packet of pcapng, which has none."""
    data = capture.data
    if not capture.is_pcapng():
        unpack, scale = struct.Struct(capture.order + "II").unpack_from, 1 if bytes(data[:4]) in NANOSECONDS else 1000
        for at in capture.starts:
            seconds, part = unpack(data, at)
            yield seconds * SECOND + part * scale
        return
    clocks, unpack, kind = clocks_of(capture), struct.Struct(capture.order + "III").unpack_from, struct.Struct(capture.order + "I").unpack_from
    for at in capture.starts:
        if kind(data, at)[0] == ENHANCED:
            interface, high, low = unpack(data, at + 8)
            yield clocks[interface].nanoseconds(high << 32 | low)
        else:
            yield None


def moments_of(capture):
    """The time of each packet as plans read it: a simple packet has that of the one before it, and the first has 0; a time before 1970 counts as 1970."""
    last = 0
    for time in times_of(capture):
        last = last if time is None else max(0, time)
        yield last


def digits_of(capture):
    """How many digits of a second its times have, 6 or 9."""
    if capture.is_pcapng():
        return 9 if any(10**6 % clock.ticks for clock in clocks_of(capture)) else 6
    return 9 if bytes(capture.data[:4]) in NANOSECONDS else 6
