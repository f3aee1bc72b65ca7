"""Captures with times and flows, made at random in each format that is read; and bursts of equal frames."""
import struct

from tests.flows import FRAGMENT, ICMP, TCP, UDP, framed, packet

MICROSECOND, SECOND, DAY = 10**3, 10**9, 86400 * 10**9
ETHERNET, RAW_IP = 1, 101
# of the frames of a burst
EQUAL = framed(packet("10.0.0.1", 9, "10.0.1.1", 80, UDP))
# if_tsresol: powers of ten, and with the upper bit powers of two
RESOLUTIONS = [0, 3, 6, 6, 9, 9, 12, 128 | 10, 128 | 20, 128 | 30, 127]


def classic(times, frames, order="<", is_nano=False, link=ETHERNET, cut=2**18, lengths=None):
    """A classic capture of these frames at these nanoseconds, each cut to so many bytes; LENGTHS are those on the wire."""
    magic, scale = (0xA1B23C4D, 1) if is_nano else (0xA1B2C3D4, 1000)
    records = [struct.pack(order + "IHHIIII", magic, 2, 4, 0, 0, 262144, link)]
    for time, frame, length in zip(times, frames, lengths or map(len, frames)):
        records += [struct.pack(order + "IIII", time // SECOND, time % SECOND // scale, len(frame[:cut]), length), frame[:cut]]
    return b"".join(records)


def padded(data):
    return data + bytes(-len(data) % 4)


def block(order, kind, body):
    total = struct.pack(order + "I", 12 + len(body))
    return struct.pack(order + "I", kind) + total + body + total


def option(order, number, value):
    return struct.pack(order + "HH", number, len(value)) + padded(value)


def section(order, *blocks, length=-1, options=b""):
    """A section of pcapng with these blocks."""
    return block(order, 0x0A0D0D0A, struct.pack(order + "IHHq", 0x1A2B3C4D, 1, 0, length) + options) + b"".join(blocks)


def interface(order, link=ETHERNET, options=b""):
    return block(order, 1, struct.pack(order + "HHI", link, 0, 0) + options)


def enhanced(order, frame, at=0, time=0, length=None, options=b""):
    """A packet of an interface at so many units of its clock; LENGTH is that on the wire."""
    head = struct.pack(order + "IIIII", at, time >> 32, time & 0xFFFFFFFF, len(frame), len(frame) if length is None else length)
    return block(order, 6, head + padded(frame) + options)


def simple(order, frame):
    return block(order, 3, struct.pack(order + "I", len(frame)) + padded(frame))


class Interface:
    """An interface of pcapng: its link type, and its clock as options say it."""

    def __init__(self, of, link):
        self.link, self.resolution, self.offset = link, of.choice(RESOLUTIONS), of.choice([0, 0, 0, 1, 10**9, -5])
        self.ticks = 2 ** (self.resolution & 127) if self.resolution & 128 else 10**self.resolution
        self.is_plain = self.resolution == 6 and self.offset == 0 and of.random() < 0.5

    def block(self, order):
        options = b"" if self.is_plain else option(order, 2, b"eth0") + option(order, 9, bytes([self.resolution])) + option(order, 14, struct.pack(order + "q", self.offset))
        return interface(order, self.link, options + option(order, 0, b"") * (not self.is_plain))

    def units(self, time):
        return max(0, (time - self.offset * SECOND) * self.ticks // SECOND) % 2**64


def pcapng(of, times, frames, order="<", most=3, link=ETHERNET, cut=2**18):
    """The same as pcapng, of one to so many interfaces; now and then a frame is a simple packet, which has no time and is whole."""
    interfaces = [Interface(of, link) for _ in range(of.randint(1, most))]
    yield section(order, *(interface.block(order) for interface in interfaces))
    for time, frame in zip(times, frames):
        at = of.randrange(len(interfaces))
        yield simple(order, frame) if of.random() < 0.05 else enhanced(order, frame[:cut], at, interfaces[at].units(time), len(frame))


def random_frame(of):
    """A frame of one of some flows, or of none."""
    protocol, fragment = of.choice([TCP, TCP, UDP, ICMP]), of.choice([0, 0, 0, 0x2000, 9])
    if of.random() < 0.2:
        data = packet(f"fe80::{of.randint(1, 9)}", of.randint(1, 9), "ff02::1", 80, of.choice([protocol, FRAGMENT]))
    else:
        data = packet(f"10.0.0.{of.randint(1, 9)}", of.randint(1, 9), f"10.0.1.{of.randint(1, 9)}", 80, protocol, fragment, b"\1" * of.choice([0, 0, 0, 8]))
        data = data[:1] + bytes([of.choice([0, 0, 8, 16])]) + data[2:]
    whole = framed(data, of.choice([b""] * 5 + [b"\x81\0\0\5", b"\x88\xa8\0\5"]))
    return whole[: of.choice([len(whole)] * 8 + [36, 14])]


def random_times(of, count):
    """Times that go on, stand, go back, or leave out a day."""
    time, found = of.randrange(10**9) * SECOND + of.randrange(SECOND), []
    for _ in range(count):
        found.append(time)
        time = max(0, time + of.choice([0, 1, 999, 1000, 5000, 20000, of.randrange(200000), of.randrange(200000)] * 6 + [-7000, DAY, of.randrange(10**8)]))
    return found


def random_capture(of):
    """A capture of up to 200 packets, in one of the formats."""
    count, order = of.choice([0, 1, of.randint(2, 60), of.randint(60, 200)]), of.choice("<>")
    times, frames = random_times(of, count), [random_frame(of) for _ in range(count)]
    return b"".join(pcapng(of, times, frames, order)) if of.random() < 0.5 else classic(times, frames, order, of.random() < 0.5)


def random_passage(of):
    """A capture for a link: frames of all lengths, some cut to their headers, whose times seldom go back."""
    count, order, link = of.choice([0, 1, of.randint(2, 60), of.randint(60, 200)]), of.choice("<>"), of.choice([ETHERNET, ETHERNET, RAW_IP])
    times = random_times(of, count)
    times = times if of.random() < 0.03 else sorted(times)
    frames = [random_frame(of) + bytes(of.choice([0, 0, 20, 500, 1400])) for _ in range(count)]
    frames = [frame[14:] for frame in frames] if link == RAW_IP else frames
    cut = of.choice([2**18, 60])
    if of.random() < 0.4:
        # by the clocks of several interfaces a time goes back more often
        return b"".join(pcapng(of, times, frames, order, of.choice([1] * 9 + [3]), link, cut))
    return classic(times, frames, order, of.random() < 0.5, link, cut)


def random_bursts(of, slots, period):
    """The times of equal frames in so many bursts, for a link that takes one each so many nanoseconds."""
    time, found, bursts = of.randrange(10**9) * MICROSECOND, [], of.randint(1, 8)
    for _ in range(bursts):
        time += of.randrange(2 * slots * period)
        between = of.choice([0, 1, 2, 5, 10, 20]) * period // 5
        for _ in range(of.randint(1, 3 * slots)):
            found.append(time)
            time += of.randint(0, between)
    return bursts, found
