"""Captures as the program reads them, classic pcap and pcapng: where each packet stands, its length, and its class (docs/RULES.md)."""
import os
import struct
from array import array
from functools import cached_property
from operator import sub

from lib import ways_out
from lib.words import Failed

# As in docs/RULES.md, 'Classification'.
PRIORITY = [0, 0, 0, 0, 2, 2, 2, 2, 6, 6, 6, 6, 4, 4, 4, 4]
BAND = [1, 2, 2, 2, 1, 2, 0, 0, 1, 1, 1, 1, 1, 1, 1, 1]
PRIORITY_OF_SERVICE = bytes(PRIORITY[(service & 0x1E) // 2] for service in range(256))
BAND_OF_SERVICE = bytes(BAND[priority] for priority in PRIORITY_OF_SERVICE)
CLASSIC = {b"\xd4\xc3\xb2\xa1": "<", b"\x4d\x3c\xb2\xa1": "<", b"\xa1\xb2\xc3\xd4": ">", b"\xa1\xb2\x3c\x4d": ">"}
BLOCK = b"\x0a\x0d\x0d\x0a"
IPV4, TAG = b"\x08\x00", b"\x81\x00"


STANDARD_INPUT = "a dash isn't standard input here, /dev/stdin is; a capture is read more than once, so keep it in a file: cat >capture.pcap"


class Broken(Failed):
    """Why bytes are no capture, with the number of the reason that the program has for it (docs/FORMATS.md)."""

    def __init__(self, line, reason):
        super().__init__(line)
        self.reason = reason


class Capture:
    """The packets of a capture: for each where its record and its frame stand, how many bytes are captured, its length on the wire, and its class."""

    def __init__(self, data):
        self.data = data
        self.starts, self.ends = array("Q"), array("Q")  # of records and of packet blocks
        self.frames, self.captured, self.lengths, self.interfaces = array("Q"), array("I"), array("I"), array("I")
        # of the IPv4 header: its type of service, and the bytes by which a packet is placed; 0 without one
        self.services, self.routes, self.sources = bytearray(), bytearray(), bytearray()
        self.without_header = 0  # packets with no IPv4 header, whatever they carry
        self.head = []  # the pieces of the file that stand before the packets in what is written
        self.order = ""  # of the numbers of the file, as struct has it
        self.links = []  # the link type of each interface; a classic capture has one
        if data[:4] == BLOCK:
            self.read_blocks()
        elif data[:4] in CLASSIC:
            self.read_records(CLASSIC[data[:4]])
        elif len(data) < 24:
            raise Broken("its header is cut off", 1)
        else:
            raise Broken("it is neither a pcap nor a pcapng file", 2)
        self.classify()

    def __len__(self):
        return len(self.lengths)

    @cached_property
    def bands(self):
        """The band of each packet."""
        return self.services.translate(BAND_OF_SERVICE)

    @cached_property
    def types(self):
        """The link type of each packet; a simple one is of the first interface, which may be missing."""
        links = self.links or [0]
        return links * len(self) if len(links) == 1 else [links[interface] for interface in self.interfaces]

    def is_pcapng(self):
        return self.data[:4] == BLOCK

    def read_records(self, order):
        data, size = self.data, len(self.data)
        if size < 24:
            raise Broken("its header is cut off", 1)
        self.order, self.links = order, [struct.unpack_from(order + "I", data, 20)[0]]
        self.head.append(bytes(data[:24]))
        unpack, at = struct.Struct(order + "8xII").unpack_from, 24
        starts, lengths = self.starts.append, self.lengths.append
        while at + 16 <= size:
            captured, length = unpack(data, at)
            starts(at)
            lengths(length)
            at += 16 + captured
        if at != size:
            raise Broken(f"a record is cut off at {at if at < size else self.starts[-1]}", 6)
        self.ends, self.frames = self.starts[1:] + array("Q", [size] * bool(self.starts)), array("Q", map((16).__add__, self.starts))
        self.captured, self.interfaces = array("I", map(sub, self.ends, self.frames)), array("I", bytes(4 * len(self)))

    def read_blocks(self):
        data, size = self.data, len(self.data)
        order = {b"\x4d\x3c\x2b\x1a": "<", b"\x1a\x2b\x3c\x4d": ">"}.get(bytes(data[8:12]))
        if order is None:
            raise Broken("it doesn't show its byte order", 12)
        two, packet = struct.Struct(order + "II").unpack_from, struct.Struct(order + "I8xII").unpack_from
        self.order = order
        links, cuts, add, at = self.links, [], self.add, 0
        while at < size:
            kind, total = two(data, at) if at + 12 <= size else (0, 0)
            end = at + total
            # the type of such a block is the same in either byte order, and its length isn't
            if at and data[at : at + 4] == BLOCK and at + 12 <= size:
                raise Broken(f"a second section begins at {at}", 15)
            if total < 12 or total % 4 or end > size:
                raise Broken(f"a block is cut off at {at}", 10)
            if kind == 6:
                interface, captured, length = packet(data, at + 8)
                if interface >= len(links):
                    raise Broken(f"the block at {at} has no interface", 13)
                add(at, end, at + 28, captured, length, interface)
            elif kind == 3:
                length = two(data, at + 8)[0]
                add(at, end, at + 12, min(length, cuts[0]) if cuts and cuts[0] else length, length, 0)
            elif kind == 1:
                links.append(struct.unpack_from(order + "H", data, at + 8)[0])
                cuts.append(struct.unpack_from(order + "I", data, at + 12)[0])
                self.head.append(bytes(data[at:end]))
            elif at == 0:
                self.head.append(bytes(data[:16]) + b"\xff" * 8 + bytes(data[24:end]))
            at = end

    def add(self, start, end, frame, captured, length, interface):
        self.starts.append(start)
        self.ends.append(end)
        self.frames.append(frame)
        self.captured.append(captured)
        self.lengths.append(length)
        self.interfaces.append(interface)

    def classify(self):
        """Finds the header by which each packet has its class."""
        data, services, routes, sources = self.data, self.services.append, self.routes.append, self.sources.append
        # an untagged frame with an IPv4 header is read by one call: a capture may have a million records
        unpack = struct.Struct("12x2sBB13xB3xB").unpack_from
        for at, captured, link in zip(self.frames, self.captured, self.types):
            if link == 1 and captured >= 34:
                kind, version, service, source, route = unpack(data, at)
                if kind == IPV4 and 64 <= version < 80:
                    services(service)
                    sources(source)
                    routes(route)
                    continue
            head = header_at(data, at, at + captured, link)
            self.without_header += head is None
            services(data[head + 1] if head else 0)
            sources(data[head + 15] if head else 0)
            routes(data[head + 19] if head else 0)

    def written(self, numbers):
        """A file of these packets alone, in the format of the capture."""
        data = self.data
        return b"".join([*self.head, *(data[self.starts[n] : self.ends[n]] for n in numbers)])


def header_at(data, at, until, link):
    """Where the IPv4 header begins that is looked at; None where there is none."""
    head = at if link == 101 else until
    if link == 1:
        kind = data[at + 12 : at + 14]
        head = at + 14 if kind == IPV4 else at + 18 if kind == TAG and data[at + 16 : at + 18] == IPV4 else until
    return head if head + 20 <= until and data[head] >> 4 == 4 else None


def way_out_of(name, fault):
    """Why a file is no capture, and what mends it; a pipe is read already, and can't be mended."""
    if not os.path.isfile(name):
        return str(fault)
    said = ways_out.way_out(fault.reason, str(name))
    return said if fault.reason < 3 else f"{fault}: {said}"


def read(name, code=1):
    """The capture of a file; ends with a line that says what mends it, and this exit code, where it is none."""
    if str(name) == "-":
        raise Failed(STANDARD_INPUT, code)
    with open(name, "rb") as file:
        data = file.read()
    try:
        return Capture(data)
    except Broken as fault:
        raise Failed(f"{name}: {way_out_of(name, fault)}", code) from None


def classic(packets, link=1, nanoseconds=True, longest=2**18):
    """The pieces of a classic capture: of each packet its time in nanoseconds, what is captured of it, and its length on the wire."""
    yield struct.pack("<IHHiIII", 0xA1B23C4D if nanoseconds else 0xA1B2C3D4, 2, 4, 0, 0, longest, link)
    for time, data, length in packets:
        seconds, part = divmod(time, 10**9)
        yield struct.pack("<IIII", seconds, part if nanoseconds else part // 1000, len(data), length) + data


def ethernet(frames, times=None):
    """The text of a classic capture of Ethernet frames, at these nanoseconds or a second apart."""
    moments = [n * 10**9 for n in range(len(frames))] if times is None else times
    return b"".join(classic(((time, frame, len(frame)) for time, frame in zip(moments, frames)), nanoseconds=times is not None, longest=65535))
