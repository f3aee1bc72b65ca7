"""What a capture says of its packets besides their class: when each came, its DSCP, and its flow."""
import socket
import struct
from array import array
from typing import NamedTuple, Optional

from lib.times import SECOND, digits_of, times_of

# in place of a time, which is in nanoseconds, and of a DSCP
NO_TIME, NO_DSCP = -(2**63), 255
PROTOCOLS = {1: "icmp", 2: "igmp", 6: "tcp", 17: "udp", 33: "dccp", 47: "gre", 50: "esp", 58: "icmpv6", 89: "ospf", 132: "sctp", 136: "udplite"}
WITH_PORTS = frozenset((6, 17, 33, 132, 136))
# bytes 6 and 7 of an IPv4 header that isn't a later fragment, which has no ports
FIRST = frozenset(bytes([bits << 5, 0]) for bits in range(8))
# where the type of what a frame carries stands, by link type: Ethernet, and the two of `tcpdump -i any`
TYPE_AT = {1: 12, 113: 14, 276: 0}
# how long the header of a frame is, by link type; those without a type of what they carry have IP alone
ETHERNET_HEADER = 14
HEADER = {1: ETHERNET_HEADER, 113: 16, 276: 20, 0: 4, 108: 4, 101: 0, 228: 0, 229: 0}
TAGS = (b"\x81\x00", b"\x88\xa8", b"\x91\x00")
IPV4, IPV6 = b"\x08\x00", b"\x86\xdd"
PPPOE, MPLS = b"\x88\x64", (b"\x88\x47", b"\x88\x48")
# of IPv6: hop by hop, routing, fragment, destination
EXTENSIONS = frozenset((0, 43, 44, 60))


class Flow(NamedTuple):
    """What the packets of a flow share; a part that they don't have is None."""

    protocol: Optional[str] = None
    source: Optional[str] = None
    source_port: Optional[int] = None
    destination: Optional[str] = None
    destination_port: Optional[int] = None


def seconds(time, digits):
    """Nanoseconds as seconds with so many digits, 6 or 9."""
    if time < 0:
        return "-" + seconds(-time, digits)
    whole, part = divmod(time, SECOND)
    return f"{whole}.{part:09d}" if digits == 9 else f"{whole}.{part // 1000:06d}"


def behind(data, kind, head):
    """Where IP would begin behind a type of Ethernet: behind the header of PPPoE, or the last label of MPLS; None where it doesn't."""
    if data[kind : kind + 2] == PPPOE:
        return head + 8
    if data[kind : kind + 2] in MPLS:
        while head + 4 < len(data) and not data[head + 2] & 1:
            head += 4
        return head + 4
    return head if data[kind : kind + 2] in (IPV4, IPV6) else None


def header_of_frame(data, link, at, until):
    """Where the header of IP begins in a frame, and its version; None where there is none."""
    if link not in HEADER:
        return None
    head = at + HEADER[link]
    if link in TYPE_AT:
        kind = at + TYPE_AT[link]
        while link == 1 and data[kind : kind + 2] in TAGS:
            kind, head = kind + 4, head + 4
        head = behind(data, kind, head)
        if head is None:
            return None
    version = data[head] >> 4 if head < until else 0
    if version == 4 and head + 20 <= until or version == 6 and head + 40 <= until:
        return head, version
    return None


def ports_at(data, at, until):
    return struct.unpack_from(">HH", data, at) if at + 4 <= until else (None, None)


def flow_of_ipv4(data, head, until):
    """The DSCP and the flow of a packet with an IPv4 header."""
    protocol, ports = data[head + 9], (None, None)
    if protocol in WITH_PORTS and data[head + 6 : head + 8] in FIRST:
        ports = ports_at(data, head + 4 * (data[head] & 15), until)
    source, destination = socket.inet_ntoa(data[head + 12 : head + 16]), socket.inet_ntoa(data[head + 16 : head + 20])
    return data[head + 1] >> 2, Flow(PROTOCOLS.get(protocol, str(protocol)), source, ports[0], destination, ports[1])


def flow_of_ipv6(data, head, until):
    """The same of an IPv6 header, behind whose extensions the ports stand."""
    protocol, at, first = data[head + 6], head + 40, True
    while protocol in EXTENSIONS and at + 8 <= until:
        first = first and (protocol != 44 or struct.unpack_from(">H", data, at + 2)[0] < 8)
        protocol, at = data[at], at + (8 if protocol == 44 else 8 * (data[at + 1] + 1))
    ports = ports_at(data, at, until) if protocol in WITH_PORTS and first else (None, None)
    source, destination = (socket.inet_ntop(socket.AF_INET6, data[place : place + 16]) for place in (head + 8, head + 24))
    return (struct.unpack_from(">H", data, head)[0] >> 6) & 63, Flow(PROTOCOLS.get(protocol, str(protocol)), source, ports[0], destination, ports[1])


class Packets:
    """Of each packet of a capture its time in nanoseconds, beside its frame; and how many digits of a second times have."""

    def __init__(self, capture):
        self.capture, self.digits = capture, digits_of(capture)
        self.frames, self.captured, self.links = capture.frames, capture.captured, capture.types
        self.times = array("q", (NO_TIME if time is None or not -(2**63) <= time < 2**63 else time for time in times_of(capture)))


class Flows:
    """Of each packet its DSCP, and the number of its flow; and the flows."""

    def __init__(self, packets):
        self.data = packets.capture.data
        self.services, self.of, self.flows = bytearray(), array("I"), []
        self.numbers = {}  # of flows
        service, of, number = self.services.append, self.of.append, self.number_of
        # a frame of Ethernet with an IPv4 header of 20 bytes is read by one call, and by what identifies its flow
        seen, size = {}, len(self.data)
        unpack = struct.Struct("12x2sBB4x2sxB2x12s").unpack_from
        for at, captured, link in zip(packets.frames, packets.captured, packets.links):
            if link == 1 and captured >= 34 and at + 38 <= size:
                kind, version, tos, fragment, protocol, ends = unpack(self.data, at)
                if version == 69 and kind == IPV4:
                    key = (protocol, ends if captured >= 38 and protocol in WITH_PORTS and fragment in FIRST else ends[:8])
                    if key not in seen:
                        seen[key] = number(flow_of_ipv4(self.data, at + 14, at + captured)[1])
                    service(tos >> 2)
                    of(seen[key])
                    continue
            dscp, flow = self.read(link, at, at + captured)
            service(dscp)
            of(number(flow))

    def read(self, link, at, until):
        """The DSCP and the flow of any frame."""
        found = header_of_frame(self.data, link & 0xFFFF, at, until)
        if not found:
            return NO_DSCP, Flow()
        return (flow_of_ipv4 if found[1] == 4 else flow_of_ipv6)(self.data, found[0], until)

    def number_of(self, flow):
        if flow not in self.numbers:
            self.numbers[flow] = len(self.flows)
            self.flows.append(flow)
        return self.numbers[flow]
