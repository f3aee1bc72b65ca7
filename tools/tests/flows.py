"""The hash of a flow: the examples that are published for it, and what is hashed of each kind of frame."""
import ipaddress
import struct

from lib import flow_hash
from tests.bench import fault_if

# source, its port, destination, its port, the hash with the ports, and without: "Verifying the RSS Hash Calculation" of NDIS
PUBLISHED = [
    ("66.9.149.187", 2794, "161.142.100.80", 1766, 0x51CCC178, 0x323E8FC2),
    ("199.92.111.2", 14230, "65.69.140.83", 4739, 0xC626B0EA, 0xD718262A),
    ("24.19.198.95", 12898, "12.22.207.184", 38024, 0x5C2B394A, 0xD2D0A5DE),
    ("38.27.205.30", 48228, "209.142.163.6", 2217, 0xAFC7327F, 0x82989176),
    ("153.39.163.191", 44251, "202.188.127.2", 1303, 0x10E828A2, 0x5D1809C5),
    ("3ffe:2501:200:1fff::7", 2794, "3ffe:2501:200:3::1", 1766, 0x40207D3D, 0x2CC18CD5),
    ("3ffe:501:8::260:97ff:fe40:efab", 14230, "ff02::1", 4739, 0xDDE51BBF, 0x0F0C461C),
    ("3ffe:1900:4545:3:200:f8ff:fe21:67cf", 44251, "fe80::200:f8ff:fe21:67cf", 38024, 0x02D1FEEF, 0x4B61E985),
]
ETHERNET, RAW_IP, COOKED = 1, 101, 113
TCP, UDP, ICMP, FRAGMENT = 6, 17, 1, 44


def packet(source, source_port, destination, destination_port, protocol=TCP, fragment=0, options=b""):
    """A packet of IP without data."""
    ends = ipaddress.ip_address(source).packed + ipaddress.ip_address(destination).packed
    ports = options + struct.pack(">HH", source_port, destination_port)
    if len(ends) == 8:
        return struct.pack(">BBHHHBBH", 0x45 + len(options) // 4, 0, 0, 0, fragment, 64, protocol, 0) + ends + ports
    return struct.pack(">IHBB", 6 << 28, 0, protocol, 64) + ends + ports


def framed(data, tags=b""):
    return bytes(12) + tags + (b"\x08\x00" if data[0] >> 4 == 4 else b"\x86\xdd") + data


def test_published_flows():
    """Each published example, in a frame of Ethernet, of one with a tag, and as raw IP."""
    for source, source_port, destination, destination_port, with_ports, without in PUBLISHED:
        ends = source, source_port, destination, destination_port
        for protocol, wanted in [(TCP, with_ports), (UDP, with_ports), (ICMP, without)]:
            data = packet(*ends, protocol)
            frames = [(framed(data), ETHERNET), (framed(data, b"\x81\0\0\5"), ETHERNET), (data, RAW_IP)]
            found = {flow_hash.flow_of(frame, link) for frame, link in frames}
            fault_if(found != {wanted}, f"the flow from {source} has {found}, and not {wanted:#x}")


def test_flows_without_ports():
    """Of which packets the ports aren't hashed, and which frames have no flow."""
    for ends in (PUBLISHED[0], PUBLISHED[5]):
        *ends, with_ports, without = ends
        data = packet(*ends)
        rows = {"cut before its ports": (data[:-1], without), "whole": (data, with_ports)}
        if len(data) < 40:
            rows |= {
                "a first fragment": (packet(*ends, fragment=0x2000), without), "a later fragment": (packet(*ends, fragment=7), without),
                "one that may not be cut": (packet(*ends, fragment=0x4000), with_ports), "options": (packet(*ends, options=b"\1" * 8), with_ports),
                "a header that is too short": (b"\x44" + data[1:], without), "cut in its header": (data[:19], None),
            }  # fmt: skip
        else:
            rows |= {"a header before that of TCP": (packet(*ends, protocol=FRAGMENT), without), "cut in its header": (data[:39], None)}
        for name, (of, wanted) in rows.items():
            fault_if(flow_hash.flow_of(framed(of), ETHERNET) != wanted, f"{name}: the flow is {flow_hash.flow_of(framed(of), ETHERNET)}, and not {wanted}")
    odd = [(b"", ETHERNET), (framed(data, b"\x88\xa8\0\5"), ETHERNET), (framed(data, b"\x81\0\0\5\x81\0\0\5"), ETHERNET), (b"\x65" + data[1:], COOKED), (b"\x75" + bytes(60), RAW_IP), (framed(b"\x55" + bytes(60)), ETHERNET)]
    fault_if(any(flow_hash.flow_of(*given) is not None for given in odd), f"frames without a flow have {[flow_hash.flow_of(*given) for given in odd]}")
