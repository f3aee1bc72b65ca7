"""The hash of a frame's flow, as receive-side scaling has it: Toeplitz's hash over addresses and ports (docs/RULES.md, 'Classification').

Network cards choose a queue by it; Microsoft publishes it for NDIS ("RSS Hashing Functions") with a key and examples, which are those here.
"""
from functools import lru_cache, reduce
from operator import xor

KEY = bytes.fromhex("6d5a56da255b0ec24167253d43a38fb0d0ca2bcbae7b30b477cb2da38030f20c6a42b73bbeac01fa")
# of the longest: two addresses of IPv6, and two ports
MOST = 36
ETHERNET, RAW_IP = 1, 101
IPV4, IPV6, TAG = b"\x08\x00", b"\x86\xdd", b"\x81\x00"
TCP, UDP = 6, 17


def window(bit):
    """The 32 bits of the key that begin at a bit; bit 0 is its first."""
    return int.from_bytes(KEY, "big") >> (len(KEY) * 8 - 32 - bit) & 0xFFFFFFFF


def shares_of(place):
    """What each value of the byte at a place adds: the windows at its bits that are 1, without carry."""
    windows = [window(8 * place + bit) for bit in range(8)]
    return [reduce(xor, (window for bit, window in enumerate(windows) if value >> (7 - bit) & 1), 0) for value in range(256)]


SHARES = [shares_of(place) for place in range(MOST)]


@lru_cache(1 << 16)
def toeplitz(data):
    """Toeplitz's hash of at most 36 bytes."""
    return reduce(xor, (shares[value] for shares, value in zip(SHARES, data)), 0)


def start_of(frame, link, kind):
    """Where the header of a protocol would begin: behind an EtherType, or behind one VLAN tag and that; None where it doesn't."""
    if link == RAW_IP:
        return 0
    if link != ETHERNET:
        return None
    if frame[12:14] == kind:
        return 14
    return 18 if frame[12:14] == TAG and frame[16:18] == kind else None


def has_header(frame, start, size, version):
    return start is not None and start + size <= len(frame) and frame[start] >> 4 == version


def ports_at(frame, place, protocol):
    """The two ports of TCP or UDP, where they are there."""
    return frame[place : place + 4] if protocol in (TCP, UDP) and place + 4 <= len(frame) else b""


def flow_bytes(frame, link):
    """What is hashed of a frame; None of one that is neither IPv4 nor IPv6."""
    start = start_of(frame, link, IPV4)
    if has_header(frame, start, 20, 4):
        # the addresses, and behind a whole header of a packet that is no fragment the ports
        length, is_fragment = frame[start] % 16 * 4, int.from_bytes(frame[start + 6 : start + 8], "big") & 0x3FFF
        return frame[start + 12 : start + 20] + (b"" if is_fragment or length < 20 else ports_at(frame, start + length, frame[start + 9]))
    start = start_of(frame, link, IPV6)
    # the addresses, and the ports where no other header stands before them
    return frame[start + 8 : start + 40] + ports_at(frame, start + 40, frame[start + 6]) if has_header(frame, start, 40, 6) else None


def flow_of(frame, link):
    """The hash of a frame's flow; None of one that is neither IPv4 nor IPv6."""
    data = flow_bytes(frame, link)
    return None if data is None else toeplitz(data)
