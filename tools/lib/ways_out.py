"""The way out for a capture that the program refuses: a sentence, and mostly a command that can be pasted.

The command reads the capture and makes a file that no file has the name of. The program accepts what it makes.
"""
import glob
import itertools
import os
import shlex
import shutil
import struct

NANOSECONDS, CLASSIC, BLOCKS = (b"\x4d\x3c\xb2\xa1", b"\xa1\xb2\x3c\x4d"), (b"\xd4\xc3\xb2\xa1", b"\xa1\xb2\xc3\xd4"), b"\x0a\x0d\x0d\x0a"
PACKED = {b"\x1f\x8b": "zcat", b"\x28\xb5\x2f\xfd": "zstdcat", b"\x04\x22\x4d\x18": "lz4cat", b"\xfd7zX": "xzcat", b"BZh": "bzcat"}
ENDINGS = (".gz", ".zst", ".lz4", ".xz", ".bz2", ".pcapng", ".pcap", ".cap")
# all that is looked at of a packet: the ports behind a tag and the longest IPv4 header, or behind an IPv6 header
LOOKED_AT = 96
# so many packets of that length aren't too long in either format
IN_A_PART = 500000


def head_of(name, size=4):
    with open(name, "rb") as file:
        return file.read(size)


def quoted(word):
    return shlex.quote(word).replace("'\"'\"'", "'\\''")


def is_taken(name):
    """Whether a file has this name, or one that editcap gives to its parts."""
    return os.path.lexists(name) or bool(glob.glob(glob.escape(os.path.splitext(name)[0]) + "_[0-9]*"))


def new_name(capture, ending):
    """A name in the caller's folder for what is made of a capture: its own with another ending."""
    base = os.path.basename(capture)
    for known in ENDINGS:
        base = base[: -len(known)] if base.endswith(known) else base
    base = f"./{base}" if base.startswith("-") else base or "capture"
    return quoted(next(name for n in itertools.count(1) for name in [f"{base}-{n}{ending}" if n > 1 else base + ending] if not is_taken(name)))


def blocks_of(data):
    """The type, the place and the byte order of each block of a pcapng file that begins in these bytes."""
    order, at = "<" if data[8:9] == b"\x4d" else ">", 0
    while at + 12 <= len(data):
        kind, total = struct.unpack_from(order + "II", data, at)
        if total < 12:
            return
        yield kind, at, order
        at += total


def link_types(data):
    """The link types of the interfaces that are described before a file's first packet."""
    before = itertools.takewhile(lambda block: block[0] not in (2, 3, 6), blocks_of(data))
    return {struct.unpack_from(order + "H", data, at + 8)[0] for kind, at, order in before if kind == 1}


def by_wireshark(why, command):
    tool = command.split()[0]
    return f"{why}: {command}" if shutil.which(tool) else f"{why} ({tool} is in Debian's wireshark-common): {command}"


def shorter(capture, why):
    """Parts of short packets, in the format that keeps the times and takes the fewest bytes; with several link types there is one alone."""
    head = head_of(capture)
    several = head == BLOCKS and len(link_types(head_of(capture, 65536))) > 1
    form = "pcapng" if several else "nsecpcap" if head == BLOCKS or head in NANOSECONDS else "pcap"
    made = new_name(capture, ".short.pcapng" if several else ".short.pcap")
    why = f"{why}. To make parts that can be read, each of which begins with empty rings"
    return by_wireshark(why, f"editcap -F {form} -s {LOOKED_AT} -c {IN_A_PART} {quoted(capture)} {made}")


def whole(capture, why):
    """What editcap can read of a capture, in its own format."""
    head = head_of(capture)
    form = "nsecpcap" if head in NANOSECONDS else "pcap" if head in CLASSIC else "pcapng"
    return by_wireshark(why, f"editcap -F {form} {quoted(capture)} {new_name(capture, '.whole.' + form.replace('nsec', ''))}")


def unpacked(capture):
    tool = next((program for begins, program in PACKED.items() if head_of(capture).startswith(begins)), None)
    if tool:
        source = f" ({tool} is in Debian's {tool[:-3]})" if tool in ("zstdcat", "lz4cat") and not shutil.which(tool) else ""
        return f"it is compressed{source}: {tool} <{quoted(capture)} >{new_name(capture, '.pcap')}"
    return whole(capture, "it is neither pcap nor pcapng. If Wireshark can read it, convert it")


def merged(capture):
    why = "it has two sections, as two files that were put together have. To make it one"
    return by_wireshark(why, f"mergecap -F pcapng -w {new_name(capture, '.one.pcapng')} {quoted(capture)}")


def in_order(capture):
    why = "a packet has an earlier time than the one before it, and the plan takes no such capture. To sort them"
    return by_wireshark(why, f"reordercap {quoted(capture)} {new_name(capture, '.sorted.pcapng' if head_of(capture) == BLOCKS else '.sorted.pcap')}")


def way_out(reason, capture):
    """What is said of a capture that is refused for a reason, by its number (docs/FORMATS.md)."""
    if reason == 1:
        return "the file has no whole header: it is empty, or was cut off at its beginning"
    if reason == 2:
        return unpacked(capture)
    if reason in (4, 6, 10):
        return whole(capture, "it was cut off, as by an interrupted tcpdump. To keep the packets that are whole")
    if reason in (15, 16):
        return (merged if reason == 15 else in_order)(capture)
    long = {5: "it has a packet of more than 262,144 bytes, and only headers are looked at", 7: "it has more than 1,000,000 packets",
            9: "it is too long, and only the headers of its packets are looked at"}  # fmt: skip
    return shorter(capture, long[reason]) if reason in long else whole(capture, "it breaks the rules of its format. To keep what can be read")
