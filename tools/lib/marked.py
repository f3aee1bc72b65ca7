"""Captures that are made of a capture: with a comment on each packet, as pcapng, where all that was there is kept; and classic ones, of its packets from their
IP headers on, and of what a unit sent, with the times when its frames had left.
"""
import struct
from itertools import repeat

from lib import captures, outputs
from lib.packets import ETHERNET_HEADER, SECOND, header_of_frame
from lib.times import NANOSECONDS, moments_of
from lib.trail import FULL, HANGS, SENT
from lib.waits import microseconds
from lib.words import Failed, Wrong

RAW_IP = 101
SECTION, INTERFACE, SIMPLE, ENHANCED = 0x0A0D0D0A, 1, 3, 6
COMMENT, RESOLUTION, FRAME_CHECK = 1, 9, 13
END_OF_OPTIONS = bytes(4)


def place_words(run):
    """Of each packet what its comment says of its place; the words of places that several packets have are made once."""
    sender, *places = run.places()
    made = {}
    for where in zip(sender, *places) if run.has_units else zip(sender):
        if where not in made:
            names = ["station", "queue", "band"] if run.has_units else ["sender"]
            made[where] = "".join(f", {name} {place}" for name, place in zip(names, where[run.has_units :])).encode()
        yield made[where]


def comments(run, waits, first):
    """A comment for each packet: its fate as OUT.fates has it, its station, queue and band, how long it waited for a card, and whether it left only after the last packet."""
    ends, has_units, kinds = [b"", b", after the last packet"], run.has_units, [kind.encode() for kind in run.KINDS]
    late = map(waits.end.__eq__, waits.left) if waits else repeat(False)
    accepted = waits.accepted if waits else {}
    for n, (kind, name, serial, place, is_late) in enumerate(zip(run.kinds, run.names, run.serials, place_words(run), late)):
        if kind == SENT:
            words = b"sent %d %d" % (name, serial) if has_units else b"read %d" % serial
        elif kind == FULL:
            words = b"full %d" % (name + first)
        else:
            words = kinds[kind] + (b"" if not has_units else b" hung" if name == HANGS else b" %d" % name)
        waited = f", waited {microseconds(waits.time(n))}".encode() if n in accepted else b""
        yield b"lqtx: " + words + place + waited + ends[is_late]


def option(order, number, value):
    return struct.pack(order + "HH", number, len(value)) + value + bytes(-len(value) % 4)


def block(order, kind, body):
    length = struct.pack(order + "I", len(body) + 12)
    return struct.pack(order + "I", kind) + length + body + length


def of_classic(capture, told):
    """The pieces of a pcapng of a classic capture: a section in its byte order, an interface of its link type, length and resolution, and its packets."""
    order, head = capture.order, capture.head[0]
    snap, link = struct.unpack_from(order + "II", head, 16)
    nanoseconds = head[:4] in NANOSECONDS
    options = option(order, RESOLUTION, b"\x09" if nanoseconds else b"\x06")
    if link & 0x04000000:
        # the length of the frame check sequence, in units of 16 bits
        options += option(order, FRAME_CHECK, bytes([2 * (link >> 28)]))
    yield block(order, SECTION, struct.pack(order + "IHHq", 0x1A2B3C4D, 1, 0, -1))
    yield block(order, INTERFACE, struct.pack(order + "HHI", link & 0xFFFF, 0, snap) + options + END_OF_OPTIONS)
    data, unpack, pack = capture.data, struct.Struct(order + "IIII").unpack_from, struct.Struct(order + "IIIIIII").pack
    length_of, ticks = struct.Struct(order + "I").pack, 10**9 if nanoseconds else 10**6
    for at, comment in zip(capture.starts, told):
        seconds, part, captured, length = unpack(data, at)
        time, more = seconds * ticks + part, bytes(-captured % 4) + option(order, COMMENT, comment)
        total = 36 + captured + len(more)
        yield pack(ENHANCED, total, 0, time >> 32, time & 0xFFFFFFFF, captured, length) + data[at + 16 : at + 16 + captured] + more + END_OF_OPTIONS + length_of(total)


def of_blocks(capture, told):
    """The pieces of a pcapng with the comments: they come before the options that a packet has, and all other bytes stay."""
    order, data, place = capture.order, capture.data, 0
    two, pack = struct.Struct(order + "II"), struct.Struct(order + "I").pack
    for at, end, captured, comment in zip(capture.starts, capture.ends, capture.captured, told):
        if two.unpack_from(data, at)[0] != ENHANCED:
            continue
        frame = at + 28 + captured + -captured % 4
        more = option(order, COMMENT, comment) + (data[frame : end - 4] or END_OF_OPTIONS)
        total = frame - at + len(more) + 4
        yield data[place:at] + two.pack(ENHANCED, total) + data[at + 8 : frame] + more + pack(total)
        place = end
    yield data[place:]


def write(file, capture, told):
    """The marked capture; the answer is how many packets have no place for a comment."""
    with outputs.writing(file, "wb") as out:
        out.writelines(of_blocks(capture, told) if capture.is_pcapng() else of_classic(capture, told))
        head, long = struct.unpack_from(capture.order + "I8xq", capture.data, 4) if capture.is_pcapng() else (0, -1)
        if long != -1:
            # the section's header says how long the rest is
            rest = out.tell() - head
            out.seek(16)
            out.write(struct.pack(capture.order + "q", rest))
    kind = struct.Struct(capture.order + "I").unpack_from
    return sum(kind(capture.data, at)[0] == SIMPLE for at in capture.starts) if capture.is_pcapng() else 0


# CLASSIC CAPTURES


def packets_of_ip(capture):
    """The packets from their IP headers on: a frame without one has no bytes there, so numbers and times stay."""
    data = capture.data
    for at, captured, length, link, time in zip(capture.frames, capture.captured, capture.lengths, capture.types, moments_of(capture)):
        found = header_of_frame(data, link & 0xFFFF, at, at + captured)
        start = found[0] - at if found else min(captured, ETHERNET_HEADER)
        packet = data[at + start : at + captured] if found else b""
        yield time, packet, max(length - start, len(packet))


def write_as_ip(file, capture):
    with outputs.writing(file, "wb") as out:
        out.writelines(captures.classic(packets_of_ip(capture), RAW_IP))


def write_retimed(file, run, unit):
    """The capture of a unit over a link; its packets have one link type, as a classic capture has."""
    if not getattr(run, "wire", None):
        raise Failed(f"{file} isn't written: when frames left is known over a link alone, with one sender")
    if unit != "0":
        raise Wrong(f"--retimed {unit}: a link has unit 0 alone")
    of, flights, rate_kbit, links = run.capture, run.wire.flights, run.wire.card.rate_kbit, set(run.capture.types)
    if len(links) > 1:
        raise Failed(f"{file} isn't written: the capture has link types {', '.join(map(str, sorted(links)))}, and this one has one")
    if flights and flights[-1].ends // rate_kbit >= SECOND << 32:
        raise Failed(f"{file} isn't written: it has no times after the year 2106")
    places = ((flight.ends // rate_kbit, flight.number, of.frames[flight.number]) for flight in flights)
    packets = ((time, of.data[at : at + of.captured[n]], of.lengths[n]) for time, n, at in places)
    with outputs.writing(file, "wb") as out:
        out.writelines(captures.classic(packets, min(links, default=1)))
