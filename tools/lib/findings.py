"""What is to be known of a capture before an answer is believed: each finding with its number, and the command that mends it.

    findings.tell("lqtx", capture, plan)

says them on standard error. A plan says what is looked at of a packet; without one it may be all. What isn't a regular file is left alone, since it
can be read only once: who has read it already gives the capture.
"""
import os
import shutil
import stat
from collections import Counter
from functools import cached_property
from itertools import accumulate
from math import inf
from operator import gt, lt
from typing import NamedTuple

from lib import captures, flow_hash, plans, ways_out
from lib.times import moments_of
from lib.wire import bytes_of_wire, frame_lengths
from lib.words import Failed, counted, say

# reasons for which a capture is refused that is read here (docs/FORMATS.md), and the most that the program reads
LONG_RECORD, TOO_MANY, TOO_LONG = 5, 7, 9
MOST_BYTES, MOST_PACKETS, LONGEST = 67_108_864, 1_000_000, 262_144
# the packages of Debian that have the programs of the commands
PACKAGES = {"editcap": "wireshark-common", "reordercap": "wireshark-common", "tshark": "tshark", "tcpdump": "tcpdump"}
ETHERNET, RAW_IP, COOKED, COOKED_2 = 1, 101, 113, 276
IPV4, IPV6, TAG = captures.IPV4, flow_hash.IPV6, captures.TAG
TAGS = (TAG, b"\x88\xa8", b"\x91\x00")
ENCAPSULATED = {b"\x88\x64": "PPPoE", b"\x88\x47": "MPLS", b"\x88\x48": "MPLS"}
# where a capture of `tcpdump -i any` says who sent a packet, and what it says of the host's own
SENT_AT, SENT = {COOKED: 0, COOKED_2: 10}, {COOKED: b"\0\4", COOKED_2: b"\4"}
# blocks of pcapng that are read; those that have no packet; and what others are called
READ, WITHOUT_PACKET = {0x0A0D0D0A, 1, 3, 6}, {4, 5, 10, 0xBAD, 0x40000BAD}
BLOCKS = {2: "packet blocks of the old kind (type 2)"}
# the least share of packets that go back for both directions to be said
BOTH = 0.01
# a capture seems to be of the link itself if among stretches of so many packets none is quicker than this share of its rate, and so many are as quick as that
STRETCH, QUICK, NEARLY, OFTEN = 100, 1.1, 0.9, 0.02
# a frame of Ethernet with two tags and 1,500 bytes
LONG_FRAME = 1522
# an EtherType of IPv4, and a header of 20 bytes behind it
USUAL = IPV4 + b"\x45"


class Finding(NamedTuple):
    """What is so of a capture, the command that mends it, if there is one, and whether `lqtx` refuses the capture for it."""

    said: str
    mend: str = ""
    is_refused: bool = False

    def __str__(self):
        program = self.mend.partition(" ")[0]
        source = f" ({program} is in Debian's {PACKAGES[program]})" if program in PACKAGES and not shutil.which(program) else ""
        return self.said + source + (f": {self.mend}" if self.mend else "")


def share(count, total):
    """So many of all, in words."""
    return f"{count:,} of {total:,} packets ({'below 1%' if 100 * count < total else f'{count / total:.0%}'})"


class Seen:
    """The packets of a capture: where their frames begin, how many bytes are captured, and their link types; a million of them are common."""

    def __init__(self, name, capture, plan):
        self.name, self.capture, self.plan, self.data, self.count = name, capture, plan, capture.data, len(capture)
        self.frames, self.captured, self.links = capture.frames, capture.captured, capture.types
        self.word = ways_out.quoted(f"./{name}" if str(name).startswith("-") else str(name))
        # the format in which editcap keeps its times
        self.form = "pcapng" if capture.is_pcapng() else "nsecpcap" if capture.data[:4] in ways_out.NANOSECONDS else "pcap"
        self.ending = ".pcapng" if capture.is_pcapng() else ".pcap"

    def new_name(self, ending):
        return ways_out.new_name(str(self.name), ending)

    def heads(self, link, size):
        """The first bytes of each frame of a link type that has so many."""
        data = self.data
        if link not in self.capture.links:
            return []
        if len(set(self.capture.links)) == 1 and min(self.captured) >= size:
            return (data[at : at + size] for at in self.frames)
        return (data[at : at + size] for at, captured, own in zip(self.frames, self.captured, self.links) if own == link and captured >= size)

    @cached_property
    def times(self):
        return list(moments_of(self.capture))

    card = property(lambda self: self.plan and self.plan.station[0].card)

    def looks_at_times(self):
        return self.plan is None or self.plan.by_time

    def looks_at_flows(self):
        return self.plan is None or "flow" in (self.plan.spread, self.plan.split)


def times_that_go_back(seen):
    if not seen.looks_at_times():
        return
    times = seen.times
    back = sum(map(gt, times, times[1:]))
    if back:
        most, is_refused = max(a - b for a, b in zip(times, times[1:])), bool(seen.plan and seen.plan.wants_order)
        so = "a link takes no such capture" if seen.card or not seen.plan else "the plan takes no such capture" if is_refused else "the queues are then opened too often"
        said = f"{share(back, seen.count)} have an earlier time than the one before, by up to {most / 10**6:.6g} ms: {so}"
        yield Finding(f"{said}. To sort them", f"reordercap {seen.word} {seen.new_name('.sorted' + seen.ending)}", is_refused)


def rates_of(times, octets):
    """How many bits a millisecond come in each stretch of packets: endlessly many where they come at once."""
    sums = list(accumulate(octets, initial=0))
    for few, many, early, late in zip(sums, sums[STRETCH:], times, times[STRETCH:]):
        yield (many - few) * 8 * 10**6 / (late - early) if late > early else inf


def behind_the_queue(seen):
    """A capture of the link itself is as quick as the link where that is busy, and hardly quicker."""
    rate = seen.card.rate_kbit if seen.card else 0
    # a shaper counts the bytes of a frame alone
    if seen.count <= STRETCH or not rate or any(speed > QUICK * rate for speed in rates_of(seen.times, seen.capture.lengths)):
        return
    full = list(rates_of(seen.times, [bytes_of_wire(seen.card, length) for length in frame_lengths(seen.capture)]))
    busy = sum(speed >= NEARLY * rate for speed in full)
    if busy >= OFTEN * len(full):
        said = f"no {STRETCH} packets in a row are quicker than the link, and {busy / len(full):.0%} of such nearly as quick: it seems to be taken on the link itself, behind its queue"
        yield Finding(f"{said}. What was dropped isn't in it, and 0 dropped is then no answer. To capture what comes to the queue", f"tcpdump -i INTERFACE -Q in -w {seen.new_name('.in.pcap')}")


def long_frames(seen):
    """Frames that offloads put together, which a link sends as several."""
    long = sum(length > LONG_FRAME for length in seen.capture.lengths) if seen.card else 0
    if long:
        said = f"{share(long, seen.count)} have more than {LONG_FRAME:,} bytes, up to {max(seen.capture.lengths):,}: each counts as one frame. If offloads put them together, capture without these"
        yield Finding(said, "ethtool -K INTERFACE tso off gso off gro off")


# DIRECTIONS AND INTERFACES

BOTH_WAYS, ONE_WAY = "both directions are in it", "A device sends one direction"


def only(seen, condition, ending):
    """The packets of a condition alone, in a file of their own."""
    return f"tshark -r {seen.word} -Y '{condition}' -w {seen.new_name(ending + '.pcapng')}"


def both_ways(pairs):
    """Of pairs of a source and a destination: how many packets go the way that fewer go, and who sends and gets most of such."""
    least, by = 0, Counter()
    for (source, destination), count in pairs.items():
        back = pairs.get((destination, source), 0)
        if back and source < destination:
            least += min(count, back)
            by[source] += min(count, back)
            by[destination] += min(count, back)
    return least, by


def directions_of_ethernet(seen):
    pairs = Counter()
    for head, count in Counter(seen.heads(ETHERNET, 12)).items():
        # a loopback device has one address, and what goes to a group comes back from nobody
        if head[:6] != head[6:] and not head[0] & 1:
            pairs[head[6:], head[:6]] += count
    least, by = both_ways(pairs)
    if least >= max(1, BOTH * seen.count):
        host = max(by, key=lambda address: (by[address], sum(count for (source, _), count in pairs.items() if source == address)))
        sent, got = (sum(count for pair, count in pairs.items() if pair[at] == host) for at in (0, 1))
        address = host.hex(":")
        each = f"{counted(sent, 'packet comes', 'packets come')} from {address}, and {counted(got, 'goes', 'go')} to it"
        yield Finding(f"{BOTH_WAYS}: {each}. {ONE_WAY}. To keep what it sent (with eth.dst what it got)", only(seen, f"eth.src == {address}", ".sent"))


def directions_of_cooked(seen, link):
    at, own = SENT_AT[link], SENT[link]
    ways = Counter(head[at : at + len(own)] == own for head in seen.heads(link, at + len(own)))
    if min(ways[True], ways[False]) >= max(1, BOTH * seen.count):
        each = f"the host sent {counted(ways[True], 'packet', 'packets')} and got {ways[False]:,}"
        yield Finding(f"{BOTH_WAYS}: {each}. {ONE_WAY}. To keep what was sent (with != what was got)", only(seen, "sll.pkttype == 4", ".sent"))


def directions_of_raw_ip(seen):
    pairs = Counter((head[12:16], head[16:20]) for head in seen.heads(RAW_IP, 20) if head[0] >> 4 == 4 and head[12] != 127 and head[12:16] != head[16:20])
    least, _ = both_ways(pairs)
    if least >= max(1, BOTH * seen.count):
        each = f"{counted(least, 'packet goes', 'packets go')} back between addresses that others come from"
        yield Finding(f"{BOTH_WAYS}: {each}. {ONE_WAY}. To capture what comes in alone", f"tcpdump -i INTERFACE -Q in -w {seen.new_name('.in.pcap')}")


def directions(seen):
    yield from directions_of_ethernet(seen)
    yield from directions_of_raw_ip(seen)
    for link in SENT_AT:
        yield from directions_of_cooked(seen, link)


def interfaces(seen):
    capture = seen.capture
    if not capture.is_pcapng() or len(capture.links) < 2:
        return
    counts = Counter(capture.interfaces)
    if len(counts) > 1:
        each = ", ".join(f"{counts[interface]:,} of interface {interface}" for interface in sorted(counts))
        most = max(counts, key=lambda interface: counts[interface])
        said = f"packets of {len(counts)} interfaces are in it ({each}), and a packet that was forwarded may be in it twice. To keep those of one"
        yield Finding(said, only(seen, f"frame.interface_id == {most}", f".{most}"))


# WHAT ISN'T READ


def blocks_left_out(seen):
    capture = seen.capture
    if not capture.is_pcapng() or sum(capture.ends) - sum(capture.starts) + sum(map(len, capture.head)) == len(seen.data):
        return
    kinds = Counter(kind for kind, *_ in ways_out.blocks_of(seen.data))
    for kind in sorted(set(kinds) - READ - WITHOUT_PACKET):
        name = BLOCKS.get(kind, f"blocks of type {kind:#x}")
        said = f"{kinds[kind]:,} {name} aren't read, and Wireshark shows such as packets"
        if kind in BLOCKS:
            yield Finding(f"{said}: {seen.count:,} of {seen.count + kinds[kind]:,} are read. To have them read", f"editcap -F pcapng {seen.word} {seen.new_name('.whole.pcapng')}")
        else:
            yield Finding(said)


def name_of_ethernet(head):
    """What a frame is whose IPv4 header isn't found, by its first 18 bytes; nothing of what has no such header, or one of IPv6 where it is looked for."""
    kind, behind = head[12:14], head[16:18]
    if kind in TAGS and (behind in TAGS or kind != TAG):
        return "two tags (QinQ)" if behind in TAGS else f"a tag of type {kind.hex()} (802.1ad)"
    return ENCAPSULATED.get(behind if kind == TAG else kind)


def name_of_link(link):
    """What frames of a link type are whose headers aren't found."""
    if link & 0xFFFF == ETHERNET:
        return f"Ethernet whose link type has bits for an FCS ({link:#x})"
    return {COOKED: "Linux cooked (SLL), as of tcpdump -i any", COOKED_2: "Linux cooked (SLL2), as of tcpdump -i any"}.get(link, f"link type {link}")


def names_of_frames(seen):
    """How many frames are of each kind whose IPv4 header isn't found."""
    found = Counter()
    for link, count in Counter(seen.links).items():
        if link == ETHERNET:
            for kind, many in Counter(head[12:18] if head[12:14] in TAGS else head[12:14] for head in seen.heads(link, 18)).items():
                name = name_of_ethernet(bytes(12) + kind)
                if name:
                    found[name] += many
        elif link != RAW_IP:
            found[name_of_link(link)] += count
    return found


def frames_without_class(seen):
    if not seen.capture.without_header:
        return
    for name, count in names_of_frames(seen).most_common():
        have = "have" if "tag" in name else "are"
        said = f"{share(count, seen.count)} {have} {name}: no IPv4 header is looked for in them, so all have band 1 and go to station 0"
        if "FCS" in name:
            yield Finding(f"{said}. To leave the FCS out", f"editcap -F {seen.form} -C -4 -L {seen.word} {seen.new_name('.ether' + seen.ending)}")
        else:
            yield Finding(f"{said}. To keep each packet from its IP header on", f"tools/check-capture {seen.word} --ip {seen.new_name('.ip.pcap')}")


# FRAMES THAT ARE CUT


def end_of_header(frame, link):
    """Where the header ends by which a frame has its band, as far as that can be seen: nothing behind it is looked at."""
    if link == RAW_IP:
        return 20
    if link != ETHERNET:
        return 0
    at = 18 if frame[12:14] == TAG else 14
    return at if len(frame) < at else at + 20 if frame[at - 2 : at] == IPV4 else at


def end_of_flow(frame, link):
    """Where what is hashed of a frame ends."""
    start = flow_hash.start_of(frame, link, IPV4)
    if start is not None and frame[start : start + 1] and frame[start] >> 4 == 4:
        if len(frame) < start + 20:
            return start + 20
        has_ports = frame[start + 9] in (flow_hash.TCP, flow_hash.UDP) and not int.from_bytes(frame[start + 6 : start + 8], "big") & 0x3FFF
        return start + frame[start] % 16 * 4 + 4 if has_ports and frame[start] % 16 > 4 else start + 20
    start = flow_hash.start_of(frame, link, IPV6)
    if start is None or not frame[start : start + 1] or frame[start] >> 4 != 6:
        return end_of_header(frame, link)
    return start + (44 if frame[start + 6 : start + 7] in (b"\6", b"\x11") else 40)


def cut_before(seen, end_of, most):
    """How many frames are cut before what is looked at: it isn't captured, and it was on the wire. Behind `most` bytes nothing is looked at."""
    found, data = 0, seen.data
    for at, captured, length, link in zip(seen.frames, seen.captured, seen.capture.lengths, seen.links):
        # of a frame of Ethernet with the usual header of IPv4 it can be seen at once
        if captured < most and captured < length and not (captured >= 38 and link == ETHERNET and data[at + 12 : at + 15] == USUAL):
            found += captured < min(length, end_of(data[at : at + captured], link))
    return found


def cut_frames(seen):
    if not sum(map(lt, seen.captured, seen.capture.lengths)):
        return
    kept = ways_out.LOOKED_AT
    mend = f"Cut at {kept} bytes or more (tcpdump -s {kept}, editcap -s {kept})"
    header = cut_before(seen, end_of_header, 38)
    if header:
        yield Finding(f"{share(header, seen.count)} are cut before the end of the header that says their band. {mend}")
    flow = cut_before(seen, end_of_flow, 82) if seen.looks_at_flows() else 0
    if flow > header:
        which = '"flow"' if seen.plan else 'a plan with "flow"'
        yield Finding(f"{share(flow, seen.count)} are cut before the end of their addresses and ports, by which {which} places them. {mend}")


PARTS = [times_that_go_back, behind_the_queue, long_frames, directions, interfaces, blocks_left_out, frames_without_class, cut_frames]


# A FILE


def plan_at(file):
    """The plan of a file, if it is one; a plan itself."""
    if file is None or isinstance(file, plans.Plan):
        return file
    with open(file, "rb") as stream:
        root, faults = plans.judge(stream.read(65537))
    return None if faults else plans.plan_of(root)


def begins_as_capture(file):
    head = ways_out.head_of(file)
    return head == ways_out.BLOCKS or head in ways_out.NANOSECONDS + ways_out.CLASSIC


def exchanged(plan, name):
    """That the plan is a capture and the capture is none; nothing where it isn't so, or can't be seen."""
    if all(map(can_be_read_again, (plan, name))) and begins_as_capture(plan) and not begins_as_capture(name):
        return f"the plan {plan} is a capture, and the capture {name} is none: they are exchanged"
    return ""


def refuse_exchanged(plan, name):
    """Fails where a plan and a capture are exchanged."""
    said = exchanged(plan, name)
    if said:
        raise Failed(said)


def of_readable(name, capture, plan):
    """What is found of a capture that is read."""
    seen = Seen(name, capture, plan)
    reason = TOO_MANY if seen.count > MOST_PACKETS else LONG_RECORD if max(seen.captured, default=0) > LONGEST else None
    if reason:
        yield Finding(ways_out.way_out(reason, str(name)), "", True)
    for part in PARTS if seen.count else []:
        yield from part(seen)


def of(name, plan=None, capture=None):
    """What is found of a capture; the plan is a file or a plan, and the capture what was read of the file, where it was."""
    if str(name) == "-":
        return [Finding(captures.STANDARD_INPUT, "", True)]
    if isinstance(plan, (str, os.PathLike)) and exchanged(plan, name):
        return [Finding(exchanged(plan, name), "", True)]
    if capture is None:
        with open(name, "rb") as file:
            data = file.read(MOST_BYTES + 1)
        if len(data) > MOST_BYTES:
            return [Finding(ways_out.way_out(TOO_LONG, str(name)), "", True)]
        try:
            capture = captures.Capture(data)
        except captures.Broken as fault:
            return [Finding(captures.way_out_of(name, fault), "", True)]
    return list(of_readable(name, capture, plan_at(plan)))


def can_be_read_again(name):
    """Whether a file is one that reading doesn't empty."""
    try:
        return stat.S_ISREG(os.stat(name).st_mode)
    except (OSError, ValueError):
        return False


def found_of(name, plan=None, capture=None):
    """What is found of a capture; nothing of what can't be read, or read once alone: that is left to who reads it."""
    read = [name] if capture is None and str(name) != "-" else []
    if not all(map(can_be_read_again, read + [plan] * isinstance(plan, (str, os.PathLike)))):
        return []
    try:
        return of(name, plan, capture)
    except (OSError, Failed):
        return []


def tell(tool, name, plan=None, capture=None):
    """Says on standard error what is found of a capture; whether `lqtx` refuses it for that."""
    found = found_of(name, plan, capture)
    for finding in found:
        say(tool, f"{name}: {finding}")
    return any(finding.is_refused for finding in found)
