"""Version 4 of a plan: when packets of a capture came, how often queues are opened after each, and where packets go by their flow; each worked out by hand."""
import struct

from lib import captures, plans, times
from lib.places import Places
from tests.bench import HERE, expect, expect_picture, fault, fault_if, frame, is_equal, room_of, run
from tests.flows import ICMP, PUBLISHED, framed, packet
from tests.made_captures import classic, enhanced, interface, option, section, simple

HERE_AND_THERE = [0, 5000, 10000, 10000, 9999, 40000, 86400000040000]


def plan_of(text):
    root, faults = plans.judge(text.encode())
    fault_if(faults, f"{text!r} is no plan: {faults}")
    return plans.plan_of(root)


def pcapng(order, interfaces, packets):
    """A pcapng capture: the options of its interfaces, and of each packet its interface and its units, or None for a simple packet."""
    data = frame(0, 0, 0)
    options = (b"".join(option(order, *pair) for pair in pairs) for pairs in interfaces)
    found = (simple(order, data) if packet is None else enhanced(order, data, *packet) for packet in packets)
    return captures.Capture(section(order, *(interface(order, 1, given) for given in options), *found))


def test_times_of_captures():
    """Micro- and nanoseconds in both byte orders; powers of ten and of two, an offset, two interfaces, simple packets, and times before 1970."""
    for order in "<>":
        for is_nano, wanted in ((False, [7 * 10**9 + 5000, 3]), (True, [7 * 10**9 + 5, 3])):
            data = bytearray(classic([0, 0], [frame(0, 0, 0)] * 2, order, is_nano))
            data[24:32] = struct.pack(order + "II", 7, 5)
            data[24 + 50 : 32 + 50] = struct.pack(order + "II", 0, 3)
            is_equal(f"times, {order} {is_nano}", list(times.moments_of(captures.Capture(bytes(data)))), [wanted[0], 3 if is_nano else 3000])
        rows = {
            "microseconds where nothing is said": ([[]], [(0, 7), None], [7000, 7000]),
            "powers of ten and of two": ([[(9, b"\x03")], [(9, b"\x8a")]], [(0, 2), (1, 512), (1, 1)], [2000000, 500000000, 976562]),
            "the upper half of a time": ([[(9, b"\x09")]], [(0, 1 << 32 | 5)], [4294967301]),
            "an offset": ([[(9, b"\x00"), (14, struct.pack(order + "q", -3))]], [None, (0, 5), (0, 2)], [0, 2 * 10**9, 0]),
            "an option that comes twice": ([[(9, b"\x09"), (9, b"\x06")]], [(0, 4)], [4]),
            "options behind the end of options": ([[(0, b""), (9, b"\x09")]], [(0, 4)], [4000]),
        }
        for name, (interfaces, packets, wanted) in rows.items():
            is_equal(f"times, {order}, {name}", list(times.moments_of(pcapng(order, interfaces, packets))), wanted)


def test_openings_by_time():
    """The rows of lq_model/src/runs.rt."""
    capture = captures.Capture(classic(HERE_AND_THERE, [frame(0, 0, 0)] * 7, is_nano=True))
    for text, wanted in (("irq_us = 10", [0, 1, 0, 0, 4, 65535, 0]), ("irq_every = 2", [0, 1, 0, 1, 0, 1, 0])):
        places = Places(plan_of(f"version = 4\n{text}\n[[station]]\n"), capture)
        is_equal(text, [places.openings(n) for n in range(7)], wanted)


def test_places_by_flow():
    """A published flow has the hash 0x51ccc178 with its ports, and 0x323e8fc2 without."""
    ends = PUBLISHED[0][:4]
    frames = [framed(packet(*ends)), framed(packet(*ends, protocol=ICMP)), frame(0, 7, 5), frame(0, 7, 5, b"\x08\x06\x45")]
    capture = captures.Capture(classic([0] * 4, frames))
    shape = "[[station]]\nmq = 3\n[[station]]\nqueues = 4\n[[station]]\nmq = 2\n"
    flow, source = Places(plan_of(f'version = 4\nspread = "flow"\nsplit = "flow"\nsenders = 7\n{shape}'), capture), Places(plan_of(f"version = 3\nsenders = 7\n{shape}"), capture)
    # the third frame has a flow of its addresses alone, the fourth none
    wanted = [0x51CCC178, 0x323E8FC2, flow.hashes[2], None]
    is_equal("the hashes", flow.hashes, wanted)
    firsts, many, queues = [0, 3, 4], [3, 1, 2], [1, 4, 1]
    for n, number in enumerate(wanted):
        route, child, own = (number & 0xFFFF, number >> 16, number) if number is not None else (0, 0, 0)
        group = route % 3
        is_equal(f"packet {n} by flow", (flow.stations[n], flow.queues[n], flow.senders[n]), (firsts[group] + child % many[group], child % queues[group], own % 7))
    is_equal("packets by bytes", (list(source.stations), list(source.queues), list(source.senders)), ([5, 5, 4 + 7 % 2, 0], [0, 0, 0, 0], [0, 1, 2, 3]))


def test_swept_by_time():
    """A packet is sent when it comes or when the queue is opened, which stops after each: five come within four microseconds."""
    capture = classic([0, 1000, 2000, 3000, 4000], [frame(0, 0, 0)] * 5, is_nano=True)
    room = room_of("swept", {"c.pcap": capture, "p.toml": "version = 4\nirq_us = 1\n[[station]]\nlen = 1\nburst = 1\n"})
    program = HERE / "tests/by-the-rules"
    said = run(HERE / "sweep", "p.toml", "c.pcap", "irq_us=1..4", "s.csv", "s.svg", "--program", program, cwd=room)
    expect("sweep by time", said, 0, "fewest not sent: 0, first at irq_us=1")
    # with 2, packet 1 leaves the requeue slot at 2 and packet 2 the ring at 4, so packet 3 finds no room; with 3 and 4, packet 2 is in the ring until the end
    rows = [line.split(",")[-6:-1] for line in (room / "s.csv").read_text(encoding="utf-8").splitlines() if ",all," in line]
    is_equal("the sweep by time", [(row[0], row[1]) for row in rows], [("5", "0"), ("4", "1"), ("3", "2"), ("3", "2")])
    expect("sweep by time, both keys", run(HERE / "sweep", "p.toml", "c.pcap", "irq_every=1,2", "s.csv", "--program", program, cwd=room), 1, "it is used in place of `irq_every`")


def test_shown_by_time():
    """Packet 1 leaves at 10 microseconds, packet 2 at 20, and packet 5 after the last one; packet 3 finds packet 2 in its slot."""
    capture = classic([0, 1000, 2000, 3000, 33000, 34000], [frame(0, 0, 0)] * 6, is_nano=True)
    fates = "0 sent 0 0\n1 sent 0 1\n2 sent 0 2\n3 full 2\n4 sent 0 3\n5 sent 0 4\n"
    room = room_of("timed", {"c.pcap": capture, "p.toml": "version = 4\nirq_us = 10\n[[station]]\nlen = 1\nburst = 1\n", "o.fates": fates})
    said = run(HERE / "show-run", "p.toml", "c.pcap", "o", "o.svg", "b.svg", "--table", "o.csv", "--html", "o.html", cwd=room)
    expect("show-run by time", said, 0, " 4 sent while packets came, and 1 after the last packet\n", "  backlog at most 2 pkt; wait 0 pkt (0.000000000 s) in the middle, 2 pkt (0.000018000 s) at most; 1 sent after")
    rows = [line.split(",")[-3:] for line in (room / "o.csv").read_text(encoding="utf-8").splitlines()[1:]]
    is_equal("the waits", rows, [["0", "0.000000000", "false"], ["2", "0.000009000", "false"], ["1", "0.000018000", "false"], ["0", "0.000000000", "false"], ["0", "0.000000000", "false"], ["0", "0.000000000", "true"]])
    expect_picture("show-run by time", room / "o.svg", "seconds after the first packet to the right", ">0.00002</text>")
    # one packet waits from 34 microseconds on, where the picture ends
    expect_picture("the backlog by time", room / "b.svg", "seconds after the first packet to the right", ">0.00002</text>", "L306,", "after the")
    if not all(f'"{name}":' in (room / "o.html").read_text(encoding="utf-8") for name in ("wait", "moment")):
        fault("the page by time: it has no waits, or no moments")
