"""What is found of a capture, and that the command that is said mends it: each is run where its program is there."""
import bz2
import contextlib
import gzip
import io
import lzma
import os
import re
import shutil
import struct
import subprocess

from lib import captures, findings
from tests.bench import HERE, ROOM, TOP, expect, expect_none, fates_of, fault, is_equal, room_of, run, write
from tests import wireshark
from tests.flows import ICMP, UDP, packet
from tests.made_captures import block, classic, enhanced, interface, padded, section

START = 1_700_000_000 * 10**9
HERE_MAC, THERE_MAC, GROUP = b"\2\0\0\0\0\1", b"\2\0\0\0\0\2", b"\1\0\x5e\0\0\1"
UDP_PACKET = packet("10.0.0.1", 9, "10.0.1.6", 80, UDP)
WITH_OPTIONS = b"\x4f" + UDP_PACKET[1:20] + b"\1" * 40 + UDP_PACKET[20:]
IPV6_PACKET = packet("fe80::1", 9, "fe80::6", 80, UDP)
FLOW = 'version = 4\nspread = "flow"\n[[station]]\nmq = 4\n'
BY_TIME, BY_COUNT = "version = 4\nirq_us = 10\n[[station]]\n", "[[station]]\n"


def ether(data, head=b"\x08\x00", source=HERE_MAC, to=THERE_MAC):
    return to + source + head + data


IPV4_FRAME = ether(UDP_PACKET)


def at_once(frames, link=1, step=1000):
    return classic([START + step * number for number in range(len(frames))], frames, link=link)


def cut(frame, captured, length=1500, link=1):
    """A capture of one frame that is cut."""
    return at_once([frame[:captured]], link)[:36] + struct.pack("<I", length) + frame[:captured]


def of_old_kind(order, frame, time=0):
    return block(order, 2, struct.pack(order + "HHIIII", 0, 0, time >> 32, time & 0xFFFFFFFF, len(frame), len(frame)) + padded(frame))


def cooked(way, data=UDP_PACKET):
    return bytes([0, way, 0, 1, 0, 6]) + HERE_MAC + b"\0\0\x08\0" + data


def cooked_2(way, data=UDP_PACKET):
    return b"\x08\0\0\0\0\0\0\1\0\1" + bytes([way, 6]) + HERE_MAC + b"\0\0" + data


ONE_SECTION = section("<", interface("<"), enhanced("<", IPV4_FRAME, time=5), enhanced("<", IPV4_FRAME, time=9))
BOTH_WAYS = [ether(UDP_PACKET)] * 3 + [ether(UDP_PACKET, source=THERE_MAC, to=HERE_MAC)] * 2
# of each capture its name, its bytes, a plan or none, what is said of it, and how many packets what its command makes has: None where there is no command
FOUND = [
    ("back", classic([START, START + 50_000, START + 20_000], [IPV4_FRAME] * 3), BY_TIME, ["1 of 3 packets (33%) have an earlier time", "up to 0.03 ms: the queues are then opened too often", ": reordercap "], 3),
    ("both", at_once(BOTH_WAYS), None, ["3 packets come from 02:00:00:00:00:01, and 2 go to it", "eth.src == 02:00:00:00:00:01"], 3),
    ("both-cooked", at_once([cooked(4), cooked(0)], 113), None, ["the host sent 1 packet and got 1", "sll.pkttype == 4"], 1),
    ("both-cooked-2", at_once([cooked_2(4), cooked_2(4), cooked_2(0)], 276), None, ["the host sent 2 packets and got 1"], 2),
    ("both-raw", at_once([UDP_PACKET, packet("10.0.1.6", 80, "10.0.0.1", 9, UDP)], 101), None, ["1 packet goes back between addresses", "-Q in"], None),
    ("interfaces", section("<", interface("<"), interface("<"), *(enhanced("<", IPV4_FRAME, at, n) for n, at in enumerate([0, 1, 1]))), None,
     ["packets of 2 interfaces", "1 of interface 0, 2 of interface 1", "frame.interface_id == 1"], 2),
    ("old", section("<", interface("<"), of_old_kind("<", IPV4_FRAME, 5), enhanced("<", IPV4_FRAME, time=9)), None, ["1 packet blocks of the old kind (type 2) aren't read", "1 of 2 are read", ": editcap "], 2),
    ("journal", ONE_SECTION + block("<", 9, b"A=B\n"), None, ["1 blocks of type 0x9 aren't read"], None),
    ("sections", ONE_SECTION + section("<", interface("<"), enhanced("<", IPV4_FRAME, time=12)), None, ["two sections", ": mergecap "], 3),
    ("other-order", ONE_SECTION + section(">", interface(">"), enhanced(">", IPV4_FRAME, time=12)), None, ["two sections", ": mergecap "], 3),
    ("cooked", at_once([cooked(4)] * 3, 113), None, ["3 of 3 packets (100%) are Linux cooked (SLL)", "band 1 and go to station 0", " --ip "], 3),
    ("cooked-2", at_once([cooked_2(4)] * 3, 276), None, ["3 of 3 packets (100%) are Linux cooked (SLL2)", " --ip "], 3),
    ("88a8", at_once([IPV4_FRAME, ether(UDP_PACKET, b"\x88\xa8\0\5\x08\0")]), None, ["1 of 2 packets (50%) have a tag of type 88a8", " --ip "], 2),
    ("qinq", at_once([IPV4_FRAME, ether(UDP_PACKET, b"\x88\xa8\0\5\x81\0\0\6\x08\0"), ether(UDP_PACKET, b"\x81\0\0\5\x81\0\0\6\x08\0")]), None, ["2 of 3 packets (67%) have two tags (QinQ)", " --ip "], 3),
    ("pppoe", at_once([IPV4_FRAME] * 3 + [ether(b"\x11\0\0\5\0\x1e\0\x21" + UDP_PACKET, b"\x88\x64")]), None, ["1 of 4 packets (25%) are PPPoE", " --ip "], 4),
    ("mpls", at_once([ether(b"\0\1\0\x40\0\1\1\x40" + UDP_PACKET, b"\x88\x47")]), None, ["1 of 1 packets (100%) are MPLS", " --ip "], 1),
    ("fcs", at_once([IPV4_FRAME + b"\1\2\3\4"] * 2, 0x14000001), None, ["2 of 2 packets (100%) are Ethernet whose link type has bits for an FCS (0x14000001)", "editcap -F pcap -C -4 -L "], 2),
    ("cut-header", cut(IPV4_FRAME, 33), BY_COUNT, ["1 of 1 packets (100%) are cut before the end of the header"], None),
    ("cut-tag", cut(ether(UDP_PACKET, TAG := b"\x81\0\0\5\x08\0"), 37), BY_COUNT, ["cut before the end of the header"], None),
    ("cut-ports", cut(IPV4_FRAME, 37), FLOW, ["1 of 1 packets (100%) are cut before the end of their addresses and ports"], None),
    ("cut-options", cut(ether(WITH_OPTIONS, TAG), 81), FLOW, ["cut before the end of their addresses and ports"], None),
    ("cut-ipv6", cut(ether(IPV6_PACKET, b"\x86\xdd"), 57), FLOW, ["cut before the end of their addresses and ports"], None),
    ("cut-off", at_once([IPV4_FRAME] * 3)[:-5], None, ["a record is cut off", "interrupted tcpdump", ": editcap "], 2),
    ("cut-block", ONE_SECTION[:-5], None, ["a block is cut off", ": editcap "], 1),
    ("empty", b"", None, ["no whole header"], None),
    ("text", b"no capture of any kind, and long enough for a header", None, ["neither pcap nor pcapng"], None),
    ("gz", gzip.compress(at_once([IPV4_FRAME])), None, ["compressed: zcat <"], 1),
    ("xz", lzma.compress(at_once([IPV4_FRAME])), None, ["compressed: xzcat <"], 1),
    ("bz2", bz2.compress(at_once([IPV4_FRAME])), None, ["compressed: bzcat <"], 1),
]
# those that only a program compresses, where it is there
for tool in ("zstd", "lz4"):
    if shutil.which(tool):
        made = subprocess.run([tool, "-q", "-c"], input=at_once([IPV4_FRAME]), stdout=subprocess.PIPE, check=True).stdout
        FOUND.append((tool, made, None, [f"compressed: {tool}cat <"], 1))
# captures, and plans, of which nothing is to be said
CLEAN = [
    ("times that don't count", classic([START, START + 50_000, START + 20_000], [IPV4_FRAME] * 3), BY_COUNT),
    ("a loopback device", at_once([ether(UDP_PACKET, source=bytes(6), to=bytes(6))] * 9), None),
    ("a group", at_once([ether(UDP_PACKET, to=GROUP), ether(UDP_PACKET, source=THERE_MAC, to=GROUP)]), None),
    ("one of 200 goes back", at_once([IPV4_FRAME] * 199 + [ether(UDP_PACKET, source=THERE_MAC, to=HERE_MAC)]), None),
    ("a host's own", at_once([IPV4_FRAME, ether(UDP_PACKET, source=b"\2\0\0\0\0\3"), ether(IPV6_PACKET, b"\x86\xdd"), ether(b"\0\1" + bytes(26), b"\x08\6")]), FLOW),
    ("a tag", at_once([ether(UDP_PACKET, TAG)]), FLOW),
    ("cut behind the ports", cut(IPV4_FRAME, 38), FLOW),
    ("cut behind the ports, of options", cut(ether(WITH_OPTIONS, TAG), 82), FLOW),
    ("cut behind the ports, of IPv6", cut(ether(IPV6_PACKET, b"\x86\xdd"), 58), FLOW),
    ("cut before ports that don't count", cut(IPV4_FRAME, 34), BY_TIME),
    ("cut, without ports", cut(ether(packet("10.0.0.1", 9, "10.0.1.1", 80, ICMP)), 34), FLOW),
    ("no packets", at_once([]), None),
]


def mended(room, command, said):
    """The file that a command makes; None where its program isn't here."""
    program = command.partition(" ")[0]
    if not shutil.which(program) and "/" not in program:
        return None
    done = subprocess.run(command.replace("tools/", f"{HERE}/"), shell=True, cwd=room, capture_output=True, text=True, timeout=100)
    made = re.search(r">(\S+)$|-w (\S+)|(\S+)$", command)
    file = room / next(group for group in made.groups() if group)
    if done.returncode or not file.exists():
        fault(f"{said}: {command}: ends with {done.returncode}: {done.stderr[-300:]}")
        return None
    return file


def try_found(name, data, plan, parts, count):
    room = room_of(f"found-{name}", {f"{name}.cap": data, "p.toml": plan or ""})
    said = run(HERE / "check-capture", f"{name}.cap", *["p.toml"] * bool(plan), cwd=room)
    expect(f"check-capture, {name}", said, 4 if name in ("sections", "other-order", "cut-off", "cut-block", "empty", "text", "gz", "xz", "bz2", "zstd", "lz4") else 1, *parts)
    line = next((line for line in said[1].splitlines() if parts[0] in line), "")
    command = re.search(r": ((?:editcap|reordercap|mergecap|tshark|zcat|xzcat|bzcat|zstdcat|lz4cat|tools/check-capture) .*)", line)
    if count is None:
        return
    made = mended(room, command[1], name) if command else fault(f"check-capture, {name}: says no command: {line}")
    if made:
        expect_none(f"{name}, mended", run(HERE / "check-capture", made, *["p.toml"] * bool(plan), cwd=room), *parts[:1])
        is_equal(f"{name}, mended: packets", len(captures.read(made)), count)
        expect(f"{name}, mended once more", run(HERE / "check-capture", f"{name}.cap", cwd=room), said[0])
        is_equal(f"{name}: kept as it was", (room / f"{name}.cap").read_bytes() == data, True)


def test_findings_of_captures():
    for row in FOUND:
        try_found(*row)


def test_nothing_to_be_said():
    for name, data, plan in CLEAN:
        room = room_of("nothing-found", {"c.pcap": data, "p.toml": plan or ""})
        expect(f"check-capture, {name}", run(HERE / "check-capture", "c.pcap", *["p.toml"] * bool(plan), cwd=room), 0, "nothing is found")


def test_packets_by_ip_headers():
    """Of each encapsulation the same packets, with their classes; a frame without an IP header keeps its number."""
    plain = ether(UDP_PACKET), ether(b"\0\1" + bytes(26), b"\x08\6")
    (ROOM / "by-ip.pcap").write_bytes(at_once([*plain, ether(b"\x11\0\0\5\0\x1e\0\x21" + UDP_PACKET, b"\x88\x64"), ether(UDP_PACKET, b"\x88\xa8\0\5\x81\0\0\6\x08\0"), ether(b"\0\1\0\x40\0\1\1\x40" + UDP_PACKET, b"\x88\x47")]))
    expect("check-capture --ip", run(HERE / "check-capture", "by-ip.pcap", "--ip", "ip.pcap", cwd=ROOM), 0)
    made = captures.read(ROOM / "ip.pcap")
    is_equal("by IP headers: links, routes, lengths", (made.links, list(made.routes), list(made.lengths)), ([101], [6, 0, 6, 6, 6], [len(UDP_PACKET), 28] + [len(UDP_PACKET)] * 3))


def test_exchanged_and_piped():
    plan, capture = TOP / "examples/drops.toml", TOP / "examples/loopback.pcap"
    expect("check-capture, exchanged", run(HERE / "check-capture", plan, capture), 4, "they are exchanged")
    expect("show-run, exchanged", run(HERE / "show-run", capture, plan, ROOM / "o"), 1, "they are exchanged")
    expect("sweep, exchanged", run(HERE / "sweep", capture, plan, "irq_every=1..2", ROOM / "o.csv"), 1, "they are exchanged")
    expect("check-capture, a dash", run(HERE / "check-capture", "-"), 4, "/dev/stdin", "cat >capture.pcap")
    expect("at-rate, a dash", run(HERE / "at-rate", "-", "10mbit"), 1, "/dev/stdin")
    expect("check-capture, no file", run(HERE / "check-capture", ROOM / "none"), 1, "No such file")
    with open(capture, "rb") as file:
        said = subprocess.run([HERE / "check-capture", "/dev/stdin"], stdin=file, capture_output=True, text=True)
    is_equal("check-capture of standard input", said.stdout, "/dev/stdin: nothing is found\n")


def test_tools_say_what_is_found():
    """Those that run a plan, or make one, say it on standard error, and print what they print without it."""
    frames, said = [ether(UDP_PACKET, head) for head in (b"\x08\x00", b"\x88\xa8\0\5\x08\0")] * 2, "2 of 4 packets (50%) have a tag of type 88a8"
    room = room_of("told", {"c.pcap": classic([START, START + 9000, START + 3000, START + 9000], frames), "p.toml": BY_TIME,
                           "program": '#!/bin/sh\ncp o.fates "$4.fates"\n'})
    write(room / "o.fates", fates_of({"version": 4, "irq_us": 10, "station": [{}]}, room / "c.pcap"))
    for tool, words in (("at-rate", ["c.pcap", "10mbit"]), ("show-run", ["p.toml", "c.pcap", "o"]), ("sweep", ["p.toml", "c.pcap", "irq_us=10..11", "o.csv", "--program", "./program"])):
        told = run(HERE / tool, *words, cwd=room)
        for part in (said, "1 of 4 packets (25%) have an earlier time", "reordercap c.pcap c.sorted.pcap"):
            is_equal(f"{tool}: on standard error {part}", part in told[2] and part not in told[1], True)


def test_said_as_another_tool():
    """A file that is read once, as a pipe, is left to the program."""
    both = room_of("as", {"c.pcap": at_once(BOTH_WAYS)}) / "c.pcap"
    os.mkfifo(both.parent / "pipe")
    found = f"lqtx: {both}: both directions are in it"
    for name, plan, said in ((both, TOP / "examples/drops.toml", found), (both, None, found), (TOP / "examples/loopback.pcap", None, ""),
                            (both.parent / "none", None, ""), (both.parent / "pipe", None, "")):
        with contextlib.redirect_stderr(io.StringIO()) as told:
            is_equal(f"{name} is refused", findings.tell("lqtx", name, plan), False)
        is_equal(f"what is found of {name}", said in told.getvalue() and bool(told.getvalue()) == bool(said), True)


SMALL = at_once([IPV4_FRAME] * 3)
LARGE = bytes(260_000)


def refused_captures():
    """Captures that are refused, each with a name that a shell takes apart unless it is quoted, and with a part of what is said."""
    head = at_once([])
    yield "many.pcap", head + (bytes(12) + b"\x3c\0\0\0") * (findings.MOST_PACKETS + 1), "more than 1,000,000 packets"
    parts = "each of which begins with empty rings: editcap -F pcap -s 96 -c 500000 'it'\\''s long.pcap' 'it'\\''s long.short.pcap'"
    yield "it's long.pcap", head + at_once([bytes(60)])[24:] * (findings.MOST_PACKETS + 1), parts
    yield "nano $(touch oops).pcap", classic([START + 1] * 260, [LARGE] * 260, ">", True), "it is too long, .*editcap -F nsecpcap "
    yield "big.pcapng", section("<", interface("<"), *[enhanced("<", LARGE)] * 260), "it is too long, .*editcap -F nsecpcap "
    yield "two links.pcapng", section("<", interface("<"), interface("<", 101), *[enhanced("<", LARGE, 1)] * 260), "it is too long, .*editcap -F pcapng -s 96 -c 500000 "
    yield "cut;off.pcap", SMALL[:-5], "cut off at .*: editcap -F pcap 'cut;off.pcap' 'cut;off.whole.pcap'"
    yield "cut;off.pcap", SMALL[:-5], "cut off at .*: editcap -F pcap 'cut;off.pcap' 'cut;off-2.whole.pcap'"
    yield "cut&off.pcapng", ONE_SECTION[:-7], "cut off at "
    yield "twice.pcapng", ONE_SECTION * 2, "two sections"
    yield "long record.pcap", classic([START] * 2, [IPV4_FRAME, bytes(262145)], cut=2**20), "a packet of more than 262,144 bytes"
    for ending, packed in (("gz", gzip.compress), ("bz2", bz2.compress), ("xz", lzma.compress), ("zst", "zstd"), ("lz4", "lz4")):
        if callable(packed) or shutil.which(packed):
            data = packed(SMALL) if callable(packed) else subprocess.run([packed, "-q", "-c"], input=SMALL, stdout=subprocess.PIPE, check=True).stdout
            yield f"my cap.pcap.{ending}", data, rf"it is compressed: \w+ <'my cap.pcap.{ending}' >'my cap"


def files_in(room):
    return {path: (path.stat().st_size, path.stat().st_mtime_ns) for path in room.iterdir()}


def test_hints_that_are_pasted():
    """A hint is pasted into a shell: it makes files that weren't there, changes none that was, and what it made isn't refused."""
    room, programs = room_of("hints"), room_of("programs")
    wireshark.put(programs)
    env = os.environ | {"PATH": f"{programs}:{os.environ['PATH']}"}
    for name, data, part in refused_captures():
        (room / name).write_bytes(data)
        said = run(HERE / "check-capture", name, cwd=room, env=env)
        hint = re.search(r": ([a-z0-9]+ [-<].*)$", said[1], re.M)
        if said[0] != 4 or not re.search(part.replace("$", r"\$") if "it'" not in part else re.escape(part), said[1]) or not hint:
            fault(f"check-capture, {name}: says {said}")
            continue
        before = files_in(room)
        done = subprocess.run(["bash", "-c", hint[1]], cwd=room, env=env, capture_output=True, text=True)
        made = [path for path in files_in(room) if path not in before]
        # of a capture that is cut, editcap keeps what is whole, and fails
        if done.returncode and "cut" not in name and "record" not in name or before.items() - files_in(room).items() or not made:
            fault(f"{hint[1]}: ends with {done.returncode}, makes {made}, leaves {files_in(room)}: {done.stderr}")
        is_equal(f"{hint[1]}: what it makes is accepted", [str(finding) for path in made for finding in findings.of(path) if finding.is_refused], [])
        (room / name).unlink()
    is_equal("a name that is taken for a command", (room / "oops").exists(), False)
