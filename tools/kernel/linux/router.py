"""A router in network namespaces: packets come in on one veth and leave by another, whose queue is tbf with pfifo_fast below it.

    source  s0 -- r0  router  r1 -- k0  sink

Each packet is sent with its number in its source address, so that what comes in on r0 and what goes out by k0 can be told apart.
"""
import ctypes
import json
import multiprocessing
import os
import shutil
import socket
import struct
import subprocess
import sys
import time
from typing import List, NamedTuple

from lib import captures
from lib.packets import ETHERNET_HEADER, Packets, header_of_frame
from lib.times import moments_of
from lib.wire import frame_lengths
from lib.words import Failed
from kernel.linux.plans import checksum

CANT_BE_HAD, REFUSED = 3, 4
INSIDE = "BESIDE_LINK_INSIDE"
SPACES = ("source", "router", "sink")
MACS = {"s0": "02:00:00:00:01:01", "r0": "02:00:00:00:01:02", "r1": "02:00:00:00:02:01", "k0": "02:00:00:00:02:02"}
PATHS = [("s0", "source", "r0", "router"), ("r1", "router", "k0", "sink")]
# the router forwards whatever the source of a packet is, and the ends say nothing by themselves
KEYS = [
    ("router", "ipv4/ip_forward", 1),
    ("router", "ipv6/conf/all/forwarding", 1),
    ("router", "ipv4/conf/all/rp_filter", 0),
    ("router", "ipv4/conf/r0/rp_filter", 0),
    ("source", "ipv6/conf/all/disable_ipv6", 1),
    ("sink", "ipv6/conf/all/disable_ipv6", 1),
]
# the router's addresses, with the neighbour that it has there
ADDRESSES = [("10.77.1.1/24", None, "r0"), ("10.77.2.1/24", "10.77.2.2", "r1"), ("fd77:1::1/64", None, "r0"), ("fd77:2::1/64", "fd77:2::2", "r1")]
HEAD = 64  # bytes of a frame that are kept
SHORTEST = {4: ETHERNET_HEADER + 20, 6: ETHERNET_HEADER + 40}
MOST = 2**22  # of packets: numbers in 100.64.0.0/10
LONGEST = ETHERNET_HEADER + 65535
ROOM = 1 << 29  # of a socket that captures
TIMESTAMP_NS = 35
# a bucket of so many bytes more than the longest frame: the kernel keeps its size as a time, in steps of 64 ns
SPARE = 16


class Sent(NamedTuple):
    """A packet that is sent to the router: its moment in nanoseconds, the length of its frame, its version of IP, and its type of service."""

    time: int
    length: int
    version: int
    tos: int


class Passed(NamedTuple):
    """A packet that came in on a device: its moment, its number, the length of its frame, and the head of that."""

    time: int
    number: int
    length: int
    head: bytes


def packets_of(capture) -> List[Sent]:
    """What is sent of a capture: what has no header of IP goes as IPv4 with type of service 0."""
    of, data = Packets(capture), capture.data
    found = []
    for time_of, at, captured, link, length, tos in zip(moments_of(capture), of.frames, of.captured, of.links, frame_lengths(capture), capture.services):
        header = header_of_frame(data, link, at, at + captured)
        version = header[1] if header else 4
        found.append(Sent(time_of, max(length, SHORTEST[version]), version, tos))
    return found


def head_of(packet, number):
    """The headers of a packet's frame as the router gets it: UDP from an address that has its number, to the sink."""
    ethernet = bytes.fromhex((MACS["r0"] + MACS["s0"]).replace(":", ""))
    if packet.version == 6:
        source = bytes.fromhex("fd770003000000000000000000000000")[:12] + struct.pack(">I", number)
        header = struct.pack(">IHBB", 6 << 28, packet.length - SHORTEST[6], 17, 64)
        return ethernet + b"\x86\xdd" + header + source + socket.inet_pton(socket.AF_INET6, "fd77:2::2")
    source, sink = struct.pack(">I", 0x64400000 + number), socket.inet_aton("10.77.2.2")
    header = struct.pack(">BBHHHBBH", 0x45, packet.tos, packet.length - ETHERNET_HEADER, 0, 0x4000, 64, 17, 0) + source + sink
    return ethernet + b"\x08\x00" + header[:10] + struct.pack(">H", checksum(header)) + header[12:]


def number_of(head):
    """The number of a packet by its headers, or None."""
    if head[12:14] == b"\x08\x00" and head[26:28] >= b"\x64\x40" and head[26:28] < b"\x64\x80":
        return struct.unpack_from(">I", head, 26)[0] - 0x64400000
    if head[12:14] == b"\x86\xdd" and head[22:26] == bytes.fromhex("fd770003"):
        return struct.unpack_from(">I", head, 34)[0]
    return None


def capture_of(passed):
    """A capture of the heads of frames, with their lengths on the wire."""
    head = struct.pack("<IHHiIII", 0xA1B23C4D, 2, 4, 0, 0, HEAD, 1)
    records = (struct.pack("<IIII", *divmod(packet.time, 10**9), len(packet.head), packet.length) + packet.head for packet in passed)
    return captures.Capture(head + b"".join(records))


# NAMESPACES


def run(*words):
    done = subprocess.run(words, capture_output=True, text=True, check=False)
    if done.returncode:
        raise Failed(f"{' '.join(words)}: {(done.stderr or done.stdout).strip().splitlines()[-1:] or done.returncode}", CANT_BE_HAD)
    return done.stdout


def ip(space, *words):
    run("ip", "-n", space, *words)


def tc(*words):
    return run("tc", "-n", "router", *words)


def enter():
    """Runs the tool again in namespaces of its own, where it may make others; they end with it. Returns where it is inside already."""
    if os.environ.get(INSIDE):
        return
    missing = [name for name in ("unshare", "ip", "tc") if not shutil.which(name)]
    if missing:
        raise Failed(f"there is no {' and no '.join(missing)}: Debian has them in util-linux and iproute2", CANT_BE_HAD)
    words = ["unshare", "--net", "--mount", *([] if os.geteuid() == 0 else ["--user", "--map-root-user"])]
    if subprocess.run([*words, "true"], capture_output=True, check=False).returncode:
        raise Failed(f"this machine gives no network namespaces: `{' '.join(words)} true` fails", CANT_BE_HAD)
    os.execvpe(words[0], [*words, sys.executable, "-B", *sys.argv], {**os.environ, INSIDE: "1"})


def make_router(mtu):
    run("mount", "-t", "tmpfs", "none", "/run")
    for space in SPACES:
        run("ip", "netns", "add", space)
    for one, space, other, beyond in PATHS:
        run("ip", "link", "add", one, "netns", space, "address", MACS[one], "type", "veth", "peer", "name", other, "netns", beyond, "address", MACS[other])
    for space, key, value in KEYS:
        run("ip", "netns", "exec", space, "sh", "-c", f"echo {value} >/proc/sys/net/{key}")
    for device, space in (("s0", "source"), ("r0", "router"), ("r1", "router"), ("k0", "sink")):
        ip(space, "link", "set", device, "mtu", str(mtu), "addrgenmode", "none")
        ip(space, "link", "set", device, "up")
    for address, neighbour, device in ADDRESSES:
        ip("router", "address", "add", address, "dev", device, *["nodad"] * (":" in address))
        if neighbour:
            ip("router", "neighbour", "add", neighbour, "lladdr", MACS["k0"], "dev", device, "nud", "permanent")


def set_queue(rate_kbit, length, longest):
    """tbf of a rate, with the least bucket, over pfifo_fast of a length."""
    ip("router", "link", "set", "r1", "txqueuelen", str(length))
    subprocess.run(["tc", "-n", "router", "qdisc", "del", "dev", "r1", "root"], capture_output=True, check=False)
    # its limit is that of the discipline which pfifo_fast replaces
    tc("qdisc", "add", "dev", "r1", "root", "handle", "1:", "tbf", "rate", f"{rate_kbit}kbit", "burst", str(longest + SPARE), "limit", "1000000")
    tc("qdisc", "add", "dev", "r1", "parent", "1:1", "handle", "10:", "pfifo_fast")


def counts():
    """How many packets wait in the queue, and how many it has dropped."""
    root = next(qdisc for qdisc in json.loads(tc("-s", "-j", "qdisc", "show", "dev", "r1")) if qdisc["kind"] == "tbf")
    return root["qlen"], root["drops"]


# SENDING AND CAPTURING


def packet_socket(space, device):
    """A socket of a device, in the namespace of which this process is from now on."""
    with open(f"/run/netns/{space}", "rb") as file:
        if ctypes.CDLL(None, use_errno=True).setns(file.fileno(), 0):
            raise OSError(ctypes.get_errno(), f"setns {space}")
    found = socket.socket(socket.AF_PACKET, socket.SOCK_RAW, socket.htons(3))
    found.bind((device, 3))
    return found


def capture_into(wire, space, device):
    """Captures what comes in on a device until it is told to end; then tells it, and how many packets it hadn't room for."""
    tap = packet_socket(space, device)
    try:
        tap.setsockopt(socket.SOL_SOCKET, 33, ROOM)  # SO_RCVBUFFORCE
    except OSError:
        tap.setsockopt(socket.SOL_SOCKET, socket.SO_RCVBUF, ROOM)
    tap.setsockopt(socket.SOL_SOCKET, TIMESTAMP_NS, 1)
    tap.settimeout(0.1)
    found, buffer = [], bytearray(HEAD)
    wire.send("ready")
    while True:
        try:
            length, extra, _, address = tap.recvmsg_into([buffer], 64, socket.MSG_TRUNC)
        except TimeoutError:
            if wire.poll():
                break
            continue
        number = number_of(buffer)
        if address[2] == 0 and number is not None:
            seconds, part = struct.unpack("qq", extra[0][2])
            found.append(Passed(seconds * 10**9 + part, number, length, bytes(buffer[:length])))
    lost = struct.unpack("II", tap.getsockopt(263, 6, 8))[1]  # SOL_PACKET, PACKET_STATISTICS
    wire.send((found, lost))


def send_all(wire, packets):
    """Sends packets at their moments."""
    source = packet_socket("source", "s0")
    os.sched_setaffinity(0, {max(os.sched_getaffinity(0))})
    frames = [head_of(packet, n).ljust(packet.length, b"\0") for n, packet in enumerate(packets)]
    wire.send("ready")
    begin = time.monotonic_ns() + 10**7 - packets[0].time
    for packet, frame in zip(packets, frames):
        ahead = begin + packet.time - time.monotonic_ns()
        if ahead > 0:
            time.sleep(ahead / 1e9)
        source.send(frame)
    wire.send("sent")


class Child:
    def __init__(self, work, *words):
        of = multiprocessing.get_context("fork")
        self.wire, beyond = of.Pipe()
        self.process = of.Process(target=work, args=(beyond, *words), daemon=True)
        self.process.start()
        self.hear(30)

    def hear(self, patience):
        if not self.wire.poll(patience):
            raise Failed("a process that sends or captures doesn't answer", CANT_BE_HAD)
        return self.wire.recv()


def replay(packets, rate_kbit, length):
    """Sends packets through the router; those that came in, in order, and the numbers of those that went out."""
    set_queue(rate_kbit, length, max(packet.length for packet in packets))
    into, out = (Child(capture_into, *end) for end in (("router", "r0"), ("sink", "k0")))
    Child(send_all, packets).hear(60 + (packets[-1].time - packets[0].time) / 1e9 * 2)
    while counts()[0]:
        time.sleep(0.05)
    time.sleep(0.2)
    for child in (into, out):
        child.wire.send("end")
    (came, lost), (went, lost_too) = (child.hear(60) for child in (into, out))
    gone = {packet.number for packet in went}
    # a few more may be the kernel's own, which reports its multicast groups
    dropped = counts()[1]
    if lost or lost_too or len(came) != len(packets) or len(came) - len(gone) > dropped:
        counts_of = f"{len(packets)} packets were sent, {len(came)} came in, {len(gone)} went out, {dropped} were dropped by the queue"
        raise Failed(f"{counts_of}, and {lost + lost_too} not captured: some were lost elsewhere", CANT_BE_HAD)
    return came, gone
