"""Classification: all types of service, each in four ways, and the bands of the priorities, as a kernel has them."""
from lib.captures import BAND, PRIORITY
from kernel.linux.cases import marks_of, read_words
from kernel.linux.plans import checksum, frame

WAYS = ["IP_TOS of a socket", "IP_TOS of a message", "a forwarded packet", "a forwarded packet with IP options"]
BATCH = 64


def forwarded(tos, options):
    """A datagram to 10.2.0.2 that comes in on device 0."""
    extra = bytes([1, 1, 1, 0]) if options else b""
    header = bytes([0x45 + len(extra) // 4, tos, 0, 28 + len(extra), 0, 1, 0, 0, 64, 17, 0, 0, 10, 1, 0, 9, 10, 2, 0, 2]) + extra
    header = header[:10] + checksum(header).to_bytes(2, "big") + header[12:]
    return bytes.fromhex("ffffffffffff0200000000010800") + header + bytes([0, 9, 0, 9, 0, 8, 0, 0]) + b"lqtx"


def case_lines():
    """Without bypass each packet goes through its band, whose producer index moves."""
    for way in range(len(WAYS)):
        for begin in range(0, 256, BATCH):
            yield f"case class-{way}-{begin}"
            yield from (f"new {j} 1000 1 1 {BATCH} 0 0 0 0 0 0 0" for j in (0, 1))
            yield from (f"address {j}" for j in (0, 1))
            for tos in range(begin, begin + BATCH):
                yield f"datagram 1 {tos} {tos} {way}" if way < 2 else f"receive 0 {tos} {forwarded(tos, way == 3).hex()}"
            yield "end"
    yield "case class-priorities"
    yield "new 0 1000 1 1 64 0 0 0 0 0 0 0"
    yield from (f"send 0 {priority} {priority} {frame(0, 0, 0, priority).hex()}" for priority in range(64))
    yield "end"


def bands_of(lines, device):
    """The band that took each packet, by which producer index moved, and each packet's priority."""
    words = [read_words(line) for line in lines if line.startswith(f"W {device} ")]
    producers = [[int(ring["producer"]) for ring in told.bands] for told in words]
    bands = [band for before, after in zip(producers, producers[1:]) for band in range(3) if after[band] != before[band]]
    return bands, {int(number): int(priority) for number, priority, *_ in marks_of(next(line for line in lines if line.startswith(f"L {device} 0 ")))}


def judge(found):
    """How many are as the rules say, of how many, and the faults."""
    faults = []
    for way, name in enumerate(WAYS):
        for begin in range(0, 256, BATCH):
            bands, priorities = bands_of(found[f"class-{way}-{begin}"], 1)
            for at, tos in enumerate(range(begin, begin + BATCH)):
                priority = PRIORITY[(tos & 0x1E) // 2]
                got = priorities.get(tos), bands[at] if at < len(bands) else None
                if got != (priority, BAND[priority & 15]):
                    faults.append(f"type of service {tos:#04x} by {name}: priority and band {got}")
    bands, _ = bands_of(found["class-priorities"], 0)
    faults += [f"priority {priority}: another band" for priority in range(64) if bands[priority : priority + 1] != [BAND[priority & 15]]]
    total = 256 * len(WAYS) + 64
    return total - len(faults), total, faults
