"""What a kernel is given of a plan and its capture; and plans and captures at random."""
import struct
import zlib
from itertools import product

from lib import plans
from lib.captures import PRIORITY_OF_SERVICE
from lib.packets import Packets
from lib.places import Places
from lib.plans import PARAMS, Event, Plan, Station
from lib.wire import frame_lengths
from lib.words import Failed

# A packet socket takes frames from 14 bytes on; of a long one the path looks at no byte behind these.
SHORTEST, LONGEST = 14, 2000


# the exit code where a plan or a capture is refused
REFUSED = 4


class Refused(Failed):
    """A plan that a kernel can't be given; the text says why."""

    def __init__(self, line):
        super().__init__(line, REFUSED)


class Sent(Places):
    """The packets of a capture as a plan has them, each with its priority, and with what a packet socket is given for it."""

    def __init__(self, plan, capture):
        super().__init__(plan, capture)
        self.priorities = capture.services.translate(PRIORITY_OF_SERVICE) if plan.classify == "tos" else bytes(len(capture))
        self.card, self.moves = plan.station[0].card, None
        of = Packets(capture)
        self.frames = [bytes(capture.data[at : at + min(captured, LONGEST)]).ljust(SHORTEST, b"\0") for at, captured in zip(of.frames, of.captured)]
        if self.card:
            self.frames = list(map(of_length, self.frames, frame_lengths(capture)))
        self.parents = [at for at, station in enumerate(plan.station) for _ in range(station.mq)]
        self.firsts = [children[0] for children in plan.children]

    def checksum(self, n):
        return zlib.crc32(self.frames[n])

    def device(self, n):
        """The device of a packet, which is that of the plan's station, and the place of its child there."""
        at = self.parents[self.stations[n]]
        return at, self.stations[n] - self.firsts[at]


def of_length(frame, length):
    """A frame as long as it was on the wire, which counts where it takes its time: what wasn't captured is zeros."""
    if not SHORTEST <= length <= LONGEST:
        raise Refused(f"a frame of {length} bytes: beside a link a guest takes {SHORTEST} to {LONGEST}")
    return frame[:length].ljust(length, b"\0")


def text_of(plan):
    told = lambda part: {name: value for name, value in part._asdict().items() if value != part._field_defaults[name]}
    stations, events = list(map(told, plan.station)), list(map(told, plan.event))
    for number, station in enumerate(plan.station):
        stations[number]["max_len"] = max([station.len, *(event.len for event in plan.event if event.station == number and event.len)])
    return plans.text_of({**told(plan), "version": least_version(plan), "station": stations, "event": events})


def least_version(plan):
    """The least version in which a plan can be written, but for the first."""
    if plan.classify != "tos" or any(station.card for station in plan.station):
        return 5
    if plan.irq_us is not None or "flow" in (plan.split, plan.spread):
        return 4
    return 3 if plan.groups else 2


# Plans at random


def frame(tos, source, route, number):
    """A frame of 34 bytes, as those that `lqtx gen` makes."""
    header = bytes([0x45, tos, 0, 0x14, number >> 8 & 0xFF, number & 0xFF, 0, 0, 0x40, 0xFD, 0, 0, 10, 0, 0, source, 10, 0, 1, route])
    return bytes.fromhex("0200000000020200000000010800") + header


def checksum(header):
    """Of a header of IP."""
    total = sum(struct.unpack(f">{len(header) // 2}H", header))
    while total >> 16:
        total = (total & 0xFFFF) + (total >> 16)
    return total ^ 0xFFFF


def odd_frame(chance, frame):
    """Another kind of frame: tagged, not IPv4, or of another length."""
    kind = chance.randrange(5)
    if kind == 0:
        return frame[:12] + b"\x81\0\0\5" + frame[12:]
    if kind == 1:
        return frame[:12] + chance.choice([b"\x08\x06", b"\x86\xdd", b"\x88\xa8"]) + frame[14:]
    if kind == 2:
        return frame[: chance.randint(0, 33)]
    return frame + bytes(chance.choice([1, 100, 1466, 3000]))


def params(*values):
    return {key.name: value for key, value in zip(PARAMS, values)}


def random_params(chance):
    """The keys of a device."""
    burst = chance.choice([0, 1, 1, 2, 3, 5, 8, 16, 60, 63, 64, 65])
    every, limit = chance.choice([(0, 0), (0, 0), (1, chance.randint(1, 5)), (chance.randint(2, 7), chance.randint(1, 30))])
    return params(burst, every, limit, chance.choice([0] * 7 + [chance.randint(1, 60)]))


def random_length(chance):
    return chance.choice([1, 2, 3, 4, 8, 15, 16, 17, 31, 32, 33, 48, 64, 100, chance.randint(1, 200), 1000])


def random_station(chance, kind):
    queues = chance.randint(2, 4) if kind == "queues" else 1
    mq = chance.randint(2, 4) if kind == "mq" else 1
    return Station(len=random_length(chance), queues=queues, mq=mq, bypass=chance.random() < 0.7, **random_params(chance))


def random_events(chance, stations, count):
    events, active, room, length = [], [True] * len(stations), 16 - sum(station.mq for station in stations), [station.len for station in stations]
    for before in sorted(chance.randint(0, count + 1) for _ in range(chance.choice([0, 0, 1, 1, 2, 3, 5, 8]))):
        j = chance.randrange(len(stations))
        kind = chance.choice(["down", "resize", "tx_queue_len", "swap"]) if active[j] else "up"
        if kind == "swap" and (stations[j].mq > 1 or stations[j].card or room == 0):
            kind = "down"
        room -= kind == "swap"
        active[j] = kind != "down"
        sized = kind in ("resize", "tx_queue_len")
        if sized and (chance.random() < 0.9 or kind == "resize"):
            length[j] = random_length(chance)
        events.append(Event(before, kind, j, length[j] if sized else None, **(random_params(chance) if kind == "swap" else {})))
    return events


def random_plan(chance, kind, most=160):
    """A plan of a kind and the frames of its capture: one queue a station, `queues`, `mq`, or `long` queues."""
    if kind == "long":
        return long_plan(chance)
    stations = [random_station(chance, kind) for _ in range(chance.choice([1, 1, 1, 2, 3] if kind == "one" else [1, 1, 2]))]
    count = chance.choice([0, chance.randint(1, 12), chance.randint(1, 60), chance.randint(20, most), chance.randint(20, most)])
    irq_every = chance.choice([1, 2, 3, 4, 7, 16, 40, 100, 1000])
    tos = chance.choice([[0], [0, 8, 16], [0, 8, 16, 24], list(range(0, 256))])
    sources = chance.choice([1, 2, 4, 256])
    frames = [frame(chance.choice(tos), chance.randrange(sources), chance.randrange(256), i) for i in range(count)]
    frames = [odd_frame(chance, whole) if chance.random() < 0.03 else whole for whole in frames]
    return Plan(station=stations, event=random_events(chance, stations, count), irq_every=irq_every), frames


def long_plan(chance):
    """More packets wait than one run may send."""
    count = chance.randint(200, 400)
    device = params(chance.choice([66, 70, 100, 127, 128, 129, 130]), *chance.choice([(0, 0), (0, 0), (7, 20)]))
    station = Station(len=chance.choice([100, 128, 256, 1000]), mq=chance.choice([1, 1, 2]), bypass=chance.random() < 0.7, **device)
    events = random_events(chance, [station], count) if chance.random() < 0.3 else []
    frames = [frame(chance.choice([0, 8, 16]), chance.randrange(4), 0, i) for i in range(count)]
    return Plan(station=[station], event=events, irq_every=chance.choice([100, 150, 200, 1000])), frames


def timed_plan(chance):
    """A plan whose queues are opened by time, and whose packets are placed by the hash of their flow; its frames, and when each comes."""
    kind = chance.choice(["one", "mq", "queues"])
    plan, frames = random_plan(chance, kind)
    period, time, times = chance.choice([1, 10, 100]), chance.randrange(10**9), []
    for _ in frames:
        times.append(time)
        time = max(0, time + chance.choice([0, 1, -1, 500 * period, 1000 * period, chance.randrange(3000 * period), chance.randrange(9000 * period)]))
    # bytes that would be the ports of UDP
    frames = [whole[:23] + bytes([17]) + whole[24:] + chance.randbytes(4) if len(whole) == 34 and chance.random() < 0.5 else whole for whole in frames]
    return plan._replace(irq_every=1, irq_us=period, spread=chance.choice(["bytes", "flow", "flow"])), frames, times


def link_plan(chance):
    """A plan with a link, its frames, and when each comes: in bursts and pauses of about a frame's time at the link's rate."""
    rate = chance.choice([1000, 8000, 10_000, 33_333, 100_000, 999_983, 1_000_000, 2_500_000])
    whole = 1538 * 8 * 10**6 // rate
    sizes = chance.choice([[60], [1514], [60, 1514], range(SHORTEST, 1515), [60, 590, 1514]])
    classes = chance.choice([[0], [0, 8, 16]])
    time, frames, times = chance.randrange(10**9), [], []
    for i in range(chance.choice([1, 2, 5, 20, 60, 150])):
        size = chance.choice(sizes)
        frames.append(frame(chance.choice(classes), 0, 0, i)[:size].ljust(size, b"\0"))
        times.append(time)
        time += chance.choice([0, 0, 1, whole // 10, whole // 3, whole, chance.randrange(3 * whole + 1), 20 * whole if chance.random() < 0.1 else 0])
    # limits to which some frames come exactly, or all but a byte
    some = max(1, sum(map(len, frames[: chance.randint(1, 4)])) - chance.choice([0, 0, 1]))
    limit = {"ring": chance.choice([1, 1, 2, 3, 8, 70, 256])} if chance.random() < 0.4 else {"bql": chance.choice([1, some, some, 1514, 3000, 10_000, 100_000])}
    station = Station(len=chance.choice([1, 2, 3, 5, 16, 31, 32, 33, 40, 100]), bypass=chance.random() < 0.6, rate_kbit=rate, **limit,
                      coalesce_us=chance.choice([0, 0, 1, 20, 50, 250, 1000]), **chance.choice([{}, {}, {"overhead": 0, "mpu": 64}, {"overhead": 7, "mpu": 0}]))
    events = random_events(chance, [station], len(frames)) if chance.random() < 0.3 else []
    return Plan(station=[station], event=events, classify=chance.choice(["tos", "tos", "none"])), frames, times


SMALL_EVENTS = {
    "none": [],
    "down": [Event(3, "down", 0)],
    "down and up": [Event(2, "down", 0), Event(4, "up", 0)],
    "resize": [Event(3, "resize", 0, 1), Event(5, "resize", 0, 3)],
    "length": [Event(3, "tx_queue_len", 0, 4)],
    "swap": [Event(4, "swap", 0, burst=1)],
}


def small_plans():
    """All small plans: one station and six packets, with each of these values."""
    captures = [(1, 1, 1, 1, 1, 1), (1, 0, 2, 1, 0, 2), (2, 1, 0, 2, 1, 0), (0, 0, 2, 2, 1, 1), (1, 1, 1, 0, 0, 0)]
    tos = [16, 0, 8]
    for bands in captures:
        frames = [frame(tos[band], 0, 0, i) for i, band in enumerate(bands)]
        values = [(1, 2, 3), (0, 1, 2, 3), ((0, 0), (1, 1), (2, 2)), (0, 3), (1, 2, 1000), (True, False), SMALL_EVENTS.values()]
        for length, burst, busy, hang, irq_every, bypass, events in product(*values):
            yield Plan(station=[Station(len=length, bypass=bypass, **params(burst, *busy, hang))], event=events, irq_every=irq_every), frames
