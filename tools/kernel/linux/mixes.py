"""Three mixes of packets for a link of 20 Mbit/s, made at random, each the same every time; times are nanoseconds."""
import random
from heapq import merge
from itertools import islice

from kernel.linux.router import Sent

SECOND = 10**9
FULL, ACK = 1514, 66
BAND_0, BAND_1, BAND_2 = 16, 0, 8  # types of service


def time_of(length, megabits):
    return int(length * 8000 / megabits)


def bursts_and_pauses(of):
    """UDP of mixed sizes and classes, now above the link's rate and now below it."""
    time, until, rate = 0, 0, 0
    while True:
        if time >= until:
            rate = 8 if rate > 20 else of.choice([26, 30, 34])
            until = time + of.randrange(SECOND // 50, SECOND // 7)
        length = of.choice([60, 128, 256, 590, 1024, FULL])
        yield Sent(time, length, 4, of.choice([BAND_0, BAND_1, BAND_1, BAND_2]))
        time += int(of.expovariate(1 / time_of(length, rate)))


def windows(of, version, trip, begin):
    """A flow that sends a window of full frames each round trip, a frame more each time until it is halved; and acknowledgements the other way's data."""
    window, time = 10, begin
    while True:
        for n in range(window):
            yield Sent(time + n * time_of(FULL, 60), FULL, version, BAND_1)
            if n % 8 == 7:
                yield Sent(time + n * time_of(FULL, 60) + 1000, ACK, version, BAND_1)
        window = window // 2 if of.random() < window / 120 else window + 1
        time += max(int(trip * SECOND * of.uniform(1, 1.1)), window * time_of(FULL, 60) + SECOND // 1000)


def steady(of, length, version, tos, period, begin):
    """A frame each so many nanoseconds, a tenth of that early or late."""
    yield from (Sent(begin + n * period + of.randrange(period // 10), length, version, tos) for n in range(10**9))


def heaps(of):
    """Heaps of full frames at ten times the link's rate."""
    time = 0
    while True:
        tos = of.choice([BAND_1, BAND_1, BAND_2])
        for _ in range(of.randint(50, 680)):
            yield Sent(time, FULL, 4, tos)
            time += time_of(FULL, 200)
        time += int(of.uniform(0.2, 0.6) * SECOND)


def udp(of):
    return islice(bursts_and_pauses(of), 29_649)


def tcp(of):
    flows = [windows(of, version, trip, begin) for version, trip, begin in ((4, 0.020, 0), (4, 0.035, 50), (6, 0.028, 90))]
    calls = [steady(of, 214, 6, 0, SECOND // 50, 70), steady(of, 700, 4, BAND_0, SECOND // 200, 30)]
    return islice(merge(*flows, *calls), 13_623)


def voice(of):
    calls = [steady(of, 214, 4, BAND_0, SECOND // 50, 1000 * n) for n in range(20)]
    return islice(merge(heaps(of), *calls), 32_725)


MIXES = {"udp": udp, "tcp": tcp, "voice": voice}


def packets_of(name):
    return list(MIXES[name](random.Random(name)))
