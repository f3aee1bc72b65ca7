"""A link of a rate as tools take it from their words: the keys of its station, and what is assumed, in sentences that a plan has as comments."""
import pathlib
import re
import textwrap
from fractions import Fraction

from lib import plans
from lib.packets import SECOND, Packets
from lib.times import moments_of
from lib.wire import bytes_of_wire, frame_lengths
from lib.words import Failed, Wrong

UNITS = {"bit": 1, "kbit": 10**3, "mbit": 10**6, "gbit": 10**9, "tbit": 10**12}
MOST_KBIT = next(key.high for key in plans.CARD if key.name == "rate_kbit")
# by driver what its source has, the file below drivers/net of Linux 6.1, and what is to be known of it
BQL_TOO = "It has byte queue limits too, which Linux changes by itself and this plan leaves out. Where they bind first, `limit` of /sys/class/net/*/queues/tx-*/byte_queue_limits says how many bytes, for --bql"
PRESETS = {
    "veth": ({"ring": 1, "overhead": 0, "mpu": 1}, "veth.c", "It has no ring and no wire: the rate is that of a shaper above it (tbf), which counts the bytes of a frame alone"),
    "e1000e": ({"ring": 256}, "ethernet/intel/e1000e/e1000.h (E1000_DEFAULT_TXD)", BQL_TOO),
    "igb": ({"ring": 256}, "ethernet/intel/igb/igb.h (IGB_DEFAULT_TXD)", BQL_TOO),
    "ixgbe": ({"ring": 512}, "ethernet/intel/ixgbe/ixgbe.h (IXGBE_DEFAULT_TXD)", BQL_TOO),
    "mlx5": ({"ring": 1024}, "ethernet/mellanox/mlx5/core/en.h (MLX5E_PARAMS_DEFAULT_LOG_SQ_SIZE)", BQL_TOO),
}
OPTIONS = {"len": "len", "ring": "ring", "bql": "bql", "coalesce": "coalesce_us", "overhead": "overhead", "mpu": "mpu"}
HELP = """RATE is written as for `tc`: 100mbit, 2.5gbit, 56kbit; it is a whole number of kilobits. Options:

    --ring N              the driver has so many descriptors, and no byte queue limits; else 1, a driver that takes a frame at a time
    --bql BYTES           byte queue limits: the driver takes one packet more while no more than so many bytes are out
    --coalesce US         so many microseconds after a frame has left comes the interrupt that tells it; else 0
    --overhead N, --mpu N as of `tc stab`: bytes that come with each frame, and the fewest that one takes; else 24 and 84, as on Ethernet
    --preset DRIVER       the ring of veth, e1000e, igb, ixgbe or mlx5 as its source has it; the plan says in which file
    --classify none       a bridge, which sets no priorities, so that all packets have band 1; else a router or a host, by their DSCP"""


def read_rate(word):
    """A rate in kilobits a second."""
    found = re.fullmatch(r"(\d+(?:\.\d+)?)([a-z]+)", word.lower(), re.ASCII)
    rate = Fraction(found[1]) * UNITS.get(found[2], 0) / 1000 if found else 0
    if rate <= 0:
        raise Wrong(f"{word}: a rate is a number and {', '.join(UNITS)}, for example 100mbit")
    if rate.denominator != 1 or rate > MOST_KBIT:
        raise Wrong(f"{word}: a plan has whole kilobits a second, from 1kbit to {MOST_KBIT // 10**6}gbit")
    return int(rate)


def with_options(parser, *left_out):
    parser.take(int, *(f"--{name}" for name in OPTIONS if name not in left_out))
    parser.add_argument("--preset", choices=PRESETS)
    parser.add_argument("--classify", choices=("tos", "none"), default="tos")
    return parser


def keys_of(given, rate_kbit):
    """The keys of the plan, of the words as they were given; an option has the range of its key."""
    preset = PRESETS[given.preset][0] if given.preset else {}
    asked = {key: value for name, key in OPTIONS.items() if (value := getattr(given, name, None)) is not None}
    if "ring" in asked and asked.get("bql"):
        raise Wrong("--ring and --bql: a card has one of the two limits, since with both Linux takes several packets at once")
    limit = {} if {"ring", "bql"} & set(asked) else {"ring": preset.get("ring", 1)}
    keys = {"classify": given.classify, "len": 1000, "rate_kbit": rate_kbit, **limit, **{key: value for key, value in preset.items() if key != "ring"}, **asked}
    _, faults = plans.judge(plans.text_of(root_of(keys)).encode())
    if faults:
        raise Wrong(f"{faults[0].where.partition(', ')[2].replace('`', '')}: {faults[0].said}")
    return keys


def root_of(keys):
    """The document of a plan with these keys of its station; the way in which packets get their priority is a key of the top."""
    station = dict(keys)
    top = {} if station.pop("classify") == "tos" else {"classify": "none"}
    return {"version": 5, **top, "station": [station]}


def judge_capture(capture):
    if not len(capture):
        raise Failed("the capture has no packets")
    if len(capture) > 1 and len(set(Packets(capture).times)) == 1:
        raise Failed("the capture has no times: all its packets have the same one")


def seconds_of(number):
    return f"{float(number):.3g} s"


def load_of(capture, card):
    """How long the wire needs for all packets of a capture, and within which time they come."""
    times, octets = list(moments_of(capture)), sum(bytes_of_wire(card, length) for length in frame_lengths(capture))
    return Fraction(8 * octets, 1000 * card.rate_kbit), Fraction(max(times) - min(times), SECOND)


def sentences_of(given, keys, capture):
    """What a plan says of itself."""
    card = plans.plan_of(root_of(keys)).station[0].card
    needed, there = load_of(capture, card)
    yield f"A link of {given.rate} for {pathlib.Path(given.capture).name}, as tools/at-rate takes it."
    yield f"Its {len(capture):,} packets need {seconds_of(needed)} of the wire, and come within {seconds_of(there)}. Each frame takes the time of its bytes: {card.overhead} more, and {card.mpu} at least" + (
        " (preamble 8, FCS 4, gap 12)." if (card.overhead, card.mpu) == (24, 84) else ".")  # fmt: skip
    if card.bql is not None:
        yield f"Assumed: byte queue limits of {card.bql} bytes, which stay so, and descriptors enough. Linux changes its limit by itself between limit_min and limit_max."
    elif given.preset and card.ring == PRESETS[given.preset][0]["ring"]:
        _, file, more = PRESETS[given.preset]
        yield f"Assumed: a ring of {card.ring}, as in drivers/net/{file} of Linux 6.1. {more}."
    elif card.ring == 1:
        yield "Assumed: the driver takes one frame at a time, so that packets wait in the queue alone. --ring is a driver with descriptors, --bql one with byte queue limits."
    else:
        yield f"Assumed: {card.ring} descriptors, one for a packet, and no byte queue limits."
    coalesced = f"{card.coalesce_us} microseconds after" if card.coalesce_us else "as soon as"
    yield f"Assumed: the interrupt comes {coalesced} a frame has left, and the capture has what comes to this queue, in one direction."


def plan_text(given, keys, capture):
    comments = (textwrap.fill(sentence, 110, initial_indent="# ", subsequent_indent="# ") for sentence in sentences_of(given, keys, capture))
    return "\n".join(comments) + "\n" + plans.text_of(root_of(keys))
