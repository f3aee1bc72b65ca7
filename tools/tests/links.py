"""A card on a wire beside the run of one sender, what tools tell of a link, and the plan for a link of a rate; each value is worked out by hand, by docs/RULES.md."""
import csv
import struct
import subprocess

from lib import by_time, captures, plans
from lib.alone import Run
from lib.places import Places
from lib.wire import times_text
from lib.words import Failed
from tests.bench import HERE, TOP, expect, expect_none, expect_picture, fault, fault_if, frame, is_equal, room_of, run
from tests.made_captures import classic

MICROSECOND = 1000


def capture_at(times, lengths, bands=None, link=1):
    """A capture of frames at these microseconds with these lengths on the wire, each cut to its headers."""
    frames = [frame([16, 0, 8][band], 0, 0)[14 * (link == 101) :] for band in bands or [1] * len(times)]
    return captures.Capture(classic([MICROSECOND * time for time in times], frames, is_nano=True, link=link, lengths=lengths))


def ran(capture, classify="tos", events=(), **keys):
    """The run of one station with a card, at 8,000 kbit/s if nothing is said: a byte takes a microsecond."""
    root = {"version": 5, "classify": classify, "event": list(events), "station": [{"rate_kbit": 8000, "max_len": 1000, **keys}]}
    return Run(Places(plans.plan_of(root), capture)).go()


DOWN_AND_UP = [{"before": 2, "kind": "down", "station": 0}, {"before": 3, "kind": "up", "station": 0}]
# of a row the keys, times and lengths; and in microseconds when each packet that was sent was accepted and its frame ended, in that order; and how often the queue was
# opened behind each packet
ROWS = [
    ({"ring": 1}, [0, 50, 100, 150, 900], [76] * 5, [(0, 0, 100), (1, 100, 200), (2, 200, 300), (3, 300, 400), (4, 900, 1000)], [0, 1, 0, 3, 0]),
    ({"ring": 1}, [0, 10, 20], [1476, 76, 76], [(0, 0, 1500), (1, 1500, 1600), (2, 1600, 1700)], [0, 0, 0]),
    ({"ring": 3}, [0] * 4, [76] * 4, [(0, 0, 100), (1, 0, 200), (2, 0, 300), (3, 100, 400)], [1, 1, 0, 0]),
    ({"bql": 152}, [0] * 4, [76] * 4, [(0, 0, 100), (1, 0, 200), (2, 0, 300), (3, 100, 400)], [1, 1, 0, 0]),
    ({"bql": 100}, [0, 0, 0, 2000], [76, 1476, 76, 76], [(0, 0, 100), (1, 0, 1600), (2, 1600, 1700), (3, 2000, 2100)], [1, 0, 2, 0]),
    ({"ring": 2, "coalesce_us": 250}, [0] * 6, [76] * 6, [(0, 0, 100), (1, 0, 200), (2, 350, 450), (3, 350, 550), (4, 700, 800), (5, 700, 900)], [1, 0, 0, 0, 0, 0]),
    # a frame takes 84 bytes at least; with another overhead and no least, its own
    ({"ring": 1}, [0, 0], [14, 14], [(0, 0, 84), (1, 84, 168)], [0, 0]),
    ({"ring": 1, "overhead": 1, "mpu": 0}, [0, 0], [14, 99], [(0, 0, 15), (1, 15, 115)], [0, 0]),
    # 1 is in the requeue slot, 2 in the ring of one slot, and 3 finds that
    ({"ring": 1, "len": 1}, [0] * 4, [76] * 4, [(0, 0, 100), (1, 100, 200), (2, 200, 300)], [0] * 4),
    # one of raw IP gets a header
    ({"ring": 1, "link": 101}, [0, 0], [62, 62], [(0, 0, 100), (1, 100, 200)], [0, 0]),
    # what went past the bands goes first, then band 0, then band 1
    ({"ring": 1, "bands": [1, 2, 1, 0, 1]}, [0] * 5, [76] * 5, [(0, 0, 100), (1, 100, 200), (3, 200, 300), (2, 300, 400), (4, 400, 500)], [0] * 5),
    # the same as a bridge has it: all are of band 1
    ({"ring": 1, "bands": [1, 2, 1, 0, 1], "classify": "none"}, [0] * 5, [76] * 5, [(n, 100 * n, 100 * n + 100) for n in range(5)], [0] * 5),
    # the frame on the wire goes on while the station is deactivated, and packet 3 waits for its end
    ({"ring": 1, "events": DOWN_AND_UP}, [0, 0, 10, 20], [76] * 4, [(0, 0, 100), (3, 100, 200)], [0] * 4),
]


def test_rows_of_links():
    for given, times, lengths, passed, opened in ROWS:
        keys = dict(given)
        capture = capture_at(times, lengths, keys.pop("bands", None), keys.pop("link", 1))
        run = ran(capture, **keys)
        found = times_text(run.wire.flights, 8000)
        is_equal(f"a link, {given}", found, "".join(f"{n} {1000 * accepted} {1000 * ends}\n" for n, accepted, ends in passed))
        is_equal(f"a link, {given}: opened behind each", list(run.places.opened), opened)
        is_equal(f"a link, {given}: sent", sorted([n for n, kind in enumerate(run.trail.kinds) if kind == 0]), sorted(n for n, *_ in passed))
    is_equal("a link, a full ring", ran(capture_at([0] * 4, [76] * 4), ring=1, len=1).trail.text().splitlines()[3], "3 full 2")
    # at 33,333 kbit/s a frame of 60 bytes takes 20,160.2016.. nanoseconds, and nothing is rounded on the way
    run = ran(capture_at([0] * 5, [60] * 5), ring=1, rate_kbit=33333)
    is_equal("a link, nothing is rounded", times_text(run.wire.flights, 33333).splitlines()[3:], ["3 60480 80640", "4 80640 100801"])
    try:
        ran(capture_at([5, 4], [60, 60]))
        fault("a link takes times that go back")
    except Failed as refused:
        is_equal("a link, a time that goes back", str(refused), "packet 1 has an earlier time than the one before it, and the plan takes no such capture")


LONG_FIRST = "version = 5\n[[station]]\nrate_kbit = 8000\nring = 1\n"


def test_shown_of_a_link():
    """The second row: 1 waits 1,490 microseconds and 2 waits 1,580, behind a frame of 1,500."""
    room = room_of("link", {"p.toml": LONG_FIRST, "c.pcap": capture_at([0, 10, 20], [1476, 76, 76]).data})
    made = run(HERE / "tests/by-the-rules", "run", "p.toml", "c.pcap", "o", cwd=room)
    is_equal("the times of a link", (made[0], (room / "o.times").read_text(encoding="utf-8")), (0, "0 0 1500000\n1 1500000 1600000\n2 1600000 1700000\n"))
    show = lambda *words: run(HERE / "show-run", "p.toml", "c.pcap", "o", *words, cwd=room)
    waits = "wait 1490.0 us in the middle, 1580.0 us for 99 of 100, 1580.0 us at most"
    said = show("o.svg", "b.svg", "--table", "t.csv", "--marked", "m.pcapng", "--retimed", "0", "r.pcap", "--html", "o.html", "--flows")
    expect("show-run of a link", said, 0, f"\n  backlog at most 2 pkt, 152 bytes; {waits}\n", f"sent 1628 bytes 3 pkt, dropped 0; {waits}\n",
           "link of 8000 kbit/s: 1700 bytes of the wire, busy for 100.0% of 0.001700 s\n", "to the end of its frame 1590.0 us in the middle, 1680.0 us for 99 of 100, 1680.0 us at most\n")  # fmt: skip
    with open(room / "t.csv", encoding="utf-8") as file:
        is_equal("the waits of a link", [row["waited_seconds"] for row in csv.DictReader(file)], ["0.000000000", "0.001490000", "0.001580000"])
    is_equal("the comments of a link", [f"band 1, waited {name} us".encode() in (room / "m.pcapng").read_bytes() for name in ("0.0", "1490.0", "1580.0")], [True] * 3)
    expect_picture("a link's backlog", room / "b.svg", "bytes that wait in each band", "use of the link", "the last packet")
    data = (room / "r.pcap").read_bytes()
    found = [struct.unpack_from("<IIII", data, 24 + 50 * number) for number in range(3)]
    is_equal("what a link sent, by its times", found, [(0, 1500000, 34, 1476), (0, 1600000, 34, 76), (0, 1700000, 34, 76)])
    is_equal("the head of what a link sent", struct.unpack_from("<IHHiIII", data), (0xA1B23C4D, 2, 4, 0, 0, 2**18, 1))
    expect("show-run, no unit", show("--retimed", "1", "r.pcap"), 2, "a link has unit 0 alone")
    (room / "o.times").write_text("0 0 1500000\n", encoding="utf-8")
    expect("show-run, times of another run", show(), 1, "o.times hasn't the times of this plan over this capture")
    (room / "c.pcap").write_bytes(capture_at([0, 10, 9], [76] * 3).data)
    expect("show-run, a time that goes back", show(), 1, "a link takes no such capture", "c.pcap has no run of this plan")


def test_how_long():
    """Of 40 packets at once the first goes, the second waits in the requeue slot and 38 in the ring. At 650 five of these are taken, whose slots stay, and five packets more come."""
    room = room_of("long", {"once.pcap": capture_at([0] * 39 + [1], [76] * 40).data, "twice.pcap": capture_at([0] * 40 + [650] * 5, [76] * 45).data})
    find = lambda name, *words: run(HERE / "how-long", f"{name}.pcap", "8mbit", *words, "--program", HERE / "tests/by-the-rules", cwd=room)
    expect("how-long", find("once"), 0, "txqueuelen 38 drops none of 40 packets; waits 2000.0 us (median), 3899.0 us (99 of 100)", "39 packets of a band wait at once", "38 was the first that was run", "txqueuelen 37 drops 1 of 40")
    expect("how-long, some dropped", find("once", "--drops", "5"), 0, "txqueuelen 33 drops 5 of 40 packets", "by bisection")
    expect("how-long, a share dropped", find("once", "--drops", "10%"), 0, "txqueuelen 34 drops 4 of 40 packets")
    expect("how-long, slots that aren't emptied", find("twice", "a.csv", "a.svg"), 0, "txqueuelen 43 drops none of 45 packets", "each length from 38 on was run", "txqueuelen 42 drops 1 of 45")
    rows = (room / "a.csv").read_text(encoding="utf-8").splitlines()
    is_equal("how-long, its table", (rows[0].startswith("len,sent,dropped,dropped_0,"), [row[:12] for row in rows if row.startswith("42,")]), (True, ["42,44,1,0,1,"]))
    expect_picture("how-long", room / "a.svg", "twice.pcap over a link of 8mbit, 45 packets", "packets dropped", "wait, milliseconds", "txqueuelen")
    expect("how-long, wrong words", find("once", "--drops", "few"), 2, "--drops few")
    expect("how-long, a fault", run(HERE / "how-long", "once.pcap", "8mbit", "--program", "/bin/false", cwd=room), 1, "exit code 1 of the program")


# THE PLAN FOR A LINK


def capture_of_frames(frames, link=1):
    """A capture of frames with these times, in microseconds, and lengths on the wire."""
    times, lengths = zip(*frames) if frames else ((), ())
    return classic([1000 * time for time in times], [frame(0, 0, 0)[14 * (link == 101) :]] * len(times), link=link, lengths=lengths)


def test_at_rate():
    room = room_of("rate")

    def of(frames, *words, link=1):
        (room / "c.pcap").write_bytes(capture_of_frames(frames, link))
        return run(HERE / "at-rate", room / "c.pcap", *words)

    # 1,514 bytes and 24 more are 12,304 bits, which take 123.04 microseconds
    whole = [(0, 1514), (9, 1514)]
    said = of(whole, "100mbit")
    expect("at-rate", said, 0, "# A link of 100mbit for c.pcap", "Its 2 packets need 0.000246 s of the wire, and come within 9e-06 s.", "24 more, and 84 at least (preamble 8, FCS 4, gap 12)",
           "\nversion = 5\n[[station]]\nlen = 1000\nrate_kbit = 100000\nring = 1\n")  # fmt: skip
    is_equal("at-rate: faults of its plan", plans.judge(said[1].encode())[1], [])
    keys = {
        "--len 100 --coalesce 50": "len = 100\nrate_kbit = 100000\nring = 1\ncoalesce_us = 50\n", "--bql 3028": "rate_kbit = 100000\nbql = 3028\n", "--ring 64 --overhead 0": "ring = 64\noverhead = 0\n",
        "--preset ixgbe": "rate_kbit = 100000\nring = 512\n", "--preset mlx5 --bql 9000": "rate_kbit = 100000\nbql = 9000\n", "--preset veth": "ring = 1\noverhead = 0\nmpu = 1\n",
    }  # fmt: skip
    for words, text in keys.items():
        is_equal(f"at-rate {words}", of(whole, "100mbit", *words.split())[1].endswith(text), True)
    expect("at-rate, a driver", of(whole, "100mbit", "--preset", "ixgbe"), 0, "drivers/net/ethernet/intel/ixgbe/ixgbe.h (IXGBE_DEFAULT_TXD)", "byte queue limits too")
    expect("at-rate, a bridge", of(whole, "100mbit", "--classify", "none"), 0, '\nversion = 5\nclassify = "none"\n[[station]]\n')
    expect("at-rate, frames that offloads put together", of([(0, 4000), (9, 60)], "100mbit"), 0, "1 of 2 packets (50%) have more than 1,522 bytes, up to 4,000")
    expect("at-rate, of raw IP", of([(0, 1500), (9, 1500)], "100mbit", link=101), 0, "need 0.000246 s of the wire")
    for rate, kbit in (("40gbit", 40000000), ("0.1Gbit", 100000), ("1tbit", 10**9), ("1000bit", 1)):
        expect(f"at-rate {rate}", of(whole, rate), 0, f"rate_kbit = {kbit}\n")
    for words in ("100", "0mbit", "fast", "1500bit", "1.001tbit", "100mbit --len 0", "100mbit --ring 65537", "100mbit --coalesce many", "100mbit --ring 2 --bql 3000", "100mbit --overhead 0 --mpu 0", "100mbit --preset e1000", "100mbit more", ""):
        said = of(whole, *words.split())
        expect(f"at-rate {words}", said, 2)
        is_equal(f"at-rate {words}: what is printed", said[1], "")
    expect("at-rate, an empty capture", of([], "100mbit"), 1, "no packets")
    expect("at-rate, without times", of([(5, 60), (5, 60)], "100mbit"), 1, "no times")
    said = of([(5, 60), (4, 60)], "100mbit")
    expect("at-rate, a time that goes back", said, 1, "a link takes no such capture. To sort them", ": reordercap ")
    is_equal("at-rate, a time that goes back: what is printed", said[1], "")
    # frames that come as the link carries them, and some that come four times as quickly
    expect("at-rate, a capture of the link", of([(124 * number, 1514) for number in range(150)], "100mbit"), 0, "it seems to be taken on the link itself, behind its queue")
    expect_none("at-rate, a capture of what comes", of([(124 * number if number < 300 else 27900 + 31 * number, 1514) for number in range(450)], "100mbit"), "behind its queue")
    expect("at-rate, no capture", run(HERE / "at-rate", TOP / "README.md", "100mbit"), 1, "neither pcap nor pcapng")
    expect("at-rate, no file", run(HERE / "at-rate", room / "none", "100mbit"), 1, "No such file")


def test_link():
    """The example is what its script and `at-rate` make, and small."""
    example = TOP / "examples/link.pcap"
    if subprocess.run([TOP / "examples/make-link"], capture_output=True).stdout != example.read_bytes() or example.stat().st_size > 300000:
        fault("examples/link.pcap isn't what examples/make-link makes")
    said = run(HERE / "at-rate", example, "100mbit", "--len", "100")
    fault_if(said[1] != (TOP / "examples/link.toml").read_text(encoding="utf-8"), "examples/link.toml isn't what tools/at-rate writes")


def test_queue_by_time():
    """Of three packets at once one is taken, and one has a place in a queue of one; a multiple of 10 lies between 9 and 10, and at 10."""
    for times, wanted in (([0, 0, 0], 1), ([9, 9, 10, 10], 1), ([8, 9, 9], 1), ([9, 10, 11], 0), ([9, 10, 11, 12], 1), ([], 0), ([5, 5, 95, 95, 95], 1)):
        fault_if(by_time.dropped_by_time(times, 1, 10) != wanted, f"at {times} {by_time.dropped_by_time(times, 1, 10)} packets are dropped, and not {wanted}")
