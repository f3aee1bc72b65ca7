"""What is said of a run and of a tap, and drawn."""
import re
import tomllib
import xml.etree.ElementTree

from lib import captures
from tests.bench import HERE, TOP, capture_of, expect, expect_none, expect_picture, fates_of, fault, fault_if, frame, is_equal, room_of, run, write

# of each example plan a part of what is told, with the counts of the pages, and the fates that docs/FORMATS.md tells of
RUNS = {
    "drops": ("sent 20639 bytes 153 pkt, dropped 117 (full 117)\n 112 sent while packets came, and 41 after the last packet\n band 0: sent 2918 bytes 40 pkt, dropped 0\n",
              ["49 full 23", "50 full 23", "51 full 23"]),
    "short-rings": ("dropped 140 (full 140)", ["53 full 11"]),
    "queues": (" queue 1: sent 26656 bytes 170 pkt, dropped 0\n", ["10 sent 0 10", "16 sent 0 16"]),
    "swap": ("units that sent: 0 1\n", ["149 purged 0", "150 sent 1 0"]),
    "events": ("(full 38, shrunk 18, purged 44, refused 40)", ["100 refused 0", "139 refused 0"]),
    "hang": ("(full 26, purged 144)", []),
    "busy": ("dropped 0\n", ["269 sent 0 269"]),
    "several-stations": ("requeues 5\n", []),
    "stop-and-busy": ("station 1: pfifo_fast, 3 bands of 32 slots", []),
    "multi-queue": (" queue 1: sent 16731 bytes 115 pkt, dropped 55 (full 55)\n queue 2: sent 3700 bytes 50 pkt, dropped 0\n", ["14 sent 1 10", "15 sent 1 16", "54 sent 2 2", "55 full 23"]),
}  # fmt: skip


# of each pair a plan and another run's fates, and why these can't be
OTHER_FATES = [
    ("short-rings", "drops", "the fates are of another plan or capture: they have "),
    ("drops", "events", "isn't one of this plan: "),
    ("drops", "several-stations", "is of station 0 and was sent by unit 1"),
    ("several-stations", "drops", "was sent by unit 0"),
    ("drops", "cut", "270 packets and 269 fates"),
    ("senders", "twice", "unit 0 sent 153 packets, and their serials aren't 0 to 152"),
    ("drops", "none", "none.fates: No such file"),
]
# words that are wrong, or files that can't be read or written: the exit code, and what is said
WRONG = [
    ("{none} {capture} {drops}", 1, "none.toml: No such file"),
    ("{plan} {plan} {drops}", 1, "drops.toml: it is neither pcap nor pcapng"),
    # a run that was refused has no fates, and why it was is what is said
    ("{room}/refused.toml {capture} {room}/none", 1,
    "refused.toml is no plan, and `lqtx` refuses it: station 0, `lne`: no such key; did you mean `len`? (2 UnknownKey)"),
    ("{room}/many.toml {capture} {room}/none", 1, "many.toml has no run: `lqtx` refuses a plan that needs 17 devices, and there are 16"),
    ("{plan} {room}/cut.pcap {room}/none", 1, "cut.pcap: a record is cut off at"),
    ("{plan} {capture} {drops} {room}/none/a.svg", 1, "a.svg: No such file"),
    ("{plan} {capture} {drops} {room}/a.png", 2, "a.png: a picture is written as SVG"),
    ("{plan} {capture} {drops} --table {room}/a.xlsx", 2, "a.xlsx: its name ends in .csv, .json or .jsonl"),
    ("{plan} {capture} {drops} --marked {room}/a.pcap", 2, "a.pcap: its name ends in .pcapng"),
    ("{plan} {capture}", 2, "2 words are too few: tools/show-run PLAN CAPTURE OUT"),
    ("{plan} {capture} {drops} a.svg b.svg c.svg", 2, "6 words are too many: tools/show-run PLAN CAPTURE OUT"),
    ("{plan} {capture} {drops} --colour", 2, "unrecognized arguments: --colour"),
    ("{plan} {capture} {drops} --numbers-from 2", 2, "--numbers-from"),
    # no output is an input, whatever it is called
    ("{plan} {room}/lost.pcap {drops} --dropped {room}/lost.pcap", 2, "is an input"),
    ("{plan} {room}/lost.pcap {drops} --dropped {room}/link.pcap", 2, "is an input"),
    ("{plan} {capture} {drops} --table {room}/drops.csv", 2, "is an input"),
    ("{plan} {capture} {drops} --html {room}/drops.html", 2, "is an input"),
]
# parts of the pictures of a run, by their files
PICTURES = [
    ("drops.svg", "above: sent after the last packet (41)", "full, band 1"),
    ("drops.backlog.svg", ">41 sent</text>"),
    ("events.svg", "<title>event 2: resize to 4 slots, before packet 200</title>", ">down</text>", ">up</text>"),
    ("swap.svg", "station 0, unit 1: sent 120, from packet 150 on"),
]
LOOPBACK = TOP / "examples/loopback.pcap"


def example(name):
    return TOP / f"examples/{name}.toml"


def show(plan, out, *more, capture=LOOPBACK):
    return run(HERE / "show-run", plan, capture, out, *more)


def test_show_run():
    room = room_of("runs")
    for name, (told, fates) in RUNS.items():
        text = fates_of(tomllib.loads(example(name).read_text(encoding="utf-8")), LOOPBACK)
        write(room / f"{name}.fates", text)
        is_equal(f"lines that the run of {name} lacks", [line for line in fates if line + "\n" not in text], [])
        picture, backlog = room / f"{name}.svg", room / f"{name}.backlog.svg"
        expect(f"show-run {name}", show(example(name), room / name, picture, backlog), 0, told)
        expect_picture(f"show-run {name}", picture, f"{name}.toml over loopback.pcap: 270 packets, sent ", "serial", ">250</text>")
        expect_picture(f"show-run {name}", backlog, "packets that wait in each band")
        expect_inside(f"show-run {name}", picture, backlog)
    for name, *parts in PICTURES:
        expect_picture("show-run", room / name, *parts)
    is_equal("show-run: the legend has a kind of fate that there isn't", "shrunk" in (room / "drops.svg").read_text(encoding="utf-8"), False)
    said = show(example("drops"), room / "drops", "--dropped", room / "lost.pcap", "--numbers-from", "1")
    expect("show-run --dropped", said, 0, "the 117 packets that weren't sent, the first is number 50\n")
    is_equal("show-run --dropped", len(captures.read(room / "lost.pcap")), 117)
    # pcapng, with interfaces of two link types
    write(room / "ng.fates", "".join(f"{n} sent 0 {n}\n" for n in range(3)) + "3 full 1\n")
    file = TOP / "examples/two-interfaces.pcapng"
    bands = captures.read(file).bands
    expect("show-run, pcapng", show(example("senders"), room / "ng", capture=file),
           *((0, "station 0: pfifo_fast") if bands[3] == bands[1] else (1, "met packet 1 of another station or band")))
    # of several senders the backlog isn't known, and the other picture is drawn
    said = show(example("senders"), room / "busy", room / "s.svg", room / "b.svg")
    expect("show-run, a backlog of several senders", said, 1, "b.svg isn't drawn: with several senders", "aren't known: with several senders")
    expect_picture("show-run, several senders", room / "s.svg", "senders.toml over loopback.pcap")
    show_run_of_other_files(room)


def show_run_of_other_files(room):
    """Fates that can't be, and words that are wrong: a line, and no file is changed."""
    text = (room / "drops.fates").read_text(encoding="utf-8")
    swaps = "[[station]]\n" * 8 + "[[event]]\nbefore = 1\nkind = \"swap\"\nstation = 0\n" * 9
    room_of("runs", {"refused.toml": "[[station]]\nlne = 4\n", "many.toml": swaps, "cut.pcap": LOOPBACK.read_bytes()[:-5]})
    write(room / "cut.fates", text[:-20])
    write(room / "twice.fates", text.replace("1 sent 0 1\n", "1 sent 0 0\n", 1))
    for plan, name, why in OTHER_FATES:
        expect(f"show-run, {plan} over {name}", show(example(plan), room / name), 1, why)
    for name, target in (("link.pcap", "lost.pcap"), ("drops.csv", "drops.fates"), ("drops.html", "drops.fates")):
        (room / name).symlink_to(target)
    inputs = {name: (room / name).read_bytes() for name in ("drops.fates", "lost.pcap")}
    for words, code, why in WRONG:
        said = run(HERE / "show-run", *words.format(room=room, plan=example("drops"), capture=LOOPBACK, drops=room / "drops", none=room / "none.toml").split())
        expect(f"show-run {words}", said, code, why)
        expect_none(f"show-run {words}", said, "Traceback")
        fault_if(code == 2 and said[2].count("\n") != 1, f"show-run {words}: says more than a line: {said[2]!r}")
    is_equal("show-run: inputs", {name: (room / name).read_bytes() for name in inputs}, inputs)
    said = run(HERE / "show-run", "--help")
    expect("show-run --help", said, 0, "tools/show-run PLAN CAPTURE OUT [PICTURE.svg [BACKLOG.svg]] [options]")
    is_equal("show-run --help: standard error", said[2], "")


def expect_inside(name, *files):
    """Faults where a text of a picture stands outside of it."""
    for file in files:
        root = xml.etree.ElementTree.parse(file).getroot()
        wide, tall = int(root.get("width")), int(root.get("height"))
        for element in root.iter("{http://www.w3.org/2000/svg}text"):
            x, y, size = float(element.get("x")), float(element.get("y")), 5.2 * len(element.text or "")
            left = x - {"start": 0, "middle": size / 2, "end": size}[element.get("text-anchor")]
            if not element.get("transform") and not (0 <= left and left + size <= wide and 10 <= y <= tall - 2):
                fault(f"{name}: {element.text!r} isn't inside of {file.name}")


# the fates of a tap of one sender, a ring of 4 slots and batches of 4, of ten packets
TAP_FATES = ["0 read 0", "1 read 1", "2 lost", "3 read 2", "4 read 3", "5 read 4", "6 read 5", "7 full 3", "8 full 3", "9 read 6"]
# how fates that none gives are made of them, and what is said
NO_TAP_FATES = {
    "itself": ("7 full 3", "7 full 7", "packet 7 met packet 7, which wasn't in the ring"),
    "other_full": ("7 full 3", "7 full 8", "packet 7 met packet 8, which wasn't in the ring"),
    "twice": ("9 read 6", "9 read 5", "7 packets were read, and their places aren't 0 to 6"),
    "order": ("3 read 2\n4 read 3", "3 read 3\n4 read 2", "packet 3 was read after packet 4 of the same sender"),
    "sent": ("9 read 6", "9 sent 0 6", "line 10 of the fates isn't one of a tap: '9 sent 0 6'"),
    "short": ("9 read 6\n", "", "10 packets and 9 fates"),
    "high": ("8 full 3", "8 full 10", "names a number that is too high"),
    "number": ("8 full 3", "7 full 3", "line 9 of the fates is of packet 7"),
    "other_read": ("2 lost\n3 read 2", "2 read 2\n3 lost", "the capture that was written isn't that of the packets read"),
}


def test_show_run_of_a_tap():
    loopback, text = captures.read(LOOPBACK), "".join(fate + "\n" for fate in TAP_FATES)
    read = loopback.written([0, 1, 3, 4, 5, 6, 9])
    room = room_of("taps", {"ten.pcap": loopback.written(range(10)), "t.fates": text, "t.pcap": read})
    show = lambda out, *words, tap="1 4 4": run(HERE / "show-run", "tap", *tap.split(), room / "ten.pcap", room / out, *words)
    said = show("t", room / "t.svg", "--dropped", room / "lost.pcap")
    octets = sum(loopback.lengths[n] for n in (0, 1, 3, 4, 5, 6, 9))
    expect("show-run of a tap", said, 0, "tap: a ring of 4 slots, 1 senders, batches of 4\n", f" read {octets} bytes 7 pkt, dropped 3 (full 2, lost 1)\n sender 0: read ",
           "the 3 packets that weren't read, the first is number 2\n")  # fmt: skip
    is_equal("show-run of a tap: --dropped", captures.read(room / "lost.pcap").lengths, loopback.lengths[2:3] + loopback.lengths[7:9])
    expect_picture("show-run of a tap", room / "t.svg", "ten.pcap through a ring of 4 slots: 10 packets, read 7, full 2, lost 1", "place", ">sender 0</text>")
    for name, (old, new, why) in NO_TAP_FATES.items():
        room_of("taps", {f"{name}.fates": text.replace(old, new), f"{name}.pcap": read})
        expect(f"show-run of a tap, {name}", show(name), 1, why)
    for tap, code, part in (("1 10 4", 1, "by a ring of 10 slots that 8 came into"), ("1 9 4", 1, "dropped by a ring of 9 slots that 8 came into"),
                            ("2 4 4", 0, " sender 1: read "), ("0 4 4", 2, "SENDERS is 0, and not 1 to 8")):  # fmt: skip
        expect(f"show-run of a tap, {tap}", show("t", tap=tap), code, part)
    expect("show-run of a tap, no capture", show("none"), 1, "none.fates: No such file")


# plans with groups, worked by hand: packets as type of service, source byte and route byte; the fates; and the packets of the joint file
GROUPS = {
    "version = 3\n[[station]]\nmq = 2\n": ([(0, 1, 0), (0, 0, 0), (0, 3, 0)], ["sent 1 0", "sent 0 0", "sent 1 1"], [1, 0, 2]),
    "version = 3\n[[station]]\nmq = 2\n[[event]]\nbefore = 2\nkind = \"down\"\nstation = 0\n": (
        [(0, 1, 0), (0, 0, 0), (0, 3, 0)], ["sent 1 0", "sent 0 0", "refused 0"], [1, 0]),
    # three children of two stations; both of the first stop after each packet
    "version = 3\nirq_every = 4\n[[station]]\nmq = 2\nburst = 1\n[[station]]\n": (
        [(0, 0, 0), (0, 1, 0), (0, 5, 1), (0, 0, 0), (0, 1, 0), (0, 1, 0)],
        ["sent 0 0", "sent 1 0", "sent 2 0", "sent 0 1", "sent 1 1", "sent 1 2"], [0, 1, 3, 4, 5]),
    # an event of the plan's station is one of each child
    "version = 3\nirq_every = 1000\n[[station]]\n[[station]]\nmq = 2\nburst = 1\n[[event]]\nbefore = 4\nkind = \"tx_queue_len\"\nstation = 1\nlen = 1\n": (
        [(0, 0, 1), (0, 1, 1), (0, 0, 1), (0, 1, 1), (0, 0, 1), (0, 1, 1), (0, 0, 1)],
        ["sent 1 0", "sent 2 0", "purged 0", "purged 0", "sent 1 1", "sent 2 1", "sent 1 2"], [0, 1, 4, 5, 6]),
}  # fmt: skip


def test_groups():
    for number, (plan, (packets, fates, joint)) in enumerate(GROUPS.items()):
        room = room_of(f"group{number}", {"p.toml": plan, "c.pcap": capture_of(*(frame(*packet) for packet in packets))})
        found = fates_of(tomllib.loads(plan), room / "c.pcap")
        is_equal(f"the fates of {plan!r}", found, "".join(f"{n} {fate}\n" for n, fate in enumerate(fates)))
        of, at = captures.read(room / "c.pcap"), 1 if "[[station]]\n[[station]]\nmq" in plan else 0
        file = room / f"o.mq{at}.pcap"
        room_of(room.name, {"o.fates": found, file.name: of.written(joint)})
        show = lambda *words: run(HERE / "show-run", room / "p.toml", room / "c.pcap", room / "o", *words)
        expect(f"show-run of a group, {plan!r}", show(room / "a.svg", room / "b.svg"), 0, f"mq {at}: 2 queues, each with a pfifo_fast of its own: ", f"{file}: the packets that they sent, by serial\n", f"station {at + 1}, queue 1 of mq {at}: ")
        expect_picture("show-run of a group", room / "a.svg", f"mq {at}: sent {len(joint)} by 2 queues", "place in its file", f"station {at}, queue 0 of mq {at}, unit {at}: sent ", "queue 1</text>")
        expect_picture("show-run of a group", room / "b.svg", f"mq {at}: packets that wait in each queue")
        # in the order of numbers, with a packet left out, and with a tie broken the other way
        for wrong in (joint[:-1], joint[::-1], [joint[1], joint[0], *joint[2:]]):
            file.write_bytes(of.written(wrong))
            expect(f"show-run, a joint file of {wrong}", show(), 1, "by serial: it is of another run")


def test_many_packets():
    """A picture of many packets is thinned, and stays small."""
    many = capture_of(*(frame([0, 8, 16][n % 3], n % 7, 0) for n in range(30000)))
    room = room_of("many", {"c.pcap": many, "p.toml": "version = 3\nsenders = 2\n[[station]]\nmq = 2\nlen = 4096\nburst = 1\n", "one.toml": "[[station]]\n",
                            "one.fates": "".join(f"{n} sent 0 {n}\n" for n in range(30000))})  # fmt: skip
    show = lambda plan, out: run(HERE / "show-run", room / f"{plan}.toml", room / "c.pcap", room / out, room / f"{out}.svg")
    # each dot has a place of its own, and there are more than the group's panel has room for
    sent = sorted(range(30000), key=lambda n: n * 7919 % 30000)
    serials, many = {}, [0, 0]
    for n in sent:
        serials[n] = many[n % 7 % 2]
        many[n % 7 % 2] += 1
    (room / "o.fates").write_text("".join(f"{n} sent {n % 7 % 2} {serials[n]}\n" for n in range(30000)), encoding="utf-8")
    expect("show-run, many packets", show("p", "o"), 0, "30000 pkt")
    expect_picture("show-run, many packets", room / "o.svg", ">30000</text>")
    picture = (room / "o.svg").read_text(encoding="utf-8")
    # of the group's panel, whose dots are thinned twice
    for colour in ("#59a14f", "#b07aa1"):
        fault_if(f'h0" stroke="{colour}"' not in picture, f"the picture has no dots of {colour}")
    fault_if(len(picture) > 1_000_000 or not 5000 < picture.count("h0") <= 60000, f"the picture has {len(picture)} bytes and {picture.count('h0')} dots")
    # each band is to be seen where all are sent in their order, which is one line of dots
    expect("show-run, a line of dots", show("one", "one"), 0, "30000 pkt")
    picture = (room / "one.svg").read_text(encoding="utf-8")
    bands = {colour: re.findall(r"M([\d.]+,[\d.]+)h0", path) for path, colour in re.findall(r'<path d="([^"]*h0)" stroke="(#\w+)"', picture)}
    if len(bands) != 3 or min(map(len, bands.values())) < 60 or len({place for places in bands.values() for place in places}) != sum(map(len, bands.values())):
        fault(f"the bands of the picture have {[len(band) for band in bands.values()]} dots, or share places")
