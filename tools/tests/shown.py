"""What is written of each packet of a run: waits, the table, the marked capture and the page. Each value is worked out by hand."""
import csv
import html
import json
import os
import re
import shutil
import struct
import subprocess
import tomllib

from lib import captures, packets
from tests.bench import ROOM, HERE, TOP, capture_of, expect, expect_none, fates_of, fault, fault_if, frame, room_of, run, write
from tests.made_captures import block, enhanced, interface, option, section, simple


def shown(name, plan, capture, *words):
    """What show-run prints of a run of one sender, whose fates are those that the rules give."""
    room = room_of("shown", {f"{name}.toml": plan, f"{name}.pcap": capture})
    write(room / f"{name}.fates", fates_of(tomllib.loads(plan), room / f"{name}.pcap"))
    return run(HERE / "show-run", room / f"{name}.toml", room / f"{name}.pcap", room / name, *words)


# six packets, a second apart; the device stops after each one, and its queue is opened after the fourth: 0 goes at once, 1 waits in the slot until
# 3 has come, 2 to 5 wait in the band until the capture has ended
SLOW = "irq_every = 4\n[[station]]\nburst = 1\n"
SIX = capture_of(*[frame(0, 7, 9)] * 6)
SIX_ROWS = ["0.000000,34,0,0,0,1,0,0,0.0.0.7,,0.0.0.9,,sent,,0,0,0,0.000000,false", "1.000000,34,0,0,0,1,0,0,0.0.0.7,,0.0.0.9,,sent,,0,1,2,2.000000,false",
            "2.000000,34,0,0,0,1,0,0,0.0.0.7,,0.0.0.9,,sent,,0,2,3,3.000000,true", "3.000000,34,0,0,0,1,0,0,0.0.0.7,,0.0.0.9,,sent,,0,3,2,2.000000,true",
            "4.000000,34,0,0,0,1,0,0,0.0.0.7,,0.0.0.9,,sent,,0,4,1,1.000000,true", "5.000000,34,0,0,0,1,0,0,0.0.0.7,,0.0.0.9,,sent,,0,5,0,0.000000,true"]  # fmt: skip
HEAD = "number,time,length,sender,station,queue,band,dscp,protocol,source,source_port,destination,destination_port,fate,names,unit,serial,waited_packets,waited_seconds,after_last"


def expect_table(name, file, first, rows):
    text = file.read_text(encoding="utf-8")
    fault_if(text != "".join(line + "\n" for line in [HEAD, *(f"{first + n},{row}" for n, row in enumerate(rows))]), f"{name}: the table is {text}")


def test_waits_and_table():
    table = ROOM / "shown/six.csv"
    said = shown("six", SLOW, SIX, "--table", table, "--flows")
    expect("waits", said, 0, "\n 2 sent while packets came, and 4 after the last packet\n", "\n 0 0.0.0.7 > 0.0.0.9: sent 204 bytes 6 pkt, dropped 0\n",
           "\n  backlog at most 4 pkt; wait 2 pkt (2.000000 s) in the middle, 3 pkt (3.000000 s) at most; 4 sent after the last packet\n band 2")  # fmt: skip
    expect_table("table", table, 0, SIX_ROWS)
    # a reader that has had enough at once doesn't keep the files from being written
    table.unlink()
    words = [HERE / "show-run", ROOM / "shown/six.toml", ROOM / "shown/six.pcap", ROOM / "shown/six", "--table", table]
    with subprocess.Popen([str(word) for word in words], stdout=subprocess.PIPE, env=os.environ | {"PYTHONUNBUFFERED": "1"}) as process:
        process.stdout.close()
    expect_table("table, nobody reads", table, 0, SIX_ROWS)
    expect("table, numbers from 1", shown("six", SLOW, SIX, "--table", table, "--numbers-from", "1"), 0)
    expect_table("table, numbers from 1", table, 1, SIX_ROWS)
    rows = list(csv.DictReader(table.open(encoding="utf-8")))
    for ending in (".json", ".jsonl"):
        expect(f"table{ending}", shown("six", SLOW, SIX, "--table", table.with_suffix(ending), "--numbers-from", "1"), 0)
        text = table.with_suffix(ending).read_text(encoding="utf-8")
        found = json.loads(text) if ending == ".json" else [json.loads(line) for line in text.splitlines()]
        as_text = lambda value: "" if value is None else str(value).lower() if isinstance(value, bool) else str(value)
        for entry, row in zip(found, rows):
            told = {key: f"{value:.6f}" if key in ("time", "waited_seconds") else as_text(value) for key, value in entry.items()}
            fault_if(told != row or len(found) != 6, f"table{ending}: {told} beside {row}")
    # an event: packets 1 and 2 are purged before packet 3, for which two and one came in the meantime; the last is full behind a ring of one slot
    down = SLOW + "len = 1\n[[event]]\nbefore = 3\nkind = \"down\"\nstation = 0\n[[event]]\nbefore = 3\nkind = \"up\"\nstation = 0\n"
    expect("waits, an event", shown("down", down.replace("irq_every = 4", "irq_every = 9"), SIX, "--table", table), 0, "backlog at most 2 pkt")
    fates = [row.split(",", 13)[13] for row in table.read_text(encoding="utf-8").splitlines()[1:]]
    wanted = ["sent,,0,0,0,0.000000,false", "purged,0,,,1,1.000000,false", "purged,0,,,0,0.000000,false", "sent,,0,1,2,2.000000,true", "sent,,0,2,1,1.000000,true", "full,4,,,0,0.000000,false"]
    fault_if(fates != wanted, f"table, an event: {fates}")
    # of several senders nothing is known of waits
    (ROOM / "shown/many.toml").write_text("senders = 2\n[[station]]\n", encoding="utf-8")
    shutil.copy(ROOM / "shown/six.fates", ROOM / "shown/many.fates")
    said = run(HERE / "show-run", ROOM / "shown/many.toml", ROOM / "shown/six.pcap", ROOM / "shown/many", "--table", table)
    expect("table, several senders", said, 0, "backlog, waits, and what was sent after the last packet aren't known")
    expect_none("table, several senders", said, "after the last packet\n band", "backlog at most")
    expect_table("table, several senders", table, 0, [re.sub(r"34,0,", f"34,{n % 2},", re.sub(r",\d+,[\d.]+,\w+$", ",,,", row)) for n, row in enumerate(SIX_ROWS)])
    # the queue of a child is that of its group's device
    expect("table, a group", shown("group", "version = 3\n[[station]]\n[[station]]\nmq = 2\n", capture_of(frame(0, 3, 1)), "--table", table), 0)
    expect_table("table, a group", table, 0, ["0.000000,34,0,2,1,1,0,0,0.0.0.3,,0.0.0.1,,sent,,2,0,0,0.000000,false"])


def ipv4(service, protocol, more, fragment=0, options=b""):
    head = struct.pack(">BBHHHBBH4s4s", 0x45 + len(options) // 4, service, 0, 0, fragment, 64, protocol, 0, bytes([10, 0, 0, 1]), bytes([10, 0, 0, 2]))
    return head + options + more


def ipv6(protocol, more):
    return struct.pack(">IHBB16s16s", 0x60000000 | 46 << 22, 0, protocol, 64, bytes(15) + b"\1", b"\xfe\x80" + bytes(13) + b"\2") + more


ETHERNET, PORTS = bytes(12), struct.pack(">HH", 5353, 53) + bytes(4)
FOUR = ("10.0.0.1", "10.0.0.2")
# the link type, the frame, its DSCP, and its flow
FRAMES = {
    "udp": (1, ETHERNET + b"\x08\0" + ipv4(0xB8, 17, PORTS), 46, ("udp", FOUR[0], 5353, FOUR[1], 53)),
    "options": (1, ETHERNET + b"\x08\0" + ipv4(0, 6, PORTS, 0, bytes(4)), 0, ("tcp", FOUR[0], 5353, FOUR[1], 53)),
    "first fragment": (1, ETHERNET + b"\x08\0" + ipv4(0, 17, PORTS, 0x2000), 0, ("udp", FOUR[0], 5353, FOUR[1], 53)),
    "later fragment": (1, ETHERNET + b"\x08\0" + ipv4(0, 17, PORTS, 0x2001), 0, ("udp", FOUR[0], None, FOUR[1], None)),
    "no ports": (1, ETHERNET + b"\x08\0" + ipv4(4, 1, PORTS), 1, ("icmp", FOUR[0], None, FOUR[1], None)),
    "cut": (1, ETHERNET + b"\x08\0" + ipv4(0, 17, PORTS[:3]), 0, ("udp", FOUR[0], None, FOUR[1], None)),
    "two tags": (1, ETHERNET + b"\x88\xa8\0\1\x81\0\0\2\x08\0" + ipv4(0, 17, PORTS), 0, ("udp", FOUR[0], 5353, FOUR[1], 53)),
    "ipv6": (1, ETHERNET + b"\x86\xdd" + ipv6(6, PORTS), 46, ("tcp", "::1", 5353, "fe80::2", 53)),
    "extension": (1, ETHERNET + b"\x86\xdd" + ipv6(0, b"\x11\0" + bytes(6) + PORTS), 46, ("udp", "::1", 5353, "fe80::2", 53)),
    "raw": (101, ipv4(0, 17, PORTS), 0, ("udp", FOUR[0], 5353, FOUR[1], 53)),
    "cooked": (113, bytes(14) + b"\x08\0" + ipv4(0, 17, PORTS), 0, ("udp", FOUR[0], 5353, FOUR[1], 53)),
    "cooked, version 2": (276, b"\x86\xdd" + bytes(18) + ipv6(17, PORTS), 46, ("udp", "::1", 5353, "fe80::2", 53)),
    "arp": (1, ETHERNET + b"\x08\x06" + bytes(28), 255, (None,) * 5),
    "empty": (1, b"", 255, (None,) * 5),
}


def test_flows():
    for name, (link, data, service, flow) in FRAMES.items():
        head = bytes.fromhex("a1b23c4d0002000400000000000000000000ffff") + link.to_bytes(4, "big")
        of = packets.Packets(captures.Capture(head + struct.pack(">IIII", 5, 7, len(data), len(data)) + data))
        # once as the last packet of the file, and once before another
        more = packets.Packets(captures.Capture(of.capture.data + struct.pack(">IIII", 5, 7, 40, 40) + bytes(40)))
        for at, its in ((of, packets.Flows(of)), (more, packets.Flows(more))):
            if (its.services[0], tuple(its.flows[its.of[0]]), at.times[0], at.digits) != (service, flow, 5000000007, 9):
                fault(f"the flow of {name} is {its.services[0]}, {its.flows[its.of[0]]} at {at.times[0]}")


def blocks_of(data, order):
    at = 0
    while at < len(data):
        kind, total = struct.unpack_from(order + "II", data, at)
        yield kind, data[at : at + total]
        at += total


def without_comment(order, data):
    """An enhanced packet block without its first option, which is a comment; and that comment."""
    captured = struct.unpack_from(order + "I", data, 20)[0]
    at = 28 + captured + -captured % 4
    number, length = struct.unpack_from(order + "HH", data, at)
    rest = data[at + 4 + length + -length % 4 : -4]
    return block(order, 6, data[8:at] + (rest if rest != bytes(4) else b"")), (data[at + 4 : at + 4 + length] if number == 1 else None)


def test_marked():
    fates = ["sent 0 0, station 0, queue 0, band 1", "sent 0 1, station 0, queue 0, band 1", *(f"sent 0 {n}, station 0, queue 0, band 1, after the last packet" for n in range(2, 6))]
    for order in "<>":
        for magic, part, name in ((0xA1B2C3D4, 6, "microseconds"), (0xA1B23C4D, 9, "nanoseconds")):
            head = struct.pack(order + "IHHIIII", magic, 2, 4, 0, 0, 77, 1)
            records = b"".join(struct.pack(order + "IIII", 4294967290 + n, 999990 + n, 34 + n, 1500 + n) + frame(0, 7, 9) + b"x" * n for n in range(6))
            file = ROOM / "shown/marked.pcapng"
            expect(f"marked, {name} {order}", shown("marked", SLOW, head + records, "--marked", file), 0)
            found = list(blocks_of(file.read_bytes(), order))
            wanted = [section(order), block(order, 1, struct.pack(order + "HHI", 1, 0, 77) + option(order, 9, bytes([part])) + bytes(4))]
            for n, told in enumerate(fates):
                options = option(order, 1, f"lqtx: {told}".encode()) + bytes(4)
                wanted.append(enhanced(order, frame(0, 7, 9) + b"x" * n, 0, (4294967290 + n) * 10**part + 999990 + n, 1500 + n, options))
            fault_if([data for _, data in found] != wanted, f"marked, {name} {order}: {file.read_bytes().hex()}")
    marked_pcapng()


def marked_pcapng():
    """All blocks and options of a pcapng stay, a comment that was there too; a simple packet block has no place for one."""
    for order in "<>":
        packet = lambda options: enhanced(order, frame(0, 7, 9), 1, 5 << 32 | 6, options=options)
        parts = [
            interface(order, 101),
            interface(order, 1, option(order, 2, b"eth0") + option(order, 9, b"\x03") + bytes(4)),
            block(order, 4, b"names   "),
            packet(b""),
            packet(option(order, 1, b"seen before") + option(order, 2, bytes(4)) + bytes(4)),
            simple(order, frame(0, 7, 9)),
            packet(option(order, 2, b"\1\0\0\0")),
            block(order, 5, bytes(16)),
            block(order, 0xBAD, b"own data"),
        ]
        head = lambda length: section(order, length=length, options=option(order, 4, b"tcpdump") + bytes(4))
        for given in (False, True):
            data, file = head(len(b"".join(parts)) if given else -1) + b"".join(parts), ROOM / "shown/ng-marked.pcapng"
            said = shown("ng", "[[station]]\n", data, "--marked", file, "--table", ROOM / "shown/ng.csv")
            expect(f"marked pcapng, {order}", said, 0, "1 simple packet blocks have no place for a comment")
            found, comments = [], []
            for kind, whole in list(blocks_of(file.read_bytes(), order))[1:]:
                kept, comment = without_comment(order, whole) if kind == 6 else (whole, None)
                found.append(kept)
                comments += [comment] * (kind == 6)
            wanted = [f"lqtx: sent 0 {n}, station 0, queue 0, band 1".encode() for n in (0, 1, 3)]
            rest = len(file.read_bytes()) - len(head(-1))
            if found != parts or comments != wanted or not file.read_bytes().startswith(head(rest if given else -1)):
                fault(f"marked pcapng, {order}: {comments}, {[a == b for a, b in zip(found, parts)]}")
            # milliseconds, and no time where the block has none
            times = [row["time"] for row in csv.DictReader((ROOM / "shown/ng.csv").open(encoding="utf-8"))]
            fault_if(times != ["21474836.486000", "21474836.486000", "", "21474836.486000"], f"marked pcapng, {order}: the times are {times}")


# what is done on a page by a script of this test, and what is to be seen then
DRIVER = """<script>
const seen = [], say = (name, it) => seen.push(name + "=" + it), type = (text) => { $("filter").value = text; $("filter").dispatchEvent(new Event("input")); };
const press = (key) => document.activeElement.dispatchEvent(new KeyboardEvent("keydown", { key, bubbles: true, cancelable: true }));
const rows = () => pool.filter((it) => !it.hidden), first = (name) => rows()[0].children[shown.indexOf(name)].textContent;
const head = (name) => $("head").querySelector(`button[name=${name}]`).click();
try {
  say("found", $("found").textContent); say("dom", rows().length < 60); say("first", first("number"));
  say("hash", selected + FIRST);
  type("fate=full"); say("full", order.length); say("firstfull", first("number"));
  type("fate=full band=2"); say("full2", order.length);
  type("waited>90"); say("waited", order.length);
  type("nonsense=3"); say("wrong", $("wrong").textContent);
  type("port=18080 after=yes"); say("port", order.length);
  type(""); head("waited"); head("waited"); say("longest", first("number") + "/" + first("waited")); say("sort", $("head").querySelector("[aria-sort=descending]").dataset.name);
  head("number"); say("again", first("number"));
  rows()[2].children[0].click(); say("clicked", selected); say("way", $("way").textContent.replace(/\\s+/g, " "));
  $("grid").focus(); press("ArrowDown"); say("down", selected); press("End"); say("end", selected); say("last", rows()[rows().length - 1].children[0].textContent);
  press("Home"); press("PageDown"); say("page", selected > 5 && rows().some((it) => it.packet === selected)); $("body").focus();
  document.activeElement.blur(); press("/"); say("slash", document.activeElement.id); type("fate=full"); press("Escape"); say("escape", order.length);
  const svg = document.querySelector("figure svg"), box = svg.getBoundingClientRect();
  svg.dispatchEvent(new MouseEvent("click", { bubbles: true, clientX: box.left + box.width * (about.left + 0.502 * about.width) / svg.viewBox.baseVal.width }));
  say("picture", selected); say("marks", document.querySelectorAll("figure svg .mark").length);
  say("narrow", document.documentElement.scrollWidth <= innerWidth);
} catch (fault) { say("fault", fault.stack); }
document.title = "seen " + seen.join("|");
</script>"""


def seen_on(page, fragment, size="1200,900"):
    """What the driver saw on a copy of a page, in headless Chromium; and what went wrong there."""
    copy = page.with_name("driven.html")
    copy.write_text(page.read_text(encoding="utf-8").replace("</body>", DRIVER + "</body>"), encoding="utf-8")
    words = ["chromium", "--headless=new", "--no-sandbox", "--disable-gpu", "--disable-dev-shm-usage", f"--user-data-dir={ROOM}/chromium", f"--window-size={size}"]
    words += ["--enable-logging=stderr", "--virtual-time-budget=10000", "--dump-dom", f"file://{copy}{fragment}"]
    said = subprocess.run(words, capture_output=True, text=True, timeout=240)
    title = re.search(r"<title>(.*?)</title>", said.stdout, re.S)
    return dict(word.partition("=")[::2] for word in html.unescape(title[1] if title else "").removeprefix("seen ").split("|")), re.findall(r"CONSOLE.*", said.stderr)


def expect_seen(name, page, fragment, wanted, **more):
    seen, faults = seen_on(page, fragment, **more)
    for key, value in wanted.items():
        if seen.get(key) != value and not (isinstance(value, list) and all(part in seen.get(key, "") for part in value)):
            fault(f"{name}: {key} is {seen.get(key)!r}, not {value!r}; {seen.get('fault')}")
    fault_if(faults, f"{name}: {faults}")


def test_page():
    """The page of a run; and in a browser, where there is one."""
    file, drops = ROOM / "shown/drops.html", (TOP / "examples/drops.toml").read_text(encoding="utf-8")
    expect("page", shown("drops", drops, (TOP / "examples/loopback.pcap").read_bytes(), "--html", file), 0)
    text = file.read_text(encoding="utf-8")
    for part in ("112 packets were sent while packets came, and 41 after the last packet", "<td>station 0</td><td>153</td><td>20639</td><td>41</td><td>117</td>", "<td>band 0</td><td>40</td><td>2918</td><td>1</td>"):
        fault_if(part not in text, f"page: lacks {part!r}")
    own = re.sub(r'xmlns="http://www.w3.org/2000/svg"', "", text)
    for outside in ("http:", "https:", " src=", "@import", "fetch(", "XMLHttpRequest", "url("):
        fault_if(outside in own, f"page: has {outside!r}, which may load something")
    # packet 0 goes at once, 1 waits in the slot and 2 in the ring of one slot; each opening lets one go, whose place the next packet takes: 101 are sent
    many, plan = capture_of(*[frame(0, 7, 9)] * 100000), "irq_every = 1000\n[[station]]\nburst = 1\nlen = 1\n"
    expect("page of 100,000 packets", shown("large", plan, many, "--html", file.with_name("large.html")), 0, " 101 pkt, dropped 99899 (full 99899)")
    if not shutil.which("chromium"):
        print("tools: no chromium is there, so that the pages aren't looked at in it")
        return
    wanted = {
        "found": "270 packets", "dom": "true", "hash": "49", "full": "117", "firstfull": "49", "full2": "43", "wrong": "no column is called nonsense", "sort": "waited", "again": "0",
        "clicked": "2", "down": "3", "end": "269", "last": "269", "page": "true", "slash": "filter", "escape": "270", "picture": "135", "marks": "2", "fault": None,
        "way": ["Packet 2: sent", "It didn't wait.", "Unit 0 sent it with serial 2: it is record 3 of what the unit sent, after packet 1 and before packet 3."],
    }  # fmt: skip
    expect_seen("page", file, "#packet=49", wanted)
    wanted = {"found": "100000 packets", "dom": "true", "hash": "99999", "full": "99899", "clicked": "2", "down": "3", "end": "99999", "last": "99999", "page": "true", "escape": "100000", "fault": None, "narrow": "true"}
    expect_seen("page of 100,000 packets", file.with_name("large.html"), "#packet=99999", wanted, size="400,800")
