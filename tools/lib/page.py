"""A page of a run in one file: counts, pictures, and a table that sorts and filters. Packets are columns of numbers, and rows are made by the page."""
import base64
import html
import json
import pathlib
import re
from array import array

from lib import pictures, svg
from lib.counts import name_of
from lib.packets import NO_TIME, seconds
from lib.words import counted

HERE = pathlib.Path(__file__).resolve().parent
# in place of a station, a queue or a band of a tap, which has none
UNKNOWN = 255
CODES = {"u8": "B", "u16": "H", "u32": "I", "f64": "d"}


def packed(values, type_of=None):
    """A column, little-endian, of the least type that holds it."""
    if type_of is None:
        most = max(values, default=0)
        type_of = "u8" if most < 256 else "u16" if most < 65536 else "u32"
    data = array(CODES[type_of], values)
    if array("H", [1]).tobytes() == b"\0\1":
        data.byteswap()
    return {"type": type_of, "data": base64.b64encode(data.tobytes()).decode()}


def columns_of(shown):
    """What the page knows of each packet; times are nanoseconds after the first one."""
    run, packets, flows, waits, count = shown.run, shown.packets, shown.flows, shown.waits, len(shown.run.capture)
    start = next((time for time in packets.times if time != NO_TIME), 0)
    nan = float("nan")
    sender, *places = run.places()
    found = {
        "time": packed([nan if time == NO_TIME else time - start for time in packets.times], "f64"),
        "length": packed(run.capture.lengths), "sender": packed(sender), "dscp": packed(flows.services), "flow": packed(flows.of),
        "fate": packed(run.kinds), "names": packed(run.names, "u32"), "serial": packed(run.serials),
    }  # fmt: skip
    for name, values in zip(("station", "queue", "band"), places):
        found[name] = packed(bytes([UNKNOWN]) * count if values is None else values)
    if run.has_units and run.plan.by_time:
        first = min(run.placed.times, default=0)
        found["moment"] = packed([time - first for time in run.placed.times], "f64")
    if waits:
        found["gone"] = packed(waits.left, "u32")
        found["waited"] = packed([(left + 1) // 2 - 1 - n for n, left in enumerate(waits.left)])
        if waits.by_time:
            found["wait"] = packed([nan if time is None else time for time in map(waits.time, range(count))], "f64")
        if waits.wire:
            ends = {flight.number: flight.ends // waits.wire.card.rate_kbit - start for flight in waits.wire.flights}
            found["ends"] = packed([ends.get(n, nan) for n in range(count)], "f64")
        found["late"] = packed([left == waits.end for left in waits.left])
    return found, start


def data_of(shown, first):
    """All that the page knows, as JSON that may stand in a page."""
    run = shown.run
    columns, start = columns_of(shown)
    events = [pictures.event_words(number, event, first) for number, event in enumerate(run.plan.event)] if run.has_units else []
    about = {
        "count": len(run.capture), "first": first, "kinds": run.KINDS, "colours": pictures.DROP_COLOURS, "units": run.has_units,
        "many_units": run.has_units and len(run.numbers) > 1, "waits": bool(shown.waits), "digits": shown.waits.digits if shown.waits else shown.packets.digits, "start": str(start),
        "flows": [list(flow) for flow in shown.flows.flows], "events": events, "left": pictures.LEFT, "width": pictures.WIDTH, "columns": columns,
        "span": getattr(pictures.axis_of(run, first), "span", 0),
    }  # fmt: skip
    return json.dumps(about, separators=(",", ":")).replace("<", "\\u003c")


def classes_of(run):
    """Each line of the counts: its name, whether it is a whole, which packets it is of, and the station and band of one band."""
    if not run.has_units:
        yield "all", True, lambda sender: True, None
        yield from ((f"sender {wanted}", False, lambda sender, wanted=wanted: sender == wanted, None) for wanted in range(run.many))
        return
    for station, table in enumerate(run.tables):
        for at, children in run.groups:
            if station == children[0]:
                yield f"mq {at}", True, lambda its, band, queue, children=children: its in children, None
        yield name_of(run, station), True, lambda its, band, queue, station=station: its == station, None
        for wanted in range(3):
            yield f"band {wanted}", False, lambda its, band, queue, station=station, wanted=wanted: (its, band) == (station, wanted), (station, wanted)
        for wanted in range(table.queues) if table.queues > 1 else []:
            yield f"queue {wanted}", False, lambda its, band, queue, station=station, wanted=wanted: (its, queue) == (station, wanted), None


def counts_table(shown):
    """The counts as a table: what was sent and dropped, and of each band its backlog and waits."""
    run, waits = shown.run, shown.waits
    total, _ = run.of_kinds()
    kinds = [kind for kind in run.KINDS[1:] if total[kind]]
    heads = ["", run.KINDS[0], "bytes", *(["after the last packet"] if waits else []), *kinds]
    heads += ["greatest backlog", "middle wait", "greatest wait", "middle wait, s", "wait of 99 of 100, s", "greatest wait, s"] if waits else []
    yield "<table><thead><tr>" + "".join(f'<th scope="col">{head}</th>' for head in heads) + "</tr></thead><tbody>"
    for name, is_whole, wanted, band in classes_of(run):
        packets, octets = run.of_kinds(wanted)
        cells = [html.escape(name), packets[run.KINDS[0]], octets[run.KINDS[0]], *([waits.late_of(wanted)] if waits else []), *(packets[kind] for kind in kinds)]
        if waits and band:
            of = waits.of_sent(*band)
            times = [seconds(time, waits.digits) if time is not None else "" for time in (of.middle_time, of.most_time, of.greatest_time)] if of else [""] * 3
            cells += [waits.greatest(band[0], [band[1]]), *([of.middle, of.greatest] if of else ["", ""]), *times]
        elif waits:
            cells += [""] * 6
        yield f'<tr{" class=whole" if is_whole else ""}>' + "".join(f"<td>{cell}</td>" for cell in cells) + "</tr>"
    yield "</tbody></table>"


def about_of(shown):
    """What is to be known before the counts."""
    run = shown.run
    if not run.has_units:
        return "The ring of a tap: packets that its reader read, that found it full, and that were lost. Fates don't say when, so there are no waits."
    if not shown.waits:
        return "With several senders fates don't say when a packet left: backlog, waits and what was sent after the last packet aren't known."
    late = len(shown.waits.late)
    sent = run.of_kinds()[0]["sent"]
    came = counted(sent - late, "packet was", "packets were")
    after = f"{came} sent while packets came, and {late:,} after the last packet, when queues are opened until nothing is held. " if late else ""
    if shown.waits.wire:
        return after + "A wait is how many packets came while one waited, and how long it was until the card accepted it."
    if shown.waits.by_time:
        return after + "A wait is how many packets came while one waited, and how long it was until the opening of its queue at which it left."
    return after + "A wait is how many packets came while one waited, and how much later in the capture the last of them came."


def pictures_of(drawn):
    heads = ["Packets, by number and serial", "Packets that wait"]
    return "\n".join(f"<h2>{head}</h2>\n<figure>{picture}</figure>" for head, picture in zip(heads, drawn))


def whole(shown, drawn, first):
    parts = {
        "TITLE": svg.escaped(pictures.title_of(shown.run, shown.waits, shown.title)), "ABOUT": html.escape(about_of(shown)), "COUNTS": "".join(counts_table(shown)),
        "PICTURES": pictures_of(drawn), "FIRST": str(first), "LAST": str(first + max(len(shown.run.capture) - 1, 0)), "DATA": data_of(shown, first),
        "SCRIPT": (HERE / "page.js").read_text(encoding="utf-8"),
    }  # fmt: skip
    page = re.split("@([A-Z]+)@", (HERE / "page.html").read_text(encoding="utf-8"))
    # every second piece is the name of a part
    return "".join(parts[piece] if at % 2 else piece for at, piece in enumerate(page))
