"""The table of a run: a row for each packet, as CSV, as JSON, or as a line of JSON each."""
import json
from itertools import islice, repeat

from lib import outputs
from lib.packets import NO_DSCP, NO_TIME, seconds
from lib.trail import FULL, HANGS, SENT

# what is said of a packet, in parts that are made together
FIRST = ["number", "time", "length"]
PLACE = ["sender", "station", "queue", "band"]
SERVICE = ["dscp"]
FLOW = ["protocol", "source", "source_port", "destination", "destination_port"]
FATE = ["fate", "names", "unit", "serial"]
WAIT = ["waited_packets", "waited_seconds", "after_last"]
COLUMNS = [*FIRST, *PLACE, *SERVICE, *FLOW, *FATE, *WAIT]
# so many rows are written at once
ROWS = 10000


class Csv:
    """A row as CSV: an unknown value is empty. No value has a comma or a quotation mark in it."""

    start, row, between, end, none = ",".join(COLUMNS) + "\n", "%s\n", "", "", ""

    @staticmethod
    def value(given):
        return "" if given is None else str(given).lower() if isinstance(given, bool) else str(given)

    @staticmethod
    def template(names):
        return ",".join("%s" for _ in names)


class Json:
    """A row as an object of JSON: an unknown value is null."""

    start, row, between, end, none = "[", "\n{%s}", ",", "\n]\n", "null"

    @staticmethod
    def value(given):
        return json.dumps(given)

    @staticmethod
    def template(names):
        return ",".join(f'"{name}":%s' for name in names)


class JsonLines(Json):
    start, row, between, end = "", "{%s}\n", "", ""


FORMS = {".csv": Csv, ".json": Json, ".jsonl": JsonLines}


class Made(dict):
    """Values that are made once."""

    def __init__(self, make):
        super().__init__()
        self.make = make

    def __missing__(self, key):
        self[key] = self.make(key)
        return self[key]


def places_of(run):
    """Of each packet its sender, station, queue and band."""
    return zip(*(repeat(None) if place is None else place for place in run.places()))


def part_of(form, names, values):
    return form.template(names) % tuple(map(form.value, values))


def fates_of(run, form, first):
    """Of each packet the kind of its fate, and what it names; of a sent one its unit and serial, of one that was read its place."""
    words, none, hung, is_tap = list(map(form.value, run.KINDS)), form.none, form.value("hung"), not run.has_units
    for kind, name, serial in zip(run.kinds, run.names, run.serials):
        if kind == SENT:
            yield words[SENT], none, none if is_tap else name, serial
        elif kind == FULL:
            yield words[FULL], name + first, none, none
        else:
            yield words[kind], none if is_tap else hung if name == HANGS else name, none, none


def waits_of(run, waits, form, digits):
    """How long each packet waited, in packets that came meanwhile and in the capture's time, and whether it left only after the last packet."""
    unknown, at_once = part_of(form, WAIT, [None] * 3), form.template(WAIT) % ("0", seconds(0, digits), form.value(False))
    if not waits:
        yield from (unknown for _ in run.kinds)
        return
    template, late, end = form.template(WAIT), [form.value(is_late) for is_late in (False, True)], waits.end
    for n, (left, opening) in enumerate(zip(waits.left, waits.trail.openings)):
        if left == 2 * n + 1 and not opening:
            yield at_once
            continue
        time = waits.time(n)
        yield template % (waits.packets(n), form.none if time is None else seconds(time, digits), late[left == end])


def rows(run, waits, packets, flows, form, first):
    """The rows of the table. What several packets share is made once."""
    place = Made(lambda key: part_of(form, PLACE, key))
    service = Made(lambda key: part_of(form, SERVICE, [None if key == NO_DSCP else key]))
    flow = Made(lambda key: part_of(form, FLOW, flows.flows[key]))
    row = form.row % ",".join([form.template(FIRST), "%s,%s,%s", form.template(FATE), "%s"])
    columns = zip(packets.times, run.capture.lengths, places_of(run), flows.services, flows.of, fates_of(run, form, first), waits_of(run, waits, form, waits.digits if waits else packets.digits))
    for n, (time, length, where, dscp, of, fate, wait) in enumerate(columns, first):
        yield row % (n, form.none if time == NO_TIME else seconds(time, packets.digits), length, place[where], service[dscp], flow[of], *fate, wait)


def write(file, form, lines):
    """The table of these rows."""
    with outputs.writing(file, newline="") as out:
        out.write(form.start)
        between = ""
        for batch in iter(lambda: list(islice(lines, ROWS)), []):
            out.write(between + form.between.join(batch))
            between = form.between
        out.write(form.end)
