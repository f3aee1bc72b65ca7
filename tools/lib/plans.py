"""The keys of a plan, as docs/FORMATS.md has them, and what may be wrong with a text that is to be one. A key is one row here.

The program judges plans by definitions that are proved; these tables aren't. `tools/compare PROGRAM` compares the two.
"""
import difflib
import json
import re
from collections import namedtuple
from dataclasses import dataclass
from itertools import accumulate
from typing import Any, Callable, Optional, Union

from lib import outputs, toml_text
from lib.words import Failed

NOT_TOML, UNKNOWN_KEY, MISSING, KIND, RANGE, EVENT_ORDER, TOO_LONG, TWO_LIMITS, ONE_LINK = 1, 2, 3, 4, 5, 6, 8, 9, 10
REASONS = {1: "NotToml", 2: "UnknownKey", 3: "Missing", 4: "Kind", 5: "Range", 6: "EventOrder", 8: "TooLong", 9: "TwoLimits", 10: "OneLink"}
KINDS = {"down": (), "up": (), "resize": ("len",), "tx_queue_len": ("len",), "swap": ("params",)}
DEVICES = outputs.UNITS


@dataclass
class Place:
    """What a range may depend on: the document, the version that it says, and the table of the key."""

    root: dict
    version: int
    table: dict


Bound = Union[int, Callable[[Place], int]]


@dataclass
class Key:
    """A row: its name, the kind of its value with its range, its default, the first version that has it, and what it means."""

    name: str
    kind: str  # "number", "flag", "tables", or the texts that it may be, with bars between; a text of a later version has that behind it, as "flow:4"
    low: Bound = 0
    high: Bound = 0
    default: Any = None
    since: int = 1
    required: bool = False
    about: str = ""


def number_at(table, name, default):
    value = table.get(name)
    return value if type(value) is int and value >= 0 else default


def greatest_len(place):
    """The greatest length to which the rings of an event's station may be brought; 0 where there is no such station."""
    stations = tables_at(place.root, "station")
    at = number_at(place.table, "station", 0)
    return number_at(stations[at], "max_len", number_at(stations[at], "len", 1000)) if at < len(stations) else 0


def tables_at(root, name):
    value = root.get(name)
    return [table for table in value if isinstance(table, dict)] if isinstance(value, list) else []


# the greatest number of each, by version
SENDERS = {1: 8, 2: 64, 3: 64, 4: 64, 5: 64}
LENGTH = {1: 4096, 2: 65536, 3: 65536, 4: 65536, 5: 65536}
CHILDREN = outputs.GROUPS
VERSIONS = sorted(SENDERS)
NESTED = 80  # arrays and tables in each other
PARAMS = [
    Key("burst", "number", 0, 1000000, 0, about="the queue stops each time so many packets were accepted"),
    Key("busy_every", "number", 0, 1000000, 0, about="each call with a multiple of this number may be answered busy"),
    Key("busy_limit", "number", 0, 1000000, 0, about="so many calls at most are answered busy"),
    Key("hang_after", "number", 0, 1000000, 0, about="the device hangs once it has accepted so many packets"),
]
ROOT = [
    Key("version", "number", 1, lambda place: place.version, 1, about="the version of the format"),
    Key("senders", "number", 1, lambda place: SENDERS[place.version], 1, about="threads that send"),
    Key("split", "round|source|flow:4", default="round", about="how packets are split among the senders"),
    Key("spread", "bytes|flow", default="bytes", since=4, about="by what a packet's station, queue and child are chosen"),
    Key("classify", "tos|none", default="tos", since=5, about="how a packet gets its priority"),
    Key("irq_every", "number", 1, 1000, 1, about="after so many packets of a sender it wakes the stopped queues"),
    Key("irq_us", "number", 1, 1000000, since=4, about="in place of irq_every: the stopped queues are opened at each multiple of so many microseconds of the capture's time"),
    Key("station", "tables", 1, 8, required=True, about="the stations"),
    Key("event", "tables", 0, 64, (), about="what is done to them on the way"),
]
CARD = [
    Key("rate_kbit", "number", 1, 1000000000, since=5, about="a card on a wire of so many thousand bits a second opens its queue"),
    Key("ring", "number", 1, 65536, since=5, about="descriptors of its driver; else 256 where no `bql` is above 0"),
    Key("bql", "number", 0, 1000000000, 0, since=5, about="bytes that may be out as it takes one packet more; 0 is no such limit"),
    Key("coalesce_us", "number", 0, 1000000, 0, since=5, about="microseconds from the end of a frame to the interrupt"),
    Key("overhead", "number", 0, 1000, 24, since=5, about="bytes that come with each frame on the wire"),
    Key("mpu", "number", 0, 1000, 84, since=5, about="bytes of the wire that a frame takes at least, with those"),
]
STATION = [
    Key("len", "number", 1, lambda place: LENGTH[place.version], 1000, about="slots of each of its three rings"),
    Key("max_len", "number", lambda place: number_at(place.table, "len", 1000), lambda place: LENGTH[place.version], about="slots that a resize may give them; else `len`"),
    Key("bypass", "flag", default=True, about="whether a packet may go past the rings"),
    Key("queues", "number", 1, 8, 1, since=2, about="transmit queues of its device, which share the rings"),
    Key("mq", "number", 1, CHILDREN, 1, since=3, about="children of its multi-queue root: one for each transmit queue of its device, with rings of its own"),
    *CARD,
    *PARAMS,
]
EVENT = [
    Key("before", "number", 0, 1000000, required=True, about="the number of the packet before which it comes"),
    Key("kind", "|".join(KINDS), required=True, about="what it does"),
    Key("station", "number", 0, lambda place: max(len(tables_at(place.root, "station")) - 1, 0), required=True, about="the station's number"),
    Key("len", "number", 1, greatest_len, about="the new length of the rings"),
    *PARAMS,
]
TABLES = {"": ROOT, "station": STATION, "event": EVENT}


@dataclass
class Fault:
    """One thing that is wrong with a plan: the number of the reason, where it stands, and what to do."""

    reason: int
    line: Optional[int]
    where: str
    said: str

    def __str__(self):
        return f"{self.where}: {self.said} ({self.reason} {REASONS[self.reason]})"


def version_of(root):
    version = root.get("version")
    return version if type(version) is int and version in VERSIONS else 1


def keys_for(section, place):
    """The keys that a table may have, and those that it must have; of an event by its kind."""
    keys = [key for key in TABLES[section] if key.since <= place.version]
    required = {key.name for key in keys if key.required}
    if section == "event" and place.table.get("kind") in KINDS:
        takes = KINDS[place.table["kind"]]
        unknown = {"len"} - set(takes) | ({key.name for key in PARAMS} if "params" not in takes else set())
        return [key for key in keys if key.name not in unknown], required | set(takes) & {"len"}
    return keys, required


def bound(of, place):
    return of(place) if callable(of) else of


def texts_of(key, place):
    """The texts that a key may be in this version."""
    return [text for text, _, since in (word.partition(":") for word in key.kind.split("|")) if int(since or 1) <= place.version]


def wanted(key, place):
    """What a value may be, in words."""
    if key.kind == "number":
        return f"a whole number from {bound(key.low, place)} to {bound(key.high, place)}"
    if key.kind == "flag":
        return "true or false"
    if key.kind == "tables":
        return f"{key.low} to {key.high} tables, each begun by [[{key.name}]]"
    return "one of " + ", ".join(f'"{text}"' for text in texts_of(key, place))


def has_kind(key, value):
    if key.kind == "number":
        return type(value) is int
    if key.kind == "flag":
        return type(value) is bool
    if key.kind == "tables":
        return isinstance(value, list) and all(isinstance(table, dict) for table in value)
    return isinstance(value, str)


def is_within(key, value, place):
    if key.kind == "number":
        return bound(key.low, place) <= value <= bound(key.high, place)
    if key.kind == "tables":
        return key.low <= len(value) <= key.high
    return key.kind == "flag" or value in texts_of(key, place)


def lines_of_keys(text):
    """The line of each key, by table, place and name; and that of each table's head under None."""
    found, section, counts, at = {}, "", {}, 0
    for number, line in enumerate(text.splitlines(), 1):
        head = re.match(r"\s*\[\[\s*([\w-]+)\s*\]\]|\s*\[\s*([\w-]+)\s*\]", line)
        key = re.match(r"\s*(?:\"([^\"]*)\"|'([^']*)'|([\w-]+))\s*=", line)
        if head:
            section = head[1] or head[2]
            at = counts[section] = counts.get(section, -1) + 1
            found.setdefault((section, at, None), number)
            found.setdefault(("", 0, section), number)
        elif key:
            found.setdefault((section, at if section else 0, next(name for name in key.groups() if name is not None)), number)
    return found


def hint_for_unknown(section, name, place):
    """What was meant by a key that a table doesn't have."""
    if any(key.name == name for key in TABLES[section]):
        row = next(key for key in TABLES[section] if key.name == name)
        if row.since > place.version:
            return f"it needs `version = {row.since}` at the top"
        if section == "event":
            return f"an event of kind \"{place.table.get('kind')}\" doesn't have it"
    if section and any(key.name == name for key in ROOT):
        return f"it is a key of the top, which comes before the first [[{section}]]"
    if not section and any(key.name == name for key in STATION):
        return "it is a key of a station: it comes after [[station]]"
    near = difflib.get_close_matches(name.lower().replace("-", "_"), [key.name for key in keys_for(section, place)[0]], 1, 0.6)
    return f"did you mean `{near[0]}`?" if near else "the keys are " + ", ".join(f"`{key.name}`" for key in keys_for(section, place)[0])


def shown(value):
    if isinstance(value, bool):
        return str(value).lower()
    if isinstance(value, (dict, list)):
        return f"an array of {len(value)}" if isinstance(value, list) else "a table"
    return f'"{value}"' if isinstance(value, str) else str(value)


def hint_for_range(section, key, value, place):
    """Which version, or which other key, would allow it."""
    for version in VERSIONS:
        if version > place.version and key.name != "version" and is_within(key, value, Place(place.root, version, place.table)):
            return f"; with `version = {version}` at the top it may be"
    if key.kind != "number":
        near = difflib.get_close_matches(str(value), texts_of(key, place), 1, 0.5) if isinstance(value, str) else []
        return f"; did you mean \"{near[0]}\"?" if near else ""
    if key.name == "version":
        return f"; there are the versions {', '.join(map(str, VERSIONS))}"
    if section == "event" and key.name == "len":
        return "; its station needs a `max_len` of at least so much"
    return "; `max_len` is at least `len`" if key.name == "max_len" else ""


def numbered(counts):
    """So many children of each station of the plan have numbers in fates and counts, all of them one after the other."""
    return [range(end - many, end) for many, end in zip(counts, accumulate(counts))]


class Judge:
    """A document with the lines of its keys, and what is wrong with it."""

    def __init__(self, root, text):
        self.root, self.version, self.lines, self.faults = root, version_of(root), lines_of_keys(text), []
        self.stations, self.events = tables_at(root, "station"), tables_at(root, "event")

    def add(self, reason, section, at, name, said):
        """Notes a fault of a table, or of a key of it."""
        line = self.lines.get((section, at, name)) or self.lines.get((section, at, None))
        self.faults.append(Fault(reason, line, (f"{section} {at}" if section else "the top") + (f", `{name}`" if name else ""), said))

    def judge(self):
        """All faults, those with the least reason first."""
        self.judge_table("", 0, self.root)
        for section, tables in (("station", self.stations), ("event", self.events)):
            for at, table in enumerate(tables):
                self.judge_table(section, at, table)
        if self.version > 2:
            self.judge_groups()
        if self.version > 3 and "irq_every" in self.root and "irq_us" in self.root:
            self.add(RANGE, "", 0, "irq_us", "it is used in place of `irq_every`: a plan has one of the two")
        if self.version > 4:
            self.judge_cards()
        if not self.faults:
            self.judge_order()
        if self.version > 4:
            self.judge_links()
        return sorted(self.faults, key=lambda fault: (fault.reason, fault.line or 0))

    def judge_table(self, section, at, table):
        place = Place(self.root, self.version, table)
        keys, required = keys_for(section, place)
        by_name = {key.name: key for key in keys}
        for name, value in table.items():
            key = by_name.get(name)
            if key is None:
                self.add(UNKNOWN_KEY, section, at, name, f"no such key; {hint_for_unknown(section, name, place)}")
            elif not has_kind(key, value):
                one = " (one table was written: a second pair of brackets is missing)" if key.kind == "tables" and isinstance(value, dict) else ""
                self.add(KIND, section, at, name, f"{shown(value)} isn't {wanted(key, place)}{one}")
            elif not is_within(key, value, place):
                self.add(RANGE, section, at, name, f"{shown(value)} isn't {wanted(key, place)}{hint_for_range(section, key, value, place)}")
        for name in sorted(required - set(table)):
            self.add(MISSING, section, at, name, f"it is missing: {wanted(by_name[name], place)}")

    def judge_order(self):
        """Events whose `before` falls, or that meet a station that is in another state."""
        last, down = 0, set()
        for at, event in enumerate(self.events):
            before, kind, station = number_at(event, "before", 0), event.get("kind"), number_at(event, "station", 0)
            if before < last:
                self.add(EVENT_ORDER, "event", at, "before", f"{before} comes after {last}: events are written in the order in which they come")
            if kind == "up" and station not in down:
                self.add(EVENT_ORDER, "event", at, None, f"station {station} is active: an \"up\" comes after a \"down\" alone")
            if kind != "up" and station in down:
                self.add(EVENT_ORDER, "event", at, None, f"station {station} is deactivated: only an \"up\" may come")
            last = max(before, last)
            down = down | {station} if kind == "down" else down - {station}

    def judge_groups(self):
        """What may not be together in a plan of groups: too many children, several queues of a child, a swap of what they share."""
        children = numbered([number_at(table, "mq", 1) for table in self.stations])
        if sum(map(len, children)) > CHILDREN:
            self.add(RANGE, "", 0, "station", f"{sum(map(len, children))} children in all are more than {CHILDREN}")
        for at, table in enumerate(self.stations):
            if len(children[at]) > 1 and number_at(table, "queues", 1) > 1:
                self.add(RANGE, "station", at, "queues", "it is 1 beside an `mq` above 1: rings over several queues, or rings for each")
        for at, event in enumerate(self.events):
            station = number_at(event, "station", 0)
            if event.get("kind") == "swap" and station < len(children) and len(children[station]) > 1:
                self.add(RANGE, "event", at, "kind", f"no \"swap\" at station {station}, which has {len(children[station])} children on one device")

    def judge_cards(self):
        """What a card doesn't go with: it opens the queue itself, and its device stops that at each packet and does nothing else."""
        for at, table in enumerate(self.stations):
            if "rate_kbit" not in table:
                for name in (key.name for key in CARD if key.name in table):
                    self.add(RANGE, "station", at, name, "it is of a card: it needs `rate_kbit` beside it")
                continue
            for name in ("irq_every", "irq_us"):
                if name in self.root:
                    self.add(RANGE, "", 0, name, f"the card of station {at} opens the queue")
            if number_at(table, "burst", 1) != 1:
                self.add(RANGE, "station", at, "burst", "beside `rate_kbit` it is 1: the device stops its queue at each packet, and the card opens it while there is room")
            for name in ("busy_every", "hang_after"):
                if number_at(table, name, 0):
                    self.add(RANGE, "station", at, name, "it is 0 beside `rate_kbit`")
            if number_at(table, "overhead", 24) + number_at(table, "mpu", 84) == 0:
                self.add(RANGE, "station", at, "mpu", "a frame without bytes takes no time: `overhead` or `mpu` is above 0")
            for number, event in enumerate(self.events):
                if event.get("kind") == "swap":
                    self.add(RANGE, "event", number, "kind", f'no "swap" of a card\'s device, which station {at} has')

    def judge_links(self):
        """A link has one limit, and a plan with a link has one station with one queue."""
        for at, table in enumerate(self.stations):
            if "ring" in table and number_at(table, "bql", 0):
                self.add(TWO_LIMITS, "station", at, "bql", "beside `ring` it is 0: where both limits bind, Linux takes several packets at once")
            if "rate_kbit" not in table:
                continue
            for name in ("queues", "mq"):
                if number_at(table, name, 1) > 1:
                    self.add(ONE_LINK, "station", at, name, "it is 1 beside `rate_kbit`: a link has one queue")
            if len(self.stations) > 1:
                self.add(ONE_LINK, "station", at, "rate_kbit", f"a plan with a link has one station, and not {len(self.stations)}")


def excess_of(value, depth=0):
    """What the program's parser doesn't take of TOML, if there is such a thing."""
    if isinstance(value, (dict, list)):
        if depth > NESTED:
            return toml_text.TOO_DEEP
        return next(filter(None, (excess_of(part, depth + 1) for part in (value.values() if isinstance(value, dict) else value))), None)
    return toml_text.TOO_LARGE if type(value) is int and not -(2**63) <= value < 2**63 else None


def judge(data):
    """The document that the bytes of a plan are, or None; and its faults, those with the least reason first."""
    if len(data) > 65536:
        return None, [Fault(TOO_LONG, None, "the file", f"{len(data)} bytes; a plan has at most 65536")]
    no_toml = lambda line, said: (None, [Fault(NOT_TOML, line, "the text", said)])
    try:
        text = data.decode("utf-8")
        root = toml_text.loads(text)
    except UnicodeDecodeError as fault:
        return no_toml(data[: fault.start].count(b"\n") + 1, "it isn't UTF-8")
    except toml_text.Fault as fault:
        place = re.search(r"\(at line (\d+), column (\d+)\)", str(fault))
        said = re.sub(r" \(at .*\)", "", str(fault))
        return no_toml(int(place[1]) if place else None, said + (f", at column {place[2]}" if place else ", at its end" * ("(at end" in str(fault))))
    excess = excess_of(root)
    return no_toml(None, excess) if excess else (root, Judge(root, text.removeprefix("\ufeff")).judge())


# WHAT A PLAN SAYS


def record(name, keys):
    """What has a field for each key, with the key's default."""
    return namedtuple(name, [key.name for key in keys], defaults=[key.default for key in keys])


Event = record("Event", EVENT)
Card = namedtuple("Card", "rate_kbit ring bql coalesce_us overhead mpu")


class Station(record("Station", STATION)):
    """A station, whose device stops its queue at each packet if a card opens it."""

    def __new__(cls, **given):
        return super().__new__(cls, **({"burst": 1, **given} if "rate_kbit" in given else given))

    @property
    def card(self):
        """The card that opens its queue, or None. Of its two limits the other one is None."""
        if self.rate_kbit is None:
            return None
        limits = (None, self.bql) if self.bql else (self.ring or 256, None)
        return Card(self.rate_kbit, *limits, self.coalesce_us, self.overhead, self.mpu)


class Plan(record("Plan", ROOT)):
    """A plan that is accepted. What fates and counts call stations are its stations' children."""

    # the numbers of the children of each station; each child's station; and the stations that have several children, each with these
    children = property(lambda self: numbered([station.mq for station in self.station]))
    tables = property(lambda self: [station for station in self.station for _ in range(station.mq)])
    groups = property(lambda self: [(at, child) for at, child in enumerate(self.children) if len(child) > 1])
    # whether queues are opened by the capture's times, and whether it takes no capture whose times go back
    by_time = property(lambda self: self.irq_us is not None or self.station[0].card is not None)
    wants_order = property(lambda self: self.version > 4 and self.by_time)
    # how many it needs: one for each child, and one for each swap
    units = property(lambda self: sum(station.mq for station in self.station) + sum(event.kind == "swap" for event in self.event))


def plan_of(root):
    """The plan that a document is in which nothing is wrong."""
    return Plan(**{**root, "station": [Station(**station) for station in root["station"]], "event": [Event(**event) for event in root.get("event", [])]})


def read(name, code=1):
    """The plan of a file; ends with a line, and this exit code, where it is none."""
    with open(name, "rb") as file:
        root, faults = judge(file.read())
    if faults:
        raise Failed(f"{name} is no plan, and `lqtx` refuses it: {faults[0]}; tools/check-plan {name} says all", code)
    return plan_of(root)


def text_of(root):
    """The text of a document."""
    value = lambda given: str(given).lower() if isinstance(given, bool) else json.dumps(given)
    lines = [f"{name} = {value(given)}" for name, given in root.items() if not isinstance(given, list)]
    for name in ("station", "event"):
        for table in root.get(name, []):
            lines += [f"[[{name}]]", *(f"{key} = {value(given)}" for key, given in table.items())]
    return "\n".join(lines) + "\n"
