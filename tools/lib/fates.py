"""What became of each packet of a run, as its fates have it; and whether these can be of this plan and this capture."""
import pathlib
import re
from array import array
from collections import Counter
from itertools import cycle

from lib.alone import Run as RunOfOne, Station
from lib.places import Places
from lib.trail import FULL, HANGS, KINDS, SENT, by_serial, joint
from lib.wire import times_text
from lib.words import Failed

# of a tap, whose first two kinds are those of a run
LOST = 2


def fail_of_packet(number, told):
    raise Failed(f"line {number + 1} of the fates is of packet {told}: the fates are of another run")


def judge_numbers(found, whose):
    """Serials, or places, are 0 up to their number."""
    count = len(found)
    if count and (max(found) != count - 1 or len(set(found)) != count):
        raise Failed(f"{whose} aren't 0 to {count - 1}: the fates are of another run")


class Fates:
    """What became of each packet: the kind of its fate, what that names, and the serial of one that was sent, or the place of one that was read."""

    def __init__(self, capture, text):
        self.capture, self.fates = capture, text.splitlines()
        self.kinds, self.names, self.serials = bytearray(), array("I"), array("I")
        if len(self.fates) != len(capture):
            raise Failed(f"{len(capture)} packets and {len(self.fates)} fates: the fates are of another run")

    def dropped(self):
        """The packets that weren't sent, or read."""
        return [n for n, kind in enumerate(self.kinds) if kind]

    def dropped_by(self, classes):
        """The same, by their class and the kind of their fate."""
        found = {}
        for n in self.dropped():
            found.setdefault((classes[n], self.kinds[n]), array("I")).append(n)
        return found

    def counted(self, *columns):
        """How many packets, and how many bytes, have the same in these columns and the same kind of fate."""
        found = {}
        for (*key, length), count in Counter(zip(*columns, self.kinds, self.capture.lengths)).items():
            of = found.setdefault(tuple(key), [0, 0])
            of[0] += count
            of[1] += count * length
        return found

    def of_kinds(self, wanted=lambda *columns: True):
        """How many packets, and how many bytes, have each kind of fate, of those whose columns are wanted."""
        packets, octets = Counter(), Counter()
        for (*columns, code), (count, length) in self.counts.items():
            if wanted(*columns):
                packets[self.KINDS[code]] += count
                octets[self.KINDS[code]] += length
        return packets, octets


class Run(Fates):
    """The fates of a plan's run. `trail` and `wire` are those of the run as it was worked out, of one sender alone: they have when each packet left."""

    KINDS, has_units = KINDS, True

    def __init__(self, plan, capture, text):
        super().__init__(capture, text)
        self.plan = plan
        self.tables, self.children, self.groups = plan.tables, plan.children, plan.groups
        self.placed = places = Places(plan, capture)
        self.stations, self.queues, self.senders, self.bands = places.stations, places.queues, places.senders, places.bands
        self.units = [self.units_of(station) for station in range(len(self.tables))]
        one = RunOfOne(places).go() if plan.senders == 1 else None
        self.trail, self.wire = (one.trail, one.wire) if one else (None, None)
        if self.trail and self.trail.text() == text:
            self.kinds, self.names, self.serials = self.trail.kinds, self.trail.names, self.trail.serials
        else:
            self.read()
        self.numbers = self.sent_by_units()
        self.counts = self.counted(self.stations, self.bands, self.queues)
        if not self.trail or self.kinds is not self.trail.kinds:
            self.judge()

    def places(self):
        """Columns with each packet's sender, its station, the transmit queue of its device, and its band."""
        first = {child: children[0] for children in self.children for child in children}
        queues = self.queues if not self.groups else bytes(queue + station - first[station] for queue, station in zip(self.queues, self.stations))
        return self.senders, self.stations, queues, self.bands

    def sent_by_units(self):
        """The packets that each unit sent."""
        found = {unit: array("I") for units in self.units for unit, _ in units}
        for n, (kind, unit) in enumerate(zip(self.kinds, self.names)):
            if kind == SENT:
                found[unit].append(n)
        return found

    def serials_of(self, unit):
        return array("I", map(self.serials.__getitem__, self.numbers[unit]))

    def units_of(self, station):
        """The units of a station in the order in which they come: its own, and those that swaps bring; each with the packet before which it comes."""
        at, found = len(self.tables), [(station, 0)]
        for event in self.plan.event:
            if event.kind == "swap":
                if station in self.children[event.station]:
                    found.append((at, event.before))
                at += 1
        return found

    def read(self):
        """The fates; ends where one can't be this plan's: another station's unit, an event that it doesn't have, a slot's packet of another band."""
        own = [{str(unit) for unit, _ in units} for units in self.units]
        of_event = [self.children[event.station] for event in self.plan.event]
        stations, bands, codes = self.stations, self.bands, {kind: code for code, kind in enumerate(self.KINDS)}
        add, name, serial = self.kinds.append, self.names.append, self.serials.append
        number, line = 0, ""
        try:
            # one loop with little in it: there may be a million lines
            for number, line in enumerate(self.fates):
                words = line.split(" ")
                if int(words[0]) != number:
                    fail_of_packet(number, words[0])
                code, station = codes[words[1]], stations[number]
                if code and words[2] == "hung":
                    words[2] = HANGS
                add(code)
                name(int(words[2]))
                serial(0 if code else int(words[3]))
                if not code:
                    if words[2] not in own[station]:
                        raise Failed(f"packet {number} is of station {station} and was sent by unit {int(words[2])}: the fates are of another plan or capture")
                elif code == FULL:
                    other = int(words[2])
                    if stations[other] != station or bands[other] != bands[number]:
                        raise Failed(f"packet {number} met packet {other} of another station or band: the fates are of another plan or capture")
                elif words[2] != HANGS and station not in of_event[int(words[2])]:
                    raise Failed(f"packet {number} is {words[1]} by event {words[2]} of another station: the fates are of another plan or capture")
        except (IndexError, KeyError, ValueError, OverflowError):
            raise Failed(f"line {number + 1} of the fates isn't one of this plan: {line!r}")

    def judge(self):
        """Fails where the fates as read can't be: serials with gaps, packets dropped by rings that have room, another run than the one that was worked out."""
        for unit, numbers in self.numbers.items():
            judge_numbers(self.serials_of(unit), f"unit {unit} sent {len(numbers)} packets, and their serials")
        self.judge_rings()
        for given, line in zip(self.trail.lines() if self.trail else [], self.fates):
            if given != line + "\n":
                raise Failed(f"the fates are of another plan or capture: they have '{line}', and this plan gives '{given.strip()}'")

    def judge_rings(self):
        """A band drops as full only once as many others were let in as its rings hold without a batch, at the least length that they have."""
        let_in, full = Counter(), Counter()
        for (station, band, _, code), (count, _) in self.counts.items():
            (full if code == FULL else let_in)[station, band] += count
        for station, band in full:
            lengths = [event.len for event in self.plan.event if station in self.children[event.station] and event.len]
            least = min([self.tables[station].len, *lengths])
            if let_in[station, band] < least - Station.batch(least):
                raise Failed(f"band {band} of station {station} dropped packets as full that let in {let_in[station, band]}, with rings of {least} slots: the fates are of another plan")

    def joint(self, children):
        """The packets that the children of a group sent, as its file has them. A child has one unit, of its own number."""
        return joint([by_serial(self.numbers[child], self.serials_of(child)) for child in children])

    def judge_times(self, out):
        """The file of times, if it is there, has those that were worked out."""
        file = pathlib.Path(f"{out}.times")
        if self.wire and file.exists() and file.read_text(encoding="utf-8") != times_text(self.wire.flights, self.wire.card.rate_kbit):
            raise Failed(f"{file} hasn't the times of this plan over this capture: it is of another run")

    def judge_joint(self, out):
        """Each joint file that is there has just these packets."""
        for at, children in self.groups:
            file = pathlib.Path(joint_file(out, at))
            if file.exists() and file.read_bytes() != self.capture.written(self.joint(children)):
                raise Failed(f"{file} hasn't the packets that stations {children[0]} to {children[-1]} sent, by serial: it is of another run")


def joint_file(out, at):
    return f"{out}.mq{at}.pcap"


class Tap(Fates):
    """The fates of a tap's run, and the packets that were read, in order."""

    KINDS, has_units = ["read", "full", "lost"], False
    line_of = re.compile(r"(\d+) (?:(read|full) (\d+)|(lost))", re.ASCII).fullmatch

    def __init__(self, senders, length, capture, text, written):
        super().__init__(capture, text)
        self.many, self.len = senders, length
        self.senders = bytes(n for n, _ in zip(cycle(range(senders)), range(len(capture))))
        self.read()
        self.numbers = array("I", (n for n, kind in enumerate(self.kinds) if not kind))
        places = array("I", map(self.serials.__getitem__, self.numbers))
        judge_numbers(places, f"{len(places)} packets were read, and their places")
        self.order = by_serial(self.numbers, places)
        self.counts = self.counted(self.senders)
        self.judge_order()
        self.judge_ring()
        if written != capture.written(self.order):
            raise Failed("the capture that was written isn't that of the packets read: the fates are of another run")

    def read(self):
        """The fates: of a packet that was read its place, of one that was full the packet that it met."""
        count, codes = len(self.fates), {kind: code for code, kind in enumerate(self.KINDS)}
        for number, line in enumerate(self.fates):
            found = Tap.line_of(line)
            if not found:
                raise Failed(f"line {number + 1} of the fates isn't one of a tap: {line!r}")
            told, kind, other, lost = found.groups()
            if int(told) != number:
                fail_of_packet(number, told)
            if kind and int(other) >= count:
                raise Failed(f"line {number + 1} of the fates names a number that is too high: {line!r}")
            self.kinds.append(codes[kind or lost])
            self.names.append(int(other) if kind == "full" else 0)
            self.serials.append(int(other) if kind == "read" else 0)

    def places(self):
        """Columns with each packet's sender, and none for the station, queue and band that it doesn't have."""
        return self.senders, None, None, None

    def judge_order(self):
        """Each sender's packets were read in their order."""
        last = [0] * self.many
        for number in self.order:
            sender = number % self.many
            if number < last[sender]:
                raise Failed(f"packet {number} was read after packet {last[sender]} of the same sender: the fates are of another run")
            last[sender] = number

    def judge_ring(self):
        """Packets are full or lost only where enough others came in."""
        for number, (kind, other) in enumerate(zip(self.kinds, self.names)):
            if kind == FULL and (other == number or self.kinds[other] == FULL):
                raise Failed(f"packet {number} met packet {other}, which wasn't in the ring: the fates are of another run")
        read, full, lost = len(self.order), self.kinds.count(FULL), self.kinds.count(LOST)
        if full and read + lost < self.len - Station.batch(self.len) or lost and read + lost <= self.len:
            raise Failed(f"packets were dropped by a ring of {self.len} slots that {read + lost} came into: the fates are of another run")
        if lost > read:
            raise Failed("more packets were lost than read: the fates are of another run")
        if len(self.capture) <= self.len and full + lost:
            raise Failed(f"packets were dropped by a ring of {self.len} slots that has room for all: the fates are of another run")
