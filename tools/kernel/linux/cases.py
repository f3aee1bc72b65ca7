"""A plan as a case: the lines that the guest works through, the answers that the rules expect, and what the guest answered."""
import re
from typing import NamedTuple

from lib import alone
from lib.places import steps_of
from lib.plans import PARAMS
from lib.trail import FULL, REFUSED
from lib.wire import Wire

# what a sender is answered of a packet, by the kind of its fate
EXPECTED_ERRORS = {FULL: 105, REFUSED: 100}
RING_WORDS = ("producer", "head", "tail", "size", "batch", "held", "total", "marks")


def params_of(device):
    return " ".join(str(getattr(device, key.name)) for key in PARAMS)


def new_line(plan, j, room):
    """A station; where it has a card the driver stops the queue where no room is left."""
    station, card = plan.station[j], plan.station[j].card
    queues, is_shared = max(station.queues, station.mq), int(station.mq == 1)
    limits = f"{card.ring or 0} {card.bql or 0}" if card else "0 0"
    return f"new {j} {station.len} {queues} {is_shared} {max(room, 1)} {'0 0 0 0' if card else params_of(station)} {int(station.bypass)} {limits}"


def event_line(event):
    if event.kind == "swap":
        return f"swap {event.station} {params_of(event)}"
    return f"{event.kind} {event.station}" + (f" {event.len}" if event.len else "")


def send_line(n, packets):
    """A packet's mark has its queue in the upper byte."""
    device, child = packets.device(n)
    return f"send {device} {n | packets.queues[n] + child << 24} {packets.priorities[n]} {packets.frames[n].hex()}"


def case_of(name, packets):
    plan = packets.plan
    lines = {
        "send": lambda n: send_line(n, packets),
        "wake": lambda number: f"wake {number % 2}",
        "ended": lambda frames: f"ended {frames}",
        "event": lambda number: event_line(plan.event[number]),
    }
    yield f"case {name}"
    yield from (new_line(plan, j, len(packets)) for j in range(len(plan.station)))
    yield from (lines[what](number) for what, number in moves_of(packets))
    yield f"finish {len(packets) + 2}"
    yield "end"


def moves_of(packets):
    """What the guest does, in order. Beside a card it is told at each interrupt how many frames have left the wire since the last one, as the rules have it."""
    if not packets.card:
        return steps_of(packets)
    if packets.moves is None:
        packets.moves = Run(packets, linux=alone.Linux(same_length=True, too_long=True)).moves
    return packets.moves


# WHAT THE RULES EXPECT


def ring_words(ring, marks):
    words = f"{ring.producer},{ring.head},{ring.tail},{ring.size},{ring.batch},{ring.held},{ring.total % 2**64:x}"
    return words + (":" + ",".join(map(str, ring.entries())) if marks and ring.held else "")


def device_words(number, device, marks):
    """A line for each station of a device; with `marks` the packets of its rings too."""
    dropped = sum(station.dropped for station in device.stations)
    for place, station in enumerate(device.stations):
        stops = "".join(map(str, station.stops))
        lists = " ".join(",".join(map(str, waiting)) or "-" for waiting in (station.requeued, station.other_queue))
        rings = " ".join(ring_words(ring, marks) for ring in station.rings)
        softirqs = 0 if place else device.softirqs
        yield f"W {number} {place} {station.state} 0 {stops} {lists} {len(station.accepted)} {dropped} {softirqs} {rings}"
    device.softirqs = 0


def unit_lines(number, device, packets):
    """A line for each station of a device, which tells what its unit accepted."""
    is_shared = len(device.stations) == 1
    for place, unit in enumerate(device.stations):
        marks = "".join(f" {n}/{packets.priorities[n]}/{packets.checksum(n):x}/{packets.queues[n] if is_shared else place}" for n in unit.accepted)
        yield f"L {number} {place} {unit.calls} {unit.busy} {len(unit.accepted)} {int(unit.hung)}{marks}"


class ToldWire(Wire):
    """A wire that tells its run when the card has looked whether there is room, and how many frames have left since it did so last."""

    def __init__(self, wire, run):
        super().__init__(wire.card, wire.station, run.places)
        self.run, self.left = run, 0

    def open_while_room(self, now):
        super().open_while_room(now)
        before, self.left = self.left, len(self.flights) - len(self.ring)
        self.run.card_looked(self.left - before)


class Run(alone.Run):
    """The run of a plan by the rules, and the guest's answers that they let one expect. The guest is told of each opening."""

    def __init__(self, packets, wire=ToldWire, **options):
        super().__init__(packets, **options)
        self.steps, self.last, self.moves = [], [], []
        self.wire = self.wire and wire(self.wire, self)
        for number in range(len(self.devices)):
            self.tell(0, self.words(number, True))
        self.go()

    def is_open(self):
        return False

    def tell(self, result, lines):
        self.steps.append([f"= {result}", *lines])

    def words(self, number, marks):
        if self.wire:
            self.devices[number].softirqs = 0
        return list(device_words(number, self.devices[number], marks))

    def sent(self, number):
        self.tell(EXPECTED_ERRORS.get(self.trail.kinds[number], 0), self.words(self.places.device(number)[0], False))

    def card_looked(self, ended):
        """Behind a packet no frame has left since, and at an interrupt at least one."""
        if ended:
            self.moves.append(("ended", ended))
            self.tell(0, self.words(0, False))
        else:
            self.sent(self.moves[-1][1])

    def step(self, what, number):
        self.moves.append((what, number))
        event = self.plan.event[number] if what == "event" else None
        before = list(unit_lines(event.station, self.devices[event.station], self.places)) if event and event.kind == "swap" else []
        result = super().step(what, number)
        if event:
            self.tell(result, before + self.words(event.station, True))
        elif what == "wake":
            self.tell(0, [line for place in range(len(self.devices)) for line in self.words(place, False)])
        elif not self.wire:
            self.sent(number)

    def open_until_done(self):
        lines = []
        for number, rounds in enumerate(super().open_until_done()):
            lines += [f"R {rounds}", *self.words(number, True)]
            self.last += unit_lines(number, self.devices[number], self.places)
        self.tell(0, lines)


# WHAT A GUEST ANSWERED


class Words(NamedTuple):
    """A line of words: `bands` has those of each ring by name, as text."""

    device: int
    place: int
    state: int
    lock: int
    stops: str
    requeued: list
    other_queue: list
    accepted: int
    dropped: int
    softirqs: int
    bands: list

    def held(self):
        return len(self.requeued) + len(self.other_queue) + sum(int(ring["held"]) for ring in self.bands)


def read_words(line):
    parts = line.split(" ")
    lists = ([] if part == "-" else list(map(int, part.split(","))) for part in parts[6:8])
    bands = [dict(zip(RING_WORDS, re.split("[,:]", part, maxsplit=7))) for part in parts[11:]]
    return Words(*map(int, parts[1:5]), parts[5], *lists, *map(int, parts[8:11]), bands)


def marks_of(line):
    """The packets that a line of a unit names, in order: of each its number, priority, checksum and queue."""
    return [mark.split("/") for mark in line.split(" ")[7:]]


def without_softirqs(line):
    """A line of words without how many soft interrupts there were: a card's driver stops its queue where no room is left, and the rules at each packet."""
    parts = line.split(" ")
    return " ".join([*parts[:10], "0", *parts[11:]]) if parts[0] == "W" else line


class Answers:
    """What a guest answered to a case: of each step its lines, at the end the units' lines and the packets that were dropped."""

    def __init__(self, lines, has_card=False):
        self.steps, self.faults, self.last, self.drops = [], [], [], {}
        for line in map(without_softirqs, lines) if has_card else lines:
            if line.startswith("= "):
                self.steps.append([line])
            elif line.startswith("!"):
                self.faults.append(line)
            elif line.startswith("L ") and (self.last or any(told.startswith("R ") for told in self.steps[-1])):
                self.last.append(line)
            elif line.startswith("G "):
                self.note_drops(line)
            else:
                self.steps[-1].append(line)
        # both before what is held is dropped and after it
        self.last = list(dict.fromkeys(self.last))

    def note_drops(self, line):
        _, device, overflow, _, *drops = line.split(" ")
        if overflow != "0":
            self.faults.append(f"! {overflow} packets for which a log had no room")
        self.drops[int(device)] = [(int(number), where) for number, where in (drop.split("/", 1) for drop in drops)]


class Slots:
    """Which packet was put last into each slot of a device's rings, followed by the words."""

    def __init__(self, words):
        self.rings = [[{} for _ in station.bands] for station in words]
        self.words = words

    def seen(self, place, band):
        return self.rings[place][band].get(int(self.words[place].bands[band]["producer"]))

    def follow_send(self, n, place, band, words):
        before, after = self.words[place].bands[band], words[place].bands[band]
        is_put_alone = before["size"] == "1" and int(after["held"]) > int(before["held"])
        if before["producer"] != after["producer"] or is_put_alone:
            self.rings[place][band][int(before["producer"])] = n
        self.words = words

    def follow_event(self, words, kind):
        for place, station in enumerate(words):
            for band, ring in enumerate(station.bands):
                # a resize moves what it keeps to the first slots, also where the size stays
                if kind == "resize" or ring["size"] != self.words[place].bands[band]["size"]:
                    marks = ring.get("marks")
                    self.rings[place][band] = dict(enumerate(map(int, marks.split(",")))) if marks else {}
        self.words = words


class KernelFates:
    """The fates that a guest's answers tell; none of the rules' answers is used."""

    def __init__(self, packets, answers):
        plan = packets.plan
        self.plan, self.packets, self.answers = plan, packets, answers
        self.fates, self.next_unit = {}, len(plan.tables)
        # the units of each device, and how many of its drops were seen
        self.unit = list(map(list, plan.children))
        self.told = dict.fromkeys(range(len(plan.station)), 0)
        self.purged_bands_first = self.softirqs = 0
        steps = iter(answers.steps)
        self.slots = [Slots(self.words_of(next(steps))[j]) for j in range(len(plan.station))]
        follow = {"send": self.step_send, "event": self.step_event, "wake": self.step_wake, "ended": self.step_wake}
        for (what, number), step in zip(moves_of(packets), steps):
            follow[what](number, step)
        for line in answers.last:
            self.sent(line)
        for device, drops in answers.drops.items():
            for n, where in drops[self.told[device] :]:
                self.give(n, "purged hung" if "reset" in where else f"dropped by {where}")

    def words_of(self, step):
        """The words of a step, by their device."""
        found = {}
        for words in (read_words(line) for line in step if line.startswith("W ")):
            found.setdefault(words.device, []).append(words)
            self.softirqs += words.softirqs
        return found

    def give(self, n, fate):
        self.fates[n] = f"{self.fates[n]}, {fate}" if n in self.fates else fate

    def sent(self, line):
        device, place = map(int, line.split(" ")[1:3])
        for serial, (number, *_) in enumerate(marks_of(line)):
            self.give(int(number), f"sent {self.unit[device][place]} {serial}")

    def new_drops(self, words):
        device = words[0].device
        before, self.told[device] = self.told[device], words[0].dropped
        return self.answers.drops.get(device, [])[before : words[0].dropped]

    def step_wake(self, _, step):
        for words in self.words_of(step).values():
            self.slots[words[0].device].words = words
            for n, where in self.new_drops(words):
                self.give(n, f"dropped by {where}")

    def step_send(self, n, step):
        band, result = self.packets.bands[n], int(step[0][2:])
        device, place = self.packets.device(n)
        slots, words = self.slots[device], self.words_of(step)[device]
        for m, where in self.new_drops(words):
            self.give(m, f"full {slots.seen(place, band)}" if m == n and result == 105 else f"dropped by {where}")
        if result == 100:
            downs = [e for e, event in enumerate(self.plan.event) if event.kind == "down" and event.station == device and event.before <= n]
            self.give(n, f"refused {downs[-1]}" if downs else "refused")
        slots.follow_send(n, place, band, words)

    def step_event(self, e, step):
        event = self.plan.event[e]
        for line in step:
            if line.startswith("L "):
                self.sent(line)
        if event.kind == "swap":
            self.unit[event.station] = [self.next_unit]
            self.next_unit += 1
        slots, words = self.slots[event.station], self.words_of(step)[event.station]
        drops = self.new_drops(words)
        for n, where in drops:
            self.give(n, f"purged {e}" if "reset" in where else f"shrunk {e}")
        requeued = {n for station in slots.words for n in station.requeued}
        self.purged_bands_first += bool(requeued and drops and drops[0][0] not in requeued)
        slots.follow_event(words, event.kind)

    def text(self):
        return "".join(f"{n} {self.fates.get(n, 'lost')}\n" for n in range(len(self.packets)))


def answers_of(text):
    """The answers of a guest's file, by the names of its cases; a case that wasn't ended is left out."""
    found = {}
    for part in re.split(r"^case ", text, flags=re.M)[1:]:
        name, *lines = part.splitlines()
        if "end" in lines:
            found[name] = lines[: lines.index("end")]
    return found
