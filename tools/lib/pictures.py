"""The pictures of a run: each packet, and what waits."""
import textwrap
from dataclasses import dataclass, field
from itertools import repeat
from operator import floordiv
from typing import Any, Dict, List, Tuple

from lib.counts import name_of, words_of
from lib.svg import line, text, ticks, whole

BAND_COLOURS = ["#d55e00", "#0072b2", "#999999"]
# of the kinds of fates of packets that weren't sent or read
DROP_COLOURS = {"full": "#cc0000", "shrunk": "#e69f00", "purged": "#7b3294", "refused": "#000000", "lost": "#000000"}
# of the queues of a group, and of the senders of a tap
EIGHT_COLOURS = ["#59a14f", "#b07aa1", "#4e79a7", "#9c755f", "#edc948", "#76b7b2", "#ff9da7", "#79706e"]
# of a panel: its frame, what is left of it, its title, a row below it, and the numbers below all rows with what parts it from the next panel
WIDTH, HEIGHT, LEFT, TITLE, ROW, FOOT = 700, 180, 100, 20, 13, 34
# right of a backlog: what is done after the last packet
AFTER = 78
# a capture of so many packets is drawn with a dot for each; of a longer one packets share dots, which are so far apart, and so many in all
FEW, APART, DOTS = 20000, 3, 60000
SECOND = 10**9

Class = Tuple[str, str]  # of packets: its name and its colour


@dataclass
class Panel:
    """Packets as dots, their numbers to the right and a value upwards, and below them a row of marks for each kind and class of those that were dropped."""

    title: str
    said: str  # what the value is
    numbers: Any
    values: Any
    classes: Any  # the class of each packet of the capture
    names: Dict[int, Class]
    most: int  # the values are below
    dropped: Dict[Tuple[int, int], Any]  # by class and kind
    since: int = 0
    until: int = 0
    late: int = 0  # so many of the last values came after the last packet
    events: List[Tuple[int, str, str]] = field(default_factory=list)  # the packet before which one comes, its kind, and the whole of it

    def rows(self, run):
        """The rows below the dots: kind, class, and the packets."""
        for (of, kind), numbers in sorted(self.dropped.items(), key=lambda item: item[0][::-1]):
            wanted = [n for n in numbers if self.since <= n < self.until]
            if wanted:
                yield run.KINDS[kind], self.names[of][0], wanted

    def tall(self, run):
        return TITLE + HEIGHT + ROW * len(list(self.rows(run))) + FOOT


# WHAT IS TO THE RIGHT


class ByNumber:
    """Packets by their numbers."""

    words = "packet number to the right"

    def __init__(self, count, first):
        self.count, self.first, self.whole = count, first, max(count, 1)

    def cells(self, numbers, across):
        """Which cell each packet is in, where a cell has so many packets; there are `whole` packets."""
        return map(floordiv, numbers, repeat(across))

    def begin(self, n):
        """Where a packet begins, from 0 to 1; the end where it is behind all."""
        return min(n / self.whole, 1)

    def marks(self):
        """The ticks: where, and what stands there."""
        return [((tick - self.first + 0.5) / self.whole, tick) for tick in ticks(self.first, self.first + self.count - 1, 10)]


class ByTime:
    """Packets by their times, in a plan that opens queues by time; with a card until all frames have left."""

    words = "seconds after the first packet to the right"

    def __init__(self, times, first, end=0):
        self.first, self.start, self.last = first, min(times, default=0), max(times, default=0)
        self.span = max(max(self.last, end) - self.start, 1)
        self.times, self.whole = times, 2 * WIDTH

    def cells(self, numbers, across):
        """The same in half pixels; several packets may be in each."""
        many = self.whole // across
        return (min(int(self.at(self.times[n]) * many), many - 1) for n in numbers)

    def at(self, time):
        return (time - self.start) / self.span

    def begin(self, n):
        return self.at(self.times[n]) if n < len(self.times) else 1

    def marks(self):
        return [(tick / self.span, f"{tick / SECOND:.9f}".rstrip("0").rstrip(".")) for tick in ticks(0, self.span, 10)]


def axis_of(run, first):
    if not run.has_units or not run.plan.by_time:
        return ByNumber(len(run.capture), first)
    return ByTime(run.placed.times, first, run.wire.free // run.wire.card.rate_kbit if run.wire else 0)


# PARTS


def axes(top, most, said, wide=WIDTH):
    """The frame of a panel, with numbers upwards."""
    yield f'<rect class="frame" x="{LEFT}" y="{top}" width="{wide}" height="{HEIGHT}" fill="none" stroke="#bbb"/>'
    for tick in ticks(0, most, 5):
        y = top + HEIGHT - (HEIGHT - 8) * tick / max(most, 1)
        yield line(LEFT - 4, y, LEFT, y, 'stroke="#888"') + text(LEFT - 7, y + 4, tick if most < 100000 else f"{tick // 1000}k", "end")
    yield text(14, top + HEIGHT / 2, said, "middle", f' transform="rotate(-90 14 {top + HEIGHT / 2:.0f})"')


def marks_below(y, axis):
    for at, said in axis.marks():
        x = LEFT + WIDTH * at
        yield line(x, y, x, y + 4, 'stroke="#888"') + text(x, y + 16, said, "middle")


def mixed(points):
    """Of the classes that share a place, the one that was drawn least: so each class is to be seen where it is."""
    places, drawn = {}, {}
    for x, y, of in points:
        places.setdefault((x, y), []).append(of)
    for (x, y), classes in sorted(places.items()):
        of = min(classes, key=lambda kind: (drawn.get(kind, 0), kind))
        drawn[of] = drawn.get(of, 0) + 1
        yield x, y, of


def points_of(panel, axis, count, room):
    """The dots of a panel as place, value and class, from 0 to 1; where packets share dots, one for each spot, and no more than there is room for."""
    across, up = (1, 1) if count <= FEW else (-(-axis.whole * APART // WIDTH), max(1, -(-panel.most * APART // HEIGHT)))
    classes = map(panel.classes.__getitem__, panel.numbers)
    points = set(zip(axis.cells(panel.numbers, across), map(floordiv, panel.values, repeat(up)), classes))
    points = points if count <= FEW else set(mixed(points))
    while len(points) > room:
        points = set(mixed({(x // 2, y // 2, of) for x, y, of in points}))
        across, up = 2 * across, 2 * up
    return [((x + 0.5) * across / axis.whole, (y + 0.5) * up / max(panel.most, 1), of) for x, y, of in points]


def dots(points, top, wanted, colour):
    """The points of a class, each once, as one path."""
    places = sorted({(round(2 * WIDTH * min(x, 1)), round(2 * (HEIGHT - 8) * min(y, 1))) for x, y, of in points if of == wanted})
    path = "".join(f"M{LEFT + x / 2:g},{top + HEIGHT - y / 2:g}h0" for x, y in places)
    return f'<path d="{path}" stroke="{colour}" stroke-width="3" stroke-linecap="round" fill="none"/>' if path else ""


def rows_below(run, panel, axis, top):
    """What was dropped while the unit was there: a row for each kind and class."""
    across = 1 if len(run.capture) <= FEW else max(1, axis.whole // WIDTH)
    for row, (kind, name, numbers) in enumerate(panel.rows(run)):
        y = top + ROW * row + ROW
        places = sorted(set(axis.cells(numbers, across)))
        path = "".join(f"M{LEFT + round(2 * WIDTH * (x + 0.5) * across / axis.whole) / 2:g},{y - 4}v7" for x in places)
        yield text(LEFT - 7, y + 3, f"{kind}, {name}", "end")
        yield f'<path class="{kind}" d="{path}" stroke="{DROP_COLOURS[kind]}" stroke-width="1" fill="none"/>'


def events_above(panel, axis, top):
    """A line for each event, with its kind where there is room for it."""
    free = 0
    for before, kind, whole_of_it in panel.events:
        x = LEFT + WIDTH * axis.begin(before)
        yield line(x, top, x, top + HEIGHT, 'class="event" stroke="#009e73" stroke-dasharray="2 2"').replace("/>", f"><title>{whole_of_it}</title></line>")
        if x >= free:
            end = x + 6 * len(kind) + 8
            right = end <= LEFT + WIDTH
            yield text(x + 3 if right else x - 3, top + HEIGHT - 4, kind, "start" if right else "end", ' class="event" fill="#009e73"')
            free = end


def late_mark(panel, top):
    """Above this line are the packets that were sent after the last one had come."""
    y = top + HEIGHT - (HEIGHT - 8) * (panel.most - panel.late) / max(panel.most, 1)
    yield f'<rect class="late" x="{LEFT}" y="{top}" width="{WIDTH}" height="{y - top:.1f}" fill="#f4ecd8"/>'
    yield line(LEFT, y, LEFT + WIDTH, y, 'stroke="#a06000" stroke-dasharray="6 3"')
    yield text(LEFT + 6, y - 5 if y > top + 16 else y + 13, f"above: sent after the last packet ({panel.late})", more=' class="latewords" fill="#a06000"')


def draw_panel(run, panel, axis, top, room):
    top += TITLE
    yield text(LEFT, top - 6, panel.title)
    if panel.late:
        yield from late_mark(panel, top)
    if panel.since:
        yield f'<rect class="before" x="{LEFT}" y="{top}" width="{WIDTH * axis.begin(panel.since):.1f}" height="{HEIGHT}" fill="#f0f0f0"/>'
    yield from axes(top, panel.most, panel.said)
    yield from events_above(panel, axis, top)
    points = points_of(panel, axis, len(run.capture), room) if panel.most else []
    yield from (dots(points, top, of, colour) for of, (_, colour) in panel.names.items())
    yield from rows_below(run, panel, axis, top + HEIGHT)
    yield from marks_below(top + panel.tall(run) - TITLE - FOOT, axis)


# WHAT IS DRAWN


BANDS = {band: (f"band {band}", colour) for band, colour in enumerate(BAND_COLOURS)}


def event_words(number, event, first):
    length = f" to {event.len} slots" if event.len else ""
    return f"event {number}: {event.kind}{length}, before packet {event.before + first}"


def events_of(run, station, since, until, first):
    """The events of a station while a unit was there."""
    for number, event in enumerate(run.plan.event):
        if station in run.children[event.station] and since <= event.before <= until:
            yield event.before, event.kind, event_words(number, event, first)


def unit_panels(run, waits, station, dropped, first):
    """A panel for each unit of a station: serials over packet numbers, the colour the band."""
    units = run.units[station]
    for place, (unit, since) in enumerate(units):
        until = units[place + 1][1] if place + 1 < len(units) else len(run.capture)
        numbers, late = run.numbers[unit], sum(run.names[n] == unit for n in waits.late) if waits else 0
        title = f"{name_of(run, station)}, unit {unit}: sent {len(numbers)}" + (f", from packet {since + first} on" if since else "")
        events = list(events_of(run, station, since, until, first))
        yield Panel(title, "serial", numbers, run.serials_of(unit), run.bands, BANDS, len(numbers), dropped, since, until, late, events)


def group_panel(run, at, children, dropped):
    """A group's panel: the places in its joint file over packet numbers, the colour the queue."""
    joint = run.joint(children)
    names = {child: (f"queue {child - children[0]}", colour) for child, colour in zip(children, EIGHT_COLOURS)}
    title = f"mq {at}: sent {len(joint)} by {len(children)} queues; places are by serial, not by time"
    return Panel(title, "place in its file", joint, range(len(joint)), run.stations, names, len(joint), dropped, 0, len(run.capture))


def panels_of(run, waits, first):
    """The panels of a run, each group before its stations."""
    by_station = {station: {} for station in range(len(run.tables))}
    for (key, kind), numbers in run.dropped_by([station << 2 | band for station, band in zip(run.stations, run.bands)]).items():
        by_station[key >> 2][key & 3, kind] = numbers
    for station in range(len(run.tables)):
        for at, children in run.groups:
            if station == children[0]:
                dropped = {(child, kind): numbers for (child, kind), numbers in run.dropped_by(run.stations).items() if child in children}
                yield group_panel(run, at, children, dropped)
        yield from unit_panels(run, waits, station, by_station[station], first)


def legend(y, names, x=LEFT):
    for name, colour in names:
        yield f'<circle class="{name}" cx="{x + 4}" cy="{y - 4}" r="3" fill="{colour}"/>' + text(x + 12, y, name)
        x += 26 + 6 * len(name)


def title_of(run, waits, of):
    packets, _ = run.of_kinds()
    lost, late = words_of(run, packets), waits.late if waits else []
    after = f" ({len(late)} after the last packet)" if late else ""
    return f"{of}: {len(run.capture)} packets, {run.KINDS[0]} {packets[run.KINDS[0]]}{after}" + (f", {lost}" if lost else "")


def heads(run, waits, of, names, axis, more=""):
    """What stands above the first panel, and how tall it is."""
    titles = textwrap.wrap(title_of(run, waits, of), 115)
    yield from (text(16, 18 + 15 * row, title, more=' font-weight="bold"') for row, title in enumerate(titles))
    y = 21 + 15 * len(titles)
    yield from legend(y, names)
    yield text(LEFT + WIDTH, y, axis.words + more, "end")
    yield y + 8


def drawn(run, waits, of, names, panels, first):
    """The picture of some panels."""
    panels, more = list(panels), "; packets that share a dot: their colours alternate" if len(run.capture) > FEW else ""
    axis, (packets, _) = axis_of(run, first), run.of_kinds()
    *lines, top = heads(run, waits, of, [*names, *((kind, DROP_COLOURS[kind]) for kind in run.KINDS[1:] if packets[kind])], axis, more)
    for panel in panels:
        lines += draw_panel(run, panel, axis, top, DOTS // len(panels))
        if panel.names is not BANDS:
            lines += legend(top + TITLE - 6, panel.names.values(), LEFT + WIDTH - sum(26 + 6 * len(name) for name, _ in panel.names.values()))
        top += panel.tall(run)
    return whole(LEFT + WIDTH + 24, top, lines)


def picture(run, waits, of, first):
    """A panel for each group, and one for each unit."""
    return drawn(run, waits, of, BANDS.values(), panels_of(run, waits, first), first)


def picture_of_tap(run, of, first):
    """A panel of the packets that were read, the colour the sender."""
    names = {sender: (f"sender {sender}", EIGHT_COLOURS[sender]) for sender in range(run.many)}
    most = len(run.order)
    panel = Panel(f"tap: read {most}", "place", run.order, range(most), run.senders, names, most, run.dropped_by(run.senders), 0, len(run.capture))
    return drawn(run, None, of, [], [panel], first)


def curve(waiting, most, top, colour):
    """How many packets wait, over packet numbers: where several share a column of half a pixel, from the fewest to the most; at last those left, which go."""
    count = len(waiting)
    up = lambda value: f"{top + HEIGHT - (HEIGHT - 8) * value / most:.1f}"
    columns, path = min(2 * WIDTH, count), []
    for column in range(columns):
        start, end = -(-column * count // columns), -(-(column + 1) * count // columns)
        x, low, high = LEFT + round(2 * WIDTH * (start + 0.5) / count) / 2, min(waiting[start:end]), max(waiting[start:end])
        path += [f"{x:g},{up(low)}"] * (low != high) + [f"{x:g},{up(high)}"]
    yield f'<path d="M{"L".join(path)}" fill="none" stroke="{colour}" stroke-width="1.3"/>' if path else ""
    if path and waiting[-1]:
        yield from tail(waiting[-1], most, top, colour)


def curve_by_time(changes, axis, most, top, colour):
    """How many packets wait, over time: in each column of half a pixel from the fewest to the most, and from column to column what waits between."""
    up = lambda value: f"{top + HEIGHT - (HEIGHT - 8) * value / most:.1f}"
    waiting, columns = 0, {}
    for time, change in changes:
        column = min(round(axis.at(time) * axis.whole), axis.whole)
        columns.setdefault(column, [waiting]).append(waiting + change)
        waiting += change
    columns.setdefault(0, [0])
    columns.setdefault(axis.whole, [waiting])
    path = []
    for column, levels in sorted(columns.items()):
        low, high, last = min(levels), max(levels), levels[-1]
        points = [levels[0], *((high, low) if last - low < high - last else (low, high)), last]
        path += [f"{LEFT + column / 2:g},{up(level)}" for place, level in enumerate(points) if not place or level != points[place - 1]]
    yield f'<path d="M{"L".join(path)}" fill="none" stroke="{colour}" stroke-width="1.3"/>'
    if waiting:
        yield from tail(waiting, most, top, colour)


def tail(waiting, most, top, colour):
    """What waits after the last packet, which goes."""
    y = top + HEIGHT - (HEIGHT - 8) * waiting / most
    yield line(LEFT + WIDTH, y, LEFT + WIDTH + AFTER, top + HEIGHT, f'stroke="{colour}" stroke-width="1.3" stroke-dasharray="2 3"')


def after_the_last(top, late):
    """The strip right of the last packet."""
    x = LEFT + WIDTH
    yield f'<rect class="late" x="{x}" y="{top}" width="{AFTER}" height="{HEIGHT}" fill="#f4ecd8"/>'
    yield line(x, top, x, top + HEIGHT, 'stroke="#a06000" stroke-dasharray="6 3"')
    for row, words in enumerate(["after the", "last packet:", f"{late} sent"]):
        yield text(x + AFTER / 2, top + 14 + 13 * row, words, "middle", ' class="latewords" fill="#a06000"')


def last_packet(axis, top):
    """A line where the last packet comes, behind which frames leave."""
    x = LEFT + WIDTH * axis.at(axis.last)
    yield line(x, top, x, top + HEIGHT, 'stroke="#a06000" stroke-dasharray="6 3"').replace("/>", "><title>the last packet</title></line>")


def backlog_panel(waits, axis, top, title, curves, late):
    """A line for each of these stations and bands, each with its colour."""
    most, top = max([1, *(waits.greatest(*of) for of, _ in curves)]), top + TITLE
    yield text(LEFT, top - 6, title)
    if late:
        yield from last_packet(axis, top) if waits.wire else after_the_last(top, late)
    yield from axes(top, most, "waiting")
    for of, colour in curves:
        yield from curve_by_time(waits.changes(*of), axis, most, top, colour) if waits.by_time else curve(waits.waiting(*of), most, top, colour)
    yield from marks_below(top + HEIGHT, axis)


def use_of(wire, axis):
    """In which share of its time the wire carries a frame, in each column of four half pixels."""
    scale, columns = wire.card.rate_kbit, WIDTH // 2
    wide, busy = axis.span * scale / columns, [0.0] * columns
    for flight in wire.flights:
        begins, ends = (flight.begins - axis.start * scale) / wide, (flight.ends - axis.start * scale) / wide
        for column in range(int(begins), min(int(ends) + 1, columns)):
            busy[column] += min(ends, column + 1) - max(begins, column)
    return busy


def use_panel(wire, axis, top):
    """The use of the link over time, in hundredths."""
    top += TITLE
    yield text(LEFT, top - 6, f"use of the link: per cent of each {axis.span / SECOND / (WIDTH // 2):.3g} s")
    yield from axes(top, 100, "per cent")
    path = "".join(f"M{LEFT + 2 * column + 1},{top + HEIGHT}v-{(HEIGHT - 8) * share:.1f}" for column, share in enumerate(use_of(wire, axis)) if share > 0)
    yield f'<path d="{path}" stroke="#4e79a7" stroke-width="2" fill="none"/>'
    yield from marks_below(top + HEIGHT, axis)


def backlog(run, waits, of, first):
    """How many packets of each band wait, and of each queue of a group, over packet numbers or over time."""
    axis = axis_of(run, first)
    *lines, top = heads(run, waits, of, BANDS.values(), axis)
    for station in range(len(run.tables)):
        for at, children in run.groups:
            if station == children[0]:
                names = [(f"queue {queue}", colour) for queue, colour in zip(range(len(children)), EIGHT_COLOURS)]
                lines += legend(top + TITLE - 6, names, LEFT + WIDTH - sum(26 + 6 * len(name) for name, _ in names))
                curves = [((child,), colour) for child, colour in zip(children, EIGHT_COLOURS)]
                late = waits.late_of(lambda its, band, queue: its in children)
                lines += backlog_panel(waits, axis, top, f"mq {at}: packets that wait in each queue", curves, late)
                top += TITLE + HEIGHT + FOOT
        late = waits.late_of(lambda its, band, queue: its == station)
        for of_bytes in (False, True) if waits.wire else (False,):
            curves = [((station, [band], of_bytes), colour) for band, colour in enumerate(BAND_COLOURS)]
            curves = curves if waits.by_time else [(of[:2], colour) for of, colour in curves]
            lines += backlog_panel(waits, axis, top, f"{name_of(run, station)}: {'bytes' if of_bytes else 'packets'} that wait in each band", curves, late)
            top += TITLE + HEIGHT + FOOT
    if waits.wire:
        lines += use_panel(waits.wire, axis, top)
        top += TITLE + HEIGHT + FOOT
    return whole(LEFT + WIDTH + AFTER + 24, top, lines)
