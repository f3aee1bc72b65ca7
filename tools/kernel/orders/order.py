"""An order that a search found: told step by step, as a schedule, and as a picture."""
import itertools
from typing import Dict, Iterator, List, NamedTuple, Optional, Tuple

from lib import machine
from kernel.orders import drawing
from kernel.orders.search import Move, Result, Size
from kernel.orders.text import Position

STARTS = (*machine.STARTS, "down", "swap")
VERDICTS = {
    "left": "a packet is left, and nobody comes",
    "waits": "a deactivation waits for what nobody will do",
    "round": "an order goes on for ever while a packet is held and the queue is open",
    "endless": "with one seat an order goes on for ever",
    "lost": "what must not come",
}


class Row(NamedTuple):
    """A move with its words, and what is set after it."""

    move: Move
    words: str
    set_then: str
    stores: bool


def set_words(move: Move) -> str:
    """What is set in the words that the seats share."""
    said = [name for at, name in enumerate(machine.BITS) if move.state >> at & 1] + ["lock"] * move.lock
    said += [f"queue {at} " * (len(move.xoff) > 1) + ("stopped" if stop == 1 else "hung") for at, stop in enumerate(move.xoff) if stop]
    return ", ".join(said + [f"held {move.held}"] * bool(move.held))


def is_start(move: Move) -> bool:
    return move.kind.split()[0] in STARTS


class Packets:
    """Which packet is where: the search knows only how many there are."""

    def __init__(self):
        self.next = 0
        self.bands: Tuple[list, list, list] = ([], [], [])
        self.slot: Optional[int] = None
        self.own: Dict[int, int] = {}  # of each seat, the packet that it brings
        self.hand: Dict[int, int] = {}  # and the one that it has in hand
        self.band: Dict[int, str] = {}
        self.waiting: Dict[int, List[int]] = {}  # of each seat, those whose put waits in its buffer

    def follow(self, move: Move) -> Tuple[str, str]:
        """The packet and the band that a move is about."""
        seat = move.seat
        if move.kind.startswith("send"):
            self.own[seat], self.band[seat] = self.next, move.kind.split()[1]
            self.next += 1
        if move.before == "recheck" and move.after == "gate":
            self.hand[seat] = self.own[seat]
        held = self.hand.get(seat, self.own.get(seat))
        waiting = self.waiting.setdefault(seat, [])
        if move.before == "put" and move.kind == "step":
            held = self.own.get(seat)
            waiting.append(held)
        for band, packets in enumerate(self.bands):
            if move.bands[band] > len(packets):
                held = waiting.pop(0) if waiting else self.own.get(seat)
                packets.append(held)
            elif move.bands[band] < len(packets):
                held = self.hand[seat] = packets.pop(0)
        if move.slot and self.slot is None:
            self.slot = held
        elif not move.slot and self.slot is not None:
            held, self.slot = self.slot, None
            self.hand[seat] = held
        return f"packet {held}", self.band.get(seat, "0")


def rows_of(moves: Tuple[Move, ...]) -> Iterator[Row]:
    packets, before = Packets(), None
    for move in moves:
        packet, band = packets.follow(move)
        words = move.said.replace("{packet}", packet).replace("{band}", band)
        if move.kind.startswith("send"):
            queue = f", queue {move.kind.split()[2]}" if len(move.xoff) > 1 else ""
            words = f"a transmit begins: {packet} for band {band}{queue}"
        then = (move.state, move.lock, move.xoff, move.bands, move.slot)
        yield Row(move, words, set_words(move), then != before if before else any(map(bool, then[:2])))
        before = then


def lines_of(found: Result, positions: Dict[str, Position]) -> Iterator[str]:
    """The order, a line for each move, with what the kernel has there."""
    yield f"{'move':>5}  {'who':7}  {'at':13}  {'what happens':58}  {'set afterwards':34}  in the kernel"
    for number, row in enumerate(rows_of(found.moves), 1):
        if number - 1 == found.round:
            yield f"{'':5}  from here on, over and over:"
        move = row.move
        who = "control" if move.seat is None else f"seat {move.seat}"
        of = positions.get(move.before.rsplit(" ", 1)[0] if move.before.startswith("scan") else move.before)
        begins = is_start(move)
        kernel = f"{of.function}: {of.kernel}" if of and of.kernel and not begins and move.kind != "drain" else ""
        at = "" if begins else "its buffer" if move.kind == "drain" else move.before
        yield f"{number:5}  {who:7}  {at:13}  {row.words:58}  {row.set_then:34}  {kernel}".rstrip()


# AS A SCHEDULE


def with_near_control(moves: List[Tuple[Optional[int], str]]) -> List[Tuple[Optional[int], str]]:
    """The same order with each deactivation immediately before the start of the soft interrupt that it concerns, where
    `tools/show-schedule` has it. What else goes on meanwhile comes before it, and calls that begin meanwhile come after the activation:
    they touch nothing of each other."""
    if (None, "down") not in moves or (None, "up") not in moves[moves.index((None, "down")) :]:
        return moves
    down = moves.index((None, "down"))
    up = moves.index((None, "up"), down)

    def last_starts(part, start):
        seats = {i for i, _ in part if i is not None}
        return {i for i in seats if next((what for seat, what in reversed(part) if seat == i), "").startswith(start)}

    late = last_starts(moves[:down], "softirq")
    soft = late | {i for i, what in moves[down:up] if what == "softirq"}
    begun = late | last_starts(moves[:down], "send")
    before, within, after = list(moves[:down]), [], []
    for i in sorted(late):
        del before[max(n for n, begun_there in enumerate(before) if begun_there == (i, "softirq"))]
        within.append((i, "softirq"))
    for seat, what in moves[down + 1 : up]:
        if what == "softirq" or what.startswith("send"):
            begun.add(seat)
        (before if seat not in begun else within if seat in soft else after).append((seat, what))
    return before + [(None, "down")] + within + [(None, "up")] + after + with_near_control(moves[up + 1 :])


def plain_moves(moves: Tuple[Move, ...]) -> List[Tuple[Optional[int], str]]:
    """The moves as a schedule names them; of control's steps, the one from which all calls see it, and the last."""
    found: List[Tuple[Optional[int], str]] = []
    for move in moves:
        kind = move.kind.split()
        if kind[0] == "drain":
            continue
        if move.seat is not None:
            found.append((move.seat, " ".join(kind[:2]) if kind[0] == "send" else kind[0]))
        elif move.before in ("quiet", "up") and kind[0] == "step":
            found.append((None, "down" if move.before == "quiet" else "up"))
    return found


def grouped(entries: list) -> Iterator[str]:
    """Lines as they are; steps of one seat, each a seat and a name, that follow each other as one line with the names above it."""
    for seat, part in itertools.groupby(entries, lambda entry: None if isinstance(entry, str) else entry[0]):
        if seat is None:
            yield from part
            continue
        names = [name for _, name in part]
        for at in range(0, len(names), 1000):
            some = names[at : at + 1000]
            yield from ("# " + ", ".join(some), f"{seat} step {len(some)}")


def schedule_lines(m: machine.Machine, moves: List[Tuple[Optional[int], str]]) -> Iterator[str]:
    """The order as the right machine does it, on to its end, with the names of the steps. What it can't do is left out."""
    sends, entries = 0, []

    def add(i, what):
        nonlocal m, sends
        name, *band = what.split()
        begun, answer = (name, *map(int, band)), machine.answer_of(what)
        if name in machine.STARTS and not machine.why_not_begin(m, i, begun):
            entries.append(f"{i} {what}")
            m = machine.begin(m, i, begun, sends)
            sends += name == "send"
        elif name not in machine.STARTS and not machine.why_not_step(m, i, answer):
            entries.append((i, m.seats[i].name) if what == "step" else f"{i} {what}")
            m = machine.step(m, i, answer)

    for i, what in moves:
        if i is None:
            entries.append(f"# here control {'deactivates' if what == 'down' else 'activates'} the station, which a schedule can't say")
        else:
            add(i, what)
    entries.append("# from here on the right machine goes on to its end")
    for event in machine.to_the_end(m, None):
        add(event.seat, event.what)
    return grouped(entries)


def schedule_of(found: Result, size: Size, about: str) -> str:
    """The order as a schedule that `lqtx trace` works: what the right machine can do of it, and on to its end."""
    start = machine.first_machine(size.seats, size.len, size.bypass)
    moves = plain_moves(found.moves)
    if found.round is not None:
        moves += plain_moves(found.moves[found.round :])  # the round a second time
    steps = sum(move.is_step for move in found.moves)
    head = [f"# {about}: {VERDICTS[found.wrong]}.", f"# The order has {steps} steps there; this is what the right machine can do of it."]
    return "\n".join([*head, f"seats {size.seats} len {size.len} bypass {size.bypass}", *schedule_lines(start, with_near_control(moves))]) + "\n"


# AS A PICTURE

# steps that say nothing to who reads the order
DULL = ("enter", "leave", "scan 0 first", "scan 1 first", "scan 0 second", "scan 1 second")


def picture_of(found: Result, size: Size, title: str) -> str:
    arrows, before = [], ""
    for number, row in enumerate(rows_of(found.moves)):
        move = row.move
        begins = is_start(move)
        then = row.set_then if row.set_then != before else None
        before = row.set_then
        if move.before in DULL and move.after != "gate" and not begins and move.kind != "drain" or move.seat is None and begins:
            continue
        arrows.append(drawing.Arrow(move.seat, row.words, row.stores, found.round is not None and number >= found.round, then, begins))
    names = [f"seat {i}" for i in range(size.seats)]
    return drawing.picture(title, names, arrows, verdict_of(found), True, "the round that goes on for ever" if found.round is not None else "")


def verdict_of(found: Result) -> str:
    """What is wrong with an order, in a line."""
    if found.wrong == "left":
        return f"{VERDICTS['left']}: held {found.moves[-1].held}"
    return found.why if found.wrong == "lost" else VERDICTS[found.wrong]


def length_of(found: Result) -> str:
    if found.round is None:
        return f"{len(found.moves)} moves, no order has fewer"
    return f"{found.round} moves to a round of {len(found.moves) - found.round}, no way to a round is shorter"
