"""A small model of the machine of the run lock, as the schedules of `lqtx trace` work it: one station with one queue.

Its steps are those of tools/kernel/orders/steps.h, translated, with numbered packets. It is not proved, and nothing proved rests on it. `tools/compare PROGRAM`
compares it with the program's `trace`. What it has beside the program is every step, and the machine with one of six mistakes that were once made: the first
form, without MISSED, and the five of crates/lq_run_core/specs/Mistakes.antt. A mistake changes what a step does and not how many steps there are, so that an
order of steps means the same on both machines.
"""
import functools
import re
from types import SimpleNamespace
from typing import NamedTuple, Optional

from kernel.orders import python
from kernel.orders import text as steps_text

# of the changes in tools/kernel/orders/edits.txt the first form, and those that crates/lq_run_core/specs/Mistakes.antt has
MISTAKES = {name: steps_text.edits()[name].about for name in (
    "begin_sets_no_missed", "begin_gives_up_after_one_try", "end_looks_before_it_releases", "missed_cleared_after_the_second_look",
    "draining_set_without_looking_again", "soft_interrupt_gives_up_when_deactivated")}  # fmt: skip
BITS = ("SCHED", "DEACTIVATED", "MISSED", "DRAINING")
QUOTA = 64


class Packet(NamedTuple):
    number: int
    owner: int
    band: int


class Ring(tuple):
    """A band's packets, first to last."""

    held = property(len)


class Qdisc(NamedTuple):
    """What the seats share, by the names of tools/kernel/orders/state.h; the requeue slot has its packet, or None."""

    len: int
    bypass: bool
    SCHED: int = 0
    DEACTIVATED: int = 0
    MISSED: int = 0
    DRAINING: int = 0
    seqlock: int = 0
    xoff: int = 0
    inside: int = 0
    ring: tuple = (Ring(), Ring(), Ring())
    gso_skb: Optional[Packet] = None
    sent: int = 0
    full: int = 0

    bands = property(lambda q: q.ring)
    slot = property(lambda q: q.gso_skb)
    locked = property(lambda q: bool(q.seqlock))

    held = property(lambda self: sum(ring.held for ring in self.ring) + (self.gso_skb is not None))
    state = property(lambda self: sum(getattr(self, name) << at for at, name in enumerate(BITS)))

    def bits(self):
        """The names of the bits that are set."""
        return " ".join(name for name in BITS if getattr(self, name)) or "clear"


class Seat(NamedTuple):
    """Where a seat stands, which is what it does next, and what it remembers there: as the seat of tools/kernel/orders/state.h, with its packet."""

    at: str = "idle"
    raised: int = 0
    band: int = 0
    queue: int = 0
    how: int = 0
    run: int = 0
    second: int = 0
    taken: int = 0
    hung: int = 0
    was: int = 0
    found: int = 0
    packet: Optional[Packet] = None

    name = property(lambda self: f"{self.at} {'second' if self.second else 'first'}" if self.at.startswith("scan") else self.at)


class Machine(NamedTuple):
    qdisc: Qdisc
    seats: tuple

    def with_seat(self, i, qdisc, seat):
        return Machine(qdisc, self.seats[:i] + (seat,) + self.seats[i + 1 :])


def first_machine(seats, length, bypass):
    return Machine(Qdisc(length, bool(bypass)), (Seat(),) * seats)


def batch(length):
    return 16 if length >= 32 else 1


# WHAT ONE STEP DOES: tools/kernel/orders/steps.h says it, in C, over what tools/kernel/orders/state.h has, which is here


class Lost(Exception):
    """A step that must not come: it loses a packet, or calls a device that is stopped."""


def lost(words):
    raise Lost(words)


said = ""  # what the last step did, in words


def to(place, at, words):
    global said
    place.at, said = at, words
    return 1


def forget(place):
    for name in ("band", "queue", "how", "run", "second", "taken", "hung", "was", "found"):
        setattr(place, name, 0)


def with_ring(rings, band, packets):
    return tuple(Ring(packets) if at == band else ring for at, ring in enumerate(rings))


def ring_put(words, place):
    words.ring = with_ring(words.ring, place.band, (*words.ring[place.band], place.packet))


def ring_take(words, place, band):
    place.packet, *rest = words.ring[band]
    words.ring = with_ring(words.ring, band, rest)


def slot_put(words, place):
    words.gso_skb = place.packet


def slot_take(words, place):
    place.packet, words.gso_skb = words.gso_skb, None


QUEUED, DIRECT, INTERRUPT, WAKER, SWAPPER = range(5)  # why a seat is in a call
ANSWERS = {"plain": 0, "full": 1, "stop": 2, "hang": 3, "busy": 4}
STARTS = ("send", "softirq", "wake")
CONSTANTS = {
    "PLAIN": 0, "FULL": 1, "STOPS": 2, "HANGS": 3, "BUSY": 4, "QUEUED": QUEUED, "DIRECT": DIRECT, "INTERRUPT": INTERRUPT, "WAKER": WAKER, "SWAPPER": SWAPPER,
    "QUEUES": 1, "QUOTA": QUOTA, "WAITS": 0,
}  # fmt: skip


@functools.lru_cache(maxsize=None)
def steps_with(mistake):
    """The step of each position, of the right machine or of one with a mistake, and what the steps look up: the length of a ring, and bypass."""
    text = steps_text.edited(steps_text.steps(), steps_text.edits()[mistake]) if mistake else steps_text.steps()
    names = steps_text.names()
    room = {**CONSTANTS, **names, "NON_EMPTY": lambda q: q.MISSED or q.DRAINING}
    room.update({function.__name__: function for function in (to, lost, forget, ring_put, ring_take, slot_put, slot_take)})
    exec(compile(python.python_of(text), str(steps_text.STEPS), "exec"), room)
    return {name: room[f"step_{constant}"] for constant, name in names.items() if f"step_{constant}" in room}, room


def frozen(kind, scratch):
    """What a step left of the shared words or of a seat; what no step looks at has no field there."""
    return kind(**{name: getattr(scratch, name) for name in kind._fields})


def stepped(m, i, answer="plain", mistake=None):
    """The machine after a step of a seat that can do it, and what the step did, in words."""
    steps, room = steps_with(mistake)
    before, q = m.seats[i].at, m.qdisc
    words, place = SimpleNamespace(**q._asdict(), listed=q.SCHED, gso_queue=0, noop=0), SimpleNamespace(**m.seats[i]._asdict())
    room.update(LEN=q.len, BYPASS=q.bypass, BATCH=batch(q.len))
    steps[before](words, place, ANSWERS[answer])
    words.sent += before == "xmit" and answer != "busy"
    words.full += before == "put" and answer == "full"
    seat = frozen(Seat, place)
    return m.with_seat(i, frozen(Qdisc, words), seat if carries(seat) else seat._replace(packet=None)), said


def step(m, i, answer="plain", mistake=None):
    return stepped(m, i, answer, mistake)[0]


def why_not_step(m, i, answer):
    """Why a seat can't do its next step with this answer, or None where it can."""
    q, s = m.qdisc, m.seats[i]
    if answer in ("stop", "hang", "busy"):
        return None if s.at == "xmit" else f"it is at {s.name}, and only at xmit does the device answer {answer}"
    if s.at == "idle":
        return "it is idle: it can begin " + ", ".join(f"`{i} {start}`" for start in ["send B", "wake"] + ["softirq"] * s.raised)
    if s.at != "put":
        return f"it is at {s.name}, and only at put can a band be full" if answer == "full" else None
    there = q.ring[s.band].held
    room = f"it is at put, and band {s.band} has {there} of {q.len} packets"
    if answer == "plain" and there >= q.len:
        return f"{room}: write `{i} full`"
    if answer == "full" and there < q.len - batch(q.len):
        return f"{room}, too few for its slot to be taken: write `{i} step 1`"
    return None


def why_not_begin(m, i, start):
    s = m.seats[i]
    if s.at != "idle":
        return f"it is in a call, at {s.name}: it can do `{i} step K`" + (f", `{i} stop`, `{i} hang` or `{i} busy`" if s.at == "xmit" else "")
    if start[0] == "softirq" and not s.raised:
        return "no soft interrupt is scheduled on it: it can begin " + f"`{i} send B` or `{i} wake`"
    return None


def begin(m, i, start, number):
    """The machine after a seat has begun a call: ("send", band), ("softirq",) or ("wake",)."""
    name, *band = start
    begun = {"softirq": {"at": "enter", "how": INTERRUPT, "raised": 0}, "wake": {"at": "wake", "how": WAKER}}
    changed = {"at": "enter", "band": band[0], "packet": Packet(number, i, band[0])} if band else begun[name]
    return m.with_seat(i, m.qdisc, m.seats[i]._replace(**changed))


def may_deactivate(m):
    """Whether a whole deactivation may come here: no call is inside, and the run lock is free."""
    return not (m.qdisc.DEACTIVATED or m.qdisc.inside or m.qdisc.seqlock)


def deactivated(m):
    """DEACTIVATED is set, no call is found inside, and all is purged."""
    return m._replace(qdisc=m.qdisc._replace(DEACTIVATED=1, MISSED=0, DRAINING=0, ring=(Ring(),) * 3, gso_skb=None))


def activated(m):
    return m._replace(qdisc=m.qdisc._replace(DEACTIVATED=0))


def is_over(m):
    """No call, no run, none scheduled, no stopped queue, and active: nobody comes of itself."""
    q = m.qdisc
    return not (q.SCHED or q.seqlock or q.xoff or q.inside or q.DEACTIVATED) and all(s.at == "idle" and not s.raised for s in m.seats)


# SCHEDULES


class Fault(Exception):
    """Why a schedule is refused: the number and name of the reason, the line, and what can be told beside it."""

    def __init__(self, reason, line, more):
        super().__init__(more)
        self.reason, self.line, self.more = reason, line, more


SYNTAX, NO_SEAT, SEAT_WAITS, TOO_LONG = "1 Syntax", "2 NoSeat", "3 SeatWaits", "5 TooLong"
SETUP = re.compile(r"seats ([1-8]) len ([1-9][0-9]{0,3}) bypass ([01])")
LINE = re.compile(r"(0|[1-9][0-9]*) (?:(send) ([0-2])|(softirq|wake|full|stop|hang|busy)|(step) ([1-9][0-9]{0,2}|1000))")
FORMS = "`T send B` (B from 0 to 2), `T softirq`, `T wake`, `T step K` (K from 1 to 1000), `T full`, `T stop`, `T hang`, `T busy`"
# what may be wrong with a line, and a hint
HINTS = (
    (r".*\r.*", "the line ends with a carriage return; "),
    (r" .*|.*  .*|.* ", "there is one space between two words, and none before or after; "),
    (r".*#.*", "a comment has a line of its own; "),
    (r"[^ ]* (down|up|swap|resize)( .*)?", "a schedule begins no deactivation, activation, resize or swap; "),
)


def read_schedule(data):
    """The setup, and for each other line its number, its seat and what it does, as ("send", 1); a generator, so that faults come in order."""
    if len(data) > 65536:
        raise Fault(TOO_LONG, 0, f"the text has {len(data)} bytes")
    lines = data.decode("latin-1").split("\n")
    lines = lines if lines[-1] else lines[:-1]
    has_setup = False
    for number, line in enumerate(lines, 1):
        if not line or line.startswith("#"):
            continue
        if not has_setup:
            has_setup = SETUP.fullmatch(line)
            if not has_setup or int(has_setup[2]) > 4096:
                raise Fault(SYNTAX, number, "the first line is `seats N len L bypass B`, N from 1 to 8, L from 1 to 4096, B 0 or 1")
            yield number, None, tuple(map(int, has_setup.groups()))
            continue
        found = LINE.fullmatch(line)
        if not found:
            hint = next((hint for pattern, hint in HINTS if re.fullmatch(pattern, line, re.S)), "")
            raise Fault(SYNTAX, number, f"{hint}a line is one of {FORMS}")
        seat, *words = filter(None, found.groups())
        yield number, int(seat), (words[0], *map(int, words[1:]))
    if not has_setup:
        raise Fault(SYNTAX, len(lines) + 1, "there is no first line `seats N len L bypass B`")


class Event(NamedTuple):
    """One start or step of a schedule, or what control does: the machines before and after it."""

    line: int
    seat: Optional[int]
    what: str  # "send 1", "softirq", "wake", "step", "full", "stop", "hang", "busy", "down", "up"
    before: Machine
    after: Machine
    said: str = ""  # what a step did, in words: {packet} and {band} are its packet's

    is_start = property(lambda self: self.what.split()[0] in STARTS)


def answer_of(what):
    return "plain" if what == "step" else what


def work(data):
    """The events of a schedule on the right machine, each as it is done; raises a Fault where the program refuses it."""
    m, sends = None, 0
    for line, seat, action in read_schedule(data):
        if seat is None:
            m = first_machine(*action)
            yield Event(line, None, "setup", m, m)
            continue
        if seat >= len(m.seats):
            raise Fault(NO_SEAT, line, f"there are the seats 0 to {len(m.seats) - 1}")
        words = " ".join(map(str, action))
        if action[0] in STARTS:
            why = why_not_begin(m, seat, action)
            if why:
                raise Fault(SEAT_WAITS, line, f"seat {seat} can't begin `{words}`: {why}")
            before, m = m, begin(m, seat, action, sends)
            sends += action[0] == "send"
            yield Event(line, seat, words, before, m)
            continue
        what, count = action if len(action) > 1 else (action[0], 1)
        for number in range(1, count + 1):
            why = why_not_step(m, seat, answer_of(what))
            if why:
                of = f"step {number} of {count}" if what == "step" else f"`{what}`"
                raise Fault(SEAT_WAITS, line, f"seat {seat} can't do {of}: {why}")
            before, (m, words) = m, stepped(m, seat, answer_of(what))
            yield Event(line, seat, what, before, m, words)


def text_of(m, steps):
    """What the program prints of a schedule that it worked."""
    q = m.qdisc
    lines = [f"steps {steps}", f"state {q.state} lock {q.seqlock} xoff {q.xoff} inside {q.inside}", f"held {q.held} sent {q.sent} full {q.full}"]
    return "".join(f"{line}\n" for line in lines + [f"seat {i} {s.name}{' raised' * s.raised}" for i, s in enumerate(m.seats)])


def trace(data):
    """Exit code and standard output of `lqtx trace`."""
    try:
        events = list(work(data))
    except Fault as fault:
        return 7, f"trace refused: {fault.reason} at line {fault.line}\n"
    return 0, text_of(events[-1].after, sum(event.what in ("step", "full", "stop", "hang", "busy") for event in events))


# THE SAME ORDER WITH A MISTAKE


def to_the_end(m, mistake, line=0):
    """Each seat goes on to the end of its call, and soft interrupts that are scheduled come."""
    for _ in range(100000):
        moving = next((i for i, s in enumerate(m.seats) if s.at != "idle"), None)
        raised = next((i for i, s in enumerate(m.seats) if s.raised), None)
        if moving is None and raised is None:
            return
        before = m
        if moving is None:
            m = begin(m, raised, ("softirq",), 0)
            yield Event(line, raised, "softirq", before, m)
        else:
            what = "full" if why_not_step(m, moving, "plain") else "step"
            m, words = stepped(m, moving, answer_of(what), mistake)
            yield Event(line, moving, what, before, m, words)


def is_same(right, wrong):
    """Whether two machines are in the same state, but for what a mistake remembers."""
    return right.qdisc == wrong.qdisc and all(a.name == b.name and a.raised == b.raised for a, b in zip(right.seats, wrong.seats))


def done_again(event, m, mistake):
    """An event of the right machine on one with a mistake, or None where the seat can't do that there."""
    i, what = event.seat, event.what
    if not event.is_start:
        return None if why_not_step(m, i, answer_of(what)) else Event(event.line, i, what, m, *stepped(m, i, answer_of(what), mistake))
    name, *band = what.split()
    if why_not_begin(m, i, (name,)):
        return None
    number = event.after.seats[i].packet.number if band else 0
    return Event(event.line, i, what, m, begin(m, i, (name, *map(int, band)), number))


def work_with_mistake(data, mistake):
    """The same order on the machine with a mistake: its events, on to the end, and the place of the first one after which the right machine
    is in another state. Once they have parted, what a seat can't do there is left out.

    A schedule begins no deactivation, which the last mistake needs: there one comes before each soft interrupt that begins while
    no call is inside, with its activation after the soft interrupt has loaded DEACTIVATED.
    """
    setup, *right = work(data)
    wrong, events, parted = setup.after, [setup], None
    with_control = mistake == "soft_interrupt_gives_up_when_deactivated"
    for event in right:
        if with_control and event.what == "softirq" and may_deactivate(wrong):
            events.append(Event(event.line, None, "down", wrong, deactivated(wrong)))
            wrong = deactivated(wrong)
        done = done_again(event, wrong, mistake)
        if done is None:
            continue
        events.append(done)
        wrong, before = done.after, done.before.seats[event.seat]
        if parted is None and (before.at == "sclear" and before.was if with_control else not is_same(event.after, wrong)):
            parted = len(events) - 1
        if with_control and before.at == "soft" and wrong.qdisc.DEACTIVATED:
            events.append(Event(event.line, None, "up", wrong, activated(wrong)))
            wrong = activated(wrong)
    return events + list(to_the_end(wrong, mistake)), parted


# HOW MANY STEPS MAY STILL COME

# the steps that a seat may still make until it has sent a packet or is idle; crates/lq_run_core/specs/Measure.antt, `way`, by positions
FIRST_LOOK, SECOND_LOOK = 22, 16
INTERRUPT_PAYS, PACKET_PAYS = 14, 20
WAY = {
    "idle": 0, "check": 14, "try1": 9, "miss": 8, "try2": 7, "recheck": 8, "gate": 2, "xmit": 1, "stop": 20, "post": 19, "test": 24, "clearm": 23,
    "cleard": 22, "cclear": 22, "cload": 21, "cmiss": 20, "cdrain": 20, "again": 19, "quota": 19, "unlock": 18, "tail": 17, "sched": 16, "leave": 1,
    "soft": 12, "sclear": 11, "late": 10, "wake": 17,
}  # fmt: skip


def carries(s):
    """Whether a seat has a packet: that of its own transmit until it is put, or the one in hand."""
    if s.at == "enter":
        return s.how != INTERRUPT
    if s.at in ("try1", "miss", "try2"):
        return s.how == DIRECT
    if s.at in ("cclear", "cload", "cmiss", "cdrain"):
        return s.taken
    return s.at in ("check", "put", "recheck", "gate", "xmit")


def has_lock(s):
    """Whether a seat has the run lock."""
    return s.found if s.at == "put" else s.at not in "idle enter check try1 miss try2 tail sched leave soft sclear late wake".split()


def way(q, s):
    if s.at == "enter":
        return 13 if s.how == INTERRUPT else 15
    if s.at == "put":
        return 7 if s.found else 10
    if s.at in ("try1", "miss", "try2"):
        return WAY[s.at] + 4 * (s.how == DIRECT)
    if s.at == "deq":
        return 6 + (0 if q.held else FIRST_LOOK)
    if s.at.startswith("scan"):
        band = int(s.at[-1])
        return 3 + (2 - band) + (0 if any(q.ring[band:]) else SECOND_LOOK if s.second else FIRST_LOOK)
    return WAY[s.at]


def left(m):
    """How many steps may still come at most, the starts of soft interrupts among them, if nobody brings a packet or wakes a queue and the device
    is never busy; None where no packet is held or with the holder of the run lock, or the queue isn't open."""
    q = m.qdisc
    if q.xoff or not (q.held or any(has_lock(s) and carries(s) for s in m.seats)):
        return None
    return PACKET_PAYS * (q.held + sum(map(carries, m.seats))) + sum(way(q, s) + INTERRUPT_PAYS * s.raised for s in m.seats)


# TELLING A STEP


def changes(event):
    """What a step changed, in words."""
    a, b = event.before.qdisc, event.after.qdisc
    said = [f"{name} {'set' if getattr(b, name) else 'clear'}" for name in BITS if getattr(a, name) != getattr(b, name)]
    if a.seqlock != b.seqlock:
        said.append("lock taken" if b.seqlock else "lock free")
    if a.xoff != b.xoff:
        said.append(f"stop word {b.xoff}")
    for band, (before, after) in enumerate(zip(a.ring, b.ring)):
        said += [f"packet {packet.number} into band {band}" for packet in after[len(before) :]]
        said += [f"packet {packet.number} out of band {band}" for packet in before[: len(before) - len(after)] if len(after) < len(before)]
    if a.gso_skb != b.gso_skb:
        said.append(f"packet {b.gso_skb.number} into the requeue slot" if b.gso_skb else f"packet {a.gso_skb.number} out of the requeue slot")
    if a.inside != b.inside:
        said.append(f"inside {b.inside}")
    for name, words in (("sent", "sent"), ("full", "dropped: full")):
        if getattr(a, name) != getattr(b, name):
            said.append(f"packet {event.before.seats[event.seat].packet.number} {words}")
    if event.seat is not None and event.what != "softirq" and event.after.seats[event.seat].raised and not event.before.seats[event.seat].raised:
        said.append(f"seat {event.seat} raised")
    return said


# what is of no interest to who reads an order: a call comes in or leaves, and looks that find what is usual
DULL_PLACES = ("enter", "leave")
DULL_WORDS = ("loads the state: the packet goes to its band", "loads the stop word: open", "finds the queue open, the requeue slot empty", "finds band 0 empty",
              "finds band 1 empty", "loads the state: active")  # fmt: skip


def sentence(event):
    """A step as a sentence, or None where it is of no interest."""
    if event.what == "down":
        return "deactivates: sets DEACTIVATED, finds no call inside, purges"
    if event.what == "up":
        return "activates: clears DEACTIVATED"
    if event.is_start:
        return "a soft interrupt comes" if event.what == "softirq" else None
    s, t = event.before.seats[event.seat], event.after.seats[event.seat]
    if s.at in DULL_PLACES or event.said in DULL_WORDS or s.at == "cleard" and not event.before.qdisc.DRAINING:
        return None
    set_bits = " and ".join(name for name in ("MISSED", "DRAINING") if getattr(event.before.qdisc, name))
    packet, words = s.packet or t.packet, event.said.replace("a bit is set", f"{set_bits} set")
    return words.replace("{packet}", f"packet {packet.number}").replace("{band}", str(packet.band)) if packet else words
