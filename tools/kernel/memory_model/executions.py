"""The candidate executions of a litmus test: what each thread may do, where each read's value comes from, and the order of writes."""
import itertools
from collections import namedtuple

from .language import Address, Assign, Binary, Compare, Fence, If, Load, Lock, Malformed, Number, Register, Store, Unary, Update

MOST_VALUES = 64
# An access or a fence. kind: R, W, F; order: of an access once, acquire, release, noreturn, failed (an exchange that didn't come about), lock or
# unlock, of a fence its kind. The event depends on the reads in `address`, `data` and `control` (numbers of events). A write that is half of a
# read-modify-write has the read's number.
Event = namedtuple("Event", "thread kind place value order address data control read", defaults=(frozenset(), frozenset(), frozenset(), None))
# What one thread did: its events in program order, and its registers at the end.
Trace = namedtuple("Trace", "events registers")
# A candidate: all events, the first values' writes first; reads_from: read -> write; coherence: place -> its writes in order; registers: a thread's.
Execution = namedtuple("Execution", "events reads_from coherence registers")
# The end of an `if`: the control dependencies that hold after it.
Leave = namedtuple("Leave", "control")
OPERATIONS = {
    "+": lambda a, b: a + b, "-": lambda a, b: a - b, "&": lambda a, b: a & b, "|": lambda a, b: a | b, "^": lambda a, b: a ^ b,
    "&~": lambda a, b: a & ~b, "=": lambda a, b: b, "==": lambda a, b: int(a == b), "!=": lambda a, b: int(a != b),
    "<": lambda a, b: int(a < b), ">": lambda a, b: int(a > b), "<=": lambda a, b: int(a <= b), ">=": lambda a, b: int(a >= b),
    "&&": lambda a, b: int(bool(a) and bool(b)), "||": lambda a, b: int(bool(a) or bool(b)),
}  # fmt: skip
# by the order of an operation those of its read and its write; one that is fully ordered has a fence before and behind
ORDERS = {"mb": ("mb", "mb"), "acquire": ("acquire", "once"), "release": ("once", "release"), "relaxed": ("once", "once"), "noreturn": ("noreturn", "once")}
UNARY = {"!": lambda a: int(not a), "~": lambda a: ~a, "-": lambda a: -a}


class State(namedtuple("State", "thread events registers control")):
    """A thread on its way. A register has its value and the reads that this depends on."""

    def value(self, of):
        if isinstance(of, Number):
            return of.value, frozenset()
        if isinstance(of, Address):
            return of.name, frozenset()
        if isinstance(of, Register):
            return self.registers.get(of.name, (0, frozenset()))
        if isinstance(of, Unary):
            value, reads = self.value(of.of)
            return UNARY[of.operation](value), reads
        assert isinstance(of, Binary)
        left, right = self.value(of.left), self.value(of.right)
        return OPERATIONS[of.operation](left[0], right[0]), left[1] | right[1]

    def with_register(self, name, value, reads):
        return self._replace(registers={**self.registers, name: (value, reads)})

    def with_event(self, kind, place="", value=None, order="", **more):
        return self._replace(events=(*self.events, Event(self.thread, kind, place, value, order, control=self.control, **more)))

    def fence(self, kind):
        return self.with_event("F", order=kind)

    def next(self):
        return len(self.events)


class Runner:
    """All that one thread may do, where a read of a place may find each of its values."""

    def __init__(self, values):
        self.values = values
        self.steps = {Load: self.load, Store: self.store, Update: self.update, Compare: self.compare, Lock: self.lock}
        self.steps[Fence] = lambda state, fence: [state.fence(fence.kind)]
        self.steps[Assign] = lambda state, assign: [state.with_register(assign.register, *state.value(assign.value))]
        self.steps[Leave] = lambda state, leave: [state._replace(control=leave.control)]

    def run(self, number, body):
        for end in self.go(State(number, (), {}, frozenset()), list(body)):
            yield Trace(end.events, {name: value for name, (value, _) in end.registers.items()})

    def go(self, state, statements):
        if not statements:
            yield state
            return
        first, rest = statements[0], statements[1:]
        if isinstance(first, If):
            value, reads = state.value(first.condition)
            arm = first.then if value else first.otherwise
            yield from self.go(state._replace(control=state.control | reads), [*arm, Leave(state.control), *rest])
            return
        for after in self.steps[type(first)](state, first):
            yield from self.go(after, rest)

    def place(self, state, of):
        place, reads = state.value(of)
        if place not in self.values:
            raise Malformed(f"{place!r} isn't a shared variable")
        return place, reads

    def found(self, state, of, order):
        """The state after a read, with the value that it found, for each value that there may be."""
        place, address = self.place(state, of)
        for value in sorted(self.values[place], key=str):
            yield state.with_event("R", place, value, order, address=address), value

    def load(self, state, load):
        for after, value in self.found(state, load.place, load.order):
            yield after.with_register(load.register, value, frozenset([state.next()]))

    def store(self, state, store):
        place, address = self.place(state, store.place)
        value, data = state.value(store.value)
        yield state.with_event("W", place, value, store.order, address=address, data=data)

    def modified(self, state, step, orders, made, is_computed=True):
        """A read-modify-write. Of what was read `made` gives the value that is written, the other reads on which that depends, and what the register gets; None
        where nothing is written. A value that isn't computed from what was read, as in an exchange, is written after the read without being made from it."""
        is_full = orders == ("mb", "mb")
        before = state.fence("mb") if is_full else state
        read = before.next()
        for after, old in self.found(before, step.place, "once" if is_full else orders[0]):
            change = made(old)
            if change is None:
                continue
            new, data, gives = change
            place, address = self.place(after, step.place)
            waits = after if is_computed else after._replace(control=after.control | {read})
            end = waits.with_event("W", place, new, "once" if is_full else orders[1], address=address, data=data | {read} if is_computed else data, read=read)
            end = end._replace(control=after.control)
            yield (end.fence("mb") if is_full else end).with_register(step.register, gives, frozenset([read]))

    def update(self, state, update):
        operand, data = state.value(update.operand)

        def made(old):
            new = OPERATIONS[update.operation](old, operand)
            return new, data, {"old": old, "new": new, "is_zero": int(new == 0), "nothing": 0}[update.gives]

        return self.modified(state, update, ORDERS[update.order], made, update.operation != "=")

    def compare(self, state, compare):
        """A compare-and-exchange, or an addition unless a value is found. One that fails is a read without order of its own."""
        wanted, _ = state.value(compare.old)
        new, data = state.value(compare.new)
        for plain, old in self.found(state, compare.place, "failed"):
            if (old == wanted) == compare.adds:
                yield plain.with_register(compare.register, 0 if compare.adds else old, frozenset([state.next()]))

        def made(old):
            if (old == wanted) != compare.adds:
                return (old + new, data, 1) if compare.adds else (new, data, old)

        yield from self.modified(state, compare, ORDERS[compare.order], made, compare.adds)

    def lock(self, state, lock):
        """A lock that is got is an acquiring read-modify-write from 0 to 1; a try that finds it held is a read without order."""
        yield from self.modified(state, lock, ("lock", "lock"), lambda old: (1, frozenset(), 1) if old == 0 else None)
        for after, old in self.found(state, lock.place, "once") if not lock.waits else ():
            if old != 0:
                yield after.with_register(lock.register, 0, frozenset([state.next()]))


def writes_in(body):
    """How many writes a thread's text has: a value goes through each of them once at most."""
    return sum(writes_in(step.then) + writes_in(step.otherwise) if isinstance(step, If) else isinstance(step, (Store, Update, Compare, Lock)) for step in body)


def traces_of(test):
    """What each thread may do, over all values that any thread may store."""
    values = {place: {first} for place, first in test.first.items()}
    for _ in range(sum(map(writes_in, test.threads)) + 1):
        runner = Runner(values)
        traces = [list(runner.run(number, body)) for number, body in enumerate(test.threads)]
        more = {place: set(known) for place, known in values.items()}
        for event in (event for thread in traces for trace in thread for event in trace.events if event.kind == "W"):
            more[event.place].add(event.value)
        if more == values:
            break
        if max(map(len, more.values())) > MOST_VALUES:
            raise Malformed(f"a variable has more than {MOST_VALUES} values")
        values = more
    return traces


def shifted(event, by):
    """An event with its numbers of other events among all events."""
    move = lambda reads: frozenset(read + by for read in reads)
    read = None if event.read is None else event.read + by
    return event._replace(address=move(event.address), data=move(event.data), control=move(event.control), read=read)


def all_events(test, traces):
    events = [Event(-1, "W", place, first, "once") for place, first in test.first.items()]
    for trace in traces:
        by = len(events)
        events += [shifted(event, by) for event in trace.events]
    return events


def orders_of(writes, events):
    """The orders of a place's writes, the first value's first, in which a thread's own writes keep their order."""
    first, *others = writes
    for order in itertools.permutations(others):
        own = {}
        for write in order:
            own.setdefault(events[write].thread, []).append(write)
        if all(writes == sorted(writes) for writes in own.values()):
            yield (first, *order)


def sources_of(read, events, halves, orders, atomic):
    """The writes that a read's value may come from. Half of a read-modify-write reads from the write before its own (atomicity)."""
    event = events[read]
    order = orders[event.place]
    if atomic and read in halves:
        order = [order[order.index(halves[read]) - 1]]
    return [write for write in order if events[write].value == event.value]


def executions_of(test, atomic=True):
    """Each candidate execution of a test; whether the memory model allows it is another question."""
    for traces in itertools.product(*traces_of(test)):
        events = all_events(test, traces)
        reads = [at for at, event in enumerate(events) if event.kind == "R"]
        halves = {event.read: at for at, event in enumerate(events) if event.read is not None}
        writes = {place: [at for at, event in enumerate(events) if event.kind == "W" and event.place == place] for place in test.first}
        registers = [trace.registers for trace in traces]
        for chosen in itertools.product(*(orders_of(writes[place], events) for place in writes)):
            orders = dict(zip(writes, chosen))
            for sources in itertools.product(*(sources_of(read, events, halves, orders, atomic) for read in reads)):
                yield Execution(events, dict(zip(reads, sources)), orders, registers)
