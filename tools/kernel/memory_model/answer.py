"""Decides a litmus test, and prints an execution: one in which the condition holds, or why none is allowed."""
import itertools
from collections import namedtuple

from . import axioms
from .executions import executions_of

# The word: Never, Sometimes or Always. The execution that is shown: an allowed one in which the condition holds; where there is none, a
# forbidden one in which it holds, with the name of the axiom and the steps of the cycle, each a relation and the event that it leads to.
Answer = namedtuple("Answer", "word execution axiom cycle")
RELATIONS = ("rf", "co", "fr", "po_loc", "mb", "rmb", "wmb", "acq_po", "po_rel", "address", "data", "control")


def value_of(execution, left):
    thread, name = left
    return execution.events[execution.coherence[name][-1]].value if thread is None else execution.registers[thread].get(name, 0)


def is_met(execution, condition):
    kind, *parts = condition
    if kind == "and":
        return all(is_met(execution, part) for part in parts)
    if kind == "or":
        return any(is_met(execution, part) for part in parts)
    if kind == "not":
        return not is_met(execution, parts[0])
    return value_of(execution, parts[0]) == parts[1]


class Search:
    """What is known so far: an allowed execution in which the condition holds, one in which it doesn't, and a forbidden one."""

    def __init__(self, test, without):
        self.test, self.without = test, without
        self.met, self.unmet, self.forbidden = None, None, None
        self.events, self.fixed = None, None

    def add(self, execution):
        if self.test.filter and not is_met(execution, self.test.filter):
            return
        met = is_met(execution, self.test.condition)
        if (self.met if met else self.unmet) is not None:
            return
        if execution.events is not self.events:
            self.events, self.fixed = execution.events, axioms.Fixed(execution.events, self.without)
        decided = axioms.Decided(self.fixed, execution)
        if not decided.broken and met:
            self.met = execution
        elif not decided.broken:
            self.unmet = execution
        elif met and (self.forbidden is None or rank(decided) < rank(self.forbidden[1])):
            self.forbidden = execution, decided

    def answer(self):
        if self.met:
            return Answer("Sometimes" if self.unmet else "Always", self.met, None, None)
        if not self.forbidden:
            return Answer("Never", None, None, None)
        execution, decided = self.forbidden
        return Answer("Never", execution, decided.broken, steps_of(decided, execution))


def rank(decided):
    """Of the forbidden executions that is shown whose axiom says most, and then whose cycle is shortest."""
    return -("coherence", "atomicity", "happens-before", "propagation", "rcu").index(decided.broken), len(decided.cycle)


def decide(test, without=()):
    """In how many of the executions that the memory model allows the condition holds: in none, in some or in all."""
    search = Search(test, without)
    for execution in executions_of(test, "atomicity" not in without):
        search.add(execution)
        if search.met and search.unmet:
            break
    return search.answer()


def steps_of(decided, execution):
    """A cycle as steps of the relations that a reader knows: reads-from, coherence, from-read, fences and dependencies."""
    relations = {name.replace("_", "-"): getattr(decided, name, None) or getattr(decided.fixed, name) for name in RELATIONS}
    cycle, found = decided.cycle, []
    for event, following in zip(cycle, [*cycle[1:], cycle[0]]):
        found += axioms.way_between(event, following, relations) or [("..", following)]
    return [("", cycle[0]), *found]


def shown_event(event):
    order = "" if event.order in ("once", "noreturn", "") else f" ({event.order})"
    if event.kind == "F":
        return f"fence {event.order}"
    part = " of a read-modify-write" if event.read is not None else ""
    return f"{'reads' if event.kind == 'R' else 'writes'} {event.place} = {event.value}{part}{order}"


def names_of(execution):
    """A letter for each access; the first values' writes are called `first`."""
    fresh = (letter + (str(number) if number else "") for number in itertools.count() for letter in "abcdefghijklmnopqrstuvwxyz")
    return [next(fresh) if event.thread >= 0 and event.kind != "F" else "first" for event in execution.events]


def shown_execution(execution):
    """Each thread's events in program order, and where each read's value comes from; then the orders of writes."""
    names, lines = names_of(execution), []
    thread = None
    for at, event in enumerate(execution.events):
        if event.thread < 0:
            continue
        if event.thread != thread:
            thread = event.thread
            lines.append(f"P{thread}:")
        text = f"  {names[at] + ':' if event.kind != 'F' else '':4} {shown_event(event)}"
        if at in execution.reads_from:
            source = execution.reads_from[at]
            text += ", the first value" if execution.events[source].thread < 0 else f", which {names[source]} wrote"
        lines.append(text)
    for place, order in execution.coherence.items():
        if len(order) > 2:
            lines.append(f"{place} is written by " + ", then ".join(names[write] for write in order[1:]))
    return lines


def shown_cycle(answer):
    names = names_of(answer.execution)
    (_, first), *rest = answer.cycle
    if answer.axiom == "rcu":
        return f"{names[first]} would come before itself, by a grace period"
    return names[first] + "".join(f" -{relation}-> {names[event]}" for relation, event in rest)
