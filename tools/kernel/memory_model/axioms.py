"""The axioms of the Linux kernel's memory model over one candidate execution: linux-kernel.cat of the kernel's tools/memory-model, without
SRCU and without plain accesses. A relation is a list: for each event the set of events that it leads to, as bits of a number.

The names of relations are those of linux-kernel.cat, so that each line here can be read beside the line there.
"""

import functools
import operator


def none(count):
    return [0] * count


def union(*relations):
    return [functools.reduce(operator.or_, rows) for rows in zip(*relations)]


def both(left, right):
    return [a & b for a, b in zip(left, right)]


def bits(number):
    while number:
        low = number & -number
        yield low.bit_length() - 1
        number ^= low


def number_of(members):
    return functools.reduce(operator.or_, (1 << member for member in members), 0)


def then(*relations):
    """One relation after the other: `r ; s`."""
    found = relations[0]
    for more in relations[1:]:
        found = [functools.reduce(operator.or_, (more[member] for member in bits(row)), 0) for row in found]
    return found


def maybe(relation):
    """`r?`."""
    return [row | 1 << at for at, row in enumerate(relation)]


def any_times(relation):
    """`r*`."""
    found = maybe(relation)
    while True:
        more = then(found, found)
        if more == found:
            return found
        found = more


def inverse(relation):
    return [number_of(at for at, row in enumerate(relation) if row >> member & 1) for member in range(len(relation))]


def only(members, count):
    """`[S]`: each member leads to itself."""
    return [members & 1 << at for at in range(count)]


def way_between(start, end, relations):
    """A shortest way from one event to another by these relations, by their names: of each step its name and where it leads; nothing where there is none."""
    before, ring = {}, [start]
    while ring and end not in before:
        at = ring.pop(0)
        for name, rows in relations.items():
            for event in bits(rows[at]):
                if event not in before:
                    before[event] = at, name
                    ring.append(event)
    way, at = [], end
    while end in before and (at != start or not way):
        leads_from, name = before[at]
        way.append((name, at))
        at = leads_from
    return way[::-1]


def cycle_in(relation):
    """The events of a shortest cycle, or None."""
    ways = [way_between(start, start, {"": relation}) for start in range(len(relation)) if relation[start]]
    best = min(filter(None, ways), key=len, default=None)
    return best and [best[-1][1], *(event for _, event in best[:-1])]


class Fixed:
    """What of an execution doesn't depend on where reads come from: program order, dependencies, fences."""

    def __init__(self, events, without=()):
        self.events, self.count = events, len(events)
        self.without = without
        sets = {kind: self.members(lambda event, kind=kind: event.kind == kind) for kind in "RWF"}
        self.is_read, self.is_write = sets["R"], sets["W"]
        accesses = sets["R"] | sets["W"]
        self.po = [self.members(lambda event, at=at: event.thread == events[at].thread >= 0, after=at) for at in range(self.count)]
        same = lambda of: [self.members(lambda other: of(other) == of(event)) for event in events]
        self.int = [row if events[at].thread >= 0 else 0 for at, row in enumerate(same(lambda event: event.thread))]
        self.ext = [~row & (1 << self.count) - 1 for row in self.int]
        same_place = [row & accesses for row in same(lambda event: event.place)]
        self.po_loc = both(both(self.po, same_place), [accesses if accesses >> at & 1 else 0 for at in range(self.count)])
        self.address, self.data, self.control = (self.depends(name) for name in ("address", "data", "control"))
        self.rmw = none(self.count)
        for at, event in enumerate(events):
            if event.read is not None:
                self.rmw[event.read] |= 1 << at
        self.fences(accesses)

    def members(self, test, after=-1):
        return number_of(at for at, event in enumerate(self.events) if at > after and test(event))

    def depends(self, name):
        found = none(self.count)
        for at, event in enumerate(self.events):
            for read in getattr(event, name):
                found[read] |= 1 << at
        return found

    def only(self, members):
        return only(members, self.count)

    def fences(self, accesses):
        po, keep = self.po, self.only
        ordered = lambda *orders: self.members(lambda event: event.order in orders and event.kind != "F")
        fences = lambda kind: self.members(lambda event: event.kind == "F" and event.order == kind)
        fence = lambda kind: then(po, keep(fences(kind)), po)
        memory, write = keep(accesses), keep(self.is_write)
        returning = keep(self.is_read & ~ordered("noreturn"))
        # one that failed counts too: a barrier after it orders it, although it has no order of its own
        updates = keep(number_of(member for at, row in enumerate(self.rmw) if row for member in (at, *bits(row))) | ordered("failed"))
        lock_write = keep(self.is_write & ordered("lock"))
        mb = none(self.count) if "mb" in self.without else then(memory, fence("mb"), memory)
        self.mb = union(
            mb,
            then(memory, fence("before-atomic"), updates, maybe(po), memory),
            then(memory, maybe(po), updates, fence("after-atomic"), memory),
            then(memory, maybe(po), lock_write, fence("after-spinlock"), memory),
        )
        self.unlock, self.lock_read = ordered("unlock"), self.is_read & ordered("lock")
        self.after_unlock_lock = then(keep(fences("after-unlock-lock")), po, memory)
        self.rmb = then(returning, fence("rmb"), returning)
        self.wmb = then(write, fence("wmb"), write)
        self.acq_po = then(keep(self.is_read & ordered("acquire", "lock")), po, memory)
        self.po_rel = then(memory, po, keep(self.is_write & ordered("release", "unlock")))
        self.grace = fences("sync-rcu")
        self.gp = then(po, keep(self.grace), maybe(po))
        self.sections = self.matched()

    def matched(self):
        """Each rcu_read_lock and the rcu_read_unlock that ends its section."""
        found, begun = none(self.count), []
        for at, event in enumerate(self.events):
            begun = begun if at and self.events[at - 1].thread == event.thread else []
            if event.order == "rcu-lock":
                begun.append(at)
            elif event.order == "rcu-unlock" and begun:
                found[begun.pop()] |= 1 << at
        return found


class Decided:
    """An execution beside the axioms: `broken` is the first axiom that forbids it, or None, and `cycle` the events that show it."""

    def __init__(self, fixed, execution):
        self.fixed, self.count = fixed, fixed.count
        self.communicate(execution)
        self.broken, self.cycle = self.judge()

    def communicate(self, execution):
        self.rf, self.co = none(self.count), none(self.count)
        for read, write in execution.reads_from.items():
            self.rf[write] |= 1 << read
        for order in execution.coherence.values():
            for at, write in enumerate(order):
                self.co[write] = number_of(order[at + 1 :])
        self.fr = then(inverse(self.rf), self.co)

    def judge(self):
        fixed = self.fixed
        com = union(self.rf, self.co, self.fr)
        cycle = cycle_in(union(fixed.po_loc, com))
        if cycle:
            return "coherence", cycle
        between = both(fixed.rmw, then(both(self.fr, fixed.ext), both(self.co, fixed.ext)))
        if any(between) and "atomicity" not in fixed.without:
            read = next(at for at, row in enumerate(between) if row)
            return "atomicity", [read, next(bits(between[read]))]
        self.order()
        cycle = cycle_in(self.hb)
        if cycle:
            return "happens-before", cycle
        cycle = cycle_in(self.pb)
        if cycle:
            return "propagation", cycle
        at = self.rcu() if fixed.grace else None
        return (None, None) if at is None else ("rcu", [at])

    def order(self):
        fixed, keep = self.fixed, self.fixed.only
        po, mb = fixed.po, fixed.mb
        rfe, rfi = both(self.rf, fixed.ext), both(self.rf, fixed.int)
        po_unlock_lock_po = then(po, keep(fixed.unlock), union(po, self.rf), keep(fixed.lock_read), po)
        strong_fence = union(mb, then(keep(fixed.is_read | fixed.is_write), po_unlock_lock_po, fixed.after_unlock_lock), fixed.gp)
        fence = union(strong_fence, fixed.po_rel, fixed.acq_po, fixed.wmb, fixed.rmb)
        dep = union(fixed.address, fixed.data)
        rwdep = then(union(dep, fixed.control), keep(fixed.is_write))
        overwrite = union(self.co, self.fr)
        to_w = union(rwdep, both(overwrite, fixed.int))
        to_r = union(then(fixed.address, keep(fixed.is_read)), then(dep, rfi))
        ppo = union(to_r, to_w, both(fence, fixed.int), both(po_unlock_lock_po, fixed.int))
        rmw_sequence = any_times(then(self.rf, fixed.rmw))
        a_cumul = then(maybe(rfe), union(strong_fence, fixed.po_rel))
        cumul_fence = then(union(a_cumul, fixed.wmb, po_unlock_lock_po), rmw_sequence)
        prop = then(maybe(both(overwrite, fixed.ext)), any_times(cumul_fence), maybe(rfe))
        not_itself = [row & ~(1 << at) for at, row in enumerate(prop)]
        self.hb = union(ppo, rfe, both(not_itself, fixed.int))
        self.prop, self.pb = prop, then(prop, strong_fence, any_times(self.hb))

    def rcu(self):
        """An event that would come before itself by grace periods and sections, or None: `irreflexive rb`."""
        fixed, later = self.fixed, then(any_times(self.hb), any_times(self.pb))
        grace, section = fixed.only(fixed.grace), inverse(fixed.sections)
        link = then(maybe(fixed.po), later, self.prop, fixed.po)
        order = union(grace, then(grace, link, section), then(section, link, grace))
        while True:
            between = then(link, order, link)
            more = union(order, then(grace, between, section), then(section, between, grace), then(order, link, order))
            if more == order:
                break
            order = more
        before = then(self.prop, fixed.po, order, maybe(fixed.po), later)
        return next((at for at, row in enumerate(before) if row >> at & 1), None)
