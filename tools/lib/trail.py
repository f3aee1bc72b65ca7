"""What became of each packet of a run, as its fates have it, and when it left, which they don't have."""
from array import array
from itertools import chain, zip_longest

KINDS = ["sent", "full", "shrunk", "purged", "refused"]
SENT, FULL, SHRUNK, PURGED, REFUSED = range(5)
NONE_YET = 255
# in place of an event: held at the end by a station whose device hangs
HANGS = 0xFFFFFFFF


def line_of(n, kind, name, serial):
    """A line of OUT.fates."""
    if kind == SENT:
        return f"{n} sent {name} {serial}\n"
    return f"{n} {KINDS[kind]} {'hung' if name == HANGS else name}\n" if kind != NONE_YET else f"{n} lost\n"


class Trail:
    """Of each packet the kind of its fate, what that names (a unit, a packet or an event), of a sent packet its serial, and when it left.

    Moments are numbers: 2 n + 1 is when packet n came, with the openings of stopped queues behind it; 2 n is what the plan does before packet n.
    So what is done after the last packet has the moment `end`. Where queues are opened by time, the openings of a moment are numbered from 1 on.
    """

    def __init__(self, count):
        self.kinds = bytearray([NONE_YET]) * count
        self.names, self.serials = array("I", bytes(4 * count)), array("I", bytes(4 * count))
        self.left, self.openings = array("I", bytes(4 * count)), array("I", bytes(4 * count))
        self.now, self.opening, self.end = 0, 0, 2 * count

    def put(self, n, kind, name, serial=0):
        """The fate of a packet, which leaves now."""
        self.kinds[n], self.names[n], self.serials[n], self.left[n], self.openings[n] = kind, name, serial, self.now, self.opening

    def is_at(self, moment):
        """Goes to a moment, before the openings that it has."""
        self.now, self.opening = moment, 0

    def waited(self, n):
        """Whether a packet didn't leave when it came."""
        return self.left[n] != 2 * n + 1 or self.openings[n] != 0

    def lines(self):
        """The fates as lines of OUT.fates."""
        return map(line_of, range(len(self.kinds)), self.kinds, self.names, self.serials)

    def text(self):
        return "".join(self.lines())


def by_serial(numbers, serials):
    """The packets that a unit sent, in the order in which it sent them."""
    found = array("I", bytes(4 * len(serials)))
    for n, serial in zip(numbers, serials):
        found[serial] = n
    return found


def joint(lists):
    """What the children of a multi-queue root sent, each list by serial: all packets by serial, and at one serial by child."""
    return array("I", (n for n in chain.from_iterable(zip_longest(*lists)) if n is not None))


def sent_by_units(trail, units):
    """The packets that each of so many units sent, by serial."""
    sent = [[] for _ in range(units)]
    for n, (kind, unit, serial) in enumerate(zip(trail.kinds, trail.names, trail.serials)):
        if kind == SENT:
            sent[unit].append((serial, n))
    return [[n for _, n in sorted(of)] for of in sent]


def joint_lists(plan, trail):
    """Of each group of the plan, by its number, the packets of its joint file. A child has one unit, of its own number."""
    sent = sent_by_units(trail, plan.units)
    return {at: list(joint([sent[child] for child in children])) for at, children in plan.groups}
