"""Sizes of the machine, and the search over one: search.c is compiled for the size, and what it prints is read."""
import pathlib
import shutil
import signal
import subprocess
from collections import namedtuple
from typing import Iterator, List, NamedTuple, Optional, Tuple

from lib.words import Failed
from kernel.orders import text

HERE = pathlib.Path(__file__).resolve().parent


# of each number of a size: what it is when nothing is said, the least, the most, and what it counts
LIMITS = {
    "seats": (2, 1, 8, "seats, each as a processor"),
    "sends": (2, 1, 15, "transmits of each seat"),
    "bands": (1, 1, 3, "bands that transmits use, of the three that a dequeue looks at"),
    "len": (8, 1, 255, "slots of a ring"),
    "queues": (1, 1, 4, "queues that share the bands"),
    "bypass": (0, 0, 1, "1: a packet may go past the bands (TCQ_F_CAN_BYPASS)"),
    "quota": (64, 1, 127, "packets of a run"),
    "stops": (0, 0, 7, "how often the device accepts a packet and stops its queue"),
    "hangs": (0, 0, 3, "how often it accepts a packet and hangs"),
    "busys": (0, 0, 7, "how often it answers NETDEV_TX_BUSY"),
    "downs": (0, 0, 3, "how often the device is deactivated and activated, in steps"),
    "swaps": (0, 0, 3, "how often it is exchanged for another, in steps"),
    "waits": (0, 0, 1, "1: a deactivation as Linux's, which waits until the lock is free and SCHED is clear; there a soft interrupt that finds DEACTIVATED leaves, "
              "and a wake looks up its qdisc, which may be noop_qdisc. The proved machine needs no such wait"),
}  # fmt: skip


class Size(namedtuple("Size", LIMITS, defaults=[first for first, *_ in LIMITS.values()])):
    """How large a machine is, and what may come to it."""

    def defines(self) -> List[str]:
        values = self._asdict()
        # with fewer packets than a quota no run comes to it, and nothing is to be counted
        values["quota"] = self.quota if self.quota <= self.seats * self.sends else 0
        names = {"stops": "STOPPINGS", "hangs": "HANGINGS"}
        return [f"-D{names.get(name, name.upper())}={value}" for name, value in values.items()]

    def words(self) -> str:
        """The size in a line."""
        many = lambda count, name: f"{count} {name}{'s' * (count != 1)}"
        said = [many(self.seats, "seat"), f"{many(self.sends, 'transmit')} of each", f"into {many(self.bands, 'band')} of {many(self.len, 'slot')}"]
        said += [many(self.queues, "queue")] * (self.queues > 1) + ["past the bands where that is allowed"] * self.bypass
        said += [f"a quota of {self.quota}"] * (self.quota <= self.seats * self.sends)
        may = [(self.stops, "stop"), (self.hangs, "hang"), (self.busys, "busy answer"), (self.downs, "deactivation"), (self.swaps, "swap of the device")]
        said += [f"at most {many(count, name)}" for count, name in may if count]
        how = "which waits until SCHED is clear, as Linux's" if self.waits else "which doesn't wait until SCHED is clear"
        said += [how] * bool(self.downs + self.swaps)
        return ", ".join(said)


# what is searched where no size is given: together some seconds
STANDARD = (
    Size(),
    Size(bypass=1, stops=1, busys=1),
    Size(sends=3, bypass=1, quota=1, stops=1),
    Size(seats=1, bypass=1, quota=2, stops=1, busys=1),
    Size(sends=1, bypass=1, stops=1, busys=1, downs=1),
    Size(sends=1, bypass=1, stops=1, busys=1, downs=1, waits=1),
    Size(sends=1, bypass=1, stops=1, hangs=1, swaps=1),
    Size(queues=2, bypass=1, stops=1, busys=1),
    Size(seats=3),
)
# and these with --large: a minute or two
LARGE = (Size(seats=4), Size(seats=3, bypass=1, stops=1, busys=1), Size(seats=2, bypass=1, stops=1, busys=1, hangs=1, downs=1, swaps=1))


class Undecided(Failed):
    """Why a question isn't answered: no compiler, no memory, no time."""

    def __init__(self, line):
        super().__init__(f"not decided: {line}", 3)


class Move(NamedTuple):
    """A move of an order: who moves, how, from which position to which, what happened in words, and the shared words after it."""

    seat: Optional[int]  # None: control
    kind: str
    before: str
    after: str
    said: str
    state: int
    lock: int
    xoff: Tuple[int, ...]
    bands: Tuple[int, ...]
    slot: int

    @property
    def is_step(self) -> bool:
        return self.kind in ("step", "full", "stop", "hang", "busy")

    @property
    def held(self) -> int:
        return sum(self.bands) + self.slot


class Result(NamedTuple):
    """What a search says: the states, and an order that goes wrong, if it found one."""

    states: int
    served: Optional[int] = None  # states of the second question, where it was asked and answered
    longest: int = 0
    wrong: str = ""  # "left", "lost", "waits", "round", or "endless", which is a round of one seat
    why: str = ""
    moves: Tuple[Move, ...] = ()
    round: Optional[int] = None  # where a round begins, among the moves


def move_of(line: str) -> Move:
    _, seat, kind, before, after, said, *words = line.split("\t")
    state, lock = map(int, words[0].split())
    xoff, (*bands, slot) = (tuple(map(int, part.split())) for part in words[1:])
    return Move(None if seat == "-1" else int(seat), kind, before, after, said, state, lock, xoff, tuple(bands), slot)


def read_result(output: str) -> Result:
    found = Result(0)
    for line in output.splitlines():
        word, _, rest = line.partition(" ")
        if word == "states":
            found = found._replace(states=int(rest.split()[0]))
        elif word == "served":
            served, longest = map(int, rest.split()[:2])
            found = found._replace(served=served, longest=longest)
        elif word == "full":
            raise Undecided(f"{int(rest):,} states were found, and there is no memory for more: give --memory")
        elif word == "late":
            raise Undecided(f"{int(rest):,} states were found, and the time is up: give --seconds")
        elif word in ("left", "lost", "waits", "round"):
            found = found._replace(wrong=word, why=rest)
        elif word == "again":
            found = found._replace(round=len(found.moves))
        elif line.startswith("move\t"):
            found = found._replace(moves=(*found.moves, move_of(line)))
    return found


def compile_search(steps: str, defines: List[str], room: pathlib.Path, optimize="-O2") -> pathlib.Path:
    """The program that searches this text of steps; raises where it doesn't compile."""
    compiler = shutil.which("gcc") or shutil.which("cc")
    if not compiler:
        raise Undecided("there is no C compiler: apt-get install gcc libc6-dev")
    source = room / "steps.h"
    source.write_text(steps, encoding="utf-8")
    program = room / "search"
    words = [compiler, optimize, "-std=gnu11", f'-DSTEPS="{source}"', f"-I{HERE}", *defines, "-o", str(program), str(HERE / "search.c")]
    done = subprocess.run(words, capture_output=True, text=True)
    if done.returncode:
        raise text.Fault(f"the steps don't compile:\n{done.stderr.replace(str(room) + '/', '').rstrip()}")
    return program


# stores that may wait in a buffer (orders/buffers.h), by name: their positions; of the last two a test comes before the store
PLAIN = {
    "put": ["PUT"], "unlock": ["UNLOCK"], "clearm": ["CLEARM"], "cleard": ["CLEARD"], "cclear": ["CCLEAR"], "sets": ["CMISS", "CDRAIN", "AGAIN", "OVER"],
    "sclear": ["SCLEAR"], "stop": ["STOP"], "wake": ["WAKE"], "miss": ["MISS"], "sched": ["SCHEDULE"],
}  # fmt: skip
TESTS = ("miss", "sched")
# what is searched with them where no size is given
BUFFERED = (Size(), Size(stops=1, busys=1))


def buffer_defines(names: Optional[List[str]]) -> List[str]:
    """What makes the search let these stores wait; nothing for None."""
    if names is None:
        return []
    positions = {kind: ",".join(f"[{place}]=1" for name in names if (name in TESTS) == kind for place in PLAIN[name]) for kind in (False, True)}
    return [f"-DPLAIN_STORES={positions[False]}", f"-DTESTS={positions[True]}"]


def search(steps: str, size: Size, both: bool, room: pathlib.Path, megabytes: int, seconds: float, plain: Optional[List[str]] = None) -> Result:
    """All orders of a size; `both` questions, or the first alone; with stores that wait in buffers, if `plain` has any."""
    # a small machine is searched faster than it is compiled well
    program = compile_search(steps, [*size.defines(), *buffer_defines(plain)], room, "-O1" if size in STANDARD else "-O2")
    done = subprocess.run([str(program), str(int(both)), str(megabytes), str(seconds)], capture_output=True, text=True, errors="replace")
    if done.returncode < 0:
        raise Undecided(f"the search ended by {signal.Signals(-done.returncode).name}")
    found = read_result(done.stdout)
    return found._replace(wrong="endless") if found.wrong == "round" and size.seats == 1 else found


def states_apart(steps: str, size: Size, room: pathlib.Path, megabytes: int, seconds: float) -> int:
    """How many states there are where the seats are told apart, as SPIN has them."""
    program = compile_search(steps, [*size.defines(), "-DAPART"], room)
    return read_result(subprocess.run([str(program), "0", str(megabytes), str(seconds)], capture_output=True, text=True).stdout).states


def walks(steps: str, seed: int, count: int, room: pathlib.Path) -> Iterator[Tuple[str, str]]:
    """Random schedules of 1 to 8 seats that the steps can do, and what each leaves, as `lqtx trace` prints it."""
    size = Size(seats=8, sends=15, bands=3)
    program = compile_search(steps, [*size.defines(), "-DWALK"], room, "-O1")
    for walk in subprocess.run([str(program), "walk", str(seed), str(count)], capture_output=True, text=True).stdout.split("==\n")[:-1]:
        schedule, _, left = walk.partition("--\n")
        yield schedule, left
