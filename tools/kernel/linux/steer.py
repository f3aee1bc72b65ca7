"""One order of steps of two senders in a guest, by the emulator's debugger: that which the second try of `qdisc_run_begin` is for.

The first sender has run the bands to their end, and goes on only when the second one has put its packet into them and failed to get the run lock. The second
one sets MISSED only when the first one has released the lock and looked for MISSED. A kernel without the second try then leaves the second
sender's packet in its band.
"""
import re
import socket
import time

from lib import captures
from lib.plans import Plan, Station
from kernel.linux.packages import Missing, run
from kernel.linux.plans import Sent, frame

# of the registers, in the debugger's order: the stack's top
RSP = 7
# the function by which a packet is sent, the one that runs the bands, and the one that sets MISSED, which may be compiled into the first
TRANSMIT, RUN, BEGIN = "__dev_queue_xmit", "__qdisc_run", "qdisc_run_begin"
# how MISSED, bit 2 of the state, is set: test_and_set_bit of arch/x86/include/asm/bitops.h
SETS_MISSED = re.compile(r"^ *([0-9a-f]+):\s+lock bts[ql]? +\$0x2,", re.M)


def two_packets():
    """A packet of each of two senders, which go through the bands."""
    plan = Plan(station=[Station(len=8, bypass=False)], senders=2, irq_every=1000)
    return Sent(plan, captures.Capture(captures.ethernet([frame(0, 0, 0, n) for n in range(2)])))


def symbols_of(text):
    """The addresses of a System.map by name."""
    return {name: int(address, 16) for address, _, name in map(str.split, text.splitlines())}


def places_of_missed(text):
    """Where a disassembled function sets MISSED."""
    return [int(address, 16) for address in SETS_MISSED.findall(text)]


class Places:
    """Where a kernel that was built in a folder does the steps."""

    def __init__(self, folder):
        map_file, image = folder / "System.map", folder / "vmlinux"
        if not (map_file.is_file() and image.is_file()):
            raise Missing(f"{folder} has no System.map and vmlinux: it is the folder in which the kernel was built")
        symbols = symbols_of(map_file.read_text(encoding="ascii"))
        for name in (TRANSMIT, RUN):
            if name not in symbols:
                raise Missing(f"{map_file} has no {name}")
        self.transmit, self.run, self.missed = symbols[TRANSMIT], symbols[RUN], []
        for start in (symbols[name] for name in (TRANSMIT, BEGIN) if name in symbols):
            stop = min(address for address in symbols.values() if address > start)
            self.missed += places_of_missed(run(["objdump", "-d", "--no-show-raw-insn", f"--start-address={start}", f"--stop-address={stop}", str(image)]))
        if not self.missed:
            raise Missing(f"{image} sets no MISSED in {TRANSMIT} and {BEGIN}")


class Debugger:
    """The emulator's debugger, by the protocol of gdb's remote targets."""

    def __init__(self, path, patience):
        end = time.monotonic() + patience
        self.wire = socket.socket(socket.AF_UNIX)
        while self.wire.connect_ex(str(path)):
            if time.monotonic() > end:
                raise Missing("the emulator's debugger doesn't answer")
            time.sleep(0.1)
        self.wire.settimeout(patience)
        self.read = self.wire.makefile("rb")
        # it stops the guest for who connects, and says so unasked
        self.send("Hg0")
        while self.answer() != "OK":
            pass

    def send(self, words):
        self.wire.sendall(f"${words}#{sum(words.encode()) % 256:02x}".encode())

    def answer(self):
        """The next packet of the emulator; what comes before it are its signs that it read ours."""
        while (sign := self.read.read(1)) != b"$":
            if not sign:
                raise Missing("the guest ended before the order was made")
        text = b"".join(iter(lambda: self.read.read(1), b"#")).decode()
        self.read.read(2)
        self.wire.sendall(b"+")
        return text

    def ask(self, words):
        self.send(words)
        return self.answer()

    def top_of_stack(self, processor):
        """The word at the top of a processor's stack: at the begin of a function, where it returns to."""
        self.ask(f"Hg{processor}")
        registers = bytes.fromhex(self.ask("g")[: 16 * (RSP + 1)])
        at = int.from_bytes(registers[8 * RSP :], "little")
        return int.from_bytes(bytes.fromhex(self.ask(f"m{at:x},8")), "little")

    def go(self, processors, places):
        """Lets processors go on until one comes to one of these places, and answers its number."""
        for place in places:
            self.ask(f"Z1,{place:x},1")
        self.send("vCont;" + ";".join(f"c:{processor}" for processor in processors) if processors else "vCont;c")
        stopped = re.search(r"thread:(?:p\w+\.)?(\w+);", self.answer())
        for place in places:
            self.ask(f"z1,{place:x},1")
        return int(stopped[1], 16)

    def leave(self):
        """Lets the guest go on to its end."""
        self.ask("D")
        self.wire.close()


def make_order(path, places, processors, patience=300):
    """Makes the order, and lets the guest go on."""
    guest = Debugger(path, patience)
    sent = guest.top_of_stack(guest.go((), [places.transmit]))
    first = guest.go((), [places.run])
    guest.go([first], [guest.top_of_stack(first)])
    guest.go([other for other in range(1, processors + 1) if other != first], places.missed)
    guest.go([first], [sent])
    guest.leave()
