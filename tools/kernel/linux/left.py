"""Rounds in which a qdisc is deactivated and activated again with packets in it: in how many of them packets are left behind."""
import subprocess
import time
from collections import namedtuple
from concurrent.futures import ThreadPoolExecutor

from kernel.linux import guest, packages

# the orders of left_device.c, and the same as the first with a schedule after dev_activate
ORDERS = {
    (1, 0): "a wake finds noop_qdisc",
    (2, 0): "a soft interrupt finds DEACTIVATED",
    (3, 0): "a run finds the queue frozen",
    (4, 0): "a wake at any time",
    (1, 1): "as the first, and each queue is scheduled after dev_activate",
}
CONTROL = "6.1"
PACKETS, PROCESSORS, ROUNDS = 3, 2, 30
# all of it ends within so many seconds, or a guest has the least time once it boots
WHOLE, LEAST = 285, 60
# of an order: its rounds, those in which the order came about, those with packets left, and packets: left, purged, sent with the next transmit
Count = namedtuple("Count", "rounds came_about with_left left purged taken")
NO_ROUND = Count(0, 0, 0, 0, 0, 0)


def counts_of(console):
    """Of each order the counts of its rounds, as the guest's console has them, and whether the guest came to its end."""
    found = dict.fromkeys(ORDERS, NO_ROUND)
    lines = console.splitlines()
    for words in (line.split() for line in lines if line.startswith("round ")):
        if len(words) != 9:
            continue
        order, cure, came_about, left, _, purged, taken, _ = map(int, words[1:])
        was = found[order, cure]
        one = (1, int(came_about > 0), int(left > 0), left, purged, taken if left else 0)
        found[order, cure] = Count(*(a + b for a, b in zip(was, one)))
    return found, "the end" in lines


def table(results):
    """A line for each order, and for each kernel the rounds in which packets were left; then what became of the packets."""
    width = max(map(len, ORDERS.values()))
    yield f"{'rounds in which packets are left':{width}}  " + "  ".join(f"{name:>12}" for name in results)
    for order, about in ORDERS.items():
        counts = [found[order] for found in results.values()]
        yield f"{about:{width}}  " + "  ".join(f"{f'{count.with_left} of {count.rounds}':>12}" for count in counts)
    for name, found in results.items():
        total = Count(*map(sum, zip(*found.values())))
        packets = total.rounds * PACKETS
        sent = packets - total.left - total.purged
        yield f"{name}: {packets} packets, {total.left} left, of which the next transmit took {total.taken} along, {total.purged} purged, {sent} sent"


def image_of(tools, kernel, folder):
    made = folder / f"left-{kernel.version}"

    def fill(root):
        (root / "left_device.ko").write_bytes(guest.make_module(tools, kernel, made / "module", "left_device"))
        (root / "rounds").write_text(f"{ROUNDS}\n", encoding="utf-8")

    return guest.image_of(tools, made, "left-init", ("left_device.c", "left.py"), fill)


def boot(tools, kernel, image, patience):
    """What the guest's console said in the time that a kernel has."""
    words = guest.emulator(tools, kernel, image, PROCESSORS)
    try:
        said = subprocess.run(words, env=tools.environment(), stdin=subprocess.DEVNULL, capture_output=True, timeout=patience, check=False).stdout
    except subprocess.TimeoutExpired as late:
        said = late.stdout or b""
    return said.decode(errors="replace").replace("\r", "")


def rounds_of(version, lists, tools, folder, tell, end):
    """The name of a kernel and its counts. `tools` are being fetched meanwhile."""
    kernel = packages.Kernel(version, folder, tell, lists, alone=True)
    image = image_of(tools.result(), kernel, folder)
    patience = max(LEAST, end - time.monotonic())
    tell(f"booting {version}: at most {patience:.0f} s")
    console = boot(tools.result(), kernel, image, patience)
    (image.parent / "console").write_text(console, encoding="utf-8")
    counts, is_whole = counts_of(console)
    if counts[1, 0] == NO_ROUND:
        raise packages.Missing(f"the guest of {version} didn't come to its rounds; its console is in {image.parent / 'console'}")
    if not is_whole:
        tell(f"the guest of {version} didn't come to the end of its rounds in {patience:.0f} s: the table has those that it came to")
    return version.removesuffix("-amd64"), counts


def compare(word, folder, tell):
    """The counts of a kernel and of the control, whose packages are fetched, and whose guests run, side by side; and their table."""
    end = time.monotonic() + WHOLE
    with ThreadPoolExecutor(3) as side_by_side:
        tools = side_by_side.submit(packages.Tools, folder, tell)
        named = [packages.named(kernel, folder, tell) for kernel in dict.fromkeys((word, CONTROL))]
        running = [side_by_side.submit(rounds_of, *kernel, tools, folder, tell, end) for kernel in named]
        results = dict(guests.result() for guests in running)
    return results, table(results)
