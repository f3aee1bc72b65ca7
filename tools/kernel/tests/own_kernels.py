"""A kernel of one's own beside the rules: the words, and what is said of a kernel that can't be taken. It boots none."""
import os
import shutil
import struct

from kernel.linux import own
from tests.bench import HERE, ROOM, TOP, expect, expect_none, fault_if, is_equal, room_of, run

TOOL = HERE / "kernel/beside-linux"
# names in the tests' common room are others'
OWN = ROOM / "own-kernels"
FILES = [TOP / "examples/drops.toml", TOP / "examples/loopback.pcap"]


def image_of(release):
    """The head of a bzImage of that release."""
    data = bytearray(1024)
    data[own.MARK_AT : own.MARK_AT + 4] = own.MARK
    struct.pack_into("<H", data, own.VERSION_AT, 0x100)
    text = f"{release} (me@here) #1\0".encode()
    data[0x300 : 0x300 + len(text)] = text
    return bytes(data)


def kernel(name, release="6.1.9", built="6.1.9", without=()):
    """The image and the folder of a kernel that was built here."""
    values = "".join(f"CONFIG_{option}={'m' if option == '9P_FS' else 'y'}\n" for option in own.MUST_HAVE if option not in without)
    room = room_of(OWN / name, {"bzImage": image_of(release), own.RELEASE: f'#define UTS_RELEASE "{built}"\n', own.VALUES: values})
    return ["--image", room / "bzImage", "--headers", room]


def test_own_kernel_words():
    whole = kernel("whole")
    for words in (whole[:2], whole[2:], [*whole, "--kernel", "6.1"], ["--modules", OWN]):
        expect(f"beside-linux {words}", run(TOOL, "--rules-alone", *words, *FILES), 2, "--image BZIMAGE --headers DIR [--modules DIR]")
    expect("beside-linux --image, no plan", run(TOOL, *whole), 2, "PLAN and CAPTURE, or --many N")
    expect("beside-linux, no such option", run(TOOL, "--rules-alone", "--imag", whole[1], *FILES), 2, "--imag")
    os.link(whole[1], OWN / "o.linux.fates")
    expect("beside-linux --image, an output that is the image by a link", run(TOOL, "--rules-alone", *whole, *FILES, OWN / "o"), 2, "o.linux.fates is an input")
    said = run(TOOL, "--config")
    expect("beside-linux --config", said, 0, "CONFIG_NET_SCHED=y\n", "CONFIG_FTRACE=y\nCONFIG_ENABLE_DEFAULT_TRACERS=y\n")
    expect_none("beside-linux --config", said, "CONFIG_TRACEPOINTS=")
    is_equal("what a kernel lacks", own.lacking("CONFIG_64BIT=y\n# CONFIG_SMP is not set\n" + "".join(f"CONFIG_{name}=m\n" for name in own.MUST_HAVE if name not in ("64BIT", "SMP"))), ["CONFIG_SMP"])


def test_own_kernel_refused():
    rows = {
        "is of 6.1.8 and": kernel("other", "6.1.8"),
        "lacks CONFIG_SMP, CONFIG_TRACEPOINTS: --config prints": kernel("lacks", without=("SMP", "TRACEPOINTS")),
        "has no include/generated/utsrelease.h": [*kernel("none")[:3], OWN],
        "none is no folder": [*kernel("modules"), "--modules", OWN / "modules/none"],
    }
    for text, words in rows.items():
        expect(f"beside-linux, {text}", run(TOOL, "--rules-alone", *words, *FILES), 3, text)
    words = kernel("text")
    (OWN / "text/bzImage").write_text("no kernel", encoding="utf-8")
    expect("beside-linux, a text for an image", run(TOOL, "--rules-alone", *words, *FILES), 3, "bzImage is no bzImage")
    (OWN / "text/bzImage").unlink()
    expect("beside-linux, no image", run(TOOL, "--rules-alone", *words, *FILES), 4, "bzImage: No such file")


def test_own_kernel_missing_packages():
    path = room_of(OWN / "bare")
    (path / "python3").symlink_to(os.path.realpath(shutil.which("python3")))
    words = ["--rules-alone", "--folder", OWN / "folder", *kernel("packages"), *FILES]
    said = run(path / "python3", TOOL, *words, env=dict(os.environ, PATH=str(path)))
    expect("beside-linux --image without packages", said, 3, "there is no program 'apt-get', which Debian has")
    fault_if((OWN / "folder/tools").exists(), "beside-linux: without apt-get a folder of packages is made")
