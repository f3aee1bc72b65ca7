"""A kernel that was built here: what it must have, and where its parts are."""
import struct
import zlib
from pathlib import Path

from kernel.linux.packages import Missing

# each option that a kernel must have, built in or as a module, with what it is for
MUST_HAVE = {
    "64BIT": "the emulated processor",
    "SMP": "several senders, each on a processor",
    "PRINTK": "the console, on which a guest that fails says why",
    "TTY": "", "SERIAL_8250": "", "SERIAL_8250_CONSOLE": "",
    "BLK_DEV_INITRD": "the first file system",
    "RD_GZIP": "", "BINFMT_ELF": "", "BINFMT_SCRIPT": "", "DEVTMPFS": "", "PROC_FS": "", "PROC_SYSCTL": "", "SYSFS": "",
    "FUTEX": "the sender's threads",
    "MODULES": "the module with the devices",
    "KALLSYMS": "the names of the functions that drop packets",
    "TRACEPOINTS": "the probe that sees them",
    "CRC32": "the checksums of frames",
    "NET": "the path itself",
    "INET": "", "PACKET": "", "NET_SCHED": "", "NETDEVICES": "",
    "PCI": "the folder that guest and host share",
    "VIRTIO_PCI": "", "NET_9P": "", "NET_9P_VIRTIO": "", "9P_FS": "",
    "ACPI": "the end: it switches the emulator off",
}  # fmt: skip
# what can't be asked for by itself, and options that bring it
BROUGHT_BY = {"TRACEPOINTS": ("FTRACE", "ENABLE_DEFAULT_TRACERS")}
# options that others stand behind
BEFORE = {"9P_FS": ("NETWORK_FILESYSTEMS",), "VIRTIO_PCI": ("VIRTIO_MENU",)}
# of a folder in which a kernel was built: the release that its modules are for, and the options that it has
RELEASE, VALUES = "include/generated/utsrelease.h", "include/config/auto.conf"
# of a bzImage: its mark, and where it has the place of its version's text (Documentation/arch/x86/boot.rst)
MARK, MARK_AT, VERSION_AT, SETUP = b"HdrS", 0x202, 0x20E, 0x200


def config():
    """What a kernel must have, as a text for the kernel's own scripts/kconfig/merge_config.sh."""
    for name, about in MUST_HAVE.items():
        if about:
            yield f"# {about}"
        yield from (f"CONFIG_{option}=y" for option in (*BEFORE.get(name, ()), *BROUGHT_BY.get(name, (name,))))


def lacking(values):
    """What a kernel lacks whose auto.conf has this text."""
    there = {line.partition("=")[0] for line in values.splitlines()}
    return [f"CONFIG_{name}" for name in MUST_HAVE if f"CONFIG_{name}" not in there]


def release_of(image):
    """The release of a bzImage, as its header has it."""
    data = image.read_bytes()
    if data[MARK_AT : MARK_AT + 4] != MARK:
        raise Missing(f"{image} is no bzImage")
    at = struct.unpack_from("<H", data, VERSION_AT)[0] + SETUP
    return data[at : at + 256].split(b"\0")[0].split(b" ")[0].decode(errors="replace")


class OwnKernel:
    """A kernel's image, the tree in which its modules are built, and the folder of those that it has, if the guest needs any."""

    def __init__(self, image, headers, modules):
        self._image, self._headers = Path(image).resolve(), Path(headers).resolve()
        self._modules = Path(modules).resolve() if modules else None
        for file in (RELEASE, VALUES):
            if not (self._headers / file).is_file():
                raise Missing(f"{headers} has no {file}: it is the folder in which the kernel was built")
        if self._modules and not self._modules.is_dir():
            raise Missing(f"{modules} is no folder")
        release, built = release_of(self._image), (self._headers / RELEASE).read_text(encoding="utf-8").strip().partition('"')[2].rstrip('"')
        if release != built:
            raise Missing(f"{image} is of {release} and {headers} of {built}: the module wouldn't be loaded")
        lacks = lacking((self._headers / VALUES).read_text(encoding="utf-8"))
        if lacks:
            raise Missing(f"the kernel of {headers} lacks {', '.join(lacks)}: --config prints what it must have")
        # a kernel that was built again, or elsewhere, is another one
        self.version = f"{release}-own-{zlib.crc32(str(self._headers).encode() + self._image.read_bytes()):08x}"

    def compiler(self):
        return []

    def image(self):
        return self._image

    def headers(self):
        return self._headers

    def modules(self):
        return self._modules
