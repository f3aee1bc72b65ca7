"""A guest that works through cases: its kernel with the module and the sender, and the emulator in which it boots."""
import gzip
import lzma
import re
import shutil
import subprocess
import tempfile
from pathlib import Path

from kernel.linux.packages import Missing, run

HERE = Path(__file__).resolve().parent
# What mounts the shared folder in the guest.
SHARING = ["virtio_pci", "9pnet_virtio", "9p"]


class Kernel:
    """What a guest told of its kernel."""

    def __init__(self, share):
        release, version, processors, weight = (share / "kernel").read_text(encoding="utf-8").splitlines()
        package = re.search(r"Debian (\S+)", version)
        self.release, self.package = release, package[1] if package else version
        self.processors, self.weight = int(processors), int(weight)

    def __str__(self):
        return f"Linux {self.package} ({self.release})"


def module_file(folder, name):
    """A module's file among the kernel's, whatever it is compressed by."""
    found = sorted(folder.glob(f"**/{name}.ko*")) if folder else []
    return next((file for file in found if file.suffix in (".ko", ".xz")), None)


def needed_modules(folder, names):
    """Modules with those that they depend on, in the order in which they load. One that the kernel has built in has no file."""
    order = {}

    def visit(name):
        file = module_file(folder, name.replace("-", "_")) or module_file(folder, name.replace("_", "-"))
        if file is None or file in order:
            return
        data = lzma.decompress(file.read_bytes()) if file.suffix == ".xz" else file.read_bytes()
        depends = re.search(rb"\0depends=([^\0]+)\0", data)
        for below in depends[1].decode().split(",") if depends else []:
            visit(below)
        order[file] = data

    for name in names:
        visit(name)
    return {f"{file.name.split('.')[0]}.ko": data for file, data in order.items()}


def make_module(tools, kernel, room, name):
    """The bytes of a module of this folder, built for a kernel."""
    room.mkdir(parents=True)
    shutil.copy(HERE / f"{name}.c", room)
    (room / "Makefile").write_text(f"obj-m := {name}.o\n", encoding="utf-8")
    # type information of modules would need one more package
    words = ["make", "-s", "-C", str(kernel.headers()), f"M={room}", "CONFIG_DEBUG_INFO_BTF_MODULES=", *kernel.compiler(), "modules"]
    run(words, environment=tools.environment())
    return (room / f"{name}.ko").read_bytes()


def pack(tools, root, init, image):
    """Packs a folder, with busybox and a first program, into a guest's first file system."""
    (root / "bin").mkdir()
    shutil.copy(tools.path("busybox"), root / "bin/busybox")
    shutil.copy(HERE / init, root / "init")
    (root / "init").chmod(0o755)
    names = "\n".join(str(file.relative_to(root)) for file in sorted(root.rglob("*"))) + "\n"
    packed = subprocess.run(["cpio", "-o", "-H", "newc", "--quiet"], cwd=root, env=tools.environment(), input=names.encode(), capture_output=True, check=False)
    if packed.returncode:
        raise Missing(f"cpio failed: {packed.stderr.decode()}")
    image.write_bytes(gzip.compress(packed.stdout, 1))


def image_of(tools, made, init, sources, fill):
    """A guest's first file system, built again where a source is newer; `fill` puts what this guest needs into the folder of its root."""
    image = made / "image.gz"
    if image.exists() and all((HERE / name).stat().st_mtime < image.stat().st_mtime for name in (init, "guest.py", *sources)):
        return image
    shutil.rmtree(made, ignore_errors=True)
    root = made / "root"
    root.mkdir(parents=True)
    fill(root)
    pack(tools, root, init, image)
    return image


def build(tools, kernel, folder):
    """Builds the module and the sender, and packs them into the guest's first file system."""
    made = folder / f"guest-{kernel.version}"

    def fill(root):
        modules = needed_modules(kernel.modules(), SHARING)
        modules["lqtx_bench.ko"] = make_module(tools, kernel, made / "module", "lqtx_bench")
        run([*tools.compiler(), "-O2", "-static", "-o", str(root / "sender"), str(HERE / "sender.c"), "-lpthread"], environment=tools.environment())
        (root / "modules").mkdir()
        for name, data in modules.items():
            (root / "modules" / name).write_bytes(data)
        (root / "modules/order").write_text("\n".join(modules) + "\n", encoding="utf-8")

    return image_of(tools, made, "init", ("lqtx_bench.c", "sender.c"), fill)


def emulator(tools, kernel, image, processors, more=""):
    """The words that boot a guest, which is emulated throughout: its processors take turns on one of the host's."""
    machine = "-M pc -accel tcg,thread=single -cpu qemu64 -m 512 -nographic -no-reboot -nic none".split()
    # on a busy host a kernel's test of its timer fails, and the kernel with it
    command_line = f"console=ttyS0 quiet ipv6.disable=1 panic=-1 no_timer_check {more}".strip()
    files = ["-kernel", str(kernel.image()), "-initrd", str(image), "-append", command_line]
    return ["qemu-system-x86_64", *tools.firmware(), *machine, "-smp", str(processors), *files]


def boot(tools, kernel, image, share, processors=1, patience=600, steer=None, nice=0):
    """Boots the guest, which works through SHARE/*.cases and leaves an .answers beside each. `steer` is told where the emulator's debugger
    listens, if the guest's order of steps is chosen; it needs the addresses of the System.map."""
    words = ["nice", "-n", str(nice), *emulator(tools, kernel, image, processors, "nokaslr")]
    words += ["-virtfs", f"local,path={share},mount_tag=share,security_model=none"]
    console = share / "console"
    with open(console, "wb") as said, tempfile.TemporaryDirectory(prefix="beside-linux-") as room:
        debugger = Path(room) / "debugger"
        words += ["-gdb", f"unix:{debugger},server=on,wait=off"] if steer else []
        guest = subprocess.Popen(words, env=tools.environment(), stdin=subprocess.DEVNULL, stdout=said, stderr=said)
        try:
            if steer:
                steer(debugger)
            guest.wait(patience)
        except subprocess.TimeoutExpired:
            raise Missing(f"the guest didn't end in {patience} seconds; its console is in {console}") from None
        finally:
            guest.kill()
            guest.wait()
    if not (share / "kernel").exists():
        raise Missing(f"the guest didn't come to its cases; its console is in {console}")
    return Kernel(share)
