"""What tools/install puts: it works in any folder, without the repository, and goes away again."""
import os
import shutil
import subprocess

from tests.bench import HERE, ROOM, TOP, expect, fault, fault_if, is_equal, repository, room_of, run, write

NAMES = ["lqtx", *(f"lqtx-{name}" for name in ("at-rate", "check-capture", "check-plan", "how-long", "show-run", "show-schedule", "sweep"))]


def installed(prefix):
    """Installs with a stand-in for the program; the words of the call that it ends by."""
    write(ROOM / "stand-in", f'#!/bin/sh\nexec {TOP}/tools/tests/by-the-rules "$@"\n')
    return run(HERE / "install", "--prefix", prefix, "--program", ROOM / "stand-in")


def files_below(folder):
    return sorted(str(path.relative_to(folder)) for path in folder.rglob("*") if not path.is_dir())


def test_installed_tools_work_anywhere():
    """The commands of docs/INSTALLED.md, in a folder that isn't the repository, by their names alone."""
    prefix, room = ROOM / "prefix", room_of("anywhere", {"all.pcap": (TOP / "examples/link.pcap").read_bytes()})
    expect("install", installed(prefix), 0, "7 tools are in", "export PATH=")
    env = os.environ | {"PATH": f"{prefix}/bin:{os.environ['PATH']}"}
    commands = [line.strip() for line in (prefix / "lib/lqtx/INSTALLED.md").read_text(encoding="utf-8").splitlines() if line.startswith("    lqtx")]
    is_equal("INSTALLED.md: commands", [command.split()[0] for command in commands], ["lqtx-check-capture", "lqtx-how-long", "lqtx-at-rate", "lqtx", "lqtx-show-run"])
    for command in commands:
        said = subprocess.run(command, shell=True, cwd=room, env=env, capture_output=True, text=True, timeout=300)
        if said.returncode not in ((0, 1) if "check-capture" in command else (0,)):
            fault(f"INSTALLED.md: {command}: ends with {said.returncode}: {said.stderr[-300:]}")
    is_equal("INSTALLED.md: outputs", [file for file in files_below(room) if ".lqtx/" not in file], sorted(["all.pcap", "plan.toml", "out/o.0.pcap", "out/o.fates", "out/o.times", "out/o.svg", "out/waiting.svg", "len.csv", "len.svg"]))
    for name in NAMES[1:]:
        expect(f"{name} --help", run(name, "--help", cwd=room, env=env), 0, f"    {name} ")
        expect(f"{name}, wrong words", run(name, "--no-such", cwd=room, env=env), 2)
    for file in files_below(prefix):
        if "/program" not in file and (str(TOP) in (prefix / file).read_text(encoding="utf-8") or "tools/sweep" in (prefix / file).read_text(encoding="utf-8")):
            fault(f"{file} speaks of the repository")


def test_installed_program():
    """It keeps its inputs, says what is wrong with them, and ends as the program does."""
    capture = (TOP / "examples/loopback.pcap").read_bytes()
    prefix, room = ROOM / "prefix-2", room_of("kept", {"part.0.pcap": capture, "wrong.toml": "[[station]]\nlne = 4\n"})
    installed(prefix)
    plan, lqtx = TOP / "examples/drops.toml", prefix / "bin/lqtx"
    for out in ("part", "new/../part"):
        expect(f"installed, over its input by {out}", run(lqtx, "run", plan, "part.0.pcap", out, cwd=room), 2, "is an input")
    is_equal("installed: the input stays", (room / "part.0.pcap").read_bytes(), capture)
    expect("installed, a wrong plan", run(lqtx, "run", "wrong.toml", "part.0.pcap", "o", cwd=room), 3, "did you mean `len`?")
    expect("installed, exchanged", run(lqtx, "run", "part.0.pcap", plan, "o", cwd=room), 3, "they are exchanged")


def test_install_and_uninstall():
    prefix = room_of("prefix-3", {"bin/other": ""})
    expect("uninstall, where nothing is", run(HERE / "install", "--prefix", prefix, "--uninstall"), 0)
    installed(prefix)
    expect("install, once more", installed(prefix), 0)
    is_equal("install: bin", sorted(path.name for path in (prefix / "bin").iterdir()), sorted([*NAMES, "other"]))
    is_equal("install: manual", sorted(path.name for path in (prefix / "share/man/man1").iterdir()), sorted(f"{name}.1" for name in NAMES))
    for page in sorted((prefix / "share/man/man1").iterdir()) if shutil.which("mandoc") else []:
        said = run("mandoc", "-T", "lint", "-W", "error", page)
        fault_if(said[0], f"{page.name}: {said[1][:300]}")
    expect("uninstall", run(HERE / "install", "--prefix", prefix, "--uninstall"), 0)
    is_equal("uninstall: what stays", files_below(prefix), ["bin/other"])
    (prefix / "bin/lqtx-sweep").write_text("a user's own", encoding="utf-8")
    expect("install, over another file", installed(prefix), 1, "there are other files", "bin/lqtx-sweep")
    is_equal("install, over another file: what stays", files_below(prefix), ["bin/lqtx-sweep", "bin/other"])


def test_install_before_the_proof():
    """In a repository whose program isn't built it says so, installs the tools, and begins no proof."""
    top = repository("to-install", {"crates.txt": "lqtx:\n", "docs/lqtx.1": ".Dd x\n", "docs/INSTALLED.md": "# x\n", "docs/FORMATS.md": "# x\n", "crates/lqtx/src/main.rt": ""})
    shutil.copytree(HERE / "kernel", top / "tools/kernel", ignore=shutil.ignore_patterns("inside", "linux", "tests"))
    expect("install before the proof", run(top / "tools/install", "--prefix", top / "prefix"), 1, "there is no proved program yet", "7 tools are in")
    expect("a tool before the proof", run(top / "prefix/bin/lqtx-check-plan", TOP / "examples/drops.toml"), 0, "accepted")
    expect("the program before the proof", run(top / "prefix/bin/lqtx", "gen", "1", "5", top / "g"), 1, "the proved program wasn't there when this was installed")
