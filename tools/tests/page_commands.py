"""Runs the commands of the pages, and compares what they print with what the pages say.

Of a block with `$ ` before its commands the lines behind a command are what it prints: standard output, and what the wrapper says of a refusal. Of a block
of commands alone each is run and ends with 0, or as CODES has it; what some of them print stands in a block of its own further down. Pictures of the pages are those
that the commands draw. LEFT_OUT has what isn't run, and why.

The program is the newest one in build/, and where there is none a stand-in by the rules as the tools have them (by_the_rules.py).
"""
import pathlib
import re
import shutil
import subprocess
import tempfile
from typing import NamedTuple, Optional

TOP = pathlib.Path(__file__).resolve().parent.parent.parent
LEFT_OUT = {
    r"\./lqtx --unproved ": "compiles the program, for minutes",
    r"tools/test$": "is what calls this",
    r"rt ": "is the gate itself",
    r"\^C|.*station\.0\.len=1\.\.550": "1,100 runs",
    r"cat hosts$|.* --sshloginfile ": "needs other hosts",
    r"tcpdump |zcat <all": "needs a capture, or an interface, of one's own",
    r"tools/kernel/litmus .*--herd |tools/kernel/beside-linux ": "needs what isn't everywhere: herd7, an emulator and Debian's packages",
}
# commands inside of sentences
INLINE = {"docs/USING.md": ["./lqtx gen 1 1000 out/g", "tools/show-run tap 4 1000 64 out/g out/t"], "docs/HISTORY.md": ["tools/show-schedule --mistakes"]}
# commands whose output is a block further down
PRINTED = ["./lqtx run examples/drops.toml examples/loopback.pcap out/o", "./lqtx trace examples/schedules/second-try.schedule"]
# files that a page speaks of and doesn't print
FILES = {
    "docs/FORMATS.md": {
        "mine.toml": "senders = 16\n[[station]]\nbrust = 8\nqueues = 2\n",
        "mine.schedule": "seats 3 len 1 bypass 0\n0 send 1\n0 step 4\n1 send 1\n1 step 3\n",
    }
}
# commands that end with another code than 0: a search that finds an order that goes wrong ends with 1
CODES = {r"tools/kernel/explore --(edit|plain) ": 1}
PICTURES = {"README.md": {"out/o.svg": "docs/drops.svg"}, "docs/USING.md": {"out/waiting.svg": "docs/link.svg", "out/len.svg": "docs/link-by-len.svg", "out/m.svg": "docs/multi-queue.svg"},
            "docs/BARRIERS.md": {f"out/{name}.svg": f"docs/orders/{name}.svg" for name in ("unlock", "put-miss", "cclear", "clearm-cleard", "wake-sched", "sclear")}}  # fmt: skip
COMMAND = re.compile(r"    (?:\$ (.*)|((?:\./lqtx|tools/|rt ).*))")
FEWEST = {"README.md": 2, "docs/USING.md": 11, "docs/FORMATS.md": 2, "docs/HISTORY.md": 5, "docs/lqtx.1": 3, "docs/BARRIERS.md": 7}


class Command(NamedTuple):
    """A command of a page: where it stands, and the lines that it prints, if the page has them."""

    page: str
    line: int
    words: str
    printed: Optional[list]


def commands_of_blocks(page, lines):
    """The commands of indented blocks."""
    found, shown = [], None
    for number, line in enumerate(lines, 1):
        command = COMMAND.fullmatch(line)
        if command:
            shown = Command(page, number, command[1] or command[2], [] if line.startswith("    $ ") else None)
            found.append(shown)
        elif line.startswith("    ") and shown and shown.printed is not None:
            shown.printed.append(line[4:])
        else:
            shown = None
    return found


def commands_of_page(page, lines):
    """All commands of a page, in its order."""
    found = commands_of_blocks(page, lines)
    for words in INLINE.get(page, []):
        # a command may be broken into two lines
        text = re.sub(r"\s+", " ", "\n".join(lines))
        number = next((at for at, line in enumerate(lines, 1) if words in line), 0)
        if f"`{words}`" not in text:
            raise LookupError(f"{page} has no command {words}")
        found.append(Command(page, number, words, None))
    return sorted(found, key=lambda command: command.line)


def commands_of_manual(page, lines):
    """The commands of the manual's examples, on paths of this test's."""
    found, shown = [], False
    for number, line in enumerate(lines, 1):
        if line.startswith(".Bd -literal"):
            shown = True
        elif line.startswith(".Ed"):
            shown = False
        elif shown and re.match(r"(lqtx|printf|grep|tcpdump|zcat|tools/at-rate) ", line):
            words = line.replace("\\e", "\\").replace("/tmp/", "out/")
            found.append(Command(page, number, re.sub("^lqtx ", "./lqtx ", words), None))
    return found


def make_room(room):
    """A folder in which the pages' commands can be run as they stand."""
    for name in ("examples", "tools", "docs", "crates"):
        (room / name).symlink_to(TOP / name)
    (room / "out").mkdir()
    built = sorted((path for path in (TOP / "build").glob("lqtx.*") if path.is_file() and path.stat().st_size), key=lambda path: path.stat().st_mtime)
    program = built[-1] if built else TOP / "tools/tests/by-the-rules"
    wrapper = f"""#!/bin/sh
'{program}' "$@"
code=$?
[ $code -ne 7 ] || tools/show-schedule --why "$2" 2>&1 >/dev/null | sed 's/^show-schedule: /lqtx: /' >&2
exit $code
"""
    (room / "lqtx").write_text(wrapper, encoding="utf-8")
    (room / "lqtx").chmod(0o755)


def code_of(command):
    return next((code for pattern, code in CODES.items() if re.match(pattern, command.words)), 0)


def faults_of_command(room, command, text):
    """What is wrong with a command of a page."""
    words = command.words + (" --program ./lqtx" if command.words.startswith(("tools/sweep ", "tools/how-long ")) else "")
    said = subprocess.run(words, shell=True, cwd=room, capture_output=True, text=True, timeout=120)
    place = f"{command.page}:{command.line}: {command.words}"
    got = said.stdout.splitlines()
    if command.printed is not None:
        got += [line for line in said.stderr.splitlines() if line.startswith("lqtx: ")]
        if got != command.printed:
            yield f"{place}: prints {got}, and the page says {command.printed}"
    elif said.returncode != code_of(command):
        yield f"{place}: ends with {said.returncode}: {said.stderr[-300:]}"
    if command.words in PRINTED and command.line and "".join(f"    {line}\n" for line in got) not in text:
        yield f"{place}: the page lacks what it prints: {got}"


def faults_of_page(page):
    """Runs the commands of a page in a folder of its own."""
    lines = (TOP / page).read_text(encoding="utf-8").splitlines()
    commands = (commands_of_manual if page.endswith(".1") else commands_of_page)(page, lines)
    commands = [command for command in commands if not any(re.match(pattern, command.words) for pattern in LEFT_OUT)]
    if len(commands) < FEWEST[page]:
        yield f"{page}: {len(commands)} commands are found, and there were {FEWEST[page]}"
    room = pathlib.Path(tempfile.mkdtemp())
    try:
        make_room(room)
        for name, text in FILES.get(page, {}).items():
            (room / name).write_text(text, encoding="utf-8")
        for command in commands:
            yield from faults_of_command(room, command, "\n".join(lines))
        for made, kept in PICTURES.get(page, {}).items():
            if not (room / made).exists() or (room / made).read_bytes() != (TOP / kept).read_bytes():
                yield f"{page}: {kept} isn't what its commands draw"
    finally:
        shutil.rmtree(room)


def faults():
    for page in FEWEST:
        yield from faults_of_page(page)
