"""The text of the steps (steps.h), its positions, and its changes that have a name (edits.txt)."""
import pathlib
import re
from typing import Dict, List, NamedTuple, Tuple

from lib.words import Wrong

HERE = pathlib.Path(__file__).resolve().parent
STEPS, STATE, EDITS = HERE / "steps.h", HERE / "state.h", HERE / "edits.txt"


class Fault(Wrong):
    """Why a text of steps, or a change of it, can't be used."""


def steps() -> str:
    return STEPS.read_text(encoding="utf-8")


# CHANGES THAT HAVE A NAME


class Hunk(NamedTuple):
    """A part of a line of a position or function, and what comes in its place."""

    where: str
    old: str
    new: str


class Edit(NamedTuple):
    """A change that has a name, and what it comes to in a sentence."""

    name: str
    about: str
    hunks: Tuple[Hunk, ...]


def edits() -> Dict[str, Edit]:
    found = {}
    for part in re.split(r"\n\n+", EDITS.read_text(encoding="utf-8").strip())[1:]:
        name, about = part.partition("\n")[0].split(": ", 1)
        hunks = re.findall(r"^@ (\w+): (.*?) =>[ ]?(.*(?:\n\+.*)*)", part, re.M)
        found[name] = Edit(name, about, tuple(Hunk(where, old, new.replace("\n+", "\n")) for where, old, new in hunks))
    return found


def block_of(lines: List[str], where: str) -> range:
    """The lines of a position's case, or of a function."""
    begins = re.compile(rf"    case {where}:" if where.isupper() or where[-1].isdigit() else rf"static int {where}\(")
    ends = re.compile(r"    case \w+:|    /\* ----|\}")
    first = next((n for n, line in enumerate(lines) if begins.match(line)), len(lines))
    return range(first, next((n for n in range(first + 1, len(lines)) if ends.match(lines[n])), len(lines)))


def edited(text: str, edit: Edit) -> str:
    """The text of the steps with a change that has a name."""
    lines = text.split("\n")
    for hunk in edit.hunks:
        places = [n for n in block_of(lines, hunk.where) if hunk.old in lines[n]]
        if len(places) != 1:
            raise Fault(f"{edit.name} changes a line of {hunk.where} that isn't in this text: {hunk.old}")
        line = lines[places[0]].replace(hunk.old, hunk.new)
        lines[places[0] : places[0] + 1] = line.split("\n") if line.strip() else []
    return "\n".join(lines)


# FUNCTIONS AND POSITIONS


class Block(NamedTuple):
    """A function of the text, or the case of a position; of a case what its comment says, and the line above it with the kernel's function."""

    name: str
    parameters: str
    body: str
    is_case: bool = False
    comment: str = ""
    section: str = ""


def blocks(text: str) -> List[Block]:
    found = []
    for name, parameters, body in re.findall(r"^static int (\w+)\(([^)]*)\)\n\{\n(.*?)^\}", text, re.M | re.S):
        if name != "step":
            found.append(Block(name, ", ".join(re.findall(r"(\w+)(?:,|$)", parameters)), body))
    section = ""
    step = text[text.index("static int step(") :]
    pattern = r"^    (?:/\* ---- (.*?) ---- \*/\n|case (\w+):\s*(?:/\* (.*?) \*/)?(.*?)(?=^    case |^    /\* ----|^    \}$))"
    for title, name, comment, body in re.findall(pattern, step, re.M | re.S):
        section = title or section
        if name:
            found.append(Block(name, "q, s, answer", body, True, comment, section))
    return found


class Lead(NamedTuple):
    """Where a step may lead, and what happened then, in words."""

    position: str
    words: str


class Position(NamedTuple):
    """A place where a seat may be: what its next step does, what the kernel has there, and where it leads."""

    name: str
    does: str
    kernel: str
    function: str
    file: str
    leads: Tuple[Lead, ...]


def names() -> Dict[str, str]:
    """The name of each position, by its constant, in their order."""
    return dict(re.findall(r'P\((\w+), "([^"]*)"\)', STATE.read_text(encoding="utf-8")))


def leads_of(body: str, functions: Dict[str, str], known: Dict[str, str], words: str = "") -> List[Lead]:
    """The positions that a block of the text names in to(), and those of the functions that it calls, with what happened."""
    found = []
    for name, arguments in re.findall(r"\b(\w+)\(((?:[^()\"]|\"[^\"]*\"|\([^()]*\))*)\)", body):
        said = re.findall(r'"([^"]*)"', arguments) or [words]
        if name == "to":
            leads = re.findall(r"\b[A-Z][A-Z0-9]+\b", arguments.partition('"')[0])
            found += [Lead(known[constant], text) for constant in leads if constant in known for text in said]
        elif name in functions:
            found += [lead for text in said for lead in leads_of(functions[name], functions, known, text)]
    if re.search(r"int at = s->how == WAKER .*\? IDLE : LEAVE", body):
        found += [Lead(known[constant], words) for constant in ("IDLE", "LEAVE")]
    return list(dict.fromkeys(found))


def positions(text: str) -> List[Position]:
    """The table of positions of a text of steps."""
    known, found = names(), []
    functions = {block.name: block.body for block in blocks(text) if not block.is_case}
    for block in (block for block in blocks(text) if block.is_case):
        if block.name not in known:
            raise Fault(f"case {block.name} is no position: state.h has them")
        does, _, kernel = block.comment.partition(": ")
        kernel, _, other = re.sub(r", in (\w+\(\))$", r"\0\1", kernel).partition("\0")
        function, file = re.fullmatch(r"(.*?)(?:, ((?:net|include)/[\w./]*))?(?:: .*)?", block.section).groups("")
        is_own = kernel == "(own)"
        leads = tuple(lead for lead in leads_of(block.body, functions, known) if lead.position)
        found.append(Position(known[block.name], does, "" if is_own else kernel, "" if is_own else other or function, file, leads))
    return found
