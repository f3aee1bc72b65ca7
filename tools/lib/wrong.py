"""Wrong bodies: which functions they change, which can be tried in one check, and what a check says of each."""
import hashlib
import pathlib
import re
import shutil
import subprocess
import tempfile
from dataclasses import dataclass, field
from typing import Dict, List, NamedTuple, Optional

from lib.crates import TOP, in_order, kit, rattle_words, uses_of_crates
from lib.definitions import blank_strings_and_comments

GATE, BESIDE = "must-fail", "wrong-bodies"
PARTS = ("src", "specs", "proofs")
# errors of a proof file that names what an edit took away say nothing of the contract
NAMES_ALONE = re.compile(r"(note: )?(\./)?proofs/.*(has no field|is not in scope|has no `|was not admitted)")
# nor does an edit that names what its file no longer has
UNREAD = re.compile(r"src/\S+: error: .* is not in scope")


class Function(NamedTuple):
    """A function with a body: its path in the crate, its file, and its lines (from 0): the first, that of the body's brace, and the last."""

    path: str
    file: str
    first: int
    body: int
    last: int


@dataclass
class Edit:
    """An edit of a crate, applied to nothing yet."""

    crate: str
    folder: str
    name: str
    pairs: List[tuple]  # file, old text, new text
    by: Optional[str]  # the function that refuses it, if it changes no body
    functions: List[Function] = field(default_factory=list)

    file = property(lambda self: TOP / "crates" / self.crate / self.folder / self.name)
    targets = property(lambda self: [self.by] if self.by else [function.path for function in self.functions])


class Tried(NamedTuple):
    edit: Edit
    is_refused: bool
    said: str


def owner_of(line, module, homes):
    """The part of a function's path that an `impl` or a `trait` gives it: an impl of a type's own has the type's path, and one of a trait its own."""
    text = re.sub(r"<[^<>]*(<[^<>]*>[^<>]*)*>", "", line.partition("{")[0])
    found = re.match(r"(?:pub )?(impl|trait)\s+(?:(\w+)\s+for\s+)?(\w+)", text)
    if not found:
        return module
    own = found[1] == "impl" and not found[2]
    return [*(homes.get(found[3], module) if own else module), found[3] + (found[2] or "")]


def modules_of(crate):
    """The files of a crate's code, each with its module."""
    root = TOP / "crates" / crate / "src"
    for path in sorted(root.rglob("*.rt")):
        yield path, [name for name in path.relative_to(root).with_suffix("").parts if name not in ("lib", "main", "mod")]


def functions_of(crate):
    """The functions of a crate that have a body, in files that are laid out as `rt fmt` does."""
    found, files = [], [(path, module, blank_strings_and_comments(path.read_text(encoding="utf-8")).splitlines()) for path, module in modules_of(crate)]
    homes = {name: module for _, module, lines in files for name in re.findall(r"^(?:pub(?:\([^)]*\))? )?(?:struct|enum) (\w+)", "\n".join(lines), re.M)}
    for path, module, lines in files:
        owner = module
        for at, line in enumerate(lines):
            if re.match(r"(pub )?(impl|trait)\b", line):
                owner = owner_of(line, module, homes)
            elif line.startswith("}"):
                owner = module
            head = re.match(r"( *)(?:pub(?:\([^)]*\))? )?(?:unsafe )?(?:const )?fn (\w+)", line)
            span = span_of(lines, at, head[1]) if head else None
            if span:
                name = "::".join([*(owner if head[1] else module), head[2]])
                found.append(Function(name, str(path.relative_to(TOP / "crates" / crate)), at, *span))
    return found


def span_of(lines, at, indent):
    """Where the body of a function begins and ends, if it has one."""
    for body in range(at, len(lines)):
        if lines[body] in (f"{indent}{{}}", f"{indent}{{ }}") or lines[body].startswith(indent) and lines[body].endswith("{}") and body == at:
            return body, body
        opens = lines[body] == f"{indent}{{" or lines[body].rstrip().endswith("{") and not lines[body].startswith(f"{indent}    ")
        if opens:
            return body, next(end for end in range(body, len(lines)) if lines[end] == f"{indent}}}")
        if lines[body].rstrip().endswith(";"):
            return None
    return None


def read_edit(crate, folder, path):
    pairs, file, old, by = [], "", None, None
    for line in path.read_text(encoding="utf-8").splitlines():
        key, colon, text = line.partition(":")
        text = text.removeprefix(" ")
        if key == "file":
            file = text.strip()
        elif key == "by":
            by = text.strip()
        elif key == "old":
            old = text
        elif key == "new" and colon:
            pairs.append((file, old, text))
    return Edit(crate, folder, path.name, pairs, by)


def edits_of(crate):
    """The edits of a crate, each with the functions whose bodies alone it changes."""
    functions, found = functions_of(crate), []
    for folder in (GATE, BESIDE):
        for path in sorted((TOP / "crates" / crate / folder).glob("*.edit")):
            edit = read_edit(crate, folder, path)
            edit.functions = bodies_changed(edit, functions)
            found.append(edit)
    return found


def bodies_changed(edit, functions):
    """The functions whose bodies an edit changes, and the laws whose contracts; or none if it changes anything else."""
    found = []
    for file, old, _ in edit.pairs:
        text = (TOP / "crates" / edit.crate / file).read_text(encoding="utf-8")
        line = text[: text.find(old)].count("\n")
        if old.startswith(("use ", "ghost use ")):
            # what a body needs besides
            continue
        here = [function for function in functions if function.file == file and function.first <= line <= function.last and (function.body <= line or function.body == function.last)]
        if text.count(old) != 1 or not here:
            return []
        found.append(max(here, key=lambda function: function.first))
    return list(dict.fromkeys(found))


def text_of(function, crate):
    lines = (TOP / "crates" / crate / function.file).read_text(encoding="utf-8").splitlines()
    return "\n".join(lines[function.body : function.last + 1])


def calls_of(edit, names):
    """The functions that the bodies of an edit call, before it or after it, by name."""
    whole = "\n".join([*(text_of(function, edit.crate) for function in edit.functions), *(new for _, _, new in edit.pairs)])
    return {name for name in names if re.search(rf"\b{name}\b", whole)}


def rounds_of(edits, functions):
    """Edits that can be tried together: of different functions, of which none calls another."""
    names = {function.path.rpartition("::")[2] for function in functions}
    calls = {id(edit): calls_of(edit, names) for edit in edits}
    own = {id(edit): {path.rpartition("::")[2] for path in edit.targets} for edit in edits}
    rounds = []
    for edit in edits:
        for there in rounds:
            if not any(own[id(edit)] & (own[id(other)] | calls[id(other)]) or own[id(other)] & calls[id(edit)] for other in there):
                there.append(edit)
                break
        else:
            rounds.append([edit])
    return rounds


def folder_of_library(crate):
    return TOP / "crates" / crate / "out/rlib"


def words_of_check(crate):
    uses = uses_of_crates()
    return rattle_words("check", crate, uses, lambda low: f"{folder_of_library(low)}/{low}.rlib", map(folder_of_library, in_order(uses, crate)[:-1]), 1)


def make_holes(room, crate, functions):
    """A hole in the place of the proof of each of these functions, but where another proof file cites a lemma beside it."""
    for function in functions:
        folder = room / "proofs" / function.path.replace("::", "/")
        place = f"Rattle.{crate}.proofs.{function.path.replace('::', '.')}"
        for old in folder.glob("*.antt"):
            old.unlink()
        folder.mkdir(parents=True, exist_ok=True)
        name = function.path.rpartition("::")[2]
        text = f"use {place}.Statement.{{statement}}\n\npub {name}_spec : {{M : Type 1}} → statement M\n{name}_spec = ?\n"
        (folder / "Proof.antt").write_text(text, encoding="utf-8")


def check(crate, edits, targets, holes):
    """What a check of these functions says, with these edits made; without a function, one of the whole crate."""
    with tempfile.TemporaryDirectory(prefix="wrong.") as folder:
        room = pathlib.Path(folder)
        for part in PARTS:
            if (TOP / "crates" / crate / part).is_dir():
                shutil.copytree(TOP / "crates" / crate / part, room / part)
        for edit in edits:
            for file, old, new in edit.pairs:
                (room / file).write_text((room / file).read_text(encoding="utf-8").replace(old, new), encoding="utf-8")
        make_holes(room, crate, holes)
        only = [word for target in targets for word in ("--only", target)]
        how = {"cwd": room, "stdin": subprocess.DEVNULL, "stdout": subprocess.PIPE, "stderr": subprocess.STDOUT, "text": True, "errors": "replace"}
        return subprocess.run([*words_of_check(crate), *["--allow-holes"] * bool(only), *only], **how).stdout


def lines_of(function, said, crate):
    """What a check says of a function at its end, and the refusals before that: those of its clauses, and those of a proof file's names."""
    ending, notes, names = "", [], []
    folder = f"./proofs/{function.replace('::', '/')}/"
    pending: List[str] = []
    for line in said.splitlines():
        if line.startswith(f"fn {crate}::"):
            name, _, rest = line[len(f"fn {crate}::") :].partition(": ")
            if name == function:
                ending, notes = rest, [*notes, *pending]
            pending = []
        elif re.match(r"note: src/\S+:\d+:\d+: ", line):
            pending.append(line[len("note: ") :])
        elif line.startswith(folder) and ": error: " in line:
            (names if NAMES_ALONE.match(line) or "has no `" in line else notes).append(line[2:])
    return ending, notes, names


def judged(edit, said):
    """What a check with an edit comes to: None where it must be tried by itself."""
    for function in edit.targets:
        ending, notes, names = lines_of(function, said, edit.crate)
        if ending.startswith(("not proved", "no proof")) and (notes or names):
            told = notes[0] if notes else f"only names of a proof file: {names[0]}"
            return Tried(edit, True, f"refused: {told[:200]}")
    return None


def holes_for(edits, functions):
    """The functions that edited bodies call: they have holes for their proofs."""
    names = {function.path.rpartition("::")[2] for function in functions}
    called = set().union(*(calls_of(edit, names) for edit in edits))
    targets = {path for edit in edits for path in edit.targets}
    return [function for function in functions if function.path.rpartition("::")[2] in called and function.path not in targets]


def control(crate, edits, functions):
    """A check without an edit: the functions that may have holes, and those of the edited ones that it doesn't prove as they stand."""
    paths = {function.path for function in functions}
    # a function that an edit adds isn't there without it
    targets = list(dict.fromkeys(path for edit in edits for path in edit.targets if path in paths))
    said = check(crate, [], targets, holes_for(edits, functions))
    # an impl for a type with arguments has another name
    unknown = {name.replace("/", "::") for name in re.findall(r"^\./proofs/(\S+)/Proof\.antt: error: ", said, re.M)}
    if unknown:
        functions = [function for function in functions if function.path not in unknown]
        said = check(crate, [], targets, holes_for(edits, functions))
    return functions, {target for target in targets if not lines_of(target, said, crate)[0].startswith(("no holes", "depends on a hole", "proved"))}


def tried(crate, edits):
    """What comes of each edit of a crate."""
    functions = functions_of(crate)
    together = [edit for edit in edits if edit.targets]
    functions, broken = control(crate, together, functions) if together else (functions, set())
    together = [edit for edit in together if not broken & set(edit.targets)]
    left = [edit for edit in edits if edit not in together]
    alone = [[edit] for edit in together if edit.by]
    for there in [*alone, *rounds_of([edit for edit in together if not edit.by], functions)]:
        said = check(crate, there, [path for edit in there for path in edit.targets], holes_for(there, functions))
        for edit in there:
            came = judged(edit, said)
            if came:
                yield came
            else:
                left.append(edit)
    yield from (by_itself(edit) for edit in left)


def by_itself(edit):
    """An edit tried with its whole crate."""
    return judged_whole(edit, check(edit.crate, [edit], [], []))


def judged_whole(edit, said):
    """What a check of the whole crate with an edit comes to."""
    notes = [line for line in said.splitlines() if re.match(r"(note: )?(\./)?\S+:\d+:\d+: ", line) and (": error" in line or line.startswith("note: "))]
    unread = next((note for note in notes if UNREAD.match(note)), None)
    told = next((note for note in notes if not NAMES_ALONE.match(note)), None)
    if "\nlogic=not-proved" in said and notes and not unread:
        return Tried(edit, True, f"refused: {(told or 'only names of a proof file: ' + notes[0])[:200]}")
    last = said.rstrip().splitlines()[-1:]
    return Tried(edit, False, "NOT REFUSED" if last and last[0].startswith("logic=proved") else f"NOT TRIED: {unread or ' '.join(last)}"[:211])


def crates_with_edits():
    return sorted({path.parent.parent.name for folder in (GATE, BESIDE) for path in TOP.glob(f"crates/*/{folder}/*.edit")})


def is_fresh(crate):
    """Whether a crate's library is there and later than what it was built from: `rt ci` and `rt lib` leave it."""
    made = folder_of_library(crate) / f"{crate}.rlib/format"
    files = [path for below in in_order(uses_of_crates(), crate) for part in PARTS for path in (TOP / "crates" / below / part).rglob("*.*t*")]
    return made.is_file() and all(file.stat().st_mtime <= made.stat().st_mtime for file in files)


def build_below(crates):
    """Builds the libraries below these crates that aren't there, or are older than their files."""
    uses = uses_of_crates()
    for crate in dict.fromkeys(low for crate in crates for low in in_order(uses, crate)[:-1]):
        if not is_fresh(crate):
            subprocess.run(["rt", "lib"], cwd=TOP / "crates" / crate, stdin=subprocess.DEVNULL, check=True)


def contracts_of(crate):
    """The sources of a crate without the bodies of its functions."""
    bodies: Dict[str, List[Function]] = {}
    for function in functions_of(crate):
        bodies.setdefault(function.file, []).append(function)
    for path, _ in modules_of(crate):
        inside = {line for function in bodies.get(str(path.relative_to(TOP / "crates" / crate)), []) for line in range(function.body, function.last + 1)}
        yield "\n".join(line for at, line in enumerate(path.read_text(encoding="utf-8").splitlines()) if at not in inside)


def sum_of(crate):
    """The checksum that a note has: of the crate, of the contracts and definitions below it, of its edits, and of the kit."""
    whole = hashlib.sha256((kit() / "KIT-ID").read_bytes())
    files = [path for part in (*PARTS, BESIDE) for path in (TOP / "crates" / crate / part).rglob("*") if path.suffix in (".rt", ".antt", ".edit")]
    below = in_order(uses_of_crates(), crate)[:-1]
    files += [path for low in below for path in (TOP / "crates" / low / "specs").rglob("*.antt")]
    for file in sorted(files):
        whole.update(f"{file.relative_to(TOP)}\n".encode() + file.read_bytes())
    for text in [text for low in below for text in contracts_of(low)]:
        whole.update(text.encode())
    return whole.hexdigest()


def note_file(crate):
    return TOP / "crates" / crate / BESIDE / "refused"


def note_of(crate):
    return note_file(crate).read_text(encoding="utf-8").strip() if note_file(crate).is_file() else ""
