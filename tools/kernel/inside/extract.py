"""Cuts definitions by name out of a kernel's tree, unchanged, each behind a #line that says where it stands there."""
import re
from pathlib import Path
from typing import NamedTuple

from lib.words import Failed

# of each kind of definition the pattern with which it begins, behind whose last brace it ends, but for a macro, which is found whole
PATTERNS = {
    "macro": r"^#define[ \t]+{name}\b(?:[^\n]*\\\n)*[^\n]*\n",
    "type": r"^(?:struct|enum|union)\s+{name}\s*\{{",
    "variable": r"^[A-Za-z_][^;{{}}()#\n]*\b{name}\b[^;{{}}()]*=\s*\{{",
    "function": r"^[A-Za-z_][^;{{}}()#]*(?<!\w){name}\s*\([^;{{}}#]*\)\s*\{{",
}
# what is left out: a call, and what it comes to
LEFT_OUT = {"nothing": "((void)0)", "zero": "0"}


class Refused(Failed):
    """A tree, a change or a list of names that can't be used; the text says why."""

    def __init__(self, line):
        super().__init__(line, 3)


class Wanted(NamedTuple):
    """A definition that is cut; an optional one may be missing."""

    kind: str
    name: str
    optional: bool


class Change(NamedTuple):
    """What is made another way on purpose: the one match of a regular expression in the text of one definition."""

    name: str
    regex: str
    text: str


class Cut(NamedTuple):
    """The text that is compiled, and how much of it there is."""

    text: str
    definitions: int
    lines: int
    changed: int


class Source(NamedTuple):
    """A file of the tree; `bare` has blanks in place of comments and strings, so that braces can be counted."""

    path: str
    text: str
    bare: str


class Names(NamedTuple):
    """The files of a tree, what is cut out of them, and the macros of what is left out."""

    files: list
    wanted: list
    left_out: list


def read_names(file):
    found = Names([], [], [])
    for row in Path(file).read_text(encoding="utf-8").splitlines():
        kind, *names = row.split() or "#"
        if kind == "file":
            found.files.extend(names)
        elif kind in PATTERNS:
            found.wanted.extend(Wanted(kind, name.rstrip("?"), name.endswith("?")) for name in names)
        elif kind in LEFT_OUT:
            found.left_out.extend(f"#define {name}(...) {LEFT_OUT[kind]}\n" for name in names)
        elif not kind.startswith("#"):
            raise Refused(f"{file}: no kind of definition: {row}")
    return found


def blank(text):
    """The text with blanks in place of comments, strings and characters."""
    pattern = r"/\*.*?\*/|//[^\n]*|\"(?:\\.|[^\"\\\n])*\"|'(?:\\.|[^'\\\n])*'"
    return re.sub(pattern, lambda found: re.sub(r"[^\n]", " ", found.group()), text, flags=re.S)


def closing(bare, at):
    """The place behind the brace that closes the one at a place, or None."""
    depth = 0
    for brace in re.finditer("[{}]", bare[at:]):
        depth += 1 if brace.group() == "{" else -1
        if depth == 0:
            return at + brace.end()
    return None


def find(wanted, source):
    """Where a definition begins and ends in a file, or None."""
    # a macro's string may have what looks like a comment, and its text is a whole line
    found = re.search(PATTERNS[wanted.kind].format(name=re.escape(wanted.name)), source.bare, re.M)
    if not found or wanted.kind == "macro":
        return found and found.span()
    end = closing(source.bare, found.end() - 1)
    if end is None:
        raise Refused(f"{source.path}: no brace closes `{wanted.name}`")
    return found.start(), end if wanted.kind == "function" else source.bare.index(";", end) + 1


def read_tree(tree, files):
    """The files of a tree; all that are missing are told at once."""
    missing = [file for file in files if not (Path(tree) / file).is_file()]
    if missing:
        raise Refused(f"{tree} has no " + ", ".join(missing))
    texts = [(file, (Path(tree) / file).read_text(encoding="utf-8", errors="replace")) for file in files]
    return [Source(file, text, blank(text)) for file, text in texts]


def changed_text(wanted, text, changes):
    """The text of a definition with the changes that name it."""
    for change in changes:
        if change.name != wanted.name:
            continue
        try:
            text, count = re.subn(change.regex, change.text, text, flags=re.S)
        except (re.error, IndexError) as fault:
            raise Refused(f"{wanted.name}: no regular expression: {change.regex}: {fault}") from None
        if count != 1:
            raise Refused(f"{wanted.name}: {change.regex} matches {count} times, and not once")
    return text


def of_world(names, changes):
    """The changes that name a definition of a list of names."""
    wanted = {definition.name for definition in read_names(names).wanted}
    return tuple(change for change in changes if change.name in wanted)


def places_of(tree, names):
    """Each definition that is wanted, with the file that has it and where it stands there; and what is missing."""
    sources = read_tree(tree, names.files)
    places = [(wanted, next(((source, span) for source in sources for span in [find(wanted, source)] if span), None)) for wanted in names.wanted]
    found = [(wanted, *place) for wanted, place in places if place]
    return found, [f"{wanted.kind} {wanted.name}" for wanted, place in places if not place and not wanted.optional]


def code_of(tree, names):
    """Of each definition, by its kind and name, its text without comments and with one blank between words."""
    found, _ = places_of(tree, read_names(names))
    texts = ((wanted, (source.text if wanted.kind == "macro" else source.bare)[start:end]) for wanted, source, (start, end) in found)
    return {(wanted.kind, wanted.name): " ".join(text.split()) for wanted, text in texts}


def cut(tree, names, changes=()):
    """All that is wanted of a tree, as one text to compile."""
    names = read_names(names)
    places, missing = places_of(tree, names)
    if missing:
        raise Refused(f"{tree} has no " + ", ".join(missing) + f" (looked for in {', '.join(names.files)})")
    unknown = [change.name for change in changes if change.name not in {wanted.name for wanted, *_ in places}]
    if unknown:
        raise Refused(f"a change names {unknown[0]}, and no definition of that name is cut")
    pieces, lines = list(names.left_out), 0
    for wanted, source, (start, end) in places:
        text = source.text[start:end]
        pieces.append(f'#line {source.text.count(chr(10), 0, start) + 1} "{source.path}"\n{changed_text(wanted, text, changes)}\n')
        lines += text.count("\n") + 1
    return Cut("".join(pieces), len(places), lines, len(changes))
