"""Finds the files that a chapter of docs/CHANGING.md leaves out. A chapter begins with the names of its exemplar, one thing of its kind that exists, and the
number of files that have one of them; a number has a name in any case, or in a part of a name, on one line with it:

    Exemplar: `NAME`, in tools `name`; some 99 files.
    Exemplar: `NAME`, in any spelling beside `64`; some 99 files.

Where a new case goes without a word into a catch-all, no file has the exemplar's name. So a chapter may name the type, and what tools compare a kind with:

    A catch-all takes a new `TYPE`, in tools beside `NAME`, `OTHER`.

A file has one if it is code that names the type and has an arm with `_`, a definition with `_` in the place of an argument of the type, or a tool that compares
a kind with one of the names. Each of these files has to be among the chapter's paths. A path may leave out what it shares with the path before it in its
item. The path of a folder names all files in it, and none for its catch-all. A chapter with a list of files has to have an exemplar.
"""
import os
import pathlib
import re

EXEMPLAR = re.compile(r"^Exemplar: (.+?); some (\d+) files\.", re.M | re.S)
BESIDE = re.compile(r", in any spelling beside `(\w+)`")
CATCH_ALL = re.compile(r"^A catch-all takes a new `(\w+)`(?:, in tools beside (.+?))?\.$", re.M | re.S)
ARM = re.compile(r"^ *(?:_|\(.*\b_\b.*\)) =>", re.M)
LISTED = re.compile(r"^- .*`: ", re.M)
QUOTED = re.compile(r"`([^`\s]+)`")
# folders that are made, and the page itself
LEFT_OUT = {".git", "out", "build", "__pycache__"}
PAGE = "docs/CHANGING.md"


def chapters_of(text):
    """The headings of a page, each with its text."""
    parts = re.split(r"^## (.*)\n", text, flags=re.M)
    return zip(parts[1::2], parts[2::2])


def lines_of(chapter):
    """The items of a chapter's lists and its paragraphs, each as one line."""
    return re.sub(r"\n(?![-\n])", " ", chapter).splitlines()


def paths_of(top, line):
    """The files and folders that a line names."""
    crates = top / "crates"
    roots = [top, crates]
    for text in QUOTED.findall(line):
        found = next((hits for root in roots for hits in [sorted(root.glob(text.rstrip("/")))] if hits), [])
        yield from found
        if found:
            crate = [crates / found[0].relative_to(crates).parts[0]] if crates in found[0].parents else []
            roots = [*crate, found[0] if found[0].is_dir() else found[0].parent, top, crates]


def files_of(top):
    """All files of the repository but this page, each with its bytes."""
    for folder, folders, names in os.walk(top):
        folders[:] = sorted(folder for folder in folders if folder not in LEFT_OUT)
        for name in sorted(names):
            file = pathlib.Path(folder, name)
            if file != top / PAGE and file.is_file():
                yield file, file.read_bytes()


def pattern_of(names, value):
    """Finds one of the names; and, if a value is given, a line that has one in any spelling and the value."""
    words = "|".join(map(re.escape, names))
    spelled = rf"|^(?=.*\b{value}\b).*(?i:{words})" if value else ""
    return re.compile(rf"(?<!\w)(?:{words})(?!\w){spelled}".encode(), re.M)


def pieces(text, mark):
    """The pieces of a text between marks that aren't in brackets."""
    found, depth = [""], 0
    for at in re.findall(rf"{re.escape(mark)}|.", text, re.S):
        depth += (at in "([{") - (at in ")]}")
        if at == mark and not depth:
            found.append("")
        else:
            found[-1] += at
    return [piece.strip() for piece in found]


def has_catch_all_definition(kind, text):
    """Whether a definition whose type names the kind has `_` in the place of such an argument."""
    for name, type_of in re.findall(r"^(?:abbrev |unfoldable )?pub (\S+) : (.*)$", text, re.M):
        places = [at for at, piece in enumerate(pieces(type_of, "→")[:-1]) if re.search(rf"\b{kind}\b", piece)]
        for line in re.findall(rf"^{re.escape(name)} ([^=\n]*)=", text, re.M) if places else []:
            given = [piece for piece in pieces(line, " ") if piece]
            if any(given[at : at + 1] == ["_"] for at in places):
                return True
    return False


def has_catch_all(top, file, text, kind, names):
    """Whether a file takes a new case of the kind without a word."""
    path = str(file.relative_to(top))
    if path.startswith("tools/"):
        words = "|".join(map(re.escape, names))
        return bool(names) and file.suffix in ("", ".py") and bool(re.search(rf"\bkind (?:==|!=|in|not in) \W*(?:{words})\b", text))
    if path.endswith(".antt"):
        return "/specs/" in path and has_catch_all_definition(kind, text)
    return path.endswith(".rt") and bool(re.search(rf"\b{kind}\b", text)) and bool(ARM.search(text))


def faults_of_catch_alls(top, heading, chapter, files, named):
    """The files with a catch-all that the chapter doesn't name."""
    for said in CATCH_ALL.finditer(chapter):
        for file, data in files:
            if file not in named and has_catch_all(top, file, data.decode(errors="replace"), said[1], QUOTED.findall(said[2] or "")):
                yield f"{PAGE}: {heading}: a catch-all in {file.relative_to(top)} takes a new {said[1]}, and the chapter doesn't name it"


def faults_of_chapter(top, heading, chapter, files):
    """The files that name a chapter's exemplar and that the chapter doesn't name, and a wrong number of files."""
    said = EXEMPLAR.search(chapter)
    if not said:
        if LISTED.search(chapter):
            yield f"{PAGE}: {heading}: it has a list of files, and no line 'Exemplar: `NAME`; some N files.'"
        return
    beside = BESIDE.search(said[1])
    names = QUOTED.findall(BESIDE.sub("", said[1]))
    word = pattern_of(names, beside[1] if beside else "")
    having = [file for file, data in files if word.search(data)]
    named = {path for line in lines_of(chapter) for path in paths_of(top, line)}
    for file in having:
        if not named & {file, *file.parents}:
            yield f"{PAGE}: {heading}: {file.relative_to(top)} names {' or '.join(names)}, and the chapter doesn't name it"
    yield from faults_of_catch_alls(top, heading, chapter, files, named)
    if not 0.9 * len(having) <= int(said[2]) <= 1.1 * len(having):
        yield f"{PAGE}: {heading}: {len(having)} files name {' or '.join(names)}, not some {said[2]}"


def faults(top):
    files = list(files_of(top))
    for heading, chapter in chapters_of((top / PAGE).read_text(encoding="utf-8")):
        yield from faults_of_chapter(top, heading, chapter, files)
