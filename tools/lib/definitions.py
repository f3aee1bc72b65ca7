"""Reads the definitions of crates/*/specs and crates/*/proofs, and which of them each one mentions.

What is read is text, as `rt fmt` lays it out: a declaration begins at the left edge and goes on until the next one.
Names are found by the imports of their file, so that one name may be declared in several modules.
"""
import pathlib
import re
from dataclasses import dataclass, field

TOP = pathlib.Path(__file__).resolve().parent.parent.parent
CRATES = TOP / "crates"
HEAD = re.compile(r"^(?:abbrev |unfoldable )?(?:pub )?(?:(record|data) )?([^\s(){},;]+)(?: [({].*[)}])? :(?: |$)")
IMPORT = re.compile(r"^ *(?:pub |ghost )*use Rattle\.([\w.]+?)(?:\.\{([^}]*)\}| as (\S+?)|);?$", re.M)
PATH = re.compile(r"\b(crate|lq_\w+)((?:::\w+)+)")
TOKEN = re.compile(r"[^\s(){}\[\],;.|\\&*<>:=!\"`@#«»]+|[.:=<>|&*!]+")
# the files that the prover asks for: what they declare publicly is used by it
ANSWERS = {"Answers", "Invariants", "Proof"}


@dataclass
class Definition:
    """A definition or a lemma: where it stands, its lines with the comment above them, and what it mentions."""

    module: str  # as in an import, "lq_model.specs.Legal"
    name: str
    kind: str  # record, data, inductive, abbrev, or definition, of which a lemma is one
    path: pathlib.Path
    line: int
    public: bool
    comment: list
    sections: list  # the heads of the sections that it stands in
    lines: list = field(default_factory=list)
    mentions: set = field(default_factory=set)

    key = property(lambda self: (self.module, self.name))
    size = property(lambda self: len(self.comment) + len(self.lines))


def module_of(path):
    """The name of a file of definitions in imports."""
    return ".".join(path.relative_to(CRATES).with_suffix("").parts)


def blank_strings_and_comments(text):
    """A file of code with nothing in its comments and in its texts, line for line."""
    text = re.sub(r'"(?:[^"\\]|\\.)*"', lambda match: '""' + "\n" * match[0].count("\n"), text, flags=re.S)
    return re.sub(r"//[^\n]*", "", text)


def read_definitions(path):
    """The definitions of a file, in their order."""
    found, comment, sections = [], [], []
    for number, whole in enumerate(path.read_text(encoding="utf-8").splitlines(), 1):
        indent = len(whole) - len(whole.lstrip(" "))
        # a section with parameters of its own has its definitions two columns to the right
        while whole and sections and indent < 2 * len(sections):
            sections.pop()
        line = whole[2 * len(sections) :]
        edge = line[:1] not in ("", " ", "}", ")")
        if not line or edge and re.match(r"(pub )?(use|mod) ", line):
            # a comment that stands alone is of a whole part
            comment = []
        elif edge and line.startswith(("--", "infix")):
            # how an operator binds is of the definition below, as a comment is
            comment.append(line)
        elif edge and line.startswith("module "):
            sections.append(line)
            comment = []
        else:
            head = HEAD.match(line) if edge else None
            if head and not (found and is_clause(found[-1], line)):
                kind = head[1] or ("abbrev" if line.startswith(("abbrev", "unfoldable")) else "definition")
                public = "pub" in line.split(":")[0].split()
                found.append(Definition(module_of(path), head[2], kind, path, number, public, comment, list(sections)))
                comment = []
            if found:
                found[-1].lines += comment + [line]
                comment = []
    return found


def is_clause(definition, line):
    return line.startswith(definition.name + " ") and not re.match(re.escape(definition.name) + r" :", line)


class Names:
    """What the names of a file mean, by its imports."""

    def __init__(self, text, module, own):
        self.items = {name: (module, name) for name in own}
        self.modules = {}
        for path, names, alias in IMPORT.findall(text):
            if names:
                for name in re.split(r",\s*", names.strip()):
                    given, _, other = name.partition(" as ")
                    self.items[other or given] = (path, given)
            else:
                self.modules[alias or path.rpartition(".")[2]] = path

    def mentioned_in(self, text):
        """What a text mentions, as modules and names; of a qualified name, both its parts; of `do`, the operator that joins its lines."""
        tokens = TOKEN.findall(text)
        words = set(tokens) | ({">>="} if "do" in tokens else set())
        yield from (key for name, key in self.items.items() if "◌" in name and words.issuperset(filter(None, name.split("◌"))))
        for at, token in enumerate(tokens):
            if token in self.modules and tokens[at + 1 : at + 2] == ["."]:
                yield (self.modules[token], tokens[at + 2])
            elif token in self.items:
                yield self.items[token]


CLAUSE = re.compile(r"\b(?:requires|ensures)\b[^{};]*(?=\{)")
TYPE = re.compile(r"^(?:pub(?:\(crate\))? )?(struct|enum|trait) (\w+)", re.M)


def end_of_braces(text, at):
    """Where the group that opens at a place ends."""
    depth = 0
    for brace in re.finditer(r"[{}]", text[at:]):
        depth += 1 if brace[0] == "{" else -1
        if depth == 0:
            return at + brace.end()
    return len(text)


def without_clauses(text):
    """Code alone: what contracts say of a function by the name of its definition is no call of it."""
    parts, at = [], 0
    for found in CLAUSE.finditer(text):
        if found.start() >= at:
            parts.append(text[at : found.start()])
            at = end_of_braces(text, found.end())
            parts.append("\n" * text[found.start() : at].count("\n"))
    return "".join([*parts, text[at:]])


def code_files():
    return sorted(CRATES.glob("*/src/**/*.rt"))


def item_with_comment(text, start):
    """The item that begins at a place, with its comment and attributes, by the layout of `rt fmt`; and its place."""
    before = text[:start].splitlines()
    first = len(before)
    while first and before[first - 1].startswith(("///", "#[")):
        first -= 1
    end = re.compile(r";|\{[^\n]*\}$|\{(?=\n)", re.M).search(text, start)
    if end and end[0] == "{":
        end = re.compile(r"^\}", re.M).search(text, start)
    return first, "\n".join([*before[first:], text[start : end.end() if end else len(text)]])


def as_contracts_see(item, models):
    """What the contracts of other crates see of a type: with a model its values, else its fields; nothing that is proved of every value."""
    lines = item.splitlines()
    if models:
        head = next(at for at, line in enumerate(lines) if re.match(r"(pub(\(crate\))? )?(struct|enum) ", line))
        values = [line for model in models for line in model.splitlines() if re.match(r"impl|\}| +ghost Value\b", line)]
        uses = [line for model in models for line in model.splitlines() if re.match(r" +ghost use ", line)]
        named = " ".join(values)
        uses = [line for line in uses if any(re.search(rf"\b{name}\b", named) for name in re.findall(r"\w+(?=[,}])", line))]
        return [*lines[: head + 1], *(["    .."] if lines[head].endswith("{") else []), "}", "", values[0], *uses, *values[1:]]
    return re.sub(r"^ +(pub )?ghost \w+: \{[^;]*?\},\n", "", item, flags=re.M).splitlines()


def types_of_code(for_reading):
    """The types and traits of the code, by crate, file and name."""
    found = {}
    for path in code_files():
        text = path.read_text(encoding="utf-8")
        for match in TYPE.finditer(text):
            first, item = item_with_comment(text, match.start())
            # what contracts see of a type stands in its model
            models = [item_with_comment(text, model.start())[1] for model in re.finditer(rf"^impl(?:<[^{{]*>)? Model for {match[2]}\b", text, re.M)]
            lines = as_contracts_see(item, models) if for_reading else "\n\n".join([item, *models]).splitlines()
            module = module_of(path)
            found[module, match[2]] = Definition(module, match[2], match[1], path, first + 1, True, [], [], lines)
    return found


class Repository:
    """All definitions and all types of the code, and what the code mentions of them; of types `for_reading` what contracts see."""

    def __init__(self, for_reading=False):
        self.definitions, self.files, self.reexports, names = {}, {}, {}, {}
        self.types = types_of_code(for_reading)
        for path in sorted(CRATES.glob("*/specs/**/*.antt")) + sorted(CRATES.glob("*/proofs/**/*.antt")):
            if path.name != "Lib.antt":
                self.files[module_of(path)] = read_definitions(path)
        for module, items in self.files.items():
            text = (CRATES / (module.replace(".", "/") + ".antt")).read_text(encoding="utf-8")
            names[module] = Names(text, module, [item.name for item in items])
            for path, exported in re.findall(r"^pub use Rattle\.([\w.]+)\.\{([^}]*)\}", text, re.M):
                self.reexports |= {(module, word): (path, word) for word in re.split(r",\s*", exported)}
            for item in items:
                self.definitions[item.key] = item
        for definition in self.definitions.values():
            body = "\n".join(line for line in definition.sections + definition.lines if not line.lstrip().startswith("--"))
            definition.mentions = {self.meant(*key) for key in names[definition.module].mentioned_in(body)} - {definition.key, None}
        for declared in self.types.values():
            declared.mentions = self.mentioned_by_item(declared.path, "\n".join(declared.lines)) - {declared.key}

    def meant(self, module, name):
        """The definition that a module and a name mean, also through a type's own module, or None."""
        while (module, name) in self.reexports:
            module, name = self.reexports[module, name]
        if (module, name) in self.definitions:
            return (module, name)
        declared = re.match(r"(\w+)\.specs\.declared\.((?:[a-z]\w*\.)*)([A-Z]\w*)", f"{module}.{name}")
        if declared:
            crate, inner, kind = declared.groups()
            modules = [f"{crate}.src.{inner}".rstrip("."), f"{crate}.src.{inner}lib", f"{crate}.src.lib"]
            return next(((module, kind) for module in modules if (module, kind) in self.types), None)
        outer, _, kind = module.rpartition(".")
        return (outer, kind) if (outer, kind) in self.definitions else None

    def of(self, key):
        """The definition or the type of a key."""
        return self.definitions[key] if key in self.definitions else self.types[key]

    def mentioned_by_item(self, path, item):
        """What an item of a file of code rests on: the definitions in its clauses, and the types and traits that it names."""
        whole, crate = path.read_text(encoding="utf-8"), path.relative_to(CRATES).parts[0]
        words = set(re.findall(r"\b[A-Z]\w*", without_clauses(blank_strings_and_comments(item))))
        keys = self.mentioned_by_code(path, item)
        for module, name in self.types:
            of = module.split(".")[0]
            if name in words and (of == crate or re.search(rf"^use {of}::[^;]*\b{name}\b", whole, re.M)):
                keys.add((module, name))
        return keys

    def mentioned_by_code(self, path, text=None):
        """The definitions that a file of code mentions, or a part of it."""
        whole = path.read_text(encoding="utf-8")
        names = Names(whole, "", [])
        for found in PATH.finditer(whole):
            crate = path.relative_to(CRATES).parts[0] if found[1] == "crate" else found[1]
            *module, name = found[2].split("::")[1:]
            if module[:1] in (["specs"], ["proofs"]):
                names.items[name] = (".".join([crate, *module]), name)
        bare = IMPORT.sub("", blank_strings_and_comments(text or whole))
        return {self.meant(*key) for key in names.mentioned_in(bare)} - {None}

    def reached_from(self, keys, without=()):
        """These definitions and all that they rest on, each after those that it rests on; some and what only they rest on are left out."""
        found, seen = [], set(without)
        for start in keys:
            waiting = [(start, None)]
            while waiting:
                key, rest = waiting.pop()
                if rest is None:
                    if key in seen:
                        continue
                    seen.add(key)
                    rest = iter(sorted(self.of(key).mentions, key=lambda mention: (mention[0], self.of(mention).line)))
                below = next(rest, None)
                if below is None:
                    found.append(key)
                else:
                    waiting += [(key, rest), (below, None)]
        return found
