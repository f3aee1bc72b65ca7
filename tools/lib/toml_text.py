"""TOML as the program takes it. Its parser knows TOML 1.1 and a byte order mark; Python's `tomllib` knows TOML 1.0 and no mark.

What 1.1 adds is rewritten as 1.0 has it: line ends, comments and a last comma in an inline table, the escapes \\e and \\xHH, and times without
seconds. Each line keeps its number, so that a fault stands where it is.
"""
import re
import tomllib

Fault = tomllib.TOMLDecodeError
TOO_DEEP, TOO_LARGE = "its tables or arrays are nested too deeply", "a number has more than 64 bits"
TOKEN = re.compile(
    r'(?P<basic>"""(?:\\.|[^\\])*?"{3,5}|"(?:\\.|[^"\\\n])*")'
    r"|(?P<literal>'''.*?'{3,5}|'[^'\n]*')"
    r"|(?P<comment>#[^\n]*)|(?P<mark>[{}\[\],\n])|(?P<plain>[^\"'#{}\[\],\n]+)|(?P<other>.)",
    re.S,
)
ESCAPE = re.compile(r"\\(x[0-9A-Fa-f]{2}|.)", re.S)
# of a time, but not of an offset from UTC
SHORT_TIME = re.compile(r"(?<![\d:+-])((?:[01]\d|2[0-3]):[0-5]\d)(?![\d:])")


def escaped(found):
    """An escape of a string as 1.0 has it."""
    what = found[1]
    if what == "e":
        return "\\u001b"
    return f"\\u00{what[1:]}" if what[0] == "x" and len(what) == 3 else found[0]


# how far a pair of an inline table has come; a line may end before and behind a pair, and not in it
BEFORE, KEY, EQUALS, VALUE = range(4)


def further(state, kind, word):
    """How far the pair has come behind a word."""
    if word in (",", "{"):
        return BEFORE
    if kind == "plain" and "=" in word:
        return VALUE if word.rpartition("=")[2].strip() else EQUALS
    return VALUE if state in (EQUALS, VALUE) else KEY


def as_first_version(text):
    """The text in TOML 1.0."""
    parts, late = [], ""
    open_marks = []  # each with how far the pair has come
    before, last = None, None  # the last two parts that aren't blank
    for found in TOKEN.finditer(text):
        kind, word = found.lastgroup, found[0]
        in_table = bool(open_marks) and open_marks[-1][0] == "{"
        if kind == "comment" and in_table:
            continue
        if kind == "basic":
            word = ESCAPE.sub(escaped, word)
        elif kind == "plain":
            word = SHORT_TIME.sub(r"\1:00", word)
        elif word == "\n" and in_table and open_marks[-1][1] in (BEFORE, VALUE):
            late += "\n"
            word = " "
        elif word == "\n" and late and not open_marks:
            word, late = word + late, ""
        elif word == "}" and last is not None and parts[last] == "," and parts[before] != "{":
            parts[last] = ""
        if word.strip():
            before, last = last, len(parts)
            if word in ("}", "]"):
                del open_marks[-1:]
            elif in_table:
                open_marks[-1][1] = further(open_marks[-1][1], kind, word)
            if word in ("{", "["):
                open_marks.append([word, BEFORE])
        parts.append(word)
    return "".join(parts)


def loads(text):
    """The document that a text is; Fault where it is none."""
    text = text.removeprefix("\ufeff")
    try:
        return as_document(text)
    except Fault:
        again = as_first_version(text)
        if again == text:
            raise
    return as_document(again)


def as_document(text):
    try:
        return tomllib.loads(text)
    except RecursionError:
        raise Fault(TOO_DEEP) from None
    except Fault:
        raise
    except ValueError:
        # thousands of digits
        raise Fault(TOO_LARGE) from None
