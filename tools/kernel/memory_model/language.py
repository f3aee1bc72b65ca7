"""Reads a litmus test in the format of the kernel's tools/memory-model: C of a few forms, one function a thread."""
import re
from collections import namedtuple


class Malformed(Exception):
    """The text isn't a litmus test of the forms that are read here: the line and what is wrong."""


# A test: its name, the first value of each shared variable, the body of each thread, and the condition on the end. An execution that doesn't meet
# `filter`, another condition or None, isn't counted.
Test = namedtuple("Test", "name first threads filter quantifier condition")
# Statements. A place is an expression that gives a shared variable's address.
Load = namedtuple("Load", "register place order")  # order: once, acquire
Store = namedtuple("Store", "place value order")  # order: once, release, unlock
Update = namedtuple("Update", "register place operation operand order gives")  # a read-modify-write; gives: nothing, old, new, or a test
# cmpxchg, whose register gets what was found; or where `adds`, an addition unless `old` is found, whose register gets whether it was made
Compare = namedtuple("Compare", "register place old new order adds")
Lock = namedtuple("Lock", "register place waits")  # spin_lock, spin_trylock
Fence = namedtuple("Fence", "kind")
Assign = namedtuple("Assign", "register value")
If = namedtuple("If", "condition then otherwise")
# Expressions.
Number = namedtuple("Number", "value")
Register = namedtuple("Register", "name")
Address = namedtuple("Address", "name")
Unary = namedtuple("Unary", "operation of")
Binary = namedtuple("Binary", "operation left right")

TOKEN = re.compile(r"\s+|//[^\n]*|(?P<token>[A-Za-z_]\w*|\d+|/\\|\\/|->|[-+*/%&|^~!<>=]=|&&|\|\||<<|>>|[-+*/%&|^~!<>=(){}\[\],;:.])")
TYPES = ("int", "long", "unsigned", "struct", "spinlock_t", "atomic_t")
OPERATIONS = {"add": "+", "inc": "+", "sub": "-", "dec": "-", "and": "&", "or": "|", "xor": "^", "andnot": "&~"}
ORDERS = ("relaxed", "acquire", "release")
LEVELS = [("||",), ("&&",), ("|",), ("^",), ("&",), ("==", "!="), ("<", ">", "<=", ">="), ("+", "-")]


def without_comments(text):
    """The text with each comment `(* .. *)` and `/* .. */` as blanks, so that lines stay; `f(*x)` is no comment."""
    return re.sub(r"\(\*(?=\s).*?\*\)|/\*.*?\*/", lambda found: re.sub(r"[^\n]", " ", found.group()), text, flags=re.S)


class Tokens:
    """The tokens of a text, and where each is."""

    def __init__(self, text):
        self.tokens, self.lines, self.at = [], [], 0
        place, line = 0, 1
        while place < len(text):
            found = TOKEN.match(text, place)
            if not found:
                raise Malformed(f"line {line}: {text[place]!r} isn't read here")
            if found.group("token"):
                self.tokens.append(found.group("token"))
                self.lines.append(line)
            line += found.group().count("\n")
            place = found.end()

    def fail(self, what, back=0):
        at = min(self.at - back, len(self.lines) - 1)
        raise Malformed(f"line {self.lines[at] if self.lines else 1}: {what}")

    def peek(self, ahead=0):
        return self.tokens[self.at + ahead] if self.at + ahead < len(self.tokens) else ""

    def next(self):
        token = self.peek()
        if not token:
            self.fail("the text ends too early")
        self.at += 1
        return token

    def accept(self, *tokens):
        return self.next() if self.peek() in tokens else None

    def expect(self, *tokens):
        for token in tokens:
            if self.next() != token:
                self.fail(f"{token!r} is missing before {self.tokens[self.at - 1]!r}", 1)

    def name(self):
        token = self.next()
        if not re.fullmatch(r"[A-Za-z_]\w*", token):
            self.fail(f"a name is missing before {token!r}", 1)
        return token

    def skip(self, *tokens):
        while self.peek() in tokens:
            self.next()


class Reader(Tokens):
    """Reads a test. In a thread `shared` are the names of its parameters, and `fresh` is how many registers of our own it has so far."""

    shared, fresh = (), 0

    # STATEMENTS, each as a list of those above

    def block(self):
        if not self.accept("{"):
            return self.statement()
        found = []
        while not self.accept("}"):
            found += self.statement()
        return found

    def statement(self):
        if self.accept(";"):
            return []
        if self.peek() == "{":
            return self.block()
        if self.accept("if"):
            return self.choice()
        found = self.declaration() if self.peek() in TYPES else self.simple()
        self.expect(";")
        return found

    def choice(self):
        self.expect("(")
        before, condition = self.expression()
        self.expect(")")
        return before + [If(condition, self.block(), self.block() if self.accept("else") else [])]

    def declaration(self):
        self.skip(*TYPES, "*")
        name = self.name()
        if not self.accept("="):
            return []
        before, value = self.expression()
        return before + [Assign(name, value)]

    def simple(self):
        """An assignment, or a call whose answer isn't used."""
        if self.peek(1) == "void":
            self.expect("(", "void", ")")
        if self.peek(1) == "=" and self.peek() not in self.shared:
            name = self.name()
            self.expect("=")
            before, value = self.expression()
            if before and value == Register(before[-1].register) and value.name.startswith("."):
                return [*before[:-1], before[-1]._replace(register=name)]
            return before + [Assign(name, value)]
        if self.peek() == "*" or self.peek() in self.shared and self.peek(1) == "=":
            self.fail("a plain access isn't decided here: use READ_ONCE and WRITE_ONCE")
        return self.expression()[0]

    # EXPRESSIONS: the statements that its calls are, and its value

    def expression(self, level=0):
        if level == len(LEVELS):
            return self.unary()
        before, left = self.expression(level + 1)
        while self.peek() in LEVELS[level]:
            operation = self.next()
            more, right = self.expression(level + 1)
            before, left = before + more, Binary(operation, left, right)
        return before, left

    def unary(self):
        if self.accept("("):
            found = self.expression()
            self.expect(")")
            return found
        if self.peek() in ("!", "~", "-"):
            operation = self.next()
            before, of = self.unary()
            return before, Unary(operation, of)
        if self.accept("&"):
            return [], Address(self.name())
        if self.peek().isdigit():
            return [], Number(int(self.next()))
        name = self.name()
        if self.peek() == "(":
            return self.call(name)
        return [], (Address if name in self.shared else Register)(name)

    def call(self, name):
        """`*x` as an argument is the place x."""
        at, before, words = self.at, [], []
        self.expect("(")
        while not self.accept(")"):
            self.accept("*")
            more, value = self.expression()
            before, words = before + more, [*words, value]
            if self.peek() != ")":
                self.expect(",")
        self.fresh += 1
        statements = call_of(name, words, f".{self.fresh}")
        if statements is None:
            self.at = at
            self.fail(f"{name} with {len(words)} arguments isn't read here")
        return before + statements, Number(0) if isinstance(statements[0], Fence) else Register(f".{self.fresh}")

    # WHAT IS AROUND THE THREADS

    def first_values(self):
        """The block of first values: `int x = 1; y = 2; atomic_t s = ATOMIC_INIT(3); p = &x;`, or without types."""
        first = {}
        self.expect("{")
        while not self.accept("}"):
            if self.accept(";"):
                continue
            while self.peek() in (*TYPES, "*") and self.peek(1) not in ("=", ";"):
                self.next()
            name = self.name()
            first[name] = self.first_value() if self.accept("=") else 0
            self.accept(";")
        return first

    def first_value(self):
        if self.accept("ATOMIC_INIT", "("):
            self.accept("(")
            value = self.first_value()
            self.expect(")")
            return value
        self.accept("&")
        return int(self.next()) if self.peek().isdigit() else self.name()

    def thread(self):
        """The names of a thread's parameters, which are the shared variables that it uses, and its body."""
        self.shared, self.fresh = [], 0
        self.expect("(")
        while not self.accept(")"):
            while self.peek(1) not in (",", ")"):
                self.next()
            self.shared.append(self.name())
            self.accept(",")
        return self.shared, self.block()

    # THE CONDITION ON THE END: `0:r0=1 /\\ x=2`, with `\\/`, `~` and brackets, as nested tuples

    def condition(self):
        return self.joined("or", "\\/", lambda: self.joined("and", "/\\", self.one))

    def joined(self, kind, mark, part):
        found = [part()]
        while self.accept(mark):
            found.append(part())
        return (kind, *found) if len(found) > 1 else found[0]

    def one(self):
        if self.accept("~"):
            return ("not", self.one())
        if self.accept("("):
            found = self.condition()
            self.expect(")")
            return found
        return self.equation()

    def equation(self):
        thread = None
        if self.peek(1) == ":":
            thread = int(self.next())
            self.expect(":")
        self.accept("[")
        left = (thread, self.name())
        self.accept("]")
        is_equal = self.accept("==", "=", "!=") in ("==", "=")
        self.accept("&")
        right = self.next()
        equation = ("is", left, int(right) if right.isdigit() else right)
        return equation if is_equal else ("not", equation)

    def filter(self):
        """The condition without which an execution isn't counted; before it may be names of variables that herd7 is to show."""
        if self.accept("locations"):
            while self.next() != "]":
                pass
        return self.condition() if self.accept("filter") else None

    def quantifier(self):
        if self.accept("~"):
            self.expect("exists")
            return "~exists"
        return self.accept("exists", "forall") or self.fail("'exists', '~exists' or 'forall' is missing")


# CALLS

FENCES = {
    "smp_mb": "mb", "smp_rmb": "rmb", "smp_wmb": "wmb", "smp_mb__before_atomic": "before-atomic", "smp_mb__after_atomic": "after-atomic",
    "smp_mb__after_spinlock": "after-spinlock", "smp_mb__after_unlock_lock": "after-unlock-lock", "barrier": "barrier",
    "rcu_read_lock": "rcu-lock", "rcu_read_unlock": "rcu-unlock", "synchronize_rcu": "sync-rcu", "synchronize_rcu_expedited": "sync-rcu",
}  # fmt: skip
LOADS = {"once": ("READ_ONCE", "atomic_read", "rcu_dereference", "spin_is_locked"), "acquire": ("smp_load_acquire", "atomic_read_acquire")}
STORES = {"once": ("WRITE_ONCE", "atomic_set"), "release": ("smp_store_release", "rcu_assign_pointer", "atomic_set_release")}
# by a call's name and the number of its arguments, of the place and the others, what it is
FORMS = {
    **{(name, 0): lambda register, kind=kind: [Fence(kind)] for name, kind in FENCES.items()},
    **{(name, 1): lambda register, place, order=order: [Load(register, place, order)] for order, names in LOADS.items() for name in names},
    **{(name, 2): lambda register, place, value, order=order: [Store(place, value, order)] for order, names in STORES.items() for name in names},
    ("smp_store_mb", 2): lambda register, place, value: [Store(place, value, "once"), Fence("mb")],
    ("spin_lock", 1): lambda register, place: [Lock(register, place, True)],
    ("spin_trylock", 1): lambda register, place: [Lock(register, place, False)],
    ("spin_unlock", 1): lambda register, place: [Store(place, Number(0), "unlock")],
}
# the same of operations whose names may end with their order
ORDERED = {
    **{(name, 2): lambda register, order, place, value: [Update(register, place, "=", value, order, "old")] for name in ("xchg", "atomic_xchg")},
    **{(name, 3): lambda register, order, place, old, new: [Compare(register, place, old, new, order, False)] for name in ("cmpxchg", "atomic_cmpxchg")},
    ("atomic_add_unless", 3): lambda register, order, place, addend, unless: [Compare(register, place, unless, addend, order, True)],
}


def call_of(name, words, register):
    """The statements that a call is; None where the call isn't known."""
    if (name, len(words)) in FORMS:
        return FORMS[name, len(words)](register, *words)
    # without an order at the end of its name the operation is fully ordered
    stem, _, order = name.rpartition("_")
    stem, order = (stem, order) if order in ORDERS else (name, "mb")
    if (stem, len(words)) in ORDERED:
        return ORDERED[stem, len(words)](register, order, *words)
    return atomic_of(stem, order, words, register)


def atomic_of(stem, order, words, register):
    """`atomic_OP(i, v)` and its like of the kernel's Documentation/atomic_t.txt, and bit operations over a mask of one bit."""
    found = re.fullmatch(r"atomic_(fetch_)?(add|sub|inc|dec|and|or|xor|andnot)(_return|_and_test)?", stem)
    if not found or len(words) not in (1, 2) or found[1] and found[3]:
        return None
    operand, place = (words[0], words[1]) if len(words) == 2 else (Number(1), words[0])
    gives = "old" if found[1] else {"_return": "new", "_and_test": "is_zero", None: "nothing"}[found[3]]
    return [Update(register, place, OPERATIONS[found[2]], operand, "noreturn" if gives == "nothing" else order, gives)]


def read(text):
    head, _, rest = without_comments(text).partition("\n")
    words = head.split()
    if len(words) != 2 or words[0] != "C":
        raise Malformed("line 1: it begins with 'C NAME'")
    reader = Reader("\n" + rest)
    first, threads = reader.first_values(), []
    while re.fullmatch(r"P\d+", reader.peek()):
        if reader.peek() != f"P{len(threads)}":
            reader.fail(f"P{len(threads)} is missing")
        reader.next()
        shared, body = reader.thread()
        threads.append(body)
        for name in shared:
            first.setdefault(name, 0)
    for name in [value for value in first.values() if isinstance(value, str)]:
        first.setdefault(name, 0)
    test = Test(words[1], first, threads, reader.filter(), reader.quantifier(), reader.condition())
    if reader.peek():
        reader.fail(f"nothing is expected after the condition, and {reader.peek()!r} is there")
    return test
