"""The kernel's text under every order: what is cut out of a tree, and a search over a small protocol of this test's own."""
import os
import shutil
import subprocess

from kernel.inside import changes, extract, sizes
from tests.bench import HERE, ROOM, expect, expect_none, fault, fault_if, room_of, run, write

# a letter box: who puts a letter serves it, or leaves it to the one who holds the lock
HEADER = """/* A letter box { not a brace. */
#define MAILBOX_LETTER 0
#define MAILBOX_LONG(m) \\
\t(READ_ONCE((m)->flags) \\
\t & 1UL << MAILBOX_LETTER)

enum mailbox_state {
\tMAILBOX_OPEN,
\tMAILBOX_SHUT, // a }
};

struct mailbox {
\tunsigned long flags;
\tspinlock_t lock;
};

static const char mailbox_name[] = { 'a', '}', 0 };
int mailbox_post(struct mailbox *m);

static inline int
mailbox_empty(const struct mailbox *m)
{
\treturn !MAILBOX_LONG(m); /* } */
}
"""
POST = """
int mailbox_post(struct mailbox *m)
{
\tset_bit(MAILBOX_LETTER, &m->flags);
\tif (!spin_trylock(&m->lock))
\t\treturn 0;
\tif (!mailbox_empty(m) && test_and_clear_bit(MAILBOX_LETTER, &m->flags))
\t\tmailbox_out("}");
\tspin_unlock(&m->lock);
\treturn 1;
}
"""
NAMES = """# a comment
file include/box.h
file box.c

macro MAILBOX_LETTER
macro MAILBOX_LONG
type mailbox_state
type mailbox
variable mailbox_name
function mailbox_gone?
function mailbox_empty
function mailbox_post
"""
# what is cut, in its order: the file, and the first and the last line of each definition
CUT = [("include/box.h", 2, 2), ("include/box.h", 3, 5), ("include/box.h", 7, 10), ("include/box.h", 12, 15), ("include/box.h", 17, 17), ("include/box.h", 20, 24), ("box.c", 2, 11)]
# the mend: the holder looks again behind the release
MEND = (("mailbox_post", r"if \(!spin_trylock", "again: if (!spin_trylock"), ("mailbox_post", r"return 1;", "if (!mailbox_empty(m)) goto again; return 1;"))
MENDED = [word for change in MEND for word in ("--change", *change)]
WORLD = """#include <stdio.h>
#include "operations.h"
#include "world.h"
static void mailbox_out(const char *what) {}
#include "ktext.inc"
#define PLAIN __attribute__((no_sanitize("thread")))
struct world { struct mailbox m; char begun[SEATS]; } world;
PLAIN int world_option(const char *name, long value) { return 1; }
PLAIN int world_seats(void) { return SEATS; }
PLAIN int world_size(void) { return sizeof world; }
PLAIN int world_words(struct word *words)
{
\twords[0] = (struct word){"flags", 0, 8, SHARED, 0, NULL, 0, -1};
\twords[1] = (struct word){"the lock", 8, 4, SHARED, 0, NULL, 0, -1};
\treturn 2;
}
PLAIN void world_init(void) {}
PLAIN int world_starts(int seat, struct start *starts) { return starts[0] = (struct start){1}, !world.begun[seat]; }
PLAIN void world_begin(int seat, struct start it) { world.begun[seat] = 1; }
void world_run(int seat, struct start it) { mailbox_post(&world.m); }
PLAIN int world_answers(int seat, int question, int about, int *answers) { return 0; }
PLAIN void world_answered(int seat, int question, int about, int answer) {}
PLAIN int world_alone(void) { return -1; }
PLAIN int world_left(void) { return world.m.flags & 1; }
PLAIN const char *world_left_text(void) { return "left in the box"; }
PLAIN void world_call_text(struct start it, char *text) { sprintf(text, "post"); }
PLAIN void world_answer_text(int question, int about, int answer, char *text) {}
PLAIN void world_text(char *text) { sprintf(text, "flags %lu", world.m.flags); }
"""


def tree(name, **files):
    """A tree with a letter box, and the world around it."""
    return room_of(name, {"include/box.h": HEADER, "box.c": POST, "worlds/tap.names": NAMES, "worlds/tap.c": WORLD, **files})


def search(top, *words):
    """The search of a letter box; compiling it may take a while on a busy machine."""
    call = [HERE / "kernel/inside-calls", top, "--worlds", top / "worlds", "--folder", ROOM / "inside", "--level", "0", "--size", "tap,puts=1", *words]
    said = subprocess.run([str(word) for word in call], capture_output=True, text=True, check=False)
    return said.returncode, said.stdout, said.stderr


def refusal(top, *given):
    """What the extractor says of a tree that it refuses."""
    try:
        extract.cut(top, top / "worlds/tap.names", [extract.Change(*change) for change in given])
    except extract.Refused as refused:
        return str(refused)
    return "nothing"


def test_inside_calls_extractor():
    top = tree("box")
    cut = extract.cut(top, top / "worlds/tap.names")
    texts = {"include/box.h": HEADER.split("\n"), "box.c": POST.split("\n")}
    wanted = [line for file, first, last in CUT for line in (f'#line {first} "{file}"', *texts[file][first - 1 : last])]
    if [line for line in cut.text.split("\n") if line] != wanted or (cut.definitions, cut.changed) != (7, 0):
        fault(f"what is cut out of a tree is another: {cut}")
    mended = extract.cut(top, top / "worlds/tap.names", [extract.Change(*change) for change in MEND])
    wanted = cut.text.replace("\tif (!spin", "\tagain: if (!spin").replace("\treturn 1;", "\tif (!mailbox_empty(m)) goto again; return 1;")
    fault_if(mended.changed != 2 or mended.text != wanted, f"a change isn't what was asked: {mended.text[-300:]}")
    refusals = {
        "matches 3 times, and not once": ("mailbox_post", "MAILBOX_LETTER|spin_unlock", ""),
        "no regular expression": ("mailbox_post", "(", ""),
        "no definition of that name is cut": ("mailbox_gone", "a", "b"),
    }
    for text, change in refusals.items():
        fault_if(text not in refusal(top, change), f"the extractor says nothing of {text!r}: {refusal(top, change)}")
    shutil.rmtree(top / "include")
    fault_if(refusal(top) != f"{top} has no include/box.h", f"a tree without a file: {refusal(top)}")
    lacks = tree("lacks", **{"box.c": POST.replace("mailbox_post", "mailbox_send"), "include/box.h": HEADER.replace("struct mailbox {", "struct mail {")})
    if "has no type mailbox, function mailbox_post (looked for in include/box.h, box.c)" not in refusal(lacks):
        fault(f"a tree that lacks definitions: {refusal(lacks)}")
    expect("inside-calls, a tree that lacks a function", search(lacks), 3, "inside-calls: ", "has no type mailbox, function mailbox_post")


def test_inside_calls_words():
    tool = HERE / "kernel/inside-calls"
    expect("inside-calls --help", run(tool, "--help"), 0, "tools/kernel/inside-calls TREE", "It is no proof")
    expect("inside-calls --sizes", run(tool, "--sizes"), 0, "a stop and a wake: stops=1,wakes=1", "words of a size: seats (2)")
    expect("inside-calls, no words", run(tool), 2, "a TREE, or --source")
    expect("inside-calls, both", run(tool, ROOM, "--source", "6.1"), 2, "a TREE, or --source")
    expect("inside-calls, no such line", run(tool, "--source", "5.10"), 2, "5.10")
    expect("inside-calls, no such option", run(tool, ROOM, "--frob"), 2, "--frob")
    expect("inside-calls, no such break", run(tool, ROOM, "--breaks", "--named", "none"), 2, "second-try-left-out")
    # an option that a way of searching hasn't would be left out without a word
    refused = {
        ("--model", "x86", "--schedule", "x"): "--schedule doesn't go with --model", ("--model", "weak", "--large"): "--large doesn't go with --model",
        ("--model", "x86", "--fine", "1"): "--fine doesn't go with --model", ("--breaks", "--size", "bypass=0"): "--size doesn't go with --breaks",
        ("--breaks", "--change", "f", "a", "b"): "--change doesn't go with --breaks", ("--breaks", "--model", "x86"): "--model doesn't go with --breaks",
        ("--named", "second-try-left-out"): "--named goes with --breaks", ("--seed", "3"): "--seed goes with --walks",
        ("--model", "weak", "--walks", "3"): "--walks with --model goes with --size or --change",
    }  # fmt: skip
    for words, text in refused.items():
        expect(f"inside-calls {words}", run(tool, ROOM, *words), 2, text)
    for size, text in {"sends=9": "sends is a number from 1 to 3", "frob=1": "no word of a size: 'frob'", "sends": "NAME=NUMBER", "lengths=1": "needs new_len", "waiting=3": "no more than its slots", "waiting=1,queues=2": "of one queue", "children=2": "needs queues=2", "stopped=2": "stopped is 1",
                       "tap,sends=1": "no word of a size: 'sends'"}.items():  # fmt: skip
        expect(f"inside-calls --size {size}", run(tool, ROOM, "--size", size), 2, text)
    expect("inside-calls, no folder", run(tool, ROOM / "none"), 3, "is no folder")
    tree_file = ROOM / "linux/include/linux/ptr_ring.h"
    write(tree_file, "kept")
    expect("inside-calls, a schedule that is an input", run(tool, ROOM / "linux", "--schedule", tree_file), 2, "ptr_ring.h")
    fault_if(tree_file.read_text(encoding="utf-8") != "kept", "inside-calls: a file of the tree is overwritten")
    expect("inside-calls, an empty tree", run(tool, ROOM, "--folder", ROOM / "inside"), 3, "has no include/linux/netdevice.h, ")
    if [broken.is_found for broken in changes.BREAKS].count(True) != 19 or len({broken.name for broken in changes.BREAKS}) != 26:
        fault("inside-calls: there are other changes than the 26")
    standard = [size.values for size in sizes.STANDARD]
    for broken in changes.BREAKS:
        if broken.values not in standard:
            fault(f"inside-calls: the size of {broken.name} is no standard one, so that nobody finds such a change who names no size")
    fault_if(len({size.text for size in sizes.STANDARD + sizes.LARGE}) != len(sizes.STANDARD + sizes.LARGE), "inside-calls: two sizes have one name")


def test_inside_calls_missing_packages():
    path = room_of("few-programs")
    python = os.path.realpath(shutil.which("python3"))
    for name in ("gcc", "addr2line"):
        (path / name).symlink_to("/bin/true")
    environment = dict(os.environ, PATH=str(path))
    command = [python, HERE / "kernel/inside-calls", "--source", "6.1", "--folder", ROOM / "sources"]
    expect("inside-calls without g++", run(*command, env=environment), 3, "inside-calls: no g++: Debian has it in g++\n")
    (path / "g++").symlink_to("/bin/true")
    expect("inside-calls without apt-get", run(*command, env=environment), 3, "the package linux-source-6.1 can't be had (there is no program 'apt-get'")
    newer = [python, HERE / "kernel/inside-calls", "--source", "7.2", "--folder", ROOM / "sources"]
    expect("inside-calls without apt-get, 7.2", run(*newer, env=environment), 3, "there is no program 'apt-get', which Debian has")
    write(path / "apt-get", "#!/bin/sh\ncase \"$*\" in *update) exit 0 ;; esac\necho 'E: Unable to locate package' >&2\nexit 100\n")
    write(path / "apt-cache", "#!/bin/sh\necho 'linux-source-7.4 - Linux'\n")
    said = run(*newer, env=environment)
    expect("inside-calls, a line that isn't offered", said, 3, "Debian's unstable and trixie-backports offer no linux-source-7.2 any more; they have linux-source-7.4")


def test_inside_calls_search():
    if not all(map(shutil.which, ("gcc", "g++", "addr2line"))):
        print("tools: no g++ here, so that the search of inside-calls isn't tried")
        return
    top = tree("lost")
    said = search(top)
    # by hand: the other's letter comes between the holder's take and its release, 2 starts and 7 accesses
    expect("inside-calls, a lost letter", said, 1, "WRONG: 1 packet is left in the box; a shortest order, of ", "seat 0  set_bit(0, flags)", "spin_trylock(the lock): held", "mailbox_post box.c:5", "then: flags 1")
    expect("inside-calls, mended", search(top, *MENDED), 0, "nothing goes wrong: ", "2 changed", "1 sizes of 1: 1 nothing goes wrong")
    expect_none("inside-calls, mended", search(top, *MENDED), "WRONG")
    both = tree("both", **{"worlds/path.names": NAMES.replace("function mailbox_post\n", "")})
    expect("inside-calls, a size with the change and one without", search(both, *MENDED, "--size", "bypass=0"), 0, "2 changed", "1 sizes of 2: 1 nothing goes wrong, 1 not searched")
    expect("inside-calls, stopped", search(top, *MENDED, "--most", "5"), 5, "not decided: stopped after 6 states")
    expect("inside-calls, random orders", search(top, "--walks", "200"), 1, "WRONG: 1 packet is left in the box")
    broken = tree("broken", **{"box.c": POST.replace("return 0;", "return frob();")})
    expect("inside-calls, a text that isn't compiled", search(broken), 3, "isn't compiled", "frob")
    twice = search(tree("release", **{"box.c": POST.replace("\treturn 1;", "\tspin_unlock(&m->lock);\n\treturn 1;")}))
    expect("inside-calls, a lock that is released twice", twice, 1, "WRONG: 'the lock' is released by a seat that doesn't hold it")
    # another seat is alone, as in a change of the length: a lock of no discipline may be taken beside it
    expect("inside-calls, a lock of no discipline", search(tree("alone", **{"worlds/tap.c": WORLD.replace("return -1;", "return 0;")}), *MENDED), 0, "nothing goes wrong")
    # on x86 the holder's release may come after its look, unless a barrier is between the two
    held = [word.replace("if (!mailbox_empty(m)) goto", "smp_mb(); if (!mailbox_empty(m)) goto") for word in MENDED]
    expect("inside-calls, mended, on x86", search(top, *MENDED, "--model", "x86"), 1, "memory x86", "WRONG: 1 packet is left in the box")
    expect("inside-calls, mended with a barrier, on x86", search(top, *held, "--model", "x86"), 0, "nothing goes wrong", "memory x86, ")


def test_inside_calls_changes():
    """A size whose text hasn't what a change names is left out; a change of nothing is refused."""
    top = tree("path", **{"worlds/path.names": NAMES + "function mailbox_long\n"})
    expect("inside-calls, a size without the change", search(top, "--change", "mailbox_long", "a", "b"), 3, "not searched: its text has no definition that is changed", "no size has a definition")
    expect("inside-calls, a change of nothing", search(top, "--change", "mailbox_gone_too", "a", "b"), 3, "a change names mailbox_gone_too, and no definition of that name is cut")
