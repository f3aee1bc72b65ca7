"""Tools that read the sources: what nobody needs, names with several meanings, and what is to be read."""
from tests.bench import expect, expect_none, is_equal, repository, run, write

SMALL = {
    "README.md": "A law stands: `kept_law`.\n",
    "crates/low/specs/Words.antt": """-- Words.
use Rattle.std.specs.Prelude.{ℕ}

-- a word
abbrev pub word : ℕ
word = 1

-- in a section
module _ {A : Type 0} where
  abbrev pub pair_of : A → ℕ
  pair_of a = word

abbrev pub unused : ℕ
unused = word

pub record Whole : Type 0 where
  pub part : ℕ
""",
    "crates/low/proofs/Lemmas.antt": """-- Lemmas.
use Rattle.low.specs.Words.{word as one}

pub used_lemma : ℕ
used_lemma = helper one

helper : ℕ → ℕ
helper n = n

pub dead_lemma : ℕ
dead_lemma = only_of_dead

only_of_dead : ℕ
only_of_dead = 2
""",
    "crates/low/proofs/called/Answers.antt": """use Rattle.low.proofs.Lemmas as lemmas

pub called-ensures : ℕ
called-ensures = lemmas.used_lemma
""",
    "crates/low/src/lib.rt": """//! Low.
ghost use Rattle.low.specs.Words.{pair_of, Whole};

/// A type.
pub struct Kept {
    /// Its part.
    pub part: u32,
}

/// Called.
pub fn called(kept: &Kept) -> u32
    ensures { result ≡ pair_of dead_fn }
{
    kept.part
}

/// Says `called` here, and `dead_fn` in a comment: dead_fn.
fn caller(kept: &Kept) -> u32 {
    let text = "dead_fn";
    called(kept)
}

fn main() {
    caller()
}

/// Nobody calls it.
fn dead_fn() -> u32 {
    dead_fn()
}

/// A law.
pub fn law()
    ensures { (w : Whole) → w ≡ w }
{}

/// Named on a page.
pub fn kept_law(w: u32) -> u32 {
    w
}
""",
}


def of_sources(name, files):
    """A repository with these files, and no tool but those that read them: the comments of others name files that it doesn't have."""
    top = repository(name, files)
    for path in (top / "tools").glob("**/*"):
        if path.is_file() and path.name not in ("dead", "names", "__init__.py", "words.py", "definitions.py"):
            path.unlink()
    return top


def test_dead():
    top = of_sources("dead", SMALL)
    said = run(top / "tools/dead")
    expect("dead", said, 1, "Words.antt:13: unused", "Lemmas.antt:10: dead_lemma", "only_of_dead", "lib.rt:28: fn dead_fn", "nobody needs 4")
    expect_none("dead", said, "used_lemma (", "helper", "pair_of", "kept_law", "fn law", "fn main", "caller (", "fn called")
    clean = SMALL | {"crates/low/proofs/Lemmas.antt": SMALL["crates/low/proofs/Lemmas.antt"].split("pub dead_lemma")[0]}
    clean["crates/low/specs/Words.antt"] = clean["crates/low/specs/Words.antt"].replace("abbrev pub unused : ℕ\nunused = word\n\n", "")
    clean["crates/low/src/lib.rt"] = clean["crates/low/src/lib.rt"].replace("fn dead_fn() -> u32 {\n    dead_fn()\n}\n", "")
    top = of_sources("alive", clean)
    expect("dead, without them", run(top / "tools/dead"), 0, "all definitions, lemmas and functions are needed")
    comments = {
        "tools/mine.py": '"""Reads crates/low/specs/Words.antt,\nand crates/low/specs/Gone.antt."""\nwords = "docs/GONE.md"  # as in lib/words.py and gone.py\n',
        "tools/c/mine.h": "/* As crates/low/src/lib.rt has it,\n * and docs/GONE.md; net/core/dev.c has more. */\n// see mine.py\n",
        "tools/mine": "#!/bin/sh\n# tools/gone, and OUT.schedule\necho docs/GONE.md\n",
    }
    for path, text in comments.items():
        write(top / path, text)
    said = run(top / "tools/dead")
    gone = ["tools/c/mine.h:2: a comment names docs/GONE.md", "tools/mine:2: a comment names tools/gone", "tools/mine.py:2: a comment names crates/low/specs/Gone.antt", "tools/mine.py:3: a comment names gone.py"]
    expect("dead, comments", said, 1, *gone)
    is_equal("dead, comments", said[1].count("a comment names"), len(gone))


def test_names():
    other = {"crates/high/specs/Words.antt": "abbrev pub word : ℕ\nword = 2\n", "crates/high/specs/More.antt": "abbrev pub word : ℕ\nword = 3\n"}
    top = repository("names", SMALL | other)
    expect("names", run(top / "tools/names"), 1, "word has 3 meanings: crates/high/specs/More.antt:1,", "1 names have several meanings")
    for name in ("More", "Words"):
        (top / f"crates/high/specs/{name}.antt").unlink()
    expect("names, once each", run(top / "tools/names"), 0, "each name of a definition has one meaning")


def test_reading_list():
    code = SMALL["crates/low/src/lib.rt"]
    laws = "ghost use Rattle.low.specs.Words.{Whole};\n\n/// First.\npub fn invariant_is_kept()\n    ensures { Whole }\n{}\n\npub fn quiet_holds_nothing()\n    ensures { Whole }\n{}\n"
    bound = "ghost use Rattle.parts.specs.Parts.{Bound};\n" + "".join(f"\npub fn {name}()\n    ensures {{ Bound }}\n{{}}\n" for name in ("no_order_keeps_a_packet", "what_leaves_is_sent", "somebody_comes"))
    page = ["Headline", "HasWritten", "HaveAccepted", "IsCaptureFile", "FollowsRules", "FollowsPlan", "IsTableQuiet", "HoldsNoPacket", "AllHaveFates", "AreOpenAtXmit"]
    parts = [*page, "Bound", "HasRun", "plan_for", "limited_capture_of", "limited_trace_of", "HasTapped", "HasCutTap"]
    defined = "-- Parts.\n" + "".join(f"\nabbrev pub {name} : Type 0\n{name} = Unit {{0}}\n" for name in parts)
    files = {"crates/lq_top/src/top.rt": code.replace("called", "lqtx"), "crates/lq_run_core/src/laws.rt": laws, "crates/lq_run_core/src/laws/progress.rt": bound,
             "crates/parts/specs/Parts.antt": defined}
    top = repository("list", SMALL | files)
    said = run(top / "tools/reading-list", "--names")
    expect("reading-list, by parts", said, 0, "page of the headline: 4 definitions, 8 lines", "doesn't hold: 4 definitions, 8 lines", "tell it: 1 definitions, 2 lines", "keeps a packet: 1 definitions, 2 lines", "headline: 1 definitions, 2 lines", "tap: 2 definitions, 4 lines", "HasTapped, HasCutTap")
    expect("reading-list", said, 0, "contract of lqtx: 2 definitions, 5 lines; and 5 lines of types and traits; in 2 modules", "word, pair_of")
    expect("reading-list, in all", said, 0, "in all the contract of lqtx: 2 definitions, 5 lines", "of these 0 lines are the machine's, and 5 are read besides it")
    expect_none("reading-list", said, "unused")
    said = run(top / "tools/reading-list", "--text")
    expect("reading-list, whole", said, 0, "       -- a word\n", "       module _ {A : Type 0} where\n         abbrev pub pair_of", "       pub fn lqtx(kept: &Kept) -> u32\n", "/// Its part.")
    said = run(top / "tools/reading-list", "--names", "word")
    expect("reading-list, of a definition", said, 0, "word: 1 definitions, ")
    expect_none("reading-list, of a definition", said, "the contract of lqtx", "pair_of")
    expect("reading-list, no definition", run(top / "tools/reading-list", "used_lemma"), 1, "no crate has a definition used_lemma in its specs/")
    expect("reading-list, wrong words", run(top / "tools/reading-list", "--all"), 2, "tools/reading-list [--names | --text]")
