"""tools/wrong-bodies: which functions edits change, which are tried together, and what a check says of each."""
from lib import wrong
from tests.bench import is_equal, room_of

SOURCE = """impl Ring for Slots {
    fn put(&mut self) -> bool
        ensures { result ≡ true }
    {
        place(self)
    }

    fn take(&mut self) -> u32;
}

fn place(ring: &Slots) -> bool {
    true
}

pub fn law()
    ensures { (n : ℕ) → n ≡ n }
{}
"""
EDITS = {
    "put_nowhere": ("src/ring.rt", "place(self)", "false"),
    "no_place": ("src/ring.rt", "    true", "    false"),
    "another_law": ("src/ring.rt", "n ≡ n", "n ≡ 0"),
    "another_definition": ("specs/Ring.antt", "size = 4", "size = 5"),
}
SAID = """./proofs/ring/SlotsRing/put/Answers.antt:3:1: error: `returns`: the two types differ
fn low::ring::place: depends on a hole in `place_spec`
fn low::ring::SlotsRing::put: not proved; it stands on `returns`, which antt refuses
note: src/ring.rt:15:1: it is not proved that what the function ensures holds when it returns
fn low::ring::law: no proof: `search` did not prove `returns`
"""


def small_crate():
    edits = {f"must-fail/{name}.edit": f"file: {file}\nold: {old}\nnew: {new}\n" for name, (file, old, new) in EDITS.items()}
    return room_of("wrong/crates/low", {"src/ring.rt": SOURCE, "specs/Ring.antt": "size = 4\n"} | edits).parent.parent


def test_wrong_bodies_in_rounds():
    top, wrong.TOP = wrong.TOP, small_crate()
    try:
        functions, edits = wrong.functions_of("low"), wrong.edits_of("low")
        is_equal("functions", [function.path for function in functions], ["ring::SlotsRing::put", "ring::place", "ring::law"])
        targets = {edit.name.removesuffix(".edit"): edit.targets for edit in edits}
        wanted = {"put_nowhere": ["ring::SlotsRing::put"], "no_place": ["ring::place"], "another_law": ["ring::law"], "another_definition": []}
        is_equal("what edits change", targets, wanted)
        rounds = wrong.rounds_of([edit for edit in edits if edit.targets], functions)
        names = [[edit.name.removesuffix(".edit") for edit in there] for there in rounds]
        is_equal("a caller and its callee are tried apart", names, [["another_law", "no_place"], ["put_nowhere"]])
        judged = {edit.name.removesuffix(".edit"): wrong.judged(edit, SAID) for edit in edits if edit.targets}
        is_equal("refused by an answer", judged["put_nowhere"].said, "refused: proofs/ring/SlotsRing/put/Answers.antt:3:1: error: `returns`: the two types differ")
        is_equal("refused by a search", judged["another_law"].said.partition(": it is")[0], "refused: src/ring.rt:15:1")
        is_equal("still proved, or not tried", judged["no_place"], None)
        unread = "src/ring.rt:15:9: error: `requires`: `room` is not in scope; did you mean `rooms`?"
        said = [wrong.judged_whole(edits[0], f"{text}\nlogic=not-proved\n").said for text in (unread, SAID)]
        is_equal("names what isn't there", [text.partition(": ")[0] for text in said], ["NOT TRIED", "refused"])
    finally:
        wrong.TOP = top
