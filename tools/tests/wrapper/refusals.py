"""What the wrapper says of a refusal, of a fault, of a capture, and of a folder as an output."""
from tests.wrapper.bench import COOKED_CAPTURE, cases, do

# of each reason for which a capture is refused what is said of it
WAYS_OUT = {
    "2 Magic": "neither pcap nor pcapng. If Wireshark can read it", "6 CutData": "it was cut off", "10 CutBlock": "it was cut off",
    "9 TooLong": "it is too long",
    "15 SecondSection": "it has two sections", "7 TooMany": "it has more than 1,000,000 packets", "14 BlockBody": "it breaks the rules of its format",
    "5 LongRecord": "a packet of more than 262,144 bytes", "16 TimeBack": "reordercap capture capture.sorted.pcap",
}  # fmt: skip
# of each case its steps
CASES = {
    "what is refused is explained": [
        do.run("words"), do.write("plan", "[[station]]\nlne = 8\n"),
        do.run("run plan plan out 3", 3, tells="plan:2: station 0, `lne`: no such key; did you mean `len`? (2 UnknownKey)"), do.write("plan", "[[station]]\n"),
        do.run("run plan plan out 3", tells="docs/FORMATS.md, 'Plans', explains each reason"),
        *(step for reason, way_out in WAYS_OUT.items()
          for step in (do.write("capture", reason + "\n"), do.run("run plan capture out 4", 4, f"capture refused: {reason} at 0", way_out))),
        do.write("schedule", "seats 2 len 4 bypass 0\n0 step 1\n"),
        do.run("trace schedule 7", 7, tells="schedule, line 2: seat 0 can't do step 1 of 1: it is idle: it can begin"),
        do.run("words 2", tells="the manual: man")],
    "a fault and which file": [
        do.run("words"), do.write("plan", ""), do.run("run plan capture out", 5, tells="there is no file capture"), do.write("capture", ""),
        do.run("run plan . out", tells="a folder, not a file: ."), do.run("run plan capture deep/folder/out"), do.has("deep/folder"), do.write("shut", ""),
        do.run("run plan capture shut/folder/out", tells="there is no folder shut/folder"), do.folder("out.3.pcap"),
        do.run("run plan capture out", tells="a folder, not a file: out.3.pcap"), do.remove("out.3.pcap"),
        do.run("run plan capture out", tells="the disk may be full"), do.run("gen 1 2 other/out"), do.has("other"),
        *(do.run(words, tells=parts) for words, parts in (("gen 1 2 shut/out", ["a file or standard output can't be opened", "shut"]),
          ("gen 1 2 out", "the disk may be full"), ("trace schedule", "there is no file schedule"), ("trace plan", "the disk may be full")))],
    "other ends": [
        do.run("words"), *(do.run(f"words {code}", code, silent=True) for code in (0, 4, 7, 8)), do.run("words 6", tells="not enough memory"),
        do.run("words 9", tells="isn't UTF-8")],
    "no folder is made before the words and the inputs are judged": [
        do.run("run plan capture deep/folder/out 2", 2, tells="built in"), do.run("run plan capture deep/folder/out", 5, tells="there is no file plan"),
        do.lacks("deep")],
    "out is a folder": [
        do.run("words"), do.write("plan", ""), do.write("capture", ""),
        *(step for out in ("deep/", "./", ".", "..", "deep/.", "deep/..")
          for step in (do.run(f"run plan capture {out}", 2, tells=f"OUT is the beginning of the outputs' names, and {out} is a folder: write for example {out.removesuffix('/')}/o"),
          do.lacks("**/.?*.pcap", "**/.fates")))],
}  # fmt: skip
cases(CASES)


def test_what_is_found_of_a_capture(lqtx):
    found = "lqtx: capture: 1 of 1 packets (100%) are Linux cooked (SLL), as of tcpdump -i any: no IPv4 header is looked for in them"
    lqtx.run("words")
    lqtx.plans()
    lqtx.write("capture", COOKED_CAPTURE)
    for _ in ("first", "second"):
        lqtx.run("run plan capture out/o", 0, "unit 0 sent one low", found)
    # before anything is built, and once
    lqtx.forget_programs()
    lqtx.run("run plan capture out/o")
    lqtx.check([found in line for line in lqtx.err.splitlines()].index(True) == 0 and lqtx.err.count(found) == 1, "not first, or not once")
    # a capture that is no plan
    lqtx.run("run capture plan out/o", hides=found)
