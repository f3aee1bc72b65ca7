"""No output is an input, and what isn't as a call left it is overwritten only with --force."""
import itertools
import os
import shutil
import subprocess

from tests.wrapper.bench import EMPTY_CAPTURE

# how an output is made that is an input: the file that the input is named by, where it isn't the input itself, and what the outputs' names begin with
WAYS = {
    "a link": ("", "x"), "a link to a link": ("", "x"), "a hard link": ("", "x"), "itself": ("{output}", "x"), "a link of the input's": ("kept/{input}", "x"),
    "the whole path": ("{here}/./{output}", "x"), "a folder and back": ("{output}", "kept/../x"), "a folder that isn't there": ("{output}", "new/../x"),
    "a deep folder that isn't there": ("{output}", "new/deep/../../x"), "a link to the folder": ("way/{output}", "x"),
    "a link to the folder, for the output": ("{output}", "way/x"), "a file that is open": ("/dev/fd/8", "x"), "a bind mount": ("kept/{output}", "x"),
}  # fmt: skip
# of each row the output, the input, and the option
ROWS = ["x.0.pcap capture", "x.mq7.pcap capture", "x.15.pcap plan", "x.fates plan", "x.unproved.0.pcap capture --unproved", "x.unproved.fates plan --unproved"]


def make_one_file(lqtx, output, of, way):
    """Makes the output that is the input, by one way."""
    lqtx.remove("x.*", "kept", "way", "new")
    (lqtx.here / "kept").mkdir()
    if way == "a link":
        (lqtx.here / output).symlink_to(of)
    elif way == "a link to a link":
        (lqtx.here / "kept/link").symlink_to(f"../{of}")
        (lqtx.here / output).symlink_to("kept/link")
    elif way == "a hard link":
        os.link(lqtx.here / of, lqtx.here / output)
    else:
        shutil.copy(lqtx.here / of, lqtx.here / output)
        if way == "a link of the input's":
            (lqtx.here / "kept" / of).symlink_to(f"../{output}")
        elif way.startswith("a link to the folder"):
            (lqtx.here / "way").symlink_to(".")


def try_one_file(lqtx, row, way):
    """A call with an output that is an input: it ends with 2, says a line and changes no file."""
    output, of, *option = row.split()
    make_one_file(lqtx, output, of, way)
    kept, is_mounted = lqtx.here / "kept", way == "a bind mount"
    if is_mounted and subprocess.run(["mount", "--bind", lqtx.here, kept], stderr=subprocess.DEVNULL).returncode:
        return
    named = WAYS[way][0].format(output=output, input=of, here=lqtx.here)
    inputs = {"plan": "plan", "capture": "capture"} | ({of: named} if named else {})
    lqtx.name = f"no output is an input: {option} {output} is the {of}, by {way}"
    # a shell opens the file whose number is a name
    words = ["exec", "8<" + output, ";"] * (way == "a file that is open") + [f"'{lqtx.repo}/lqtx'", *option, "run", *inputs.values(), WAYS[way][1]]
    said = subprocess.run(" ".join(words).replace(" ;", ";"), shell=True, cwd=lqtx.here, env=lqtx.env, stdin=subprocess.DEVNULL, capture_output=True, text=True)
    if is_mounted:
        subprocess.run(["umount", kept], check=True)
    lqtx.code, lqtx.out, lqtx.err = said.returncode, said.stdout, said.stderr
    lqtx.judge(2, "", [" is an input", "the outputs need another name"])
    lqtx.check(lqtx.err.count("\n") == 1, "not one line")
    texts = {"plan": "writes", "capture": "a capture"}
    lqtx.check(texts | {output: texts[of]} == {name: lqtx.read(name) for name in (*texts, output)}, "a file has changed")
    lqtx.check(not (lqtx.here / "new").exists(), "made a folder")


def test_no_output_is_an_input(lqtx):
    lqtx.run("words")
    lqtx.write("plan", "writes\n")
    lqtx.write("capture", "a capture")
    lqtx.run("--unproved run plan capture y")
    for way, row in itertools.product(WAYS, ROWS):
        try_one_file(lqtx, row, way)
    lqtx.remove("x.*", "kept", "way")
    for output, prefix in itertools.product(("x.pcap", "x.fates"), ("x", "new/../x")):
        lqtx.name = f"no output is an input: tap writes {output} by {prefix}"
        lqtx.write(output, "a capture")
        lqtx.run(f"tap 1 4 4 {output} {prefix}", 2, tells=f"{output} is an input")
        lqtx.holds(output, "a capture")
        lqtx.remove(output)


def test_no_output_is_an_input_or_another_output_of_other_words(lqtx):
    """Before anything is built, and without a proof; numbers aren't inputs, and other files aren't outputs."""
    lqtx.write("plan", "[[station]]\n")
    for name in ("capture", "x.0.pcap", "x.16.pcap"):
        lqtx.write(name, "a capture")
    lqtx.run("run plan x.0.pcap x", 2)
    lqtx.run("--unproved run plan capture here/", 2, tells="here/ is a folder: write for example here/o")
    lqtx.calls()
    lqtx.remove("x.0.pcap")
    lqtx.run("words")
    lqtx.write("1", "")
    lqtx.run("run plan x.16.pcap x", 5)
    lqtx.run("gen 1 2 1", 5)
    lqtx.write("x.fates", "")
    os.link(lqtx.here / "x.fates", lqtx.here / "x.0.pcap")
    lqtx.run("run plan capture x", 2, tells="x.fates and x.0.pcap are one file")


def test_no_output_is_an_input_where_a_name_of_another_case_is_the_same_file(lqtx):
    """On a file system of FUSE that makes no difference, where there is one."""
    if not all(map(shutil.which, ("mkfs.exfat", "mount.exfat-fuse", "losetup"))):
        return
    caseless = lqtx.here / "caseless"
    caseless.mkdir()
    mount = "truncate -s 8M image && mkfs.exfat image && device=$(losetup -f --show image) && mount.exfat-fuse $device caseless; [ -z $device ] || losetup -d $device; mountpoint -q caseless"
    if subprocess.run(mount, shell=True, cwd=lqtx.here, capture_output=True).returncode:
        return
    lqtx.run("words")
    lqtx.write("plan", "writes\n")
    try:
        for row, option in itertools.product(("X.0.PCAP run plan caseless/X.0.PCAP caseless/x", "X.FATES run caseless/X.FATES capture caseless/x",
            "T.PCAP tap 1 4 4 caseless/T.PCAP caseless/t"), ("", "--force ")):
            output, _, words = row.partition(" ")
            lqtx.write(caseless / output, "a capture")
            lqtx.run(option + words, 2, tells=f" is an input, caseless/{output}: the outputs need another name")
            lqtx.holds(caseless / output, "a capture")
            lqtx.remove("caseless/*")
    finally:
        subprocess.run(["umount", caseless], check=True)


# a program that writes what a command writes
WRITES = """#!/bin/sh
case $1 in
    run) out=$4; head -c 40 capture >"$out.0.pcap"; echo "0 sent 0 0" >"$out.fates" ;;
    gen) head -c 40 capture >"$4" ;;
    tap) out=$6; head -c 40 capture >"$out.pcap"; echo "0 read 0" >"$out.fates" ;;
esac
"""
# how an output comes to be another than a call left
OTHERS = {
    "the user's": "cp mine {}", "an earlier time": "touch -d @0 {}", "changed in place": "echo more >>{}",
    "a copy with its time": "cp -p {0} other && cp -p other {0}.new && mv {0}.new {0}",
    "another file's link": "cp mine other && ln -f other {}", "a link to another file": 'cp mine other && rm {0} && ln -s "$PWD/other" {0}',
}  # fmt: skip
# of each call the output that is changed
CALLS = {
    "run plan capture o": "o.0.pcap", "run plan capture deep/o": "deep/o.fates", "run plan capture way/p": "way/p.fates", "tap 1 4 4 capture t": "t.pcap",
    "tap 1  4 4 capture t": "t.fates", "gen 1 0 g": "g",
}  # fmt: skip


def writing_program(lqtx):
    lqtx.run("words")
    lqtx.replace_programs(WRITES)
    lqtx.write("plan", "[[station]]\n")
    lqtx.write("capture", EMPTY_CAPTURE)
    lqtx.write("mine", EMPTY_CAPTURE)
    (lqtx.here / "deep").mkdir()
    (lqtx.here / "way").symlink_to("deep")


def test_an_output_that_is_not_as_a_call_left_it_is_overwritten_only_with_force(lqtx):
    writing_program(lqtx)
    for words, output in CALLS.items():
        lqtx.remove("t.*")
        for _ in ("first", "second"):
            lqtx.run(words, 0, silent=True)
        for kind, how in OTHERS.items() if output == "o.0.pcap" else [*OTHERS.items()][:1]:
            lqtx.name = f"{output} is {kind}: {words}"
            lqtx.run(f"--force {words}", 0)
            lqtx.remove("other")
            subprocess.run(how.format(output), shell=True, cwd=lqtx.here, check=True)
            before = (lqtx.here / output).read_bytes()
            lqtx.run(words, 2, "", f"{output} is there, and wasn't left so by an earlier call: --force overwrites it")
            lqtx.check((lqtx.here / output).read_bytes() == before, "overwritten")
            lqtx.run(f"--force {words}", 0, silent=True)
            lqtx.run(words, 0, silent=True)


def test_outputs_that_are_there(lqtx):
    """Of several all are named; those of units that the plan doesn't have, or this run hasn't, stay; an empty file has nothing to lose."""
    writing_program(lqtx)
    mine = (lqtx.here / "mine").read_bytes()

    def put(*names):
        lqtx.remove("o.*", "new")
        for name in names:
            lqtx.write(name, mine)

    def stays(name):
        lqtx.check((lqtx.here / name).read_bytes() == mine, f"{name} is overwritten")

    put("o.0.pcap", "o.fates")
    lqtx.run("run plan capture o", tells="o.0.pcap, o.fates are there, and weren't left so by an earlier call: --force overwrites them")
    # a folder that is made meanwhile
    put("o.0.pcap")
    for prefix in ("new/../o", "new/deep/../../o"):
        lqtx.run(f"run plan capture {prefix}", 2)
        stays("o.0.pcap")
    put("o.1.pcap", "o.2.pcap")
    lqtx.run("run plan capture o", 0, silent=True)
    stays("o.1.pcap")
    lqtx.write("e.fates", "")
    lqtx.run("run plan capture e", 0)
    put()
    lqtx.run("run plan capture o")
    lqtx.write("o.1.pcap", mine)
    lqtx.run("--force run plan capture o", 0)
    stays("o.1.pcap")
