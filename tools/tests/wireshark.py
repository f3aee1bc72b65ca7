"""A stand-in for editcap and mergecap, where Wireshark's programs aren't: for the words that tools/lib/ways_out.py gives these."""
import getopt
import os
import pathlib
import shutil
import sys

from lib import captures
from lib.times import moments_of
from tests.made_captures import classic, enhanced, interface, section

TOOLS = pathlib.Path(__file__).resolve().parent.parent


def put(folder):
    """Puts the programs into a folder that aren't installed; with STAND_IN both."""
    for name in ("editcap", "mergecap"):
        if os.environ.get("STAND_IN") or not shutil.which(name):
            (folder / name).write_text(f'#!/bin/sh\nPYTHONPATH={TOOLS} exec {sys.executable} -B -m tests.wireshark "$@"\n', encoding="utf-8")
            (folder / name).chmod(0o755)


def whole_of(data):
    """The captures of a file's sections, without what is cut off at its end."""
    try:
        return [captures.Capture(data)]
    except captures.Broken as fault:
        end = int(str(fault).rpartition(" ")[2])
        return [captures.Capture(data[:end]), *(whole_of(data[end:]) if fault.reason == 15 else [])]


def rows_of(capture, most):
    """The time, the frame, of at most so many bytes, and the link type of each packet."""
    for time, at, captured, link in zip(moments_of(capture), capture.frames, capture.captured, capture.types):
        yield time, capture.data[at : at + min(captured, most)], link


def text_of(rows, form):
    times, frames, links = zip(*rows)
    known = list(dict.fromkeys(links))
    if form != "pcapng" and len(known) > 1:
        sys.exit("files of this type can't have several link types")
    if form != "pcapng":
        return classic(times, frames, is_nano=form == "nsecpcap", link=known[0])
    return section("<", *(interface("<", link) for link in known), *(enhanced("<", frame, known.index(link), time // 1000) for time, frame, link in rows))


def main(given):
    options, names = getopt.getopt(given, "F:s:c:w:")
    how = dict(options)
    source, made = names if "-w" not in how else (names[0], how["-w"])
    rows = [row for capture in whole_of(pathlib.Path(source).read_bytes()) for row in rows_of(capture, int(how.get("-s", 2**18)))]
    if "-c" not in how:
        pathlib.Path(made).write_bytes(text_of(rows, how["-F"]))
        return
    (stem, _, end), many = made.rpartition("."), int(how["-c"])
    for part, at in enumerate(range(0, len(rows), many)):
        pathlib.Path(f"{stem}_{part:05}_20260101000000.{end}").write_bytes(text_of(rows[at : at + many], how["-F"]))


if __name__ == "__main__":
    main(sys.argv[1:])
