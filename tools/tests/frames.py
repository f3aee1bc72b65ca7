"""The class of each kind of frame."""
from lib import captures
from tests.bench import capture_of, fault, fault_if, frame
from tests.made_captures import enhanced, interface, section


def test_classes():
    """Each kind of frame, as docs/RULES.md has it."""
    tagged, ipv6 = frame(8, 5, 6, b"\x81\x00\0\1\x08\x00\x45"), frame(8, 5, 6, b"\x86\xdd\x65")
    of = captures.Capture(capture_of(frame(16, 7, 9), tagged, ipv6, frame(16, 7, 9, b"\x08\x00\x65"), frame(16, 7, 9)[:33], tagged[:37], b"", frame(24, 1, 255)))
    found = (list(of.bands), list(of.sources), list(of.routes), of.without_header, list(of.ends[:-1]) == list(of.starts[1:]), of.ends[-1] == len(of.data))
    fault_if(found != ([0, 2, 1, 1, 1, 1, 1, 1], [7, 5, 0, 0, 0, 0, 0, 1], [9, 6, 0, 0, 0, 0, 0, 255], 5, True, True), f"the classes are {found}")
    # the same frames as enhanced blocks of pcapng, of an interface behind one of another link type
    data = (of.data[start + 16 : end] for start, end in zip(of.starts, of.ends))
    ng = captures.Capture(section("<", interface("<", 147), interface("<"), *(enhanced("<", part, 1) for part in data)))
    if (ng.bands, ng.sources, ng.routes, ng.lengths, ng.without_header) != (of.bands, of.sources, of.routes, of.lengths, of.without_header):
        fault(f"the classes of pcapng are {(list(ng.bands), list(ng.sources), list(ng.routes), ng.without_header)}")
    fault_if(captures.Capture(ng.written([5, 0])).bands != bytes([of.bands[5], of.bands[0]]), "pcapng is written otherwise than read")
    for cut in range(1, 50):
        try:
            captures.Capture(of.data[:-cut])
            fault(f"a capture that lacks {cut} bytes is read")
        except captures.Broken:
            pass
