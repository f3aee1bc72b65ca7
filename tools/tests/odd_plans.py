"""Plans as the program takes them and TOML 1.0 doesn't, and what is no TOML 1.1 either: the reason by which the program refuses each, or none."""

NO, KIND, RANGE, UNKNOWN, ORDER, LIMITS, LINK = "1 NotToml", "4 Kind", "5 Range", "2 UnknownKey", "6 EventOrder", "9 TwoLimits", "10 OneLink"
ODD_PLANS = {
    # a byte order mark, as Notepad of Windows writes it
    b"\xef\xbb\xbf[[station]]\nlen = 5\n": "",
    b"\xef\xbb\xbf\xef\xbb\xbf[[station]]\n": NO,
    b"[[station]]\n\xef\xbb\xbflen = 5\n": NO,
    # inline tables: a last comma, comments, and lines that end before and behind a pair
    b"station = [{len = 5,}]\n": "",
    b"station = [\n  { len = 5, # slots\n    burst = 3,\n  },\n]\nsenders = 2\n": "",
    b"station = [{len = 5\n, burst = 1}]\n": "",
    b"station = [{\n}]\n": "",
    b"station = [{,}]\n": NO,
    b"station = [{len = 5,,}]\n": NO,
    b"station = [{len\n= 5}]\n": NO,
    b"station = [{len = \n5}]\n": NO,
    b"station = [{len = 5,\n\n}]\nlen =\n": NO,
    # escapes
    b'split = "\\x72ound"\n[[station]]\n': "",
    b'split = "\\e"\n[[station]]\n': RANGE,
    b'split = """\\e"""\n[[station]]\n': RANGE,
    b"split = '\\e'\n[[station]]\n": RANGE,
    b'split = "\\\\x72"\n[[station]]\n': RANGE,
    b'split = "\\x7"\n[[station]]\n': NO,
    b'"l\\x65n" = 3\n[[station]]\n': UNKNOWN,
    b'station=[{split = "#{\\e"}]': UNKNOWN,
    # numbers of many digits, and what is nested deeply
    b"senders = " + b"9" * 5000 + b"\n[[station]]\n": NO,
    b"senders = " + b"[" * 80 + b"]" * 80 + b"\n[[station]]\n": KIND,
    b"senders = " + b"[" * 81 + b"]" * 81 + b"\n[[station]]\n": NO,
    b"senders = " + b"[" * 5000 + b"]" * 5000 + b"\n[[station]]\n": NO,
    b"senders = " + b"{a = " * 80 + b"1" + b"}" * 80 + b"\n[[station]]\n": KIND,
    b"senders = " + b"{a = " * 500 + b"1" + b"}" * 500 + b"\n[[station]]\n": NO,
    b"a." * 3000 + b"b = 1\n[[station]]\n": NO,
    # times without seconds
    b"split = 07:32\n[[station]]\n": KIND,
    b"split = 1979-05-27T07:32Z\n[[station]]\n": KIND,
    b"split = 1979-05-27 07:32-07:00\n[[station]]\n": KIND,
    b"split = 24:00\n[[station]]\n": NO,
    # keys and texts of version 4
    b'version = 4\nsplit = "flow"\nspread = "flow"\nirq_us = 1000000\n[[station]]\n': "",
    b"version = 4\nirq_every = 1000\n[[station]]\nmq = 8\n": "",
    b"version = 4\nirq_every = 1\nirq_us = 1\n[[station]]\n": RANGE,
    b'version = 4\nirq_every = 1\nirq_us = "1"\n[[station]]\n': KIND,
    b"version = 4\nirq_us = 0\n[[station]]\n": RANGE,
    b"version = 4\nirq_us = 1000001\n[[station]]\n": RANGE,
    b'version = 4\nspread = "source"\n[[station]]\n': RANGE,
    b"version = 4\n[[station]]\nirq_us = 1\n": UNKNOWN,
    b'version = 3\nsplit = "flow"\n[[station]]\n': RANGE,
    b'version = 3\nspread = "flow"\n[[station]]\n': UNKNOWN,
    b"version = 3\nirq_us = 1\n[[station]]\n": UNKNOWN,
    # keys and texts of version 5
    b"version = 6\n[[station]]\n": RANGE,
    b'version = 5\nclassify = "none"\nirq_us = 9\n[[station]]\n': "",
    b"version = 5\n[[station]]\nrate_kbit = 1000000000\nring = 65536\nbql = 0\ncoalesce_us = 1000000\noverhead = 1000\nmpu = 0\nburst = 1\nbusy_limit = 9\n": "",
    b"version = 5\nsenders = 64\n[[station]]\nrate_kbit = 1\nbql = 1000000000\noverhead = 0\nmpu = 1000\nqueues = 1\nmq = 1\n": "",
    b'version = 4\nclassify = "tos"\n[[station]]\n': UNKNOWN,
    b"version = 4\n[[station]]\nmpu = 84\n": UNKNOWN,
    b"version = 5\nclassify = 0\n[[station]]\n": KIND,
    b'version = 5\n[[station]]\nrate_kbit = "1gbit"\n': KIND,
    **{f"version = 5\n[[station]]\nrate_kbit = {rest}\n".encode(): RANGE for rest in (
        "0", "1000000001", "1\nring = 0", "1\nring = 65537", "1\nbql = 1000000001", "1\ncoalesce_us = 1000001", "1\noverhead = 1001", "1\nmpu = -1", "1\nburst = 0",
        "1\nbusy_every = 1")},
    b"version = 5\nirq_every = 1\n[[station]]\nrate_kbit = 1\n": RANGE,
    b"version = 5\n[[station]]\n[[station]]\nbql = 0\n": RANGE,
    # the least reason counts: EventOrder comes before the two of a link
    b'version = 5\n[[station]]\nrate_kbit = 1\nring = 1\nbql = 1\nqueues = 2\n': LIMITS,
    b'version = 5\n[[station]]\nrate_kbit = 1\nring = 1\nbql = 1\n[[event]]\nbefore = 1\nkind = "up"\nstation = 0\n': ORDER,
    b"version = 5\n[[station]]\nrate_kbit = 1\nqueues = 2\n": LINK,
    b"version = 5\n[[station]]\nrate_kbit = 1\nmq = 8\n": LINK,
    b"version = 5\n[[station]]\nrate_kbit = 1\n[[station]]\nrate_kbit = 1\n": LINK,
    b"version = 5\n[[station]]\nrate_kbit = 1\nmq = 8\n[[station]]\n": RANGE,
}
