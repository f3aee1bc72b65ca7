"""Plans, and what is wrong with them."""
import re

from lib import plans
from tests.bench import HERE, ROOM, TOP, expect, fault, fault_if, run
from tests.odd_plans import ODD_PLANS

# what is written most often by mistake: the least reason, and a part of what is said
PLANS = {
    "": ("3 Missing", "the top, `station`: it is missing"),
    "[[station]]\nlen =\n": ("1 NotToml", ":2: the text:"),
    "[[station]]\nirq_every = 4\n": ("2 UnknownKey", ":2: station 0, `irq_every`: no such key; it is a key of the top"),
    "[[stations]]\n": ("2 UnknownKey", ":1: the top, `stations`: no such key; did you mean `station`?"),
    "[[station]]\n[[station]]\nbusy-every = 3\n": ("2 UnknownKey", ":3: station 1, `busy-every`: no such key; did you mean `busy_every`?"),
    "[[station]]\nqueues = 2\n": ("2 UnknownKey", "it needs `version = 2` at the top"),
    "[[station]]\n[[event]]\nbefore = 1\nkind = \"down\"\nstation = 0\nlen = 2\n": ("2 UnknownKey", ":6: event 0, `len`: no such key; an event of kind \"down\" doesn't have it"),
    "[[station]]\n[[event]]\nbefore = 1\nkind = \"resize\"\nstation = 0\nburst = 2\n": ("2 UnknownKey", "event 0, `len`: it is missing"),
    "[[station]]\n[[event]]\nkind = \"up\"\n": ("3 Missing", ":2: event 0, `before`: it is missing: a whole number from 0 to 1000000"),
    "[station]\n": ("4 Kind", "a second pair of brackets is missing"),
    "[[station]]\nburst = \"8\"\n": ("4 Kind", ":2: station 0, `burst`: \"8\" isn't a whole number from 0 to 1000000"),
    "[[station]]\nbypass = 1\n": ("4 Kind", "1 isn't true or false"),
    "[[station]]\nlen = 0\n": ("5 Range", "0 isn't a whole number from 1 to 4096"),
    "version = 6\n[[station]]\n": ("5 Range", "there are the versions 1, 2, 3, 4, 5"),
    "version = 4\n[[station]]\nrate_kbit = 8000\n": ("2 UnknownKey", ":3: station 0, `rate_kbit`: no such key; it needs `version = 5` at the top"),
    "version = 4\nclassify = \"none\"\n[[station]]\n": ("2 UnknownKey", ":2: the top, `classify`: no such key; it needs `version = 5` at the top"),
    "version = 5\nclassify = \"never\"\n[[station]]\n": ("5 Range", ":2: the top, `classify`: \"never\" isn't one of \"tos\", \"none\""),
    "version = 5\nrate_kbit = 8000\n[[station]]\n": ("2 UnknownKey", ":2: the top, `rate_kbit`: no such key; it is a key of a station"),
    "version = 5\nirq_us = 9\n[[station]]\nrate_kbit = 8000\n": ("5 Range", ":2: the top, `irq_us`: the card of station 0 opens the queue"),
    "version = 5\n[[station]]\nring = 8\n": ("5 Range", ":3: station 0, `ring`: it is of a card: it needs `rate_kbit` beside it"),
    "version = 5\n[[station]]\nrate_kbit = 8000\nburst = 2\n": ("5 Range", ":4: station 0, `burst`: beside `rate_kbit` it is 1"),
    "version = 5\n[[station]]\nrate_kbit = 8000\nbusy_every = 2\n": ("5 Range", ":4: station 0, `busy_every`: it is 0 beside `rate_kbit`"),
    "version = 5\n[[station]]\nrate_kbit = 8000\noverhead = 0\nmpu = 0\n": ("5 Range", ":5: station 0, `mpu`: a frame without bytes takes no time"),
    "version = 5\n[[station]]\nrate_kbit = 8000\n[[event]]\nbefore = 1\nkind = \"swap\"\nstation = 0\n": ("5 Range", ":6: event 0, `kind`: no \"swap\" of a card's device, which station 0 has"),
    "version = 5\n[[station]]\nrate_kbit = 8000\nring = 8\nbql = 3000\n": ("9 TwoLimits", ":5: station 0, `bql`: beside `ring` it is 0"),
    "version = 5\n[[station]]\n[[station]]\nrate_kbit = 8000\n": ("10 OneLink", ":4: station 1, `rate_kbit`: a plan with a link has one station, and not 2"),
    "version = 5\n[[station]]\nrate_kbit = 8000\nmq = 2\n": ("10 OneLink", ":4: station 0, `mq`: it is 1 beside `rate_kbit`: a link has one queue"),
    "[[station]]\nmq = 2\n": ("2 UnknownKey", ":2: station 0, `mq`: no such key; it needs `version = 3` at the top"),
    "version = 2\n[[station]]\nmq = 1\n": ("2 UnknownKey", ":3: station 0, `mq`: no such key; it needs `version = 3` at the top"),
    "version = 3\n[[station]]\nmq = 9\n": ("5 Range", ":3: station 0, `mq`: 9 isn't a whole number from 1 to 8"),
    "version = 3\n[[station]]\nmq = true\n": ("4 Kind", "true isn't a whole number from 1 to 8"),
    "version = 3\n[[station]]\nmq = 6\n[[station]]\nmq = 3\n": ("5 Range", "the top, `station`: 9 children in all are more than 8"),
    "version = 3\n[[station]]\nmq = 2\nqueues = 2\n": ("5 Range", ":4: station 0, `queues`: it is 1 beside an `mq` above 1"),
    "version = 3\n[[station]]\n[[station]]\nmq = 2\n[[event]]\nbefore = 1\nkind = \"swap\"\nstation = 1\n": ("5 Range", ":7: event 0, `kind`: no \"swap\" at station 1, which has 2 children on one device"),
    "split = \"owner\"\n[[station]]\n": ("5 Range", "\"owner\" isn't one of \"round\", \"source\" (5"),
    "version = 4\nsplit = \"flaw\"\n[[station]]\n": ("5 Range", "\"flaw\" isn't one of \"round\", \"source\", \"flow\"; did you mean \"flow\"?"),
    "split = \"flow\"\n[[station]]\n": ("5 Range", "with `version = 4` at the top it may be"),
    "version = 4\nspread = \"source\"\n[[station]]\n": ("5 Range", ":2: the top, `spread`: \"source\" isn't one of \"bytes\", \"flow\""),
    "version = 3\nspread = \"flow\"\n[[station]]\n": ("2 UnknownKey", ":2: the top, `spread`: no such key; it needs `version = 4` at the top"),
    "version = 4\nirq_us = 1000001\n[[station]]\n": ("5 Range", "1000001 isn't a whole number from 1 to 1000000"),
    "version = 4\nirq_every = 4\nirq_us = 100\n[[station]]\n": ("5 Range", ":3: the top, `irq_us`: it is used in place of `irq_every`: a plan has one of the two"),
    "irq_us = 100\n[[station]]\n": ("2 UnknownKey", ":1: the top, `irq_us`: no such key; it needs `version = 4` at the top"),
    "version = 4\n[[station]]\nirq_us = 100\n": ("2 UnknownKey", ":3: station 0, `irq_us`: no such key; it is a key of the top"),
    "station = []\n": ("5 Range", "an array of 0 isn't 1 to 8 tables"),
    "senders = 16\n[[station]]\n": ("5 Range", "with `version = 2` at the top it may be"),
    "[[station]]\nlen = 20\nmax_len = 10\n": ("5 Range", ":3: station 0, `max_len`: 10 isn't a whole number from 20 to 4096; `max_len` is at least `len`"),
    "[[station]]\n[[event]]\nbefore = 1\nkind = \"resize\"\nstation = 0\nlen = 2000\n": ("5 Range", "its station needs a `max_len` of at least so much"),
    "[[station]]\n[[event]]\nbefore = 1\nkind = \"up\"\nstation = 0\n": ("6 EventOrder", ":2: event 0: station 0 is active"),
    "[[station]]\n[[event]]\nbefore = 9\nkind = \"down\"\nstation = 0\n[[event]]\nbefore = 8\nkind = \"up\"\nstation = 0\n": ("6 EventOrder", "8 comes after 9"),
    "[[station]]\nlen = 0\nlne = 8\n": ("2 UnknownKey", "did you mean `len`?"),
}


def test_check_plan():
    for text, (reason, part) in PLANS.items():
        file = ROOM / "plan.toml"
        file.write_text(text, encoding="utf-8")
        said = run(HERE / "check-plan", file)
        expect(f"check-plan {text!r}", said, 3, part)
        fault_if(not said[1].splitlines()[0].endswith(f"({reason})"), f"check-plan {text!r}: the first line isn't of {reason}: {said[1]!r}")
    told = plans.plan_of({"station": [{"rate_kbit": 8000}]}).station[0]
    fault_if((told.burst, told.card) != (1, plans.Card(8000, 256, None, 0, 24, 84)), f"a station with a rate alone is {told}")
    for file in sorted((TOP / "examples").glob("*.toml")):
        expect(f"check-plan {file.name}", run(HERE / "check-plan", file), 0, "accepted: ")
    (ROOM / "plan.toml").write_text("[[station]]\n" * 8 + "[[event]]\nbefore = 1\nkind = \"swap\"\nstation = 0\n" * 9, encoding="utf-8")
    expect("check-plan, many devices", run(HERE / "check-plan", ROOM / "plan.toml"), 3, "it needs 17 devices, and there are 16")
    (ROOM / "plan.toml").write_text("version = 3\nsenders = 64\n[[station]]\nmq = 5\nqueues = 1\n[[station]]\nmq = 1\nqueues = 8\n[[event]]\nbefore = 1\nkind = \"swap\"\nstation = 1\n", encoding="utf-8")
    expect("check-plan, a group", run(HERE / "check-plan", ROOM / "plan.toml"), 0, "accepted: 2 stations with 6 children, 7 devices, 1 events, 64 senders")
    (ROOM / "plan.toml").write_bytes(b"# \xff\n")
    expect("check-plan, other bytes", run(HERE / "check-plan", ROOM / "plan.toml"), 3, ":1: the text: it isn't UTF-8 (1 NotToml)")
    expect("check-plan, no file", run(HERE / "check-plan", ROOM / "none"), 1, "No such file")


def test_keys_of_a_plan():
    """Each key of the tables of docs/FORMATS.md is a row of tools/lib/plans.py, and the other way round."""
    page = (TOP / "docs/FORMATS.md").read_text(encoding="utf-8")
    rows = re.findall(r"^\| ((?:station |event )?)((?:`\w+`(?:, )?)+) \|", page[page.index("## Plans") : page.index("If several reasons apply")], re.M)
    told = {(section.strip(), name) for section, names in rows for name in re.findall(r"`(\w+)`", names)}
    known = {(section, key.name) for section, keys in plans.TABLES.items() for key in keys}
    for section, name in told ^ known:
        fault(f"the key {name} of {section or 'the top'} isn't both in docs/FORMATS.md and in tools/lib/plans.py")


def test_odd_plans():
    """What the program takes, the tools take: a byte order mark, and TOML 1.1. `tools/compare` asks the program."""
    for data, reason in ODD_PLANS.items():
        _, faults = plans.judge(data)
        found = f"{faults[0].reason} {plans.REASONS[faults[0].reason]}" if faults else ""
        fault_if(found != reason, f"the plan {data!r}: {found!r}, not {reason!r}")
    _, faults = plans.judge(b"station = [{len = 5, # slots\n\n}]\nlen =\n")
    fault_if(faults[0].line != 4, f"a fault behind an inline table is said to be in line {faults[0].line}, and not 4")
    file = ROOM / "marked.toml"
    file.write_bytes(b"\xef\xbb\xbfsenders = 2\nstation = [{len = 5,\n},]\n")
    expect("check-plan, a byte order mark", run(HERE / "check-plan", file), 0, "accepted: 1 stations, 1 devices, 0 events, 2 senders")
    said = run(HERE / "sweep", file, TOP / "examples/loopback.pcap", "station.0.len=0..1", ROOM / "marked.csv", "--program", "/bin/true")
    expect("sweep, a byte order mark", said, 1, "with station.0.len=0: station 0, `len`: 0 isn't a whole number")
