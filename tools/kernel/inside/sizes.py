"""The sizes of a search: what is compiled, and what may come in an order."""
from typing import NamedTuple

from lib.words import Wrong

# what a text is compiled with and what a search is given, by its world, and their values when nothing is said
COMPILED = {"path": {"seats": 2, "len": 2, "children": 1, "queues": 1, "new_len": 0}, "tap": {"seats": 2, "len": 2, "new_len": 0}}
OPTIONS = {
    "path": {"sends": 1, "bypass": 1, "stops": 0, "wakes": 0, "busy": 0, "quota": 64, "bands": 1, "downs": 0, "lengths": 0, "waiting": 0, "total": 0, "stopped": 0},
    "tap": {"puts": 2, "gets": 2, "batch": 2, "backs": 0, "resizes": 0},
}
MOST = {
    "seats": 4, "len": 32, "children": 2, "queues": 2, "new_len": 32, "sends": 3, "bands": 3, "quota": 64, "bypass": 1, "puts": 3, "gets": 6, "batch": 3,
    "waiting": 32, "total": 12,
}  # fmt: skip
LEAST = {"seats": 1, "len": 1, "children": 1, "queues": 1, "sends": 1, "bands": 1, "quota": 1, "puts": 1, "gets": 1, "batch": 1}


class Size(NamedTuple):
    """What is searched: `world` is `path` or `tap`; `values` are those that differ from when nothing is said; a search stops after `most` states; `models` of
    memory in which it is small enough to be searched, too."""

    text: str
    values: dict
    world: str = "path"
    most: int = 500_000
    models: tuple = ()

    def compiled(self):
        return {name: self.values.get(name, value) for name, value in COMPILED[self.world].items()}

    def options(self):
        return {name: self.values.get(name, value) for name, value in OPTIONS[self.world].items()}

    def named(self):
        """The words by which the size is read."""
        return ("tap," if self.world == "tap" else "") + (",".join(f"{name}={value}" for name, value in self.values.items()) or "sends=1")


BOTH = ("x86", "weak")
STANDARD = [
    Size("one transmit each, no bypass", {"bypass": 0}, models=BOTH),
    Size("one transmit each", {}, models=BOTH),
    Size("bands 0 and 1", {"bands": 2}, models=("x86",)),
    Size("a busy answer", {"busy": 1}, models=BOTH),
    Size("a stop and a wake, no bypass", {"bypass": 0, "stops": 1, "wakes": 1}, models=BOTH),
    Size("a stop and a wake", {"stops": 1, "wakes": 1}),
    Size("two transmits each, no bypass", {"sends": 2, "bypass": 0}, models=("x86",)),
    Size("two transmits each, no bypass, rings of 32", {"sends": 2, "bypass": 0, "len": 32}),
    Size("three transmits, a busy answer", {"sends": 2, "total": 3, "busy": 1}, most=1_500_000),
    Size("two transmits, of one seat or of both, to a queue that is stopped at first, a wake", {"sends": 2, "total": 2, "stopped": 1, "wakes": 1}, most=1_000_000),
    Size("one transmit each to a queue that is stopped at first, a wake, quota 1, no bypass", {"stopped": 1, "wakes": 1, "quota": 1, "bypass": 0}, models=("x86",)),
    Size("32 packets wait in a ring of 32 slots, a wake, no bypass", {"len": 32, "waiting": 32, "wakes": 1, "bypass": 0}),
    Size("a deactivation and an activation", {"downs": 1}, models=("x86",)),
    Size("the same, with a stop and a wake, no bypass", {"downs": 1, "stops": 1, "wakes": 1, "bypass": 0}),
    Size("the same, with two busy answers", {"downs": 1, "busy": 2}),
    Size("a change of the length from 2 to 1", {"lengths": 1, "new_len": 1}),
    Size("the same, with a queue that is stopped at first, a wake, no bypass", {"lengths": 1, "new_len": 1, "stopped": 1, "wakes": 1, "bypass": 0}, models=("x86",)),
    Size("two queues on one discipline, a busy answer", {"queues": 2, "busy": 1}),
    Size("two queues on one discipline, a stop and a wake, no bypass", {"queues": 2, "stops": 1, "wakes": 1, "bypass": 0}),
    Size("two children with a queue each", {"queues": 2, "children": 2}),
    Size("two children, a stop and a wake", {"queues": 2, "children": 2, "stops": 1, "wakes": 1}),
    Size("the ring of a tap: puts, batches, packets given back", {"backs": 1}, "tap", models=BOTH),
    Size("the ring of a tap: the same with a resize from 2 to 1", {"backs": 1, "resizes": 1, "new_len": 1}, "tap", models=BOTH),
]
LARGE = [
    Size("a stop, a wake, a busy answer, quota 1", {"stops": 1, "wakes": 1, "busy": 1, "quota": 1}),
    Size("a stop, two wakes, a busy answer", {"stops": 1, "wakes": 2, "busy": 1}),
    Size("two transmits each", {"sends": 2}),
    Size("two transmits each, a stop and a wake, no bypass", {"sends": 2, "stops": 1, "wakes": 1, "bypass": 0}),
    Size("two transmits each, rings of 32", {"sends": 2, "len": 32}),
    Size("31 packets wait in a ring of 32 slots, a wake", {"len": 32, "waiting": 31, "wakes": 1}),
    Size("three seats, one transmit each, no bypass", {"seats": 3, "bypass": 0}),
    Size("two transmits each and a deactivation, no bypass", {"sends": 2, "bypass": 0, "downs": 1}),
    Size("two queues on one discipline, two transmits each, no bypass", {"sends": 2, "bypass": 0, "queues": 2}),
]


class WrongSize(Wrong):
    """A size that can't be read; the text says why."""


def _value(name, text, known):
    if name not in known:
        raise WrongSize(f"no word of a size: '{name}'; there are {', '.join(known)}")
    low, high = LEAST.get(name, 0), MOST.get(name, 4)
    if not (text.isascii() and text.isdigit() and low <= int(text) <= high):
        raise WrongSize(f"{name} is a number from {low} to {high}, not '{text}'")
    return int(text)


def words_of(world):
    """The words of a size, with their values when nothing is said."""
    return {**COMPILED[world], **OPTIONS[world]}


def read(text):
    """The size that a text like `sends=2,stops=1` is; with `tap` as its first word it is one of the ring of a tap."""
    words = [word for word in text.split(",") if word]
    world = "tap" if words[:1] == ["tap"] else "path"
    values = {}
    for word in words[world == "tap" :]:
        name, equals, value = word.partition("=")
        if not equals:
            raise WrongSize(f"a size is NAME=NUMBER,.., not '{word}'")
        values[name] = _value(name, value, words_of(world))
    size = {**words_of(world), **values}
    for is_wrong, why in (
        (size.get("queues", 1) < size.get("children", 1), "children=2 needs queues=2: each child has a queue"),
        (size.get("waiting") and (size["queues"] > 1 or size["waiting"] > size["len"]), "waiting is of one queue, and no more than its slots, len"),
        (size.get("stopped", 0) > 1, "stopped is 1 where the queue is stopped at first, or 0"),
        (size.get("lengths") and not size["new_len"], "lengths needs new_len, the new length"),
        (size.get("resizes") and not size["new_len"], "resizes needs new_len, the new length"),
    ):
        if is_wrong:
            raise WrongSize(why)
    return Size(text, values, world)
