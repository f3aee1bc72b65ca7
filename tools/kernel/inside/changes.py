"""What is changed in a kernel's text on purpose: the places by regular expressions, and no line of a kernel."""
from typing import NamedTuple

from .extract import Change
from .sizes import Size


class Break(NamedTuple):
    """A change of the text, and whether an order of this size goes wrong with it."""

    name: str
    changes: tuple
    values: dict
    is_found: bool


def _break(name, values, is_found, *changes):
    return Break(name, tuple(Change(*change) for change in changes), values, is_found)


_CLEAR_BOTH = r"clear_bit\(__QDISC_STATE_MISSED, &qdisc->state\);\s*clear_bit\(__QDISC_STATE_DRAINING, &qdisc->state\);"
_SET = r"set_bit\([^)]*\);"
NO_BYPASS = {"bypass": 0}
STOP = {"stops": 1, "wakes": 1}
THREE = {"sends": 2, "total": 3, "busy": 1}
STOPPED = {"sends": 2, "total": 2, "stopped": 1, "wakes": 1}
ONE_A_RUN = {"stopped": 1, "wakes": 1, "quota": 1, "bypass": 0}
DOWN = {"downs": 1, "busy": 2}

BREAKS = [
    _break("second-try-left-out", NO_BYPASS, True, ("qdisc_run_begin", r"return spin_trylock", "return 0 && spin_trylock")),
    _break("no-first-try", NO_BYPASS, True, ("qdisc_run_begin", r"if \(spin_trylock\(&qdisc->seqlock\)\)\s*return true;", ";")),
    _break("bits-cleared-after-the-second-look", {}, True, ("pfifo_fast_dequeue", _CLEAR_BOTH, ";"),
           ("pfifo_fast_dequeue", r"return skb;", "if (!need_retry && !skb) { clear_bit(__QDISC_STATE_MISSED, &qdisc->state); clear_bit(__QDISC_STATE_DRAINING, &qdisc->state); } return skb;")),
    _break("missed-tested-before-the-unlock", NO_BYPASS, True, ("qdisc_run_end", r"spin_unlock\(&", "bool was = test_bit(__QDISC_STATE_MISSED, &qdisc->state); spin_unlock(&"),
           ("qdisc_run_end", r"unlikely\(test_bit\([^)]*\)\)", "was")),
    # as in 2018: who finds the lock held leaves no mark
    _break("no-missed", NO_BYPASS, True, ("qdisc_run_begin", r"if \(test_and_set_bit\([^)]*\)\)\s*return false;", ""), ("qdisc_run_begin", r"return spin_trylock\([^)]*\);", "return false;"),
           ("qdisc_run_end", r"unlikely\(test_bit\([^)]*\)\)", "0")),
    _break("no-second-look", {}, True, ("pfifo_fast_dequeue", r"goto retry;", ";")),
    _break("stop-word-not-looked-at-again", STOP, True, ("qdisc_maybe_clear_missed", r"if \(!netif_xmit_frozen_or_stopped\(txq\)\)", "if (0)")),
    _break("no-draining", STOPPED, True, ("qdisc_maybe_clear_missed", r"else\s*set_bit\([^)]*\);", "")),
    _break("bypass-looks-at-missed-alone", STOPPED, True, ("nolock_qdisc_is_empty", "QDISC_STATE_NON_EMPTY", "QDISC_STATE_MISSED")),
    _break("requeue-without-missed", {"busy": 1}, True, ("dev_requeue_skb", _SET, ";")),
    _break("requeue-sets-draining", {"busy": 1}, True, ("dev_requeue_skb", "__QDISC_STATE_MISSED", "__QDISC_STATE_DRAINING")),
    _break("missed-before-the-requeue", {"busy": 1}, False, ("dev_requeue_skb", _SET, ";"),
           ("dev_requeue_skb", r"spinlock_t \*lock = NULL;", "spinlock_t *lock = NULL; set_bit(__QDISC_STATE_MISSED, &q->state);")),
    _break("quota-without-missed", ONE_A_RUN, True, ("__qdisc_run", r"set_bit\([^)]*\)", "(void)0")),
    _break("no-look-under-the-lock", THREE, True, ("__dev_xmit_skb", r"if \(unlikely\(!nolock_qdisc_is_empty\(q\)\)\)", "if (0)")),
    _break("run-end-clears-missed", THREE, True, ("qdisc_run_end", r"unlikely\(test_bit\(", "unlikely(test_and_clear_bit(")),
    _break("no-look-after-a-direct-transmit", {}, False, ("__dev_xmit_skb", r"&&\s*!nolock_qdisc_is_empty\(q\)\)\s*__qdisc_run", "&& 0) __qdisc_run")),
    _break("sched-cleared-after-the-run", {}, True, ("net_tx_action", r"clear_bit\(__QDISC_STATE_SCHED, &q->state\);(\s*(?:to_free = )?qdisc_run\(q\);)", r"\1 clear_bit(__QDISC_STATE_SCHED, &q->state);")),
    _break("missed-kept-where-stopped", STOP, False, ("qdisc_maybe_clear_missed", r"clear_bit\([^)]*\);", ";")),
    _break("wake-without-schedule", STOP, True, ("netif_tx_wake_queue", r"__netif_schedule\(q\);", ";")),
    _break("wake-schedules-before-it-opens", STOP, True, ("netif_tx_wake_queue", r"if \(test_and_clear_bit\(([^)]*)\)\) \{", r"if (netif_tx_queue_stopped(dev_queue)) {"),
           ("netif_tx_wake_queue", r"__netif_schedule\(q\);", "__netif_schedule(q); clear_bit(__QUEUE_STATE_DRV_XOFF, &dev_queue->state);")),
    _break("no-wait-until-nobody-is-busy", DOWN, True, ("dev_deactivate_many", r"while \(some_qdisc_is_busy\(dev\)\)", "while (0)")),
    _break("no-grace-period", DOWN, True, ("dev_deactivate_many", r"synchronize_net\(\);", ";")),
    _break("missed-set-without-a-test", NO_BYPASS, False, ("qdisc_run_begin", r"if \(test_and_set_bit\([^)]*\)\)\s*return false;", "set_bit(__QDISC_STATE_MISSED, &qdisc->state);")),
    _break("sched-tested-before-it-is-set", STOP, False, ("__netif_schedule", r"if \(!test_and_set_bit", "if (!test_bit(__QDISC_STATE_SCHED, &q->state) && !test_and_set_bit")),
    _break("a-schedule-in-place-of-the-second-try", {}, False, ("qdisc_run_begin", r"return spin_trylock\([^)]*\);", "__netif_schedule(qdisc); return false;"),
           ("qdisc_run_begin", r"^static", "void __netif_schedule(struct Qdisc *q); static")),
    _break("bits-cleared-before-the-first-look", {}, False, ("pfifo_fast_dequeue", _CLEAR_BOTH, ";"), ("pfifo_fast_dequeue", r"goto retry;", ";"),
           ("pfifo_fast_dequeue", r"retry:", "clear_bit(__QDISC_STATE_MISSED, &qdisc->state); clear_bit(__QDISC_STATE_DRAINING, &qdisc->state); smp_mb__after_atomic();")),
]


class Order(NamedTuple):
    """A barrier that is left out of the text, or one that is added; where it is searched, by models; `without`: kinds of operations without their order."""

    text: str
    changes: tuple
    runs: tuple  # of (model, values)
    without: int = 0


MODELS = ("x86", "weak")
_BARRIER = r"smp_mb__after_atomic\(\);"
ADDED = Change("net_tx_action", r"(clear_bit\(__QDISC_STATE_SCHED, &q->state\);)(\s*(?:to_free = )?qdisc_run\(q\);)", r"\1 smp_mb__after_atomic();\2")
STOP_ONLY = {**NO_BYPASS, **STOP}
BUSY_ONLY = {**NO_BYPASS, "busy": 1}
IN_MODELS = (NO_BYPASS, {}, BUSY_ONLY, STOP_ONLY)  # where a text is searched in a model of memory, unless a size is named


def _without(text, change, values, added=False, models=("x86", "weak")):
    changes = ((ADDED,) if added else ()) + ((Change(*change),) if change else ())
    return Order(text, changes, tuple((model, values) for model in models))


WHOLE = "the whole text"
ORDERS = [
    Order(WHOLE, (), tuple((model, values) for model in ("x86", "weak") for values in IN_MODELS)),
    Order("with a barrier behind clear_bit(SCHED) of net_tx_action", (ADDED,), (("weak", BUSY_ONLY), ("weak", {"busy": 1}), ("weak", STOP_ONLY))),
    _without("without smp_mb of qdisc_run_end", ("qdisc_run_end", r"smp_mb\(\);", ";"), NO_BYPASS),
    Order("smp_mb of qdisc_run_end before the unlock", (Change("qdisc_run_end", r"smp_mb\(\);", ";"), Change("qdisc_run_end", r"spin_unlock\(&", "smp_mb(); spin_unlock(&")), (("x86", NO_BYPASS), ("weak", NO_BYPASS))),
    _without("without smp_mb__after_atomic of pfifo_fast_dequeue", ("pfifo_fast_dequeue", _BARRIER, ";"), {}),
    _without("smp_mb__after_atomic of pfifo_fast_dequeue before the clears (and with the added one)", ("pfifo_fast_dequeue", r"(?P<clears>clear_bit.*?)smp_mb__after_atomic\(\);", r"smp_mb__after_atomic(); \g<clears>"), {}, added=True, models=("weak",)),
    # in the weak model the whole text leaves a packet where a queue is stopped; so these rows have the barrier that is added
    _without("without smp_mb__after_atomic of qdisc_maybe_clear_missed (and with the added one)", ("qdisc_maybe_clear_missed", _BARRIER, ";"), STOP_ONLY, added=True),
    _without("without smp_wmb of __ptr_ring_produce", ("__ptr_ring_produce", r"smp_wmb\(\);", ";"), NO_BYPASS, models=("weak",)),
    _without("without smp_mb__before_atomic of net_tx_action", ("net_tx_action", r"smp_mb__before_atomic\(\);", ";"), {}, models=("weak",)),
    _without("test_and_set_bit(MISSED) of qdisc_run_begin is relaxed", ("qdisc_run_begin", r"if \(test_and_set_bit\(", "if (test_and_set_bit_relaxed("), NO_BYPASS, models=("weak",)),
    _without("test_and_set_bit(SCHED) of __netif_schedule is relaxed (and with the added one)", ("__netif_schedule", r"test_and_set_bit\(", "test_and_set_bit_relaxed("), STOP_ONLY, added=True, models=("weak",)),
    _without("test_and_clear_bit(DRV_XOFF) of netif_tx_wake_queue is relaxed (and with the added one)",
             ("netif_tx_wake_queue", r"test_and_clear_bit\(", "test_and_clear_bit_relaxed("), STOP_ONLY, added=True, models=("weak",)),
    Order("no bit operation that returns a value is ordered", (), (("x86", NO_BYPASS), ("weak", NO_BYPASS)), 0x20),
    Order("no spin_unlock is a release", (), (("weak", NO_BYPASS),), 0x40),
]


def size_of(values):
    return Size(", ".join(f"{name} {value}" for name, value in values.items()) or "one transmit each", values)
