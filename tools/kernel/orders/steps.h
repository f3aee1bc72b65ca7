/* steps.h: the steps of the lockless qdisc of Linux 6.1, one atomic access each, beside the kernel's calls.
 *
 * step() is what a processor (a seat) does next: its position says what. It stores what the access stores, and names with to() where
 * it goes on and what happened, in words; it answers 0 where it has to wait. A comment behind `case` says what the step does, and behind
 * the colon what the kernel has there; a line of dashes names the function. The proved text of the same steps is
 * crates/lq_model/specs/Steps.antt and Control.antt. tools/kernel/explore searches all orders of these steps, tools/compare compares them with
 * `lqtx trace`, tools/lib/machine.py is made of them, and tools/make-play makes docs/play.html from them: both read simple C, so use no other
 * forms than those below.
 *
 * To try a change of yours: copy this file, change the copy, and run tools/kernel/explore --steps COPY. An access that isn't atomic in your
 * change is two positions. An edit of one line may have a name in edits.txt. */
#define NON_EMPTY(q) (q->MISSED || q->DRAINING)

/* ---- qdisc_run_begin(), include/net/sch_generic.h ---- */
static int run_begins(struct qdisc *q, struct seat *s, const char *words)
{
    s->run = 0;
    if (QUEUES > 1 && !q->gso_skb) return to(s, SCAN0, words);          /* dequeue_skb() looks at a stop word of one queue only */
    return to(s, DEQ, words);
}
static int gets_lock(struct qdisc *q, struct seat *s, const char *words)
{
    q->seqlock = 1;
    if (s->how == DIRECT) return to(s, RECHECK, words);
    s->how = QUEUED;
    return run_begins(q, s, words);
}
static int gives_up(struct seat *s, const char *words)
{
    if (s->how == DIRECT) { s->how = QUEUED; return to(s, PUT, words); }
    forget(s);
    return to(s, LEAVE, words);
}

/* ---- qdisc_run_end(), include/net/sch_generic.h ---- */
static int ends_run(struct qdisc *q, struct seat *s, const char *words)
{
    (void)q;            /* of use to a change of yours */
    forget(s);
    return to(s, UNLOCK, words);
}
static int ends_call(struct seat *s, const char *words)
{
    int at = s->how == WAKER && !WAITS ? IDLE : LEAVE;
    forget(s);
    return to(s, at, words);
}

/* ---- sch_direct_xmit(), dev_requeue_skb(), net/sched/sch_generic.c ---- */
static int after_sent(struct qdisc *q, struct seat *s, const char *words)
{
    s->queue = s->hung = 0;
    if (s->how == DIRECT) { s->how = QUEUED; return to(s, POST, words); }
    if (QUOTA) s->run = s->run + 1;
    if (QUOTA && s->run == QUOTA) { s->run = 0; return to(s, OVER, words); }
    if (QUEUES > 1 && !q->gso_skb) return to(s, SCAN0, words);
    return to(s, DEQ, words);
}
static int requeues(struct qdisc *q, struct seat *s, const char *words)
{
    if (q->gso_skb) return lost("a second packet is requeued: the slot has room for one; Linux's gso_skb is a list, which loses none, but their order");
    slot_put(q, s);
    q->hand = 0;
    forget(s);
    return to(s, AGAIN, words);
}
static int blocked(struct qdisc *q, struct seat *s, const char *words)
{
    if (s->taken) return requeues(q, s, words);
    return ends_run(q, s, words);
}

static int step(struct qdisc *q, struct seat *s, int answer)
{
    switch (s->at) {

    /* ---- __dev_xmit_skb(), net/core/dev.c ---- */
    case ENTER:         /* counts the call as inside: rcu_read_lock_bh(), or a soft interrupt begins */
        q->inside = q->inside + 1;
        if (s->how == INTERRUPT) return to(s, SOFT, "comes in");
        if (q->noop) { forget(s); return to(s, LEAVE, "finds noop_qdisc, which drops the packet"); }
        return to(s, CHECK, "comes in");
    case CHECK:         /* loads the state: nolock_qdisc_is_empty(q) */
        if (q->DEACTIVATED && !WAITS) { forget(s); return to(s, LEAVE, "loads the state: deactivated, the packet is refused"); }
        if (BYPASS && !NON_EMPTY(q)) { s->how = DIRECT; return to(s, TRY1, "loads the state: both bits clear"); }
        return to(s, PUT, "loads the state: the packet goes to its band");
    case PUT:           /* puts the packet into its band: pfifo_fast_enqueue(), ptr_ring_produce() */
        if (answer == PLAIN) {
            if (q->ring[s->band].held >= LEN) return 0;
            ring_put(q, s);
        } else if (q->ring[s->band].held + BATCH < LEN) return 0;
        s->band = s->queue = 0;
        if (s->found) { s->found = 0; return run_begins(q, s, answer == PLAIN ? "puts {packet} into band {band}, with the lock" : "finds its band full, with the lock"); }
        return to(s, TRY1, answer == PLAIN ? "puts {packet} into band {band}" : "finds its band full");

    /* ---- qdisc_run_begin(), include/net/sch_generic.h ---- */
    case TRY1:          /* tries the run lock: spin_trylock(&qdisc->seqlock) */
        if (q->seqlock) return to(s, MISS, "tries the lock: held");
        return gets_lock(q, s, "gets the lock");
    case MISS:          /* sets MISSED: test_and_set_bit(__QDISC_STATE_MISSED, &qdisc->state) */
        if (q->MISSED) return gives_up(s, "finds MISSED set, and goes");
        q->MISSED = 1;
        return to(s, TRY2, "sets MISSED");
    case TRY2:          /* tries the run lock again: spin_trylock(&qdisc->seqlock) */
        if (q->seqlock) return gives_up(s, "tries the lock again: held");
        return gets_lock(q, s, "tries the lock again: gets it");

    /* ---- __dev_xmit_skb(), net/core/dev.c ---- */
    case RECHECK:       /* loads the state under the lock: nolock_qdisc_is_empty(q) */
        if (NON_EMPTY(q)) { s->how = QUEUED; s->found = 1; return to(s, PUT, "loads the state under the lock: a bit is set"); }
        s->band = 0;
        q->hand = 1;
        return to(s, GATE, "loads the state under the lock: both bits clear");

    /* ---- sch_direct_xmit(), net/sched/sch_generic.c ---- */
    case GATE:          /* loads the stop word: netif_xmit_frozen_or_stopped(txq) */
        if (q->xoff[s->queue]) { s->how = QUEUED; s->run = 0; s->taken = 1; return to(s, CCLEAR, "loads the stop word: not open"); }
        return to(s, XMIT, "loads the stop word: open");
    case XMIT:          /* hands the packet to the device: dev_hard_start_xmit() */
        if (q->xoff[s->queue]) return lost("the device is called while its queue is stopped");
        if (answer == BUSY) return requeues(q, s, "finds the device busy: {packet} goes to the requeue slot");
        q->hand = 0;
        if (answer == STOPS) return to(s, STOP, "sends {packet}: the device stops");
        if (answer == HANGS) { s->queue = 0; s->hung = 1; return to(s, STOP, "sends {packet}: the device hangs"); }
        return after_sent(q, s, "sends {packet}");
    case STOP:          /* stores the stop word: netif_tx_stop_queue(txq), of the driver */
        if (s->hung) {
            q->xoff[s->queue] = 2;
            if (s->queue + 1 < QUEUES) { s->queue = s->queue + 1; return to(s, STOP, "stores 2 in a stop word"); }
            return after_sent(q, s, "stores 2 in the stop word");
        }
        q->xoff[s->queue] = 1;
        return after_sent(q, s, "stores 1 in the stop word");
    case AGAIN:         /* sets MISSED behind the requeue: set_bit(__QDISC_STATE_MISSED, &q->state), in dev_requeue_skb() */
        q->MISSED = 1;
        return ends_run(q, s, "sets MISSED");
    case POST:          /* loads the state after a packet that went past the bands: nolock_qdisc_is_empty(q) */
        if (NON_EMPTY(q)) return run_begins(q, s, "loads the state: a bit is set");
        return ends_run(q, s, "loads the state: both bits clear");

    /* ---- dequeue_skb(), net/sched/sch_generic.c ---- */
    case DEQ:           /* loads the stop word, then takes from the requeue slot: netif_xmit_frozen_or_stopped(txq), skb_peek(&q->gso_skb) */
        if (q->xoff[q->gso_queue]) { s->run = 0; s->queue = q->gso_queue; return to(s, CCLEAR, "loads the stop word: not open"); }
        if (!q->gso_skb) return to(s, SCAN0, "finds the queue open, the requeue slot empty");
        slot_take(q, s);
        q->hand = 1;
        return to(s, GATE, "takes {packet} from the requeue slot");

    /* ---- pfifo_fast_dequeue(), net/sched/sch_generic.c ---- */
    case SCAN0:         /* looks at band 0: __skb_array_consume(band2list(priv, 0)) */
        if (!q->ring[0].held) return to(s, SCAN1, "finds band 0 empty");
        ring_take(q, s, 0);
        q->hand = 1;
        s->second = 0;
        return to(s, GATE, "takes {packet} from band 0");
    case SCAN1:         /* looks at band 1: __skb_array_consume(band2list(priv, 1)) */
        if (!q->ring[1].held) return to(s, SCAN2, "finds band 1 empty");
        ring_take(q, s, 1);
        q->hand = 1;
        s->second = 0;
        return to(s, GATE, "takes {packet} from band 1");
    case SCAN2:         /* looks at band 2: __skb_array_consume(band2list(priv, 2)) */
        if (!q->ring[2].held) {
            if (s->second) return ends_run(q, s, "looks at the bands again: empty");
            return to(s, TEST, "looks at the bands: empty");
        }
        ring_take(q, s, 2);
        q->hand = 1;
        s->second = 0;
        return to(s, GATE, "takes {packet} from band 2");
    case TEST:          /* loads the state: need_retry && READ_ONCE(qdisc->state) & QDISC_STATE_NON_EMPTY */
        if (NON_EMPTY(q)) return to(s, CLEARM, "loads the state: a bit is set");
        return ends_run(q, s, "loads the state: both bits clear");
    case CLEARM:        /* clears MISSED: clear_bit(__QDISC_STATE_MISSED, &qdisc->state) */
        q->MISSED = 0;
        return to(s, CLEARD, "clears MISSED");
    case CLEARD:        /* clears DRAINING: clear_bit(__QDISC_STATE_DRAINING, &qdisc->state) */
        q->DRAINING = 0;
        s->second = 1;
        return to(s, SCAN0, "clears DRAINING");

    /* ---- qdisc_maybe_clear_missed(), net/sched/sch_generic.c ---- */
    case CCLEAR:        /* clears MISSED: clear_bit(__QDISC_STATE_MISSED, &q->state) */
        q->MISSED = 0;
        return to(s, CLOAD, "clears MISSED");
    case CLOAD:         /* loads the stop word again: netif_xmit_frozen_or_stopped(txq) */
        if (q->xoff[s->queue]) return to(s, CDRAIN, "loads the stop word again: not open");
        return to(s, CMISS, "loads the stop word again: open");
    case CMISS:         /* sets MISSED: set_bit(__QDISC_STATE_MISSED, &q->state) */
        q->MISSED = 1;
        return blocked(q, s, "sets MISSED");
    case CDRAIN:        /* sets DRAINING: set_bit(__QDISC_STATE_DRAINING, &q->state) */
        q->DRAINING = 1;
        return blocked(q, s, "sets DRAINING: a wake will come");

    /* ---- __qdisc_run(), net/sched/sch_generic.c ---- */
    case OVER:          /* sets MISSED, since its quota is sent: set_bit(__QDISC_STATE_MISSED, &q->state) */
        q->MISSED = 1;
        return ends_run(q, s, "sets MISSED: its quota is sent");

    /* ---- qdisc_run_end(), include/net/sch_generic.h ---- */
    case UNLOCK:        /* releases the run lock: spin_unlock(&qdisc->seqlock) */
        q->seqlock = 0;
        return to(s, TAIL, "releases the lock");
    case TAIL:          /* loads MISSED: test_bit(__QDISC_STATE_MISSED, &qdisc->state) */
        if (q->MISSED) return to(s, SCHEDULE, "loads MISSED: set");
        return ends_call(s, "loads MISSED: clear");

    /* ---- __netif_schedule(), net/core/dev.c ---- */
    case SCHEDULE:      /* sets SCHED, and is raised where it was clear: test_and_set_bit(__QDISC_STATE_SCHED, &q->state) */
        if (q->SCHED) return ends_call(s, "finds SCHED set: somebody is to come");
        if (q->listed) return lost("the qdisc is put on a second output queue");
        q->SCHED = q->listed = s->raised = 1;
        return ends_call(s, "sets SCHED: a soft interrupt will come");

    /* ---- __dev_queue_xmit(), net/core/dev.c ---- */
    case LEAVE:         /* the call is over: rcu_read_unlock_bh() */
        q->inside = q->inside - 1;
        return to(s, IDLE, "leaves");

    /* ---- net_tx_action(), net/core/dev.c ---- */
    case SOFT:          /* loads DEACTIVATED: test_bit(__QDISC_STATE_DEACTIVATED, &q->state) */
        s->was = q->DEACTIVATED;
        return to(s, SCLEAR, s->was ? "loads the state: DEACTIVATED" : "loads the state: active");
    case SCLEAR:        /* clears SCHED: clear_bit(__QDISC_STATE_SCHED, &q->state) */
        q->SCHED = q->listed = 0;
        if (s->was && WAITS) { forget(s); return to(s, LEAVE, "clears SCHED, and gives up"); }
        if (s->was) { s->was = 0; return to(s, LATE, "clears SCHED"); }
        return to(s, TRY1, "clears SCHED");
    case LATE:          /* loads DEACTIVATED again: (own) */
        if (q->DEACTIVATED) { forget(s); return to(s, LEAVE, "loads the state again: DEACTIVATED"); }
        return to(s, TRY1, "loads the state again: active");

    /* ---- netif_tx_wake_queue(), net/core/dev.c ---- */
    case WAKE:          /* opens the queue: test_and_clear_bit(__QUEUE_STATE_DRV_XOFF, &dev_queue->state) */
        if (q->xoff[s->queue] != 1) { forget(s); return to(s, IDLE, "finds the queue open"); }
        q->xoff[s->queue] = 0;
        s->queue = 0;
        if (WAITS) return to(s, LOOKUP, "opens the queue");
        return to(s, SCHEDULE, "opens the queue");
    case LOOKUP:        /* looks up the queue's qdisc, and is inside from here on: rcu_dereference(dev_queue->qdisc), in netif_tx_wake_queue() */
        if (q->noop) { forget(s); return to(s, IDLE, "finds noop_qdisc, and schedules that"); }
        q->inside = q->inside + 1;
        return to(s, SCHEDULE, "finds the qdisc");

    /* ---- dev_deactivate_many(), net/sched/sch_generic.c: on a processor of its own ---- */
    case DOWN:          /* sets DEACTIVATED: set_bit(__QDISC_STATE_DEACTIVATED, &qdisc->state), in dev_deactivate_queue() */
        q->DEACTIVATED = 1;
        if (WAITS) return to(s, DETACH, "sets DEACTIVATED");
        return to(s, QUIET, "sets DEACTIVATED");
    case DETACH:        /* stores noop_qdisc: rcu_assign_pointer(dev_queue->qdisc, &noop_qdisc), in dev_deactivate_queue() */
        q->noop = 1;
        return to(s, QUIET, "stores noop_qdisc as the queue's");
    case QUIET:         /* waits until no call is inside: synchronize_net() */
        if (q->inside) return 0;
        return to(s, GRAB, "finds no call inside");
    case GRAB:          /* gets the run lock: spin_lock_bh(&qdisc->seqlock), in dev_reset_queue() */
        if (q->seqlock) return 0;
        q->seqlock = 1;
        return to(s, PSLOT, "gets the lock");
    case PSLOT:         /* purges the requeue slot: __skb_queue_purge(&qdisc->gso_skb) */
        q->gso_skb = q->gso_queue = 0;
        return to(s, PBAND, "purges the requeue slot");
    case PBAND:         /* purges the bands, a packet a step: pfifo_fast_reset() */
        if (q->ring[s->band].held) { ring_take(q, s, s->band); s->queue = 0; return to(s, PBAND, "purges a packet of a band"); }
        if (s->band < 2) { s->band = s->band + 1; return to(s, PBAND, "finds a band empty"); }
        s->band = 0;
        return to(s, PMISSED, "finds the last band empty");
    case PMISSED:       /* clears MISSED: clear_bit(__QDISC_STATE_MISSED, &qdisc->state) */
        q->MISSED = 0;
        return to(s, PDRAINING, "clears MISSED");
    case PDRAINING:     /* clears DRAINING: clear_bit(__QDISC_STATE_DRAINING, &qdisc->state) */
        q->DRAINING = 0;
        return to(s, RELEASE, "clears DRAINING");
    case RELEASE:       /* releases the run lock: spin_unlock_bh(&qdisc->seqlock) */
        q->seqlock = 0;
        if (WAITS) return to(s, RUNNING, "releases the lock");
        return to(s, s->how == SWAPPER ? REGRAB : UP, "releases the lock");
    case RUNNING:       /* waits until the run lock is free: qdisc_is_running(q), in some_qdisc_is_busy() */
        if (q->seqlock) return 0;
        return to(s, SCHEDULED, "finds the lock free");
    case SCHEDULED:     /* waits until SCHED is clear: test_bit(__QDISC_STATE_SCHED, &q->state), in some_qdisc_is_busy() */
        if (q->SCHED) return to(s, RUNNING, "finds SCHED set");
        return to(s, s->how == SWAPPER ? REGRAB : UP, "finds SCHED clear");

    /* ---- another device, with the run lock: no function of the kernel ---- */
    case REGRAB:        /* gets the run lock: (own) */
        if (q->seqlock) return 0;
        q->seqlock = 1;
        return to(s, OPEN, "gets the lock");
    case OPEN:          /* stores 0 in a stop word: (own) */
        q->xoff[s->queue] = 0;
        if (s->queue + 1 < QUEUES) { s->queue = s->queue + 1; return to(s, OPEN, "opens a queue of the new device"); }
        s->queue = 0;
        return to(s, RERELEASE, "opens the queue of the new device");
    case RERELEASE:     /* releases the run lock: (own) */
        q->seqlock = 0;
        s->how = QUEUED;
        return to(s, UP, "releases the lock");

    /* ---- dev_activate(), net/sched/sch_generic.c ---- */
    case UP:            /* clears DEACTIVATED: clear_bit(__QDISC_STATE_DEACTIVATED, &new_qdisc->state), in transition_one_qdisc() */
        q->DEACTIVATED = 0;
        forget(s);
        if (WAITS) return to(s, ATTACH, "clears DEACTIVATED");
        return to(s, IDLE, "clears DEACTIVATED");
    case ATTACH:        /* stores the qdisc: rcu_assign_pointer(dev_queue->qdisc, new_qdisc), in transition_one_qdisc() */
        q->noop = 0;
        return to(s, IDLE, "stores the qdisc as the queue's");
    }
    return 0;
}
