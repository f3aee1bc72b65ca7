/* moves.h: what may come next in a state of the machine, and what is asked of a state. search.c and SPIN both go by it. */
#include <stdint.h>
#include <string.h>
#ifdef WALK                             /* many sizes in one program */
static int length, past;
#define LEN length
#define BYPASS past
#define BATCH (length >= 32 ? 16 : 1)
#else
#define BATCH (LEN >= 32 ? 16 : 1)
#endif
#include "state.h"
#include STEPS

#define CONTROL (DOWNS + SWAPS > 0)     /* control is a processor of its own, behind the seats */
#define PLACES (SEATS + CONTROL)
#ifdef PLAIN_STORES
#include "buffers.h"
struct state { struct qdisc q; struct seat s[PLACES]; struct buffer b[PLACES]; };
#else
struct state { struct qdisc q; struct seat s[PLACES]; };
#endif
#define FIRST_STATE { { .stops = STOPPINGS, .hangs = HANGINGS, .busys = BUSYS, .downs = DOWNS, .swaps = SWAPS }, { [0 ... SEATS - 1] = { .left = SENDS } } }

/* MOVES: a step with an answer, or the start of a call; KINDS of them for each seat. Each is tried on a copy of the state. */
enum { SOFTIRQ = BUSY + 1, WAKES, SENDS_ = WAKES + QUEUES, DOWNS_ = SENDS_ + BANDS * QUEUES, SWAPS_, DRAINS, KINDS };
#define MOST (PLACES * (BANDS * QUEUES + QUEUES + 5))

static int steps_with(struct state *x, int i, int answer)
{
    struct qdisc *q = &x->q;
    if (answer > FULL && x->s[i].at != XMIT) return 0;
    if (answer == FULL && x->s[i].at != PUT) return 0;
#ifndef WALK
    if (answer == STOPS && !q->stops--) return 0;
    if (answer == HANGS && !q->hangs--) return 0;
    if (answer == BUSY && !q->busys--) return 0;
#endif
#ifdef PLAIN_STORES
    return buffered_step(q, &x->s[i], &x->b[i], answer);
#else
    return step(q, &x->s[i], answer);
#endif
}
static int begins(struct qdisc *q, struct seat *s, int control, int kind)
{
    if (s->at != IDLE) return 0;
    if (kind >= DOWNS_) {
        if (!control || q->DEACTIVATED || s->raised) return 0;
        if (kind == DOWNS_ ? !q->downs : !q->swaps) return 0;
        if (kind == DOWNS_) q->downs--; else q->swaps--;
        s->how = kind == SWAPS_ ? SWAPPER : QUEUED;
        return to(s, DOWN, kind == SWAPS_ ? "begins to swap the device" : "begins to deactivate");
    }
    if (kind == SOFTIRQ) {
        if (!s->raised) return 0;
        s->raised = 0;
        s->how = INTERRUPT;
        return to(s, ENTER, "a soft interrupt comes");
    }
    if (control) return 0;
    if (kind < SENDS_) {
        s->queue = kind - WAKES;
#ifndef WALK
        if (q->xoff[s->queue] != 1) return 0;   /* a wake of an open queue does nothing, whenever it comes */
#endif
        s->how = WAKER;
        return to(s, WAKE, "an interrupt comes, to wake the queue");
    }
#ifndef WALK
    if (!s->left--) return 0;
#endif
    s->band = (kind - SENDS_) / QUEUES;
    s->queue = (kind - SENDS_) % QUEUES;
    return to(s, ENTER, "a transmit begins");
}
/* whether seat i can move so, and the state after it */
static int moved(const struct state *x, int i, int kind, struct state *out)
{
    *out = *x;
#ifdef PLAIN_STORES
    if (kind == DRAINS) return drains(&out->q, &out->b[i]);
#endif
    if (kind == DRAINS) return 0;
    return kind <= BUSY ? steps_with(out, i, kind) : begins(&out->q, &out->s[i], CONTROL && i >= SEATS, kind);
}

struct move { int seat, kind; };
static int moves(const struct state *x, struct state *out, struct move *how)
{
    int n = 0;
    for (int i = 0; i < PLACES; i++) {
        int at = x->s[i].at;
        int from = at == IDLE ? BUSY + 1 : PLAIN;
        int below = at == IDLE ? KINDS : at == XMIT ? BUSY + 1 : at == PUT ? FULL + 1 : PLAIN + 1;
        for (int kind = from; kind < below; kind++)
            if (moved(x, i, kind, &out[n])) how[n++] = (struct move){ i, kind };
#ifdef PLAIN_STORES
        if (moved(x, i, DRAINS, &out[n])) how[n++] = (struct move){ i, DRAINS };
#endif
    }
    return n;
}
#ifdef PLAIN_STORES
static int is_before(const struct state *x, int i, int j)
{
    int order = memcmp(&x->s[i], &x->s[j], sizeof x->s[i]);
    return (order ? order : memcmp(&x->b[i], &x->b[j], sizeof x->b[i])) < 0;
}
#endif
static void sorted(struct state *x)
{
#if defined PLAIN_STORES
    for (int i = 1; i < SEATS; i++)
        for (int j = i; j && is_before(x, j, j - 1); j--) {
            struct seat s = x->s[j];
            struct buffer b = x->b[j];
            x->s[j] = x->s[j - 1]; x->s[j - 1] = s;
            x->b[j] = x->b[j - 1]; x->b[j - 1] = b;
        }
#elif !defined APART
    uint32_t v[SEATS];
    memcpy(v, x->s, sizeof v);
    for (int i = 1; i < SEATS; i++)
        for (int j = i; j && v[j] < v[j - 1]; j--) { uint32_t t = v[j]; v[j] = v[j - 1]; v[j - 1] = t; }
    memcpy(x->s, v, sizeof v);
#else
    (void)x;
#endif
}

/* QUESTIONS */
static int held(const struct state *x) { return x->q.ring[0].held + x->q.ring[1].held + x->q.ring[2].held + x->q.gso_skb; }
static int is_open(const struct state *x)
{
    for (int i = 0; i < QUEUES; i++) if (x->q.xoff[i]) return 0;
    return 1;
}
/* no seat is in a call, and none is scheduled, control's processor neither */
static int seats_rest(const struct state *x)
{
    for (int i = 0; i < SEATS; i++) if (x->s[i].at != IDLE) return 0;
    for (int i = 0; i < PLACES; i++) if (x->s[i].raised) return 0;
#ifdef PLAIN_STORES
    for (int i = 0; i < SEATS; i++) if (x->b[i].many) return 0;
#endif
    return 1;
}
/* what must not be so, or 0: asked of each new state */
static const char *wrong(const struct state *x)
{
    if (!seats_rest(x)) return 0;
    int at = CONTROL ? x->s[PLACES - 1].at : IDLE;
    if (at == IDLE) return held(x) && is_open(x) ? "left" : 0;
    struct state y;
    if (!moved(x, PLACES - 1, PLAIN, &y) || ((at == RUNNING || at == SCHEDULED) && x->q.SCHED)) return "waits";
    return 0;
}
/* the second question is asked of these: no order may stay in them for ever */
static int is_served(const struct state *x)
{
    return SEATS == 1 || ((held(x) || x->q.hand) && is_open(x) && !x->q.DEACTIVATED);
}
