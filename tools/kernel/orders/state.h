/* state.h: what the machine of steps.h is made of: the shared words, the seats, and the rings.
 *
 * A value that no later step reads is 0, so that states which go on alike are one state. Sizes come from the compiler's command line
 * (tools/kernel/explore has them as words): SEATS, SENDS of each, BANDS that senders use, LEN of a ring, QUEUES, BYPASS, QUOTA (0: more than
 * all packets), WAITS (1: a deactivation as Linux's, whose steps the proved machine needn't have). With NUMBERED, of one queue, each packet
 * has a number, and a ring has room for so many. */
#define POSITIONS(P) \
    P(IDLE, "idle") P(ENTER, "enter") P(CHECK, "check") P(PUT, "put") P(TRY1, "try1") P(MISS, "miss") P(TRY2, "try2") P(RECHECK, "recheck") \
    P(GATE, "gate") P(XMIT, "xmit") P(STOP, "stop") P(AGAIN, "again") P(POST, "post") P(DEQ, "deq") P(SCAN0, "scan 0") P(SCAN1, "scan 1") \
    P(SCAN2, "scan 2") P(TEST, "test") P(CLEARM, "clearm") P(CLEARD, "cleard") P(CCLEAR, "cclear") P(CLOAD, "cload") P(CMISS, "cmiss") \
    P(CDRAIN, "cdrain") P(OVER, "quota") P(UNLOCK, "unlock") P(TAIL, "tail") P(SCHEDULE, "sched") P(LEAVE, "leave") P(SOFT, "soft") \
    P(SCLEAR, "sclear") P(LATE, "late") P(WAKE, "wake") P(DOWN, "down") P(QUIET, "quiet") P(GRAB, "grab") P(PSLOT, "purge slot") \
    P(PBAND, "purge band") P(PMISSED, "purge missed") P(PDRAINING, "purge draining") P(RELEASE, "release") P(RUNNING, "running") \
    P(SCHEDULED, "scheduled") P(REGRAB, "regrab") P(OPEN, "open") P(RERELEASE, "rerelease") P(UP, "up") \
    P(LOOKUP, "lookup") P(DETACH, "detach") P(ATTACH, "attach") P(RESUME, "resume")
#define AS_CONSTANT(name, text) name,
enum { POSITIONS(AS_CONSTANT) POSITION_COUNT };
enum { QUEUED, DIRECT, INTERRUPT, WAKER, SWAPPER };     /* why a seat is in a call */
enum { PLAIN, FULL, STOPS, HANGS, BUSY };               /* what a ring or the device answers to a step */

/* the packets of a band's ring, first to last: how many, and of several queues the queue of each */
struct ring {
    unsigned char held;
#ifdef NUMBERED
#define ROOM NUMBERED
    unsigned char packet[ROOM];
#elif QUEUES > 1
#define ROOM (SEATS * SENDS < LEN ? SEATS * SENDS : LEN)
    unsigned char queue[ROOM];
#else
#define ROOM 255
#endif
};

/* what the seats share */
struct qdisc {
    unsigned SCHED : 1, DEACTIVATED : 1, MISSED : 1, DRAINING : 1;      /* __QDISC_STATE_.. of qdisc->state */
    unsigned seqlock : 1;               /* the run lock */
    unsigned inside : 4;                /* calls that a grace period waits for */
    unsigned gso_skb : 1, gso_queue : 2;        /* a packet in the requeue slot, and its queue */
    unsigned hand : 1;                  /* a packet in the hand of who has the run lock: no step looks at it */
    unsigned listed : 1;                /* the qdisc is on an output queue: no step looks at it */
    unsigned noop : 1;                  /* the queue has noop_qdisc in place of this one: with WAITS */
    unsigned stops : 3, hangs : 2, busys : 3, downs : 2, swaps : 2;     /* how often these may still come */
    unsigned char xoff[QUEUES];         /* __QUEUE_STATE_DRV_XOFF of each queue: 0 open, 1 stopped, 2 hung */
#ifdef NUMBERED
    unsigned char gso_packet;           /* the number of the packet in the requeue slot */
    unsigned char len, bypass;          /* what LEN and BYPASS stand for */
#endif
    struct ring ring[3];
};

/* a processor: where it stands, which is what it does next, and what it remembers there */
struct seat {
    unsigned at : 6;
    unsigned raised : 1;                /* the qdisc is on its output queue: a soft interrupt is to come */
    unsigned left : 4;                  /* packets that it still sends */
    unsigned band : 2, queue : 2;       /* of its packet, or of what it works on */
    unsigned how : 3;
    unsigned run : 7;                   /* packets sent in this run, where there is a quota */
    unsigned second : 1;                /* the second look at the bands */
    unsigned taken : 1;                 /* stopped with a packet in hand */
    unsigned hung : 1;                  /* the device hung: each queue is stopped */
    unsigned was : 1;                   /* DEACTIVATED, as it was loaded */
    unsigned found : 1;                 /* for a change of yours: what a step remembers for a later one */
#ifdef NUMBERED
    unsigned char packet;
#endif
};

static const char *said;                /* what the last step did, in words */
static const char *why;                 /* what must not come, and came */

static int to(struct seat *s, int at, const char *words) { s->at = at; said = words; return 1; }
static int lost(const char *words) { said = why = words; return 1; }
static void forget(struct seat *s) { s->band = s->queue = s->how = s->run = s->second = s->taken = s->hung = s->was = s->found = 0; }

static void ring_put(struct qdisc *q, struct seat *s)
{
    struct ring *r = &q->ring[s->band];
    if (r->held == ROOM) { lost("a packet is put twice"); return; }
#ifdef NUMBERED
    r->packet[r->held] = s->packet;
#elif QUEUES > 1
    r->queue[r->held] = s->queue;
#endif
    r->held++;
}
static void ring_take(struct qdisc *q, struct seat *s, int band)
{
    struct ring *r = &q->ring[band];
    if (!r->held) { lost("a packet is taken from an empty band"); return; }
    r->held--;
#ifdef NUMBERED
    s->packet = r->packet[0];
    for (int i = 0; i < r->held; i++) r->packet[i] = r->packet[i + 1];
    r->packet[r->held] = 0;
#elif QUEUES > 1
    s->queue = r->queue[0];
    for (int i = 0; i < r->held; i++) r->queue[i] = r->queue[i + 1];
    r->queue[r->held] = 0;
#else
    (void)s;
#endif
}
static void slot_put(struct qdisc *q, struct seat *s)
{
    q->gso_skb = 1;
    q->gso_queue = s->queue;
#ifdef NUMBERED
    q->gso_packet = s->packet;
#endif
}
static void slot_take(struct qdisc *q, struct seat *s)
{
    s->queue = q->gso_queue;
    q->gso_skb = q->gso_queue = 0;
#ifdef NUMBERED
    s->packet = q->gso_packet;
    q->gso_packet = 0;
#endif
}
