/* buffers.h: stores that wait in a buffer, as on x86. With PLAIN_STORES defined, moves.h makes each step through it.
 *
 * Each seat has a first-in first-out buffer. A plain store goes into it, and reaches memory later, in its turn; the seat's own loads see it at once. A store
 * that is ordered (a locked instruction, or a barrier behind it) waits until the seat's buffer is empty, and is seen by all at once. Loads aren't reordered,
 * and bits of one word are buffered apart. What is right here may be wrong on weaker machines; what is wrong here is wrong there too.
 *
 * The steps are those of steps.h as they are: a step is made on the words as its seat sees them. The table below has the store of each position. A try that
 * finds the lock held is a load; one that gets it, and the producer's lock of a ring, empty the buffer first, and so does a test-and-set, but for one of TESTS that
 * finds its bit set. Who takes a packet out, and the requeue slot, are no stores here: they are the holder's alone. */
#define STORES(S) \
    S(PUT_0, q->ring[0].held++, "a packet in band 0") S(PUT_1, q->ring[1].held++, "a packet in band 1") S(PUT_2, q->ring[2].held++, "a packet in band 2") \
    S(FREE_LOCK, q->seqlock = 0, "the lock is free") S(CLEAR_SCHED, q->SCHED = 0, "SCHED is clear") \
    S(CLEAR_MISSED, q->MISSED = 0, "MISSED is clear") S(SET_MISSED, q->MISSED = 1, "MISSED is set") \
    S(CLEAR_DRAINING, q->DRAINING = 0, "DRAINING is clear") S(SET_DRAINING, q->DRAINING = 1, "DRAINING is set") \
    S(STOP_QUEUE, q->xoff[0] = 1, "the queue is stopped") S(OPEN_QUEUE, q->xoff[0] = 0, "the queue is open")
#define AS_STORE(name, effect, text) name,
#define AS_EFFECT(name, effect, text) case name: effect; break;
#define AS_SEEN(name, effect, text) [name] = "seen by all: " text,
enum { NO_STORE, STORES(AS_STORE) };
enum { DEPTH = 4 };                     /* stores that a buffer has room for */
struct buffer { unsigned many : 4, stores : 16; };     /* the first is in the lowest four bits */

static const unsigned char plain[POSITION_COUNT] = { PLAIN_STORES }, tests[POSITION_COUNT] = { TESTS };
static const unsigned char stores[POSITION_COUNT] = {
    [PUT] = PUT_0, [UNLOCK] = FREE_LOCK, [CLEARM] = CLEAR_MISSED, [CCLEAR] = CLEAR_MISSED, [CMISS] = SET_MISSED, [AGAIN] = SET_MISSED, [OVER] = SET_MISSED,
    [CLEARD] = CLEAR_DRAINING, [CDRAIN] = SET_DRAINING, [SCLEAR] = CLEAR_SCHED, [STOP] = STOP_QUEUE, [WAKE] = OPEN_QUEUE };

static int store_of(const struct seat *s) { return stores[s->at] + (s->at == PUT ? s->band : 0); }
static void reaches(struct qdisc *q, int store)
{
    switch (store) { STORES(AS_EFFECT) }
}
/* the first store of a buffer reaches memory */
static int drains(struct qdisc *q, struct buffer *b)
{
    static const char *const names[] = { STORES(AS_SEEN) };
    if (!b->many) return 0;
    int store = b->stores & 15;
    reaches(q, store);
    b->stores >>= 4;
    b->many--;
    said = names[store];
    return 1;
}
/* a locked instruction, whatever it finds */
static int is_locked(const struct qdisc *q, const struct seat *s)
{
    switch (s->at) {
    case PUT: return 1;
    case TRY1: case TRY2: return !q->seqlock;
    case MISS: return !(tests[MISS] && q->MISSED);
    case SCHEDULE: return !(tests[SCHEDULE] && q->SCHED);
    }
    return 0;
}
static int buffered_step(struct qdisc *memory, struct seat *s, struct buffer *b, int answer)
{
    struct qdisc seen = *memory, before;
    for (int k = 0; k < b->many; k++) reaches(&seen, b->stores >> 4 * k & 15);
    before = seen;
    int at = s->at, store = store_of(s);
    if ((at == PUT && answer == FULL) || (at == WAKE && seen.xoff[0] != 1)) store = NO_STORE;
    int waits = store && plain[at];
    if (b->many && (is_locked(&seen, s) || (store && !waits))) return 0;
    if (waits && b->many == DEPTH) return 0;
    if (!step(&seen, s, answer)) return 0;
    if (!b->many && !waits) { *memory = seen; return 1; }
    /* what is no store, or the holder's alone, is in memory at once */
    memory->inside = seen.inside;
    memory->gso_skb = seen.gso_skb;
    memory->hand = seen.hand;
    memory->listed = seen.listed;
    for (int band = 0; band < 3; band++) memory->ring[band].held += seen.ring[band].held - before.ring[band].held - (waits && store == PUT_0 + band);
    if (waits) {
        b->stores |= store << 4 * b->many;
        b->many++;
    }
    return 1;
}
