/* search.c: all orders of the steps of steps.h, breadth first. Seats are alike: states that differ by which seat is which are one state,
 * unless APART is defined. tools/kernel/explore compiles and runs it, and puts what it prints into words:
 *
 *     search ALL MEGABYTES SECONDS      the first question; with ALL above 0 the second one too
 *     search walk SEED COUNT            random orders as schedules, and what each leaves, as `lqtx trace` prints it (with WALK defined)
 *
 * A line of its output begins with a word: `states`, `left`, `lost`, `waits`, `round`, `served`, `full`, `late`; an order is a line for each move. */
#include <stdint.h>
#include <stdio.h>
#include <stdlib.h>
#include <time.h>
#include <sys/mman.h>
#include "moves.h"

/* THE STATES, in the order in which they are found: each with the one that led to it first */
static struct state *states;
static uint32_t *table, *parent, count;
static size_t slots, room;
static double began, limit;

static double now(void) { struct timespec t; clock_gettime(CLOCK_MONOTONIC, &t); return t.tv_sec + t.tv_nsec / 1e9; }
static void *reserve(size_t bytes)              /* memory counts once it is written */
{
    void *it = mmap(0, bytes, PROT_READ | PROT_WRITE, MAP_PRIVATE | MAP_ANONYMOUS | MAP_NORESERVE, -1, 0);
    if (it == MAP_FAILED) { puts("full 0"); exit(3); }
    return it;
}
static uint64_t hash(const struct state *x)
{
    uint32_t w[sizeof(struct state) / 4];
    memcpy(w, x, sizeof w);
    uint64_t h = 0x9e3779b97f4a7c15u;
    for (size_t i = 0; i < sizeof w / 4; i++) { h ^= w[i]; h *= 0xff51afd7ed558ccdu; h ^= h >> 32; }
    return h;
}
static void widen(void)
{
    munmap(table, slots * 4);
    slots *= 2;
    table = reserve(slots * 4);
    for (uint32_t i = 0; i < count; i++) {
        size_t at = hash(&states[i]) & (slots - 1);
        while (table[at]) at = (at + 1) & (slots - 1);
        table[at] = i + 1;
    }
}
enum { KNOWN, NEW, NO_ROOM };
static int find(const struct state *x, uint32_t from, uint32_t *index)
{
    size_t at = hash(x) & (slots - 1);
    for (; table[at]; at = (at + 1) & (slots - 1))
        if (!memcmp(&states[table[at] - 1], x, sizeof *x)) { *index = table[at] - 1; return KNOWN; }
    if (count == room) return NO_ROOM;
    *index = count;
    states[count] = *x;
    parent[count] = from;
    table[at] = ++count;
    if (count > slots / 4 * 3) widen();
    return NEW;
}

/* AN ORDER, as lines: the seat, what it does, where it stood and stands, what happened, and the words after it */
static const char *position(int at, int second)
{
    static const char *const scans[] = { "scan 0 first", "scan 1 first", "scan 2 first", "scan 0 second", "scan 1 second", "scan 2 second" };
#define AS_TEXT(name, text) text,
    static const char *const names[] = { POSITIONS(AS_TEXT) };
    return at >= SCAN0 && at <= SCAN2 ? scans[at - SCAN0 + 3 * second] : names[at];
}
static int state_of(const struct qdisc *q) { return q->SCHED + 2 * q->DEACTIVATED + 4 * q->MISSED + 8 * q->DRAINING; }
static void print_kind(int kind)
{
    static const char *const names[] = { "step", "full", "stop", "hang", "busy", "softirq" };
    if (kind < WAKES) printf("%s", names[kind]);
    else if (kind < SENDS_) printf("wake %d", kind - WAKES);
    else if (kind < DOWNS_) printf("send %d %d", (kind - SENDS_) / QUEUES, (kind - SENDS_) % QUEUES);
    else printf("%s", kind == DOWNS_ ? "down" : kind == SWAPS_ ? "swap" : "drain");
}
static void print_move(const struct state *x, struct move m, const struct state *y)
{
    const struct seat *a = &x->s[m.seat], *b = &y->s[m.seat];
    printf("move\t%d\t", m.seat < SEATS ? m.seat : -1);
    print_kind(m.kind);
    printf("\t%s\t%s\t%s\t%d %d\t", position(a->at, a->second), position(b->at, b->second), said, state_of(&y->q), y->q.seqlock);
    for (int i = 0; i < QUEUES; i++) printf(i ? " %d" : "%d", y->q.xoff[i]);
    printf("\t%d %d %d %d\n", y->q.ring[0].held, y->q.ring[1].held, y->q.ring[2].held, y->q.gso_skb);
}
/* from x, with the seats as they are there, to a state that is `to` but for which seat is which */
static void print_step(struct state *x, const struct state *to)
{
    struct state out[MOST];
    struct move how[MOST];
    int n = moves(x, out, how);
    for (int i = 0; i < n; i++) {
        struct state y = out[i];
        sorted(&y);
        if (memcmp(&y, to, sizeof y)) continue;
        moved(x, how[i].seat, how[i].kind, &y);         /* once more, for what it says */
        print_move(x, how[i], &y);
        *x = y;
        return;
    }
}
static uint32_t *path_to(uint32_t last, size_t *many)
{
    uint32_t *path;
    size_t n = 1;
    for (uint32_t at = last; at; at = parent[at]) n++;
    path = reserve(n * 4);
    *many = n;
    for (uint32_t at = last; n--; at = parent[at]) path[n] = at;
    return path;
}
static struct state print_path(uint32_t last)
{
    size_t many;
    uint32_t *path = path_to(last, &many);
    struct state x = states[0];
    for (size_t k = 1; k < many; k++) print_step(&x, &states[path[k]]);
    return x;
}

/* THE FIRST QUESTION: is a packet left where nobody comes, or lost */
static void print_lost(uint32_t last)
{
    struct state x = print_path(last), y;
    for (int i = 0; i < PLACES; i++)
        for (int kind = 0; kind < KINDS; kind++) {
            why = 0;
            if (moved(&x, i, kind, &y) && why) { print_move(&x, (struct move){ i, kind }, &y); return; }
        }
}
static int all_states(void)
{
    struct state out[MOST];
    struct move how[MOST];
    uint64_t edges = 0;
    uint32_t j;
    for (uint32_t i = 0; i < count; i++) {
        struct state x = states[i];
        int n = moves(&x, out, how);
        edges += n;
        if (why) {
            printf("states %u %llu %.2f\nlost %s\n", count, (unsigned long long)edges, now() - began, why);
            print_lost(i);
            return 1;
        }
        for (int k = 0; k < n; k++) {
            sorted(&out[k]);
            int is_new = find(&out[k], i, &j);
            if (is_new == NO_ROOM) return printf("full %u\n", count), 3;
            const char *bad = is_new == NEW ? wrong(&out[k]) : 0;
            if (!bad) continue;
            printf("states %u %llu %.2f\n%s\n", count, (unsigned long long)edges, now() - began, bad);
            print_path(j);
            return 1;
        }
        if (!(i & 0xffff) && now() > limit) return printf("late %u\n", count), 3;
    }
    printf("states %u %llu %.2f\n", count, (unsigned long long)edges, now() - began);
    return 0;
}

/* THE SECOND QUESTION: no cycle among the served states. First a search in depth; each state is left with the longest order from it. */
static uint32_t known(const struct state *x)
{
    struct state y = *x;
    uint32_t j = 0;
    sorted(&y);
    find(&y, 0, &j);
    return j;
}
static unsigned char *colour;           /* 0 not yet seen, 1 on the way, 2 done */
static uint16_t *longest;
static uint32_t *stack;

/* the first successor of i that isn't done, which is a cycle where it is on the way; or count */
static uint32_t next_of(uint32_t i)
{
    struct state out[MOST];
    struct move how[MOST];
    int n = moves(&states[i], out, how), most = 0;
    for (int k = 0; k < n; k++) {
        if (!is_served(&out[k])) continue;
        uint32_t j = known(&out[k]);
        if (colour[j] != 2) return j;
        if (longest[j] + 1 > most) most = longest[j] + 1;
    }
    longest[i] = most;
    return count;
}
static int has_cycle(uint32_t root)
{
    size_t top = 0;
    stack[top++] = root;
    colour[root] = 1;
    while (top) {
        uint32_t i = stack[top - 1], j = next_of(i);
        if (j == count) { colour[i] = 2; top--; continue; }
        if (colour[j] == 1) return 1;
        colour[j] = 1;
        stack[top++] = j;
    }
    return 0;
}
/* the states of a shortest way from i back to i among the served states, or 0: breadth first, with `stack` as the queue */
static int back_to(uint32_t i, uint32_t *from)
{
    struct state out[MOST];
    struct move how[MOST];
    uint32_t head = 0, tail = 0;
    memset(colour, 0, count);
    for (uint32_t at = i;; at = stack[head++]) {
        int n = moves(&states[at], out, how);
        for (int k = 0; k < n; k++) {
            if (!is_served(&out[k])) continue;
            uint32_t j = known(&out[k]);
            if (j == i) { from[i] = at; return 1; }
            if (colour[j]) continue;
            colour[j] = 1;
            from[j] = at;
            stack[tail++] = j;
        }
        if (head == tail) return 0;
    }
}
/* the first state found that lies on a cycle of served states: by Tarjan's components */
static uint32_t first_on_a_cycle(void)
{
    struct state out[MOST];
    struct move how[MOST];
    uint32_t *number = reserve((size_t)count * 4), *low = reserve((size_t)count * 4), *trail = reserve((size_t)count * 4);
    unsigned char *child = reserve(count);
    uint32_t clock = 0, first = count, on_trail = 0;
    memset(colour, 0, count);           /* 1: on the trail */
    for (uint32_t root = 0; root < count; root++) {
        size_t top = 0;
        if (!number[root] && is_served(&states[root])) stack[top++] = root;
        while (top) {
            uint32_t i = stack[top - 1], deeper = count;
            if (!number[i]) { number[i] = low[i] = ++clock; trail[on_trail++] = i; colour[i] = 1; }
            int n = moves(&states[i], out, how);
            for (; child[i] < n && deeper == count; child[i] += deeper == count) {
                if (!is_served(&out[child[i]])) continue;
                uint32_t j = known(&out[child[i]]);
                if (!number[j]) deeper = j;
                else if (colour[j] && low[j] < low[i]) low[i] = low[j];
                if (j == i && i < first) first = i;
            }
            if (deeper != count) { stack[top++] = deeper; continue; }
            top--;
            if (low[i] != number[i]) continue;
            int alone = trail[on_trail - 1] == i;
            for (uint32_t j = count; j != i;) {
                j = trail[--on_trail];
                colour[j] = 0;
                if (!alone && j < first) first = j;
            }
        }
    }
    return first;
}
/* the shortest way to a state on a cycle, and a shortest round from there */
static int print_round(void)
{
    uint32_t *from = reserve((size_t)count * 4), *round = reserve((size_t)count * 4), n = 0, i = first_on_a_cycle();
    back_to(i, from);
    puts("round ");
    struct state x = print_path(i);
    for (uint32_t at = from[i]; at != i; at = from[at]) round[n++] = at;
    puts("again");
    while (n--) print_step(&x, &states[round[n]]);
    print_step(&x, &states[i]);
    return 1;
}
static int no_order_goes_on(void)
{
    uint32_t many = 0, most = 0;
    colour = reserve(count);
    longest = reserve((size_t)count * 2);
    stack = reserve((size_t)count * 4);
    for (uint32_t i = 0; i < count; i++) {
        if (!is_served(&states[i])) continue;
        many++;
        if (!colour[i] && has_cycle(i)) return print_round();
        if (longest[i] > most) most = longest[i];
        if (!(i & 0xffff) && now() > limit) return printf("late %u\n", count), 3;
    }
    printf("served %u %u %.2f\n", many, most, now() - began);
    return 0;
}

#ifdef WALK
static uint64_t seed;
static int dice(int below) { seed = seed * 6364136223846793005u + 1442695040888963407u; return (seed >> 33) % below; }

static int run_seat, run_steps;
static void end_run(void) { if (run_steps) printf("%d step %d\n", run_seat, run_steps); run_steps = 0; }
static void print_line(struct move m)
{
    if (m.kind == PLAIN && run_steps < 1000 && (!run_steps || run_seat == m.seat)) { run_seat = m.seat; run_steps++; return; }
    end_run();
    if (m.kind == PLAIN) { run_seat = m.seat; run_steps = 1; return; }
    printf("%d ", m.seat);
    if (m.kind >= SENDS_) printf("send %d\n", m.kind - SENDS_);
    else if (m.kind >= WAKES) puts("wake");
    else { print_kind(m.kind); puts(""); }
}
/* one order: every twentieth is long and meets no stop, so that a run comes to its quota */
static void walk(int seats)
{
    static const int lengths[] = { 1, 2, 3, 4, 16, 31, 32, 33, 40 };
    struct state x = { 0 }, y;
    int is_long = !dice(20), most = is_long ? 2000 + dice(3000) : 1 + dice(400), odds = is_long ? 0 : dice(4);
    int steps = 0, sent = 0, full = 0;
    length = is_long ? 33 : lengths[dice(9)];
    past = dice(2);
    printf("seats %d len %d bypass %d\n", seats, length, past);
    for (int k = 0; k < most; k++) {
        struct move m = { dice(seats), PLAIN };
        int at = x.s[m.seat].at, turn = dice(8);
        if (at == IDLE) m.kind = turn < 2 ? SOFTIRQ : turn == 2 && odds ? WAKES : SENDS_ + dice(3);
        else if (at == XMIT && turn < odds) m.kind = STOPS + dice(turn ? 3 : 2) * (1 + !dice(2)) % 3;
        else if (at == PUT && turn < 4) m.kind = FULL;
        int plain = m.kind != PLAIN && at != IDLE;
        if (!moved(&x, m.seat, m.kind, &y)) { if (!plain || !moved(&x, m.seat, PLAIN, &y)) continue; m.kind = PLAIN; }
        sent += at == XMIT && m.kind != BUSY;
        full += m.kind == FULL;
        steps += m.kind <= BUSY;
        print_line(m);
        x = y;
    }
    end_run();
    printf("--\nsteps %d\nstate %d lock %d xoff %d inside %d\nheld %d sent %d full %d\n", steps, state_of(&x.q), x.q.seqlock, x.q.xoff[0], x.q.inside, held(&x), sent, full);
    for (int i = 0; i < seats; i++) printf("seat %d %s%s\n", i, position(x.s[i].at, x.s[i].second), x.s[i].raised ? " raised" : "");
    puts("==");
}
#endif

int main(int argc, char **argv)
{
#ifdef WALK
    seed = argc > 2 ? strtoull(argv[2], 0, 10) : 1;
    for (int many = argc > 3 ? atoi(argv[3]) : 1; many--;) walk(1 + dice(SEATS));
    return 0;
#endif
    struct state first = FIRST_STATE;
    began = now();
    limit = began + (argc > 3 ? atof(argv[3]) : 600);
    /* a state has itself, its parent, and up to three slots of the table; the second question adds 7 bytes to each */
    room = (argc > 2 ? atof(argv[2]) : 1000) * 1e6 / (sizeof(struct state) + 4 + 11 + 7);
    if (room > 4000000000u) room = 4000000000u;
    slots = 1 << 16;
    states = reserve(room * sizeof *states);
    parent = reserve(room * 4);
    table = reserve(slots * 4);
    uint32_t j;
    find(&first, 0, &j);
    int code = all_states();
    return code || argc < 2 || !atoi(argv[1]) ? code : no_order_goes_on();
}
