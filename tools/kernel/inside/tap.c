/* The world of a tap's ring: seats from 1 on put packets, seat 0 takes them in batches and gives some back, as vhost_net does; one may resize the ring.
 *
 * Compiled with LEN, SEATS and NEW_LEN (of a resize; 0: none). */
#include <limits.h>
#include <stddef.h>
#include <stdio.h>
#include <string.h>
#include "operations.h"
#include "world.h"
#define kmalloc_array(n, size, gfp) the_queues()
#define __ptr_ring_init_queue_alloc(size, gfp) new_queue()
#define __ptr_ring_init_queue_alloc_noprof __ptr_ring_init_queue_alloc
#define kvfree(p) ((void)(p))
#define kfree(p) ((void)(p))
#define ptr_ring_resize_multiple ptr_ring_resize_multiple_bh_noprof
static void ***the_queues(void);
static void **new_queue(void);
#include "ktext.inc"
#line 20 "tap.c"
#define PLAIN __attribute__((no_sanitize("thread")))
enum { PUT = 1, GET, GIVE_BACK, RESIZE, MOST_BATCH = 3, PACKETS = 12 };

/* what has come, and what may still come */
struct counts { unsigned char puts[SEATS], gets, backs, resizes, batch, kept, keeps[PACKETS]; unsigned short put, full, destroyed; };
struct world {
	struct ptr_ring ring;
	void *slot[LEN];
	void *fresh[NEW_LEN + 1];
	void **queues[1];
	void *batch[MOST_BATCH];
	char packet[PACKETS];
	struct counts counts;
};
struct world world __attribute__((aligned(64)));
#define COUNTS (&world.counts)

#define WORLD_OPTIONS(O) O(PUTS, "puts") O(GETS, "gets") O(BATCH, "batch") O(BACKS, "backs") O(RESIZES, "resizes")
#include "options.h"

static void ***the_queues(void) { return world.queues; }
static void **new_queue(void) { return world.fresh; }
PLAIN static int number_of(void *packet) { return (char *)packet - world.packet; }
PLAIN static void destroy(void *packet)
{
	if (COUNTS->destroyed >> number_of(packet) & 1)
		wrong("a packet is destroyed twice");
	COUNTS->destroyed |= 1 << number_of(packet);
}

PLAIN int world_seats(void) { return SEATS; }
PLAIN int world_size(void) { return sizeof world; }
PLAIN int world_alone(void) { return -1; }
PLAIN const char *world_left_text(void) { return "lost, or out of its sender's order"; }
PLAIN void world_init(void)
{
	world.ring.queue = world.slot;
	__ptr_ring_set_size(&world.ring, LEN);
	COUNTS->gets = OPTION(GETS), COUNTS->backs = OPTION(BACKS), COUNTS->resizes = OPTION(RESIZES);
}

PLAIN int world_words(struct word *to)
{
	int n = 0;
#define NAME(text, x, kind, guard, pointer) (to[n] = (struct word){text, (char *)&(x) - (char *)&world, sizeof(x), kind, guard, NULL, pointer, -1}, n++)
	int producer = NAME("producer lock", world.ring.producer_lock, SHARED, 0, 0), consumer = NAME("consumer lock", world.ring.consumer_lock, SHARED, 0, 0);

	NAME("slot", world.slot, SHARED, 0, 1);
	NAME("slot", world.fresh, SHARED, 0, 1);
	NAME("producer", world.ring.producer, GUARDED, producer, 0);
	NAME("head", world.ring.consumer_head, GUARDED, consumer, 0);
	NAME("tail", world.ring.consumer_tail, GUARDED, consumer, 0);
	NAME("size", world.ring.size, OWN, 0, 0);
	NAME("batch", world.ring.batch, OWN, 0, 0);
	NAME("queue", world.ring.queue, OWN, 0, 0);
	NAME("queues", world.queues, OWN, 0, 0);
	NAME("the reader's batch", world.batch, OWN, 0, 0);
	return n;
}

PLAIN int world_starts(int seat, struct start *starts)
{
	int n = 0;

	if (seat && COUNTS->puts[seat] < OPTION(PUTS))
		starts[n++] = (struct start){PUT, (seat - 1) * OPTION(PUTS) + COUNTS->puts[seat]};
	if (seat && COUNTS->resizes)
		starts[n++] = (struct start){RESIZE};
	if (!seat && COUNTS->gets)
		starts[n++] = (struct start){GET};
	for (int back = 1; !seat && COUNTS->backs && back <= COUNTS->batch; back++)
		starts[n++] = (struct start){GIVE_BACK, back};
	return n;
}

PLAIN void world_begin(int seat, struct start it)
{
	COUNTS->puts[seat] += it.call == PUT;
	COUNTS->put |= it.call == PUT ? 1 << it.a : 0;
	COUNTS->resizes -= it.call == RESIZE;
	COUNTS->gets -= it.call == GET;
	COUNTS->backs -= it.call == GIVE_BACK;
}

/* what the reader has, when it has taken or given back */
PLAIN static void keep(int count)
{
	COUNTS->batch = count;
	for (int i = 0; i < count; i++)
		COUNTS->keeps[COUNTS->kept++] = number_of(world.batch[i]);
}
PLAIN static void gave_back(int count)
{
	COUNTS->batch = 0;
	COUNTS->kept -= count;
	memset(COUNTS->keeps + COUNTS->kept, 0, count);
}
PLAIN static void found_full(int packet) { COUNTS->full |= 1 << packet; }
PLAIN static int last_batch(void) { return COUNTS->batch; }

void world_run(int seat, struct start it)
{
	struct ptr_ring *rings[] = {&world.ring};

	if (it.call == PUT && ptr_ring_produce(&world.ring, &world.packet[it.a]))
		found_full(it.a);
	if (it.call == GET)
		keep(ptr_ring_consume_batched(&world.ring, world.batch, OPTION(BATCH)));
	if (it.call == GIVE_BACK) {
		ptr_ring_unconsume(&world.ring, world.batch + last_batch() - it.a, it.a, destroy);
		gave_back(it.a);
	}
	if (it.call == RESIZE)
		ptr_ring_resize_multiple(rings, 1, NEW_LEN, 0, destroy);
}

PLAIN int world_answers(int seat, int question, int about, int *answers) { return 0; }
PLAIN void world_answered(int seat, int question, int about, int answer) {}

/* in turn what the reader has and what the ring holds: each packet that was put once, in its sender's order */
PLAIN int world_left(void)
{
	struct ptr_ring *r = &world.ring;
	unsigned found = 0;
	int last[SEATS] = {0}, bad = 0, held = 0;

	for (int i = r->consumer_head; held < r->size && r->queue[i]; i = i + 1 == r->size ? 0 : i + 1)
		held++;
	for (int i = 0; i < COUNTS->kept + held; i++) {
		int n = i < COUNTS->kept ? COUNTS->keeps[i] : number_of(r->queue[(r->consumer_head + i - COUNTS->kept) % r->size]), owner = n / OPTION(PUTS);

		bad += found >> n & 1 || last[owner] > n + 1;
		found |= 1u << n;
		last[owner] = n + 1;
	}
	return bad + __builtin_popcount(COUNTS->put & ~(found | COUNTS->full | COUNTS->destroyed)) + __builtin_popcount(found & (COUNTS->full | COUNTS->destroyed));
}

PLAIN void world_call_text(struct start it, char *text)
{
	static const char *const names[] = {"", "put of packet", "batch", "back, packets:", "resize"};

	snprintf(text, MOST_TEXT, it.call == PUT || it.call == GIVE_BACK ? "%s %d" : "%s", names[it.call], it.a);
}
PLAIN void world_answer_text(int question, int about, int answer, char *text) {}
PLAIN void world_text(char *text)
{
	snprintf(text, MOST_TEXT, "the reader has %d packets, full %d, destroyed %d", COUNTS->kept, __builtin_popcount(COUNTS->full), __builtin_popcount(COUNTS->destroyed));
}
