/* The transmit path's world: the kernel's text between what it needs, a device, and the calls of the seats.
 *
 * Compiled with LEN, SEATS, PACKETS, CHILDREN (queueing disciplines), QUEUES (of the device) and NEW_LEN (of a change of the length; 0: none). With
 * as many queues as children each child has a queue, as under mq; with more all queues share one child. */
#include <stdio.h>
#include <string.h>
#include "stub.h"
#include "ktext.inc"
#line 10 "path.c"
#define PLAIN __attribute__((no_sanitize("thread")))

/* what has come, and what may still come; not the kernel's */
struct counts {
	unsigned char sends[SEATS], band[PACKETS], queue[PACKETS], last[SEATS + 1][3][QUEUES], wakes, stops, busy, downs, lengths, is_down, inside, waits, spare;
	signed char alone;
	unsigned long long sent, freed;
};
struct world {
	union { struct Qdisc q; char room[sizeof(struct Qdisc) + sizeof(struct pfifo_fast_priv)]; } u[CHILDREN];
	struct Qdisc noop;
	struct netdev_queue txq[QUEUES];
	struct net_device dev;
	struct softnet_data sd[SEATS];
	void *slot[CHILDREN][3][LEN];
	void *fresh[CHILDREN][3][NEW_LEN + 1]; /* what a change of the length allocates */
	void **queues[3];
	struct sk_buff skb[PACKETS];
	struct counts counts;
};
struct world world __attribute__((aligned(64)));
int dev_tx_weight = 64, path_quota = 64;
struct hotdata net_hotdata;
struct softnet_data softnet_data;
static struct Qdisc_ops ops;
#define COUNTS (&world.counts)

#define WORLD_OPTIONS(O) \
	O(SENDS, "sends") O(BYPASS, "bypass") O(STOPS, "stops") O(WAKES, "wakes") O(BUSY_ANSWERS, "busy") O(QUOTA, "quota") O(BANDS, "bands") O(DOWNS, "downs") \
	O(LENGTHS, "lengths") O(WAITING, "waiting") O(TOTAL, "total") O(STOPPED, "stopped")
#include "options.h"
#define FIRST_WAITING (SEATS * OPTION(SENDS)) /* the packets before it are the seats' */

PLAIN int path_option(const char *name)
{
	for (int i = 0; i < OPTIONS; i++)
		if (!strcmp(option_names[i], name))
			return option[i];
	return 0;
}

PLAIN int world_seats(void) { return SEATS; }
PLAIN int world_size(void) { return sizeof world; }
PLAIN int path_children(void) { return CHILDREN; }
PLAIN int path_has_bulk(void) { return QUEUES > CHILDREN; }
PLAIN int path_has_control(void) { return OPTION(DOWNS) || OPTION(LENGTHS); }
PLAIN int path_child_of_queue(int queue) { return CHILDREN == 1 ? 0 : queue; }
PLAIN int path_child_of(int packet) { return path_child_of_queue(COUNTS->queue[packet]); }
PLAIN int path_raised(int seat) { return world.sd[seat].output_queue != NULL; }
PLAIN int path_is_scheduled(int seat, int child)
{
	struct Qdisc *q = world.sd[seat].output_queue;

	while (q && q != &world.u[child].q)
		q = q->next_sched;
	return q != NULL;
}
PLAIN int path_bypass(void) { return OPTION(BYPASS); }
PLAIN void path_counts(unsigned char *sends, unsigned char *wakes, unsigned char *stops, unsigned char *busy)
{
	memcpy(sends, COUNTS->sends, SEATS);
	*wakes = COUNTS->wakes, *stops = COUNTS->stops, *busy = COUNTS->busy;
}
PLAIN void *path_refusing(void) { return &world.noop; }
static struct Qdisc *qdisc_of(int child) { return &world.u[child].q; }

/* WHAT THE TEXT CALLS */

static void *processor(int seat) { return &world.sd[seat]; }
static struct net_device *the_device(void) { return &world.dev; }
static struct Qdisc *the_noop_qdisc(void) { return &world.noop; }

PLAIN static void free_packet(int n)
{
	if ((COUNTS->freed | COUNTS->sent) >> n & 1)
		wrong("a packet is freed that was freed or sent before");
	COUNTS->freed |= 1ull << n;
}

static void kfree_skb(struct sk_buff *skb) { free_packet(skb->number); }

static void kfree_skb_list_reason(struct sk_buff *skb, int reason)
{
	while (skb) {
		struct sk_buff *next = skb->next;

		skb->next = NULL;
		free_packet(skb->number);
		skb = next;
	}
}

PLAIN static void send_packet(int n)
{
	int owner = n < FIRST_WAITING ? n / OPTION(SENDS) : SEATS, band = COUNTS->band[n], queue = COUNTS->queue[n];
	unsigned char *last = &COUNTS->last[owner][band][queue];

	if ((COUNTS->freed | COUNTS->sent) >> n & 1)
		wrong("a packet is sent that was sent or freed before");
	COUNTS->sent |= 1ull << n;
	/* with bulk dequeue Linux 6.1 itself sends out of order (docs/LINUX.md, 'put ahead') */
	if (*last > n + 1 && !path_has_bulk())
		wrong("a sender's packets of a band are sent out of order");
	*last = n + 1;
}

static int netdev_start_xmit(struct sk_buff *skb, struct net_device *dev, struct netdev_queue *txq, bool more)
{
	int answer = ask(DEVICE, skb->number);

	if (answer == BUSY)
		return NETDEV_TX_BUSY;
	send_packet(skb->number);
	if (answer == SENT_STOP)
		netif_tx_stop_queue(txq);
	return NETDEV_TX_OK;
}

static void soft_interrupt(void)
{
#if NET_TX_ACTION_TAKES_NOTHING
	net_tx_action();
#else
	net_tx_action(NULL);
#endif
}

/* as dev_close: what waits is freed */
static void deactivate(void)
{
#if DEACTIVATION_MAY_KEEP
	dev_deactivate(&world.dev, true);
#else
	dev_deactivate(&world.dev);
#endif
}

/* Control waits, which is a full barrier; the soft interrupt of its own processor comes meanwhile. */
PLAIN static void wait_for(int question)
{
	int seat = seat_now();

	smp_mb();
	if (question == GRACE)
		COUNTS->waits = COUNTS->inside & ~(1 << seat);
	while (ask(question, 0) == SOFT_INTERRUPT)
		soft_interrupt();
	smp_mb();
}

PLAIN static void *begin_resize(void)
{
	COUNTS->alone = seat_now();
	COUNTS->spare = 0;
	return world.queues;
}

PLAIN static void **new_queue(void) { return world.fresh[0][COUNTS->spare++]; }

PLAIN static void end_resize(void) { COUNTS->alone = -1; }

/* CALLS */

/* as __dev_queue_xmit: the queueing discipline of the queue, then the packet; noop_qdisc drops it */
static void transmit(int n, int queue)
{
	struct netdev_queue *txq = &world.txq[queue];
	struct Qdisc *q = READ_ONCE(txq->qdisc);

	if (q == &noop_qdisc)
		free_packet(n);
	else
		__dev_xmit_skb(&world.skb[n], q, &world.dev, txq);
}

/* 0 active, 1 on its way down, 2 down, 3 on its way up */
PLAIN static void set_down(int is_down) { COUNTS->is_down = is_down; }
PLAIN static void enter(int seat) { COUNTS->inside |= 1 << seat; }
PLAIN static void leave(int seat)
{
	COUNTS->inside &= ~(1 << seat);
	COUNTS->waits &= ~(1 << seat);
}

void world_run(int seat, struct start it)
{
	enter(seat);
	switch (it.call) {
	case TRANSMIT: transmit(it.a, it.b / 4); break;
	case SOFTIRQ: soft_interrupt(); break;
	case WAKE: netif_tx_wake_queue(&world.txq[it.a]); break;
	case DOWN:
		deactivate();
		set_down(2);
		break;
	case UP:
		dev_activate(&world.dev);
		set_down(0);
		break;
	case CHANGE_LENGTH:
		world.dev.tx_queue_len = NEW_LEN;
		dev_qdisc_change_tx_queue_len(&world.dev);
		set_down(0);
		break;
	}
	leave(seat);
}

PLAIN static int may_send(int seat)
{
	int begun = 0;

	for (int t = 0; t < SEATS; t++)
		begun += COUNTS->sends[t];
	return COUNTS->sends[seat] < OPTION(SENDS) && (!OPTION(TOTAL) || begun < OPTION(TOTAL));
}

PLAIN int world_starts(int seat, struct start *starts)
{
	int n = 0, packet = seat * OPTION(SENDS) + COUNTS->sends[seat];

	if (may_send(seat))
		for (int queue = 0; queue < QUEUES; queue++)
			for (int band = 0; band < OPTION(BANDS); band++)
				starts[n++] = (struct start){TRANSMIT, packet, queue * 4 + (OPTION(BANDS) == 1 ? 1 : band)};
	if (path_raised(seat))
		starts[n++] = (struct start){SOFTIRQ};
	if (COUNTS->wakes)
		for (int queue = 0; queue < QUEUES; queue++)
			starts[n++] = (struct start){WAKE, queue};
	if (!COUNTS->is_down && COUNTS->downs)
		starts[n++] = (struct start){DOWN};
	if (!COUNTS->is_down && COUNTS->lengths)
		starts[n++] = (struct start){CHANGE_LENGTH};
	if (COUNTS->is_down == 2)
		starts[n++] = (struct start){UP};
	return n;
}

PLAIN void world_begin(int seat, struct start it)
{
	static const int priority_of_band[] = {6, 0, 2};

	switch (it.call) {
	case TRANSMIT:
		COUNTS->sends[seat]++;
		COUNTS->band[it.a] = it.b % 4;
		COUNTS->queue[it.a] = world.skb[it.a].queue_mapping = it.b / 4;
		world.skb[it.a].priority = priority_of_band[it.b % 4];
		break;
	case WAKE: COUNTS->wakes--; break;
	case DOWN: COUNTS->downs--, COUNTS->is_down = 1; break;
	case UP: COUNTS->is_down = 3; break;
	case CHANGE_LENGTH: COUNTS->lengths--, COUNTS->is_down = 1; break;
	}
}

PLAIN static int is_busy(void)
{
	for (int c = 0; c < CHILDREN; c++)
		if (qdisc_of(c)->seqlock.v || qdisc_of(c)->state & BIT(__QDISC_STATE_SCHED))
			return 1;
	return 0;
}

PLAIN int world_answers(int seat, int question, int about, int *answers)
{
	int n = 0;

	if (question == DEVICE) {
		answers[n++] = SENT;
		if (COUNTS->stops)
			answers[n++] = SENT_STOP;
		if (COUNTS->busy)
			answers[n++] = BUSY;
		return n;
	}
	/* a sleep that ends while the discipline is still busy changes nothing: it is left out */
	if (question == GRACE ? !COUNTS->waits : !is_busy())
		answers[n++] = WAITED;
	if (path_raised(seat))
		answers[n++] = SOFT_INTERRUPT;
	return n;
}

PLAIN void world_answered(int seat, int question, int about, int answer)
{
	if (question == DEVICE && answer == SENT_STOP)
		COUNTS->stops--;
	if (question == DEVICE && answer == BUSY)
		COUNTS->busy--;
}

PLAIN int world_alone(void) { return COUNTS->alone; }
#include "path_words.h"
