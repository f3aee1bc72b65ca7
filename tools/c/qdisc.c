/*
 * The run of `lqtx run` over one station, in C over the kernel's own ptr_ring.h, to measure against.
 *
 *   qdisc SENDERS LEN BURST IRQ_EVERY CAPTURE OUT
 *
 * Each sender is a thread and sends its packets round by round through one pfifo_fast with the flag
 * TCQ_F_NOLOCK. The device accepts everything and, where BURST isn't 0, stops the queue after each so
 * many; each sender wakes it after each IRQ_EVERY of its packets. OUT.0.pcap, OUT.fates and the counts on
 * standard output are as lqtx writes them, for packets sent and full. On standard error: the seconds
 * from the first thread's start to the last one's end.
 *
 * Built with -DSTEPS_OF_RULES a packet makes the steps that lqtx's rules ask for besides: it takes the
 * turn of its sender and gives it back, counts its call as inside, and stores each word by an exchange.
 */
#define _GNU_SOURCE
#include "kernel.h"
#include "files.h"

enum { BANDS = 3, QUOTA = 64, MAX_SENDERS = 64 };
enum { SCHED = 1, MISSED = 4, DRAINING = 8, NON_EMPTY = MISSED | DRAINING };
enum { SENT = 1, FULL = 2 };

static _Atomic uint64_t *fates; /* 0, or the kind and above it the serial */
static uint32_t *sent;
static uint32_t senders, burst, irq_every;

/* What the holder of the run lock alone uses. */
static struct {
	uint32_t sent;
	struct packet *requeued;
} holder ____cacheline_aligned_in_smp;

static _Atomic unsigned long state ____cacheline_aligned_in_smp;
static _Atomic int run_lock ____cacheline_aligned_in_smp;
static _Atomic int xoff ____cacheline_aligned_in_smp;
static struct ptr_ring rings[BANDS] ____cacheline_aligned_in_smp;

#ifdef STEPS_OF_RULES
static _Atomic uint64_t inside ____cacheline_aligned_in_smp;
static struct {
	_Atomic uint64_t word ____cacheline_aligned_in_smp;
} turns[MAX_SENDERS];
#define store(word, value) atomic_exchange(word, value)
#else
#define store(word, value) atomic_store_explicit(word, value, memory_order_release)
#endif

static __thread bool raised;

static bool try_lock(void) { return !atomic_load_explicit(&run_lock, memory_order_relaxed) && !atomic_exchange(&run_lock, 1); }

static bool run_begin(void)
{
	if (try_lock())
		return true;
	if (atomic_fetch_or(&state, MISSED) & MISSED)
		return false;
	return try_lock();
}

static void schedule(void)
{
	if (!(atomic_fetch_or(&state, SCHED) & SCHED))
		raised = true;
}

static void run_end(void)
{
	store(&run_lock, 0);
	if (atomic_load(&state) & MISSED)
		schedule();
}

static bool is_non_empty(void) { return atomic_load(&state) & NON_EMPTY; }

static void maybe_clear_missed(void)
{
	atomic_fetch_and(&state, ~(unsigned long)MISSED);
	atomic_fetch_or(&state, atomic_load(&xoff) ? DRAINING : MISSED);
}

static struct packet *pfifo_fast_dequeue(void)
{
	for (int pass = 0; pass < 2; pass++) {
		for (int band = 0; band < BANDS; band++) {
			struct packet *p = NULL;

			if (!__ptr_ring_empty(&rings[band]))
				p = __ptr_ring_consume(&rings[band]);
			if (p)
				return p;
		}
		if (pass || !is_non_empty())
			return NULL;
		atomic_fetch_and(&state, ~(unsigned long)MISSED);
		atomic_fetch_and(&state, ~(unsigned long)DRAINING);
	}
	return NULL;
}

static struct packet *dequeue(void)
{
	struct packet *p = holder.requeued;

	if (atomic_load(&xoff)) {
		maybe_clear_missed();
		return NULL;
	}
	if (!p)
		return pfifo_fast_dequeue();
	holder.requeued = NULL;
	return p;
}

static bool sch_direct_xmit(struct packet *p)
{
	uint32_t n = p - packets;

	if (atomic_load(&xoff)) {
		maybe_clear_missed();
		holder.requeued = p;
		atomic_fetch_or(&state, MISSED);
		return false;
	}
	sent[holder.sent] = n;
	store(&fates[n], SENT | (uint64_t)holder.sent << 8);
	holder.sent++;
	if (burst && holder.sent % burst == 0)
		store(&xoff, 1);
	return true;
}

static void qdisc_run(void)
{
	int quota = QUOTA;
	struct packet *p;

	while ((p = dequeue()) && sch_direct_xmit(p)) {
		if (--quota == 0) {
			atomic_fetch_or(&state, MISSED);
			break;
		}
	}
}

static void enqueue(struct packet *p)
{
	if (ptr_ring_produce(&rings[p->band], p))
		store(&fates[p - packets], FULL);
}

static void dev_xmit_skb(struct packet *p)
{
	if (is_non_empty() || !run_begin()) {
		enqueue(p);
		if (!run_begin())
			return;
		qdisc_run();
	} else if (is_non_empty()) {
		enqueue(p);
		qdisc_run();
	} else if (sch_direct_xmit(p) && is_non_empty()) {
		qdisc_run();
	}
	run_end();
}

static void net_tx_action(void)
{
	while (raised) {
		raised = false;
		atomic_fetch_and(&state, ~(unsigned long)SCHED);
		if (run_begin()) {
			qdisc_run();
			run_end();
		}
	}
}

static void netif_wake_queue(void)
{
	int stopped = 1;

	if (atomic_compare_exchange_strong(&xoff, &stopped, 0))
		schedule();
}

static void transmit(uint32_t sender, uint32_t rank, struct packet *p)
{
#ifdef STEPS_OF_RULES
	uint64_t turn = 2 * (uint64_t)rank;

	atomic_compare_exchange_strong(&turns[sender].word, &turn, turn + 1);
	atomic_fetch_add(&inside, 1);
	dev_xmit_skb(p);
	atomic_fetch_sub(&inside, 1);
	store(&turns[sender].word, turn + 2);
#else
	(void)sender, (void)rank;
	dev_xmit_skb(p);
#endif
}

static void *send_all(void *arg)
{
	uint32_t sender = (uintptr_t)arg, rank = 0;

	for (uint32_t n = sender; n < count; n += senders) {
		transmit(sender, rank, &packets[n]);
		net_tx_action();
		if (++rank % irq_every == 0)
			netif_wake_queue();
		net_tx_action();
	}
	return NULL;
}

static bool is_quiet(void)
{
	if (holder.requeued || atomic_load(&xoff) || atomic_load(&state) & SCHED)
		return false;
	for (int band = 0; band < BANDS; band++)
		if (!__ptr_ring_empty(&rings[band]))
			return false;
	return true;
}

static void send_what_is_left(void)
{
	while (!is_quiet()) {
		netif_wake_queue();
		net_tx_action();
		if (run_begin()) {
			qdisc_run();
			run_end();
		}
	}
}

static void classify(struct packet *p, const uint8_t *frame, uint32_t len)
{
	/* ip_tos2prio of net/ipv4/route.c, and prio2band of net/sched/sch_generic.c */
	static const uint8_t prio[16] = { 0, 0, 0, 0, 2, 2, 2, 2, 6, 6, 6, 6, 4, 4, 4, 4 };
	static const uint8_t band[16] = { 1, 2, 2, 2, 1, 2, 0, 0, 1, 1, 1, 1, 1, 1, 1, 1 };
	bool is_ipv4 = len >= 34 && frame[12] == 8 && frame[13] == 0 && frame[14] >> 4 == 4;

	p->band = band[is_ipv4 ? prio[(frame[15] & 0x1e) / 2] : 0];
}

static char *put_fate(char *at, uint32_t n)
{
	uint64_t fate = atomic_load_explicit(&fates[n], memory_order_relaxed);

	return put_number(stpcpy(at, (fate & 255) == SENT ? " sent 0 " : " full "), fate >> 8);
}

static void send(uint32_t len)
{
	fates = have(calloc(count + 1, sizeof(*fates)));
	sent = have(malloc((count + 1) * sizeof(*sent)));
	for (int band = 0; band < BANDS; band++)
		if (ptr_ring_init(&rings[band], len, 0))
			die(6, "no memory");
	/* this thread is the first sender */
	run_threads(1, senders, send_all, send_all, send_what_is_left);
}

int main(int words, char **word)
{
	uint32_t full;

	if (words != 7)
		die(2, "usage: qdisc SENDERS LEN BURST IRQ_EVERY CAPTURE OUT");
	senders = atoi(word[1]);
	burst = atoi(word[3]);
	irq_every = atoi(word[4]);
	if (senders < 1 || senders > MAX_SENDERS || irq_every < 1)
		die(2, "a number out of range");
	read_capture(word[5]);
	read_packets();
	send(atoi(word[2]));
	write_packets(word[6], ".0.pcap", sent, holder.sent);
	write_fates(word[6], put_fate);
	full = count - holder.sent;
	printf("unit 0 sent %u\nstation 0 full %u shrunk 0 purged 0 refused 0\n", holder.sent, full);
	printf("total %u sent %u full %u shrunk 0 purged 0 refused 0\n", count, holder.sent, full);
	return 0;
}
