/*
 * The run of `lqtx tap`, in C over the kernel's own ptr_ring.h, to measure against.
 *
 *   tap SENDERS LEN BATCH CAPTURE OUT
 *
 * Each sender is a thread and puts its packets into one ring. The reader takes batches, reads the first half of each, rounded up,
 * and gives the rest back. OUT.pcap, OUT.fates and the counts on standard output are as lqtx writes them. On standard error: the
 * seconds from the first thread's start to the last one's end.
 */
#define _GNU_SOURCE
#include "kernel.h"
#include "files.h"

enum { MAX_SENDERS = 8, MAX_BATCH = 64 };
enum { READ = 1, FULL = 2, LOST = 3 };

static uint64_t *fates; /* the kind, and above it the place or the packet seen */
static uint32_t *taken, taken_count, lost_count;
static uint32_t senders, most;

static struct ptr_ring ring ____cacheline_aligned_in_smp;
static _Atomic uint32_t ended ____cacheline_aligned_in_smp;

static void classify(struct packet *p, const uint8_t *frame, uint32_t len) { (void)p, (void)frame, (void)len; }

/* ptr_ring_produce, which tells the packet in the slot of a full ring too */
static struct packet *produce(struct packet *p)
{
	struct packet *seen;

	spin_lock(&ring.producer_lock);
	seen = READ_ONCE(ring.queue[ring.producer]);
	if (!seen)
		__ptr_ring_produce(&ring, p);
	spin_unlock(&ring.producer_lock);
	return seen;
}

static void *put_all(void *arg)
{
	for (uint32_t n = (uintptr_t)arg; n < count; n += senders) {
		struct packet *seen = produce(&packets[n]);

		if (seen)
			fates[n] = FULL | (uint64_t)(seen - packets) << 8;
	}
	atomic_fetch_add(&ended, 1);
	return NULL;
}

static void lose(void *p)
{
	fates[(struct packet *)p - packets] = LOST;
	lost_count++;
}

static void *read_all(void *none)
{
	void *batch[MAX_BATCH];

	for (;;) {
		bool over = atomic_load(&ended) == senders;
		int many = ptr_ring_consume_batched(&ring, batch, most), half = many - many / 2;

		if (!many && over)
			return none;
		for (int i = 0; i < half; i++)
			taken[taken_count++] = (struct packet *)batch[i] - packets;
		if (many)
			ptr_ring_unconsume(&ring, batch + half, many - half, lose);
	}
}

static void run(uint32_t len)
{
	fates = have(calloc(count + 1, sizeof(*fates)));
	taken = have(malloc((count + 1) * sizeof(*taken)));
	if (ptr_ring_init(&ring, len, 0))
		die(6, "no memory");
	run_threads(0, senders, put_all, read_all, NULL);
}

static char *put_fate(char *at, uint32_t n)
{
	uint64_t fate = fates[n];

	if (fate == LOST)
		return stpcpy(at, " lost");
	return put_number(stpcpy(at, (fate & 255) == READ ? " read " : " full "), fate >> 8);
}

int main(int words, char **word)
{
	if (words != 6)
		die(2, "usage: tap SENDERS LEN BATCH CAPTURE OUT");
	senders = atoi(word[1]);
	most = atoi(word[3]);
	if (senders < 1 || senders > MAX_SENDERS || most < 1 || most > MAX_BATCH)
		die(2, "a number out of range");
	read_capture(word[4]);
	read_packets();
	run(atoi(word[2]));
	for (uint32_t i = 0; i < taken_count; i++)
		fates[taken[i]] = READ | (uint64_t)i << 8;
	write_packets(word[5], ".pcap", taken, taken_count);
	write_fates(word[5], put_fate);
	printf("total %u read %u full %u lost %u\n", count, taken_count, count - taken_count - lost_count, lost_count);
	return 0;
}
