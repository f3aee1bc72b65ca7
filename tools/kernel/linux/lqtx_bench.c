// SPDX-License-Identifier: GPL-2.0
/*
 * lqtx_bench: Ethernet devices that answer as the built-in device of lqtx
 * does, and the words of their queueing disciplines.
 *
 * Each device has one unit, which all of its transmit queues share, or one
 * unit for each queue.  A unit answers by burst, busy_every, busy_limit and
 * hang_after (docs/RULES.md, 'Devices') and logs each packet that it accepted.
 * A queue that was stopped is opened by the command "wake" and by nothing
 * else.  After the command "card" the device is a card's: its driver stops the
 * queue where no descriptor is left, or by byte queue limits, and "ended" says
 * how many frames have left the wire.  A probe on the tracepoint kfree_skb
 * logs each packet of these devices that the kernel drops.
 *
 * A packet's mark is its number, with its transmit queue in the upper byte.
 *
 * Commands are written to /proc/lqtx_bench, one with each write: those of the
 * table `commands`.  The answer is read from the file's start.
 */
#include <linux/crc32.h>
#include <linux/etherdevice.h>
#include <linux/irq_work.h>
#include <linux/kernel_stat.h>
#include <linux/module.h>
#include <linux/netdevice.h>
#include <linux/proc_fs.h>
#include <linux/rtnetlink.h>
#include <linux/skb_array.h>
#include <linux/version.h>
#include <linux/vmalloc.h>
#include <net/pkt_sched.h>
#include <net/sch_generic.h>
#include <trace/events/skb.h>

#define BENCH_DEVICES	8
#define BENCH_QUEUES	8
#define BENCH_RETIRED	64
#define BENCH_BANDS	3
#define BENCH_ANSWER	(16 << 20)
#define BENCH_COMMAND	8192
#define BENCH_MTU	4096
#define BENCH_PATIENCE	5000	/* jiffies until a scheduled qdisc is given up */

#define NUMBER_OF(mark)	((mark) & 0xffffff)
#define QUEUE_OF(mark)	((mark) >> 24)

/* What a slot counts as whose packet was taken and that isn't empty yet. */
#define STALE		0xffffffffU

/* As in net/sched/sch_generic.c, where it is private. */
struct pfifo_fast_priv {
	struct skb_array q[BENCH_BANDS];
};

struct accepted {
	u32 mark, priority, crc, queue, len;
};

struct dropped {
	u32 mark;
	void *where;
};

struct unit {
	u32 burst, busy_every, busy_limit, hang_after, calls, busy, accepted;
	bool hung;
	struct accepted *log;
};

/* The private part of a device */
struct bench {
	u32 number;		/* in commands and answers */
	u32 queues;
	u32 room;		/* entries that each log has room for */
	bool shared;		/* one qdisc and one unit for all queues */
	u32 waits;		/* how often a scheduled qdisc was waited for */
	atomic_t overflow;	/* packets for which a log had no room */
	atomic_t dropped;	/* packets that the kernel dropped */
	struct dropped *drops;	/* log of these */
	u32 descriptors;	/* of a card's driver; 0 is no such limit */
	u32 bytes;		/* its byte queue limit; 0 is none */
	u32 ended;		/* frames that it knows to have left the wire */
	struct unit unit[BENCH_QUEUES];	/* the first alone where shared */
};

static struct net_device *devices[BENCH_DEVICES];
static struct net_device *retired[BENCH_RETIRED];
static unsigned int retired_count;
static DEFINE_MUTEX(bench_lock);
static char *answer;
static size_t answer_len;
static u32 softirqs_told;

static __printf(1, 2) void say(const char *format, ...)
{
	va_list args;

	va_start(args, format);
	answer_len += vscnprintf(answer + answer_len, BENCH_ANSWER - answer_len, format, args);
	va_end(args);
}

static u32 unit_count(const struct bench *b) { return b->shared ? 1 : b->queues; }
static struct unit *unit_of(struct bench *b, u32 queue) { return &b->unit[b->shared ? 0 : queue]; }

/* The device */

static void log_accepted(struct bench *b, struct unit *u, struct sk_buff *skb)
{
	if (u->accepted < b->room)
		u->log[u->accepted] = (struct accepted){
			.mark = skb->mark,
			.priority = skb->priority,
			.crc = ~crc32_le(~0, skb->data, skb_headlen(skb)),
			.queue = skb_get_queue_mapping(skb),
			.len = skb->len,
		};
	else
		atomic_inc(&b->overflow);
	u->accepted++;
}

static bool has_descriptor(const struct bench *b) { return !b->descriptors || b->unit[0].accepted - b->ended < b->descriptors; }

/* As drivers do it: BUSY is an error of the driver or of the stack. */
static netdev_tx_t card_start_xmit(struct bench *b, struct sk_buff *skb, struct netdev_queue *txq)
{
	struct unit *u = &b->unit[0];
	u32 len = skb->len;

	u->calls++;
	if (!has_descriptor(b)) {
		u->busy++;
		return NETDEV_TX_BUSY;
	}
	log_accepted(b, u, skb);
	dev_consume_skb_any(skb);
	if (b->bytes)
		netdev_tx_sent_queue(txq, len);
	if (!has_descriptor(b))
		netif_tx_stop_queue(txq);
	return NETDEV_TX_OK;
}

static netdev_tx_t bench_start_xmit(struct sk_buff *skb, struct net_device *dev)
{
	struct bench *b = netdev_priv(dev);
	u32 queue = skb_get_queue_mapping(skb);
	struct unit *u = unit_of(b, queue);

	if (b->descriptors || b->bytes)
		return card_start_xmit(b, skb, netdev_get_tx_queue(dev, queue));

	u->calls++;
	if (u->busy_every && u->calls % u->busy_every == 0 && u->busy < u->busy_limit) {
		u->busy++;
		return NETDEV_TX_BUSY;
	}

	log_accepted(b, u, skb);
	dev_consume_skb_any(skb);

	if (u->hang_after && u->accepted == u->hang_after) {
		u->hung = true;
		for (u32 i = 0; i < b->queues; i++)
			if (b->shared || i == queue)
				netif_tx_stop_queue(netdev_get_tx_queue(dev, i));
	} else if (u->burst && u->accepted % u->burst == 0) {
		netif_tx_stop_queue(netdev_get_tx_queue(dev, queue));
	}
	return NETDEV_TX_OK;
}

static u16 bench_select_queue(struct net_device *dev, struct sk_buff *skb, struct net_device *sb_dev)
{
	return QUEUE_OF(skb->mark) % dev->real_num_tx_queues;
}

/* A queue stays as it is while the device goes down and up. */
static int bench_stay(struct net_device *dev) { return 0; }

static const struct net_device_ops bench_ops = {
	.ndo_open		= bench_stay,
	.ndo_stop		= bench_stay,
	.ndo_start_xmit		= bench_start_xmit,
	.ndo_select_queue	= bench_select_queue,
};

#if LINUX_VERSION_CODE >= KERNEL_VERSION(6, 11, 0)
static void probe_kfree_skb(void *data, struct sk_buff *skb, void *where, enum skb_drop_reason reason, struct sock *rx_sk)
#else
static void probe_kfree_skb(void *data, struct sk_buff *skb, void *where, enum skb_drop_reason reason)
#endif
{
	struct bench *b;
	u32 at;

	if (!skb->dev || skb->dev->netdev_ops != &bench_ops)
		return;
	b = netdev_priv(skb->dev);
	at = atomic_inc_return(&b->dropped) - 1;
	if (at < b->room)
		b->drops[at] = (struct dropped){ skb->mark, where };
	else
		atomic_inc(&b->overflow);
}

/* Making and freeing */

/* Devices are unregistered many at a time, since each time waits for a grace period. */
static void unregister_retired(void)
{
	LIST_HEAD(gone);

	rtnl_lock();
	for (unsigned int i = 0; i < retired_count; i++)
		unregister_netdevice_queue(retired[i], &gone);
	unregister_netdevice_many(&gone);
	rtnl_unlock();
	for (unsigned int i = 0; i < retired_count; i++) {
		vfree(((struct bench *)netdev_priv(retired[i]))->drops);
		free_netdev(retired[i]);
	}
	retired_count = 0;
}

static int retire_devices(struct net_device *none, const u32 *n, const char *rest)
{
	for (u32 j = 0; j < BENCH_DEVICES; j++) {
		if (!devices[j])
			continue;
		rtnl_lock();
		dev_close(devices[j]);
		rtnl_unlock();
		retired[retired_count++] = devices[j];
		devices[j] = NULL;
		if (retired_count == BENCH_RETIRED)
			unregister_retired();
	}
	return 0;
}

/* Units that have seen no packet yet */
static void set_params(struct bench *b, const u32 *params)
{
	for (u32 i = 0; i < unit_count(b); i++)
		b->unit[i] = (struct unit){
			.burst = params[0],
			.busy_every = params[1],
			.busy_limit = params[2],
			.hang_after = params[3],
			.log = b->unit[i].log,
		};
}

/* One block for all logs, which begins with that of the drops. */
static bool make_logs(struct bench *b)
{
	size_t entry = sizeof(*b->drops) + unit_count(b) * sizeof(struct accepted);
	struct accepted *log;

	b->drops = vzalloc(array_size(b->room, entry));
	log = (struct accepted *)(b->drops + b->room);
	for (u32 i = 0; i < unit_count(b); i++)
		b->unit[i].log = log + i * b->room;
	return b->drops;
}

static int make_device(struct net_device *none, const u32 *n, const char *rest)
{
	u32 j = n[0], queues = n[2];
	struct net_device *dev;
	struct bench *b;
	int err = -ENOMEM;

	if (devices[j])
		return -EEXIST;
	if (!queues || queues > BENCH_QUEUES)
		return -EINVAL;
	dev = alloc_netdev_mqs(sizeof(*b), "lq%d", NET_NAME_ENUM, ether_setup, queues, 1);
	if (!dev)
		return -ENOMEM;
	b = netdev_priv(dev);
	b->number = j;
	b->queues = queues;
	b->shared = n[3] || queues == 1;
	b->room = n[4];
	if (!make_logs(b))
		goto free;
	set_params(b, n + 5);

	dev->netdev_ops = &bench_ops;
	dev->flags |= IFF_NOARP;
	dev->tx_queue_len = n[1];
	dev->max_mtu = ETH_MAX_MTU;
	dev->mtu = BENCH_MTU;
	eth_hw_addr_random(dev);
	err = register_netdev(dev);
	if (err)
		goto free;
	devices[j] = dev;
	say("device %s\n", dev->name);
	return 0;

free:
	vfree(b->drops);
	free_netdev(dev);
	return err;
}

/* Waking and waiting */

static struct Qdisc *qdisc_of(struct net_device *dev, u32 queue)
{
	struct netdev_queue *txq = netdev_get_tx_queue(dev, queue);

	return rcu_dereference_raw(txq->qdisc_sleeping);
}

static void wake_queues(struct net_device *dev)
{
	struct bench *b = netdev_priv(dev);

	for (u32 i = 0; i < b->queues; i++)
		if (!unit_of(b, i)->hung)
			netif_tx_wake_queue(netdev_get_tx_queue(dev, i));
}

struct hard_wake {
	struct irq_work work;
	struct net_device *dev;
};

static void hard_wake_fn(struct irq_work *work) { wake_queues(container_of(work, struct hard_wake, work)->dev); }

/* From a hard interrupt, as most drivers do, or with soft interrupts off. */
static void wake_device(struct net_device *dev, bool hard)
{
	struct hard_wake wake = { .work = IRQ_WORK_INIT_HARD(hard_wake_fn), .dev = dev };

	if (hard) {
		irq_work_queue(&wake.work);
		irq_work_sync(&wake.work);
	} else {
		local_bh_disable();
		wake_queues(dev);
		local_bh_enable();
	}
}

static int kick(struct net_device *dev, const u32 *n, const char *rest)
{
	wake_device(dev, n[1]);
	return 0;
}

/* With one number as both of its bounds a byte queue limit is that from the first completion on. */
static int set_card(struct net_device *dev, const u32 *n, const char *rest)
{
	struct netdev_queue *txq = netdev_get_tx_queue(dev, 0);
	struct bench *b = netdev_priv(dev);

	b->descriptors = n[1];
	b->bytes = n[2];
	if (b->bytes) {
		txq->dql.min_limit = b->bytes;
		txq->dql.max_limit = b->bytes;
		local_bh_disable();
		netdev_tx_sent_queue(txq, 1);
		netdev_tx_completed_queue(txq, 1, 1);
		local_bh_enable();
	}
	return 0;
}

/* A driver's poll: so many frames have left the wire. */
static int poll_card(struct net_device *dev, const u32 *n, const char *rest)
{
	struct netdev_queue *txq = netdev_get_tx_queue(dev, 0);
	struct bench *b = netdev_priv(dev);
	u32 frames = n[1];
	u32 bytes = 0;

	if (frames > b->unit[0].accepted - b->ended)
		return -EINVAL;
	local_bh_disable();
	for (u32 i = 0; i < frames; i++)
		bytes += b->unit[0].log[b->ended++].len;
	if (b->bytes)
		netdev_tx_completed_queue(txq, frames, bytes);
	if (netif_tx_queue_stopped(txq) && has_descriptor(b))
		netif_tx_wake_queue(txq);
	local_bh_enable();
	return 0;
}

static bool is_scheduled(struct net_device *dev)
{
	for (u32 i = 0; i < unit_count(netdev_priv(dev)); i++)
		if (test_bit(__QDISC_STATE_SCHED, &qdisc_of(dev, i)->state))
			return true;
	return false;
}

/* Waits until no soft interrupt of the device is to come. */
static int settle(struct net_device *dev)
{
	struct bench *b = netdev_priv(dev);
	u32 patience = BENCH_PATIENCE;

	/* what is pending runs where soft interrupts are let in again */
	local_bh_disable();
	local_bh_enable();
	while (is_scheduled(dev)) {
		if (!patience--)
			return -ETIME;
		b->waits++;
		schedule_timeout_uninterruptible(1);
	}
	return 0;
}

/* Telling */

static u32 softirqs_since_told(void)
{
	u32 before = softirqs_told;
	int cpu;

	softirqs_told = 0;
	for_each_online_cpu(cpu)
		softirqs_told += kstat_softirqs_cpu(NET_TX_SOFTIRQ, cpu);
	return softirqs_told - before;
}

static void say_list(const struct sk_buff_head *list)
{
	const struct sk_buff *skb;
	const char *before = "";

	say(" ");
	skb_queue_walk(list, skb) {
		say("%s%u", before, NUMBER_OF(skb->mark));
		before = ",";
	}
	if (skb_queue_empty(list))
		say("-");
}

static u32 held_in(const struct ptr_ring *ring)
{
	if (!ring->queue[ring->consumer_head])
		return 0;
	if (ring->producer > ring->consumer_head)
		return ring->producer - ring->consumer_head;
	return ring->producer + ring->size - ring->consumer_head;
}

static u32 entry_of(const struct ptr_ring *ring, u32 slot, u32 held)
{
	u32 behind = (slot + ring->size - ring->consumer_head) % ring->size;
	const struct sk_buff *skb = ring->queue[slot];

	if (!skb)
		return 0;
	/* a packet that was taken may be freed already */
	return behind < held ? NUMBER_OF(skb->mark) + 1 : STALE;
}

/* producer,head,tail,size,batch,held,sum: the sum is that of all slots, each times the power of 31 that its number is, in 64 bits. */
static void say_ring(const struct ptr_ring *ring, bool marks)
{
	u32 held = held_in(ring);
	u64 power = 1;
	u64 sum = 0;

	for (u32 i = 0; i < ring->size; i++) {
		sum += power * entry_of(ring, i, held);
		power *= 31;
	}
	say(" %d,%d,%d,%d,%d,%u,%llx", ring->producer, ring->consumer_head, ring->consumer_tail, ring->size, ring->batch, held, sum);
	if (!marks)
		return;
	for (u32 i = 0; i < held; i++)
		say("%c%u", i ? ',' : ':', entry_of(ring, (ring->consumer_head + i) % ring->size, held) - 1);
}

/*
 * W NUMBER QDISC STATE LOCK STOPS REQUEUED BAD_TXQ ACCEPTED DROPPED SOFTIRQS and the three rings. STOPS has a digit for each queue: open,
 * stopped, hung. DROPPED is a count of the whole device.
 */
static void say_words(struct net_device *dev, bool marks)
{
	struct bench *b = netdev_priv(dev);
	struct pfifo_fast_priv *priv;
	struct netdev_queue *txq;
	u32 softirqs = softirqs_since_told();
	struct Qdisc *q;

	for (u32 i = 0; i < unit_count(b); i++) {
		q = qdisc_of(dev, i);
		say("W %u %u %lu %d ", b->number, i, q->state, spin_is_locked(&q->seqlock));
		for (u32 j = 0; j < b->queues; j++) {
			txq = netdev_get_tx_queue(dev, j);
			if (!b->shared && j != i)
				continue;
			say("%d", !netif_xmit_stopped(txq) ? 0 : unit_of(b, j)->hung ? 2 : 1);
		}
		say_list(&q->gso_skb);
		say_list(&q->skb_bad_txq);
		say(" %u %u %u", b->unit[i].accepted, atomic_read(&b->dropped), i ? 0 : softirqs);
		if (q->ops != &pfifo_fast_ops) {
			say(" %s\n", q->ops->id);
			continue;
		}
		priv = qdisc_priv(q);
		for (u32 j = 0; j < BENCH_BANDS; j++)
			say_ring(&priv->q[j].ring, marks);
		say("\n");
	}
}

/* L NUMBER UNIT CALLS BUSY ACCEPTED HUNG, and each packet that was accepted */
static void say_units(struct net_device *dev)
{
	struct bench *b = netdev_priv(dev);
	struct accepted *entry;
	struct unit *u;

	for (u32 i = 0; i < unit_count(b); i++) {
		u = &b->unit[i];
		say("L %u %u %u %u %u %d", b->number, i, u->calls, u->busy, u->accepted, u->hung);
		for (u32 k = 0; k < min(u->accepted, b->room); k++) {
			entry = &u->log[k];
			say(" %u/%u/%x/%u", NUMBER_OF(entry->mark), entry->priority, entry->crc, entry->queue);
		}
		say("\n");
	}
}

/* The units, then G NUMBER OVERFLOW WAITS, and each packet that was dropped */
static int say_logs(struct net_device *dev, const u32 *n, const char *rest)
{
	struct bench *b = netdev_priv(dev);
	u32 count = atomic_read(&b->dropped);

	say_units(dev);
	say("G %u %d %u", b->number, atomic_read(&b->overflow), b->waits);
	for (u32 i = 0; i < min(count, b->room); i++)
		say(" %u/%ps", NUMBER_OF(b->drops[i].mark), b->drops[i].where);
	say("\n");
	return 0;
}

/* Events that a kernel doesn't have as such */

/*
 * The resize that a change of tx_queue_len does, while the qdisc is active, and then the end of a run. Nothing else may use the device
 * meanwhile.
 */
static int resize_live(struct net_device *dev, const u32 *n, const char *rest)
{
	struct Qdisc *q;
	int err = 0;

	rtnl_lock();
	for (u32 i = 0; i < unit_count(netdev_priv(dev)) && !err; i++) {
		q = qdisc_of(dev, i);
		err = q->ops->change_tx_queue_len(q, n[1]);
		if (err)
			break;
		local_bh_disable();
		if (qdisc_run_begin(q))
			qdisc_run_end(q);
		local_bh_enable();
	}
	if (!err)
		dev->tx_queue_len = n[1];
	rtnl_unlock();
	return err;
}

/* Another device in the place of this one, which goes down and up. */
static int swap_device(struct net_device *dev, const u32 *n, const char *rest)
{
	struct bench *b = netdev_priv(dev);
	int err;

	rtnl_lock();
	dev_close(dev);
	say_units(dev);
	set_params(b, n + 1);
	for (u32 i = 0; i < b->queues; i++)
		netif_tx_start_queue(netdev_get_tx_queue(dev, i));
	err = dev_open(dev, NULL);
	rtnl_unlock();
	return err;
}

static int forbid_bypass(struct net_device *dev, const u32 *n, const char *rest)
{
	for (u32 i = 0; i < unit_count(netdev_priv(dev)); i++)
		qdisc_of(dev, i)->flags &= ~TCQ_F_CAN_BYPASS;
	return 0;
}

static bool is_done(struct net_device *dev)
{
	struct bench *b = netdev_priv(dev);
	struct pfifo_fast_priv *priv;
	struct netdev_queue *txq;
	struct Qdisc *q;

	if (!netif_running(dev))
		return true;
	for (u32 i = 0; i < b->queues; i++) {
		txq = netdev_get_tx_queue(dev, i);
		q = qdisc_of(dev, i);
		if (unit_of(b, i)->hung)
			continue;
		if (netif_xmit_stopped(txq) || q->gso_skb.qlen || q->skb_bad_txq.qlen)
			return false;
		priv = qdisc_priv(q);
		for (u32 j = 0; j < BENCH_BANDS; j++)
			if (held_in(&priv->q[j].ring))
				return false;
	}
	return true;
}

/* Wakes until nothing is held and all is open, but where a unit hangs. */
static int finish(struct net_device *dev, const u32 *n, const char *rest)
{
	u32 done = 0;
	int err = 0;

	while (!err && !is_done(dev)) {
		if (done++ == n[1])
			return -ELOOP;
		wake_device(dev, false);
		err = settle(dev);
	}
	say("R %u\n", done);
	return err;
}

/* A frame comes in on the device, as from a wire. */
static int receive(struct net_device *dev, const u32 *n, const char *hex)
{
	size_t len = strlen(hex) / 2;
	struct sk_buff *skb = netdev_alloc_skb(dev, len + NET_IP_ALIGN);

	if (!skb)
		return -ENOMEM;
	skb_reserve(skb, NET_IP_ALIGN);
	if (hex2bin(skb_put(skb, len), hex, len)) {
		kfree_skb(skb);
		return -EINVAL;
	}
	skb->mark = n[1];
	skb->protocol = eth_type_trans(skb, dev);
	skb->pkt_type = PACKET_HOST;
	local_bh_disable();
	netif_rx(skb);
	local_bh_enable();
	return 0;
}

/* Commands */

enum tells { NOTHING, WORDS, WORDS_AND_MARKS };

/*
 * How many numbers a command has, of which the first is the device's, what it does, and whether the words are told afterwards, once all is
 * quiet.
 */
static const struct command {
	const char *name;
	int numbers;
	int (*run)(struct net_device *dev, const u32 *n, const char *rest);
	enum tells tells;
} commands[] = {
	{ "free", 0, retire_devices },
	/* NUMBER LEN QUEUES SHARED ROOM, and the four params */
	{ "new", 9, make_device },
	/* NUMBER DESCRIPTORS BYTES: 0 is no limit */
	{ "card", 3, set_card },
	{ "words", 1, NULL, WORDS },
	{ "all_words", 1, NULL, WORDS_AND_MARKS },
	/* NUMBER HARD; of several senders "kick", without waiting */
	{ "wake", 2, kick, WORDS },
	{ "kick", 2, kick },
	{ "ended", 2, poll_card, WORDS },
	{ "finish", 2, finish, WORDS_AND_MARKS },
	{ "logs", 1, say_logs },
	{ "no_bypass", 1, forbid_bypass },
	{ "resize", 2, resize_live },
	{ "swap", 5, swap_device },
	/* NUMBER MARK HEX */
	{ "receive", 2, receive },
};

static int run_command(const struct command *c, const char *rest)
{
	struct net_device *dev;
	u32 n[9] = { 0 };
	int err, i, len;

	for (i = 0; i < c->numbers; i++, rest += len)
		if (sscanf(rest, "%u%n", &n[i], &len) != 1)
			return -EINVAL;
	if (n[0] >= BENCH_DEVICES)
		return -EINVAL;
	dev = devices[n[0]];
	if (!dev && c->run != make_device && c->run != retire_devices)
		return -ENODEV;
	err = c->run ? c->run(dev, n, skip_spaces(rest)) : 0;
	if (c->tells == NOTHING)
		return err;
	err = err ?: settle(dev);
	say_words(dev, c->tells == WORDS_AND_MARKS);
	return err;
}

static int command(const char *text)
{
	size_t len = strcspn(text, " ");

	for (u32 i = 0; i < ARRAY_SIZE(commands); i++)
		if (strlen(commands[i].name) == len && !strncmp(commands[i].name, text, len))
			return run_command(&commands[i], text + len);
	return -EINVAL;
}

static ssize_t bench_write(struct file *file, const char __user *from, size_t len, loff_t *place)
{
	char *text;
	int err;

	if (len >= BENCH_COMMAND)
		return -EINVAL;
	text = memdup_user_nul(from, len);
	if (IS_ERR(text))
		return PTR_ERR(text);
	mutex_lock(&bench_lock);
	answer_len = 0;
	err = command(strim(text));
	mutex_unlock(&bench_lock);
	kfree(text);
	return err ? err : len;
}

static ssize_t bench_read(struct file *file, char __user *to, size_t len, loff_t *place)
{
	return simple_read_from_buffer(to, len, place, answer, answer_len);
}

static const struct proc_ops bench_proc_ops = { .proc_write = bench_write, .proc_read = bench_read, .proc_lseek = default_llseek };

static int __init bench_init(void)
{
	int err;

	answer = vzalloc(BENCH_ANSWER);
	if (!answer)
		return -ENOMEM;
	err = register_trace_kfree_skb(probe_kfree_skb, NULL);
	if (err)
		goto free;
	if (!proc_create("lqtx_bench", 0600, NULL, &bench_proc_ops)) {
		err = -ENOMEM;
		goto unregister;
	}
	return 0;

unregister:
	unregister_trace_kfree_skb(probe_kfree_skb, NULL);
	tracepoint_synchronize_unregister();
free:
	vfree(answer);
	return err;
}

static void __exit bench_exit(void)
{
	remove_proc_entry("lqtx_bench", NULL);
	retire_devices(NULL, NULL, NULL);
	unregister_retired();
	unregister_trace_kfree_skb(probe_kfree_skb, NULL);
	tracepoint_synchronize_unregister();
	vfree(answer);
}

module_init(bench_init);
module_exit(bench_exit);
MODULE_DESCRIPTION("Devices that answer as the built-in device of lqtx does");
MODULE_LICENSE("GPL");
