// SPDX-License-Identifier: GPL-2.0
/*
 * The device left0, whose one queue is stopped and woken as /proc/left is told, and rounds in which its qdisc is deactivated and activated again
 * with packets in it. tools/kernel/linux/left-init writes the number of an order to /proc/left, changes the length of the queue, and reads the verdict.
 *
 * WAKE_DETACHED  the wake comes where the deactivation waits for its grace period: the queue has noop_qdisc
 * LATE_SOFTIRQ   the wake came before; its soft interrupt finds DEACTIVATED
 * FROZEN         the wake came before; its run finds the queue frozen by netdev_watchdog_down, which freezes it 2 ms longer here
 * ANY_TIME       the wake comes after up to 3 ms
 */
#include <linux/delay.h>
#include <linux/etherdevice.h>
#include <linux/kprobes.h>
#include <linux/module.h>
#include <linux/netdevice.h>
#include <linux/proc_fs.h>
#include <linux/random.h>
#include <linux/rtnetlink.h>
#include <linux/workqueue.h>
#include <net/sch_generic.h>

enum order { NONE, WAKE_DETACHED, LATE_SOFTIRQ, FROZEN, ANY_TIME };
#define PACKETS 3
#define HOLD_MS 20
#define PATIENCE_NS 2000000000ull

static struct net_device *dev;
static struct netdev_queue *txq;
static struct work_struct work;
static int order, came_about, cure, hold_frozen, is_ready;
module_param(cure, int, 0644); /* each queue is scheduled when dev_activate returns */
static atomic_t accepted;
static u32 before;

static struct Qdisc *own_qdisc(void) { return rcu_dereference_raw(txq->qdisc_sleeping); }
static bool is_deactivated(void) { return test_bit(__QDISC_STATE_DEACTIVATED, &own_qdisc()->state); }
static bool is_frozen(void) { return test_bit(__QUEUE_STATE_FROZEN, &txq->state); }
static bool has_begun(void) { return READ_ONCE(is_ready); }

/* Waits until something holds, or until it is too late for it; whether it does. */
static bool await(bool (*holds)(void))
{
	u64 end = ktime_get_ns() + PATIENCE_NS;

	while (!holds() && ktime_get_ns() < end)
		cpu_relax();
	return holds();
}

static netdev_tx_t left_xmit(struct sk_buff *skb, struct net_device *d)
{
	dev_consume_skb_any(skb);
	atomic_inc(&accepted);
	return NETDEV_TX_OK;
}

static int left_open(struct net_device *d)
{
	netif_tx_start_all_queues(d);
	return 0;
}

static int left_stop(struct net_device *d) { return 0; }

static const struct net_device_ops left_ops = { .ndo_open = left_open, .ndo_stop = left_stop, .ndo_start_xmit = left_xmit };

/* On the other processor: what comes beside the change of the length. */
static void beside(struct work_struct *it)
{
	int kind = READ_ONCE(order);

	if (kind == ANY_TIME)
		udelay(get_random_u32() % 3000);
	local_bh_disable();
	netif_tx_wake_queue(txq);
	if (kind == LATE_SOFTIRQ) {
		WRITE_ONCE(is_ready, 1);
		came_about += await(is_deactivated);
	}
	local_bh_enable();
}

static int at_grace_period(struct kprobe *p, struct pt_regs *regs)
{
	if (is_deactivated() && cmpxchg(&order, WAKE_DETACHED, NONE) == WAKE_DETACHED) {
		came_about++;
		netif_tx_wake_queue(txq);
	}
	return 0;
}

/* a run is about to take a packet; it has found the queue open, and hasn't the transmit lock yet */
static int at_dequeue(struct kprobe *p, struct pt_regs *regs)
{
	if (cmpxchg(&order, FROZEN, NONE) == FROZEN) {
		WRITE_ONCE(hold_frozen, 1);
		WRITE_ONCE(is_ready, 1);
		came_about += await(is_frozen);
	}
	return 0;
}

/* netdev_watchdog_down stops its timer between netif_tx_lock and netif_tx_unlock */
static int at_watchdog(struct kprobe *p, struct pt_regs *regs)
{
	if ((struct timer_list *)regs->di == &dev->watchdog_timer && is_deactivated() && cmpxchg(&hold_frozen, 1, 0) == 1)
		mdelay(2);
	return 0;
}

static int activated(struct kretprobe_instance *it, struct pt_regs *regs)
{
	if (cure)
		netif_schedule_queue(txq);
	return 0;
}

static struct kprobe grace_probe = { .symbol_name = "synchronize_net", .pre_handler = at_grace_period };
static struct kprobe dequeue_probe = { .symbol_name = "pfifo_fast_dequeue", .pre_handler = at_dequeue };
static struct kprobe timer_probe = { .symbol_name = "timer_delete", .pre_handler = at_watchdog };
static struct kretprobe activate_probe = { .handler = activated, .maxactive = 8, .kp.symbol_name = "dev_activate" };

static void send_one(void)
{
	struct sk_buff *skb = alloc_skb(128, GFP_KERNEL);

	if (!skb)
		return;
	skb_reserve(skb, 16);
	memset(skb_put(skb, 60), 0, 60);
	skb_reset_mac_header(skb);
	skb_reset_network_header(skb);
	skb->dev = dev;
	skb->protocol = htons(ETH_P_IP);
	dev_queue_xmit(skb);
}

/* A stopped queue with packets in it, and what is to come beside the next change of the length. */
static ssize_t begin(struct file *file, const char __user *from, size_t n, loff_t *at)
{
	int kind, i, err = kstrtoint_from_user(from, n, 10, &kind);

	if (err)
		return err;
	before = atomic_read(&accepted);
	netif_tx_stop_queue(txq);
	for (i = 0; i < PACKETS; i++)
		send_one();
	came_about = hold_frozen = is_ready = 0;
	WRITE_ONCE(order, kind);
	if (kind > WAKE_DETACHED)
		schedule_work_on(1, &work);
	if (kind == LATE_SOFTIRQ || kind == FROZEN)
		await(has_begun);
	return n;
}

/* An open queue whose qdisc is attached, not running and not scheduled, and holds packets: nobody comes for them. */
static bool nobody_comes(void)
{
	struct Qdisc *q = own_qdisc();

	return qdisc_qlen_sum(q) && rcu_access_pointer(txq->qdisc) == q && !netif_xmit_frozen_or_stopped(txq) &&
	       !test_bit(__QDISC_STATE_SCHED, &q->state) && !spin_is_locked(&q->seqlock);
}

/* "came about, left, sent, purged, sent by the next transmit, state" of the round. */
static ssize_t verdict(struct file *file, char __user *to, size_t n, loff_t *at)
{
	struct Qdisc *q = own_qdisc();
	unsigned long state;
	u32 sent, left, taken;
	char text[80];
	int ms;

	if (*at)
		return 0;
	flush_work(&work);
	WRITE_ONCE(order, NONE);
	for (ms = 0; ms < HOLD_MS && atomic_read(&accepted) - before < PACKETS; ms++) {
		if (test_bit(__QUEUE_STATE_DRV_XOFF, &txq->state)) {
			local_bh_disable();
			netif_tx_wake_queue(txq);
			local_bh_enable();
		}
		usleep_range(1000, 1200);
	}
	sent = atomic_read(&accepted) - before;
	left = nobody_comes() ? qdisc_qlen_sum(q) : 0;
	state = q->state;
	send_one();
	usleep_range(2000, 2500);
	taken = atomic_read(&accepted) - before - sent - 1;
	return simple_read_from_buffer(to, n, at, text, scnprintf(text, sizeof(text), "%d %u %u %u %u %lu\n", came_about, left, sent,
								  PACKETS - sent - left, taken, state));
}

static const struct proc_ops proc = { .proc_write = begin, .proc_read = verdict, .proc_lseek = default_llseek };

static int __init left_init(void)
{
	int err;

	INIT_WORK(&work, beside);
	dev = alloc_netdev_mqs(0, "left%d", NET_NAME_ENUM, ether_setup, 1, 1);
	if (!dev)
		return -ENOMEM;
	dev->netdev_ops = &left_ops;
	dev->flags |= IFF_NOARP;
	dev->tx_queue_len = 64;
	eth_hw_addr_random(dev);
	txq = netdev_get_tx_queue(dev, 0);
	err = register_netdev(dev);
	if (err)
		return err;
	if (register_kprobe(&grace_probe) || register_kprobe(&dequeue_probe) || register_kretprobe(&activate_probe))
		return -ENOENT;
	if (register_kprobe(&timer_probe)) {
		timer_probe = (struct kprobe){ .symbol_name = "del_timer", .pre_handler = at_watchdog };
		err = register_kprobe(&timer_probe);
	}
	return err ? err : proc_create("left", 0600, NULL, &proc) ? 0 : -ENOMEM;
}

module_init(left_init);
MODULE_LICENSE("GPL");
MODULE_DESCRIPTION("a device that stops, and rounds in which its qdisc is deactivated with packets in it");
