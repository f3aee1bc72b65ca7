/* What the kernel's text needs before it: types, and macros for what is left out. Its plain and volatile accesses need nothing. */
#include <limits.h>
#include <stddef.h>
#include "operations.h"
#include "world.h"
#include "path.h"
typedef unsigned char u8;
typedef unsigned short u16;
typedef unsigned int u32, __u32;
typedef int s32;
#define true 1
#define false 0
#define BIT(n) (1UL << (n))
#define __rcu
#define __percpu
#define __latent_entropy
#define __always_inline inline
#define ____cacheline_aligned
#define NET_XMIT_SUCCESS 0
#define NET_XMIT_DROP 1
#define NET_XMIT_CN 2
#define NET_XMIT_MASK 0x0f
#define TC_PRIO_MAX 15
#define NETIF_F_LLTX (1 << 12)
#define NET_TX_SOFTIRQ 2
#define IFNAMSIZ 16
#define IFF_UP 1
#define GFP_KERNEL 0
#define __GFP_ZERO 0
#define KMALLOC_MAX_SIZE (1UL << 22)

/* of a discipline with a lock, which noop_qdisc is */
static inline bool __test_and_set_bit(long nr, unsigned long *p)
{
	bool was = *p >> nr & 1;

	*p |= BIT(nr);
	return was;
}
static inline void __clear_bit(long nr, unsigned long *p) { *p &= ~BIT(nr); }
#define smp_processor_id() seat_now()

/* from 7.2 on: the list of packets that wait for a lock, which a lockless discipline hasn't, and other names */
#define __cacheline_group_begin(x) struct {} x##_begin
#define __cacheline_group_end(x) struct {} x##_end
struct llist_node { struct llist_node *next; };
struct llist_head { struct llist_node *first; };
typedef struct { long v; } atomic_long_t;
typedef long u64_stats_t;
#define llist_empty(h) (READ_ONCE((h)->first) == NULL)
#define llist_next(n) ((n)->next)
#define llist_del_all(h) (wrong("the list of deferred packets is used, which this world hasn't"), (struct llist_node *)NULL)
#define llist_reverse_order(l) (l)
#define llist_for_each_entry_safe(p, n, l, m) for ((p) = NULL, (n) = NULL; (p);)
#define atomic_long_inc_return(x) (++(x)->v)
#define atomic_long_set(x, n) ((x)->v = (n))
#define try_cmpxchg(p, o, n) (*(p) == *(o) ? (*(p) = (n), 1) : (*(o) = *(p), 0))
#define tcf_kfree_skb_list(l, q, t, d) kfree_skb_list_reason(l, 0)
#define rtnl_kfree_skbs(head, tail) kfree_skb_list_reason(head, 0)
#define qdisc_qlen_inc(q) ((q)->q.qlen++)
#define qdisc_qlen_dec(q) ((q)->q.qlen--)

/* types */
struct rcu_head {}; struct hlist_node {}; struct lock_class_key {}; struct tc_stats {}; struct list_head {};
typedef struct {} netdevice_tracker;
typedef struct { int refs; } refcount_t;
struct gnet_stats_basic_sync {}; struct gnet_stats_queue { u32 backlog, qlen, drops, requeues, overlimits; };
struct net_rate_estimator; struct qdisc_size_table; struct Qdisc_class_ops; struct softirq_action; struct Qdisc;
struct nlattr; struct netlink_ext_ack; struct gnet_dump; struct module; struct sk_buff; struct net_device; struct netdev_queue;
struct sk_buff_list { struct sk_buff *next, *prev; };
struct sk_buff { union { struct { struct sk_buff *next, *prev; }; struct llist_node ll_node; }; u32 priority, len; u16 queue_mapping; short number; refcount_t users; u8 fclone; };
struct sk_buff_head { union { struct { struct sk_buff *next, *prev; }; struct sk_buff_list list; }; u32 qlen; spinlock_t lock; };
struct netdev_queue { struct net_device *dev; struct Qdisc *qdisc, *qdisc_sleeping; spinlock_t _xmit_lock; int xmit_lock_owner; unsigned long state, trans_start; };
struct net_device {
	struct netdev_queue *_tx; unsigned int num_tx_queues, flags, tx_queue_len; unsigned long features; bool lltx; const char *name;
	struct Qdisc *qdisc; struct list_head close_list;
};
struct softnet_data { struct Qdisc *output_queue, **output_queue_tailp; struct sk_buff *completion_queue; };
struct kfree_cb { int reason; };
enum skb_drop_reason { SKB_DROP_REASON_NOT_SPECIFIED, SKB_DROP_REASON_QDISC_DROP, SKB_DROP_REASON_TC_EGRESS, SKB_DROP_REASON_QUEUE_PURGE };

/* left out: statistics, tracing, validation and segmentation, encryption, freeing, byte queue limits, taps, RCU and interrupts off */
#define qdisc_pkt_len(skb) ((skb)->len)
#define net_warn_ratelimited(...) wrong("the text warns where no order should come to (net_warn_ratelimited)")
#define validate_xmit_skb_list(skb, d, again) ((void)(again), (skb))
#define refcount_read(r) ((r)->refs)
#define kfree_skb_reason(skb, r) kfree_skb(skb)
#define __kfree_skb(skb) wrong("the completion queue is used, which this world hasn't")
#define __napi_kfree_skb(skb, r) __kfree_skb(skb)
#define __kfree_skb_defer(skb) __kfree_skb(skb)
#define get_kfree_skb_cb(skb) ((struct kfree_cb *)(skb))
#define SKB_REASON_CONSUMED 0
#define SKB_CONSUMED 0
#define SKB_FCLONE_UNAVAILABLE 0
#define this_cpu_ptr(p) ((__typeof__(p))processor(smp_processor_id()))
#define jiffies 0
#define rcu_dereference(p) (p)
#define rtnl_dereference(p) (p)
#define rcu_assign_pointer(p, v) WRITE_ONCE(p, v)
#define for_each_possible_cpu(i) for ((i) = 0; (i) < 0; (i)++)
#define per_cpu_ptr(p, i) (p)

/* of control: one device, without ingress queue and watchdog; waits are questions of the search */
#define LIST_HEAD(name) struct list_head name
#define list_for_each_entry(it, head, member) for ((void)(head), (it) = the_device(); (it); (it) = NULL)
#define dev_ingress_queue(d) ((struct netdev_queue *)NULL)
#define netif_carrier_ok(d) 1
#define attach_default_qdiscs(d) wrong("attach_default_qdiscs is called")
#define synchronize_net() wait_for(GRACE)
#define schedule_timeout_uninterruptible(n) wait_for(SLEEP)
#define kmalloc_array(n, size, gfp) begin_resize()
#define kvmalloc_array(n, size, gfp) new_queue()
#define kvmalloc_array_noprof kvmalloc_array
#define kfree(p) end_resize()
#define alloc_hooks(call) call
#define skb_array_resize_multiple_bh skb_array_resize_multiple_bh_noprof

#define noop_qdisc (*the_noop_qdisc())
static struct Qdisc *the_noop_qdisc(void);
extern int dev_tx_weight;
extern struct hotdata { int dev_tx_weight, qdisc_max_burst; } net_hotdata;
extern struct softnet_data softnet_data; /* its address alone is taken */
static void *processor(int seat);
static struct net_device *the_device(void);
static void wait_for(int question);
static void *begin_resize(void);
static void **new_queue(void);
static void end_resize(void);
static void kfree_skb(struct sk_buff *skb);
static void kfree_skb_list_reason(struct sk_buff *skb, int reason);
static int netdev_start_xmit(struct sk_buff *skb, struct net_device *dev, struct netdev_queue *txq, bool more);
void __netif_schedule(struct Qdisc *q);
