/* The words of the transmit path's world: their names, their first values, and what is left at the end. */

PLAIN static void init_child(int c)
{
	struct Qdisc *q = qdisc_of(c);
	struct pfifo_fast_priv *priv = qdisc_priv(q);

	q->enqueue = pfifo_fast_enqueue;
	q->dequeue = pfifo_fast_dequeue;
	q->flags = TCQ_F_NOLOCK | TCQ_F_CPUSTATS | (path_has_bulk() ? 0 : TCQ_F_ONETXQUEUE) | (OPTION(BYPASS) ? TCQ_F_CAN_BYPASS : 0);
	q->ops = &ops;
	q->dev_queue = &world.txq[c];
	q->gso_skb.next = q->gso_skb.prev = (struct sk_buff *)&q->gso_skb;
	q->skb_bad_txq.next = q->skb_bad_txq.prev = (struct sk_buff *)&q->skb_bad_txq;
	for (int b = 0; b < 3; b++) {
		priv->q[b].ring.queue = world.slot[c][b];
		__ptr_ring_set_size(&priv->q[b].ring, LEN);
	}
}

/* packets that wait in band 1 while the queue is stopped, as a run leaves them that finds it stopped */
PLAIN static void init_waiting(void)
{
	struct ptr_ring *ring = &((struct pfifo_fast_priv *)qdisc_priv(qdisc_of(0)))->q[1].ring;

	for (int i = 0; i < OPTION(WAITING); i++) {
		COUNTS->band[FIRST_WAITING + i] = 1;
		ring->queue[i] = &world.skb[FIRST_WAITING + i];
	}
	ring->producer = OPTION(WAITING) % LEN;
	world.txq[0].state = BIT(__QUEUE_STATE_DRV_XOFF);
	qdisc_of(0)->state = BIT(__QDISC_STATE_DRAINING);
}

PLAIN void world_init(void)
{
	struct counts first = {.wakes = OPTION(WAKES), .stops = OPTION(STOPS), .busy = OPTION(BUSY_ANSWERS), .downs = OPTION(DOWNS), .lengths = OPTION(LENGTHS)};

	path_quota = dev_tx_weight = net_hotdata.dev_tx_weight = OPTION(QUOTA);
	ops.reset = pfifo_fast_reset;
	ops.change_tx_queue_len = pfifo_fast_change_tx_queue_len;
	world.noop.flags = TCQ_F_BUILTIN;
	world.noop.dequeue = noop_dequeue;
	world.noop.dev_queue = &world.txq[0];
	world.noop.gso_skb.next = world.noop.gso_skb.prev = (struct sk_buff *)&world.noop.gso_skb;
	world.noop.skb_bad_txq.next = world.noop.skb_bad_txq.prev = (struct sk_buff *)&world.noop.skb_bad_txq;
	for (int c = 0; c < CHILDREN; c++)
		init_child(c);
	for (int i = 0; i < QUEUES; i++) {
		world.txq[i].dev = &world.dev;
		world.txq[i].qdisc = world.txq[i].qdisc_sleeping = qdisc_of(path_child_of_queue(i));
		world.txq[i].xmit_lock_owner = -1;
	}
	world.dev = (struct net_device){._tx = world.txq, .num_tx_queues = QUEUES, .flags = IFF_UP, .tx_queue_len = LEN, .name = "dev", .qdisc = qdisc_of(0)};
	for (int i = 0; i < SEATS; i++)
		world.sd[i].output_queue_tailp = &world.sd[i].output_queue;
	for (int i = 0; i < PACKETS; i++)
		world.skb[i].len = 60, world.skb[i].number = i;
	*COUNTS = first;
	COUNTS->alone = -1;
	if (OPTION(WAITING))
		init_waiting();
	if (OPTION(STOPPED))
		world.txq[0].state = BIT(__QUEUE_STATE_DRV_XOFF);
}

static const char *const state_bits[] = {"SCHED", "DEACTIVATED", "MISSED", "DRAINING", NULL};
static const char *const stop_bits[] = {"DRV_XOFF", "STACK_XOFF", "FROZEN", NULL};
static struct word *names;
static int name_count;

PLAIN static int name(const char *text, void *at, int size, enum word_kind kind, int guard, int child)
{
	names[name_count] = (struct word){text, (char *)at - (char *)&world, size, kind, guard, NULL, 0, child};
	return name_count++;
}
#define NAME(text, x, kind, guard, child) name(text, &(x), sizeof(x), kind, guard, child)

PLAIN static void name_ring(struct ptr_ring *r, int c, int b, int run_lock)
{
	static const char *const text[3][6] = {
		{"slot of band 0", "producer lock 0", "producer 0", "head 0", "tail 0", "consumer lock 0"},
		{"slot of band 1", "producer lock 1", "producer 1", "head 1", "tail 1", "consumer lock 1"},
		{"slot of band 2", "producer lock 2", "producer 2", "head 2", "tail 2", "consumer lock 2"}};
	enum word_kind fixed = OPTION(LENGTHS) ? OWN : CONSTANT;
	int lock = NAME(text[b][1], r->producer_lock, SHARED, 0, c);

	names[NAME(text[b][0], world.slot[c][b], SHARED, 0, c)].is_pointer = 1;
	names[NAME(text[b][0], world.fresh[c][b], SHARED, 0, c)].is_pointer = 1;
	NAME(text[b][2], r->producer, GUARDED, lock, c);
	NAME(text[b][3], r->consumer_head, GUARDED, run_lock, c);
	NAME(text[b][4], r->consumer_tail, GUARDED, run_lock, c);
	NAME(text[b][5], r->consumer_lock, OPTION(LENGTHS) ? OWN : NEVER, 0, c);
	NAME("size", r->size, fixed, 0, c);
	NAME("batch", r->batch, fixed, 0, c);
	NAME("queue", r->queue, fixed, 0, c);
}

PLAIN static int name_child(int c)
{
	struct Qdisc *q = qdisc_of(c);
	struct pfifo_fast_priv *priv = qdisc_priv(q);
	int lock = NAME("seqlock", q->seqlock, SHARED, 0, c);

	names[NAME("state", q->state, SHARED, 0, c)].bits = state_bits;
	for (int b = 0; b < 3; b++)
		name_ring(&priv->q[b].ring, c, b, lock);
	/* control takes it beside the holder of the run lock */
	NAME("qdisc lock", q->q.lock, path_has_control() ? SHARED : GUARDED, lock, c);
	NAME("gso_skb.next", q->gso_skb.next, GUARDED, lock, c);
	NAME("gso_skb.prev", q->gso_skb.prev, GUARDED, lock, c);
	NAME("gso_skb.qlen", q->gso_skb.qlen, GUARDED, lock, c);
	NAME("skb_bad_txq.next", q->skb_bad_txq.next, GUARDED, lock, c);
	NAME("skb_bad_txq.prev", q->skb_bad_txq.prev, GUARDED, lock, c);
	NAME("skb_bad_txq.qlen", q->skb_bad_txq.qlen, GUARDED, lock, c);
	NAME("next_sched", q->next_sched, OWN, 0, c);
	NAME("qlen", q->q.qlen, GUARDED, lock, c);
	NAME("backlog", q->qstats.backlog, GUARDED, lock, c);
	NAME("flags", q->flags, CONSTANT, 0, c);
	NAME("ops", q->ops, CONSTANT, 0, c);
	NAME("dev_queue", q->dev_queue, CONSTANT, 0, c);
	NAME("dequeue", q->dequeue, CONSTANT, 0, c);
	NAME("enqueue", q->enqueue, CONSTANT, 0, c);
#if MAY_DEFER
	NAME("defer_list", q->defer_list, CONSTANT, 0, c); /* of a discipline with a lock */
#endif
	return lock;
}

/* what is scheduled in place of a discipline that is deactivated; it has a lock, and no packet */
PLAIN static void name_noop(void)
{
	struct Qdisc *q = &world.noop;
	int lock = NAME("noop_qdisc's lock", q->q.lock, SHARED, 0, -1);

	names[NAME("noop_qdisc's state", q->state, SHARED, 0, -1)].bits = state_bits;
#if RUNNING_IS_A_BIT
	NAME("noop_qdisc's state2", q->state2, GUARDED, lock, -1);
#else
	NAME("noop_qdisc's running", q->running, GUARDED, lock, -1);
#endif
	NAME("noop_qdisc's next_sched", q->next_sched, OWN, 0, -1);
	NAME("noop_qdisc", world.noop, CONSTANT, 0, -1);
}

PLAIN static void name_queue(int i, int run_lock)
{
	static const char *const text[] = {"stop word", "stop word of queue 1"};
	struct netdev_queue *txq = &world.txq[i];
	int c = path_child_of_queue(i);

	names[NAME(CHILDREN > 1 ? text[0] : text[i], txq->state, SHARED, 0, c)].bits = stop_bits;
	names[NAME("qdisc of the queue", txq->qdisc, path_has_control() ? SHARED : CONSTANT, 0, c)].is_pointer = 1;
	NAME("qdisc_sleeping", txq->qdisc_sleeping, CONSTANT, 0, c);
	NAME("transmit lock", txq->_xmit_lock, GUARDED, run_lock, c);
	NAME("transmit lock owner", txq->xmit_lock_owner, GUARDED, run_lock, c);
	/* a driver's stop writes it under the transmit lock, and the activation at the end */
	NAME("time of stop", txq->trans_start, path_has_control() ? OWN : GUARDED, run_lock, c);
	NAME("device of queue", txq->dev, CONSTANT, 0, c);
}

PLAIN int world_words(struct word *to)
{
	int lock[CHILDREN];

	names = to, name_count = 0;
	for (int c = 0; c < CHILDREN; c++)
		lock[c] = name_child(c);
	for (int i = 0; i < QUEUES; i++)
		name_queue(i, lock[path_child_of_queue(i)]);
	name_noop();
	NAME("output queue", world.sd, OWN, 0, -1);
	NAME("packet", world.skb, OWN, 0, -1);
	NAME("device", world.dev, OPTION(LENGTHS) ? OWN : CONSTANT, 0, -1);
	NAME("queues", world.queues, OWN, 0, -1);
	return name_count;
}

/* the words as the machine has them */
PLAIN void path_view(int child, struct view *v)
{
	struct Qdisc *q = qdisc_of(child);
	struct pfifo_fast_priv *priv = qdisc_priv(q);

	v->state = q->state;
	v->lock = q->seqlock.v;
	v->xoff = world.txq[child].state;
	v->slots = 0;
	v->slot = -1;
	for (struct sk_buff *s = q->gso_skb.next; s && s != (struct sk_buff *)&q->gso_skb && v->slots < 4; s = s->next)
		v->slots++, v->slot = s->number;
	for (int b = 0; b < 3; b++) {
		struct ptr_ring *r = &priv->q[b].ring;
		/* packets of these slots were taken, and the slots aren't emptied yet */
		int n = 0, stale = r->consumer_head - r->consumer_tail;

		v->len = r->size;
		for (int i = (r->consumer_head + v->taken[b]) % r->size; n + v->taken[b] + stale < r->size && r->queue[i]; i = i + 1 == r->size ? 0 : i + 1)
			v->band[b][n++] = ((struct sk_buff *)r->queue[i])->number;
		v->n[b] = n;
	}
}

PLAIN const char *world_left_text(void) { return "left, and nobody comes"; }
PLAIN int world_left(void)
{
	int left = 0, down = COUNTS->is_down == 2;

	for (int t = 0; t < SEATS; t++)
		if (path_raised(t))
			return 0;
	for (int i = 0; i < QUEUES && !down; i++)
		if (world.txq[i].state)
			return 0;
	for (int t = 0; t < SEATS; t++)
		for (int n = t * OPTION(SENDS); n < t * OPTION(SENDS) + COUNTS->sends[t]; n++)
			left += !((COUNTS->sent | COUNTS->freed) >> n & 1);
	for (int n = FIRST_WAITING; n < FIRST_WAITING + OPTION(WAITING); n++)
		left += !((COUNTS->sent | COUNTS->freed) >> n & 1);
	return left;
}

PLAIN void world_call_text(struct start it, char *text)
{
	static const char *const queue_names[] = {"", ", queue 0", ", queue 1"};
	const char *queue = queue_names[QUEUES == 1 ? 0 : 1 + (it.call == WAKE ? it.a : it.b / 4)];

	switch (it.call) {
	case TRANSMIT: snprintf(text, MOST_TEXT, "transmit of packet %d, band %d%s", it.a, it.b % 4, queue); break;
	case SOFTIRQ: snprintf(text, MOST_TEXT, "soft interrupt"); break;
	case WAKE: snprintf(text, MOST_TEXT, "wake%s", queue); break;
	case DOWN: snprintf(text, MOST_TEXT, "deactivation"); break;
	case UP: snprintf(text, MOST_TEXT, "activation"); break;
	default: snprintf(text, MOST_TEXT, "change of the length");
	}
}

PLAIN void world_answer_text(int question, int about, int answer, char *text)
{
	static const char *const device[] = {"sent", "sent, and stops the queue", "busy"};
	const char *over = question == GRACE ? "the grace period is over" : "the discipline isn't busy";

	if (question == DEVICE)
		snprintf(text, MOST_TEXT, "device, packet %d: %s", about, device[answer]);
	else
		snprintf(text, MOST_TEXT, "waits: %s", answer == SOFT_INTERRUPT ? "soft interrupt of this processor" : over);
}

PLAIN void world_text(char *text)
{
	int used = 0;

	for (int c = 0; c < CHILDREN; c++) {
		struct view v = {0};

		path_view(c, &v);
		used += snprintf(text + used, MOST_TEXT - used, "%sstate %u, run lock %s, stop word %u, packets in the rings %d, requeued %d", c ? "; child 1: " : "", v.state,
				 v.lock ? "held" : "free", v.xoff, v.n[0] + v.n[1] + v.n[2], v.slots);
	}
}
