// SPDX-License-Identifier: GPL-2.0
/*
 * sender CASES ANSWERS: works through cases in the guest, and writes what came
 * of each step.  Frames go out through packet sockets, datagrams through UDP.
 *
 * A case is these lines; J is a device, from 0 to 7.  The steps are those of
 * the table `forms`, which says what each answers:
 *
 *   case NAME
 *   new J LEN QUEUES SHARED ROOM BURST BUSY_EVERY BUSY_LIMIT HANG_AFTER BYPASS
 *       DESCRIPTORS BYTES	these two are 0 but for a card
 *   ended FRAMES		so many have left each device's wire
 *   send J MARK PRIORITY HEX	sends a frame
 *   wake HARD			wakes each device
 *   down J, up J		takes a device down or up
 *   tx_queue_len J LEN		changes the length
 *   resize J LEN		the same while it is active
 *   swap J BURST BUSY_EVERY BUSY_LIMIT HANG_AFTER
 *   finish ROUNDS		wakes each device until nothing is held
 *   address J			gives a device 10.J+1.0.1/24
 *   datagram J MARK TOS HOW	a datagram to 10.J+1.0.2
 *   receive J MARK HEX		a frame comes in on the device
 *   sender K			what follows, until "together", is for sender K:
 *				send, kick HARD, down, up and tx_queue_len
 *   together			the senders run, and the words are told
 *   end			tells the logs, and ends the case
 *
 * Of each step the answer is "= RESULT", 0 or an error's number, and then what
 * the module says.
 */
#define _GNU_SOURCE
#include <arpa/inet.h>
#include <errno.h>
#include <fcntl.h>
#include <linux/if_packet.h>
#include <linux/netlink.h>
#include <linux/pkt_sched.h>
#include <linux/rtnetlink.h>
#include <net/if.h>
#include <pthread.h>
#include <sched.h>
#include <stdarg.h>
#include <stdio.h>
#include <stdlib.h>
#include <string.h>
#include <sys/ioctl.h>
#include <sys/socket.h>
#include <unistd.h>

#define DEVICES		8
#define PRIORITIES	64
#define SENDERS		64
#define NUMBERS		12
#define FRAME		2048
#define LINE		(1 << 16)
#define ANSWER		(16 << 20)

struct device {
	int there, index;
	char name[IFNAMSIZ];
};

struct step {
	const struct form *form;
	const char *line;
	int number[NUMBERS];	/* the first one is the device's, if it has one */
	const char *hex;	/* what stands behind the numbers */
	int result;
};

struct sender {
	struct step *steps;
	int count;
};

static struct device devices[DEVICES];
static struct sender senders[SENDERS];
static int sender_count;
static pthread_barrier_t start;
static __thread int sockets[DEVICES][PRIORITIES];	/* 0: none yet */
static int control;
static int plain;
static char answer[ANSWER];
static FILE *out;

static void die(const char *what)
{
	perror(what);
	exit(1);
}

/* The module */

static int tell(const char *format, ...)
{
	char text[2 * FRAME + 100];
	va_list args;
	int len;

	va_start(args, format);
	len = vsnprintf(text, sizeof(text), format, args);
	va_end(args);
	return write(control, text, len) < 0 ? -errno : 0;
}

static void copy_answer(void)
{
	ssize_t len = pread(control, answer, sizeof(answer), 0);

	if (len < 0)
		die("answer");
	fwrite(answer, 1, len, out);
}

static void ask(const char *format, int j, int number)
{
	int err = tell(format, j, number);

	if (err)
		fprintf(out, "! %s, device %d: %d\n", format, j, -err);
	copy_answer();
}

static void ask_each(const char *format, int number)
{
	for (int j = 0; j < DEVICES; j++)
		if (devices[j].there)
			ask(format, j, number);
}

/* Devices */

static struct ifreq request(int j)
{
	struct ifreq r;

	memset(&r, 0, sizeof(r));
	memcpy(r.ifr_name, devices[j].name, IFNAMSIZ);
	return r;
}

static int set_up(int j, int up)
{
	struct ifreq r = request(j);

	if (ioctl(plain, SIOCGIFFLAGS, &r) < 0)
		return -errno;
	r.ifr_flags = up ? r.ifr_flags | IFF_UP : r.ifr_flags & ~IFF_UP;
	return ioctl(plain, SIOCSIFFLAGS, &r) < 0 ? -errno : 0;
}

static int step_down(struct step *t) { return set_up(t->number[0], 0); }
static int step_up(struct step *t) { return set_up(t->number[0], 1); }

static int step_tx_queue_len(struct step *t)
{
	struct ifreq r = request(t->number[0]);

	r.ifr_qlen = t->number[1];
	return ioctl(plain, SIOCSIFTXQLEN, &r) < 0 ? -errno : 0;
}

static int step_address(struct step *t)
{
	struct ifreq r = request(t->number[0]);
	struct sockaddr_in *a = (struct sockaddr_in *)&r.ifr_addr;

	a->sin_family = AF_INET;
	a->sin_addr.s_addr = htonl(0x0a000001 + ((t->number[0] + 1) << 16));
	if (ioctl(plain, SIOCSIFADDR, &r) < 0)
		return -errno;
	a->sin_addr.s_addr = htonl(0xffffff00);
	return ioctl(plain, SIOCSIFNETMASK, &r) < 0 ? -errno : 0;
}

/* One pfifo_fast as the root of a device that has several queues. */
static int set_one_root(int j)
{
	struct {
		struct nlmsghdr header;
		struct tcmsg tc;
		struct nlattr attribute;
		char kind[12];
	} message = {
		.header.nlmsg_len = sizeof(message),
		.header.nlmsg_type = RTM_NEWQDISC,
		.header.nlmsg_flags = NLM_F_REQUEST | NLM_F_ACK |
				      NLM_F_CREATE | NLM_F_REPLACE,
		.tc.tcm_ifindex = devices[j].index,
		.tc.tcm_parent = TC_H_ROOT,
		.attribute.nla_len = sizeof(struct nlattr) + 11,
		.attribute.nla_type = TCA_KIND,
		.kind = "pfifo_fast",
	};
	char back[1024];
	struct nlmsghdr *reply = (struct nlmsghdr *)back;
	int err = -EIO;
	int s = socket(AF_NETLINK, SOCK_RAW, NETLINK_ROUTE);

	if (send(s, &message, sizeof(message), 0) > 0 && recv(s, back, sizeof(back), 0) > 0 && reply->nlmsg_type == NLMSG_ERROR)
		err = ((struct nlmsgerr *)NLMSG_DATA(reply))->error;
	close(s);
	return err;
}

static int step_new(struct step *t)
{
	int j = t->number[0], queues = t->number[2], shared = t->number[3];
	int descriptors = t->number[10], bytes = t->number[11];
	int err = tell("%s", t->line);
	struct device *d = &devices[j];
	struct ifreq r;

	if (err)
		return err;
	if (pread(control, answer, sizeof(answer), 0) < 0 || sscanf(answer, "device %15s", d->name) != 1)
		return -EIO;
	d->there = 1;
	r = request(j);
	if (ioctl(plain, SIOCGIFINDEX, &r) < 0)
		return -errno;
	d->index = r.ifr_ifindex;
	err = set_up(j, 1);
	if (!err && shared && queues > 1)
		err = set_one_root(j);
	if (!err && !t->number[9])
		err = tell("no_bypass %d", j);
	if (!err && (descriptors || bytes))
		err = tell("card %d %d %d", j, descriptors, bytes);
	/* soft interrupts of what came before don't count */
	return err ? err : tell("words %d", j);
}

/* Sending */

static int packet_socket(int j, int priority)
{
	struct sockaddr_ll address = { .sll_family = AF_PACKET, .sll_ifindex = devices[j].index };
	int room = 1 << 29;
	int *s = &sockets[j][priority];

	if (*s)
		return *s;
	*s = socket(AF_PACKET, SOCK_RAW, 0);
	if (*s < 0 || bind(*s, (struct sockaddr *)&address, sizeof(address)) ||
	    setsockopt(*s, SOL_SOCKET, SO_SNDBUFFORCE, &room, sizeof(room)) ||
	    setsockopt(*s, SOL_SOCKET, SO_PRIORITY, &priority, sizeof(priority)))
		die("packet socket");
	return *s;
}

static void close_sockets(void)
{
	int *s = &sockets[0][0];

	for (int i = 0; i < DEVICES * PRIORITIES; i++)
		if (s[i])
			close(s[i]);
	memset(sockets, 0, sizeof(sockets));
}

/* Sends bytes with a control message, whose value is an int; type 0: none. */
static int send_with(int s, struct msghdr message, int level, int type, int value)
{
	union {
		char room[CMSG_SPACE(sizeof(value))];
		struct cmsghdr align;
	} extra;

	if (type) {
		message.msg_control = &extra;
		message.msg_controllen = sizeof(extra);
		struct cmsghdr *c = CMSG_FIRSTHDR(&message);

		c->cmsg_level = level;
		c->cmsg_type = type;
		c->cmsg_len = CMSG_LEN(sizeof(value));
		memcpy(CMSG_DATA(c), &value, sizeof(value));
	}
	return sendmsg(s, &message, 0) < 0 ? -errno : 0;
}

static int digit(char c) { return c <= '9' ? c - '0' : c - 'a' + 10; }

static int step_send(struct step *t)
{
	unsigned char frame[FRAME];
	struct iovec piece = { frame, 0 };
	struct msghdr message = { .msg_iov = &piece, .msg_iovlen = 1 };
	int s = packet_socket(t->number[0], t->number[2]);

	for (const char *hex = t->hex; piece.iov_len < FRAME && hex[0] > ' '; hex += 2)
		frame[piece.iov_len++] = digit(hex[0]) << 4 | digit(hex[1]);
	return send_with(s, message, SOL_SOCKET, SO_MARK, t->number[1]);
}

/* The type of service is the socket's, or one message's. */
static int step_datagram(struct step *t)
{
	struct sockaddr_in to = { .sin_family = AF_INET, .sin_port = htons(9), .sin_addr.s_addr = htonl(0x0a000002 + ((t->number[0] + 1) << 16)) };
	struct iovec piece = { "lqtx", 4 };
	struct msghdr message = { .msg_name = &to, .msg_namelen = sizeof(to), .msg_iov = &piece, .msg_iovlen = 1 };
	int *mark = &t->number[1], *tos = &t->number[2], of_message = t->number[3];
	int s = socket(AF_INET, SOCK_DGRAM, 0);
	int err = 0;

	if (setsockopt(s, SOL_SOCKET, SO_MARK, mark, sizeof(*mark)) ||
	    (!of_message && setsockopt(s, IPPROTO_IP, IP_TOS, tos, sizeof(*tos))))
		err = -errno;
	err = send_with(s, message, IPPROTO_IP, of_message ? IP_TOS : 0, *tos) ?: err;
	close(s);
	return err;
}

/* What the module does with the line as it is. */
static int step_module(struct step *t) { return tell("%s", t->line); }

static int step_kick(struct step *t)
{
	int err = 0;

	for (int j = 0; j < DEVICES; j++)
		if (devices[j].there)
			err |= tell("kick %d %d", j, t->number[0]);
	return err;
}

/* Steps */

/* A step's numbers, what it does, and what the module is asked behind it. */
static const struct form {
	const char *name;
	int numbers;
	int (*run)(struct step *t);
	const char *asks;
	int of_each;		/* about each device, and not the step's alone */
} forms[] = {
	{ "new", 12, step_new, "all_words %d" },
	{ "send", 3, step_send, "words %d" },
	{ "wake", 1, NULL, "wake %d %d", 1 },
	{ "ended", 1, NULL, "ended %d %d", 1 },
	{ "finish", 1, NULL, "finish %d %d", 1 },
	{ "kick", 1, step_kick },
	{ "down", 1, step_down, "all_words %d" },
	{ "up", 1, step_up, "all_words %d" },
	{ "tx_queue_len", 2, step_tx_queue_len, "all_words %d" },
	{ "resize", 2, step_module, "all_words %d" },
	{ "swap", 5, step_module, "all_words %d" },
	{ "address", 1, step_address },
	{ "datagram", 4, step_datagram, "words %d" },
	{ "receive", 2, step_module, "words %d", 1 },
	{ NULL }
};

/* The step that a line is. */
static struct step read_step(const char *line)
{
	struct step t = { .form = forms, .line = line };
	size_t len = strcspn(line, " ");
	char *at = (char *)line + len;

	while (t.form->name && (strncmp(t.form->name, line, len) || t.form->name[len]))
		t.form++;
	for (int i = 0; i < t.form->numbers; i++)
		t.number[i] = strtoul(at, &at, 10);
	t.hex = at + (*at == ' ');
	return t;
}

static void do_line(const char *line)
{
	struct step t = read_step(line);
	const struct form *form = t.form;

	if (!form->name) {
		fprintf(out, "! no such step: %s\n", line);
		return;
	}
	fprintf(out, "= %d\n", form->run ? -form->run(&t) : 0);
	if (form->run == step_module)
		copy_answer();
	if (form->of_each)
		ask_each(form->asks, t.number[0]);
	else if (form->asks)
		ask(form->asks, t.number[0], 0);
}

/* Several senders */

static void *run_sender(void *argument)
{
	int k = (long)argument;
	struct sender *me = &senders[k];
	struct step *end = me->steps + me->count;
	cpu_set_t set;

	CPU_ZERO(&set);
	CPU_SET(k % sysconf(_SC_NPROCESSORS_ONLN), &set);
	sched_setaffinity(0, sizeof(set), &set);
	for (struct step *t = me->steps; t < end; t++)
		if (t->form->run == step_send)
			packet_socket(t->number[0], t->number[2]);
	pthread_barrier_wait(&start);
	for (struct step *t = me->steps; t < end; t++)
		t->result = t->form->run(t);
	close_sockets();
	return NULL;
}

static void keep_step(struct sender *me, const char *line)
{
	struct step t = read_step(strdup(line));

	if (!t.form->run) {
		fprintf(out, "! no step of a sender: %s\n", line);
		return;
	}
	if (me->count % 256 == 0)
		me->steps = realloc(me->steps, (me->count + 256) * sizeof(*me->steps));
	me->steps[me->count++] = t;
}

static void tell_results(struct sender *me)
{
	for (struct step *t = me->steps; t < me->steps + me->count; t++) {
		if (t->form->run == step_send)
			fprintf(out, "S %u %d\n", t->number[1] & 0xffffff, -t->result);
		else if (t->result)
			fprintf(out, "! %s: %d\n", t->line, -t->result);
		free((char *)t->line);
	}
	me->count = 0;
}

static void run_together(void)
{
	pthread_t threads[SENDERS];
	long k;

	pthread_barrier_init(&start, NULL, sender_count);
	for (k = 0; k < sender_count; k++)
		if (pthread_create(&threads[k], NULL, run_sender, (void *)k))
			die("thread");
	for (k = 0; k < sender_count; k++)
		pthread_join(threads[k], NULL);
	pthread_barrier_destroy(&start);
	fprintf(out, "= 0\n");
	for (k = 0; k < sender_count; k++)
		tell_results(&senders[k]);
	sender_count = 0;
	ask_each("all_words %d", 0);
}

/* Cases */

static void end_case(void)
{
	for (int j = 0; j < DEVICES; j++) {
		if (!devices[j].there)
			continue;
		ask("logs %d", j, 0);
		/* what is held still is dropped here */
		set_up(j, 0);
		ask("logs %d", j, 0);
		devices[j].there = 0;
	}
	close_sockets();
	tell("free");
	fprintf(out, "end\n");
	fflush(out);
}

int main(int argc, char **argv)
{
	FILE *in = argc == 3 ? fopen(argv[1], "r") : NULL;
	char *line = malloc(LINE);
	int current = -1;
	int k;

	out = argc == 3 ? fopen(argv[2], "w") : NULL;
	control = open("/proc/lqtx_bench", O_RDWR);
	plain = socket(AF_INET, SOCK_DGRAM, 0);
	if (!in || !out || control < 0 || plain < 0)
		die("sender");
	setvbuf(out, NULL, _IOFBF, 1 << 20);
	while (fgets(line, LINE, in)) {
		line[strcspn(line, "\n")] = 0;
		if (sscanf(line, "sender %d", &k) == 1 && k >= 0 && k < SENDERS) {
			current = k;
			if (k >= sender_count)
				sender_count = k + 1;
		} else if (!strcmp(line, "together")) {
			run_together();
			current = -1;
		} else if (!strcmp(line, "end")) {
			end_case();
		} else if (!strncmp(line, "case ", 5)) {
			fprintf(out, "%s\n", line);
		} else if (current >= 0) {
			keep_step(&senders[current], line);
		} else {
			do_line(line);
		}
	}
	return fclose(out) ? 1 : 0;
}
