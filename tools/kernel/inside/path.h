/* What the transmit path's world has beside world.h: the calls of its seats, and its words as the machine has them. */
#ifndef INSIDE_PATH_H
#define INSIDE_PATH_H

enum { MOST_CHILDREN = 2, MOST_QUEUES = 2, MOST_PACKETS = 44, MOST_LEN = 32 };
/* a: the packet, or the queue; b: the band, and the queue of a packet times 4 */
enum path_call { TRANSMIT = 1, SOFTIRQ, WAKE, DOWN, UP, CHANGE_LENGTH };
enum path_question { DEVICE = 1, GRACE = A_WAIT, SLEEP };
enum device_answer { SENT, SENT_STOP, BUSY };
enum wait_answer { WAITED, SOFT_INTERRUPT };

struct view {
	unsigned state, lock, xoff;
	int len, slots, slot, n[3], band[3][MOST_LEN];
	int taken[3]; /* given: the head of this band was taken, and isn't moved yet */
};

extern int path_quota;
int path_children(void);
int path_has_bulk(void);        /* several queues share a queueing discipline */
int path_has_control(void);
int path_child_of(int packet);
int path_child_of_queue(int queue);
void path_view(int child, struct view *v);
int path_raised(int seat);
int path_is_scheduled(int seat, int child); /* the discipline is in the list of the seat's soft interrupt */
int path_bypass(void);
void path_counts(unsigned char *sends, unsigned char *wakes, unsigned char *stops, unsigned char *busy); /* of each seat, and what may still come */
int path_option(const char *name);
void *path_refusing(void);       /* noop_qdisc */

#endif
