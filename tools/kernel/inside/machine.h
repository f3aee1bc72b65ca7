// The machine of tools/kernel/orders/steps.h, for a queueing discipline with one queue and packets that have numbers. Control's steps are follow.h's.
#pragma once
#include <cstdint>
#include <cstring>
extern "C" {
#include "path.h"
}

namespace machine_of_steps {
#define NUMBERED MOST_PACKETS
#define QUEUES 1
#define WAITS 0
#define LEN (q->len)
#define BYPASS (q->bypass)
#define BATCH batch_of(q->len)
#define QUOTA (path_quota < 64 ? path_quota : 0)
static int batch_of(int len) { return len >= 32 ? 16 : 1; }
#include "../orders/state.h"
#include "../orders/steps.h"
#define AS_TEXT(name, text) text,
static const char *const position_names[] = {POSITIONS(AS_TEXT)};
#undef LEN
#undef BYPASS
#undef BATCH
#undef QUOTA
}
namespace lq = machine_of_steps;

typedef lq::seat MachineSeat;
struct Machine {
	lq::qdisc q;
	MachineSeat seats[MOST_SEATS];
};
static struct {
	Machine of[MOST_CHILDREN];
	uint8_t behind_put[MOST_CHILDREN][MOST_SEATS];
	int8_t control; // the seat that deactivates, or -1
} machine;

static unsigned state_of(const lq::qdisc &q) { return q.SCHED + 2 * q.DEACTIVATED + 4 * q.MISSED + 8 * q.DRAINING; }
static void set_state(lq::qdisc &q, unsigned bits) { q.SCHED = q.listed = bits, q.DEACTIVATED = bits >> 1, q.MISSED = bits >> 2, q.DRAINING = bits >> 3; }
static bool is_scan(const MachineSeat &s) { return s.at >= lq::SCAN0 && s.at <= lq::SCAN2; }
static const char *at_text(const MachineSeat &s) { return lq::position_names[s.at]; }

// Whether a later step reads the number of the seat's packet.
static bool has_packet(const MachineSeat &s)
{
	switch (s.at) {
	case lq::ENTER: return s.how == lq::QUEUED;
	case lq::CHECK: case lq::PUT: case lq::RECHECK: case lq::GATE: case lq::XMIT: return true;
	case lq::TRY1: case lq::MISS: case lq::TRY2: return s.how == lq::DIRECT;
	case lq::CCLEAR: case lq::CLOAD: case lq::CMISS: case lq::CDRAIN: return s.taken;
	}
	return false;
}

// One step of a seat; the text is refused by itself where it has no step here, so that a seat never waits. It goes on where DEACTIVATED is set.
static void machine_step(Machine &m, int t, int answer)
{
	MachineSeat &s = m.seats[t];
	lq::qdisc &q = m.q;
	unsigned deactivated = q.DEACTIVATED;
	if (s.at == lq::CHECK)
		q.DEACTIVATED = 0;
	lq::step(&q, &s, answer);
	q.DEACTIVATED = deactivated;
	if (!has_packet(s))
		s.packet = 0;
}
