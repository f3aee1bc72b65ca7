// The machine goes along with the text: each operation is the machine's step at its seat's position, or one of a list that the machine hasn't.
#pragma once
#include "tell.h"

// Which operation of the text is the step at a position; `bit` -1 where it has none.
static const struct Match { int at; Kind kind; const char *word; int bit; } matches[] = {
	{lq::CHECK, READ, "state", -1}, {lq::TRY1, TRYLOCK, "seqlock", -1}, {lq::MISS, TAS, "state", 2}, {lq::TRY2, TRYLOCK, "seqlock", -1},
	{lq::RECHECK, READ, "state", -1}, {lq::GATE, READ, "stop word", -1}, {lq::XMIT, ASK, "", -1}, {lq::STOP, SETB, "stop word", 0},
	{lq::POST, READ, "state", -1}, {lq::DEQ, READ, "stop word", -1}, {lq::TEST, READ, "state", -1}, {lq::CLEARM, CLRB, "state", 2},
	{lq::CLEARD, CLRB, "state", 3}, {lq::CCLEAR, CLRB, "state", 2}, {lq::CLOAD, READ, "stop word", -1},
	{lq::CMISS, SETB, "state", 2}, {lq::CDRAIN, SETB, "state", 3}, {lq::AGAIN, SETB, "state", 2}, {lq::OVER, SETB, "state", 2},
	{lq::UNLOCK, UNLOCK, "seqlock", -1}, {lq::TAIL, TESTB, "state", 2}, {lq::SCHEDULE, TAS, "state", 0}, {lq::SOFT, TESTB, "state", 1},
	{lq::SCLEAR, CLRB, "state", 0}, {lq::WAKE, TAC, "stop word", 0}};

// How often each was seen, for the report.
static map<string, long> same_step, more_in_text, more_in_machine, later;
static set<pair<int, int>> arrows; // which ways of the machine were gone

// The moves as lines of a schedule, where they are wanted.
static struct { bool wanted; vector<string> lines; int seat = -1, steps = 0; } schedule;
static void schedule_steps()
{
	if (schedule.steps)
		schedule.lines.push_back(to_string(schedule.seat) + " step " + to_string(schedule.steps));
	schedule.steps = 0;
}
static void schedule_line(const string &line)
{
	schedule_steps();
	schedule.lines.push_back(line);
}
static void schedule_move(int seat, int answer)
{
	static const char *const names[] = {"", " full", " stop", " hang", " busy"};
	if (answer != lq::PLAIN)
		return schedule_line(to_string(seat) + names[answer]);
	if (schedule.steps && schedule.seat != seat)
		schedule_steps();
	schedule.seat = seat, schedule.steps++;
}

static int way_of(const MachineSeat &s) { return s.at * 2 + s.second; }
static void move(int c, int t, int answer)
{
	MachineSeat &s = machine.of[c].seats[t];
	int from = way_of(s);
	machine_step(machine.of[c], t, answer);
	arrows.insert({from, way_of(s)});
	if (schedule.wanted)
		schedule_move(t, answer);
}
static void goes_to(MachineSeat &s, int at)
{
	lq::forget(&s);
	s.at = at;
}

static int slot_band(const Op &o) { return o.word < 0 || strncmp(words[o.word].name, "slot of band ", 13) ? -1 : words[o.word].name[13] - '0'; }
static bool is_slot(const Op &o, int band) { return slot_band(o) == band; }
static string more(const MachineSeat &s, const string &what)
{
	more_in_text[at_text(s) + (": " + what)]++;
	return "";
}

// An operation without what it found and left.
static string short_text(const Op &o)
{
	string text = text_of(o);
	return text.substr(0, std::min(text.find_first_of(":[="), text.size())).append(o.kind == WRITE && o.arg == 0 ? "= 0" : "");
}

static void leaves(int c, int t)
{
	MachineSeat &s = machine.of[c].seats[t];
	if (s.at == lq::LATE) { // the text doesn't look again (own)
		more_in_machine["late"]++;
		goes_to(s, lq::LEAVE);
	}
	if (s.at == lq::LEAVE) {
		more_in_machine["leave"]++;
		move(c, t, lq::PLAIN);
	}
}

static void begins(int c, int t, int how, const string &words)
{
	MachineSeat &s = machine.of[c].seats[t];
	if (schedule.wanted)
		schedule_line(to_string(t) + words);
	s.at = lq::ENTER, s.how = how;
	more_in_machine["enter"]++;
	move(c, t, lq::PLAIN);
}

// Where a soft interrupt may serve several disciplines, it begins at each one's first operation (begin_interrupt).
static bool begins_at_once() { return path_children() == 1 && !path_has_control(); }

static string follow_call(const Op &o, int t)
{
	const start &it = o.call;
	if (it.call == TRANSMIT) {
		int c = path_child_of(it.a);
		MachineSeat &s = machine.of[c].seats[t];
		s.packet = it.a, s.band = it.b % 4;
		begins(c, t, lq::QUEUED, " send " + to_string(s.band));
		if (s.at == lq::CHECK && !machine.of[c].q.bypass) {
			more_in_machine["check, where there is no bypass"]++;
			move(c, t, lq::PLAIN);
		}
	} else if (it.call == WAKE) {
		MachineSeat &s = machine.of[path_child_of_queue(it.a)].seats[t];
		s.at = lq::WAKE, s.how = lq::WAKER;
		if (schedule.wanted)
			schedule_line(to_string(t) + " wake");
	} else if (it.call == SOFTIRQ && begins_at_once()) {
		if (!machine.of[0].seats[t].raised)
			return "a soft interrupt that isn't raised";
		machine.of[0].seats[t].raised = 0;
		begins(0, t, lq::INTERRUPT, " softirq");
	} else if (it.call == DOWN || it.call == UP || it.call == CHANGE_LENGTH)
		machine.control = t;
	return "";
}

static string follow_end(int t)
{
	if (machine.control == t)
		machine.control = -1;
	for (int c = 0; c < path_children(); c++) {
		leaves(c, t);
		if (machine.of[c].seats[t].at != lq::IDLE)
			return string("the call ends at ") + at_text(machine.of[c].seats[t]);
	}
	return "";
}

// The steps of control: what they leave of the machine's words. The requeue slot is emptied behind the bands (own: before them).
static string follow_control(const Op &o, int t)
{
	Machine &m = machine.of[o.word < 0 || words[o.word].child < 0 ? 0 : words[o.word].child];
	int b = slot_band(o);
	leaves(0, t);
	if (is_named(o, "state") && (o.kind == SETB || o.kind == CLRB))
		set_state(m.q, o.kind == SETB ? state_of(m.q) | 1 << o.arg : state_of(m.q) & ~(1 << o.arg));
	else if (is_named(o, "state") && o.kind == TAS && o.arg == 0) { // an activation that schedules
		m.seats[t].raised |= !m.q.SCHED;
		m.q.SCHED = m.q.listed = 1;
	} else if (is_named(o, "seqlock") && (o.kind == LOCK || o.kind == UNLOCK)) {
		m.q.seqlock = o.kind == LOCK;
		MachineSeat nobody{};
		if (o.kind == UNLOCK)
			lq::slot_take(&m.q, &nobody);
	} else if (b >= 0 && o.kind == READ && o.result && o.is_volatile && m.q.seqlock) {
		if (!m.q.ring[b].held)
			return "a packet is purged of an empty band";
		MachineSeat nobody{};
		lq::ring_take(&m.q, &nobody, b);
	}
	if (kind_of(o) == SHARED)
		more_in_text["control: " + short_text(o)]++;
	return "";
}

static string follow_match(const Match &x, const Op &o, int c, int t)
{
	Machine &m = machine.of[c];
	MachineSeat &s = m.seats[t];
	int answer = o.kind != ASK ? lq::PLAIN : o.result == SENT_STOP ? lq::STOPS : o.result == BUSY ? lq::BUSY : lq::PLAIN;
	string at = at_text(s);
	if (x.kind == TRYLOCK && o.result != !m.q.seqlock)
		return at + ": another answer";
	if (o.kind == ASK && o.arg != s.packet)
		return at + ": another packet is handed to the device";
	if (o.kind == READ && is_named(o, "state") && (o.result & 15) != state_of(m.q))
		return at + ": another state is loaded";
	if (s.at == lq::CHECK && m.q.DEACTIVATED)
		more_in_text["check: the state has DEACTIVATED, and the call goes on"]++;
	same_step[at + ": " + (o.kind == ASK ? "the device" : short_text(o))]++;
	move(c, t, answer);
	return lq::why ? lq::why : "";
}

// An operation on a ring; `known` where it is one.
static string follow_ring(const Op &o, int c, int t, bool &known)
{
	Machine &m = machine.of[c];
	MachineSeat &s = m.seats[t];
	string lock = "producer lock " + to_string(s.band);
	known = true;
	if (s.at == lq::PUT && (o.kind == LOCK || o.kind == UNLOCK) && name_of(o) == lock)
		return more(s, o.kind == LOCK ? "the producer lock is taken" : "the producer lock is released");
	if (s.at == lq::PUT && is_slot(o, s.band)) {
		if (o.kind == READ && !o.result)
			return more(s, "the slot is loaded, and is null");
		if (o.kind == READ && m.q.ring[s.band].held + lq::batch_of(m.q.len) < m.q.len)
			return "full where it can't be";
		same_step[o.kind == READ ? "put, full: load slot" : "put: WRITE_ONCE slot"]++;
		machine.behind_put[c][t] = 1;
		move(c, t, o.kind == READ ? lq::FULL : lq::PLAIN);
		return "";
	}
	if (machine.behind_put[c][t] && o.kind == UNLOCK && name_of(o).compare(0, 13, "producer lock") == 0) {
		machine.behind_put[c][t] = 0;
		return more(s, "the producer lock is released, behind the put");
	}
	if (is_scan(s) && is_slot(o, s.at - lq::SCAN0) && o.kind == READ) {
		if (o.result && !o.is_volatile)
			return more(s, "the slot at the head is loaded, a packet, before the load that takes");
		if (!o.result != !m.q.ring[s.at - lq::SCAN0].held)
			return o.result ? "a packet in an empty band" : "an empty band that isn't empty";
		same_step[o.result ? "scan, a packet: READ_ONCE slot" : "scan, empty: load slot"]++;
		move(c, t, lq::PLAIN);
		return "";
	}
	if (s.at == lq::GATE && slot_band(o) >= 0 && o.kind == WRITE && !o.arg)
		return more(s, "null is stored to a slot that was taken");
	known = false;
	return "";
}

// The discipline of an operation: by its word, or by the packet that the device is asked about.
static int child_of(const Op &o) { return o.kind == ASK ? path_child_of(o.arg) : o.word < 0 ? -1 : words[o.word].child; }

// A soft interrupt begins at a discipline, where a seat serves several, or in control's wait.
static void begin_interrupt(const Op &o, int c, int t)
{
	MachineSeat &s = machine.of[c].seats[t];
	if (s.at != lq::IDLE || !s.raised || o.kind != TESTB || o.arg != 1 || !is_named(o, "state"))
		return;
	for (int other = 0; other < path_children(); other++)
		leaves(other, t);
	s.raised = 0;
	begins(c, t, lq::INTERRUPT, " softirq");
}

// A wake that finds noop_qdisc schedules that; in the machine the discipline, whose soft interrupt then finds DEACTIVATED.
static string follow_noop(const Op &o, int t)
{
	if (o.kind != TAS || !is_named(o, "noop_qdisc's state"))
		return "";
	for (int c = 0; c < path_children(); c++) {
		MachineSeat &s = machine.of[c].seats[t];
		if (s.at == lq::SCHEDULE) {
			more_in_text["sched: noop_qdisc is scheduled in place of the discipline"]++;
			goes_to(s, lq::IDLE);
		}
	}
	return "";
}

// From 7.3 on nobody schedules a discipline that is deactivated.
static string follow_deactivated(MachineSeat &s, const Op &o)
{
	if (!o.result)
		return more(s, "the state is tested for DEACTIVATED: clear");
	goes_to(s, s.how == lq::WAKER ? lq::IDLE : lq::LEAVE);
	more_in_text["sched: the state has DEACTIVATED, and nobody is scheduled"]++;
	return "";
}

static string follow_operation(const Op &o, int t)
{
	if (o.kind == CALL)
		return follow_call(o, t);
	if (o.kind == END)
		return follow_end(t);
	if (o.kind == ASK && o.index != DEVICE)
		return "";
	int c = child_of(o);
	if (c < 0)
		return follow_noop(o, t);
	begin_interrupt(o, c, t);
	MachineSeat &s = machine.of[c].seats[t];
	if (is_named(o, "qdisc of the queue") && o.kind == READ && machine.control != t) {
		if (o.result && o.result == (int64_t)(uintptr_t)path_refusing()) { // own: refused by DEACTIVATED
			more_in_text["check: noop_qdisc is found, and the packet dropped"]++;
			goes_to(s, lq::LEAVE);
		}
		return "";
	}
	if (machine.control == t && (s.at == lq::IDLE || s.at == lq::LEAVE || s.at == lq::LATE))
		return follow_control(o, t);
	for (auto &x : matches)
		if (x.at == s.at && x.kind == o.kind && name_of(o) == x.word && (x.bit < 0 || x.bit == o.arg))
			return follow_match(x, o, c, t);
	bool known;
	string said = follow_ring(o, c, t, known);
	if (known)
		return said;
	if (s.at == lq::SCHEDULE && o.kind == TESTB && is_named(o, "state") && o.arg == 1)
		return follow_deactivated(s, o);
	if (o.kind == TESTB && is_named(o, "stop word") && (s.at == lq::POST || s.at == lq::DEQ || s.at == lq::OVER))
		return more(s, "the stop word is tested behind the device's answer");
	if (kind_of(o) != SHARED || is_named(o, "qdisc lock")) {
		if (name_of(o).find("lock") != string::npos || name_of(o).find(".next") != string::npos)
			more(s, short_text(o));
		return "";
	}
	return string("at ") + at_text(s) + " the text does another thing: " + text_of(o);
}

static int owner_of_run_lock(int c)
{
	for (int i = 0; i < word_count; i++)
		if (words[i].child == c && !strcmp(words[i].name, "seqlock"))
			return owner[i];
	return -1;
}

// Where a packet that goes back, or was taken, is in the requeue slot at another time than in the machine.
static bool slot_is_late(int c)
{
	Machine &m = machine.of[c];
	for (int t = 0; t < seat_count; t++) {
		if (m.seats[t].at == lq::AGAIN) {
			later["the requeue slot is filled after the busy answer, or after the bit that is set where the queue is stopped"]++;
			return true;
		}
		if (options.fine && kind_of(seats[t].next) == GUARDED && m.seats[t].at == lq::GATE) {
			later["the requeue slot is emptied after the load of the stop word"]++;
			return true;
		}
	}
	bool is_purged = machine.control >= 0 && m.q.seqlock && owner_of_run_lock(c) == machine.control;
	if (is_purged)
		later["the requeue slot is purged after the bands"]++;
	return is_purged;
}

static bool is_inside_ring(int c)
{
	if (!options.fine)
		return false;
	for (int t = 0; t < seat_count; t++) {
		const Op &o = seats[t].next;
		if ((o.kind == READ || o.kind == WRITE) && words[o.word < 0 ? 0 : o.word].child == c && (kind_of(o) != SHARED || o.kind == WRITE))
			return true;
	}
	return false;
}

static string compare_bands(const Machine &m, const view &v)
{
	for (int b = 0; b < 3; b++) {
		if (v.taken[b])
			later["a packet that was taken is still in its ring: null is stored and the head moved after it"]++;
		const lq::ring &r = m.q.ring[b];
		if (v.n[b] != r.held)
			return "band " + to_string(b) + " holds " + to_string(v.n[b]) + " packets, in the machine " + to_string(r.held);
		if (!std::equal(r.packet, r.packet + r.held, v.band[b]))
			return "band " + to_string(b) + " holds other packets";
	}
	return "";
}

// The words of both, after a step.
static string compare_words(int c)
{
	Machine &m = machine.of[c];
	view v{};
	for (int t = 0; t < seat_count; t++) {
		const Op &next = seats[t].next;
		int b = slot_band(next);
		if (b >= 0 && next.kind == WRITE && words[next.word].child == c && owner_of_run_lock(c) == t && (m.seats[t].at == lq::GATE || machine.control == t))
			v.taken[b] = 1;
	}
	if (world_alone() >= 0) // control changes the rings, and no other seat may use them
		return "";
	path_view(c, &v);
	for (int b = 0; b < 3; b++) // a shorter ring keeps the first packets: from 7.2 on some may be left in it
		for (lq::ring &r = m.q.ring[b]; r.held > v.len;)
			r.packet[--r.held] = 0;
	m.q.len = v.len;
	if (v.state != state_of(m.q))
		return "the state is " + to_string(v.state) + ", in the machine " + to_string(state_of(m.q));
	if (v.lock != m.q.seqlock)
		return "the run lock is another";
	if (v.xoff != m.q.xoff[0])
		return "the stop word is another";
	if ((v.slot != (m.q.gso_skb ? m.q.gso_packet : -1) || v.slots > 1) && !slot_is_late(c))
		return "the requeue slot is another";
	return is_inside_ring(c) ? "" : compare_bands(m, v);
}

static string compare_raised()
{
	for (int t = 0; t < seat_count; t++)
		for (int c = 0; c < path_children() && seats[t].next.kind == IDLE; c++)
			if (machine.of[c].seats[t].raised != path_is_scheduled(t, c))
				return "the raised mark is another";
	return "";
}

// After a step of the text: what it does that the machine doesn't, or nothing.
static string follow(Choice choice)
{
	string said;
	for (size_t i = 0; i < stepped.size() && said.empty(); i++)
		said = follow_operation(stepped[i], choice.seat);
	for (int c = 0; c < path_children() && said.empty(); c++)
		said = compare_words(c);
	return said.empty() ? compare_raised() : said;
}

static string machine_text()
{
	string text;
	for (int c = 0; c < path_children(); c++) {
		Machine &m = machine.of[c];
		text += (c ? "; state " : "state ") + to_string(state_of(m.q)) + ", run lock " + (m.q.seqlock ? "held" : "free") + ", stop word " + to_string(m.q.xoff[0])
			+ ", packets in the rings " + to_string(m.q.ring[0].held + m.q.ring[1].held + m.q.ring[2].held) + ", requeued " + to_string(m.q.gso_skb);
		for (int t = 0; t < seat_count; t++)
			text += ", seat " + to_string(t) + " at " + at_text(m.seats[t]);
	}
	return text;
}

static void print_counts(const char *title, const map<string, long> &counts)
{
	printf("%s\n", title);
	for (auto &it : counts)
		printf("  %9ld  %s\n", it.second, it.first.c_str());
}

static void report_steps()
{
	print_counts("One operation of the text is one step of the machine (how often it was done in the search):", same_step);
	print_counts("Operations that the machine hasn't:", more_in_text);
	print_counts("Steps of the machine that are no operation of the text:", more_in_machine);
	print_counts("Words that agree only some operations later:", later);
}

static void machine_init()
{
	memset(&machine, 0, sizeof machine);
	machine.control = -1;
	for (int c = 0; c < path_children(); c++) {
		Machine &m = machine.of[c];
		view v{};
		path_view(c, &v);
		m.q.bypass = path_bypass(), m.q.len = v.len, m.q.xoff[0] = v.xoff, m.q.DRAINING = v.state >> 3 & 1;
		for (int b = 0; b < 3; b++)
			m.q.ring[b].held = v.n[b], std::copy(v.band[b], v.band[b] + v.n[b], m.q.ring[b].packet);
	}
}
