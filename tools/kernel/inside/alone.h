// The other way: the machine alone, with the same bounds, and which of its states the text reaches.
#pragma once
#include "follow.h"

struct Alone { Machine m; uint8_t sends[MOST_SEATS], wakes, stops, busy; };
struct Bounds { int sends, total, bands, wakes, stops, busy; };
static Bounds bounds;       // of the search, for the machine
static Keys reached;        // the states of the machine to which the text came

static Key key_of(const Alone &it) { return key_of_bytes((const char *)&it, sizeof it); }

// The machine's state beside the text's.
static Alone beside()
{
	Alone it;
	memset(&it, 0, sizeof it);
	it.m = machine.of[0];
	path_counts(it.sends, &it.wakes, &it.stops, &it.busy);
	return it;
}

// The steps that the text hasn't are taken with the one before.
static void settle(Machine &m, int t)
{
	MachineSeat &s = m.seats[t];
	if (s.at == lq::ENTER)
		machine_step(m, t, lq::PLAIN);
	if (s.at == lq::CHECK && !m.q.bypass)
		machine_step(m, t, lq::PLAIN);
	if (s.at == lq::LEAVE)
		machine_step(m, t, lq::PLAIN);
}

class MachineSearch {
	Keys seen;
	vector<Alone> states;
	bool may_be_full;
	void come(Alone next, int t)
	{
		settle(next.m, t);
		if (seen.add(key_of(next)))
			states.push_back(next);
	}
	static bool may_send(const Alone &x, int t)
	{
		int begun = std::accumulate(x.sends, x.sends + seat_count, 0);
		return x.sends[t] < bounds.sends && (!bounds.total || begun < bounds.total);
	}
	void begin(const Alone &x, int t)
	{
		for (int b = 0; b < bounds.bands && may_send(x, t); b++) {
			Alone next = x;
			MachineSeat &s = next.m.seats[t];
			s.at = lq::ENTER, s.packet = t * bounds.sends + next.sends[t]++, s.band = bounds.bands == 1 ? 1 : b;
			come(next, t);
		}
		if (x.m.seats[t].raised) {
			Alone next = x;
			next.m.seats[t].raised = 0, next.m.seats[t].at = lq::ENTER, next.m.seats[t].how = lq::INTERRUPT;
			come(next, t);
		}
		if (x.wakes) {
			Alone next = x;
			next.wakes--, next.m.seats[t].at = lq::WAKE, next.m.seats[t].how = lq::WAKER;
			come(next, t);
		}
	}
	void step(const Alone &x, int t, int answer)
	{
		Alone next = x;
		MachineSeat &s = next.m.seats[t];
		int from = way_of(s);
		machine_step(next.m, t, answer);
		ways.insert({from, way_of(s)});
		next.stops -= answer == lq::STOPS;
		next.busy -= answer == lq::BUSY;
		come(next, t);
	}
	void steps(const Alone &x, int t)
	{
		const MachineSeat &s = x.m.seats[t];
		int room = x.m.q.len - x.m.q.ring[s.band].held;
		if (s.at == lq::IDLE)
			return begin(x, t);
		if (s.at != lq::PUT || room > 0)
			step(x, t, lq::PLAIN);
		if (s.at == lq::PUT && may_be_full && room <= lq::batch_of(x.m.q.len))
			step(x, t, lq::FULL);
		if (s.at == lq::XMIT && x.stops)
			step(x, t, lq::STOPS);
		if (s.at == lq::XMIT && x.busy)
			step(x, t, lq::BUSY);
	}

public:
	set<pair<int, int>> ways;
	long missed = 0;
	MachineSearch(const Alone &first, bool full) : states{first}, may_be_full(full)
	{
		seen.add(key_of(first));
		for (size_t i = 0; i < states.size(); i++) {
			Alone x = states[i];
			missed += !reached.has(key_of(x));
			for (int t = 0; t < seat_count; t++)
				steps(x, t);
		}
	}
	size_t count() const { return states.size(); }
};

static void report_machine_alone(const Alone &first)
{
	bool full = same_step.count("put, full: load slot"); // the machine may say full up to a batch early
	MachineSearch it(first, full);
	long gone = std::count_if(it.ways.begin(), it.ways.end(), [](const pair<int, int> &way) { return arrows.count(way) > 0; });
	printf("The machine alone%s has %zu states; the text came to all but %ld of them, and went %ld of its %zu ways.\n", full ? " (a ring may be full)" : "",
	       it.count(), it.missed, gone, it.ways.size());
}
