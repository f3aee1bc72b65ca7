// Store buffers: the stores of a seat that the others don't see yet. Loads stay in program order.
#pragma once
#include "seats.h"

static void apply(const Entry &e)
{
	uint64_t v = value_at(e.offset, e.size);
	put_value(e.offset, e.size, e.kind == WRITE ? e.value : e.kind == SETB ? v | e.value : v & ~e.value);
}

static void flush_all(Seat &s)
{
	for (int i = 0; i < s.buffered; i++)
		apply(s.buffer[i]);
	s.buffered = 0;
	memset(s.buffer, 0, sizeof s.buffer);
}

static void flush_one(Seat &s, int i)
{
	apply(s.buffer[i]);
	for (int j = i; j + 1 < s.buffered; j++)
		s.buffer[j] = s.buffer[j + 1];
	memset(&s.buffer[--s.buffered], 0, sizeof(Entry));
}

// x86: the oldest store is seen first. Weak: stores to other words may pass, but not a release, nor the barrier of stores (release 2).
static bool may_flush(const Seat &s, int i)
{
	if (options.model == X86 || s.buffer[i].release)
		return i == 0;
	for (int j = 0; j < i; j++)
		if (s.buffer[j].offset == s.buffer[i].offset || s.buffer[j].release == 2)
			return false;
	return true;
}

static void buffer_store(const Op &o, int kind, uint64_t value, int release)
{
	Seat &s = seats[current];
	if (s.buffered == BUFFER) {
		broken = "the store buffer of the search is full";
		return;
	}
	Entry e{};
	e.offset = o.offset, e.size = o.size, e.kind = kind, e.value = value, e.release = release;
	s.buffer[s.buffered++] = e;
}

// A seat sees its own stores: while it runs they are laid over the world, and lifted when it stops.
static vector<pair<Entry, uint64_t>> laid;
static void lay()
{
	laid.clear();
	Seat &s = seats[current];
	for (int i = 0; i < s.buffered; i++) {
		laid.push_back({s.buffer[i], value_at(s.buffer[i].offset, s.buffer[i].size)});
		apply(s.buffer[i]);
	}
}

static void lay_last(uint64_t before) { laid.push_back({seats[current].buffer[seats[current].buffered - 1], before}); }

static void lift()
{
	for (size_t i = laid.size(); i-- > 0;)
		put_value(laid[i].first.offset, laid[i].first.size, laid[i].second);
	laid.clear();
}

// A fully ordered operation, or a barrier: the others see all stores before it.
static void order_all()
{
	if (options.model == SEQUENTIAL)
		return;
	lift();
	flush_all(seats[current]);
}

// A lock that is taken: on x86 a locked operation; else it orders none of the stores before it, but those to its own word.
static void order_acquire(const Op &o)
{
	bool own = options.model == X86;
	for (int i = 0; i < seats[current].buffered; i++)
		own |= seats[current].buffer[i].offset == o.offset;
	if (own)
		order_all();
}

// Runs a seat to its next shared access.
static void resume(int t)
{
	current = t;
	stepped.clear();
	store.pending = false;
	if (options.model)
		lay();
	switch_to(&search_stack, seats[t].sp);
	if (options.model) {
		for (auto &o : stepped)
			if (o.kind == WRITE && kind_of(o) == SHARED) { // a plain store that was made in this step waits, too
				put_value(o.offset, o.size, o.result);
				buffer_store(o, WRITE, o.arg, 0);
			}
		lift();
	}
	current = -1;
}
