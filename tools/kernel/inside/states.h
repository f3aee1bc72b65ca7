// States of the search: world, seats with their stacks, and the machine beside them; going back is a copy.
#pragma once
#include "hooks.h"
#ifdef WITH_MACHINE
#include "machine.h"
#else
static char machine[1]; // no machine goes along
#endif

static string save()
{
	string state;
	state.reserve(world_size() + 2000);
	state.append(world, world_size());
	state.append((char *)&machine, sizeof machine);
	state.append((char *)owner, sizeof owner);
	for (int t = 0; t < seat_count; t++) {
		state.append((char *)&seats[t], sizeof(Seat));
		state.append(seats[t].sp, stacks[t] + STACK - seats[t].sp);
	}
	return state;
}

static void load(const string &state)
{
	const char *from = state.data();
	auto take = [&](void *to, size_t size) { memcpy(to, from, size); from += size; };
	take(world, world_size());
	take(&machine, sizeof machine);
	take(owner, sizeof owner);
	for (int t = 0; t < seat_count; t++) {
		take(&seats[t], sizeof(Seat));
		take(seats[t].sp, stacks[t] + STACK - seats[t].sp);
	}
}

// The key of a state: world and machine, and of each seat what its call's operations have told it. (With the stacks there are twice as many.)
typedef pair<uint64_t, uint64_t> Key;
static void add(Key &k, uint64_t v)
{
	k.first = mix(k.first ^ v, 0x8ebc6af09c88c6e3ull);
	k.second = mix(k.second + v, 0x589965cc75374cc3ull);
}

static Key key_of_bytes(const char *bytes, size_t size)
{
	Key k{1, 2};
	for (size_t i = 0; i < size; i += 8) {
		uint64_t v = 0;
		memcpy(&v, bytes + i, std::min<size_t>(8, size - i));
		add(k, v);
	}
	return k;
}

static Key key_of(const string &state)
{
	Key k = key_of_bytes(state.data(), world_size() + sizeof machine);
	for (int t = 0; t < seat_count; t++) {
		const Seat &s = seats[t];
		add(k, s.history + s.call.call * 77 + s.call.a + s.call.b * 1013);
		for (int i = 0; i < s.buffered; i++) {
			add(k, s.buffer[i].offset * 128 + s.buffer[i].is_old * 64 + s.buffer[i].kind * 4 + s.buffer[i].release);
			add(k, s.buffer[i].value + 7);
		}
	}
	return k;
}

// The keys that were seen: an open table, 16 bytes a state, where 0 is no key.
class Keys {
	vector<Key> table = vector<Key>(1 << 18);
	Key &slot_of(const Key &k)
	{
		size_t i = k.first & (table.size() - 1);
		while (table[i].first && table[i] != k)
			i = (i + 1) & (table.size() - 1);
		return table[i];
	}

public:
	size_t count = 0;
	bool has(Key k)
	{
		k.first |= !k.first;
		return slot_of(k).first;
	}
	bool add(Key k)
	{
		if (has(k))
			return false;
		if (++count * 10 > table.size() * 6) {
			vector<Key> old(table.size() * 2);
			old.swap(table);
			for (auto &key : old)
				if (key.first)
					slot_of(key) = key;
		}
		k.first |= !k.first;
		slot_of(k) = k;
		return true;
	}
};

// What a seat may do next: go on, with which start or answer; or one of its stores is seen.
enum { A_STORE = 100 };
struct Choice { uint8_t seat, what; };

// Whether others don't see yet what a call has stored that has ended.
static bool has_old_stores()
{
	for (int t = 0; t < seat_count; t++)
		for (int i = 0; i < seats[t].buffered; i++)
			if (seats[t].buffer[i].is_old)
				return true;
	return false;
}

static void seat_choices(uint8_t t, vector<Choice> &out)
{
	Seat &s = seats[t];
	int count = 1, answers[MOST_ANSWERS];
	start starts[MOST_STARTS];
	for (int i = 0; i < s.buffered; i++)
		if (may_flush(s, i))
			out.push_back({t, uint8_t(A_STORE + i)});
	if (s.next.kind == IDLE)
		count = world_starts(t, starts);
	else if (s.next.kind == ASK)
		count = world_answers(t, s.next.index, s.next.arg, answers);
	else if (s.next.kind == LOCK)
		count = value_at(s.next.offset, 4) == 0;
	bool waits = s.next.kind == ASK && s.next.index >= A_WAIT && has_old_stores();
	for (int i = 0; i < count; i++)
		if (!waits || answers[i])
			out.push_back({t, uint8_t(i)});
}

static vector<Choice> choices()
{
	vector<Choice> out;
	for (int t = 0; t < seat_count; t++)
		seat_choices(t, out);
	return out;
}

// Makes a choice; false where something went wrong in the step (`broken`).
static bool go(Choice c)
{
	Seat &s = seats[c.seat];
	broken.clear();
	if (c.what >= A_STORE) {
		stepped.clear();
		const Entry &e = s.buffer[c.what - A_STORE];
		Op o = operation(FLUSH, world + e.offset, e.size, nullptr);
		o.arg = e.value, o.result = e.kind;
		stepped.push_back(o);
		flush_one(s, c.what - A_STORE);
		return true;
	}
	if (s.next.kind == IDLE) {
		start starts[MOST_STARTS];
		world_starts(c.seat, starts);
		s.call = starts[c.what];
		world_begin(c.seat, s.call);
	} else if (s.next.kind == ASK) {
		int answers[MOST_ANSWERS];
		world_answers(c.seat, s.next.index, s.next.arg, answers);
		s.answer = answers[c.what];
	}
	resume(c.seat);
	return broken.empty();
}

// How many packets are left where nobody comes: no seat is in a call, and all stores are seen.
static int left_behind()
{
	for (int t = 0; t < seat_count; t++)
		if (seats[t].next.kind != IDLE || seats[t].buffered)
			return 0;
	return world_left();
}

// No seat can go on, and one is in a call.
static bool is_stuck(const vector<Choice> &may)
{
	return may.empty() && std::any_of(seats, seats + seat_count, [](const Seat &s) { return s.next.kind != IDLE; });
}
