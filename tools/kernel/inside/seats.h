// Seats: each runs its call on a stack of its own, from one shared access to the next.
#pragma once
#include <algorithm>
#include <cstdint>
#include <cstdio>
#include <cstdlib>
#include <cstring>
#include <ctime>
#include <map>
#include <numeric>
#include <set>
#include <string>
#include <utility>
#include <vector>
extern "C" {
#include "world.h"
extern char world[];
}
using std::map;
using std::pair;
using std::set;
using std::string;
using std::to_string;
using std::vector;

enum Kind : uint8_t { NONE, READ, WRITE, SETB, CLRB, TESTB, TAS, TAC, TRYLOCK, LOOKLOCK, LOCK, UNLOCK, ASK, BARRIER, IDLE, CALL, END, FLUSH };

// One access of the text. `word` is its place among the names, -1 where it has none; `result` what it found, `arg` what it left, or a bit's number.
struct Op {
	Kind kind;
	uint8_t size, is_volatile;
	int16_t word, index;
	int32_t offset;
	int64_t arg, result;
	start call;
	void *pc;
};

// A store that the other seats don't see yet (memory.h).
struct Entry {
	int32_t offset;
	uint8_t size, kind, release, is_old; // is_old: the call that made it has ended
	uint64_t value;
};

enum { BUFFER = 6, STACK = 16384 };

struct Seat {
	char *sp;
	Op next;           // what it does when it goes on
	start call;
	int32_t answer, buffered;
	Entry buffer[BUFFER];
	uint64_t history;  // what the operations of its call have told it so far
};

enum Model { SEQUENTIAL, X86, WEAK };
static const char *const model_names[] = {"sequentially consistent", "x86", "weak"};
// what a search takes from its words
static struct Options {
	long model = SEQUENTIAL, look = 0, fine = 0, compare = 0, most = 500000, walks = 0, seed = 1;
	long without = 0; // kinds of barriers that are left out: bits 0 to 4 as in operations.h, 5 the order of value-returning bit operations, 6 the release of a lock
} options;
static const map<string, long *> option_of = {{"model", &options.model}, {"look", &options.look}, {"fine", &options.fine}, {"compare", &options.compare},
	{"most", &options.most}, {"walks", &options.walks}, {"seed", &options.seed}, {"without", &options.without}};

static Seat seats[MOST_SEATS];
static int seat_count;
static int8_t owner[MOST_WORDS];  // of each word that is a lock: who holds it, or -1
static char stacks[MOST_SEATS][STACK] __attribute__((aligned(4096)));
static char *search_stack;
static int current = -1;          // the seat that runs, or -1
static vector<Op> stepped;        // the operations of the step under way
static string broken;             // what went wrong in it
static word words[MOST_WORDS];
static int word_count;

extern "C" void switch_to(char **save, char *to);
asm(".text\n.globl switch_to\nswitch_to:\n push %rbp\n push %rbx\n push %r12\n push %r13\n push %r14\n push %r15\n mov %rsp,(%rdi)\n mov %rsi,%rsp\n"
    " pop %r15\n pop %r14\n pop %r13\n pop %r12\n pop %rbx\n pop %rbp\n ret\n");

static uint64_t value_at(int offset, int size) { uint64_t v = 0; memcpy(&v, world + offset, size); return v; }
static void put_value(int offset, int size, uint64_t v) { memcpy(world + offset, &v, size); }
static uint64_t mix(uint64_t a, uint64_t b)
{
	unsigned __int128 m = (unsigned __int128)(a ^ 0x9e3779b97f4a7c15ull) * (b ^ 0xe7037ed1a0b428dbull);
	return (uint64_t)m ^ (uint64_t)(m >> 64);
}

static word_kind kind_of(const Op &o) { return o.word < 0 ? word_kind(0) : words[o.word].kind; }
static string name_of(const Op &o) { return o.word < 0 ? "" : words[o.word].name; }
static bool is_named(const Op &o, const char *name) { return o.word >= 0 && !strcmp(words[o.word].name, name); }

static vector<int16_t> word_of_offset; // for each byte of the world, the word that it is part of, or -1
static void name_words()
{
	word_count = world_words(words);
	word_of_offset.assign(world_size(), -1);
	for (int i = word_count; i-- > 0;)
		std::fill_n(word_of_offset.begin() + words[i].offset, words[i].size, int16_t(i));
	memset(owner, -1, sizeof owner);
}

// An operation at a place; word -2 where the place isn't in the world.
static Op operation(Kind k, const volatile void *p, int size, void *pc)
{
	Op o{};
	o.kind = k, o.size = size, o.pc = pc, o.word = -2;
	long offset = (char *)p - world;
	if (offset < 0 || offset >= world_size())
		return o;
	o.offset = offset, o.word = word_of_offset[offset];
	o.index = o.word < 0 ? 0 : offset - words[o.word].offset;
	return o;
}

static void done(const Op &o)
{
	stepped.push_back(o);
	seats[current].history = mix(seats[current].history + o.kind, mix(o.offset * 8 + 1, o.result));
}

// A plain store is over when its seat does something else: what it left is known then.
static struct { bool pending; Op op; uint64_t before; } store;
static void settle_store()
{
	if (!store.pending)
		return;
	store.pending = false;
	store.op.arg = value_at(store.op.offset, store.op.size), store.op.result = store.before;
	done(store.op);
}

// The seat stops before its next operation; it goes on when the search says so.
static void yield_at(const Op &o)
{
	settle_store();
	seats[current].next = o;
	switch_to(&seats[current].sp, search_stack);
}

static bool yields(const Op &o)
{
	word_kind k = kind_of(o);
	return k == SHARED || (options.fine && k == GUARDED) || (options.fine > 1 && k == OWN);
}

// A word that isn't shared is used as its name says.
static void check_use(const Op &o)
{
	if (o.word < 0)
		return;
	const word &w = words[o.word];
	if (w.kind == GUARDED && owner[w.guard] != current && !(owner[w.guard] < 0 && world_alone() == current))
		broken = string("'") + w.name + "' is used without '" + words[w.guard].name + "'";
	if (w.kind == NEVER)
		broken = string("'") + w.name + "' is used";
	if (w.kind == CONSTANT && o.kind == WRITE)
		broken = string("'") + w.name + "' is written";
}

static void seat_main()
{
	for (;;) {
		Op o{};
		o.kind = IDLE, o.word = -1;
		seats[current].call = {}, seats[current].history = 0;
		yield_at(o);
		o.kind = CALL, o.call = seats[current].call;
		stepped.push_back(o);
		world_run(current, seats[current].call);
		settle_store();
		for (int i = 0; i < seats[current].buffered; i++)
			seats[current].buffer[i].is_old = 1;
		o.kind = END;
		stepped.push_back(o);
	}
}

static void resume(int t);
static void make_seats()
{
	seat_count = world_seats();
	for (int t = 0; t < seat_count; t++) {
		uint64_t *sp = (uint64_t *)(stacks[t] + STACK);
		*--sp = 0;
		*--sp = (uint64_t)seat_main;
		for (int i = 0; i < 6; i++)
			*--sp = 0;
		seats[t] = Seat{};
		seats[t].sp = (char *)sp;
		resume(t);
	}
}
