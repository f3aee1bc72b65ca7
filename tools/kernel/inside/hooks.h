// The accesses of the text. The compiler's instrumentation for its thread sanitizer calls a function before each plain or volatile access;
// bit operations, locks and barriers are functions.
#pragma once
#include "memory.h"

#define CALLER __builtin_return_address(0)

static set<int> unnamed; // words that were used and have no name

static void before(const Op &o)
{
	settle_store();
	if (yields(o))
		yield_at(o);
	if (o.word == -1)
		unnamed.insert(o.offset);
	check_use(o);
}

static void access(Kind k, const void *p, int size, bool is_volatile, void *pc)
{
	if (current < 0)
		return;
	Op o = operation(k, p, size, pc);
	if (o.word == -2) {
		settle_store();
		return;
	}
	o.is_volatile = is_volatile;
	before(o);
	if (k == WRITE) {
		store = {true, o, value_at(o.offset, size)};
		return;
	}
	o.result = value_at(o.offset, size);
	if (o.word >= 0 && kind_of(o) != CONSTANT)
		done(o);
}

#define ACCESSES(n) \
	extern "C" void __tsan_read##n(void *p) { access(READ, p, n, false, CALLER); } \
	extern "C" void __tsan_write##n(void *p) { access(WRITE, p, n, false, CALLER); } \
	extern "C" void __tsan_volatile_read##n(void *p) { access(READ, p, n, true, CALLER); } \
	extern "C" void __tsan_volatile_write##n(void *p) { access(WRITE, p, n, true, CALLER); } \
	extern "C" void __tsan_unaligned_read##n(void *p) { access(READ, p, n, false, CALLER); } \
	extern "C" void __tsan_unaligned_write##n(void *p) { access(WRITE, p, n, false, CALLER); }
ACCESSES(1) ACCESSES(2) ACCESSES(4) ACCESSES(8) ACCESSES(16)

// A bit operation that changes its word. One that returns what it found is fully ordered; the other two are relaxed, and on x86 locked.
static bool change_bit(Kind k, long nr, volatile unsigned long *p, void *pc, bool is_relaxed = false)
{
	if (current < 0)
		return false;
	Op o = operation(k, p, 8, pc);
	o.arg = nr;
	before(o);
	unsigned long mask = 1ul << nr, old = *p;
	bool returns = k == TAS || k == TAC, sets = k == SETB || k == TAS;
	if (options.model == WEAK && !returns) { // the change may be seen later
		o.result = (old & mask) != 0;
		done(o);
		buffer_store(o, k, mask, 0);
		lay_last(old);
		*p = sets ? old | mask : old & ~mask;
		return o.result;
	}
	if (is_relaxed || options.without >> 5 & 1)
		order_acquire(o);
	else
		order_all();
	o.result = (*p & mask) != 0;
	*p = sets ? *p | mask : *p & ~mask;
	done(o);
	return o.result;
}

static void set_owner(const Op &o, int seat)
{
	if (o.word < 0)
		broken = "a lock without a name is used";
	else
		owner[o.word] = seat;
}

static void took(const Op &o)
{
	set_owner(o, current);
	// noop_qdisc's lock is of no discipline that control changes
	if (world_alone() >= 0 && world_alone() != current && kind_of(o) == SHARED && words[o.word].child >= 0)
		broken = string("'") + words[o.word].name + "' is taken where one seat is to be alone";
}

extern "C" {
void __tsan_init() {}
void __tsan_func_entry(void *) {}
void __tsan_func_exit() {}
void set_bit(long nr, volatile unsigned long *p) { change_bit(SETB, nr, p, CALLER); }
void clear_bit(long nr, volatile unsigned long *p) { change_bit(CLRB, nr, p, CALLER); }
bool test_and_set_bit(long nr, volatile unsigned long *p) { return change_bit(TAS, nr, p, CALLER); }
bool test_and_clear_bit(long nr, volatile unsigned long *p) { return change_bit(TAC, nr, p, CALLER); }
bool test_and_set_bit_relaxed(long nr, volatile unsigned long *p) { return change_bit(TAS, nr, p, CALLER, true); }
bool test_and_clear_bit_relaxed(long nr, volatile unsigned long *p) { return change_bit(TAC, nr, p, CALLER, true); }

bool test_bit(long nr, const volatile unsigned long *p)
{
	Op o = operation(TESTB, p, 8, CALLER);
	o.arg = nr;
	before(o);
	o.result = *p >> nr & 1;
	done(o);
	return o.result;
}

typedef struct { int v; } spinlock_t;

static bool look_at_lock(Kind k, spinlock_t *l, void *pc)
{
	Op o = operation(k, l, 4, pc);
	before(o);
	o.result = l->v;
	done(o);
	return o.result;
}

bool spin_is_locked(spinlock_t *l) { return look_at_lock(LOOKLOCK, l, CALLER); }

bool spin_trylock(spinlock_t *l)
{
	if (options.look && look_at_lock(LOOKLOCK, l, CALLER)) // queued_spin_trylock looks before it exchanges
		return false;
	Op o = operation(TRYLOCK, l, 4, CALLER);
	before(o);
	order_acquire(o);
	o.result = l->v == 0;
	l->v = 1;
	if (o.result)
		took(o);
	done(o);
	return o.result;
}

void spin_lock(spinlock_t *l)
{
	Op o = operation(LOCK, l, 4, CALLER);
	before(o);
	if (kind_of(o) == SHARED)
		order_acquire(o);
	if (l->v)
		broken = "'" + name_of(o) + "', which one seat alone was to take, is held by another";
	l->v = 1;
	took(o);
	done(o);
}

void spin_unlock(spinlock_t *l)
{
	Op o = operation(UNLOCK, l, 4, CALLER);
	before(o);
	if (o.word >= 0 && owner[o.word] != current)
		broken = "'" + name_of(o) + "' is released by a seat that doesn't hold it";
	set_owner(o, -1);
	if (options.model && kind_of(o) == SHARED) {
		uint64_t old = l->v;
		buffer_store(o, WRITE, 0, !(options.without >> 6 & 1));
		lay_last(old);
	}
	l->v = 0;
	done(o);
}

void barrier_hook(int kind)
{
	enum { FULL, STORES, LOADS };
	if (current < 0 || options.model == SEQUENTIAL || options.without >> kind & 1)
		return;
	settle_store();
	// on x86 locked operations order by themselves, and stores are in order
	if (kind == LOADS || (options.model == X86 && kind != FULL))
		return;
	Seat &s = seats[current];
	if (!s.buffered && !std::any_of(stepped.begin(), stepped.end(), [](const Op &o) { return o.kind == WRITE && kind_of(o) == SHARED; }))
		return;
	Op o{};
	o.kind = BARRIER, o.word = -1, o.arg = kind, o.pc = CALLER;
	yield_at(o);
	if (kind != STORES)
		order_all();
	else if (s.buffered)
		s.buffer[s.buffered - 1].release = 2;
	done(o);
}

int ask(int question, int about)
{
	Op o{};
	o.kind = ASK, o.word = -1, o.index = question, o.arg = about, o.pc = CALLER;
	yield_at(o);
	o.result = seats[current].answer;
	world_answered(current, question, about, o.result);
	done(o);
	return o.result;
}

void wrong(const char *what) { broken = what; }
int seat_now(void) { return current; }
}
