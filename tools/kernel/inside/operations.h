/* The memory operations of the kernel's text, and the barriers: each one is a step of its seat (hooks.h). */
#ifndef INSIDE_OPERATIONS_H
#define INSIDE_OPERATIONS_H

/* what the texts of both worlds take from other headers */
typedef unsigned int gfp_t;
typedef _Bool bool;
#define likely(x) (x)
#define unlikely(x) (x)
#define ____cacheline_aligned_in_smp
#define SMP_CACHE_BYTES 64
#define ENOSPC 28
#define EINVAL 22
#define ENOMEM 12
#define spin_lock_bh(l) spin_lock(l)
#define spin_unlock_bh(l) spin_unlock(l)
#define spin_lock_irqsave(l, f) ((void)((f) = 0), spin_lock(l))
#define spin_unlock_irqrestore(l, f) ((void)(f), spin_unlock(l))
#define kmalloc_array_noprof kmalloc_array

typedef struct { int v; } spinlock_t;

void set_bit(long nr, volatile unsigned long *p);
void clear_bit(long nr, volatile unsigned long *p);
_Bool test_bit(long nr, const volatile unsigned long *p);
_Bool test_and_set_bit(long nr, volatile unsigned long *p);
_Bool test_and_clear_bit(long nr, volatile unsigned long *p);
/* none of a kernel's: what a value-returning operation would be without its order (changes.py) */
_Bool test_and_set_bit_relaxed(long nr, volatile unsigned long *p);
_Bool test_and_clear_bit_relaxed(long nr, volatile unsigned long *p);
_Bool spin_trylock(spinlock_t *l);
void spin_lock(spinlock_t *l);
void spin_unlock(spinlock_t *l);
_Bool spin_is_locked(spinlock_t *l);
void barrier_hook(int kind);
#define smp_mb() barrier_hook(0)
#define smp_wmb() barrier_hook(1)
#define smp_rmb() barrier_hook(2)
#define smp_mb__before_atomic() barrier_hook(3)
#define smp_mb__after_atomic() barrier_hook(4)
/* the compiler announces a volatile access apart from a plain one */
#define READ_ONCE(x) (*(const volatile __typeof__(x) *)&(x))
#define data_race(x) (x)
#define WRITE_ONCE(x, v) (*(volatile __typeof__(x) *)&(x) = (v))

#endif
