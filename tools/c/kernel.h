/* What the kernel's ptr_ring.h takes from other headers of the kernel, in C for a user's program, and that header itself. */
#include <errno.h>
#include <malloc.h>
#include <pthread.h>
#include <sched.h>
#include <stdatomic.h>
#include <stdbool.h>
#include <stdint.h>
#include <stdio.h>
#include <stdlib.h>
#include <string.h>
#include <time.h>

#define SMP_CACHE_BYTES 64
#define cache_line_size() SMP_CACHE_BYTES
#define ____cacheline_aligned_in_smp __attribute__((aligned(SMP_CACHE_BYTES)))
#define unlikely(x) __builtin_expect(!!(x), 0)
#define likely(x) __builtin_expect(!!(x), 1)
#define ALIGN(x, a) (((x) + (a) - 1) / (a) * (a))
#define KMALLOC_MAX_SIZE SIZE_MAX
#define READ_ONCE(x) (*(volatile __typeof__(x) *)&(x))
#define WRITE_ONCE(x, v) (*(volatile __typeof__(x) *)&(x) = (v))
#define barrier() asm volatile("" ::: "memory")
#if defined(__x86_64__)
#define smp_wmb() barrier()
#define cpu_relax() __builtin_ia32_pause()
#else
#define smp_wmb() atomic_thread_fence(memory_order_release)
#define cpu_relax() sched_yield()
#endif
#define __GFP_ZERO 1
typedef int gfp_t;
typedef pthread_spinlock_t spinlock_t;

static void *kmalloc(size_t size, gfp_t gfp)
{
	void *p = memalign(SMP_CACHE_BYTES, size);

	if (p && (gfp & __GFP_ZERO))
		memset(p, 0, size);
	return p;
}

static inline void *kmalloc_array(size_t n, size_t size, gfp_t gfp) { return kmalloc(n * size, gfp); }
static inline void *kcalloc(size_t n, size_t size, gfp_t gfp) { return kmalloc_array(n, size, gfp | __GFP_ZERO); }
static inline void kfree(void *p) { free(p); }

#define kvmalloc_array kmalloc_array
#define kvfree kfree

static inline void spin_lock_init(spinlock_t *lock) { pthread_spin_init(lock, PTHREAD_PROCESS_PRIVATE); }

/* Threads are preempted where processors of the kernel aren't, so a long wait yields. */
static void spin_lock(spinlock_t *lock)
{
	for (int tries = 0; pthread_spin_trylock(lock); tries++) {
		if (tries > 100)
			sched_yield();
		else
			for (int i = 0; i < 1 << (tries < 6 ? tries : 6); i++)
				cpu_relax();
	}
}

static inline void spin_unlock(spinlock_t *lock) { pthread_spin_unlock(lock); }

#define spin_lock_bh spin_lock
#define spin_unlock_bh spin_unlock
#define spin_lock_irq spin_lock
#define spin_unlock_irq spin_unlock
#define spin_lock_irqsave(lock, flags) ((void)(flags), spin_lock(lock))
#define spin_unlock_irqrestore(lock, flags) ((void)(flags), spin_unlock(lock))
#include "ptr_ring.h"
