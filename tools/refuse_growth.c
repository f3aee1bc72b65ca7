/* Refuses one growth: the request for memory whose number, counted from 1, REFUSED_GROWTH tells answers that there is none. It
 * says so on standard error. tools/refused-growths puts it before the C library. */
#define _GNU_SOURCE
#include <dlfcn.h>
#include <errno.h>
#include <stdlib.h>
#include <unistd.h>

static _Atomic long asked;

static int refused(void)
{
	const char *which = getenv("REFUSED_GROWTH");

	if (++asked != (which ? atol(which) : 0))
		return 0;
	errno = ENOMEM;
	return write(2, "refused\n", 8) == 8;
}

void *malloc(size_t size)
{
	void *(*next)(size_t) = dlsym(RTLD_NEXT, "malloc");

	return refused() ? NULL : next(size);
}

void *realloc(void *old, size_t size)
{
	void *(*next)(void *, size_t) = dlsym(RTLD_NEXT, "realloc");

	return refused() ? NULL : next(old, size);
}

int posix_memalign(void **to, size_t alignment, size_t size)
{
	int (*next)(void **, size_t, size_t) = dlsym(RTLD_NEXT, "posix_memalign");

	return refused() ? ENOMEM : next(to, alignment, size);
}
