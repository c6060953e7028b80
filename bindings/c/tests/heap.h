/*
 * The nth allocation of a call fails, and the blocks that are not freed are counted. Link with -Wl,--wrap=malloc,
 * --wrap=realloc,--wrap=free.
 */
#ifndef HEAP_H
#define HEAP_H

#include <stddef.h>

extern void *__real_malloc(size_t size);
extern void *__real_realloc(void *at, size_t size);
extern void __real_free(void *at);

/* The number of allocations so far, and the number of the one that fails; 0 for none. */
static unsigned long requests, failing;
static long live;

static int fails(void)
{
	return ++requests == failing;
}

void *__wrap_malloc(size_t size)
{
	void *at = fails() ? NULL : __real_malloc(size);
	live += at != NULL;
	return at;
}

void *__wrap_realloc(void *at, size_t size)
{
	void *moved = fails() ? NULL : __real_realloc(at, size);
	live += at == NULL && moved != NULL;
	return moved;
}

void __wrap_free(void *at)
{
	live -= at != NULL;
	__real_free(at);
}

#endif
