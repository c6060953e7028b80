/*
 * The heap of the C library under test: the calls of malloc, realloc and free of the proved code come here, so that a
 * test can make one of its allocations fail, and count them, while the heap of the process that runs the test works as
 * ever. It needs no header, because a machine may have only the toolchain.
 */
typedef unsigned long size;

extern void *__libc_malloc(size bytes);
extern void *__libc_realloc(void *at, size bytes);
extern void __libc_free(void *at);

static size failing;
static size made;
static size failed;
static long held;

/* Makes the allocation of this number fail, counted from 1 and from this call; 0 for none. */
__attribute__((visibility("default"))) void heap_fail(size number)
{
	failing = number;
	made = 0;
	failed = 0;
}

/* Lets allocations succeed again, and returns whether one has failed since the last call of heap_fail. */
__attribute__((visibility("default"))) size heap_end(void)
{
	failing = 0;
	return failed;
}

/* The number of allocations since the last call of heap_fail. */
__attribute__((visibility("default"))) size heap_made(void)
{
	return made;
}

/* The number of blocks that are allocated and not freed. */
__attribute__((visibility("default"))) long heap_held(void)
{
	return held;
}

static int fails(void)
{
	if (++made != failing)
		return 0;
	failed = 1;
	return 1;
}

void *malloc(size bytes)
{
	void *at = fails() ? 0 : __libc_malloc(bytes);
	held += at != 0;
	return at;
}

void *realloc(void *at, size bytes)
{
	void *moved = fails() ? 0 : __libc_realloc(at, bytes);
	held += moved != 0 && at == 0;
	return moved;
}

void free(void *at)
{
	held -= at != 0;
	__libc_free(at);
}
