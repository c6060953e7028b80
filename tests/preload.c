/*
 * A heap for LD_PRELOAD of which one allocation fails: the one whose number is FAIL_ALLOC, counted from 1. When the
 * process ends, it writes to standard error how many blocks are still allocated, and whether an allocation failed. It
 * needs no header, because a machine may have only the toolchain.
 */
extern void *__libc_malloc(unsigned long size);
extern void *__libc_calloc(unsigned long count, unsigned long size);
extern void *__libc_realloc(void *at, unsigned long size);
extern void __libc_free(void *at);
extern char *getenv(const char *name);
extern unsigned long strtoul(const char *text, char **end, int base);
extern int dprintf(int file, const char *format, ...);

static unsigned long failing;
static unsigned long made;
static long held;

static int fails(void)
{
	const char *number = failing ? 0 : getenv("FAIL_ALLOC");
	if (number)
		failing = strtoul(number, 0, 10);
	return ++made == failing;
}

static void *counted(void *block)
{
	held += block != 0;
	return block;
}

void *malloc(unsigned long size)
{
	return fails() ? 0 : counted(__libc_malloc(size));
}

void *calloc(unsigned long count, unsigned long size)
{
	return fails() ? 0 : counted(__libc_calloc(count, size));
}

void *realloc(void *at, unsigned long size)
{
	if (fails())
		return 0;
	return at ? __libc_realloc(at, size) : counted(__libc_realloc(at, size));
}

void free(void *at)
{
	held -= at != 0;
	__libc_free(at);
}

__attribute__((destructor)) static void report(void)
{
	dprintf(2, "held: %ld failed: %d\n", held, failing && made >= failing);
}
