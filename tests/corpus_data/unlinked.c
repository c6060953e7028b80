/* A program that looks up a map of another object. */
extern struct {
	int (*type)[1];
	unsigned int *key;
	unsigned int *value;
	int (*max_entries)[4];
} other __attribute__((section(".maps")));

static void *(*find)(void *map, const void *key) = (void *)1;

__attribute__((section("xdp"), used)) int seek(void *context)
{
	unsigned int key = 0;

	return find(&other, &key) ? 1 : 2;
}
