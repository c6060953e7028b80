/* One fault of a caller, by its name. With the sanitizers, each fault ends the run. */
#include "table.h"

#include <limits.h>

/* A call of the library writes past a buffer that is shorter than the caller states. */
static void room(struct vbtf_table *table)
{
	struct vbtf_error error;
	uint64_t needed;
	uint8_t *bytes = malloc(TABLE_LEN - 1);
	vbtf_bytes(table, bytes, TABLE_LEN, &needed, &error);
	free(bytes);
}

/* An open table is copied, and closed twice. */
static void copied(struct vbtf_table *table)
{
	struct vbtf_table copy = *table;
	vbtf_close(&copy);
}

/* An open table is lost. */
static void lost(struct vbtf_table *table)
{
	memset(table, 0, sizeof *table);
}

static void overflowed(struct vbtf_table *table)
{
	volatile int most = INT_MAX;
	most += (int)table->state;
}

static void none(struct vbtf_table *table)
{
	(void)table;
}

static const struct {
	const char *name;
	void (*commit)(struct vbtf_table *table);
} faults[] = {
	{ "room", room }, { "copied", copied }, { "lost", lost }, { "overflowed", overflowed }, { "none", none },
};

int main(int argc, char **argv)
{
	for (size_t i = 0; argc > 1 && i < sizeof faults / sizeof *faults; i++) {
		if (strcmp(argv[1], faults[i].name) == 0) {
			struct vbtf_table table = opened(VBTF_LITTLE);
			faults[i].commit(&table);
			vbtf_close(&table);
			return failed != 0;
		}
	}
	return 2;
}
