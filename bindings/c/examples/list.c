/* Lists the types of a table, like `btftool types`: list < TABLE */
#include "input.h"

/* Reads the name of a type into a buffer that grows; returns its length, which is 0 if it cannot be read. */
static size_t name_of(const struct vbtf_table *table, const struct vbtf_type *type, char **name, size_t *room)
{
	struct vbtf_error error;
	uint64_t needed = 0;
	uint32_t status = vbtf_text_at(table, type->name_offset, *name, *room, &needed, &error);
	if (status == VBTF_NO_ROOM) {
		char *more = realloc(*name, needed);
		if (!more)
			return 0;
		*name = more;
		*room = needed;
		status = vbtf_text_at(table, type->name_offset, *name, *room, &needed, &error);
	}
	return status == VBTF_OK ? needed : 0;
}

static void list(const struct vbtf_table *table)
{
	struct vbtf_error error;
	struct vbtf_type type;
	uint64_t count = 0;
	size_t room = 0;
	char *name = NULL;
	vbtf_count(table, &count);
	for (uint32_t id = 1; id < count; id++) {
		vbtf_type_by_id(table, id, &type, &error);
		size_t len = name_of(table, &type, &name, &room);
		printf("%u %s%s%.*s\n", id, vbtf_kind_text(type.kind), len ? " " : "", (int)len, len ? name : "");
	}
	free(name);
}

int main(void)
{
	struct vbtf_table table = VBTF_TABLE_INIT;
	int failed = open_input("list", &table);
	if (failed)
		return failed;
	list(&table);
	vbtf_close(&table);
	return ferror(stdout) != 0;
}
