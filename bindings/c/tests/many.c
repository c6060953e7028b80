/* Many values in one call are those of as many single calls: many FILE, where FILE has the bytes of a table. */
#include "file.h"

static struct vbtf_error error;

/* Whether the place of a buffer has what the single call writes for an id. */
static bool is_type(const struct vbtf_table *table, uint32_t id, const struct vbtf_type *place)
{
	struct vbtf_type type;
	return vbtf_type_by_id(table, id, &type, &error) == VBTF_OK && memcmp(&type, place, sizeof type) == 0;
}

static bool is_unchanged(const struct vbtf_type *place)
{
	static const struct vbtf_type old = { 0x01010101, 0x01010101, 0x01010101, 0x01010101 };
	return memcmp(&old, place, sizeof old) == 0;
}

/* The types from an id on, in a buffer with this room, which ends there. */
static void types_from(const struct vbtf_table *table, uint64_t types, uint32_t first, size_t room)
{
	struct vbtf_type *out = malloc(room * sizeof *out + 1);
	uint64_t count = 7, there = first < types ? types - first : 0;
	bool same = true;
	memset(out, 1, room * sizeof *out);
	check(vbtf_types(table, first, out, room, &count) == VBTF_OK && count == (there < room ? there : room));
	for (uint64_t i = 0; i < room; i++)
		same = same && (i < count ? is_type(table, first + (uint32_t)i, out + i) : is_unchanged(out + i));
	check(same);
	free(out);
}

/* The size that the single call writes for an id, or UINT64_MAX. */
static uint64_t size_of(const struct vbtf_table *table, uint32_t id)
{
	uint64_t size = 0;
	return vbtf_size(table, id, &size, &error) == VBTF_OK ? size : UINT64_MAX;
}

/* The sizes of the types from an id on, in a buffer with this room, which ends there. */
static void sizes_from(const struct vbtf_table *table, uint64_t types, uint32_t first, size_t room)
{
	uint64_t *out = malloc(room * sizeof *out + 1);
	uint64_t count = 7, there = first < types ? types - first : 0;
	bool same = true;
	for (uint64_t i = 0; i < room; i++)
		out[i] = 11;
	check(vbtf_sizes(table, first, out, room, &count) == VBTF_OK && count == (there < room ? there : room));
	for (uint64_t i = 0; i < room; i++)
		same = same && out[i] == (i < count ? size_of(table, first + (uint32_t)i) : 11);
	check(same);
	free(out);
}

/* The id that the single call writes for an id, or UINT32_MAX. */
static uint32_t resolved_of(const struct vbtf_table *table, uint32_t id)
{
	uint32_t to = 0;
	return vbtf_resolve(table, id, &to, &error) == VBTF_OK ? to : UINT32_MAX;
}

/* What the ids from one on resolve to, in a buffer with this room, which ends there. */
static void resolved_from(const struct vbtf_table *table, uint64_t types, uint32_t first, size_t room)
{
	uint32_t *out = malloc(room * sizeof *out + 1);
	uint64_t count = 7, there = first < types ? types - first : 0;
	bool same = true;
	for (uint64_t i = 0; i < room; i++)
		out[i] = 0x01010101;
	check(vbtf_resolved(table, first, out, room, &count) == VBTF_OK && count == (there < room ? there : room));
	for (uint64_t i = 0; i < room; i++)
		same = same && out[i] == (i < count ? resolved_of(table, first + (uint32_t)i) : 0x01010101);
	check(same);
	free(out);
}

/* The alignment that the single call writes for an id, or 0. */
static uint32_t alignment_of(const struct vbtf_table *table, uint32_t id)
{
	uint32_t alignment = 0;
	return vbtf_alignment(table, id, &alignment, &error) == VBTF_OK ? alignment : 0;
}

/* The alignments of the types from an id on, in a buffer with this room, which ends there. */
static void alignments_from(const struct vbtf_table *table, uint64_t types, uint32_t first, size_t room)
{
	uint32_t *out = malloc(room * sizeof *out + 1);
	uint64_t count = 7, there = first < types ? types - first : 0;
	bool same = true;
	for (uint64_t i = 0; i < room; i++)
		out[i] = 0x01010101;
	check(vbtf_alignments(table, first, out, room, &count, &error) == VBTF_OK && count == (there < room ? there : room));
	for (uint64_t i = 0; i < room; i++)
		same = same && out[i] == (i < count ? alignment_of(table, first + (uint32_t)i) : 0x01010101);
	check(same);
	free(out);
}

/* The index finds each type that vbtf_find finds by its name. */
static void indexed(struct vbtf_table *table)
{
	struct vbtf_type type;
	const char *name;
	size_t len;
	uint64_t types = 0;
	uint32_t wanted = 0, id = 0;
	bool same = true;
	check(vbtf_count(table, &types) == VBTF_OK && vbtf_index_open(table, &error) == VBTF_OK);
	for (uint32_t at = 1; at < types; at++) {
		check(vbtf_type_by_id(table, at, &type, &error) == VBTF_OK);
		if (vbtf_name(table, type.name_offset, &name, &len, &error) != VBTF_OK || len == 0)
			continue;
		uint32_t status = vbtf_find(table, name, len, type.kind, &wanted, &error);
		same = same && vbtf_index_find(table, name, len, type.kind, &id, &error) == status;
		same = same && (status != VBTF_OK || id == wanted);
	}
	check(same);
	vbtf_index_close(table);
}

/*
 * The items of a type in one call are those of the single calls, in a buffer with this room, which ends there. The
 * status is that of the single call for index 0, except that a type may have no item.
 */
#define ITEMS_OF(item, all, one)                                                                                      \
	static void all##_of(const struct vbtf_table *table, uint32_t id, size_t room)                                 \
	{                                                                                                              \
		struct item *out = malloc(room * sizeof *out + 1), single, old;                                        \
		struct vbtf_error other;                                                                               \
		uint64_t count = 7, have = 0;                                                                          \
		bool same = true;                                                                                      \
		memset(out, 1, room * sizeof *out);                                                                    \
		memset(&old, 1, sizeof old);                                                                           \
		memset(&single, 0, sizeof single);                                                                     \
		uint32_t first = one(table, id, 0, &single, &error);                                                   \
		uint32_t status = all(table, id, out, room, &count, &other);                                           \
		if (first != VBTF_OK && first != VBTF_NO_ITEM)                                                         \
			check(status == first && count == 7 && other.number == error.number && other.id == error.id);  \
		while (status == VBTF_OK && one(table, id, (uint32_t)have, &single, &error) == VBTF_OK) {              \
			same = same && (have >= room || is_##item(out + have, &single));                               \
			have++;                                                                                        \
		}                                                                                                      \
		if (status == VBTF_OK)                                                                                 \
			check(count == (have < room ? have : room));                                                   \
		for (uint64_t i = status == VBTF_OK ? count : 0; i < room; i++)                                        \
			same = same && memcmp(out + i, &old, sizeof old) == 0;                                         \
		check(same);                                                                                           \
		free(out);                                                                                             \
	}

static bool is_vbtf_member(const struct vbtf_member *a, const struct vbtf_member *b)
{
	return memcmp(a, b, sizeof *a) == 0;
}

static bool is_vbtf_variant(const struct vbtf_variant *a, const struct vbtf_variant *b)
{
	return a->name_offset == b->name_offset && a->bits == b->bits && a->is_signed == b->is_signed
	       && a->value == b->value;
}

static bool is_vbtf_param(const struct vbtf_param *a, const struct vbtf_param *b)
{
	return memcmp(a, b, sizeof *a) == 0;
}

static bool is_vbtf_entry(const struct vbtf_entry *a, const struct vbtf_entry *b)
{
	return memcmp(a, b, sizeof *a) == 0;
}

ITEMS_OF(vbtf_member, vbtf_members, vbtf_member_at)
ITEMS_OF(vbtf_variant, vbtf_variants, vbtf_variant_at)
ITEMS_OF(vbtf_param, vbtf_params, vbtf_param_at)
ITEMS_OF(vbtf_entry, vbtf_entries, vbtf_entry_at)

/* The items of each type, and of an id that has none, with several rooms. */
static void items(const struct vbtf_table *table)
{
	struct vbtf_table closed = VBTF_TABLE_INIT;
	struct vbtf_param param = { 7, 7 };
	uint64_t count = 0, types = 0;
	const size_t rooms[] = { 0, 1, 2, 3, 70000 };
	check(vbtf_count(table, &types) == VBTF_OK);
	for (uint32_t id = 0; id <= types; id++) {
		for (size_t i = 0; i < sizeof rooms / sizeof *rooms - (id > 64); i++) {
			vbtf_members_of(table, id, rooms[i]);
			vbtf_variants_of(table, id, rooms[i]);
			vbtf_params_of(table, id, rooms[i]);
			vbtf_entries_of(table, id, rooms[i]);
		}
	}
	check(vbtf_members(table, (uint32_t)types, NULL, 9, &count, NULL) == VBTF_UNKNOWN_TYPE);
	check(vbtf_params(&closed, 6, &param, 1, &count, &error) == VBTF_CLOSED && param.type == 7 && count == 0);
}

static void types(const struct vbtf_table *table)
{
	struct vbtf_table closed = VBTF_TABLE_INIT;
	struct vbtf_type type;
	uint64_t count = 0, types = 0;
	check(vbtf_count(table, &types) == VBTF_OK && types > 3);
	const uint32_t firsts[] = { 0, 1, 2, (uint32_t)types - 2, (uint32_t)types - 1, (uint32_t)types, UINT32_MAX };
	const size_t rooms[] = { 0, 1, 2, 3, (size_t)types - 1, (size_t)types, (size_t)types + 1 };
	for (size_t i = 0; i < sizeof firsts / sizeof *firsts; i++) {
		for (size_t j = 0; j < sizeof rooms / sizeof *rooms; j++) {
			types_from(table, types, firsts[i], rooms[j]);
			sizes_from(table, types, firsts[i], rooms[j]);
			resolved_from(table, types, firsts[i], rooms[j]);
			alignments_from(table, types, firsts[i], rooms[j]);
		}
	}
	check(vbtf_types(table, 0, NULL, 9, &count) == VBTF_OK && count == 0);
	check(vbtf_sizes(table, 0, NULL, 9, &count) == VBTF_OK && count == 0);
	memset(&type, 1, sizeof type);
	count = 7;
	check(vbtf_sizes(&closed, 0, &types, 1, &count) == VBTF_CLOSED && count == 7);
	check(vbtf_resolved(&closed, 0, &type.kind, 1, &count) == VBTF_CLOSED && is_unchanged(&type) && count == 7);
	check(vbtf_types(&closed, 0, &type, 1, &count) == VBTF_CLOSED && is_unchanged(&type) && count == 7);
	check(vbtf_alignments(&closed, 0, &type.kind, 1, &count, &error) == VBTF_CLOSED && is_unchanged(&type));
	check(vbtf_alignment(&closed, 1, &type.kind, &error) == VBTF_CLOSED && is_unchanged(&type) && count == 7);
}

int main(int argc, char **argv)
{
	struct vbtf_table little = opened(VBTF_LITTLE), big = opened(VBTF_BIG), table = VBTF_TABLE_INIT;
	struct file file;
	if (argc != 2)
		return 1;
	file = read_file(argv[1]);
	check(vbtf_parse(&table, file.bytes, file.len, VBTF_BY_MAGIC, &error) == VBTF_OK);
	types(&little);
	types(&big);
	types(&table);
	items(&little);
	items(&big);
	items(&table);
	indexed(&little);
	indexed(&table);
	vbtf_close(&table);
	vbtf_close(&big);
	vbtf_close(&little);
	free(file.bytes);
	return counted("many");
}
