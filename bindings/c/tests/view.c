/*
 * A view has the values of an open table of the same blob: view FILE, where FILE has the bytes of a table. A blob is
 * cut at each length, places are spoiled, and six threads read one view. WITH_LIBBPF also compares with libbpf.
 */
#include "file.h"

#include <pthread.h>

#ifdef WITH_LIBBPF
#include <bpf/btf.h>
#endif

#define ROUNDS 2000
#define ITEMS (1 << 16) /* more than a type can have */

static struct vbtf_error error;

/* The same status, and the same error of the library. */
static bool is_same(uint32_t status, const struct vbtf_error *one, uint32_t wanted, const struct vbtf_error *other)
{
	return status == wanted && (status == VBTF_OK || status >= VBTF_NO_ROOM ||
	                            (one->number == other->number && one->id == other->id && one->offset == other->offset &&
	                             one->name_len == other->name_len && memcmp(one->name, other->name, one->name_len) == 0));
}

/* The types, sizes and resolved ids from an id on, in buffers with this room. */
static void ranges(const struct vbtf_table *table, const struct vbtf_view *view, uint32_t first, size_t room)
{
	struct vbtf_type *types = malloc(2 * room * sizeof *types + 1);
	uint64_t *sizes = malloc(2 * room * sizeof *sizes + 1), count = 7, wanted = 7;
	uint32_t *ids = malloc(2 * room * sizeof *ids + 1);
	memset(types, 1, 2 * room * sizeof *types);
	memset(sizes, 1, 2 * room * sizeof *sizes);
	memset(ids, 1, 2 * room * sizeof *ids);
	check(vbtf_view_types(view, first, types, room, &count) == VBTF_OK);
	check(vbtf_types(table, first, types + room, room, &wanted) == VBTF_OK && count == wanted);
	check(memcmp(types, types + room, room * sizeof *types) == 0);
	check(vbtf_view_sizes(view, first, sizes, room, &count) == VBTF_OK);
	check(vbtf_sizes(table, first, sizes + room, room, &wanted) == VBTF_OK && count == wanted);
	check(memcmp(sizes, sizes + room, room * sizeof *sizes) == 0);
	check(vbtf_view_resolved(view, first, ids, room, &count) == VBTF_OK);
	check(vbtf_resolved(table, first, ids + room, room, &wanted) == VBTF_OK && count == wanted);
	check(memcmp(ids, ids + room, room * sizeof *ids) == 0);
	free(types);
	free(sizes);
	free(ids);
}

static bool same_member(const struct vbtf_member *one, const struct vbtf_member *other)
{
	return memcmp(one, other, sizeof *one) == 0;
}

/* By the fields: there are bytes between them. */
static bool same_variant(const struct vbtf_variant *one, const struct vbtf_variant *other)
{
	return one->name_offset == other->name_offset && one->bits == other->bits && one->value == other->value &&
	       memcmp(&one->is_signed, &other->is_signed, 1) == 0;
}

static bool same_param(const struct vbtf_param *one, const struct vbtf_param *other)
{
	return memcmp(one, other, sizeof *one) == 0;
}

static bool same_entry(const struct vbtf_entry *one, const struct vbtf_entry *other)
{
	return memcmp(one, other, sizeof *one) == 0;
}

/* The items of an id, in buffers with this room: a call of a view and the call of a table. */
#define HAS_ITEMS(items, item)                                                                                        \
	static bool has_##items(const struct vbtf_table *table, const struct vbtf_view *view, uint32_t id, size_t room) \
	{                                                                                                             \
		static struct vbtf_##item found[ITEMS + 1], wanted[ITEMS + 1];                                        \
		struct vbtf_error other;                                                                              \
		uint64_t count = 7, number = 7;                                                                       \
		memset(found, 1, (room + 1) * sizeof *found);                                                         \
		memset(wanted, 1, (room + 1) * sizeof *wanted);                                                       \
		uint32_t status = vbtf_view_##items(view, id, found, room, &count, &error);                           \
		bool same = is_same(status, &error, vbtf_##items(table, id, wanted, room, &number, &other), &other);  \
		for (size_t at = 0; same && at <= room; at++)                                                         \
			same = same_##item(&found[at], &wanted[at]);                                                  \
		return same && count == number;                                                                       \
	}

HAS_ITEMS(members, member)
HAS_ITEMS(variants, variant)
HAS_ITEMS(params, param)
HAS_ITEMS(entries, entry)

/* All items of an id: none of them, up to two of them, and all of them with room for one more. */
static bool has_items(const struct vbtf_table *table, const struct vbtf_view *view, uint32_t id)
{
	struct vbtf_type type = { 0, 0, 0, 0 };
	vbtf_view_type(view, id, &type, NULL);
	const size_t rooms[] = { id % 3, (type.info & 0xffff) + 1 };
	bool same = true;
	for (size_t i = 0; i < 2; i++)
		same = same && has_members(table, view, id, rooms[i]) && has_variants(table, view, id, rooms[i]) &&
		       has_params(table, view, id, rooms[i]) && has_entries(table, view, id, rooms[i]);
	return same;
}

/* The members of all types, in buffers with places for these numbers of types and members. */
static bool has_all_members(const struct vbtf_table *table, const struct vbtf_view *view, size_t ids, size_t room)
{
	static struct vbtf_member members[1 << 16], wanted[1 << 16];
	static uint32_t counts[1 << 12];
	uint64_t done = 7, written = 7, number, types = vbtf_view_count(view);
	bool same = true;
	for (uint64_t first = 0; same && first < types; first += done ? done : 1) {
		struct vbtf_member *next = members;
		same = vbtf_view_members_from(view, (uint32_t)first, counts, ids, members, room, &done, &written) == VBTF_OK;
		for (uint64_t i = 0; same && i < done; i++, next += number) {
			number = 0;
			vbtf_members(table, (uint32_t)(first + i), wanted, 1 << 16, &number, NULL);
			same = counts[i] == number && memcmp(next, wanted, number * sizeof *next) == 0;
		}
		same = same && written == (uint64_t)(next - members) && first + done <= types;
		/* The next type has no place, or it has more members than places are left. */
		number = 0;
		vbtf_members(table, (uint32_t)(first + done), wanted, 1 << 16, &number, NULL);
		same = same && (done == ids || first + done == types || written + number > room);
	}
	return same;
}

/* The calls that take one id. */
static bool has_id(const struct vbtf_table *table, const struct vbtf_view *view, uint32_t id)
{
	struct vbtf_error other;
	struct vbtf_type type = { 7, 7, 7, 7 }, wanted = { 7, 7, 7, 7 };
	uint64_t size = 7, bytes = 7;
	uint32_t to = 7, target = 7, status = vbtf_view_type(view, id, &type, &error);
	bool same = is_same(status, &error, vbtf_type_by_id(table, id, &wanted, &other), &other);
	same = same && memcmp(&type, &wanted, sizeof type) == 0;
	status = vbtf_view_size(view, id, &size, &error);
	same = same && is_same(status, &error, vbtf_size(table, id, &bytes, &other), &other) && size == bytes;
	status = vbtf_view_resolve(view, id, &to, &error);
	return same && is_same(status, &error, vbtf_resolve(table, id, &target, &other), &other) && to == target;
}

/* The search for a name as each kind. */
static bool finds(const struct vbtf_table *table, const struct vbtf_view *view, const char *name, size_t len)
{
	struct vbtf_error other;
	bool same = true;
	for (uint32_t kind = 0; same && kind < 22; kind++) {
		uint32_t id = 7, wanted = 7, status = vbtf_view_find(view, name, len, kind, &id, &error);
		same = is_same(status, &error, vbtf_find(table, name, len, kind, &wanted, &other), &other) && id == wanted;
	}
	return same;
}

/* A name that begins at an offset, and the search for it. */
static bool has_name(const struct vbtf_table *table, const struct vbtf_view *view, uint32_t offset, bool sought)
{
	struct vbtf_error other;
	const char *name = vbtf_view_name(view, offset), *text = NULL;
	size_t len = 0;
	uint32_t status = vbtf_name(table, offset, &text, &len, &other);
	bool same = (name != NULL) == (status == VBTF_OK) && (!name || strcmp(name, text) == 0);
	return same && (!sought || !name || finds(table, view, name, len));
}

/* All values of a table and of a view of the same bytes. */
static void equal(const struct vbtf_table *table, const struct vbtf_view *view)
{
	uint64_t types = 0;
	uint32_t order = 7;
	bool same = true;
	check(vbtf_count(table, &types) == VBTF_OK && vbtf_view_count(view) == types);
	check(vbtf_order(table, &order) == VBTF_OK && view->parts.order == order);
	const uint32_t firsts[] = { 0, 1, 2, (uint32_t)types - 1, (uint32_t)types, UINT32_MAX };
	const size_t rooms[] = { 0, 1, 2, (size_t)types - 1, (size_t)types, (size_t)types + 1 };
	for (size_t i = 0; i < sizeof firsts / sizeof *firsts; i++)
		for (size_t j = 0; j < sizeof rooms / sizeof *rooms; j++)
			ranges(table, view, firsts[i], rooms[j]);
	for (uint32_t id = 0; id <= types; id++)
		same = same && has_id(table, view, id) && has_items(table, view, id);
	check(same);
	for (uint32_t offset = 0; offset < view->parts.strings_len + 2; offset += types < 1000 ? 1 : 97)
		same = same && has_name(table, view, offset, types < 1000 || offset % 10007 == 0);
	check(same);
	check(vbtf_view_types(view, 0, NULL, 9, &types) == VBTF_OK && types == 0);
	check(vbtf_view_find(view, "\xff", 1, 1, &order, &error) == VBTF_BAD_ARGUMENT);
	/* Names with U+FFFD, which bytes that are not UTF-8 are read as, with its first byte alone, and with a zero byte. */
	check(finds(table, view, "\xef\xbf\xbd", 3) && finds(table, view, "caf\xef\xbf\xbd", 6));
	check(finds(table, view, "\xef\xac\x81", 3) && finds(table, view, "int\0", 4) && finds(table, view, "a\0b", 3));
	check(has_all_members(table, view, 1 << 12, 1 << 16));
	check(has_all_members(table, view, 7, 1 << 16));
	check(has_all_members(table, view, 1 << 12, 50));
}

/* A view opens for the bytes for which a table opens, and reports the same error for others. */
static void opens(const uint8_t *bytes, size_t len, uint32_t order)
{
	struct vbtf_table table = VBTF_TABLE_INIT;
	struct vbtf_view view = VBTF_VIEW_INIT;
	struct vbtf_error other;
	/* A copy that ends with the bytes, so that a tool sees each read past them. */
	uint8_t *copy = malloc(len ? len : 1);
	memcpy(copy, bytes, len);
	uint32_t status = vbtf_view_open(&view, copy, len, order, &error);
	check(is_same(status, &error, vbtf_parse(&table, copy, len, order, &other), &other));
	if (status == VBTF_OK)
		equal(&table, &view);
	else
		check(view.places == NULL && vbtf_view_count(&view) == 0);
	vbtf_view_close(&view);
	vbtf_close(&table);
	free(copy);
}

/* The small table in an order: cut at each length, and with each byte changed. */
static void spoiled_bytes(uint32_t order)
{
	uint8_t bytes[TABLE_LEN];
	table_bytes(bytes, order);
	for (size_t len = 0; len <= TABLE_LEN; len++)
		opens(bytes, len, order);
	for (size_t at = 0; at < TABLE_LEN; at++) {
		uint8_t old = bytes[at];
		bytes[at] = (uint8_t)(old ^ (at % 2 ? 0xff : 1));
		opens(bytes, TABLE_LEN, order);
		bytes[at] = old;
	}
}

/* Each call ends for places that a caller spoiled, and reads only the blob. */
static void spoiled_places(void)
{
	struct vbtf_view view = VBTF_VIEW_INIT;
	struct vbtf_type types[16];
	struct vbtf_member members[16];
	struct vbtf_variant variants[16];
	struct vbtf_param params[16];
	struct vbtf_entry entries[16];
	uint64_t sizes[16], count;
	uint32_t ids[16], id;
	uint8_t *bytes = malloc(TABLE_LEN);
	table_bytes(bytes, VBTF_LITTLE);
	check(vbtf_view_open(&view, bytes, TABLE_LEN, VBTF_LITTLE, &error) == VBTF_OK);
	for (uint32_t round = 0; round < 5000; round++) {
		for (uint32_t at = 0; at < view.parts.count; at++)
			view.places[at] = round % 7 == 0 ? UINT32_MAX - at : (round * 2654435761u + at * 40503u) % (TYPE_LEN + 16);
		check(vbtf_view_types(&view, 0, types, 16, &count) == VBTF_OK && count == TYPES);
		check(vbtf_view_sizes(&view, 0, sizes, 16, &count) == VBTF_OK && count == TYPES);
		check(vbtf_view_resolved(&view, 0, ids, 16, &count) == VBTF_OK && count == TYPES);
		for (id = 0; id < TYPES + 2; id++) {
			vbtf_view_members(&view, id, members, 16, &count, NULL);
			vbtf_view_variants(&view, id, variants, 16, &count, NULL);
			vbtf_view_params(&view, id, params, 16, &count, NULL);
			vbtf_view_entries(&view, id, entries, 16, &count, NULL);
		}
		vbtf_view_find(&view, "run", 3, VBTF_KIND_FUNC, &id, &error);
		vbtf_view_find(&view, "caf\xef\xbf\xbd", 6, VBTF_KIND_FWD, &id, &error);
	}
	vbtf_view_close(&view);
	free(bytes);
}

/* Too few places are reported, and with enough of them the call writes no other place. */
static void few_places(void)
{
	uint8_t bytes[TABLE_LEN];
	uint32_t places[TYPES + 1];
	struct vbtf_view_parts parts = { 7, 7, 7, 7, 7, 7, 7, 7, 7, 7 };
	table_bytes(bytes, VBTF_BIG);
	for (size_t room = 0; room < TYPES; room++)
		check(vbtf_raw_view_index(bytes, TABLE_LEN, VBTF_BIG, places, room, &parts, &error) == VBTF_NO_ROOM);
	check(parts.count == 7);
	memset(places, 0xee, sizeof places);
	check(vbtf_raw_view_index(bytes, TABLE_LEN, VBTF_BIG, places, TYPES, &parts, &error) == VBTF_OK);
	check(parts.count == TYPES && places[TYPES] == 0xeeeeeeee && parts.magic == 0xeb9f && parts.version == 1);
	check(vbtf_raw_view_index(bytes, TABLE_LEN, 3, places, TYPES, &parts, &error) == VBTF_BAD_ARGUMENT);
	check(vbtf_raw_view_types(bytes, 24, places, TYPES, 2, 0, NULL, 0, &parts.count) == VBTF_BAD_ARGUMENT);
}

static struct vbtf_view shared = VBTF_VIEW_INIT;

/* The number of calls of a reader with another result than without other threads. */
static void *reader(void *unused)
{
	uintptr_t wrong = 0;
	for (unsigned i = 0; i < ROUNDS; i++) {
		struct vbtf_error unread;
		struct vbtf_member members[2];
		struct vbtf_type types[TYPES];
		uint64_t size = 0, count = 0;
		uint32_t id = 0;
		wrong += vbtf_view_size(&shared, 5, &size, &unread) != VBTF_OK || size != 80;
		wrong += vbtf_view_find(&shared, "run", 3, VBTF_KIND_FUNC, &id, &unread) != VBTF_OK || id != 7;
		wrong += vbtf_view_members(&shared, 4, members, 2, &count, &unread) != VBTF_OK || members[1].bit_offset != 32;
		wrong += vbtf_view_types(&shared, 0, types, TYPES, &count) != VBTF_OK || types[7].size_or_type != 6;
		wrong += strcmp(vbtf_view_name(&shared, 1), "int") != 0;
	}
	(void)unused;
	return (void *)wrong;
}

static void threads(void)
{
	uint8_t bytes[TABLE_LEN];
	pthread_t readers[6];
	table_bytes(bytes, VBTF_BIG);
	check(vbtf_view_open(&shared, bytes, sizeof bytes, VBTF_BIG, &error) == VBTF_OK);
	for (unsigned i = 0; i < 6; i++)
		check(pthread_create(&readers[i], NULL, reader, NULL) == 0);
	for (unsigned i = 0; i < 6; i++) {
		void *wrong = NULL;
		check(pthread_join(readers[i], &wrong) == 0 && wrong == NULL);
	}
	vbtf_view_close(&shared);
}

#ifdef WITH_LIBBPF
/* The variants, parameters and entries of libbpf for the same type. */
static bool has_their_items(const struct vbtf_view *view, uint32_t id, const struct btf_type *theirs)
{
	static struct vbtf_variant variants[1 << 16];
	static struct vbtf_param params[1 << 16];
	static struct vbtf_entry entries[1 << 16];
	uint64_t count = 0;
	bool same = true;
	if (vbtf_view_variants(view, id, variants, 1 << 16, &count, &error) == VBTF_OK)
		for (uint32_t at = 0; at < btf_vlen(theirs); at++)
			same = same && count == btf_vlen(theirs) &&
			       variants[at].value == (btf_is_enum64(theirs) ? btf_enum64_value(&btf_enum64(theirs)[at])
			                                                    : (uint32_t)btf_enum(theirs)[at].val);
	if (vbtf_view_params(view, id, params, 1 << 16, &count, &error) == VBTF_OK)
		for (uint32_t at = 0; at < btf_vlen(theirs); at++)
			same = same && count == btf_vlen(theirs) && params[at].type == btf_params(theirs)[at].type &&
			       params[at].name_offset == btf_params(theirs)[at].name_off;
	if (vbtf_view_entries(view, id, entries, 1 << 16, &count, &error) == VBTF_OK)
		for (uint32_t at = 0; at < btf_vlen(theirs); at++)
			same = same && count == btf_vlen(theirs) && entries[at].type == btf_var_secinfos(theirs)[at].type &&
			       entries[at].offset == btf_var_secinfos(theirs)[at].offset &&
			       entries[at].size == btf_var_secinfos(theirs)[at].size;
	return same;
}

/* The words, names and items of libbpf for the same bytes. */
static void beside_libbpf(const struct vbtf_view *view, const struct file *file)
{
	struct btf *theirs = btf__new(file->bytes, file->len);
	struct vbtf_type type;
	bool same = theirs && btf__type_cnt(theirs) == vbtf_view_count(view);
	for (uint32_t id = 1; same && id < btf__type_cnt(theirs); id++) {
		const struct btf_type *other = btf__type_by_id(theirs, id);
		same = vbtf_view_type(view, id, &type, &error) == VBTF_OK && type.name_offset == other->name_off &&
		       type.info == other->info &&
		       strcmp(vbtf_view_name(view, type.name_offset), btf__name_by_offset(theirs, other->name_off)) == 0 &&
		       has_their_items(view, id, other);
	}
	check(same);
	btf__free(theirs);
}
#endif

int main(int argc, char **argv)
{
	struct vbtf_table table = VBTF_TABLE_INIT;
	struct vbtf_view view = VBTF_VIEW_INIT;
	struct file file;
	if (argc != 2)
		return 1;
	file = read_file(argv[1]);
	check(vbtf_parse(&table, file.bytes, file.len, VBTF_BY_MAGIC, &error) == VBTF_OK);
	check(vbtf_view_open(&view, file.bytes, file.len, VBTF_BY_MAGIC, &error) == VBTF_OK);
	equal(&table, &view);
#ifdef WITH_LIBBPF
	beside_libbpf(&view, &file);
#endif
	vbtf_view_close(&view);
	vbtf_close(&table);
	spoiled_bytes(VBTF_LITTLE);
	spoiled_bytes(VBTF_BIG);
	spoiled_places();
	few_places();
	threads();
	free(file.bytes);
	return counted("view");
}
