/* The items of types of each kind, the values of variants, and types that are added. */
#include "table.h"

/*
 * 1 INT "int", signed, of 32 bits from bit 8 on; 2 STRUCT with the bit-field "a" and with "b"; 3 UNION, without the
 * kind flag, with "a"; 4 ENUM, signed, with "low" and "high"; 5 ENUM64 with "low" and "high"; 6 FUNC_PROTO with "a" and
 * "b"; 7 FUNC, Extern; 8 VAR, Global; 9 DATASEC with 8 and 13; 10 ARRAY of six 1s; 11 DECL_TAG of 2 as a whole; 12
 * TYPEDEF of 4; 13 VAR with a linkage that no VAR has; 14 DECL_TAG of a member of 2; 15 FUNC with a linkage that no
 * FUNC has; 16 ENUM whose first variant has no readable name; 17 FLOAT; 18 CONST of 18.
 */
static const uint32_t shapes[] = {
	1, 0x01000000, 4, 0x01080020,
	0, 0x84000002, 4, 5, 1, 0x05000003, 7, 1, 0x00000020,
	0, 0x05000001, 4, 5, 1, 0x05000003,
	0, 0x86000002, 4, 9, 0xffffffff, 13, 7,
	0, 0x13000002, 8, 9, 2, 0, 13, 4, 3,
	0, 0x0d000002, 1, 5, 1, 7, 3,
	5, 0x0c000002, 6,
	5, 0x0e000000, 1, 1,
	5, 0x0f000002, 16, 8, 4, 12, 13, 0, 4,
	0, 0x03000000, 0, 1, 3, 6,
	5, 0x11000000, 2, 0xffffffff,
	7, 0x08000000, 4,
	7, 0x0e000000, 1, 9,
	5, 0x11000000, 2, 1,
	7, 0x0c000009, 6,
	0, 0x06000002, 4, 99, 1, 9, 2,
	5, 0x10000000, 4,
	0, 0x0a000000, 18,
};

static const char shape_strings[] = "\0int\0a\0b\0low\0high";

#define SHAPES 19

/* The words of the items of these types, by index. */
static const struct {
	uint32_t id, index, kind, count, words[3];
} items[] = {
	{ 1, 0, VBTF_KIND_INT, 1, { 0x01080020, 0, 0 } },    { 2, 0, VBTF_KIND_STRUCT, 3, { 5, 1, 0x05000003 } },
	{ 2, 1, VBTF_KIND_STRUCT, 3, { 7, 1, 32 } },         { 3, 0, VBTF_KIND_UNION, 3, { 5, 1, 0x05000003 } },
	{ 4, 0, VBTF_KIND_ENUM, 2, { 9, 0xffffffff, 0 } },   { 4, 1, VBTF_KIND_ENUM, 2, { 13, 7, 0 } },
	{ 5, 0, VBTF_KIND_ENUM64, 3, { 9, 2, 0 } },          { 5, 1, VBTF_KIND_ENUM64, 3, { 13, 4, 3 } },
	{ 6, 0, VBTF_KIND_FUNC_PROTO, 2, { 5, 1, 0 } },      { 6, 1, VBTF_KIND_FUNC_PROTO, 2, { 7, 3, 0 } },
	{ 8, 0, VBTF_KIND_VAR, 1, { 1, 0, 0 } },             { 9, 0, VBTF_KIND_DATASEC, 3, { 8, 4, 12 } },
	{ 9, 1, VBTF_KIND_DATASEC, 3, { 13, 0, 4 } },        { 10, 0, VBTF_KIND_ARRAY, 3, { 1, 3, 6 } },
	{ 11, 0, VBTF_KIND_DECL_TAG, 1, { 0xffffffff, 0, 0 } },
	{ 13, 0, VBTF_KIND_VAR, 1, { 3, 0, 0 } },            { 14, 0, VBTF_KIND_DECL_TAG, 1, { 1, 0, 0 } },
};

/* The number of items of each type. */
static const uint32_t counts[SHAPES] = { 0, 1, 2, 1, 2, 2, 2, 0, 1, 2, 1, 1, 0, 1, 1, 0, 2, 0, 0 };

static void raw_items(const struct vbtf_table *table)
{
	struct vbtf_table loan = vbtf_loan(table), closed = VBTF_TABLE_INIT;
	struct vbtf_error error;
	struct vbtf_item item;
	for (size_t i = 0; i < sizeof items / sizeof *items; i++) {
		check(vbtf_lent_item(&loan, items[i].id, items[i].index, &item, &error) == VBTF_OK);
		check((item.info >> 24 & 0x1f) == items[i].kind && item.count == items[i].count);
		check(memcmp(item.words, items[i].words, sizeof item.words) == 0);
	}
	for (uint32_t id = 0; id < SHAPES; id++) {
		for (uint32_t index = 0; index < 4; index++) {
			uint32_t status = vbtf_lent_item(&loan, id, index, &item, &error);
			check(status == (index < counts[id] ? VBTF_OK : VBTF_NO_ITEM));
		}
		check(vbtf_lent_item(&loan, id, UINT32_MAX, &item, &error) == VBTF_NO_ITEM);
	}
	check(vbtf_lent_item(&loan, SHAPES, 0, &item, &error) == VBTF_UNKNOWN_TYPE && error.id == SHAPES);
	check(vbtf_lent_item(&closed, 1, 0, &item, &error) == VBTF_CLOSED);
}

static uint32_t member(const struct vbtf_table *table, uint32_t id, uint32_t index, struct vbtf_error *error)
{
	struct vbtf_member it;
	return vbtf_member_at(table, id, index, &it, error);
}

static uint32_t variant(const struct vbtf_table *table, uint32_t id, uint32_t index, struct vbtf_error *error)
{
	struct vbtf_variant it;
	return vbtf_variant_at(table, id, index, &it, error);
}

static uint32_t param(const struct vbtf_table *table, uint32_t id, uint32_t index, struct vbtf_error *error)
{
	struct vbtf_param it;
	return vbtf_param_at(table, id, index, &it, error);
}

static uint32_t entry(const struct vbtf_table *table, uint32_t id, uint32_t index, struct vbtf_error *error)
{
	struct vbtf_entry it;
	return vbtf_entry_at(table, id, index, &it, error);
}

static uint32_t array(const struct vbtf_table *table, uint32_t id, uint32_t index, struct vbtf_error *error)
{
	struct vbtf_array it;
	return index ? VBTF_NO_ITEM : vbtf_array_of(table, id, &it, error);
}

static uint32_t integer(const struct vbtf_table *table, uint32_t id, uint32_t index, struct vbtf_error *error)
{
	struct vbtf_int it;
	return index ? VBTF_NO_ITEM : vbtf_int_of(table, id, &it, error);
}

static uint32_t linkage(const struct vbtf_table *table, uint32_t id, uint32_t index, struct vbtf_error *error)
{
	uint32_t it;
	return index ? VBTF_NO_ITEM : vbtf_linkage_of(table, id, &it, error);
}

static uint32_t component(const struct vbtf_table *table, uint32_t id, uint32_t index, struct vbtf_error *error)
{
	int32_t it;
	return index ? VBTF_NO_ITEM : vbtf_component_of(table, id, &it, error);
}

/* The calls that read an item, and the kinds of types that each reads. */
static const struct {
	uint32_t (*call)(const struct vbtf_table *table, uint32_t id, uint32_t index, struct vbtf_error *error);
	uint32_t kinds;
} readers[] = {
	{ member, 1u << VBTF_KIND_STRUCT | 1u << VBTF_KIND_UNION },
	{ variant, 1u << VBTF_KIND_ENUM | 1u << VBTF_KIND_ENUM64 },
	{ param, 1u << VBTF_KIND_FUNC_PROTO }, { entry, 1u << VBTF_KIND_DATASEC }, { array, 1u << VBTF_KIND_ARRAY },
	{ integer, 1u << VBTF_KIND_INT }, { linkage, 1u << VBTF_KIND_VAR | 1u << VBTF_KIND_FUNC },
	{ component, 1u << VBTF_KIND_DECL_TAG },
};

/* A reader on a type: its results for each index, and for an unknown id. */
static void item_statuses(const struct vbtf_table *table, size_t reader, uint32_t id)
{
	const struct vbtf_table closed = VBTF_TABLE_INIT;
	struct vbtf_error error;
	struct vbtf_type type;
	check(vbtf_type_by_id(table, id, &type, &error) == VBTF_OK);
	if (!(readers[reader].kinds >> type.kind & 1)) {
		memset(&error, 0xff, sizeof error);
		check(readers[reader].call(table, id, 0, &error) == VBTF_UNEXPECTED_TYPE);
		check(error.number == VBTF_UNEXPECTED_TYPE && error.id == id && error.offset == 0 && error.len == 0);
		check(error.section_len == 0 && error.name_len == 0);
	} else {
		uint32_t count = type.kind == VBTF_KIND_FUNC ? 1 : counts[id];
		for (uint32_t index = 0; index < 4; index++)
			check(readers[reader].call(table, id, index, &error) == (index < count ? VBTF_OK : VBTF_NO_ITEM));
	}
	check(readers[reader].call(table, SHAPES, 0, &error) == VBTF_UNKNOWN_TYPE && error.id == SHAPES);
	check(readers[reader].call(&closed, id, 0, &error) == VBTF_CLOSED);
}

static void listed_items(const struct vbtf_table *table)
{
	struct vbtf_error error;
	struct vbtf_member a, b, whole;
	struct vbtf_variant low, high, wide;
	struct vbtf_param second;
	struct vbtf_entry first;
	check(vbtf_member_at(table, 2, 0, &a, &error) == VBTF_OK && a.name_offset == 5 && a.type == 1);
	check(a.bit_offset == 3 && a.bit_field_size == 5);
	check(vbtf_member_at(table, 2, 1, &b, &error) == VBTF_OK && b.name_offset == 7 && b.bit_offset == 32);
	check(b.bit_field_size == 0);
	check(vbtf_member_at(table, 3, 0, &whole, &error) == VBTF_OK && whole.bit_offset == 0x05000003);
	check(whole.bit_field_size == 0);
	check(vbtf_variant_at(table, 4, 0, &low, &error) == VBTF_OK && low.name_offset == 9 && low.is_signed);
	check(low.value == 0xffffffff && low.bits == 32);
	check(vbtf_variant_at(table, 4, 1, &high, &error) == VBTF_OK && high.name_offset == 13 && high.value == 7);
	check(vbtf_variant_at(table, 5, 1, &wide, &error) == VBTF_OK && wide.name_offset == 13 && !wide.is_signed);
	check(wide.value == 0x300000004 && wide.bits == 64);
	check(vbtf_param_at(table, 6, 1, &second, &error) == VBTF_OK && second.name_offset == 7 && second.type == 3);
	check(vbtf_entry_at(table, 9, 0, &first, &error) == VBTF_OK && first.type == 8 && first.offset == 4);
	check(first.size == 12);
}

static void single_items(const struct vbtf_table *table)
{
	const struct vbtf_type most = { VBTF_KIND_STRUCT, 0, 0x0400fffe, 0 };
	struct vbtf_error error;
	struct vbtf_type type;
	struct vbtf_array six;
	struct vbtf_int word;
	uint32_t link = 9;
	int32_t place = 9;
	check(vbtf_array_of(table, 10, &six, &error) == VBTF_OK && six.type == 1 && six.index_type == 3 && six.len == 6);
	check(vbtf_int_of(table, 1, &word, &error) == VBTF_OK && word.encoding == 1 && word.offset == 8);
	check(word.bits == 32);
	check(vbtf_linkage_of(table, 7, &link, &error) == VBTF_OK && link == VBTF_LINKAGE_EXTERN);
	check(vbtf_linkage_of(table, 8, &link, &error) == VBTF_OK && link == VBTF_LINKAGE_GLOBAL);
	check(vbtf_linkage_of(table, 13, &link, &error) == VBTF_OK && link == VBTF_LINKAGE_UNKNOWN);
	check(vbtf_linkage_of(table, 15, &link, &error) == VBTF_OK && link == VBTF_LINKAGE_UNKNOWN);
	check(vbtf_component_of(table, 11, &place, &error) == VBTF_OK && place == -1);
	check(vbtf_component_of(table, 14, &place, &error) == VBTF_OK && place == 1);
	check(vbtf_vlen(&most) == 0xfffe && !vbtf_kind_flag(&most));
	check(vbtf_type_by_id(table, 2, &type, &error) == VBTF_OK && vbtf_vlen(&type) == 2 && vbtf_kind_flag(&type));
	check(vbtf_type_by_id(table, 3, &type, &error) == VBTF_OK && vbtf_vlen(&type) == 1 && !vbtf_kind_flag(&type));
}

/* Look-ups of variants by their names. */
static const struct {
	uint32_t id;
	const char *name;
	uint32_t status;
	uint64_t value;
} looked_for[] = {
	{ 4, "low", VBTF_OK, 0xffffffff },        { 4, "high", VBTF_OK, 7 },
	{ 5, "high", VBTF_OK, 0x300000004 },      { 12, "high", VBTF_OK, 7 },
	{ 4, "none", VBTF_NO_ITEM, 0 },           { 4, "", VBTF_NO_ITEM, 0 },
	{ 1, "low", VBTF_UNEXPECTED_TYPE, 0 },    { 3, "low", VBTF_UNEXPECTED_TYPE, 0 },
	{ SHAPES, "low", VBTF_UNKNOWN_TYPE, 0 },  { 18, "low", VBTF_TOO_DEEP, 0 },
	{ 16, "low", VBTF_INVALID_STRING_OFFSET, 0 },
	{ 4, "\xff", VBTF_BAD_ARGUMENT, 0 },
};

static void values(const struct vbtf_table *table)
{
	const struct vbtf_table closed = VBTF_TABLE_INIT;
	struct vbtf_error error;
	uint64_t value;
	for (size_t i = 0; i < sizeof looked_for / sizeof *looked_for; i++) {
		const char *name = looked_for[i].name;
		uint32_t id = looked_for[i].id, status = looked_for[i].status;
		value = 0;
		check(vbtf_value(table, id, name, strlen(name), &value, &error) == status);
		check(value == looked_for[i].value);
		check(status == VBTF_OK || status >= VBTF_NO_ROOM || error.number == status);
	}
	check(vbtf_value(table, 4, NULL, 0, &value, &error) == VBTF_NO_ITEM);
	check(vbtf_value(&closed, 4, "low", 3, &value, &error) == VBTF_CLOSED);
}

static struct vbtf_table opened_shapes(void)
{
	struct vbtf_table table = VBTF_TABLE_INIT;
	struct vbtf_error error;
	uint8_t bytes[24 + sizeof shapes + sizeof shape_strings];
	table_bytes_of(bytes, shapes, sizeof shapes, shape_strings, sizeof shape_strings);
	check(vbtf_parse(&table, bytes, sizeof bytes, VBTF_BY_MAGIC, &error) == VBTF_OK);
	return table;
}

static void read_items(void)
{
	struct vbtf_table table = opened_shapes();
	raw_items(&table);
	for (size_t reader = 0; reader < sizeof readers / sizeof *readers; reader++)
		for (uint32_t id = 0; id < SHAPES; id++)
			item_statuses(&table, reader, id);
	listed_items(&table);
	single_items(&table);
	values(&table);
	vbtf_close(&table);
}

/*
 * An ENUM64 that a rewrite replaces with a UNION: its values stay in this table and a copy of it, and its bytes do not
 * have them.
 */
static void replaced_values(void)
{
	static const uint32_t records[] = { 1, 0x13000001, 8, 1, 4, 3 };
	static const char strings[] = "\0high";
	static const struct vbtf_kernel none = { 0, 0, 0, 0 };
	struct vbtf_table table = VBTF_TABLE_INIT, copy = VBTF_TABLE_INIT, again = VBTF_TABLE_INIT;
	struct vbtf_error error;
	struct vbtf_asked asked;
	struct vbtf_type type;
	uint64_t value = 0, needed = 0;
	uint8_t bytes[24 + sizeof records + sizeof strings], out[256];
	table_bytes_of(bytes, records, sizeof records, strings, sizeof strings);
	check(vbtf_parse(&table, bytes, sizeof bytes, VBTF_LITTLE, &error) == VBTF_OK);
	check(vbtf_rewrite(&table, NULL, NULL, &none, 7, &asked, &error) == VBTF_OK);
	check(vbtf_type_by_id(&table, 1, &type, &error) == VBTF_OK && type.kind == VBTF_KIND_UNION);
	check(vbtf_value(&table, 1, "high", 4, &value, &error) == VBTF_OK && value == 0x300000004);
	value = 0;
	check(vbtf_clone(&table, &copy, &error) == VBTF_OK);
	check(vbtf_value(&copy, 1, "high", 4, &value, &error) == VBTF_OK && value == 0x300000004);
	check(vbtf_bytes(&table, out, sizeof out, &needed, &error) == VBTF_OK);
	check(vbtf_parse(&again, out, needed, VBTF_LITTLE, &error) == VBTF_OK);
	check(vbtf_value(&again, 1, "high", 4, &value, &error) == VBTF_UNEXPECTED_TYPE && error.id == 1);
	vbtf_close(&table);
	vbtf_close(&copy);
	vbtf_close(&again);
}

/* Records that are added to a new table, one after another: their words, their length in bytes, and the status. */
static const struct {
	uint32_t words[8];
	size_t len;
	uint32_t order, status, error_id;
} additions[] = {
	{ { 0, 0x01000000, 4, 0x20 }, 16, VBTF_LITTLE, VBTF_OK, 0 },
	{ { 0, 0x04000001, 4, 0, 1, 0 }, 24, VBTF_BIG, VBTF_OK, 0 },
	{ { 0, 0x02000000, 2 }, 12, VBTF_LITTLE, VBTF_OK, 0 },
	{ { 0, 0x02000000, 2 }, 11, VBTF_LITTLE, VBTF_INVALID_TYPE_INFO, 0 },
	{ { 0, 0x01000000, 4, 0x20 }, 15, VBTF_BIG, VBTF_INVALID_TYPE_INFO, 0 },
	{ { 0, 0x02000000, 2 }, 0, VBTF_LITTLE, VBTF_INVALID_TYPE_INFO, 0 },
	{ { 0, 0x14000000, 2 }, 12, VBTF_LITTLE, VBTF_INVALID_TYPE_KIND, 20 },
	{ { 0, 0x02000000, 2, 0 }, 13, VBTF_LITTLE, VBTF_BAD_ARGUMENT, 0 },
	{ { 0, 0x02000000, 2 }, 12, VBTF_BY_MAGIC, VBTF_BAD_ARGUMENT, 0 },
	{ { 0, 0x02000000, 2 }, 12, 3, VBTF_BAD_ARGUMENT, 0 },
};

static void added_types(void)
{
	struct vbtf_table table = VBTF_TABLE_INIT, closed = VBTF_TABLE_INIT;
	struct vbtf_error error;
	struct vbtf_type type;
	uint64_t count = 0, size = 0;
	uint32_t id, next = 1;
	check(vbtf_new(&table, &error) == VBTF_OK);
	for (size_t i = 0; i < sizeof additions / sizeof *additions; i++) {
		uint8_t record[32];
		for (size_t at = 0; at < 8; at++)
			put(record + 4 * at, additions[i].words[at], 4, additions[i].order);
		check(vbtf_add_type(&table, record, additions[i].len, additions[i].order, &id, &error) == additions[i].status);
		if (additions[i].status == VBTF_OK)
			check(id == next++ && vbtf_type_by_id(&table, id, &type, &error) == VBTF_OK
			      && type.info == additions[i].words[1] && type.size_or_type == additions[i].words[2]);
		else if (additions[i].status < VBTF_NO_ROOM)
			check(error.number == additions[i].status && error.id == additions[i].error_id);
		check(vbtf_count(&table, &count) == VBTF_OK && count == next);
	}
	check(vbtf_size(&table, 2, &size, &error) == VBTF_OK && size == 4);
	check(vbtf_add_type(&table, NULL, 0, VBTF_LITTLE, &id, &error) == VBTF_INVALID_TYPE_INFO);
	check(vbtf_add_type(&closed, NULL, 0, VBTF_LITTLE, &id, &error) == VBTF_CLOSED);
	vbtf_close(&table);
}

int main(void)
{
	read_items();
	replaced_values();
	added_types();
	return counted("items");
}
