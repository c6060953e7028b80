/* Mutated tables and .BTF.ext sections, from a fixed seed, for a number of seconds: the result of each call. */
#include "table.h"

#include <time.h>

static uint64_t state = 0x9e3779b97f4a7c15;

static uint32_t drawn(uint32_t below)
{
	state ^= state << 13;
	state ^= state >> 7;
	state ^= state << 17;
	return (uint32_t)(state >> 32) % below;
}

/* Changes up to eight bytes, and may truncate the end. */
static size_t mutate(uint8_t *bytes, size_t len)
{
	static const uint8_t often[] = { 0, 1, 4, 12, 13, 15, 19, 20, 0x7f, 0x80, 0xff };
	for (uint32_t n = drawn(8) + 1; n; n--)
		bytes[drawn((uint32_t)len)] = often[drawn(sizeof often)];
	return drawn(4) ? len : drawn((uint32_t)len);
}

/* Whether a call succeeded, or described its error, or returned that there is no such item. */
static int is_described(uint32_t status, const struct vbtf_error *error)
{
	return status == VBTF_OK || status == VBTF_NO_ITEM || status == error->number;
}

/* Reads each item of a type; a type whose items cannot be read has another kind. */
static void read_items(const struct vbtf_table *table, uint32_t id)
{
	struct vbtf_error error;
	struct vbtf_item item;
	struct vbtf_member member;
	struct vbtf_variant variant;
	struct vbtf_param param;
	struct vbtf_entry entry;
	struct vbtf_array array;
	struct vbtf_int integer;
	struct vbtf_table loan = vbtf_loan(table);
	uint32_t index = 0, linkage;
	int32_t component;
	uint64_t value;
	while (vbtf_lent_item(&loan, id, index, &item, &error) == VBTF_OK)
		index++;
	check(is_described(vbtf_member_at(table, id, drawn(index + 1), &member, &error), &error));
	check(is_described(vbtf_variant_at(table, id, drawn(index + 1), &variant, &error), &error));
	check(is_described(vbtf_param_at(table, id, drawn(index + 1), &param, &error), &error));
	check(is_described(vbtf_entry_at(table, id, drawn(index + 1), &entry, &error), &error));
	check(is_described(vbtf_array_of(table, id, &array, &error), &error));
	check(is_described(vbtf_int_of(table, id, &integer, &error), &error));
	check(is_described(vbtf_linkage_of(table, id, &linkage, &error), &error));
	check(is_described(vbtf_component_of(table, id, &component, &error), &error));
	check(is_described(vbtf_value(table, id, "int", 3, &value, &error), &error));
}

/* Reads the records of each section that a .BTF.ext has. */
static void read_ext(const struct vbtf_table *table, size_t len)
{
	struct vbtf_error error;
	struct vbtf_func_info functions[EXT_LEN / 8];
	struct vbtf_line_info lines[EXT_LEN / 16];
	struct vbtf_relocation relocations[EXT_LEN / 16];
	struct vbtf_ext_sizes ext;
	uint64_t needed;
	char names[EXT_LEN * sizeof STRINGS];
	check(vbtf_ext(table, &ext) == VBTF_OK && ext.func_sections <= len / 8 && ext.line_sections <= len / 8);
	for (uint32_t part = 0; part <= VBTF_PART_LINE_INFO; part++) {
		uint32_t status = vbtf_ext_names(table, part, names, sizeof names, &needed, &error);
		check(is_described(status, &error));
		for (const char *at = names; status == VBTF_OK && at < names + needed; at += strlen(at) + 1) {
			uint64_t count = 0;
			size_t n = strlen(at);
			check(vbtf_ext_func_info(table, at, n, functions, EXT_LEN / 8, &count, &error) == VBTF_OK);
			check(vbtf_ext_line_info(table, at, n, lines, EXT_LEN / 16, &count, &error) == VBTF_OK);
			status = vbtf_ext_relocations(table, at, n, relocations, EXT_LEN / 16, &count, &error);
			check(is_described(status, &error));
		}
	}
}

/* Whether a mutated .BTF.ext of a table is accepted; if so, reads it. */
static bool open_ext(struct vbtf_table *table, uint32_t order)
{
	struct vbtf_error error;
	uint8_t bytes[EXT_LEN];
	ext_bytes(bytes, order);
	size_t len = mutate(bytes, sizeof bytes);
	uint32_t status = vbtf_open_ext(table, bytes, len, order, 7, &error);
	check(is_described(status, &error));
	if (status == VBTF_OK)
		read_ext(table, len);
	return status == VBTF_OK;
}

/* Adds a mutated record to a table. */
static void add_record(struct vbtf_table *table, uint32_t order)
{
	struct vbtf_error error;
	uint8_t record[36];
	uint32_t id;
	for (size_t i = 0; i < sizeof record / 4; i++)
		put(record + 4 * i, words[10 + i], 4, order);
	size_t len = mutate(record, sizeof record);
	uint32_t status = vbtf_add_type(table, record, len, order, &id, &error);
	check(status == VBTF_BAD_ARGUMENT || is_described(status, &error));
}

/* Makes each reading call on each id. */
static void read_all(const struct vbtf_table *table)
{
	struct vbtf_error error;
	struct vbtf_type type;
	uint64_t count = 0, size = 0, needed = 0;
	uint32_t to = 0;
	bool answer;
	uint8_t out[2 * TABLE_LEN];
	check(vbtf_count(table, &count) == VBTF_OK && count > 0);
	for (uint32_t id = 0; id <= count; id++) {
		uint32_t other = drawn((uint32_t)count);
		check((vbtf_type_by_id(table, id, &type, &error) == VBTF_OK) == (id < count));
		check(is_described(vbtf_resolve(table, id, &to, &error), &error));
		check(is_described(vbtf_size(table, id, &size, &error), &error));
		check(is_described(vbtf_text_at(table, type.name_offset, out, sizeof out, &needed, &error), &error));
		check(is_described(vbtf_types_are_compatible(table, id, table, other, &answer, &error), &error));
		check(is_described(vbtf_fields_are_compatible(table, id, table, other, &answer, &error), &error));
		read_items(table, id);
	}
	check(vbtf_bytes(table, out, sizeof out, &needed, &error) == VBTF_OK);
	check(is_described(vbtf_find(table, "int", 3, drawn(20), &to, &error), &error));
}

/* Relocations of each kind about each type, for the table itself. */
static void relocate_all(struct vbtf_table *table)
{
	static const char *const texts[] = { "0", "1", "0:1" };
	struct vbtf_error error;
	struct vbtf_relocated relocated;
	uint32_t access[3];
	uint64_t count = 0;
	for (size_t i = 0; i < 3; i++)
		check(vbtf_add_string(table, texts[i], strlen(texts[i]), &access[i], &error) == VBTF_OK);
	check(vbtf_target_open(table, &error) == VBTF_OK);
	check(vbtf_count(table, &count) == VBTF_OK);
	for (uint32_t id = 0; id <= count; id++) {
		struct vbtf_relocation relocation = { 0, id, access[drawn(3)], drawn(14) };
		uint32_t status = vbtf_relocate(table, table, &relocation, &relocated, &error);
		check(status == VBTF_OK || (status == VBTF_RELOCATION_REFUSED && error.number == status));
		check(status == VBTF_OK || (error.id >= 1 && error.id <= 27));
	}
	vbtf_target_close(table);
}

int main(int argc, char **argv)
{
	time_t end = time(NULL) + (argc > 1 ? atoi(argv[1]) : 10);
	unsigned long parsed = 0, refused = 0, opened_exts = 0;
	while (time(NULL) < end) {
		struct vbtf_table table = VBTF_TABLE_INIT;
		struct vbtf_error error;
		uint8_t bytes[TABLE_LEN];
		uint32_t order = drawn(2);
		table_bytes(bytes, order);
		size_t len = mutate(bytes, sizeof bytes);
		if (vbtf_parse(&table, bytes, len, order, &error) == VBTF_OK) {
			parsed++;
			read_all(&table);
			opened_exts += open_ext(&table, order);
			add_record(&table, order);
			relocate_all(&table);
		} else {
			refused++;
			check(error.number >= VBTF_INVALID_HEADER && error.number <= VBTF_INVALID_TYPE_KIND);
		}
		vbtf_close(&table);
	}
	printf("%lu tables parsed, %lu refused; %lu .BTF.ext opened\n", parsed, refused, opened_exts);
	check(parsed > opened_exts && opened_exts > 0 && refused > 0);
	return counted("fuzz");
}
