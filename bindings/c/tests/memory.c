/*
 * The nth allocation of each call fails, for each n: the call returns VBTF_OUT_OF_MEMORY, the table is unchanged, the
 * same call succeeds afterwards, and nothing leaks. Link with -Wl,--wrap=malloc,--wrap=realloc,--wrap=free.
 */
#include "heap.h"
#include "table.h"

static struct vbtf_error error;
static uint8_t blob[TABLE_LEN], ext_blob[EXT_LEN];

#define WIDTH 40

/* Tables that no call changes: the one of open_wide, one that has a .BTF.ext open, and one that has an index open. */
static struct vbtf_table wide, first_four, with_ext, with_index;

/* The string offset of the access string "0:1" in the last one. */
static uint32_t access_offset;

/* Whether a table has the bytes that it was opened with. */
static int is_as_before(const struct vbtf_table *table)
{
	uint8_t bytes[TABLE_LEN];
	uint64_t needed = 0;
	return vbtf_bytes(table, bytes, sizeof bytes, &needed, &error) == VBTF_OK && needed == sizeof bytes
	       && memcmp(bytes, blob, sizeof bytes) == 0;
}

static uint32_t parse(struct vbtf_table *table)
{
	struct vbtf_table made = VBTF_TABLE_INIT;
	uint32_t status = vbtf_parse(&made, blob, sizeof blob, VBTF_LITTLE, &error);
	check((status == VBTF_OK) == (made.state == 1));
	(void)table;
	vbtf_close(&made);
	return status;
}

static uint32_t make(struct vbtf_table *table)
{
	struct vbtf_table made = VBTF_TABLE_INIT;
	uint32_t status = vbtf_new(&made, &error);
	check((status == VBTF_OK) == (made.state == 1));
	(void)table;
	vbtf_close(&made);
	return status;
}

static uint32_t copy(struct vbtf_table *table)
{
	struct vbtf_table made = VBTF_TABLE_INIT;
	uint32_t status = vbtf_clone(table, &made, &error);
	check((status == VBTF_OK) == (made.state == 1));
	vbtf_close(&made);
	return status;
}

/* The table over itself: the ids of the second one are not checked. */
static uint32_t parse_over(struct vbtf_table *table)
{
	struct vbtf_table made = VBTF_TABLE_INIT;
	uint32_t status = vbtf_parse_over(&made, table, blob, sizeof blob, VBTF_LITTLE, &error);
	check((status == VBTF_OK) == (made.state == 1));
	vbtf_close(&made);
	return status;
}

static uint32_t split_bytes(struct vbtf_table *table)
{
	uint8_t bytes[TABLE_LEN];
	uint64_t needed;
	return vbtf_split_bytes(table, 2, 1, bytes, sizeof bytes, &needed, &error);
}

/* The table as a split table over itself; a failed allocation leaves the table as it was. */
static uint32_t append_split(struct vbtf_table *table)
{
	uint32_t len = 0, status = vbtf_append_split(table, blob, sizeof blob, VBTF_LITTLE, &error);
	check(vbtf_string_len(table, &len) == VBTF_OK && len == (status == VBTF_OK ? 2 : 1) * sizeof STRINGS);
	check(status != VBTF_OK || vbtf_truncate(table, TYPES, sizeof STRINGS, &error) == VBTF_OK);
	return status;
}

/* The STRUCT of two integers of 4 bytes. */
static uint32_t alignment(struct vbtf_table *table)
{
	uint32_t bytes = 9, status = vbtf_alignment(table, 4, &bytes, &error);
	check(bytes == (status == VBTF_OK ? 4 : 9));
	return status;
}

static uint32_t alignments(struct vbtf_table *table)
{
	uint32_t bytes[TYPES] = { 9 }, status;
	uint64_t count = 0;
	status = vbtf_alignments(table, 1, bytes, TYPES, &count, &error);
	check(status == VBTF_OK ? count == TYPES - 1 && bytes[0] == 4 && bytes[1] == 8 : !count && bytes[0] == 9);
	return status;
}

/* A search in the index for a name that no type has; the error has the name. */
static uint32_t missing_in_index(struct vbtf_table *table)
{
	uint32_t id, status = vbtf_index_find(&with_index, "no such type", 12, VBTF_KIND_PTR, &id, &error);
	(void)table;
	return status == VBTF_UNKNOWN_TYPE_NAME ? VBTF_OK : status;
}

static uint32_t write_out(struct vbtf_table *table)
{
	uint8_t bytes[TABLE_LEN];
	uint64_t needed;
	return vbtf_bytes(table, bytes, sizeof bytes, &needed, &error);
}

static uint32_t text(struct vbtf_table *table)
{
	uint64_t needed;
	char out[8];
	return vbtf_text_at(table, 26, out, sizeof out, &needed, &error);
}

/* The C header of the first four types, because the table has a pointer to itself, which no C header can have. */
static uint32_t header(struct vbtf_table *table)
{
	uint64_t needed;
	char out[4096];
	(void)table;
	return vbtf_header(&first_four, out, sizeof out, &needed, &error);
}

static uint32_t missing(struct vbtf_table *table)
{
	uint32_t id;
	uint32_t status = vbtf_find(table, "no such type", 12, VBTF_KIND_FWD, &id, &error);
	return status == VBTF_UNKNOWN_TYPE_NAME ? VBTF_OK : status;
}

/* A search for a name that no type has; the error has the name. */
static uint32_t missing_from(struct vbtf_table *table)
{
	uint32_t id;
	uint32_t status = vbtf_find_from(table, "no such type", 12, VBTF_KIND_PTR, 3, &id, &error);
	return status == VBTF_UNKNOWN_TYPE_NAME ? VBTF_OK : status;
}

/* A name with the bytes of U+FFFD is compared with whole texts, and reading one that is not UTF-8 allocates. */
static uint32_t find_text(struct vbtf_table *table)
{
	uint32_t id = 0;
	uint32_t status = vbtf_find_from(table, "caf\xef\xbf\xbd", 6, VBTF_ANY_KIND, 3, &id, &error);
	check(status != VBTF_OK || id == 8);
	return status;
}

/* The first variant's name needs an allocation, because it is not UTF-8. */
/* A name with the bytes of U+FFFD is compared with whole texts, and reading one that is not UTF-8 allocates. */
static uint32_t value(struct vbtf_table *table)
{
	uint64_t found = 0;
	uint32_t status = vbtf_value(table, 11, "caf\xef\xbf\xbd", 6, &found, &error);
	check(status != VBTF_OK || found == 7);
	return status;
}

static uint32_t fields(struct vbtf_table *table)
{
	bool answer;
	return vbtf_fields_are_compatible(table, 8, table, 8, &answer, &error);
}

/* Two prototypes of more parameters than fit in a comparison's array of first pairs. */
static uint32_t types(struct vbtf_table *table)
{
	bool answer;
	(void)table;
	return vbtf_types_are_compatible(&wide, WIDTH + 1, &wide, WIDTH + 1, &answer, &error);
}

static uint32_t rewrite(struct vbtf_table *table)
{
	static const struct vbtf_named size = { 0, 4, 8 };
	static const struct vbtf_names sections = { "data", 4, &size, 1 };
	static const struct vbtf_kernel all = { 0xff, 0, 0, 0 };
	struct vbtf_asked asked;
	return vbtf_rewrite(table, &sections, &sections, &all, 7, &asked, &error);
}

static uint32_t add_string(struct vbtf_table *table)
{
	uint32_t offset;
	return vbtf_add_string(table, "text", 4, &offset, &error);
}

/* A STRUCT of more members than fit in the record without an allocation. */
static uint32_t add_type(struct vbtf_table *table)
{
	uint8_t record[12 + 12 * 8] = { 0 };
	uint32_t id;
	put(record + 4, 0x04000008, 4, VBTF_LITTLE);
	return vbtf_add_type(table, record, sizeof record, VBTF_LITTLE, &id, &error);
}

static uint32_t open_ext(struct vbtf_table *table)
{
	struct vbtf_ext_sizes ext;
	uint32_t status = vbtf_open_ext(table, ext_blob, sizeof ext_blob, VBTF_LITTLE, 7, &error);
	check(vbtf_ext(table, &ext) == (status == VBTF_OK ? VBTF_OK : VBTF_CLOSED));
	vbtf_close_ext(table);
	return status;
}

static uint32_t lines(struct vbtf_table *table)
{
	struct vbtf_line_info out[3];
	uint64_t needed;
	(void)table;
	return vbtf_ext_line_info(&with_ext, "run", 3, out, 3, &needed, &error);
}

static uint32_t functions(struct vbtf_table *table)
{
	struct vbtf_func_info out[1];
	uint64_t needed;
	(void)table;
	return vbtf_ext_func_info(&with_ext, "run", 3, out, 1, &needed, &error);
}

static uint32_t relocations(struct vbtf_table *table)
{
	struct vbtf_relocation out[2];
	uint64_t needed;
	(void)table;
	return vbtf_ext_relocations(&with_ext, "run", 3, out, 2, &needed, &error);
}

static uint32_t open_target(struct vbtf_table *table)
{
	uint32_t status = vbtf_target_open(table, &error);
	vbtf_target_close(table);
	return status;
}

static uint32_t relocate(struct vbtf_table *table)
{
	struct vbtf_relocation relocation = { 0, 4, access_offset, 0 };
	struct vbtf_relocated relocated = { 9, 9, 9, 9, false, false, false };
	uint32_t status = vbtf_relocate(&with_index, &with_index, &relocation, &relocated, &error);
	check(relocated.value == (status == VBTF_OK ? 4 : 9));
	(void)table;
	return status;
}

static uint32_t error_text(struct vbtf_table *table)
{
	const struct vbtf_error unknown = { VBTF_UNKNOWN_TYPE_NAME, 0, 0, 0, 0, 4, "name" };
	char out[64];
	(void)table;
	bool is_whole = strcmp(vbtf_error_text(unknown.number, &unknown, out, sizeof out), "unknown BTF type `name`") == 0;
	check(is_whole || strcmp(out, "out of memory") == 0);
	return is_whole ? VBTF_OK : VBTF_OUT_OF_MEMORY;
}

static const struct {
	const char *name;
	uint32_t (*call)(struct vbtf_table *table);
} calls[] = {
	{ "vbtf_parse", parse },
	{ "vbtf_new", make },
	{ "vbtf_clone", copy },
	{ "vbtf_parse_over", parse_over },
	{ "vbtf_split_bytes", split_bytes },
	{ "vbtf_append_split", append_split },
	{ "vbtf_alignment", alignment },
	{ "vbtf_alignments", alignments },
	{ "vbtf_index_find", missing_in_index },
	{ "vbtf_bytes", write_out },
	{ "vbtf_text_at", text },
	{ "vbtf_header", header },
	{ "vbtf_find", missing },
	{ "vbtf_find_from", missing_from },
	{ "vbtf_find_from", find_text },
	{ "vbtf_value", value },
	{ "vbtf_fields_are_compatible", fields },
	{ "vbtf_types_are_compatible", types },
	{ "vbtf_rewrite", rewrite },
	{ "vbtf_add_string", add_string },
	{ "vbtf_add_type", add_type },
	{ "vbtf_open_ext", open_ext },
	{ "vbtf_ext_func_info", functions },
	{ "vbtf_ext_line_info", lines },
	{ "vbtf_ext_relocations", relocations },
	{ "vbtf_target_open", open_target },
	{ "vbtf_relocate", relocate },
	{ "vbtf_error_text", error_text },
};

/* Makes a call whose nth allocation fails; returns whether it made that number of allocations. */
static int failed_at(size_t i, unsigned long n)
{
	struct vbtf_table table = opened(VBTF_LITTLE);
	requests = 0;
	failing = n;
	uint32_t status = calls[i].call(&table);
	int reached = requests >= n;
	failing = 0;
	check(status == (reached ? VBTF_OUT_OF_MEMORY : VBTF_OK));
	check(!reached || is_as_before(&table));
	check(calls[i].call(&table) == VBTF_OK);
	vbtf_close(&table);
	return reached;
}

/* Opens a table of WIDTH INTs, and a FUNC_PROTO that takes one of each. */
static void open_wide(void)
{
	uint32_t records[4 * WIDTH + 3 + 2 * WIDTH] = { 0 }, *proto = records + 4 * WIDTH;
	uint8_t bytes[24 + sizeof records + 1];
	proto[1] = 0x0d000000 | WIDTH;
	for (uint32_t i = 0; i < WIDTH; i++) {
		records[4 * i + 1] = 0x01000000;
		records[4 * i + 2] = 4;
		records[4 * i + 3] = 32;
		proto[3 + 2 * i + 1] = i + 1;
	}
	table_bytes_of(bytes, records, sizeof records, "", 1);
	check(vbtf_parse(&wide, bytes, sizeof bytes, VBTF_LITTLE, &error) == VBTF_OK);
}

/* Opens a table of the first four types. */
static void open_first_four(void)
{
	uint8_t bytes[24 + 4 * 19 + sizeof STRINGS];
	table_bytes_of(bytes, words, 4 * 19, STRINGS, sizeof STRINGS);
	check(vbtf_parse(&first_four, bytes, sizeof bytes, VBTF_LITTLE, &error) == VBTF_OK);
}

int main(void)
{
	table_bytes(blob, VBTF_LITTLE);
	ext_bytes(ext_blob, VBTF_LITTLE);
	long before = live;
	open_wide();
	open_first_four();
	with_ext = opened(VBTF_LITTLE);
	check(vbtf_open_ext(&with_ext, ext_blob, sizeof ext_blob, VBTF_LITTLE, 7, &error) == VBTF_OK);
	with_index = opened(VBTF_LITTLE);
	check(vbtf_add_string(&with_index, "0:1", 3, &access_offset, &error) == VBTF_OK);
	check(vbtf_target_open(&with_index, &error) == VBTF_OK);
	for (size_t i = 0; i < sizeof calls / sizeof *calls; i++) {
		unsigned long n = 1;
		while (failed_at(i, n))
			n++;
		printf("%s: %lu allocations\n", calls[i].name, n - 1);
		check(n > 1);
	}
	vbtf_close(&with_index);
	vbtf_close(&with_ext);
	vbtf_close(&first_four);
	vbtf_close(&wide);
	check(live == before);
	return counted("memory");
}
