/* Each call if allocation succeeds, each status, and the table after an error, which is unchanged. */
#include "table.h"

/* The error may be null, in calls that succeed and in calls that do not. */
static void undescribed_errors(void)
{
	struct vbtf_table table = VBTF_TABLE_INIT;
	struct vbtf_member member;
	char out[VBTF_ERROR_ROOM];
	uint32_t id;
	check(vbtf_new(&table, NULL) == VBTF_OK);
	check(vbtf_find(&table, "", 0, VBTF_KIND_UNKNOWN, &id, NULL) == VBTF_OK && id == 0);
	check(vbtf_find(&table, "int", 3, VBTF_KIND_INT, &id, NULL) == VBTF_UNKNOWN_TYPE_NAME);
	check(vbtf_member_at(&table, 0, 0, &member, NULL) == VBTF_UNEXPECTED_TYPE);
	check(vbtf_member_at(&table, 1, 0, &member, NULL) == VBTF_UNKNOWN_TYPE);
	check(strcmp(vbtf_error_text(VBTF_UNKNOWN_TYPE, NULL, out, sizeof out), "unknown BTF type id `0`") == 0);
	vbtf_close(&table);
}

static void new_tables(void)
{
	struct vbtf_table table = VBTF_TABLE_INIT;
	struct vbtf_error error;
	uint64_t count = 0;
	uint32_t offset = 0;
	uint64_t needed = 0;
	uint8_t bytes[64];
	check(vbtf_count(&table, &count) == VBTF_CLOSED);
	check(vbtf_new(&table, &error) == VBTF_OK);
	check(vbtf_new(&table, &error) == VBTF_BAD_ARGUMENT);
	check(vbtf_count(&table, &count) == VBTF_OK && count == 1);
	check(vbtf_add_string(&table, "int", 3, &offset, &error) == VBTF_OK && offset == 1);
	check(vbtf_add_string(&table, "\xff", 1, &offset, &error) == VBTF_BAD_ARGUMENT);
	check(vbtf_add_string(&table, NULL, 0, &offset, &error) == VBTF_OK && offset == 5);
	check(vbtf_bytes(&table, bytes, sizeof bytes, &needed, &error) == VBTF_OK && needed == 24 + 6);
	check(memcmp(bytes + 24, "\0int\0\0", 6) == 0);
	vbtf_close(&table);
	vbtf_close(&table);
	check(vbtf_count(&table, &count) == VBTF_CLOSED);
	check(vbtf_new(&table, &error) == VBTF_OK);
	vbtf_close(&table);
}

/* Tables in the byte order of their magic, and bytes without a magic. */
static void orders(void)
{
	static const struct {
		uint8_t bytes[2];
		uint32_t order, by_magic;
	} cases[] = {
		{ { 0x9f, 0xeb }, VBTF_LITTLE, VBTF_OK }, { { 0xeb, 0x9f }, VBTF_BIG, VBTF_OK },
		{ { 0, 0 }, VBTF_LITTLE, VBTF_OK },       { { 0xeb, 0 }, VBTF_LITTLE, VBTF_OK },
		{ { 0, 0x9f }, VBTF_LITTLE, VBTF_OK },    { { 0x9f, 0xeb }, VBTF_BIG, VBTF_INVALID_HEADER },
	};
	for (size_t i = 0; i < sizeof cases / sizeof *cases; i++) {
		struct vbtf_table table = VBTF_TABLE_INIT;
		struct vbtf_error error;
		uint8_t bytes[TABLE_LEN], again[TABLE_LEN];
		uint64_t needed;
		table_bytes(bytes, cases[i].order);
		memcpy(bytes, cases[i].bytes, 2);
		check(vbtf_parse(&table, bytes, sizeof bytes, VBTF_BY_MAGIC, &error) == cases[i].by_magic);
		if (cases[i].by_magic == VBTF_OK) {
			check(vbtf_bytes(&table, again, sizeof again, &needed, &error) == VBTF_OK);
			check(memcmp(bytes, again, sizeof again) == 0);
		}
		vbtf_close(&table);
	}
}

static void refused_bytes(void)
{
	struct vbtf_table table = VBTF_TABLE_INIT;
	struct vbtf_error error;
	uint64_t count;
	uint8_t bytes[TABLE_LEN];
	table_bytes(bytes, VBTF_LITTLE);
	check(vbtf_parse(&table, NULL, 0, VBTF_LITTLE, &error) == VBTF_INVALID_HEADER);
	check(vbtf_parse(&table, bytes, 23, VBTF_LITTLE, &error) == VBTF_INVALID_HEADER);
	check(vbtf_parse(&table, bytes, sizeof bytes - 1, VBTF_LITTLE, &error) == VBTF_INVALID_HEADER);
	check(error.number == VBTF_INVALID_HEADER && error.id == 0 && error.name_len == 0);
	check(vbtf_parse(&table, bytes, sizeof bytes, 3, &error) == VBTF_BAD_ARGUMENT);
	put(bytes + 24 + 4, 0x14000000, 4, VBTF_LITTLE);
	check(vbtf_parse(&table, bytes, sizeof bytes, VBTF_LITTLE, &error) == VBTF_INVALID_TYPE_KIND && error.id == 20);
	put(bytes + 12, TYPE_LEN + 1000, 4, VBTF_LITTLE);
	check(vbtf_parse(&table, bytes, sizeof bytes, VBTF_LITTLE, &error) == VBTF_INVALID_TYPE_INFO);
	check(vbtf_count(&table, &count) == VBTF_CLOSED);
}

static void types(const struct vbtf_table *table)
{
	struct vbtf_error error;
	struct vbtf_type type;
	uint64_t count = 0;
	check(vbtf_count(table, &count) == VBTF_OK && count == TYPES);
	check(vbtf_type_by_id(table, 4, &type, &error) == VBTF_OK);
	check(type.kind == VBTF_KIND_STRUCT && type.name_offset == 10 && type.info == 0x04000002 && type.size_or_type == 8);
	check(vbtf_type_by_id(table, 0, &type, &error) == VBTF_OK && type.kind == VBTF_KIND_UNKNOWN);
	check(vbtf_type_by_id(table, TYPES, &type, &error) == VBTF_UNKNOWN_TYPE && error.id == TYPES);
}

static void texts(const struct vbtf_table *table)
{
	struct vbtf_error error;
	uint64_t needed = 0;
	char text[8];
	check(vbtf_text_at(table, 10, text, sizeof text, &needed, &error) == VBTF_OK && needed == 4);
	check(memcmp(text, "pair", 4) == 0);
	check(vbtf_text_at(table, 26, text, sizeof text, &needed, &error) == VBTF_OK && needed == 6);
	check(memcmp(text, "caf\xef\xbf\xbd", 6) == 0);
	memset(text, 'x', sizeof text);
	check(vbtf_text_at(table, 26, text, 5, &needed, &error) == VBTF_NO_ROOM && needed == 6 && text[0] == 'x');
	check(vbtf_text_at(table, 26, NULL, 0, &needed, &error) == VBTF_NO_ROOM && needed == 6);
	check(vbtf_text_at(table, 0, NULL, 0, &needed, &error) == VBTF_OK && needed == 0);
	check(vbtf_text_at(table, 1000, text, 8, &needed, &error) == VBTF_INVALID_STRING_OFFSET && error.offset == 1000);
}

/* The names at all string offsets are where the strings have them, with a zero byte after each. */
static void names(const struct vbtf_table *table)
{
	struct vbtf_table closed = VBTF_TABLE_INIT;
	struct vbtf_error error;
	const char *strings = STRINGS, *first = NULL, *text = NULL;
	size_t len = 77;
	check(vbtf_name(table, 0, &first, &len, NULL) == VBTF_OK && len == 0);
	for (uint32_t offset = 0; offset < sizeof STRINGS; offset++) {
		check(vbtf_name(table, offset, &text, &len, &error) == VBTF_OK);
		check(text == first + offset && len == strlen(strings + offset));
		check(memcmp(text, strings + offset, len + 1) == 0);
	}
	len = 77;
	check(vbtf_name(table, sizeof STRINGS, &text, &len, &error) == VBTF_INVALID_STRING_OFFSET);
	check(error.offset == sizeof STRINGS && len == 77 && text == first + sizeof STRINGS - 1);
	check(vbtf_name(table, UINT32_MAX, &text, &len, NULL) == VBTF_INVALID_STRING_OFFSET);
	check(vbtf_name(&closed, 0, &text, &len, &error) == VBTF_CLOSED && len == 77);
}

/* The memory of all names is that of the strings, of which each zero byte ends one. */
static void all_names(const struct vbtf_table *table)
{
	struct vbtf_table closed = VBTF_TABLE_INIT;
	struct vbtf_name_bytes names = { NULL, 0 };
	const char *strings = STRINGS, *first = NULL;
	uint64_t count = 0, zeros = 0;
	size_t len;
	for (size_t at = 0; at < sizeof STRINGS; at++)
		zeros += strings[at] == '\0';
	check(vbtf_string_count(table, &count) == VBTF_OK && count == zeros);
	check(vbtf_names(table, &names) == VBTF_OK && names.len == sizeof STRINGS);
	check(vbtf_name(table, 0, &first, &len, NULL) == VBTF_OK && names.at == first);
	check(vbtf_name_in(&names, 10) == first + 10 && vbtf_name_in(&names, sizeof STRINGS) == NULL);
	check(vbtf_names(&closed, &names) == VBTF_CLOSED && names.at == first);
	check(vbtf_string_count(&closed, &count) == VBTF_CLOSED && count == zeros);
}

static void order_is(const struct vbtf_table *table, uint32_t order)
{
	struct vbtf_table closed = VBTF_TABLE_INIT;
	uint32_t answer = 77;
	check(vbtf_order(&closed, &answer) == VBTF_CLOSED && answer == 77);
	check(vbtf_order(table, &answer) == VBTF_OK && answer == order);
}

static void looked_up_from(const struct vbtf_table *table)
{
	struct vbtf_table closed = VBTF_TABLE_INIT;
	struct vbtf_error error;
	uint32_t id = 99;
	check(vbtf_find_from(table, "int", 3, VBTF_KIND_INT, 0, &id, &error) == VBTF_OK && id == 1);
	check(vbtf_find_from(table, "int", 3, VBTF_KIND_INT, 1, &id, &error) == VBTF_OK && id == 1);
	check(vbtf_find_from(table, "int", 3, VBTF_KIND_INT, 2, &id, &error) == VBTF_OK && id == 9);
	check(vbtf_find_from(table, "int", 3, VBTF_KIND_INT, 10, &id, &error) == VBTF_UNKNOWN_TYPE_NAME && id == 9);
	check(error.name_len == 3 && memcmp(error.name, "int", 3) == 0);
	check(vbtf_find_from(table, "int", 3, VBTF_KIND_INT, UINT32_MAX, &id, NULL) == VBTF_UNKNOWN_TYPE_NAME);
	check(vbtf_find_from(table, "word", 4, VBTF_ANY_KIND, 0, &id, &error) == VBTF_OK && id == 3);
	check(vbtf_find_from(table, "word", 4, VBTF_ANY_KIND, 4, &id, &error) == VBTF_OK && id == 11);
	check(vbtf_find_from(table, "word", 4, VBTF_KIND_ENUM, 0, &id, &error) == VBTF_OK && id == 11);
	check(vbtf_find_from(table, "", 0, VBTF_ANY_KIND, 0, &id, &error) == VBTF_OK && id == 0);
	check(vbtf_find_from(table, "", 0, VBTF_ANY_KIND, 1, &id, &error) == VBTF_OK && id == 2);
	check(vbtf_find_from(table, "\xff", 1, VBTF_ANY_KIND, 0, &id, &error) == VBTF_BAD_ARGUMENT);
	check(vbtf_find_from(table, "int", 3, 20, 0, &id, &error) == VBTF_BAD_ARGUMENT && id == 2);
	check(vbtf_find_from(&closed, "int", 3, VBTF_KIND_INT, 0, &id, &error) == VBTF_CLOSED && id == 2);
}

static void looked_up(const struct vbtf_table *table)
{
	struct vbtf_error error;
	uint32_t id = 99;
	check(vbtf_find(table, "int", 3, VBTF_KIND_INT, &id, &error) == VBTF_OK && id == 1);
	check(vbtf_find(table, "run", 3, VBTF_KIND_FUNC, &id, &error) == VBTF_OK && id == 7);
	check(vbtf_find(table, "", 0, VBTF_KIND_UNKNOWN, &id, &error) == VBTF_OK && id == 0);
	check(vbtf_find(table, "pair", 4, VBTF_KIND_UNION, &id, &error) == VBTF_UNKNOWN_TYPE_NAME);
	check(error.name_len == 4 && memcmp(error.name, "pair", 4) == 0);
	check(vbtf_find(table, "\xff", 1, VBTF_KIND_INT, &id, &error) == VBTF_BAD_ARGUMENT);
	check(vbtf_find(table, "int", 3, 20, &id, &error) == VBTF_BAD_ARGUMENT);
}

static void walks(const struct vbtf_table *table)
{
	struct vbtf_error error;
	uint32_t to = 0;
	uint64_t size = 0;
	check(vbtf_resolve(table, 3, &to, &error) == VBTF_OK && to == 1);
	check(vbtf_resolve(table, 30, &to, &error) == VBTF_UNKNOWN_TYPE && error.id == 30);
	check(vbtf_size(table, 5, &size, &error) == VBTF_OK && size == 80);
	check(vbtf_size(table, 2, &size, &error) == VBTF_OK && size == 8);
	check(vbtf_size(table, 7, &size, &error) == VBTF_UNEXPECTED_TYPE && error.id == 7);
}

static void comparisons(const struct vbtf_table *table, const struct vbtf_table *other)
{
	struct vbtf_error error;
	bool answer = true;
	check(vbtf_types_are_compatible(table, 6, other, 6, &answer, &error) == VBTF_OK && answer);
	check(vbtf_types_are_compatible(table, 6, table, 6, &answer, &error) == VBTF_OK && answer);
	check(vbtf_types_are_compatible(table, 9, table, 9, &answer, &error) == VBTF_OK && !answer);
	check(vbtf_types_are_compatible(table, 10, other, 10, &answer, &error) == VBTF_TOO_DEEP);
	check(vbtf_types_are_compatible(table, 7, other, 7, &answer, &error) == VBTF_UNEXPECTED_TYPE && error.id == 7);
	check(vbtf_fields_are_compatible(table, 2, other, 2, &answer, &error) == VBTF_OK && answer);
	check(vbtf_fields_are_compatible(table, 1, other, 2, &answer, &error) == VBTF_OK && !answer);
	check(vbtf_fields_are_compatible(table, 30, other, 1, &answer, &error) == VBTF_UNKNOWN_TYPE && error.id == 30);
}

static void written(const struct vbtf_table *table, uint32_t order)
{
	struct vbtf_error error;
	uint64_t needed = 0;
	uint8_t bytes[TABLE_LEN], again[TABLE_LEN];
	table_bytes(bytes, order);
	memset(again, 0xaa, sizeof again);
	check(vbtf_bytes(table, again, sizeof again - 1, &needed, &error) == VBTF_NO_ROOM && needed == TABLE_LEN);
	check(again[0] == 0xaa);
	check(vbtf_bytes(table, again, sizeof again, &needed, &error) == VBTF_OK && needed == TABLE_LEN);
	check(memcmp(bytes, again, sizeof again) == 0);
}

/* A copy in the order of its table, which stays when the table changes and is closed. */
static void copies(uint32_t order)
{
	struct vbtf_table table = opened(order), copy = VBTF_TABLE_INIT, other = VBTF_TABLE_INIT;
	struct vbtf_error error;
	struct vbtf_ext_sizes ext;
	uint8_t bytes[EXT_LEN];
	uint32_t offset;
	ext_bytes(bytes, order);
	check(vbtf_open_ext(&table, bytes, sizeof bytes, order, 7, &error) == VBTF_OK);
	check(vbtf_clone(&table, &copy, &error) == VBTF_OK && copy.state == 1 && copy.at != table.at);
	check(vbtf_ext(&table, &ext) == VBTF_OK && vbtf_ext(&copy, &ext) == VBTF_CLOSED);
	check(vbtf_clone(&copy, &table, &error) == VBTF_BAD_ARGUMENT);
	check(vbtf_clone(&table, &table, NULL) == VBTF_BAD_ARGUMENT);
	check(vbtf_clone(&other, &copy, &error) == VBTF_CLOSED);
	check(vbtf_clone(&other, &other, NULL) == VBTF_CLOSED && other.state == 0);
	check(vbtf_add_string(&table, "text", 4, &offset, &error) == VBTF_OK);
	written(&copy, order);
	vbtf_close(&table);
	written(&copy, order);
	vbtf_close(&copy);
}

#define SECTIONS "\0license\0.data"
#define SYMBOLS "\0_license"

/* INT 1 of a byte, VAR 2 "_license" Global of it, DATASEC 3 "license" of size 0 with it, FUNC_PROTO 4, FUNC 5 "f". */
static const uint32_t program[] = {
	1, 0x01000000, 1, 0x08,
	6, 0x0e000000, 1, 1,
	15, 0x0f000001, 0, 2, 0, 1,
	0, 0x0d000000, 0,
	23, 0x0c000001, 4,
};

static const char program_strings[] = "\0char\0_license\0license\0f";

static struct vbtf_table opened_program(void)
{
	struct vbtf_table table = VBTF_TABLE_INIT;
	struct vbtf_error error;
	uint8_t bytes[24 + sizeof program + sizeof program_strings];
	table_bytes_of(bytes, program, sizeof program, program_strings, sizeof program_strings);
	check(vbtf_parse(&table, bytes, sizeof bytes, VBTF_LITTLE, &error) == VBTF_OK);
	return table;
}

static const struct vbtf_named sizes[] = { { 1, 7, 13 }, { 9, 5, 4 } }, offsets[] = { { 1, 8, 40 } };
static const struct vbtf_names section_sizes = { SECTIONS, sizeof SECTIONS, sizes, 2 };
static const struct vbtf_names symbol_offsets = { SYMBOLS, sizeof SYMBOLS, offsets, 1 };

static void rewritten(void)
{
	struct vbtf_table table = opened_program();
	struct vbtf_error error;
	struct vbtf_asked asked;
	struct vbtf_type type;
	struct vbtf_kernel kernel = { 1u << VBTF_FEATURE_FUNC | 1u << VBTF_FEATURE_DATASEC, 0, 0, 0 };
	check(vbtf_rewrite(&table, NULL, NULL, &kernel, 7, &asked, &error) == VBTF_UNKNOWN_SECTION_SIZE);
	check(error.name_len == 7 && memcmp(error.name, "license", 7) == 0);
	check(vbtf_rewrite(&table, &section_sizes, NULL, &kernel, 7, &asked, &error) == VBTF_SYMBOL_NOT_FOUND);
	check(vbtf_type_by_id(&table, 3, &type, &error) == VBTF_OK && type.size_or_type == 0);
	check(vbtf_rewrite(&table, &section_sizes, &symbol_offsets, &kernel, 7, &asked, &error) == VBTF_OK);
	check(vbtf_type_by_id(&table, 3, &type, &error) == VBTF_OK && type.size_or_type == 13);
	check(vbtf_type_by_id(&table, 5, &type, &error) == VBTF_OK && type.info == 0x0c000000);
	check(asked.count == 3 && asked.features[0] == VBTF_FEATURE_DATASEC && asked.granted[0] == 1);
	check(asked.features[1] == VBTF_FEATURE_FUNC && asked.granted[1] == 1);
	check(asked.features[2] == VBTF_FEATURE_FUNC_GLOBAL && asked.granted[2] == 0);
	vbtf_close(&table);
	check(vbtf_rewrite(&table, NULL, NULL, &kernel, 7, &asked, &error) == VBTF_CLOSED);
}

static void denied(void)
{
	static const struct vbtf_named outside = { 10, 5, 4 };
	static const struct vbtf_names unreadable = { SECTIONS, 14, &outside, 1 };
	struct vbtf_table table = opened_program();
	struct vbtf_error error;
	struct vbtf_asked asked;
	struct vbtf_type type;
	struct vbtf_kernel none = { 0, 0, 0, 0 };
	check(vbtf_rewrite(&table, &unreadable, NULL, &none, 7, &asked, &error) == VBTF_BAD_ARGUMENT);
	check(vbtf_rewrite(&table, NULL, NULL, &none, 7, &asked, &error) == VBTF_OK);
	check(vbtf_type_by_id(&table, 3, &type, &error) == VBTF_OK && type.kind == VBTF_KIND_STRUCT);
	check(vbtf_type_by_id(&table, 4, &type, &error) == VBTF_OK && type.kind == VBTF_KIND_ENUM);
	check(asked.count == 2 && asked.granted[0] == 0 && asked.granted[1] == 0);
	vbtf_close(&table);
}

#define AN_ERROR(number, id, offset, len, section_len) { number, id, offset, len, section_len, 0, { 0 } }
#define NAMED_ERROR(number, name) { number, 0, 0, 0, 0, sizeof name - 1, name }

/* The texts of errors, as crates/btf_plain/src/error.rt declares them. */
static const struct {
	struct vbtf_error error;
	const char *text;
} described[] = {
	{ AN_ERROR(1, 0, 0, 0, 0), "error parsing BTF header" },
	{ AN_ERROR(2, 0, 0, 0, 0), "invalid BTF type info segment" },
	{ AN_ERROR(4, 20, 0, 0, 0), "invalid BTF type kind `20`" },
	{ AN_ERROR(6, 0, 4294967295u, 0, 0), "invalid BTF string offset: 4294967295" },
	{ AN_ERROR(7, 0, 8, 12, 16), "invalid BTF info, offset: 8 len: 12 section_len: 16" },
	{ AN_ERROR(9, 4294967295u, 0, 0, 0), "unknown BTF type id `4294967295`" },
	{ AN_ERROR(10, 1, 0, 0, 0), "unexpected BTF type id `1`" },
	{ NAMED_ERROR(11, "pair"), "unknown BTF type `pair`" },
	{ AN_ERROR(12, 3, 0, 0, 0), "maximum depth reached resolving BTF type" },
	{ NAMED_ERROR(13, "pair"), "Offset not found for symbol `pair`" },
	{ AN_ERROR(14, 0, 0, 0, 0), "BTF type that is not VAR was found in DATASEC" },
	{ NAMED_ERROR(15, "pair"), "Unable to determine the size of section `pair`" },
	{ AN_ERROR(20, 0, 0, 0, 0), "out of memory" },
};

/* The texts of statuses that are no errors of the library. */
static const struct {
	uint32_t status;
	const char *text;
} undescribed[] = {
	{ VBTF_OK, "no error" },          { VBTF_NO_ROOM, "buffer too short" },
	{ VBTF_CLOSED, "not open" },      { VBTF_BAD_ARGUMENT, "invalid argument" },
	{ VBTF_NO_ITEM, "no such item" }, { 21, "unknown error" },
	{ 99, "unknown error" },          { VBTF_NOT_READ + 1, "unknown error" },
	{ VBTF_NOT_AN_OBJECT, "not an ELF object that is read here" },
	{ VBTF_NO_TABLE, "the object has no section .BTF" },
	{ VBTF_NOT_REPLACEABLE, "the bytes of the section .BTF cannot be replaced" },
	{ VBTF_RELOCATION_REFUSED, "a relocation has an error" },
	{ VBTF_SHARED_PLACE, "a section with relocations shares its place with another section" },
	{ VBTF_BAD_SECTION_NAME, "the name of a section of relocations cannot be read" },
	{ VBTF_NOT_READ, "the file cannot be read" },
};

/* A text in a buffer that is long enough, and in shorter ones. */
static void text_of(uint32_t status, const struct vbtf_error *error, const char *text)
{
	char out[VBTF_ERROR_ROOM];
	size_t len = strlen(text);
	check(strcmp(vbtf_error_text(status, error, out, sizeof out), text) == 0);
	check(strcmp(vbtf_error_text(status, error, out, len + 1), text) == 0);
	check(strncmp(vbtf_error_text(status, error, out, len), text, len - 1) == 0 && strlen(out) == len - 1);
	check(strcmp(vbtf_error_text(status, error, out, 1), "") == 0);
	check(strcmp(vbtf_error_text(status, error, NULL, 0), "") == 0);
}

static void error_texts(void)
{
	uint8_t out[VBTF_ERROR_ROOM];
	uint64_t needed = 0;
	for (size_t i = 0; i < sizeof described / sizeof *described; i++) {
		const struct vbtf_error *error = &described[i].error;
		size_t len = strlen(described[i].text);
		text_of(error->number, error, described[i].text);
		check(vbtf_raw_error_text(error, out, len - 1, &needed) == VBTF_NO_ROOM && needed == len);
		check(vbtf_raw_error_text(error, out, len, &needed) == VBTF_OK && needed == len);
		check(memcmp(out, described[i].text, len) == 0);
	}
	for (size_t i = 0; i < sizeof undescribed / sizeof *undescribed; i++) {
		const struct vbtf_error error = AN_ERROR(undescribed[i].status, 0, 0, 0, 0);
		text_of(error.number, &error, undescribed[i].text);
		check(vbtf_raw_error_text(&error, out, sizeof out, &needed) == VBTF_BAD_ARGUMENT);
	}
}

/* The texts of the errors of relocations, by their numbers. */
static void relocation_texts(void)
{
	static const char *const texts[] = {
		"the tables have different byte orders", "unknown relocation kind 7", "unknown BTF type 7",
		"invalid string offset 7", "maximum depth of types reached at 7", "type 7 has no name", "invalid access string",
		"an index of the access is out of range", "type 7 has no size", "a field begins past bit 4294967295",
		"the relocation needs a member", "no load of 8 bytes holds the bit-field",
		"type 7 cannot be the type of a bit-field", "a member of more than 8 bytes has no shift",
		"the path to a field is deeper than 64 levels", "candidates of the target give different values",
		"the instruction's offset is not a multiple of 8", "the instruction is outside the section",
		"the second slot of the instruction is outside the section", "the instruction has no immediate",
		"the instruction does not have the value of the local type", "the value does not fit in the immediate",
		"the value does not fit in the offset", "the size of the access is not the size of the local field",
		"the size of the target's field is not 1, 2, 4 or 8", "the instruction is no load of a 64-bit immediate",
		"the instruction cannot be patched", "the target has more than 256 candidates",
		"two types have more than 1048576 pairs of members", "out of memory",
	};
	for (uint32_t i = 0; i < sizeof texts / sizeof *texts; i++) {
		const struct vbtf_error error = AN_ERROR(VBTF_RELOCATION_REFUSED, i + 1, 0, 0, 7);
		text_of(error.number, &error, texts[i]);
	}
	const struct vbtf_error unknown = AN_ERROR(VBTF_RELOCATION_REFUSED, 31, 0, 0, 0);
	text_of(unknown.number, &unknown, "a relocation has an error");
}

/* The longest text of an error fits. */
static void longest_error_text(void)
{
	struct vbtf_table table = VBTF_TABLE_INIT;
	struct vbtf_error error;
	char name[300], out[VBTF_ERROR_ROOM];
	uint32_t id;
	memset(name, 'n', sizeof name);
	check(vbtf_new(&table, &error) == VBTF_OK);
	check(vbtf_find(&table, name, sizeof name, VBTF_KIND_INT, &id, &error) == VBTF_UNKNOWN_TYPE_NAME);
	check(error.name_len == 255);
	check(strlen(vbtf_error_text(error.number, &error, out, sizeof out)) == strlen("unknown BTF type ``") + 255);
	vbtf_close(&table);
}

int main(void)
{
	check(vbtf_version() == VBTF_VERSION);
	new_tables();
	undescribed_errors();
	orders();
	refused_bytes();
	rewritten();
	denied();
	error_texts();
	relocation_texts();
	longest_error_text();
	struct vbtf_table little = opened(VBTF_LITTLE), big = opened(VBTF_BIG);
	types(&little);
	texts(&big);
	names(&little);
	names(&big);
	all_names(&little);
	all_names(&big);
	looked_up(&little);
	looked_up_from(&little);
	looked_up_from(&big);
	order_is(&little, VBTF_LITTLE);
	order_is(&big, VBTF_BIG);
	walks(&big);
	comparisons(&little, &big);
	written(&little, VBTF_LITTLE);
	written(&big, VBTF_BIG);
	copies(VBTF_LITTLE);
	copies(VBTF_BIG);
	vbtf_close(&little);
	vbtf_close(&big);
	return counted("calls");
}
