/* .BTF.ext: opening and closing one, and the records of its sections. */
#include "table.h"

static struct vbtf_table opened_ext(uint32_t order)
{
	struct vbtf_table table = opened(VBTF_LITTLE);
	struct vbtf_error error;
	struct vbtf_ext_sizes ext;
	uint8_t bytes[EXT_LEN];
	ext_bytes(bytes, order);
	check(vbtf_ext(&table, &ext) == VBTF_CLOSED);
	check(vbtf_open_ext(&table, bytes, sizeof bytes, VBTF_BY_MAGIC, 7, &error) == VBTF_OK);
	check(vbtf_open_ext(&table, bytes, sizeof bytes, VBTF_BY_MAGIC, 7, &error) == VBTF_BAD_ARGUMENT);
	check(vbtf_ext(&table, &ext) == VBTF_OK && ext.func_size == 8 && ext.line_size == 16);
	check(ext.func_sections == 1 && ext.line_sections == 1 && ext.relocation_sections == 2);
	return table;
}

/* Bytes that are no .BTF.ext of the table: the changed word, its new value, and the error. */
static const struct {
	size_t len, at;
	uint32_t word, status;
	uint64_t offset, part_len, section_len;
} refused_exts[] = {
	{ 7, 8, 0, VBTF_INVALID_HEADER, 0, 0, 0 },
	{ 0, 8, 0, VBTF_INVALID_HEADER, 0, 0, 0 },
	{ EXT_LEN, 4, EXT_LEN + 1, VBTF_INVALID_HEADER, 0, 0, 0 },
	{ EXT_LEN, 12, 400, VBTF_INVALID_INFO, 32, 400, EXT_LEN },
	{ EXT_LEN, 32, 4, VBTF_INVALID_INFO, 32, 20, EXT_LEN },
	{ EXT_LEN, 40, 0, VBTF_INVALID_INFO, 8, 0, 16 },
	{ EXT_LEN, 36, 1000, VBTF_INVALID_STRING_OFFSET, 1000, 0, 0 },
};

static void refused_ext(void)
{
	struct vbtf_table table = opened(VBTF_LITTLE), closed = VBTF_TABLE_INIT;
	struct vbtf_error error;
	struct vbtf_ext_sizes ext;
	uint8_t bytes[EXT_LEN];
	for (size_t i = 0; i < sizeof refused_exts / sizeof *refused_exts; i++) {
		ext_bytes(bytes, VBTF_LITTLE);
		put(bytes + refused_exts[i].at, refused_exts[i].word, 4, VBTF_LITTLE);
		check(vbtf_open_ext(&table, bytes, refused_exts[i].len, VBTF_LITTLE, 7, &error) == refused_exts[i].status);
		check(error.number == refused_exts[i].status && error.offset == refused_exts[i].offset);
		check(error.len == refused_exts[i].part_len && error.section_len == refused_exts[i].section_len);
		check(vbtf_ext(&table, &ext) == VBTF_CLOSED);
	}
	ext_bytes(bytes, VBTF_LITTLE);
	check(vbtf_open_ext(&table, bytes, sizeof bytes, 3, 7, &error) == VBTF_BAD_ARGUMENT);
	check(vbtf_open_ext(&table, NULL, 0, VBTF_LITTLE, 7, &error) == VBTF_INVALID_HEADER);
	check(vbtf_open_ext(&closed, bytes, sizeof bytes, VBTF_LITTLE, 7, &error) == VBTF_CLOSED);
	vbtf_close_ext(&table);
	vbtf_close_ext(&closed);
	vbtf_close(&table);
}

static const struct vbtf_func_info functions[] = { { 0, 7 } };
static const struct vbtf_line_info lines[] = { { 0, 35, 1, 0x4409 }, { 1, 35, 5, 0x4812 }, { 5, 35, 10, 0x4c02 } };
static const struct vbtf_relocation relocations[] = { { 8, 4, 15, 0 }, { 24, 4, 15, 1 } };

/* The records of the section "run", in a buffer that is long enough, and in one that is a record too short. */
static void read_records(const struct vbtf_table *table)
{
	struct vbtf_error error;
	struct vbtf_func_info func[2];
	struct vbtf_line_info line[4];
	struct vbtf_relocation relocation[3];
	uint64_t needed = 9;
	check(vbtf_ext_func_info(table, "run", 3, NULL, 0, &needed, &error) == VBTF_NO_ROOM && needed == 1);
	check(vbtf_ext_func_info(table, "run", 3, func, 1, &needed, &error) == VBTF_OK && needed == 1);
	check(memcmp(func, functions, sizeof functions) == 0);
	memset(line, 0xaa, sizeof line);
	check(vbtf_ext_line_info(table, "run", 3, line, 2, &needed, &error) == VBTF_NO_ROOM && needed == 3);
	check(line[0].instruction == 0xaaaaaaaa);
	check(vbtf_ext_line_info(table, "run", 3, line, 3, &needed, &error) == VBTF_OK && needed == 3);
	check(memcmp(line, lines, sizeof lines) == 0 && line[3].instruction == 0xaaaaaaaa);
	check(vbtf_ext_relocations(table, "run", 3, relocation, 1, &needed, &error) == VBTF_NO_ROOM && needed == 2);
	check(vbtf_ext_relocations(table, "run", 3, relocation, 3, &needed, &error) == VBTF_OK && needed == 2);
	check(memcmp(relocation, relocations, sizeof relocations) == 0);
	check(vbtf_ext_relocations(table, "word", 4, relocation, 3, &needed, &error) == VBTF_OK && needed == 1);
	check(relocation[0].offset == 16 && relocation[0].kind == 12);
}

/* Sections without records, and invalid names. */
static void absent_records(const struct vbtf_table *table)
{
	struct vbtf_error error;
	struct vbtf_func_info func;
	struct vbtf_line_info line;
	struct vbtf_relocation relocation;
	uint8_t bytes[8];
	struct vbtf_table loan = vbtf_loan(table);
	uint64_t needed = 9;
	check(vbtf_ext_func_info(table, "word", 4, &func, 1, &needed, &error) == VBTF_OK && needed == 0);
	check(vbtf_ext_line_info(table, "", 0, NULL, 0, &needed, &error) == VBTF_OK && needed == 0);
	check(vbtf_ext_relocations(table, NULL, 0, NULL, 0, &needed, &error) == VBTF_OK && needed == 0);
	check(vbtf_ext_func_info(table, "\xff", 1, &func, 1, &needed, &error) == VBTF_BAD_ARGUMENT);
	check(vbtf_ext_line_info(table, "\xff", 1, &line, 1, &needed, &error) == VBTF_BAD_ARGUMENT);
	check(vbtf_ext_relocations(table, "\xff", 1, &relocation, 1, &needed, &error) == VBTF_BAD_ARGUMENT);
	for (uint32_t part = 2; part < 4; part++) {
		const uint8_t *run = (const uint8_t *)"run";
		uint32_t status = vbtf_lent_ext_records(&loan, part, run, 3, bytes, sizeof bytes, &needed, &error);
		check(status == VBTF_BAD_ARGUMENT);
	}
}

static void names_of_sections(const struct vbtf_table *table)
{
	static const struct {
		uint32_t part;
		size_t len;
		const char *names;
	} parts[] = {
		{ VBTF_PART_FUNC_INFO, 4, "run" }, { VBTF_PART_LINE_INFO, 4, "run" },
	};
	struct vbtf_error error;
	uint64_t needed = 9;
	char out[16];
	for (size_t i = 0; i < sizeof parts / sizeof *parts; i++) {
		check(vbtf_ext_names(table, parts[i].part, NULL, 0, &needed, &error) == VBTF_NO_ROOM);
		check(needed == parts[i].len);
		check(vbtf_ext_names(table, parts[i].part, out, sizeof out, &needed, &error) == VBTF_OK);
		check(needed == parts[i].len && memcmp(out, parts[i].names, parts[i].len) == 0);
	}
	check(vbtf_ext_names(table, 2, out, sizeof out, &needed, &error) == VBTF_BAD_ARGUMENT);
}

static void sections_of_relocations(const struct vbtf_table *table)
{
	static const char *const names[] = { "run", "word" };
	struct vbtf_error error;
	uint64_t needed;
	uint32_t offset = 0;
	char out[16];
	for (uint32_t i = 0; i < sizeof names / sizeof *names; i++) {
		check(vbtf_ext_section(table, i, &offset) == VBTF_OK);
		check(vbtf_text_at(table, offset, out, sizeof out, &needed, &error) == VBTF_OK);
		check(needed == strlen(names[i]) && memcmp(out, names[i], needed) == 0);
	}
	check(vbtf_ext_section(table, 2, &offset) == VBTF_NO_ITEM);
	check(vbtf_ext_section(table, UINT32_MAX, &offset) == VBTF_NO_ITEM);
}

/* Each call over a table that has no .BTF.ext open, or is closed. */
static void without_ext(const struct vbtf_table *table)
{
	struct vbtf_error error;
	struct vbtf_ext_sizes ext;
	uint64_t needed;
	uint32_t offset;
	check(vbtf_ext(table, &ext) == VBTF_CLOSED);
	check(vbtf_ext_names(table, VBTF_PART_LINE_INFO, NULL, 0, &needed, &error) == VBTF_CLOSED);
	check(vbtf_ext_section(table, 0, &offset) == VBTF_CLOSED);
	check(vbtf_ext_func_info(table, "run", 3, NULL, 0, &needed, &error) == VBTF_CLOSED);
	check(vbtf_ext_line_info(table, "run", 3, NULL, 0, &needed, &error) == VBTF_CLOSED);
	check(vbtf_ext_relocations(table, "run", 3, NULL, 0, &needed, &error) == VBTF_CLOSED);
}

static void ext_calls(void)
{
	static const struct vbtf_kernel all = { 0xff, 0, 0, 0 };
	for (uint32_t order = VBTF_LITTLE; order <= VBTF_BIG; order++) {
		struct vbtf_table table = opened_ext(order);
		struct vbtf_error error;
		struct vbtf_asked asked;
		uint64_t count = 0;
		check(vbtf_rewrite(&table, NULL, NULL, &all, 7, &asked, &error) == VBTF_OK);
		read_records(&table);
		absent_records(&table);
		names_of_sections(&table);
		sections_of_relocations(&table);
		check(vbtf_count(&table, &count) == VBTF_OK && count == TYPES);
		vbtf_close_ext(&table);
		without_ext(&table);
		vbtf_close(&table);
		without_ext(&table);
	}
	struct vbtf_table table = opened_ext(VBTF_LITTLE);
	vbtf_close(&table);
}

int main(void)
{
	refused_ext();
	ext_calls();
	return counted("ext");
}
