/*
 * Split tables over a base: split FOLDER, where FOLDER has base.btf, and for each module its table and the lines that
 * bpftool wrote of it.
 */
#include "file.h"

static struct vbtf_error error;

static struct file file_in(const char *folder, const char *name)
{
	char path[4096];
	snprintf(path, sizeof path, "%s/%s", folder, name);
	return read_file(path);
}

/* Whether a type is the one of a line of bpftool: `[id] KIND 'name' ...`. */
static bool is_listed(const struct vbtf_table *table, uint32_t id, const char *line)
{
	struct vbtf_type type;
	char name[256] = { 0 }, kind[32], wanted[400];
	uint64_t len = 0;
	check(vbtf_type_by_id(table, id, &type, &error) == VBTF_OK);
	check(vbtf_text_at(table, type.name_offset, name, sizeof name - 1, &len, &error) == VBTF_OK);
	snprintf(kind, sizeof kind, "%s", vbtf_kind_text(type.kind) + 1);
	kind[strlen(kind) - 1] = 0;
	snprintf(wanted, sizeof wanted, "[%u] %s '%s'", id, kind, len ? name : "(anon)");
	return strncmp(line, wanted, strlen(wanted)) == 0;
}

/* The types above the base are those that bpftool lists, in the same order. */
static void listed(const struct vbtf_table *table, uint32_t base_types, struct file lines)
{
	char *text = calloc(1, lines.len + 1);
	uint64_t count = 0;
	uint32_t id = base_types;
	memcpy(text, lines.bytes, lines.len);
	for (char *line = strtok(text, "\n"); line; line = strtok(NULL, "\n"))
		if (line[0] == '[')
			check(is_listed(table, id++, line));
	check(vbtf_count(table, &count) == VBTF_OK && count == id && id > base_types);
	free(text);
}

/* The types above the base are written as they were read; a shorter buffer is unchanged. */
static void written_back(const struct vbtf_table *table, uint32_t types, uint32_t strings, struct file blob)
{
	uint8_t *out = calloc(1, blob.len);
	uint64_t needed = 0;
	check(vbtf_split_bytes(table, types, strings, NULL, 0, &needed, &error) == VBTF_NO_ROOM && needed == blob.len);
	check(vbtf_split_bytes(table, types, strings, out, blob.len - 1, &needed, &error) == VBTF_NO_ROOM && out[0] == 0);
	check(vbtf_split_bytes(table, types, strings, out, blob.len, &needed, &error) == VBTF_OK && needed == blob.len);
	check(memcmp(out, blob.bytes, blob.len) == 0);
	memset(&error, 1, sizeof error);
	check(vbtf_split_bytes(table, 0, strings, out, blob.len, &needed, &error) == VBTF_UNKNOWN_TYPE && error.id == 0);
	check(vbtf_split_bytes(table, 100000, strings, out, blob.len, &needed, &error) == VBTF_UNKNOWN_TYPE);
	check(error.id == 100000);
	check(vbtf_split_bytes(table, types, 1000000, out, blob.len, &needed, NULL) == VBTF_INVALID_STRING_OFFSET);
	check(memcmp(out, blob.bytes, blob.len) == 0);
	free(out);
}

/* A table that is not a split table over the base, and arguments that are refused: the table stays as it is. */
static void refused(const struct vbtf_table *base, struct file blob)
{
	struct vbtf_table table = VBTF_TABLE_INIT, closed = VBTF_TABLE_INIT;
	uint64_t needed = 0;
	uint32_t len = 7;
	for (size_t short_by = 1; short_by <= blob.len; short_by++) {
		uint32_t status = vbtf_parse_over(&table, base, blob.bytes, blob.len - short_by, VBTF_LITTLE, &error);
		check(status == VBTF_INVALID_HEADER && error.number == status && table.state == 0);
	}
	check(vbtf_parse_over(&table, base, NULL, 0, VBTF_BY_MAGIC, NULL) == VBTF_INVALID_HEADER);
	check(vbtf_parse_over(&table, base, blob.bytes, blob.len, 3, &error) == VBTF_BAD_ARGUMENT && table.state == 0);
	check(vbtf_parse_over(&table, &closed, blob.bytes, blob.len, VBTF_LITTLE, &error) == VBTF_CLOSED);
	check(table.state == 0 && vbtf_string_len(&closed, &len) == VBTF_CLOSED && len == 7);
	check(vbtf_split_bytes(&closed, 1, 0, NULL, 0, &needed, &error) == VBTF_CLOSED);
	check(vbtf_parse_over(&table, base, blob.bytes, blob.len, VBTF_BY_MAGIC, &error) == VBTF_OK);
	check(vbtf_parse_over(&table, base, blob.bytes, blob.len, VBTF_LITTLE, &error) == VBTF_BAD_ARGUMENT);
	check(table.state == 1);
	vbtf_close(&table);
}

/* One module over a base of its own, which is closed before the table is read. */
static void module(const char *folder, const char *name, struct file base_bytes)
{
	struct vbtf_table base = VBTF_TABLE_INIT, table = VBTF_TABLE_INIT;
	char name_of_lines[64];
	struct file blob = file_in(folder, name), lines;
	uint64_t types = 0;
	uint32_t strings = 0;
	snprintf(name_of_lines, sizeof name_of_lines, "%s.bpftool", name);
	lines = file_in(folder, name_of_lines);
	check(vbtf_parse(&base, base_bytes.bytes, base_bytes.len, VBTF_BY_MAGIC, &error) == VBTF_OK);
	check(vbtf_count(&base, &types) == VBTF_OK);
	check(vbtf_string_len(&base, &strings) == VBTF_OK && strings > 0 && strings < base_bytes.len);
	check(vbtf_parse_over(&table, &base, blob.bytes, blob.len, VBTF_LITTLE, &error) == VBTF_OK);
	refused(&base, blob);
	vbtf_close(&base);
	listed(&table, (uint32_t)types, lines);
	written_back(&table, (uint32_t)types, strings, blob);
	vbtf_close(&table);
	free(lines.bytes);
	free(blob.bytes);
}

/* Modules one after another over one table, which is the base again after each. */
static void in_place(const char *folder, struct file base_bytes)
{
	struct vbtf_table table = VBTF_TABLE_INIT, closed = VBTF_TABLE_INIT;
	uint8_t *out = calloc(1, base_bytes.len);
	uint64_t types = 0, needed = 0;
	uint32_t strings = 0;
	check(vbtf_append_split(&closed, base_bytes.bytes, base_bytes.len, VBTF_LITTLE, &error) == VBTF_CLOSED);
	check(vbtf_truncate(&closed, 1, 0, &error) == VBTF_CLOSED);
	check(vbtf_parse(&table, base_bytes.bytes, base_bytes.len, VBTF_BY_MAGIC, &error) == VBTF_OK);
	check(vbtf_count(&table, &types) == VBTF_OK && vbtf_string_len(&table, &strings) == VBTF_OK);
	for (char name[] = "module1.btf"; name[6] <= '3'; name[6]++) {
		char name_of_lines[64];
		struct file blob = file_in(folder, name), lines;
		snprintf(name_of_lines, sizeof name_of_lines, "%s.bpftool", name);
		lines = file_in(folder, name_of_lines);
		check(vbtf_append_split(&table, blob.bytes, blob.len, 3, &error) == VBTF_BAD_ARGUMENT);
		check(vbtf_append_split(&table, blob.bytes, blob.len - 1, VBTF_LITTLE, &error) == VBTF_INVALID_HEADER);
		check(vbtf_target_open(&table, &error) == VBTF_OK);
		check(vbtf_append_split(&table, blob.bytes, blob.len, VBTF_BY_MAGIC, &error) == VBTF_OK);
		check(vbtf_target_open(&table, &error) == VBTF_OK);
		listed(&table, (uint32_t)types, lines);
		written_back(&table, (uint32_t)types, strings, blob);
		check(vbtf_truncate(&table, 0, strings, &error) == VBTF_UNKNOWN_TYPE && error.id == 0);
		check(vbtf_truncate(&table, 1, 1000000, NULL) == VBTF_INVALID_STRING_OFFSET);
		check(vbtf_truncate(&table, (uint32_t)types, strings, &error) == VBTF_OK);
		check(vbtf_bytes(&table, out, base_bytes.len, &needed, &error) == VBTF_OK && needed == base_bytes.len);
		check(memcmp(out, base_bytes.bytes, base_bytes.len) == 0);
		free(lines.bytes);
		free(blob.bytes);
	}
	vbtf_close(&table);
	free(out);
}

int main(int argc, char **argv)
{
	struct file base;
	if (argc != 2)
		return 1;
	base = file_in(argv[1], "base.btf");
	module(argv[1], "module1.btf", base);
	module(argv[1], "module2.btf", base);
	module(argv[1], "module3.btf", base);
	in_place(argv[1], base);
	free(base.bytes);
	return counted("split");
}
