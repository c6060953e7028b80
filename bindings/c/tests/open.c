/*
 * Opens the tables of files: open OBJECT TABLE MISSING.., where OBJECT is an ELF object with sections .BTF and
 * .BTF.ext, TABLE has the bytes of a table, and each MISSING is a file without a table. Writes the number of types of
 * both. OBJECT.header has bpftool's C header of the object.
 */
#include "file.h"
#include "vbtf_open.h"

static struct vbtf_error error;

/* The bytes of a section are those that the proved call finds, and a name that no section has finds nothing. */
static void sections(struct file object)
{
	struct vbtf_section section = { 1, 2, 3 };
	check(vbtf_section(object.bytes, object.len, ".nothing", 8, &section, &error) == VBTF_NO_TABLE);
	check(section.offset == 1 && section.len == 2 && section.order == 3);
	check(vbtf_section(object.bytes, object.len - 1, ".BTF", 4, &section, &error) == VBTF_NOT_AN_OBJECT && error.id);
	check(vbtf_section(object.bytes, object.len, ".BTF", 4, &section, NULL) == VBTF_OK);
	check(section.offset + section.len <= object.len && section.order <= VBTF_BIG);
	check(object.bytes[section.offset] == (section.order == VBTF_BIG ? 0xeb : 0x9f));
}

/* The C header of a table is the text of a file, and a buffer that is shorter by a byte stays as it is. */
static void header(const struct vbtf_table *table, const char *object)
{
	char path[4096];
	uint64_t needed = 0;
	struct file text;
	snprintf(path, sizeof path, "%s.header", object);
	text = read_file(path);
	check(vbtf_header(table, NULL, 0, &needed, &error) == VBTF_NO_ROOM && needed == text.len);
	char *out = calloc(1, text.len + 1);
	check(vbtf_header(table, out, text.len - 1, &needed, &error) == VBTF_NO_ROOM && out[0] == 0);
	check(vbtf_header(table, out, text.len, &needed, NULL) == VBTF_OK && memcmp(out, text.bytes, text.len) == 0);
	free(out);
	free(text.bytes);
}

int main(int argc, char **argv)
{
	struct vbtf_table table = VBTF_TABLE_INIT, base = VBTF_TABLE_INIT;
	struct vbtf_ext_sizes sizes;
	uint64_t count = 0, others = 0;
	struct file object;
	if (argc < 3)
		return 1;
	object = read_file(argv[1]);
	sections(object);
	check(vbtf_open_path(&table, NULL, argv[1], &error) == VBTF_OK && vbtf_count(&table, &count) == VBTF_OK);
	check(vbtf_ext(&table, &sizes) == VBTF_OK && sizes.func_sections > 0);
	header(&table, argv[1]);
	check(vbtf_open_path(&table, NULL, argv[1], &error) == VBTF_BAD_ARGUMENT && table.state == 1);
	vbtf_close(&table);
	check(vbtf_open_path(&base, NULL, argv[2], &error) == VBTF_OK && vbtf_count(&base, &others) == VBTF_OK);
	check(vbtf_ext(&base, &sizes) == VBTF_CLOSED);
	/* Over a base, the object's types follow those of the base. */
	check(vbtf_open_bytes(&table, &base, object.bytes, object.len, &error) != VBTF_CLOSED);
	vbtf_close(&table);
	vbtf_close(&base);
	check(vbtf_open_path(&table, NULL, "/nothing/there", &error) == VBTF_NOT_READ && table.state == 0);
	for (int at = 3; at < argc; at++)
		check(vbtf_open_path(&table, NULL, argv[at], &error) != VBTF_OK && table.state == 0);
	free(object.bytes);
	printf("%u %u\n", (unsigned)count, (unsigned)others);
	return counted("open");
}
