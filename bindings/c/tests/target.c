/* The index of a table: opening and closing it, and relocations one by one. */
#include "table.h"

static struct vbtf_error error;

/* The string offsets of the access strings "0:1", "0", "1" and "x" in a table of this order. */
struct access {
	uint32_t member, type, variant, bad;
};

static struct vbtf_table with_access(uint32_t order, struct access *access)
{
	struct vbtf_table table = opened(order);
	check(vbtf_add_string(&table, "0:1", 3, &access->member, &error) == VBTF_OK);
	check(vbtf_add_string(&table, "0", 1, &access->type, &error) == VBTF_OK);
	check(vbtf_add_string(&table, "1", 1, &access->variant, &error) == VBTF_OK);
	check(vbtf_add_string(&table, "x", 1, &access->bad, &error) == VBTF_OK);
	return table;
}

/* The status of a relocation of `right` in `pair`, the second member of type 4. */
static uint32_t status_for(const struct vbtf_table *local, const struct vbtf_table *target, uint32_t access)
{
	struct vbtf_relocation relocation = { 0, 4, access, 0 };
	struct vbtf_relocated relocated = { 9, 9, 9, 9, false, false, false };
	uint32_t status = vbtf_relocate(local, target, &relocation, &relocated, &error);
	check(relocated.value == (status == VBTF_OK ? 4 : 9));
	return status;
}

/* A table has at most one index. Each change of the table closes it, also a change that fails. */
static void opening(void)
{
	static const struct vbtf_kernel all = { 0xff, 0, 0, 0 };
	struct vbtf_table table, copy = VBTF_TABLE_INIT, closed = VBTF_TABLE_INIT;
	struct access access;
	struct vbtf_asked asked;
	uint32_t id;
	table = with_access(VBTF_LITTLE, &access);
	check(vbtf_target_open(&closed, &error) == VBTF_CLOSED && closed.state == 0);
	vbtf_target_close(&closed);
	vbtf_target_close(&table);
	for (unsigned change = 0; change < 5; change++) {
		check(status_for(&table, &table, access.member) == VBTF_CLOSED);
		check(vbtf_target_open(&table, &error) == VBTF_OK);
		check(vbtf_target_open(&table, &error) == VBTF_BAD_ARGUMENT && table.state == 1);
		check(status_for(&table, &table, access.member) == VBTF_OK);
		check(status_for(&closed, &table, access.member) == VBTF_CLOSED);
		check(status_for(&table, &closed, access.member) == VBTF_CLOSED);
		if (change == 0)
			vbtf_target_close(&table);
		else if (change == 1)
			check(vbtf_add_string(&table, "new", 3, &id, NULL) == VBTF_OK);
		else if (change == 2)
			check(vbtf_add_type(&table, "\0\0\0\0\0\0\0\2\1\0\0\0", 12, VBTF_LITTLE, &id, NULL) == VBTF_OK);
		else if (change == 3)
			check(vbtf_add_type(&table, NULL, 0, VBTF_LITTLE, &id, NULL) == VBTF_INVALID_TYPE_INFO);
		else
			check(vbtf_rewrite(&table, NULL, NULL, &all, 7, &asked, NULL) == VBTF_OK);
	}
	check(vbtf_target_open(&table, &error) == VBTF_OK);
	check(vbtf_clone(&table, &copy, &error) == VBTF_OK);
	check(status_for(&table, &copy, access.member) == VBTF_CLOSED);
	check(status_for(&copy, &table, access.member) == VBTF_OK);
	vbtf_close(&copy);
	vbtf_close(&table);
}

/* Types by their names in the index: the first of a name and a kind. */
static void finding(void)
{
	struct vbtf_table table = opened(VBTF_LITTLE);
	uint32_t id = 99;
	check(vbtf_index_find(&table, "int", 3, VBTF_KIND_INT, &id, &error) == VBTF_CLOSED && id == 99);
	check(vbtf_index_open(&table, &error) == VBTF_OK && vbtf_index_open(&table, &error) == VBTF_BAD_ARGUMENT);
	check(vbtf_index_find(&table, "int", 3, VBTF_KIND_INT, &id, &error) == VBTF_OK && id == 1);
	check(vbtf_index_find(&table, "word", 4, VBTF_KIND_ENUM, &id, &error) == VBTF_OK && id == 11);
	check(vbtf_index_find(&table, "word", 4, VBTF_KIND_TYPEDEF, &id, NULL) == VBTF_OK && id == 3);
	check(vbtf_index_find(&table, "pair", 4, VBTF_KIND_UNION, &id, &error) == VBTF_UNKNOWN_TYPE_NAME && id == 3);
	check(error.name_len == 4 && memcmp(error.name, "pair", 4) == 0);
	check(vbtf_index_find(&table, "wor", 3, VBTF_KIND_ENUM, &id, &error) == VBTF_UNKNOWN_TYPE_NAME);
	check(vbtf_index_find(&table, "word", 4, VBTF_KIND_ENUM64, &id, &error) == VBTF_UNKNOWN_TYPE_NAME);
	check(vbtf_index_find(&table, "", 0, VBTF_KIND_PTR, &id, &error) == VBTF_BAD_ARGUMENT);
	check(vbtf_index_find(&table, "caf\xff", 4, VBTF_KIND_FWD, &id, &error) == VBTF_BAD_ARGUMENT);
	check(vbtf_index_find(&table, "int", 3, 20, &id, &error) == VBTF_BAD_ARGUMENT && id == 3);
	vbtf_index_close(&table);
	check(vbtf_index_find(&table, "int", 3, VBTF_KIND_INT, &id, &error) == VBTF_CLOSED);
	vbtf_close(&table);
}

/* The value of each kind for the table itself, by its records, in the order of the kinds' numbers. */
static void kinds(void)
{
	struct access access;
	struct vbtf_table table = with_access(VBTF_LITTLE, &access);
	const struct vbtf_relocation relocations[] = {
		{ 0, 4, access.member, 0 },   /* `right` begins at byte 4 */
		{ 0, 4, access.member, 1 },   /* and has 4 bytes */
		{ 0, 4, access.member, 2 },
		{ 0, 4, access.member, 3 },   /* the INT is signed */
		{ 0, 4, access.member, 4 },   /* bits 0 to 31 of the register */
		{ 0, 4, access.member, 5 },
		{ 0, 4, access.type, 6 },
		{ 0, 4, access.type, 7 },
		{ 0, 4, access.type, 8 },
		{ 0, 4, access.type, 9 },     /* `pair` has 8 bytes */
		{ 0, 11, access.variant, 10 },
		{ 0, 11, access.variant, 11 }, /* `int` of the ENUM is 9 */
		{ 0, 4, access.type, 12 },
	};
	static const uint64_t values[] = { 4, 4, 1, 1, 32, 32, 4, 4, 1, 8, 1, 9, 1 };
	check(vbtf_target_open(&table, &error) == VBTF_OK);
	for (uint32_t kind = 0; kind < sizeof values / sizeof *values; kind++) {
		struct vbtf_relocated relocated = { 0, 0, 0, 0, true, false, false };
		check(vbtf_relocate(&table, &table, &relocations[kind], &relocated, NULL) == VBTF_OK);
		check(relocated.value == values[kind] && relocated.expected == values[kind]);
		check(!relocated.is_poisoned && relocated.is_adjustable);
		check(relocated.validates == (kind != 6 && kind != 7));
		check(relocated.local_size == relocated.target_size && (relocated.local_size == 4) == (kind == 0));
	}
	vbtf_close(&table);
}

/* In a table without types an offset poisons, and whether a field exists is 0. */
static void missing(void)
{
	struct access access;
	struct vbtf_table table = with_access(VBTF_LITTLE, &access), empty = VBTF_TABLE_INIT;
	struct vbtf_relocation offset = { 0, 4, access.member, 0 }, exists = { 0, 4, access.member, 2 };
	struct vbtf_relocated relocated;
	check(vbtf_new(&empty, &error) == VBTF_OK && vbtf_target_open(&empty, &error) == VBTF_OK);
	check(vbtf_relocate(&table, &empty, &offset, &relocated, &error) == VBTF_OK);
	check(relocated.is_poisoned && relocated.expected == 4 && relocated.local_size == 4 && relocated.target_size == 0);
	check(vbtf_relocate(&table, &empty, &exists, &relocated, &error) == VBTF_OK);
	check(!relocated.is_poisoned && relocated.expected == 1 && relocated.value == 0);
	vbtf_close(&empty);
	vbtf_close(&table);
}

/* Relocations with an error have the error's number, and write nothing else. */
static void refused(void)
{
	struct access access, other;
	struct vbtf_table table = with_access(VBTF_LITTLE, &access), big = with_access(VBTF_BIG, &other);
	const struct {
		struct vbtf_relocation relocation;
		uint32_t id, field;
		const char *text;
	} rows[] = {
		{ { 0, 4, access.member, 13 }, 2, 13, "unknown relocation kind 13" },
		{ { 0, 99, access.member, 0 }, 3, 99, "unknown BTF type 99" },
		{ { 0, 4, 100000, 0 }, 4, 100000, "invalid string offset 100000" },
		{ { 0, 5, access.type, 7 }, 6, 5, "type 5 has no name" },
		{ { 0, 4, access.bad, 0 }, 7, 0, "invalid access string" },
	};
	char text[VBTF_ERROR_ROOM];
	check(vbtf_target_open(&table, &error) == VBTF_OK);
	for (size_t i = 0; i < sizeof rows / sizeof *rows; i++) {
		struct vbtf_relocated relocated = { 9, 9, 9, 9, true, true, true };
		memset(&error, 1, sizeof error);
		check(vbtf_relocate(&table, &table, &rows[i].relocation, &relocated, &error) == VBTF_RELOCATION_REFUSED);
		check(error.number == VBTF_RELOCATION_REFUSED && error.id == rows[i].id);
		check(error.offset == 0 && error.len == 0 && error.section_len == rows[i].field && error.name_len == 0);
		check(strcmp(vbtf_error_text(error.number, &error, text, sizeof text), rows[i].text) == 0);
		check(relocated.expected == 9 && relocated.value == 9 && relocated.local_size == 9);
	}
	check(status_for(&big, &table, other.member) == VBTF_RELOCATION_REFUSED && error.id == 1);
	check(strcmp(vbtf_error_text(error.number, &error, text, sizeof text), "the tables have different byte orders")
	      == 0);
	check(strcmp(vbtf_error_text(error.number, NULL, text, sizeof text), "a relocation has an error") == 0);
	vbtf_close(&big);
	vbtf_close(&table);
}

int main(void)
{
	opening();
	finding();
	kinds();
	missing();
	refused();
	return counted("target");
}
