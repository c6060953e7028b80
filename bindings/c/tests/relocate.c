/*
 * An object that is relocated for a table: relocate OBJECT TABLE. Writes the code of its sections of code, in the order
 * of the object, as `name:hexadecimal`. The last line has the numbers of the tests. Link as heap.h says.
 */
#include "file.h"
#include "heap.h"

#include <elf.h>

#define SEED 7

static struct vbtf_error error;

/* Relocates an object for a table into a new buffer. */
static struct file relocated(const struct file *object, const struct vbtf_table *target, uint32_t options,
                             struct vbtf_tally *tally)
{
	struct file file = { malloc(object->len), object->len };
	uint64_t needed = 0;
	check(vbtf_relocate_object(object->bytes, object->len, target, options, SEED, file.bytes, file.len, &needed, tally,
	                           &error) == VBTF_OK);
	check(needed == object->len);
	return file;
}

/* Writes the code of the executable sections that are not empty, of an object of 64 bits in this machine's order. */
static void print_code(const struct file *file)
{
	const Elf64_Ehdr *header = (const Elf64_Ehdr *)file->bytes;
	const Elf64_Shdr *sections = (const Elf64_Shdr *)(file->bytes + header->e_shoff);
	const char *names = (const char *)file->bytes + sections[header->e_shstrndx].sh_offset;
	for (unsigned i = 0; i < header->e_shnum; i++) {
		if (!(sections[i].sh_flags & SHF_EXECINSTR) || sections[i].sh_size == 0)
			continue;
		printf("%s:", names + sections[i].sh_name);
		for (uint64_t at = 0; at < sections[i].sh_size; at++)
			printf("%02x", file->bytes[sections[i].sh_offset + at]);
		printf("\n");
	}
}

/* The bytes of the section of a name, of an object of 64 bits in this machine's order. */
static struct file section(const struct file *file, const char *name)
{
	const Elf64_Ehdr *header = (const Elf64_Ehdr *)file->bytes;
	const Elf64_Shdr *sections = (const Elf64_Shdr *)(file->bytes + header->e_shoff);
	const char *names = (const char *)file->bytes + sections[header->e_shstrndx].sh_offset;
	struct file found = { NULL, 0 };
	for (unsigned i = 0; i < header->e_shnum; i++)
		if (strcmp(names + sections[i].sh_name, name) == 0)
			found = (struct file){ file->bytes + sections[i].sh_offset, sections[i].sh_size };
	check(found.bytes != NULL);
	return found;
}

/* What the compiler wrote into the instruction of each record of the object, and what libbpf writes. */
static const struct {
	const char *section;
	uint32_t offset;
	uint64_t expected, value;
} records[] = {
	{ "tc", 0, 4, 8 }, { "xdp", 0, 8, 16 }, { "xdp", 8, 20, 40 }, { "xdp", 24, 1, 0 },
};

#define RECORDS (sizeof records / sizeof *records)

/* The records of the object one by one, for a target whose index is open. */
static void one_by_one(const struct file *object, const struct vbtf_table *target)
{
	struct file btf = section(object, ".BTF"), ext = section(object, ".BTF.ext");
	struct vbtf_table local = VBTF_TABLE_INIT;
	struct vbtf_relocation relocations[RECORDS];
	uint64_t tc = 0, xdp = 0;
	check(vbtf_parse(&local, btf.bytes, btf.len, VBTF_LITTLE, &error) == VBTF_OK);
	check(vbtf_open_ext(&local, ext.bytes, ext.len, VBTF_LITTLE, SEED, &error) == VBTF_OK);
	check(vbtf_ext_relocations(&local, "tc", 2, relocations, RECORDS, &tc, &error) == VBTF_OK && tc == 1);
	check(vbtf_ext_relocations(&local, "xdp", 3, relocations + 1, RECORDS - 1, &xdp, &error) == VBTF_OK && xdp == 3);
	for (size_t i = 0; i < RECORDS; i++) {
		struct vbtf_relocated relocated;
		check(relocations[i].offset == records[i].offset);
		check(vbtf_relocate(&local, target, &relocations[i], &relocated, &error) == VBTF_OK);
		check(relocated.expected == records[i].expected && relocated.value == records[i].value);
		check(relocated.validates && !relocated.is_poisoned && relocated.is_adjustable);
	}
	vbtf_close(&local);
}

/* The object for the table, and for a table without types, in which no field exists. */
static struct file resolved(const struct file *object, const struct vbtf_table *target)
{
	struct vbtf_tally tally, poisoned;
	struct vbtf_table empty = VBTF_TABLE_INIT;
	struct file file = relocated(object, target, 0, &tally);
	struct file fresh = relocated(object, target, VBTF_FRESH_CANDIDATES, NULL), none;
	check(tally.records == 4 && tally.poisoned == 0 && tally.refused == 0);
	check(memcmp(file.bytes, object->bytes, file.len) != 0 && memcmp(file.bytes, fresh.bytes, file.len) == 0);
	check(vbtf_new(&empty, &error) == VBTF_OK);
	none = relocated(object, &empty, 0, &poisoned);
	/* A record that asks whether a field exists writes 0. */
	check(poisoned.records == 4 && poisoned.poisoned == 3 && poisoned.refused == 0);
	vbtf_close(&empty);
	free(fresh.bytes);
	free(none.bytes);
	return file;
}

/* A second relocation finds other values than those of the object's own table. */
static void repeated(const struct file *file, const struct vbtf_table *target)
{
	struct vbtf_tally tally = { 9, 9, 9 };
	struct file again;
	char text[VBTF_ERROR_ROOM];
	uint8_t byte = 1;
	uint64_t needed = 0;
	check(vbtf_relocate_object(file->bytes, file->len, target, 0, SEED, &byte, 1, &needed, &tally, &error)
	      == VBTF_RELOCATION_REFUSED);
	check(error.number == VBTF_RELOCATION_REFUSED && error.id == 21 && error.offset != 0 && error.len == 0);
	check(strcmp(vbtf_error_text(error.number, &error, text, sizeof text),
	             "the instruction does not have the value of the local type") == 0);
	check(byte == 1 && tally.records == 9 && tally.poisoned == 9 && tally.refused == 9);
	again = relocated(file, target, VBTF_KEEP_REFUSED, &tally);
	check(tally.records == 4 && tally.poisoned == 0 && tally.refused == 4);
	check(memcmp(again.bytes, file->bytes, file->len) == 0);
	free(again.bytes);
}

/* The status for these bytes, with a buffer of one byte, which stays. */
static uint32_t status_of(const void *bytes, size_t len, const struct vbtf_table *target, uint32_t options)
{
	struct vbtf_tally tally = { 9, 9, 9 };
	uint8_t byte = 1;
	uint64_t needed = 0;
	uint32_t status = vbtf_relocate_object(bytes, len, target, options, SEED, &byte, 1, &needed, &tally, &error);
	check(byte == 1 && (tally.records == 9) == (status != VBTF_NO_ROOM));
	check(status != VBTF_NO_ROOM || needed == len);
	return status;
}

static void refused(const struct file *object, const struct vbtf_table *target)
{
	const struct vbtf_table closed = VBTF_TABLE_INIT;
	uint8_t *bytes = malloc(object->len);
	memcpy(bytes, object->bytes, object->len);
	check(status_of(bytes, object->len, target, 3) == VBTF_NO_ROOM);
	check(status_of(bytes, object->len, target, 4) == VBTF_BAD_ARGUMENT);
	check(status_of(bytes, object->len, &closed, 0) == VBTF_CLOSED);
	check(status_of(bytes, object->len, &closed, 4) == VBTF_CLOSED);
	check(status_of(NULL, 0, target, 0) == VBTF_NOT_AN_OBJECT && error.id == 1);
	check(status_of(bytes, object->len - 1, target, 0) == VBTF_NOT_AN_OBJECT && error.id == 6);
	for (size_t i = 0; i + 5 <= object->len; i++)
		if (memcmp(bytes + i, ".BTF", 5) == 0)
			bytes[i] = '_';
	check(status_of(bytes, object->len, target, 0) == VBTF_NO_TABLE);
	free(bytes);
}

/* The object with another byte at each place: the call returns a status that the header names, and an error writes nothing. */
static void other_bytes(const struct file *object, const struct vbtf_table *target)
{
	uint8_t *out = malloc(object->len);
	for (size_t at = 0; at < object->len; at++) {
		struct vbtf_tally tally = { 9, 9, 9 };
		uint8_t byte = object->bytes[at];
		uint64_t needed = 0;
		uint32_t status;
		object->bytes[at] = (uint8_t)(byte + 1 + at % 255);
		memset(out, 1, object->len);
		status = vbtf_relocate_object(object->bytes, object->len, target, 0, SEED, out, object->len, &needed, &tally,
		                              &error);
		object->bytes[at] = byte;
		check(status == VBTF_OK ? needed == object->len : out[0] == 1 && tally.records == 9 && error.number == status);
		check(status < VBTF_OUT_OF_MEMORY || status == VBTF_NOT_AN_OBJECT || status == VBTF_NO_TABLE
		      || (status >= VBTF_RELOCATION_REFUSED && status <= VBTF_BAD_SECTION_NAME));
	}
	free(out);
}

/* The nth allocation fails, for each n: the buffer, the tally and the table are unchanged, and nothing leaks. */
static void without_memory(const struct file *object, const struct vbtf_table *target)
{
	struct vbtf_tally tally;
	uint8_t *out = malloc(object->len);
	unsigned long n = 0;
	uint32_t status;
	do {
		uint64_t needed = 0;
		long before = live;
		tally.records = 9;
		memset(out, 1, object->len);
		requests = 0;
		failing = ++n;
		status = vbtf_relocate_object(object->bytes, object->len, target, 0, SEED, out, object->len, &needed, &tally,
		                              &error);
		failing = 0;
		check(live == before && target->state == 1);
		check(status == (requests >= n ? VBTF_OUT_OF_MEMORY : VBTF_OK));
		check(status == VBTF_OK || (tally.records == 9 && out[0] == 1 && error.number == VBTF_OUT_OF_MEMORY));
	} while (status == VBTF_OUT_OF_MEMORY);
	check(n > 10 && tally.records == 4);
	free(out);
}

int main(int argc, char **argv)
{
	struct vbtf_table target = VBTF_TABLE_INIT;
	struct file object, table, file, again;
	if (argc != 3)
		return 1;
	object = read_file(argv[1]);
	table = read_file(argv[2]);
	check(vbtf_parse(&target, table.bytes, table.len, VBTF_LITTLE, &error) == VBTF_OK);
	file = resolved(&object, &target);
	print_code(&file);
	repeated(&file, &target);
	refused(&object, &target);
	other_bytes(&object, &target);
	without_memory(&object, &target);
	check(vbtf_target_open(&target, &error) == VBTF_OK);
	one_by_one(&object, &target);
	again = resolved(&object, &target);
	check(memcmp(again.bytes, file.bytes, file.len) == 0);
	without_memory(&object, &target);
	vbtf_close(&target);
	free(again.bytes);
	free(file.bytes);
	free(table.bytes);
	free(object.bytes);
	return counted("relocate");
}
