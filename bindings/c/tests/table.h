/* A small table in either byte order, and the counters of the tests. */
#ifndef TABLE_H
#define TABLE_H

#include "vbtf.h"

#include <stdio.h>
#include <stdlib.h>
#include <string.h>

static unsigned passed, failed;

/* Counts an expectation, and prints it if it is not met. */
static inline void check_at(int holds, const char *what, const char *file, int line)
{
	if (holds) {
		passed++;
		return;
	}
	failed++;
	fprintf(stderr, "%s:%d: %s\n", file, line, what);
}

#define check(what) check_at((what), #what, __FILE__, __LINE__)

/* The last line of a test, and its exit status. */
static inline int counted(const char *name)
{
	printf("%s: %u passed, %u failed\n", name, passed, failed);
	return failed != 0;
}

#define STRINGS "\0int\0word\0pair\0left\0right\0caf\xff\0run\0args"

/*
 * 1 INT "int" of 4 bytes; 2 PTR to 1; 3 TYPEDEF "word" of 1; 4 STRUCT "pair" of 8 bytes with "left" at bit 0 and
 * "right" at bit 32; 5 ARRAY of ten 4s; 6 FUNC_PROTO with a parameter "args" of type 2, which returns 1; 7 FUNC "run"
 * of 6; 8 FWD "caf\xff"; 9 INT "int" at bit 8; 10 PTR to 10; 11 ENUM "word" with "caf\xff" of 7 and "int" of 9.
 */
static const uint32_t words[] = {
	1, 0x01000000, 4, 0x01000020,
	0, 0x02000000, 1,
	5, 0x08000000, 1,
	10, 0x04000002, 8, 15, 1, 0, 20, 3, 32,
	0, 0x03000000, 0, 4, 1, 10,
	0, 0x0d000001, 1, 35, 2,
	31, 0x0c000001, 6,
	26, 0x07000000, 0,
	1, 0x01000000, 4, 0x01080010,
	0, 0x02000000, 10,
	5, 0x06000002, 4, 26, 7, 1, 9,
};

#define TYPES 12
#define TYPE_LEN sizeof words
#define TABLE_LEN (24 + TYPE_LEN + sizeof STRINGS)

static inline void put(uint8_t *at, uint32_t value, unsigned bytes, uint32_t order)
{
	for (unsigned i = 0; i < bytes; i++)
		at[i] = (uint8_t)(value >> 8 * (order == VBTF_BIG ? bytes - 1 - i : i));
}

/* Writes the bytes of the table, TABLE_LEN of them. */
static inline void table_bytes(uint8_t *out, uint32_t order)
{
	put(out, 0xeb9f, 2, order);
	put(out + 2, 1, 1, order);
	put(out + 3, 0, 1, order);
	put(out + 4, 24, 4, order);
	put(out + 8, 0, 4, order);
	put(out + 12, TYPE_LEN, 4, order);
	put(out + 16, TYPE_LEN, 4, order);
	put(out + 20, sizeof STRINGS, 4, order);
	for (size_t i = 0; i < sizeof words / 4; i++)
		put(out + 24 + 4 * i, words[i], 4, order);
	memcpy(out + 24 + TYPE_LEN, STRINGS, sizeof STRINGS);
}

/* A table that is opened with these bytes. */
static inline struct vbtf_table opened(uint32_t order)
{
	struct vbtf_table table = VBTF_TABLE_INIT;
	struct vbtf_error error;
	uint8_t bytes[TABLE_LEN];
	table_bytes(bytes, order);
	check(vbtf_parse(&table, bytes, sizeof bytes, order, &error) == VBTF_OK);
	return table;
}

/*
 * The words of a .BTF.ext over that table, after the first four bytes. In the section "run" the function 7 begins at
 * byte 0, and the instructions at bytes 0, 8 and 40 have lines in the file "args". In the sections "run" and "word" are
 * relocations: two that read "left", and one.
 */
static const uint32_t ext_words[] = {
	32, 0, 20, 20, 60, 80, 68,
	8, 31, 1, 0, 7,
	16, 31, 3, 0, 35, 1, 0x4409, 8, 35, 5, 0x4812, 40, 35, 10, 0x4c02,
	16, 31, 2, 8, 4, 15, 0, 24, 4, 15, 1, 5, 1, 16, 4, 20, 12,
};

#define EXT_LEN (4 + sizeof ext_words)

/* Writes the bytes of the .BTF.ext, EXT_LEN of them. */
static inline void ext_bytes(uint8_t *out, uint32_t order)
{
	put(out, 0xeb9f, 2, order);
	put(out + 2, 1, 1, order);
	put(out + 3, 0, 1, order);
	for (size_t i = 0; i < sizeof ext_words / 4; i++)
		put(out + 4 + 4 * i, ext_words[i], 4, order);
}

/* The bytes of a table of these records and strings, in little-endian order. */
static inline void table_bytes_of(uint8_t *out, const uint32_t *records, size_t type_len, const char *strings,
                                  size_t len)
{
	const uint32_t header[] = { 24, 0, (uint32_t)type_len, (uint32_t)type_len, (uint32_t)len };
	put(out, 0x0001eb9f, 4, VBTF_LITTLE);
	for (size_t i = 0; i < 5; i++)
		put(out + 4 + 4 * i, header[i], 4, VBTF_LITTLE);
	for (size_t i = 0; i < type_len / 4; i++)
		put(out + 24 + 4 * i, records[i], 4, VBTF_LITTLE);
	memcpy(out + 24 + type_len, strings, len);
}

#endif
