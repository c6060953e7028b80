/*
 * How the time of each call that takes names grows with the number of names that an attacker chose. Each time is the
 * least of five calls or more, and four times the names may take at most eight times the time.
 *
 * A hash without a key puts the names of the first three rows into few places, and 80,000 of them take 15 seconds; with
 * the caller's seed the time grows in proportion to their number. In the other rows all names share one text, which has
 * as many bytes as there are names, and which no call may read to its end for each of them.
 */
#include "table.h"

#include <time.h>

#define MOST 80000u
#define NAME "kprobe/aaaamnsuiv/8z2fk3%08u"
#define NAME_LEN 32u
/* A name in a string section, with the zero byte after it. */
#define ROOM (NAME_LEN + 1)
#define STRINGS_LEN (7 + MOST * ROOM)

/* A string section with the name .BTF, at offset 1, and the names of the attacker, from offset 6 on. */
static char strings[STRINGS_LEN];
static struct vbtf_named entries[MOST];
static struct vbtf_error error;

static uint32_t name_at(size_t i)
{
	return (uint32_t)(6 + i * ROOM);
}

static void make_names(void)
{
	memcpy(strings, "\0.BTF", 6);
	for (unsigned i = 0; i < MOST; i++) {
		const struct vbtf_named named = { name_at(i), NAME_LEN, 0 };
		entries[i] = named;
		snprintf(strings + name_at(i), ROOM, NAME, i);
	}
}

/* The text that all names share, and a zero byte. The last `count` + 2 bytes are a string section: the text is at 1. */
static char shared[1 + 4 * MOST + 1];

static void make_shared(void)
{
	memset(shared, 'a', sizeof shared - 1);
}

static const char *shared_of(size_t count)
{
	return shared + sizeof shared - (count + 2);
}

static struct vbtf_table opened_of(const uint32_t *records, size_t type_len, const char *texts, size_t len)
{
	struct vbtf_table table = VBTF_TABLE_INIT;
	uint8_t *bytes = (uint8_t *)malloc(24 + type_len + len);
	table_bytes_of(bytes, records, type_len, texts, len);
	check(vbtf_parse(&table, bytes, 24 + type_len + len, VBTF_LITTLE, &error) == VBTF_OK);
	free(bytes);
	return table;
}

/* A rewrite with `count` names of sections and as many of symbols. */
static clock_t rewritten(size_t count)
{
	const struct vbtf_names strange = { strings, sizeof strings, entries, count };
	const struct vbtf_kernel kernel = { 0, 0, 0, 0 };
	struct vbtf_table table = VBTF_TABLE_INIT;
	struct vbtf_asked asked;
	check(vbtf_new(&table, NULL) == VBTF_OK);
	clock_t begun = clock();
	check(vbtf_rewrite(&table, &strange, &strange, &kernel, 0x5eed, &asked, NULL) == VBTF_OK);
	clock_t spent = clock() - begun;
	vbtf_close(&table);
	return spent;
}

/* Writes a section header; an entry of a symbol table has 24 bytes. */
static void put_section(uint8_t *at, uint32_t name, uint32_t kind, uint64_t offset, uint64_t size, uint32_t link)
{
	memset(at, 0, 64);
	put(at, name, 4, VBTF_LITTLE);
	put(at + 4, kind, 4, VBTF_LITTLE);
	put(at + 24, (uint32_t)offset, 4, VBTF_LITTLE);
	put(at + 32, (uint32_t)size, 4, VBTF_LITTLE);
	put(at + 40, link, 4, VBTF_LITTLE);
	put(at + 56, kind == 2 ? 24 : 0, 4, VBTF_LITTLE);
}

/* An object with `count` sections without bytes and as many symbols of these names, and its length. */
static uint8_t *an_object(size_t count, size_t *len)
{
	static const uint8_t head[20] = { 0x7f, 'E', 'L', 'F', 2, 1, 1, 0, 0, 0, 0, 0, 0, 0, 0, 0, 1, 0, 247, 0 };
	const size_t names = 64 + 25, symbols = names + STRINGS_LEN, headers = symbols + 24 * (count + 1);
	*len = headers + 64 * (count + 4);
	uint8_t *object = (uint8_t *)calloc(*len, 1), *at = object + headers;
	memcpy(object, head, sizeof head);
	put(object + 20, 1, 4, VBTF_LITTLE);
	put(object + 40, (uint32_t)headers, 4, VBTF_LITTLE);
	put(object + 52, 64, 2, VBTF_LITTLE);
	put(object + 58, 64, 2, VBTF_LITTLE);
	put(object + 62, 2, 2, VBTF_LITTLE);
	table_bytes_of(object + 64, NULL, 0, "", 1);
	memcpy(object + names, strings, STRINGS_LEN);
	/* The size of section 0 is the number of sections. */
	put_section(at, 0, 0, 0, count + 4, 0);
	put_section(at + 64, 1, 1, 64, 25, 0);
	put_section(at + 128, 0, 3, names, STRINGS_LEN, 0);
	put_section(at + 192, 0, 2, symbols, 24 * (count + 1), 2);
	for (size_t i = 0; i < count; i++) {
		uint8_t *symbol = object + symbols + 24 * (i + 1);
		put_section(at + 64 * (i + 4), name_at(i), 8, 0, 0, 0);
		put(symbol, name_at(i), 4, VBTF_LITTLE);
		symbol[4] = 0x11;
	}
	return object;
}

static clock_t sanitized(size_t count)
{
	const struct vbtf_kernel kernel = { 0, 0, 0, 0 };
	struct vbtf_asked asked;
	uint64_t needed;
	size_t len;
	uint8_t *object = an_object(count, &len), *out = (uint8_t *)malloc(len);
	clock_t begun = clock();
	check(vbtf_sanitize_object(object, len, &kernel, NULL, 0, 0x5eed, out, len, &needed, &asked, &error) == VBTF_OK);
	clock_t spent = clock() - begun;
	check(needed == len);
	free(object);
	free(out);
	return spent;
}

/*
 * A .BTF.ext with `count` sections of one record of `words` words each, and its length. Function records have two
 * words, and relocations four.
 */
static uint8_t *an_ext(size_t count, size_t words, uint32_t (*name)(size_t), size_t *len)
{
	const size_t section = 8 + 4 * words;
	const uint32_t part = (uint32_t)(4 + count * section), functions = words == 2 ? part : 0;
	const uint32_t head[] = { 0x0001eb9f, 32, 0, functions, functions, 0, functions, part - functions };
	uint8_t *ext = (uint8_t *)calloc(32 + part, 1);
	for (size_t i = 0; i < 8; i++)
		put(ext + 4 * i, head[i], 4, VBTF_LITTLE);
	put(ext + 32, (uint32_t)(4 * words), 4, VBTF_LITTLE);
	for (size_t i = 0; i < count; i++) {
		put(ext + 36 + i * section, name(i), 4, VBTF_LITTLE);
		put(ext + 40 + i * section, 1, 4, VBTF_LITTLE);
	}
	*len = 32 + part;
	return ext;
}

static clock_t opened_ext(size_t count)
{
	struct vbtf_table table = opened_of(NULL, 0, strings, sizeof strings);
	size_t len;
	uint8_t *ext = an_ext(count, 2, name_at, &len);
	clock_t begun = clock();
	check(vbtf_open_ext(&table, ext, len, VBTF_LITTLE, 0x5eed, &error) == VBTF_OK);
	clock_t spent = clock() - begun;
	vbtf_close(&table);
	free(ext);
	return spent;
}

/* `count` FUNCs; another name is sought, which begins like theirs. */
static clock_t found(size_t count)
{
	uint32_t *records = (uint32_t *)calloc(count, 12), id;
	for (size_t i = 0; i < count; i++) {
		records[3 * i] = 1;
		records[3 * i + 1] = 0x0c000000;
	}
	struct vbtf_table table = opened_of(records, 12 * count, shared_of(count), count + 2);
	clock_t begun = clock();
	check(vbtf_find(&table, shared, 64, VBTF_KIND_FUNC, &id, &error) == VBTF_UNKNOWN_TYPE_NAME);
	clock_t spent = clock() - begun;
	vbtf_close(&table);
	free(records);
	return spent;
}

/* An ENUM of `count` variants; another name is sought. */
static clock_t valued(size_t count)
{
	uint32_t *records = (uint32_t *)calloc(3 + 2 * count, 4);
	uint64_t value;
	records[1] = 0x06000000 | (uint32_t)count;
	records[2] = 4;
	for (size_t i = 0; i < count; i++)
		records[3 + 2 * i] = 1;
	struct vbtf_table table = opened_of(records, 12 + 8 * count, shared_of(count), count + 2);
	clock_t begun = clock();
	check(vbtf_value(&table, 1, shared, 64, &value, &error) == VBTF_NO_ITEM);
	clock_t spent = clock() - begun;
	vbtf_close(&table);
	free(records);
	return spent;
}

static uint32_t shared_at(size_t i)
{
	(void)i;
	return 1;
}

/* `count` sections of relocations; another name is sought. */
static clock_t related(size_t count)
{
	struct vbtf_table table = opened_of(NULL, 0, shared_of(count), count + 2);
	uint64_t needed = 1;
	size_t len;
	uint8_t *ext = an_ext(count, 4, shared_at, &len);
	check(vbtf_open_ext(&table, ext, len, VBTF_LITTLE, 0x5eed, &error) == VBTF_OK);
	clock_t begun = clock();
	check(vbtf_ext_relocations(&table, shared, 64, NULL, 0, &needed, &error) == VBTF_OK && needed == 0);
	clock_t spent = clock() - begun;
	vbtf_close(&table);
	free(ext);
	return spent;
}

static const struct {
	const char *name;
	clock_t (*call)(size_t count);
	size_t most;
} rows[] = {
	{ "vbtf_rewrite", rewritten, MOST },        { "vbtf_sanitize_object", sanitized, MOST },
	{ "vbtf_open_ext", opened_ext, MOST },      { "vbtf_find", found, 4 * MOST },
	{ "vbtf_value", valued, 64000 },            { "vbtf_ext_relocations", related, MOST },
};

/* Makes a call of a row, and keeps the least time of such calls, in microseconds. */
static void keep_least(unsigned long *best, size_t row, size_t count)
{
	unsigned long spent = (unsigned long)(rows[row].call(count) * 1000000.0 / CLOCKS_PER_SEC);
	*best = spent < *best ? spent : *best;
}

int main(void)
{
	make_names();
	make_shared();
	for (size_t i = 0; i < sizeof rows / sizeof *rows; i++) {
		const size_t most = rows[i].most;
		unsigned long one = ~0ul, two = ~0ul, four = ~0ul;
		/* Other processes can slow any call down, so times that look too long are taken again. */
		for (int round = 0; round < 5 || (round < 20 && four > 8 * one); round++) {
			keep_least(&one, i, most / 4);
			keep_least(&two, i, most / 2);
			keep_least(&four, i, most);
		}
		fprintf(stderr, "%s, %zu, %zu and %zu names: %lu, %lu and %lu us\n", rows[i].name, most / 4, most / 2, most,
		        one, two, four);
		check(four <= 8 * one);
	}
	return counted("names");
}
