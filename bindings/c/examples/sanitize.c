/*
 * Rewrites a program's table for a kernel, as a loader does before it loads the program:
 *
 *     sanitize FEATURE,.. [section:NAME=SIZE | symbol:NAME=OFFSET].. < TABLE > REWRITTEN
 *
 * A loader would try a small program for each feature, and read the sizes and offsets in the object file. What the
 * rewrite asks about the kernel is on standard error, in order.
 */
#include "input.h"

#include <string.h>
#include <sys/random.h>

static const char *const features[] = {
	"Func", "FuncGlobal", "DataSec", "DataSecZero", "Float", "DeclTag", "TypeTag", "Enum64",
};

/* Reads features with commas between them; returns whether each word is a feature. */
static bool read_features(char *words, struct vbtf_kernel *kernel)
{
	for (char *word = strtok(words, ","); word; word = strtok(NULL, ",")) {
		uint32_t at = 0;
		while (at < 8 && strcmp(word, features[at]) != 0)
			at++;
		if (at == 8)
			return false;
		kernel->features |= 1u << at;
	}
	return true;
}

/* Names in one buffer, and the number of each. */
struct list {
	char names[1 << 12];
	struct vbtf_named entries[64];
	size_t len, count;
};

/* Adds a word NAME=NUMBER to a list; returns whether the word has this form and the list has room. */
static bool add(struct list *list, const char *word)
{
	const char *number = strrchr(word, '=');
	size_t len = number ? (size_t)(number - word) : 0;
	if (!number || list->count == 64 || len > sizeof list->names - list->len)
		return false;
	char *end;
	struct vbtf_named named = { (uint32_t)list->len, (uint32_t)len, strtoull(number + 1, &end, 10) };
	memcpy(list->names + list->len, word, len);
	list->len += len;
	list->entries[list->count++] = named;
	return end > number + 1 && *end == 0;
}

static int rewrite(struct vbtf_table *table, const struct list *sections, const struct list *symbols,
                   const struct vbtf_kernel *kernel)
{
	struct vbtf_names sizes = { sections->names, sections->len, sections->entries, sections->count };
	struct vbtf_names offsets = { symbols->names, symbols->len, symbols->entries, symbols->count };
	struct vbtf_error error;
	struct vbtf_asked asked;
	uint64_t len = 0, seed;
	if (getrandom(&seed, sizeof seed, 0) != sizeof seed)
		return 1;
	uint32_t status = vbtf_rewrite(table, &sizes, &offsets, kernel, seed, &asked, &error);
	if (status != VBTF_OK)
		return report("sanitize", status, &error);
	for (uint32_t i = 0; i < asked.count; i++)
		fprintf(stderr, "%s: %s\n", features[asked.features[i]], asked.granted[i] ? "true" : "false");
	/* The first call has no buffer, and returns VBTF_NO_ROOM with the length. */
	vbtf_bytes(table, NULL, 0, &len, &error);
	void *bytes = malloc(len);
	status = vbtf_bytes(table, bytes, bytes ? len : 0, &len, &error);
	if (status == VBTF_OK)
		fwrite(bytes, 1, len, stdout);
	free(bytes);
	return status == VBTF_OK ? ferror(stdout) != 0 : report("sanitize", status, &error);
}

int main(int argc, char **argv)
{
	static struct list sections, symbols;
	struct vbtf_table table = VBTF_TABLE_INIT;
	struct vbtf_kernel kernel = { 0, 0, 0, 0 };
	bool read = argc > 1 && read_features(argv[1], &kernel);
	for (int i = 2; read && i < argc; i++)
		read = (strncmp(argv[i], "section:", 8) == 0 && add(&sections, argv[i] + 8))
		       || (strncmp(argv[i], "symbol:", 7) == 0 && add(&symbols, argv[i] + 7));
	if (!read) {
		fprintf(stderr, "usage: sanitize FEATURE,.. [section:NAME=SIZE | symbol:NAME=OFFSET]..\n");
		return 2;
	}
	int failed = open_input("sanitize", &table);
	if (!failed)
		failed = rewrite(&table, &sections, &symbols, &kernel);
	vbtf_close(&table);
	return failed;
}
