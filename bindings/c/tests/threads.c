/* Six threads read one table and relocate for it, and two change tables of their own, at the same time. */
#include "table.h"

#include <pthread.h>

#define ROUNDS 20000

static struct vbtf_table shared = VBTF_TABLE_INIT;

/* The string offset of the access string "0:1" in it. */
static uint32_t access_offset;

/* The number of calls of a reader with another result than without other threads. */
static void *reader(void *unused)
{
	struct vbtf_error error;
	uintptr_t wrong = 0;
	for (unsigned i = 0; i < ROUNDS; i++) {
		uint64_t size = 0, needed = 0;
		uint32_t id = 0, alignments[2];
		bool answer = false;
		struct vbtf_member member, members[2];
		const char *name = NULL;
		size_t len = 0;
		struct vbtf_line_info lines[3];
		struct vbtf_relocation relocation = { 0, 4, access_offset, 0 };
		struct vbtf_relocated relocated;
		char text[8];
		wrong += vbtf_size(&shared, 5, &size, &error) != VBTF_OK || size != 80;
		wrong += vbtf_find(&shared, "run", 3, VBTF_KIND_FUNC, &id, &error) != VBTF_OK || id != 7;
		wrong += vbtf_text_at(&shared, 26, text, sizeof text, &needed, &error) != VBTF_OK || needed != 6;
		wrong += vbtf_member_at(&shared, 4, 1, &member, &error) != VBTF_OK || member.bit_offset != 32;
		wrong += vbtf_members(&shared, 4, members, 2, &needed, &error) != VBTF_OK || members[1].bit_offset != 32;
		wrong += vbtf_name(&shared, 1, &name, &len, &error) != VBTF_OK || len != 3 || strcmp(name, "int") != 0;
		wrong += vbtf_find_from(&shared, "int", 3, VBTF_ANY_KIND, 2, &id, &error) != VBTF_OK || id != 9;
		wrong += vbtf_index_find(&shared, "word", 4, VBTF_KIND_ENUM, &id, &error) != VBTF_OK || id != 11;
		wrong += vbtf_alignment(&shared, 4, &id, &error) != VBTF_OK || id != 4;
		wrong += vbtf_alignments(&shared, 1, alignments, 2, &needed, &error) != VBTF_OK || alignments[1] != 8;
		wrong += vbtf_value(&shared, 11, "int", 3, &size, &error) != VBTF_OK || size != 9;
		wrong += vbtf_ext_line_info(&shared, "run", 3, lines, 3, &needed, &error) != VBTF_OK || needed != 3;
		wrong += vbtf_relocate(&shared, &shared, &relocation, &relocated, &error) != VBTF_OK || relocated.value != 4;
		wrong += vbtf_types_are_compatible(&shared, 6, &shared, 6, &answer, &error) != VBTF_OK || !answer;
	}
	(void)unused;
	return (void *)wrong;
}

static void *writer(void *unused)
{
	struct vbtf_error error;
	uintptr_t wrong = 0;
	for (unsigned i = 0; i < ROUNDS / 100; i++) {
		struct vbtf_table table = VBTF_TABLE_INIT;
		uint32_t offset = 0;
		wrong += vbtf_new(&table, &error) != VBTF_OK;
		for (unsigned j = 0; j < 100; j++)
			wrong += vbtf_add_string(&table, "text", 4, &offset, &error) != VBTF_OK || offset != 1 + 5 * j;
		vbtf_close(&table);
	}
	(void)unused;
	return (void *)wrong;
}

int main(void)
{
	struct vbtf_error error;
	uint8_t ext[EXT_LEN];
	pthread_t threads[8];
	ext_bytes(ext, VBTF_LITTLE);
	shared = opened(VBTF_LITTLE);
	check(vbtf_open_ext(&shared, ext, sizeof ext, VBTF_LITTLE, 7, &error) == VBTF_OK);
	check(vbtf_add_string(&shared, "0:1", 3, &access_offset, &error) == VBTF_OK);
	check(vbtf_target_open(&shared, &error) == VBTF_OK);
	for (unsigned i = 0; i < 8; i++)
		check(pthread_create(&threads[i], NULL, i < 6 ? reader : writer, NULL) == 0);
	for (unsigned i = 0; i < 8; i++) {
		void *wrong = NULL;
		check(pthread_join(threads[i], &wrong) == 0 && wrong == NULL);
	}
	vbtf_close(&shared);
	return counted("threads");
}
