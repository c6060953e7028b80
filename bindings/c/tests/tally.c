/* The numbers of relocation records of an object for a table: tally OBJECT TABLE writes `RECORDS POISONED REFUSED`. */
#include "file.h"

int main(int argc, char **argv)
{
	struct vbtf_table target = VBTF_TABLE_INIT;
	struct vbtf_tally tally = { 0, 0, 0 };
	struct vbtf_error error;
	uint64_t needed = 0;
	if (argc != 3)
		return 1;
	struct file object = read_file(argv[1]), table = read_file(argv[2]);
	/* A buffer without room gets no object, but the records are counted. */
	check(vbtf_parse(&target, table.bytes, table.len, VBTF_BY_MAGIC, &error) == VBTF_OK);
	check(vbtf_relocate_object(object.bytes, object.len, &target, 0, 7, NULL, 0, &needed, &tally, &error)
	      == VBTF_NO_ROOM);
	check(needed == object.len);
	printf("%llu %llu %llu\n", (unsigned long long)tally.records, (unsigned long long)tally.poisoned,
	       (unsigned long long)tally.refused);
	vbtf_close(&target);
	free(table.bytes);
	free(object.bytes);
	return failed != 0;
}
