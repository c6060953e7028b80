/*
 * Times the works of C callers beside libbpf, in turns: works TABLE [ROUNDS]. Each line has the name of the work, the
 * least time of a round in microseconds of a table, of a view and of libbpf, and the quotients of the first two and
 * libbpf's. All sides sum what they read, and the program ends with status 1 if the sums differ. Before each timed run
 * the same work runs once untimed, so that no side pays for what the side before it left in the caches.
 *
 *   cc -O2 bindings/c/bench/works.c -Ibindings/c -LFOLDER -lvbtf -lbpf -lelf -lz -o works
 */
#include <bpf/btf.h>
#include <inttypes.h>
#include <stdio.h>
#include <stdlib.h>
#include <string.h>
#include <time.h>

#include "vbtf.h"

enum { PLACES = 1 << 12, NAMES = 64 };

static struct vbtf_table table;
static struct vbtf_view view;
static struct btf *theirs;
static unsigned char *data;
static size_t size;
static uint32_t count;

/* ---- the works: each returns a sum of what it read */

static uint64_t open_here(void)
{
	struct vbtf_table opened = VBTF_TABLE_INIT;
	uint64_t types = 0;

	if (!vbtf_parse(&opened, data, size, VBTF_BY_MAGIC, NULL))
		vbtf_count(&opened, &types);
	vbtf_close(&opened);
	return types;
}

static uint64_t open_view(void)
{
	struct vbtf_view opened = VBTF_VIEW_INIT;
	uint64_t types = 0;

	if (!vbtf_view_open(&opened, data, size, VBTF_BY_MAGIC, NULL))
		types = vbtf_view_count(&opened);
	vbtf_view_close(&opened);
	return types;
}

static uint64_t open_there(void)
{
	struct btf *opened = btf__new(data, size);
	uint64_t types = opened ? btf__type_cnt(opened) : 0;

	btf__free(opened);
	return types;
}

static uint64_t names_here(void)
{
	struct vbtf_type types[PLACES];
	struct vbtf_name_bytes names = { NULL, 0 };
	uint64_t sum = 0, places = 1;

	vbtf_names(&table, &names);
	for (uint32_t first = 1; places; first += places) {
		vbtf_types(&table, first, types, PLACES, &places);
		for (uint64_t at = 0; at < places; at++) {
			const char *name = vbtf_name_in(&names, types[at].name_offset);
			sum += name ? strlen(name) : 0;
		}
	}
	return sum;
}

static uint64_t names_view(void)
{
	struct vbtf_type types[PLACES];
	uint64_t sum = 0, places = 1;

	for (uint32_t first = 1; places; first += places) {
		vbtf_view_types(&view, first, types, PLACES, &places);
		for (uint64_t at = 0; at < places; at++) {
			const char *name = vbtf_view_name(&view, types[at].name_offset);
			sum += name ? strlen(name) : 0;
		}
	}
	return sum;
}

static uint64_t names_there(void)
{
	uint64_t sum = 0;

	for (uint32_t id = 1; id < count; id++)
		sum += strlen(btf__name_by_offset(theirs, btf__type_by_id(theirs, id)->name_off));
	return sum;
}

static bool has_members(uint32_t kind)
{
	return kind == VBTF_KIND_STRUCT || kind == VBTF_KIND_UNION;
}

static uint64_t members_here(void)
{
	static struct vbtf_member members[1 << 16];
	struct vbtf_type types[PLACES];
	uint64_t sum = 0, places = 1, found;

	for (uint32_t first = 1; places; first += places) {
		vbtf_types(&table, first, types, PLACES, &places);
		for (uint64_t at = 0; at < places; at++) {
			if (!has_members(types[at].kind) ||
			    vbtf_members(&table, first + at, members, 1 << 16, &found, NULL))
				continue;
			for (uint64_t index = 0; index < found; index++)
				sum += members[index].name_offset + members[index].type + members[index].bit_offset +
				       members[index].bit_field_size;
		}
	}
	return sum;
}

static uint64_t members_view(void)
{
	static struct vbtf_member members[1 << 16];
	uint32_t counts[PLACES];
	uint64_t sum = 0, done = 1, written;

	for (uint32_t first = 1; done; first += done) {
		vbtf_view_members_from(&view, first, counts, PLACES, members, 1 << 16, &done, &written);
		for (uint64_t index = 0; index < written; index++)
			sum += members[index].name_offset + members[index].type + members[index].bit_offset +
			       members[index].bit_field_size;
	}
	return sum;
}

static uint64_t members_there(void)
{
	uint64_t sum = 0;

	for (uint32_t id = 1; id < count; id++) {
		const struct btf_type *type = btf__type_by_id(theirs, id);

		if (!btf_is_composite(type))
			continue;
		for (uint32_t at = 0; at < btf_vlen(type); at++)
			sum += btf_members(type)[at].name_off + btf_members(type)[at].type +
			       btf_member_bit_offset(type, at) + btf_member_bitfield_size(type, at);
	}
	return sum;
}

static uint64_t types_here(void)
{
	struct vbtf_type types[PLACES];
	uint64_t sum = 0, places = 1;

	for (uint32_t first = 1; places; first += places) {
		vbtf_types(&table, first, types, PLACES, &places);
		for (uint64_t at = 0; at < places; at++)
			sum += types[at].name_offset + types[at].info;
	}
	return sum;
}

static uint64_t types_view(void)
{
	struct vbtf_type types[PLACES];
	uint64_t sum = 0, places = 1;

	for (uint32_t first = 1; places; first += places) {
		vbtf_view_types(&view, first, types, PLACES, &places);
		for (uint64_t at = 0; at < places; at++)
			sum += types[at].name_offset + types[at].info;
	}
	return sum;
}

static uint64_t types_there(void)
{
	uint64_t sum = 0;

	for (uint32_t id = 1; id < count; id++) {
		const struct btf_type *type = btf__type_by_id(theirs, id);

		sum += type->name_off + type->info;
	}
	return sum;
}

static uint64_t sizes_here(void)
{
	uint64_t sizes[PLACES], sum = 0, places = 1;

	for (uint32_t first = 1; places; first += places) {
		vbtf_sizes(&table, first, sizes, PLACES, &places);
		for (uint64_t at = 0; at < places; at++)
			sum += sizes[at] == UINT64_MAX ? 0 : sizes[at];
	}
	return sum;
}

static uint64_t sizes_view(void)
{
	uint64_t sizes[PLACES], sum = 0, places = 1;

	for (uint32_t first = 1; places; first += places) {
		vbtf_view_sizes(&view, first, sizes, PLACES, &places);
		for (uint64_t at = 0; at < places; at++)
			sum += sizes[at] == UINT64_MAX ? 0 : sizes[at];
	}
	return sum;
}

/* libbpf gives no size to a prototype, and this library that of its result, so both leave prototypes out. */
static uint64_t sizes_there(void)
{
	uint64_t sum = 0;

	for (uint32_t id = 1; id < count; id++) {
		int64_t bytes = btf__resolve_size(theirs, id);

		sum += bytes < 0 ? 0 : bytes;
	}
	return sum;
}

static uint64_t resolved_here(void)
{
	uint32_t ids[PLACES];
	uint64_t sum = 0, places = 1;

	for (uint32_t first = 1; places; first += places) {
		vbtf_resolved(&table, first, ids, PLACES, &places);
		for (uint64_t at = 0; at < places; at++)
			sum += ids[at] == UINT32_MAX ? 0 : ids[at];
	}
	return sum;
}

static uint64_t resolved_view(void)
{
	uint32_t ids[PLACES];
	uint64_t sum = 0, places = 1;

	for (uint32_t first = 1; places; first += places) {
		vbtf_view_resolved(&view, first, ids, PLACES, &places);
		for (uint64_t at = 0; at < places; at++)
			sum += ids[at] == UINT32_MAX ? 0 : ids[at];
	}
	return sum;
}

static uint64_t resolved_there(void)
{
	uint64_t sum = 0;

	for (uint32_t id = 1; id < count; id++) {
		int to = btf__resolve_type(theirs, id);

		sum += to < 0 ? 0 : to;
	}
	return sum;
}

/* names of functions, spread over the table */
static const char *sought[NAMES];

static uint64_t find_here(void)
{
	uint64_t sum = 0;
	uint32_t id;

	for (int at = 0; at < NAMES; at++)
		if (!vbtf_find(&table, sought[at], strlen(sought[at]), VBTF_KIND_FUNC, &id, NULL))
			sum += id;
	return sum;
}

static uint64_t find_view(void)
{
	uint64_t sum = 0;
	uint32_t id;

	for (int at = 0; at < NAMES; at++)
		if (!vbtf_view_find(&view, sought[at], strlen(sought[at]), VBTF_KIND_FUNC, &id, NULL))
			sum += id;
	return sum;
}

static uint64_t find_there(void)
{
	uint64_t sum = 0;

	for (int at = 0; at < NAMES; at++)
		sum += btf__find_by_name_kind(theirs, sought[at], BTF_KIND_FUNC);
	return sum;
}

static const struct work {
	const char *name;
	uint64_t (*here)(void), (*of_view)(void), (*there)(void);
	bool compares;
} works[] = {
	{ "open", open_here, open_view, open_there, true },
	{ "names", names_here, names_view, names_there, true },
	{ "members", members_here, members_view, members_there, true },
	{ "types", types_here, types_view, types_there, true },
	{ "sizes", sizes_here, sizes_view, sizes_there, false },
	{ "resolved", resolved_here, resolved_view, resolved_there, false },
	{ "find", find_here, find_view, find_there, true },
};

static double microseconds(uint64_t (*work)(void), uint64_t *sum)
{
	struct timespec from, to;

	work();
	clock_gettime(CLOCK_MONOTONIC, &from);
	*sum = work();
	clock_gettime(CLOCK_MONOTONIC, &to);
	return (to.tv_sec - from.tv_sec) * 1e6 + (to.tv_nsec - from.tv_nsec) / 1e3;
}

static bool read_file(const char *path)
{
	FILE *file = fopen(path, "rb");

	if (!file)
		return false;
	data = malloc(1 << 26);
	size = data ? fread(data, 1, 1 << 26, file) : 0;
	fclose(file);
	return size > 0;
}

/* Every so often a function of the table, so that a search ends anywhere in it. */
static void choose_names(void)
{
	uint32_t id = 1;

	for (int at = 0; at < NAMES; at++) {
		id = (uint64_t)count * at / NAMES;
		while (id < count && !(id && btf_is_func(btf__type_by_id(theirs, id))))
			id++;
		sought[at] = id < count ? btf__name_by_offset(theirs, btf__type_by_id(theirs, id)->name_off) : "main";
	}
}

int main(int argc, char **argv)
{
	int rounds = argc > 2 ? atoi(argv[2]) : 15, differ = 0;

	if (argc < 2 || !read_file(argv[1]) || vbtf_parse(&table, data, size, VBTF_BY_MAGIC, NULL) ||
	    vbtf_view_open(&view, data, size, VBTF_BY_MAGIC, NULL) || !(theirs = btf__new(data, size))) {
		fprintf(stderr, "usage: works TABLE [ROUNDS]\n");
		return 2;
	}
	count = btf__type_cnt(theirs);
	choose_names();
	for (size_t at = 0; at < sizeof works / sizeof *works; at++) {
		double here = 1e12, of_view = 1e12, there = 1e12, time;
		uint64_t ours = 0, viewed = 0, others = 0;
		bool wrong;

		for (int round = 0; round < rounds; round++) {
			time = microseconds(works[at].here, &ours);
			here = time < here ? time : here;
			time = microseconds(works[at].of_view, &viewed);
			of_view = time < of_view ? time : of_view;
			time = microseconds(works[at].there, &others);
			there = time < there ? time : there;
		}
		wrong = ours != viewed || (works[at].compares && ours != others);
		differ |= wrong;
		printf("%-9s %9.1f %9.1f %9.1f %6.2f %6.2f%s\n", works[at].name, here, of_view, there, here / there,
		       of_view / there, wrong ? " the sums differ" : "");
	}
	return differ;
}
