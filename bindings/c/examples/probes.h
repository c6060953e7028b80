/* The features of the running kernel, which a loader rewrites a table for. */
#ifndef PROBES_H
#define PROBES_H

#include <vbtf.h>

#include <errno.h>
#include <linux/bpf.h>
#include <stdint.h>
#include <string.h>
#include <sys/syscall.h>
#include <unistd.h>

#define KIND(number, vlen) ((uint32_t)(number) << 24 | (vlen))

/* Each table has the strings below and the INT of id 1; then come these words, of a type that needs the feature. */
static const char trial_strings[] = "\0int\0x\0.data"; /* "int" at offset 1, "x" at 5, ".data" at 7 */
static const uint32_t trial_int[] = { 1, KIND(1, 0), 4, 1 << 24 | 32 };
static const struct trial {
	enum vbtf_feature feature;
	uint32_t count, words[10];
} trials[] = {
	{ VBTF_FEATURE_FUNC, 8, { 0, KIND(13, 1), 0, 5, 1, 5, KIND(12, 0), 2 } },
	{ VBTF_FEATURE_FUNC_GLOBAL, 8, { 0, KIND(13, 1), 0, 5, 1, 5, KIND(12, 1), 2 } },
	{ VBTF_FEATURE_DATASEC, 10, { 5, KIND(14, 0), 1, 0, 7, KIND(15, 1), 4, 2, 0, 4 } },
	{ VBTF_FEATURE_DATASEC_ZERO, 3, { 7, KIND(15, 0), 4 } },
	{ VBTF_FEATURE_FLOAT, 3, { 5, KIND(16, 0), 4 } },
	{ VBTF_FEATURE_DECL_TAG, 8, { 5, KIND(14, 0), 1, 0, 5, KIND(17, 0), 2, UINT32_MAX } },
	{ VBTF_FEATURE_TYPE_TAG, 6, { 5, KIND(18, 0), 1, 0, KIND(2, 0), 2 } },
	{ VBTF_FEATURE_ENUM64, 3, { 5, KIND(19, 0), 8 } },
};

/* Whether the kernel takes a table; false with errno EPERM or ENOSYS if it permits no call of bpf(2). */
static inline bool takes_table(const void *table, size_t len)
{
	union bpf_attr attr;
	memset(&attr, 0, sizeof attr);
	attr.btf = (uint64_t)(uintptr_t)table;
	attr.btf_size = (uint32_t)len;
	int fd = (int)syscall(SYS_bpf, BPF_BTF_LOAD, &attr, sizeof attr);
	if (fd >= 0)
		close(fd);
	return fd >= 0;
}

/* The features that the kernel has, as the bits of struct vbtf_kernel. It has a feature if it takes a table of it. */
static inline uint32_t kernel_features(void)
{
	uint32_t features = 0;
	for (size_t i = 0; i < sizeof trials / sizeof *trials; i++) {
		struct {
			uint16_t magic;
			uint8_t version, flags;
			uint32_t header_len, type_offset, type_len, string_offset, string_len;
			uint8_t rest[sizeof trial_int + sizeof trials->words + sizeof trial_strings];
		} table = { 0xeb9f, 1, 0, 24, 0, 0, 0, sizeof trial_strings, { 0 } };
		size_t len = trials[i].count * sizeof *trials->words;
		table.type_len = table.string_offset = (uint32_t)(sizeof trial_int + len);
		memcpy(table.rest, trial_int, sizeof trial_int);
		memcpy(table.rest + sizeof trial_int, trials[i].words, len);
		memcpy(table.rest + table.type_len, trial_strings, sizeof trial_strings);
		if (takes_table(&table, 24 + table.type_len + sizeof trial_strings))
			features |= 1u << trials[i].feature;
	}
	return features;
}

#endif
