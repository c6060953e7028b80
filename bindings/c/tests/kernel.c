/*
 * Gives tables to the running kernel by BPF_BTF_LOAD: kernel FILE.., where each file is a table. It writes the last
 * lines of the kernel's log for each table that the kernel refuses. Its status is 77 if the kernel does not even take a
 * table of one integer here, and the last line then says why.
 */
#include "table.h"

#include <errno.h>
#include <linux/bpf.h>
#include <sys/syscall.h>
#include <unistd.h>

#define NOT_PERMITTED 77

static uint8_t table[1 << 24];
static char log_text[1 << 20];

/* The descriptor of a table that the kernel takes, or -1. */
static int loaded(size_t len)
{
	union bpf_attr attr;
	memset(&attr, 0, sizeof attr);
	attr.btf = (uint64_t)(uintptr_t)table;
	attr.btf_size = (uint32_t)len;
	attr.btf_log_buf = (uint64_t)(uintptr_t)log_text;
	attr.btf_log_size = sizeof log_text;
	attr.btf_log_level = 1;
	log_text[0] = 0;
	return (int)syscall(SYS_bpf, BPF_BTF_LOAD, &attr, sizeof attr);
}

/* Whether the kernel takes a table of one INT of 4 bytes, without a call of the library. */
static bool takes_tables(void)
{
	static const uint32_t words[] = { 0x0001eb9f, 24, 0, 16, 16, 5, 1, 0x01000000, 4, 0x01000020 };
	memcpy(table, words, sizeof words);
	memcpy(table + sizeof words, "\0int", 5);
	int descriptor = loaded(sizeof words + 5);
	if (descriptor >= 0)
		close(descriptor);
	return descriptor >= 0;
}

int main(int argc, char **argv)
{
	if (!takes_tables()) {
		printf("bpf(2) takes no table here: %s\n", strerror(errno));
		return NOT_PERMITTED;
	}
	for (int i = 1; i < argc; i++) {
		FILE *file = fopen(argv[i], "rb");
		size_t len = file ? fread(table, 1, sizeof table, file) : 0;
		if (file)
			fclose(file);
		int descriptor = loaded(len);
		if (descriptor < 0) {
			size_t end = strlen(log_text);
			fprintf(stderr, "%s: %s\n%s", argv[i], strerror(errno), log_text + (end > 200 ? end - 200 : 0));
		} else {
			close(descriptor);
		}
		check(descriptor >= 0);
	}
	return counted("kernel");
}
