/*
 * Loads a program into the running kernel, and runs it once: load OBJECT [TABLE], where OBJECT is what clang made of a
 * socket filter without maps, as filter.c. It is relocated for the types of TABLE, or else for those of the kernel.
 *
 * The steps are those of a loader: the code is relocated for the types of the kernel, the program's table is rewritten
 * for the features that the kernel is found to have, and the table, the code and the records of its functions are given
 * to bpf(2). A whole loader also creates maps. The exit status is 0 if the kernel does not permit bpf(2).
 */
#include "input.h"
#include "probes.h"

#include <elf.h>
#include <errno.h>
#include <linux/bpf.h>
#include <string.h>
#include <sys/random.h>
#include <sys/syscall.h>
#include <unistd.h>

#define KERNEL "/sys/kernel/btf/vmlinux"
#define FUNCTIONS 64

struct file {
	uint8_t *bytes;
	size_t len;
};

/* What the steps make; main frees all of it. */
struct loader {
	uint64_t seed;
	struct file object, relocated, sanitized;
	struct vbtf_table kernel, program;
	int table_fd, program_fd;
};

static char log_text[1 << 16];

/* Reads a file; returns whether it could be read, after a message if not. */
static bool read_file(const char *path, struct file *file)
{
	FILE *stream = fopen(path, "rb");
	if (stream) {
		file->bytes = read_all(stream, &file->len);
		fclose(stream);
	}
	if (!file->bytes)
		fprintf(stderr, "load: %s cannot be read\n", path);
	return file->bytes != NULL;
}

/* Opens a table of types; returns whether the bytes are one, after a message if not. */
static bool open_table(struct vbtf_table *table, const uint8_t *bytes, size_t len)
{
	struct vbtf_error error;
	uint32_t status = vbtf_parse(table, bytes, len, VBTF_BY_MAGIC, &error);
	return status == VBTF_OK || !report("load", status, &error);
}

/* Relocates the code of the object for the kernel's types. The relocated object is as long as the object. */
static bool relocate(struct loader *it)
{
	struct file *new = &it->relocated;
	struct vbtf_tally tally;
	struct vbtf_error error;
	uint64_t len = 0;
	uint32_t status = VBTF_OUT_OF_MEMORY;
	new->len = it->object.len;
	new->bytes = malloc(new->len);
	if (new->bytes)
		status = vbtf_relocate_object(it->object.bytes, it->object.len, &it->kernel, 0, it->seed, new->bytes,
		                              new->len, &len, &tally, &error);
	if (status != VBTF_OK)
		return !report("load", status, status == VBTF_OUT_OF_MEMORY ? NULL : &error);
	printf("%llu relocations, %llu of them poisoned\n", (unsigned long long)tally.records,
	       (unsigned long long)tally.poisoned);
	return true;
}

/* Rewrites the table of the relocated object for the kernel. */
static bool sanitize(struct loader *it)
{
	const struct vbtf_kernel features = { kernel_features(), 0, 0, 0 };
	const struct file *old = &it->relocated;
	struct file *new = &it->sanitized;
	struct vbtf_asked asked;
	struct vbtf_error error;
	uint64_t len = 0;
	/* The first call has no buffer, and returns VBTF_NO_ROOM with the length. */
	uint32_t status = vbtf_sanitize_object(old->bytes, old->len, &features, NULL, 0, it->seed, NULL, 0, &len, &asked,
	                                       &error);
	if (status == VBTF_NO_ROOM) {
		new->len = (size_t)len;
		new->bytes = malloc(new->len);
		status = vbtf_sanitize_object(old->bytes, old->len, &features, NULL, 0, it->seed, new->bytes, new->len, &len,
		                              &asked, &error);
	}
	return status == VBTF_OK || !report("load", status, &error);
}

/* The section of an index. The library refuses an object whose sections or names are not within the file. */
static Elf64_Shdr section_at(const struct file *object, unsigned index)
{
	Elf64_Ehdr header;
	Elf64_Shdr section;
	memcpy(&header, object->bytes, sizeof header);
	memcpy(&section, object->bytes + header.e_shoff + index * sizeof section, sizeof section);
	return section;
}

static const char *name_of(const struct file *object, const Elf64_Shdr *section)
{
	Elf64_Ehdr header;
	memcpy(&header, object->bytes, sizeof header);
	return (const char *)object->bytes + section_at(object, header.e_shstrndx).sh_offset + section->sh_name;
}

/* Finds the first section of a name, or without a name the first one with code. */
static bool find(const struct file *object, const char *name, Elf64_Shdr *found)
{
	Elf64_Ehdr header;
	memcpy(&header, object->bytes, sizeof header);
	for (unsigned i = 1; header.e_machine == EM_BPF && i < header.e_shnum; i++) {
		*found = section_at(object, i);
		bool is_code = found->sh_flags & SHF_EXECINSTR && found->sh_type == SHT_PROGBITS && found->sh_size > 0;
		if (name ? strcmp(name_of(object, found), name) == 0 : is_code)
			return true;
	}
	fprintf(stderr, "load: the object has no %s\n", name ? name : "code for BPF in this machine's byte order");
	return false;
}

/* Writes the code that is given to the kernel. */
static bool print_code(const struct loader *it)
{
	Elf64_Shdr code;
	if (!find(&it->sanitized, NULL, &code))
		return false;
	printf("code ");
	for (size_t i = 0; i < code.sh_size; i++)
		printf("%02x", it->sanitized.bytes[code.sh_offset + i]);
	putchar('\n');
	return true;
}

/* Calls bpf(2), and writes why the kernel refuses the call. The log says more of a table and of a program. */
static int called(int command, union bpf_attr *attr, const char *what)
{
	log_text[0] = 0;
	int answer = (int)syscall(SYS_bpf, command, attr, sizeof *attr);
	if (answer < 0 && (errno == EPERM || errno == EACCES || errno == ENOSYS)) {
		printf("bpf(2) is not permitted here\n");
		exit(0);
	}
	if (answer < 0)
		fprintf(stderr, "load: the kernel refuses the %s: %s\n%s", what, strerror(errno), log_text);
	return answer;
}

static uint64_t address(const void *at)
{
	return (uint64_t)(uintptr_t)at;
}

/* Gives the program's table to the kernel. */
static bool load_table(struct loader *it)
{
	Elf64_Shdr section;
	union bpf_attr attr;
	if (!find(&it->sanitized, ".BTF", &section)
	    || !open_table(&it->program, it->sanitized.bytes + section.sh_offset, section.sh_size))
		return false;
	memset(&attr, 0, sizeof attr);
	attr.btf = address(it->sanitized.bytes + section.sh_offset);
	attr.btf_size = (uint32_t)section.sh_size;
	attr.btf_log_buf = address(log_text);
	attr.btf_log_size = sizeof log_text;
	attr.btf_log_level = 1;
	it->table_fd = called(BPF_BTF_LOAD, &attr, "table");
	return it->table_fd >= 0;
}

/* Reads the records of the functions of a section from .BTF.ext; returns whether they fit. */
static bool read_functions(struct loader *it, const char *section, struct vbtf_func_info *functions, uint64_t *count)
{
	Elf64_Shdr ext;
	struct vbtf_error error;
	if (!find(&it->sanitized, ".BTF.ext", &ext))
		return false;
	uint32_t status = vbtf_open_ext(&it->program, it->sanitized.bytes + ext.sh_offset, ext.sh_size, VBTF_LITTLE,
	                                it->seed, &error);
	if (status == VBTF_OK)
		status = vbtf_ext_func_info(&it->program, section, strlen(section), functions, FUNCTIONS, count, &error);
	return status == VBTF_OK || !report("load", status, &error);
}

/* Gives the code of the first section with code to the kernel. */
static bool load_program(struct loader *it)
{
	struct vbtf_func_info functions[FUNCTIONS];
	uint64_t count = 0;
	Elf64_Shdr code;
	union bpf_attr attr;
	if (!find(&it->sanitized, NULL, &code)
	    || !read_functions(it, name_of(&it->sanitized, &code), functions, &count))
		return false;
	memset(&attr, 0, sizeof attr);
	attr.prog_type = BPF_PROG_TYPE_SOCKET_FILTER;
	attr.insns = address(it->sanitized.bytes + code.sh_offset);
	attr.insn_cnt = (uint32_t)(code.sh_size / sizeof(struct bpf_insn));
	attr.license = address("GPL");
	attr.log_buf = address(log_text);
	attr.log_size = sizeof log_text;
	attr.log_level = 1;
	attr.prog_btf_fd = (uint32_t)it->table_fd;
	attr.func_info = address(functions);
	attr.func_info_rec_size = sizeof *functions;
	attr.func_info_cnt = (uint32_t)count;
	it->program_fd = called(BPF_PROG_LOAD, &attr, "program");
	if (it->program_fd >= 0)
		printf("%u instructions loaded: %s", attr.insn_cnt, log_text);
	return it->program_fd >= 0;
}

/* Runs the program once, for an empty packet. */
static bool run(struct loader *it)
{
	static const uint8_t packet[64];
	union bpf_attr attr;
	memset(&attr, 0, sizeof attr);
	attr.test.prog_fd = (uint32_t)it->program_fd;
	attr.test.data_in = address(packet);
	attr.test.data_size_in = sizeof packet;
	attr.test.repeat = 1;
	if (called(BPF_PROG_TEST_RUN, &attr, "run") < 0)
		return false;
	printf("the program returned %u\n", attr.test.retval);
	return true;
}

int main(int argc, char **argv)
{
	struct loader it = { .table_fd = -1, .program_fd = -1 };
	struct file types = { NULL, 0 };
	if (argc != 2 && argc != 3) {
		fprintf(stderr, "usage: load OBJECT [TABLE]\n");
		return 2;
	}
	bool is_run = getrandom(&it.seed, sizeof it.seed, 0) == sizeof it.seed && read_file(argv[1], &it.object)
	              && read_file(argc == 3 ? argv[2] : KERNEL, &types)
	              && open_table(&it.kernel, types.bytes, types.len) && relocate(&it) && sanitize(&it) && print_code(&it)
	              && load_table(&it) && load_program(&it) && run(&it);
	vbtf_close(&it.program);
	vbtf_close(&it.kernel);
	free(types.bytes);
	free(it.object.bytes);
	free(it.relocated.bytes);
	free(it.sanitized.bytes);
	return !is_run;
}
