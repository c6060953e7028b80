/* Writes the table that libbpf 1 gives to the kernel when it loads an object: linkages OBJECT. No program reaches the
   kernel: each call of bpf(2) that libbpf makes ends as if it had succeeded. */
#define _GNU_SOURCE
#include <dlfcn.h>
#include <fcntl.h>
#include <stdarg.h>
#include <stdint.h>
#include <stdio.h>
#include <string.h>
#include <sys/syscall.h>

#define BPF_MAP_CREATE 0
#define BPF_PROG_LOAD 5
#define BPF_BTF_LOAD 18

/* The largest table that was given; smaller ones are those by which libbpf probes the kernel. */
static unsigned char table[1 << 20];
static uint32_t length;

/* libbpf calls this in place of the function of the C library. */
long syscall(long number, ...)
{
	struct { const void *btf; uint64_t log; uint32_t size; } *load;
	va_list list;
	long command;

	if (number != SYS_bpf)
		return -1;
	va_start(list, number);
	command = va_arg(list, long);
	load = va_arg(list, void *);
	va_end(list);
	if (command == BPF_BTF_LOAD && load->size > length && load->size <= sizeof(table)) {
		length = load->size;
		memcpy(table, load->btf, length);
	}
	return command == BPF_MAP_CREATE || command == BPF_PROG_LOAD || command == BPF_BTF_LOAD ? open("/dev/null", O_RDWR) : 0;
}

int main(int argc, char **argv)
{
	void *libbpf = dlopen("libbpf.so.1", RTLD_NOW);
	void *(*open_file)(const char *, void *);
	int (*load)(void *);
	void *object;

	if (!libbpf || argc < 2)
		return 2;
	open_file = (void *(*)(const char *, void *))dlsym(libbpf, "bpf_object__open_file");
	load = (int (*)(void *))dlsym(libbpf, "bpf_object__load");
	object = open_file(argv[1], NULL);
	if (!object || load(object))
		return 1;
	return fwrite(table, 1, length, stdout) != length;
}
