/* What libbpf does to the instructions of an object for a table: core_log OBJECT TABLE. No program reaches the kernel:
   each call of bpf(2) that libbpf makes ends as if it had succeeded. */
#include <bpf/libbpf.h>
#include <fcntl.h>
#include <linux/bpf.h>
#include <stdarg.h>
#include <stdio.h>
#include <string.h>
#include <sys/syscall.h>
#include <unistd.h>

long __real_syscall(long number, ...);
long __wrap_syscall(long number, ...)
{
	va_list list;
	long a[6];

	va_start(list, number);
	for (int i = 0; i < 6; i++)
		a[i] = va_arg(list, long);
	va_end(list);
	if (number == SYS_bpf && (a[0] == BPF_MAP_CREATE || a[0] == BPF_PROG_LOAD || a[0] == BPF_BTF_LOAD))
		return open("/dev/null", O_RDONLY);
	if (number == SYS_bpf)
		return 0;
	return __real_syscall(number, a[0], a[1], a[2], a[3], a[4], a[5]);
}

static int print(enum libbpf_print_level level, const char *format, va_list args)
{
	(void)level;
	return vprintf(format, args);
}

int main(int argc, char **argv)
{
	LIBBPF_OPTS(bpf_object_open_opts, options, .btf_custom_path = argc > 2 ? argv[2] : NULL);
	struct bpf_object *object;

	libbpf_set_print(print);
	object = bpf_object__open_file(argv[1], &options);
	if (!object || bpf_object__load(object)) {
		puts("not loaded");
		return 1;
	}
	return 0;
}
