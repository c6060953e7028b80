/*
 * Reads a field of a type of the kernel, one of a type of a first module, and the size of a type of a second. Made into
 * module.o by
 *
 *     clang-14 -O2 -g -fdebug-compilation-dir=. -target bpf -c module.c
 *     llvm-strip-14 --strip-debug --keep-section=.BTF --keep-section=.BTF.ext module.o
 */
enum state { IDLE };

enum mode { FAST };

struct device {
	enum state state;
} __attribute__((preserve_access_index));

struct port {
	enum mode mode;
} __attribute__((preserve_access_index));

union cell {
	struct device *device;
} __attribute__((preserve_access_index));

__attribute__((section("socket"))) int read_all(struct device *device, struct port *port)
{
	return device->state + port->mode + __builtin_preserve_type_info(*(union cell *)0, 1);
}
