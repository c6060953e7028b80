/*
 * A socket filter without maps, which returns the size of the kernel's `struct list_head` in bytes. The compiler writes
 * the size of the structure here, 8, and a relocation that asks for the kernel's, 16. Made into filter.o by
 *
 *     clang-14 -O2 -g -fdebug-compilation-dir=. -target bpf -c filter.c
 */
struct __sk_buff;

struct list_head {
	struct list_head *next;
} __attribute__((preserve_access_index));

__attribute__((section("socket"))) int size_of_list_head(struct __sk_buff *packet)
{
	return __builtin_preserve_type_info(*(struct list_head *)0, 1);
}

char _license[] __attribute__((section("license"))) = "GPL";
