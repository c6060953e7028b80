/* A program as a loader takes it: maps, global data of each section, kernel symbols, configuration, functions of each
   linkage, and relocations against the kernel's types. */
#define SEC(name) __attribute__((section(name), used))
#define CORE __attribute__((preserve_access_index))
typedef unsigned char u8;
typedef unsigned int u32;
typedef unsigned long long u64;

#define __uint(name, value) int (*name)[value]
#define __type(name, value) value *name

struct event {
	u32 pid;
	u8 comm[16];
};

struct {
	__uint(type, 1);
	__type(key, u32);
	__type(value, struct event);
	__uint(max_entries, 16);
} events SEC(".maps");

struct task_struct {
	int pid;
	int tgid;
	struct task_struct *parent;
} CORE;

enum state { STATE_RUNNING = 0, STATE_DEAD = 16 };

const volatile u32 wanted = 42;
u32 seen;
u32 started = 1;
static u64 total;

#ifdef KCONFIG
extern const int LINUX_KERNEL_VERSION __attribute__((section(".kconfig"), weak));
#else
#define LINUX_KERNEL_VERSION 0x50400
#endif
extern const void bpf_prog_active __attribute__((section(".ksyms"), weak));
extern void bpf_task_release(struct task_struct *task) __attribute__((section(".ksyms"), weak));

static u64 (*get_pid)(void) = (void *)14;
static long (*read_kernel)(void *to, u32 size, const void *from) = (void *)113;

static __attribute__((noinline)) int count(struct task_struct *task)
{
	int pid = 0;
	read_kernel(&pid, sizeof(pid), &task->tgid);
	total += (u64)pid;
	return pid;
}

__attribute__((noinline)) int check(struct task_struct *task)
{
	return __builtin_preserve_field_info(task->parent, 2) && count(task) == (int)wanted;
}

SEC("kprobe/do_exit") int on_exit(struct task_struct *task)
{
	seen += started + (u32)get_pid();
	if (LINUX_KERNEL_VERSION > 0x50000 && &bpf_prog_active)
		bpf_task_release(task);
	return check(task) + (int)__builtin_preserve_type_info(*(struct task_struct *)0, 1)
		+ (int)__builtin_preserve_enum_value(*(enum state *)STATE_DEAD, 1);
}

SEC("xdp") int drop(void *context)
{
	return context ? 1 : 2;
}

char _license[] SEC("license") = "GPL";
