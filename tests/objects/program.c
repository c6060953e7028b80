// A program with what a table's rewrite looks at: variables in .data, .bss and .rodata, a map, a symbol of the kernel
// and a function of it in .ksyms, a float, tags of declarations and of types, and a global function beside a static one.
typedef unsigned int u32;
typedef unsigned long long u64;

#define SEC(name) __attribute__((section(name), used))
#define TAG(name) __attribute__((btf_decl_tag(name)))
#define TYPE_TAG(name) __attribute__((btf_type_tag(name)))
#define CORE __attribute__((preserve_access_index))

struct task { int pid; float share; int TYPE_TAG("user") *word; } CORE;

extern const int bpf_prog_active __attribute__((section(".ksyms")));
extern void bpf_rcu_read_lock(void) __attribute__((section(".ksyms")));

struct { int (*type)[1]; u32 *key; u64 *value; } counts SEC(".maps");

u64 calls = 3;
u32 zeros;
static volatile u32 hidden;
const volatile u32 limit = 7;
char _license[] SEC("license") = "GPL";

__attribute__((noinline)) int add(int left TAG("left"), int right) { return left + right + hidden; }

static __attribute__((noinline)) int twice(int n) { hidden += n; return n + n; }

SEC("socket") int first(struct task *task)
{
    bpf_rcu_read_lock();
    calls += bpf_prog_active;
    zeros = limit;
    return add(task->pid, twice((int)(u64)task->word));
}

SEC("tp/second") int second(struct task *task) { return twice(task->pid); }
