/* Functions and variables that are hidden, and others that are not, made with clang -target bpf. */
#define SEC(name) __attribute__((section(name), used))
#define NOINLINE __attribute__((noinline))
#define HIDDEN __attribute__((visibility("hidden")))
/* clang has no internal visibility: it makes it hidden. */
#define INTERNAL(name) __asm__(".internal " #name)
#define PROTECTED __attribute__((visibility("protected")))

char _license[] SEC("license") = "GPL";

HIDDEN int hidden_count = 1;
INTERNAL(internal_count);
int internal_count;
PROTECTED int protected_count;
int seen_count = 2;
HIDDEN const volatile int hidden_limit = 3;
static volatile int own_count;

HIDDEN NOINLINE int hidden_step(int n) { return n + hidden_count++; }
INTERNAL(internal_step);
NOINLINE int internal_step(int n) { return n - internal_count++; }
HIDDEN NOINLINE __attribute__((weak)) int weak_step(int n) { return n * hidden_limit; }
PROTECTED NOINLINE int protected_step(int n) { return n ^ protected_count++; }
NOINLINE int seen_step(int n) { return n | seen_count++; }
static NOINLINE int own_step(int n) { return n & own_count++; }

SEC("socket") int seen_program(void *context)
{
    return hidden_step(1) + internal_step(2) + weak_step(3) + protected_step(4) + seen_step(5) + own_step(6);
}

HIDDEN SEC("socket") int hidden_program(void *context) { return hidden_step(7); }
