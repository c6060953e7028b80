/* Variables in several sections, functions of each linkage, and a map-like section. */

#define SEC(name) __attribute__((section(name)))
#define TAG(name) __attribute__((btf_decl_tag(name)))
#define TYPE_TAG(name) __attribute__((btf_type_tag(name)))

typedef unsigned int u32;

struct key {
	u32 id TAG("first");
	u32 lane : 4;
};

struct {
	int (*type)[2];
	int (*max_entries)[64];
	struct key *key;
	u32 *value;
} counts SEC(".maps");

extern const int limit SEC(".ksyms");
extern int helper(struct key *key, const void *data) SEC(".ksyms");

static volatile u32 calls;
u32 total TAG("sum") = 7;
int TYPE_TAG("mine") *owner;
union later;
union later *waiting;
const volatile char mode = 'a';
char license[] SEC("terms") = "GPL";

static __attribute__((noinline)) int add(int left, int right)
{
	calls += 1;
	return left + right;
}

SEC("events/entry") int entry(struct key *key)
{
	return add((int)total, helper(key, &counts)) + limit + mode;
}
