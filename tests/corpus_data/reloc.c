/* Records of all kinds of CO-RE relocations, for the tables of kernel.c. */
#define CORE __attribute__((preserve_access_index))
#define FIELD(p, kind) __builtin_preserve_field_info(p, kind)
#define EXISTS(type) __builtin_preserve_type_info(*(type *)0, 0)
#define SIZE(type) __builtin_preserve_type_info(*(type *)0, 1)
#define MATCHES(type) __builtin_preserve_type_info(*(type *)0, 2)
#define LOCAL_ID(type) __builtin_btf_type_id(*(type *)0, 0)
#define TARGET_ID(type) __builtin_btf_type_id(*(type *)0, 1)
#define HAS(type, name) __builtin_preserve_enum_value(*(enum type *)name, 0)
#define VALUE(type, name) __builtin_preserve_enum_value(*(enum type *)name, 1)
#define SECTION(name) __attribute__((section(name), used))

typedef unsigned char u8;
typedef unsigned short u16;
typedef unsigned int u32;
typedef unsigned long long u64;

struct inner {
	int first;
	int second;
} CORE;

struct task {
	int pid;
	u64 time;
	struct inner inner;
	int list[4];
	struct {
		union {
			int left;
			u64 right;
		};
	};
	struct inner rows[2];
	u8 flag : 3;
	u32 wide : 11;
	int sign : 5;
	char name[16];
	struct task *parent;
} CORE;

/* A flavor: task of a later kernel. */
struct task___later {
	u64 moved;
	int tgid;
} CORE;

struct gone {
	int field;
} CORE;

enum color {
	RED = 1,
	GREEN = 2,
	BLUE = 3,
};

typedef struct inner inner_t;

SECTION("socket/fields") int fields(struct task *t)
{
	return t->pid + (int)t->time + t->inner.second + t->list[2] + t->left + (int)t->right + t->rows[1].first +
	       t->parent->pid;
}

SECTION("socket/sizes") u64 sizes(struct task *t)
{
	return FIELD(t->pid, 1) + FIELD(t->time, 1) + FIELD(t->name, 1) + FIELD(t->inner, 1) + FIELD(t->left, 1);
}

SECTION("socket/exist") u64 exist(struct task *t)
{
	struct task___later *later = (void *)t;

	return FIELD(t->pid, 2) + FIELD(later->moved, 2) + FIELD(later->tgid, 2) + FIELD(t->sign, 2) +
	       FIELD(((struct gone *)t)->field, 2);
}

SECTION("socket/bits") u64 bits(struct task *t)
{
	return FIELD(t->flag, 0) + FIELD(t->flag, 1) + FIELD(t->flag, 3) + FIELD(t->flag, 4) + FIELD(t->flag, 5) +
	       FIELD(t->wide, 0) + FIELD(t->wide, 1) + FIELD(t->wide, 4) + FIELD(t->wide, 5) + FIELD(t->sign, 3) +
	       FIELD(t->sign, 4) + FIELD(t->sign, 5);
}

SECTION("socket/types") u64 types(void)
{
	return EXISTS(struct task) + EXISTS(struct gone) + SIZE(struct task) + SIZE(inner_t) + LOCAL_ID(struct inner) +
	       TARGET_ID(struct inner) + EXISTS(enum color);
}

SECTION("socket/enums") u64 enums(void)
{
	return HAS(color, RED) + HAS(color, BLUE) + VALUE(color, RED) + VALUE(color, GREEN);
}

#ifdef MATCHING
SECTION("socket/match") u64 match(void)
{
	return MATCHES(struct inner) + MATCHES(struct task) + MATCHES(enum color);
}
#endif

/* What this kernel lacks: the program that reads it is never run. */
SECTION("socket/poison") u64 poison(struct task *t)
{
	struct task___later *later = (void *)t;

	return later->moved + SIZE(struct gone) + VALUE(color, BLUE);
}

char _license[] SECTION("license") = "GPL";
