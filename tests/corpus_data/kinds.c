/* Types of every kind that C has, as structures with holes and bit-fields, and functions of every linkage. */
typedef unsigned char u8;
typedef unsigned int u32;
typedef unsigned long long u64;

#if defined(__clang__) && __clang_major__ >= 14
#define TYPE_TAG(text) __attribute__((btf_type_tag(text)))
#define DECL_TAG(text) __attribute__((btf_decl_tag(text)))
#else
#define TYPE_TAG(text)
#define DECL_TAG(text)
#endif

enum color { RED, GREEN = 5, BLUE };
enum level { LOW = -2, MID, HIGH = 7 };
#ifdef ENUM64
enum wide { WIDE_ONE = 1, WIDE_MAX = 0x123456789abcdef0ull };
enum deep { DEEP_MIN = -0x123456789abcdefll, DEEP_ONE = 1 };
#endif

struct opaque;
union hidden;

struct node {
	struct node *next;
	const char *name;
	u8 tag;
	u64 value;
};

union number {
	u32 word;
	u8 bytes[4];
	struct { short low, high; } halves;
};

struct bits {
	u32 a : 1;
	u32 b : 3;
	int c : 5;
	u32 whole;
	u64 d : 40;
	u64 e : 3;
};

struct everything {
	char letter;
	long number;
	_Bool flag;
	signed char small;
	enum color color;
	enum level level;
#ifdef ENUM64
	enum wide wide;
	enum deep deep;
#endif
	struct node node;
	union number either;
	struct { int x; char y; } point;
	union { int i; long l; };
	struct { u8 first; struct { u8 inner; u64 last; } deeper; };
	enum { NONE, SOME = 3 } amount;
	int grid[2][3];
	struct { char key; int value; } pairs[2];
	int (*call)(struct node *, const char *, ...);
	void (*handlers[2])(int);
	volatile int *volatile_pointer;
	const void *const fixed;
	char *restrict alone;
	struct opaque *opaque;
	union hidden *hidden;
	void *nothing;
	struct bits bits;
	double real;
	char end;
	int tail[];
};

struct tagged {
	int TYPE_TAG("user") *from_user;
	int plain DECL_TAG("member");
} DECL_TAG("structure");

u32 counter;
static u32 hidden_counter;
const volatile u32 limit = 7;
u64 table[4] = { 1, 2, 3, 4 };
struct everything *every;
struct tagged tagged DECL_TAG("variable");
float ratio = 1.5f;
extern u32 from_elsewhere;

extern int elsewhere(struct node *node, u32 mask);

static __attribute__((noinline)) int shared(struct node *node, u32 mask)
{
	hidden_counter += mask;
	return node ? (int)node->value + (int)hidden_counter : (int)limit;
}

__attribute__((noinline)) int visible(struct node *node DECL_TAG("argument"), u32 mask)
{
	return shared(node, mask) + (int)mask;
}

int entry(struct node *node)
{
	counter += (u32)visible(node, 3) + (u32)shared(node, 4);
	every = 0;
	ratio = 0;
	tagged.plain = 1;
	return (int)table[counter & 3] + elsewhere(node, from_elsewhere);
}
