/* Three kernels: -DKERNEL=1 as the program knows it, 2 with everything elsewhere, 3 with other types and names. */
typedef unsigned char u8;
typedef unsigned short u16;
typedef unsigned int u32;
typedef unsigned long long u64;

#if KERNEL == 1
struct inner { int first; int second; };
struct task {
	int pid; u64 time; struct inner inner; int list[4]; struct { union { int left; u64 right; }; };
	struct inner rows[2]; u8 flag : 3; u32 wide : 11; int sign : 5; char name[16]; struct task *parent;
};
enum color { RED = 1, GREEN = 2, BLUE = 3 };
#elif KERNEL == 2
struct inner { long pad; int second; int first; };
struct task {
	struct task *parent; u8 flag : 1; int sign : 9; u32 wide : 13; char name[32]; u64 time; int list[8];
	union { struct { u64 right; }; struct { int before; union { int left; }; }; };
	struct inner rows[5]; struct inner inner; int pid; u64 moved; int tgid;
};
enum color { GREEN = -5, RED = 70 };
#else
struct inner { short first; short second; };
struct task {
	u64 pid; u32 time; union { struct inner inner; u64 rest; }; short list[4]; u16 left; u32 right;
	struct inner rows[3]; u64 flag; u32 wide; int sign : 20; char name[8]; struct task *parent; u64 moved;
};
enum color { RED = 0x10, GREEN, BLUE };
#endif

typedef struct inner inner_t;
struct task all;
inner_t one;
enum color shade;
