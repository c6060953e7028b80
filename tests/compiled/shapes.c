/* Structures, unions, bit-fields, arrays and names for them. */

typedef unsigned int u32;
typedef unsigned long long u64;

struct later;

enum color { RED = -1, GREEN = 0, BLUE = 2147483647 };

/* Values that need 64 bits. */
enum wide { LOW = 1, HIGH = 4294967301ULL };

union value {
	u64 whole;
	u32 halves[2];
	float real;
	double longer;
};

struct flags {
	unsigned int first : 3;
	int second : 7;
	u64 third : 40;
	_Bool on : 1;
};

struct shape {
	const char *name;
	volatile u32 count;
	enum color color;
	enum wide wide;
	union value value;
	struct flags flags;
	struct later *later;
	int (*area)(const struct shape *shape, u32 scale);
	struct shape *restrict next;
	u32 grid[3][5];
	struct {
		char tag;
		short code;
	} inner;
};

int area_of(const struct shape *shape, u32 scale)
{
	return shape ? (int)(shape->grid[1][2] * scale) : 0;
}
