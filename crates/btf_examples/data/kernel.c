/* What stands for a kernel: the examples read its table from kernel.btf. */

typedef unsigned int u32;

struct packet {
	struct packet *next;
	u32 length;
	const void *data;
};

typedef int (*handler)(struct packet *packet, const u32 budget);

enum verdict { PASS, REDIRECT, DROP };

handler handlers[4];

enum verdict run(struct packet *packet, u32 index)
{
	return handlers[index](packet, 64) ? DROP : PASS;
}
