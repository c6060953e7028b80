/* A program that is loaded: the examples read its table from program.btf. */

struct packet {
	unsigned int length : 24;
	unsigned int priority : 8;
	const char *data;
	struct packet *next;
};

typedef int (*handler)(struct packet *packet, unsigned int budget);

enum verdict { PASS, DROP, REDIRECT = 4 };

struct {
	int (*type)[2];
	int (*max_entries)[64];
} counts __attribute__((section(".maps")));

unsigned int total;
handler installed;

enum verdict handle(struct packet *packet)
{
	total += packet->length;
	return installed && installed(packet, total) ? DROP : PASS;
}
