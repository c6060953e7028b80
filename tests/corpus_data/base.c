/* A base table of some hundred types, and the split tables of three modules over it: -DMODULE=1, 2 or 3. */
#include <linux/bpf.h>
#include <linux/if_packet.h>
#include <linux/in6.h>
#include <linux/tcp.h>

enum state { IDLE, BUSY, DONE = -1 };

struct device {
	const char *name;
	enum state state;
	struct device *parent;
	int (*probe)(struct device *device, int flags);
	unsigned int is_up : 1, speed : 7;
};

typedef struct device *device_p;

#if MODULE == 1
/* Structures with members of types of the base and of their own, and a name that the base has too. */
enum mode { FAST = 1, SLOW };
struct port {
	struct device device;
	struct tcphdr header;
	enum mode mode;
	struct port *next[4];
};
struct port port;
int open_port(struct port *port, enum mode mode) { return port->mode == mode; }
#elif MODULE == 2
/* A structure of the base in another form, and 64-bit values. */
enum wide { LARGE = 0x123456789abcULL, SMALL = 1 };
union cell { struct sockaddr_ll link; enum wide wide; device_p device; };
union cell cells[3];
typedef int (*opener)(union cell *, ...);
int open_cell(union cell *cell, opener open) { return open(cell, cells); }
#elif MODULE == 3
/* No structure of its own. */
int count_devices(device_p first) { return first->parent ? count_devices(first->parent) + 1 : 1; }
#else
device_p first;
struct tcphdr header;
struct sockaddr_ll link;
struct in6_flowlabel_req label;
#endif
