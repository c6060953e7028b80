/* A small program whose sections a test holds. */

enum state { OFF, ON = 5 };

struct pair {
	unsigned int left : 4;
	unsigned int right : 28;
	enum state *state;
};

typedef int (*combine)(const struct pair *pair, int);

volatile combine chosen __attribute__((section(".maps")));

int first(const struct pair *pair)
{
	return chosen ? chosen(pair, 3) : 0;
}
