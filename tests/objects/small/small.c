struct pair { int left; int right; };
__attribute__((section("maps"), used)) int state[2] = { 7, 9 };
static int hidden __attribute__((used));
__attribute__((noinline)) int chosen(const struct pair *pair) { return pair->left; }
__attribute__((section("prog"))) int first(const struct pair *pair) { return chosen(pair) + state[0]; }
char _license[] __attribute__((section("license"))) = "GPL";
