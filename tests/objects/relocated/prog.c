struct s { int a; int b; } __attribute__((preserve_access_index));
struct t { int x; struct s y; int z[4]; } __attribute__((preserve_access_index));
__attribute__((section("tc"))) int first(struct s *p) { return p->b; }
__attribute__((section("xdp"))) int second(struct t *p) { return p->y.b + p->z[2] + __builtin_preserve_field_info(p->x, 2); }
char _license[] __attribute__((section("license"))) = "GPL";
