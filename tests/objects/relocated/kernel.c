struct s { long pad; int b; int a; };
struct t { long q; struct s y; long w; int z[4]; };
struct t v; struct s u;
