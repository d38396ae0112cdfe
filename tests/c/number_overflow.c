#include "haft.h"
static int add(int a, int b, int *sum) { return __builtin_add_overflow(a, b, sum); }
static int times(long a, long b, long *product) { return __builtin_mul_overflow(a, b, product); }
static unsigned less(unsigned a, unsigned b) { return a > b ? a - b : 0; }
int main(void) {
    int s;
    long p;
    unsigned u;
    haft_out(add(2000000000, 2000000000, &s));
    haft_out((uint32_t)s);
    haft_out(add(-5, 3, &s));
    haft_out((uint32_t)s);
    haft_out(times(1l << 40, 1l << 30, &p));
    haft_out(times(-3, 1l << 40, &p));
    haft_out((uint64_t)p);
    haft_out(times(-1, (-0x7fffffffffffffffl - 1), &p));
    haft_out(__builtin_sub_overflow(3u, 5u, &u));
    haft_out(u);
    haft_out(less(9, 4) + less(4, 9));
    return 0;
}
