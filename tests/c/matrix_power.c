#include "haft.h"
#define MODULUS 1000000007u
struct two { uint64_t a, b, c, d; };
static struct two times(struct two x, struct two y) {
    return (struct two){
        (x.a * y.a + x.b * y.c) % MODULUS, (x.a * y.b + x.b * y.d) % MODULUS,
        (x.c * y.a + x.d * y.c) % MODULUS, (x.c * y.b + x.d * y.d) % MODULUS,
    };
}
int main(void) {
    struct two r = {1, 0, 0, 1}, f = {1, 1, 1, 0};
    for (uint64_t n = 1000000; n; n >>= 1) {
        if (n & 1)
            r = times(r, f);
        f = times(f, f);
    }
    haft_out(r.b);
    return 0;
}
