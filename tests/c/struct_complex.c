#include "haft.h"
struct complex { int64_t re, im; };
static struct complex times(struct complex a, struct complex b) {
    struct complex c = {a.re * b.re - a.im * b.im, a.re * b.im + a.im * b.re};
    return c;
}
static struct complex chosen(int first, struct complex a, struct complex b) { return first ? a : b; }
int main(void) {
    struct complex z = {1, 0}, w = {2, -1};
    for (int k = 0; k < 8; k++) {
        z = times(z, chosen(k % 2, w, (struct complex){0, 1}));
        haft_out((uint64_t)z.re);
        haft_out((uint64_t)z.im);
    }
    return 0;
}
