#include "haft.h"
static unsigned from_gray(unsigned g) {
    for (unsigned shift = 1; shift < 32; shift *= 2)
        g ^= g >> shift;
    return g;
}
int main(void) {
    for (unsigned i = 0; i < 16; i++) {
        unsigned g = i ^ (i >> 1);
        haft_out(g);
        if (from_gray(g) != i)
            return 1;
    }
    return 0;
}
