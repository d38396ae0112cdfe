#include "haft.h"
static unsigned depth, deepest;
static unsigned ackermann(unsigned m, unsigned n) {
    if (++depth > deepest)
        deepest = depth;
    unsigned r = m == 0 ? n + 1 : n == 0 ? ackermann(m - 1, 1) : ackermann(m - 1, ackermann(m, n - 1));
    depth--;
    return r;
}
int main(void) {
    haft_out(ackermann(2, 3));
    haft_out(deepest);
    return 0;
}
