#include "haft.h"
typedef int32_t fixed; /* 16 bits after the point */
static fixed times(fixed a, fixed b) { return (fixed)(((int64_t)a * b) >> 16); }
static fixed over(fixed a, fixed b) { return (fixed)(((int64_t)a * 65536) / b); }
int main(void) {
    fixed x = 2 << 16, r = x;
    for (int i = 0; i < 8; i++)
        r = (r + over(x, r)) / 2;
    haft_out(r);
    haft_out(times(r, r));
    return 0;
}
