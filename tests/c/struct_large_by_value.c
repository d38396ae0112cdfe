#include "haft.h"
struct table { int64_t cells[6]; int used; };
static struct table with(struct table t, int64_t v) {
    t.cells[t.used++] = v;
    return t;
}
static int64_t total(struct table t) {
    int64_t sum = 0;
    while (t.used > 0)
        sum += t.cells[--t.used];
    return sum;
}
int main(void) {
    struct table t = {.used = 0};
    for (int k = 1; k <= 6; k++)
        t = with(t, k * k);
    haft_out((uint64_t)total(t));
    haft_out(t.used);
    return 0;
}
